/* Stands between a program and its devices: preloaded, it moves few octets at a call and has one fail.

   READ, WRITE            the most octets of a read of standard input, and of a write to standard output
   FAIL_READ, FAIL_WRITE  the number of the call that fails, from 1; none where it is absent
   NOTHING                where it is set, the write that fails takes none of its octets, and answers no error
   MARK                   the file that is made when a call fails */
#define _GNU_SOURCE
#include <dlfcn.h>
#include <errno.h>
#include <fcntl.h>
#include <stdlib.h>
#include <unistd.h>

static long number(const char *name) {
    const char *text = getenv(name);
    return text ? atol(text) : 0;
}

/* Whether this call is the one that fails. */
static int fails(const char *name, long *calls) {
    const char *mark = getenv("MARK");
    if (++*calls != number(name)) return 0;
    if (mark) close(creat(mark, 0600));
    return 1;
}

static size_t least(const char *name, size_t length) {
    size_t most = (size_t)number(name);
    return most && most < length ? most : length;
}

ssize_t read(int file, void *octets, size_t length) {
    static ssize_t (*next)(int, void *, size_t);
    static long calls;
    if (!next) next = (ssize_t (*)(int, void *, size_t))dlsym(RTLD_NEXT, "read");
    if (file != 0) return next(file, octets, length);
    if (fails("FAIL_READ", &calls)) {
        errno = getenv("ERROR") ? (int)number("ERROR") : EIO;
        return -1;
    }
    return next(file, octets, least("READ", length));
}

ssize_t write(int file, const void *octets, size_t length) {
    static ssize_t (*next)(int, const void *, size_t);
    static long calls;
    if (!next) next = (ssize_t (*)(int, const void *, size_t))dlsym(RTLD_NEXT, "write");
    if (file != 1) return next(file, octets, length);
    if (fails("FAIL_WRITE", &calls)) {
        errno = ENOSPC;
        return getenv("NOTHING") ? 0 : -1;
    }
    return next(file, octets, least("WRITE", length));
}
