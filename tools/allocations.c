/* Stands between a program and its memory: it is preloaded, refuses the allocations that it is asked to, and keeps an account.

   REFUSED  the number of the allocation that is refused, from 1; none where it is absent
   ALL      where it is set, each later allocation is refused too
   MARK     the file that is made at the first refusal
   ACCOUNT  the file for the account: a line at each line on standard error that begins with 'account ' or with 'set up', and one at the
            end

   A line of the account has the program's line; how often memory was asked for so far, refused or not; the allocations and the frees so
   far; the octets that are live; and the most that were live since the line before. */
#define _GNU_SOURCE
#include <dlfcn.h>
#include <fcntl.h>
#include <stdint.h>
#include <stdio.h>
#include <stdlib.h>
#include <string.h>
#include <unistd.h>

/* What stands in front of each block; a block keeps the alignment of malloc. */
struct head {
    size_t size;
    uint64_t magic;
};

#define MAGIC UINT64_C(0x5ed6ec415e1b10c5)

static long refused;
static int refuses_all;
static size_t asked, allocations, frees, live, peak;

__attribute__((constructor)) static void begin(void) {
    const char *number = getenv("REFUSED");
    refused = number ? atol(number) : 0;
    refuses_all = getenv("ALL") != NULL;
}

static void *real(const char *name) {
    return dlsym(RTLD_NEXT, name);
}

static int is_refused(void) {
    if (refused > 1) refused--;
    else if (refused == 1) {
        const char *mark = getenv("MARK");
        refused = refuses_all;
        if (mark) close(creat(mark, 0600));
        return 1;
    }
    return 0;
}

static void *counted(struct head *head, size_t size) {
    if (!head) return NULL;
    head->size = size;
    head->magic = MAGIC;
    live += size;
    if (live > peak) peak = live;
    return head + 1;
}

static struct head *head_of(void *place) {
    struct head *head = (struct head *)place - 1;
    return head->magic == MAGIC ? head : NULL;
}

static void *made(size_t size) {
    static void *(*next)(size_t);
    if (!next) next = real("malloc");
    if (size > SIZE_MAX - sizeof(struct head)) return NULL;
    allocations++;
    return counted(next(size + sizeof(struct head)), size);
}

void *malloc(size_t size) {
    asked++;
    return is_refused() ? NULL : made(size);
}

/* The C library's own; no program here calls it. */
void *calloc(size_t count, size_t size) {
    void *place;
    if (size && count > SIZE_MAX / size) return NULL;
    place = made(count * size);
    return place ? memset(place, 0, count * size) : NULL;
}

void free(void *place) {
    static void (*next)(void *);
    struct head *head;
    if (!next) next = real("free");
    if (!place) return;
    head = head_of(place);
    if (!head) {
        next(place);
        return;
    }
    frees++;
    live -= head->size;
    head->magic = 0;
    next(head);
}

void *realloc(void *place, size_t size) {
    static void *(*next)(void *, size_t);
    struct head *head, *moved;
    size_t old;
    if (!next) next = real("realloc");
    if (!place) return malloc(size);
    head = head_of(place);
    if (!head) return next(place, size);
    old = head->size;
    if (size > old) asked++;
    if (size > SIZE_MAX - sizeof(struct head) || is_refused()) return NULL;
    moved = next(head, size + sizeof(struct head));
    if (!moved) return NULL;
    live -= old;
    return counted(moved, size);
}

/* Adds a line to the account. */
static void note(const char *line, size_t length) {
    static ssize_t (*next)(int, const void *, size_t);
    const char *name = getenv("ACCOUNT");
    char text[512];
    int count, file;
    if (!name) return;
    if (!next) next = real("write");
    count = snprintf(text, sizeof text, "%.*s: asked %zu allocations %zu frees %zu live %zu peak %zu\n", (int)length, line, asked, allocations,
                     frees, live, peak);
    file = open(name, O_WRONLY | O_CREAT | O_APPEND, 0600);
    if (file >= 0 && next(file, text, (size_t)count) == count) peak = live;
    close(file);
}

/* Looks at what goes to standard error. */
static void look_at(const char *octets, size_t length) {
    const char *end = memchr(octets, '\n', length);
    size_t count = end ? (size_t)(end - octets) : length;
    if (count > 8 && count < 256 && !memcmp(octets, "account ", 8)) note(octets + 8, count - 8);
    else if (count >= 6 && !memcmp(octets, "set up", 6)) note("set up", 6);
}

ssize_t write(int file, const void *octets, size_t length) {
    static ssize_t (*next)(int, const void *, size_t);
    if (!next) next = real("write");
    if (file == 2) look_at(octets, length);
    return next(file, octets, length);
}

__attribute__((destructor)) static void finish(void) {
    note("end", 3);
}
