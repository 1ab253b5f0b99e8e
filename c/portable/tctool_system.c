/* What tctool asks of its system (tctool_system.h), for POSIX and for Windows, and its main. Tested, not proved: on Linux,
 * and as a program for Windows under wine (c/check_portable). */
#ifndef _WIN32
#define _POSIX_C_SOURCE 200809L
#define _FILE_OFFSET_BITS 64
#endif
#include "tctool_system.h"

#include <errno.h>
#include <fcntl.h>
#include <limits.h>
#include <signal.h>
#include <stdlib.h>
#include <string.h>

#ifdef _WIN32
#include <io.h>
#include <windows.h>

#include <shellapi.h>
#else
#include <unistd.h>
#endif

uint32_t tctool_error;
static int word_count;
static char **words;

/* An error as Linux numbers it, 5 for one that the program says nothing of. */
static uint32_t number_of(int error)
{
    switch (error) {
    case ENOENT: return 2;
    case EINTR: return 4;
    case EACCES: return 13;
    case ENOTDIR: return 20;
    case EISDIR: return 21;
    case EINVAL: return 22;
    case ENAMETOOLONG: return 36;
    case ELOOP: return 40;
    default: return 5;
    }
}

/* Keeps why a call failed, and returns -1. */
static int failed(int error)
{
    tctool_error = number_of(error);
    return -1;
}

int64_t tctool_word(uint64_t place, unsigned char *to, uint64_t room)
{
    size_t count;
    if (place >= (uint64_t)word_count) return -1;
    count = strlen(words[place]);
    if (count > room) return -2;
    memcpy(to, words[place], count);
    return (int64_t)count;
}

#ifdef _WIN32
enum { MOST = 1 << 30 };

/* Why a file was not opened, as POSIX has it. */
static int why_of(DWORD error)
{
    switch (error) {
    case ERROR_FILE_NOT_FOUND:
    case ERROR_PATH_NOT_FOUND: return ENOENT;
    case ERROR_ACCESS_DENIED: return EACCES;
    case ERROR_DIRECTORY: return ENOTDIR;
    case ERROR_INVALID_NAME:
    case ERROR_BAD_PATHNAME:
    case ERROR_FILENAME_EXCED_RANGE: return ENAMETOOLONG;
    default: return EIO;
    }
}

/* The name is UTF-8; Windows takes UTF-16. A folder is opened too, and then not read, as on POSIX. */
int32_t tctool_open(const char *name, uint32_t flags)
{
    wchar_t *wide;
    HANDLE handle = INVALID_HANDLE_VALUE;
    int file = -1;
    const int count = MultiByteToWideChar(CP_UTF8, MB_ERR_INVALID_CHARS, name, -1, NULL, 0);
    if ((flags & 3) != 0 || count <= 0 || (wide = malloc(sizeof *wide * (size_t)count)) == NULL) return failed(EIO);
    if (MultiByteToWideChar(CP_UTF8, MB_ERR_INVALID_CHARS, name, -1, wide, count) > 0) {
        handle = CreateFileW(wide, GENERIC_READ, FILE_SHARE_READ | FILE_SHARE_WRITE | FILE_SHARE_DELETE, NULL,
            OPEN_EXISTING, FILE_FLAG_BACKUP_SEMANTICS, NULL);
    }
    free(wide);
    if (handle == INVALID_HANDLE_VALUE) return failed(count > MAX_PATH ? ENAMETOOLONG : why_of(GetLastError()));
    file = _open_osfhandle((intptr_t)handle, _O_RDONLY | _O_BINARY);
    if (file < 0) CloseHandle(handle);
    return file >= 0 ? file : failed(errno);
}

int32_t tctool_close(int file)
{
    return _close(file) == 0 ? 0 : failed(errno);
}

int64_t tctool_read(int file, unsigned char *to, uint64_t count)
{
    const int got = _read(file, to, count < MOST ? (unsigned)count : MOST);
    return got >= 0 ? got : failed(errno == EINVAL ? EISDIR : errno); /* (a folder is opened, and then not read) */
}

int64_t tctool_write(int file, const unsigned char *from, uint64_t count)
{
    const int got = _write(file, from, count < MOST ? (unsigned)count : MOST);
    return got >= 0 ? got : failed(errno);
}

int64_t tctool_end(int file)
{
    const __int64 end = _lseeki64(file, 0, SEEK_END);
    return end >= 0 ? end : failed(errno);
}

int32_t tctool_is_terminal(int file)
{
    return _isatty(file) != 0;
}

/* The words in UTF-8. What is no Unicode is the replacement character there, which is in no name of a file. */
static char **in_utf8(wchar_t **wide, int count)
{
    char **found = calloc((size_t)count + 1, sizeof *found);
    for (int k = 0; found != NULL && k < count; k++) {
        const int size = WideCharToMultiByte(CP_UTF8, 0, wide[k], -1, NULL, 0, NULL, NULL);
        if (size <= 0 || (found[k] = malloc((size_t)size)) == NULL) return NULL;
        WideCharToMultiByte(CP_UTF8, 0, wide[k], -1, found[k], size, NULL, NULL);
    }
    return found;
}

int main(void)
{
    static char name[] = "tctool";
    wchar_t **wide = CommandLineToArgvW(GetCommandLineW(), &word_count);
    if (wide == NULL || word_count < 1 || (words = in_utf8(wide, word_count)) == NULL) return 3;
    words[0] = name; /* (usage says what stands after the last slash of a name, and here are backslashes) */
    for (int k = 0; k < 3; k++) _setmode(k, _O_BINARY);
    return tctool_program();
}
#else
int32_t tctool_open(const char *name, uint32_t flags)
{
    const int file = (flags & 3) == 0 ? open(name, O_RDONLY | O_CLOEXEC) : failed(EIO);
    return file >= 0 ? file : failed(errno);
}

int32_t tctool_close(int file)
{
    return close(file) == 0 ? 0 : failed(errno);
}

int64_t tctool_read(int file, unsigned char *to, uint64_t count)
{
    const ssize_t got = read(file, to, count < SSIZE_MAX ? (size_t)count : SSIZE_MAX);
    return got >= 0 ? got : failed(errno);
}

int64_t tctool_write(int file, const unsigned char *from, uint64_t count)
{
    const ssize_t got = write(file, from, count < SSIZE_MAX ? (size_t)count : SSIZE_MAX);
    return got >= 0 ? got : failed(errno);
}

int64_t tctool_end(int file)
{
    const off_t end = lseek(file, 0, SEEK_END);
    return end >= 0 ? end : failed(errno);
}

int32_t tctool_is_terminal(int file)
{
    return isatty(file) != 0;
}

int main(int count, char **given)
{
    word_count = count;
    words = given;
    signal(SIGPIPE, SIG_IGN); /* (a write to a pipe that nobody reads fails, and the program says so) */
    return tctool_program();
}
#endif
