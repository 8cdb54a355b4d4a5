/*
 * Devices that go and come back, for a program that is linked with -Wl,--wrap=open,--wrap=pread,--wrap=pwrite,--wrap=fdatasync. While the file that the variable
 * GONE names is there, an image cannot be opened, and each call on one that is open fails, from then on for ever.
 */
#define _GNU_SOURCE
#include <errno.h>
#include <fcntl.h>
#include <stdarg.h>
#include <stdbool.h>
#include <stdlib.h>
#include <string.h>
#include <unistd.h>

int __real_open(const char *path, int flags, ...);
ssize_t __real_pread(int file, void *into, size_t length, off_t at);
ssize_t __real_pwrite(int file, const void *from, size_t length, off_t at);
int __real_fdatasync(int file);

enum { FILES = 1024 };
static bool is_dead[FILES];

static bool fails(void) {
    const char *gone = getenv("GONE");
    errno = EIO;
    return gone && access(gone, F_OK) == 0;
}

static bool is_gone(int file) {
    is_dead[file % FILES] |= fails();
    errno = EIO;
    return is_dead[file % FILES];
}

int __wrap_open(const char *path, int flags, ...) {
    mode_t mode = 0;
    int file;
    va_list rest;
    va_start(rest, flags);
    if (flags & O_CREAT)
        mode = va_arg(rest, mode_t);
    va_end(rest);
    if (strstr(path, ".img") && fails())
        return -1;
    file = __real_open(path, flags, mode);
    if (file >= 0)
        is_dead[file % FILES] = false;
    return file;
}

ssize_t __wrap_pread(int file, void *into, size_t length, off_t at) { return is_gone(file) ? -1 : __real_pread(file, into, length, at); }
ssize_t __wrap_pwrite(int file, const void *from, size_t length, off_t at) { return is_gone(file) ? -1 : __real_pwrite(file, from, length, at); }
int __wrap_fdatasync(int file) { return is_gone(file) ? -1 : __real_fdatasync(file); }
