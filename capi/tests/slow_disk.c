/*
 * For LD_PRELOAD, by status.py: a read past the machine's cache of a file whose name ends with SLOW_DISK takes six tenths of a second more.
 */
#define _GNU_SOURCE
#include <dlfcn.h>
#include <fcntl.h>
#include <stdio.h>
#include <stdlib.h>
#include <string.h>
#include <time.h>
#include <unistd.h>

static void rest(int file) {
    const struct timespec length = {0, 600000000};
    const char *slow = getenv("SLOW_DISK");
    char link[64], path[4096];
    ssize_t end;
    snprintf(link, sizeof link, "/proc/self/fd/%d", file);
    end = readlink(link, path, sizeof path - 1);
    if (!slow || end < (ssize_t)strlen(slow) || !(fcntl(file, F_GETFL) & O_DIRECT))
        return;
    path[end] = '\0';
    if (strcmp(path + end - strlen(slow), slow) == 0)
        nanosleep(&length, NULL);
}

ssize_t pread(int file, void *into, size_t length, off_t at) {
    ssize_t (*real)(int, void *, size_t, off_t) = (ssize_t (*)(int, void *, size_t, off_t))dlsym(RTLD_NEXT, "pread");
    rest(file);
    return real(file, into, length, at);
}
