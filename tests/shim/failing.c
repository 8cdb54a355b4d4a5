/* One call of a process fails, or the process stops before it. For LD_PRELOAD; tests/renew.py builds it with `cc -shared -fPIC`.
 *
 * FAIL_AT=N       of the opens, locks, reads, writes, cuts, syncs, renames, unlinks and links of files below the folder in which the process was started the
 *                 N-th fails, counted from 1; and of the calls that follow the links to such a folder. A write leaves the first half of its bytes.
 * FAIL_STOP=yes   it does not fail: before it the process stops, as by SIGSTOP
 * FAIL_TOLD=FILE  which one that was: its name and the path from that folder, in a line
 */
#define _GNU_SOURCE
#include <dlfcn.h>
#include <errno.h>
#include <fcntl.h>
#include <signal.h>
#include <stdarg.h>
#include <stdio.h>
#include <stdlib.h>
#include <string.h>
#include <sys/file.h>
#include <unistd.h>

#define MOST_FILES 1024

/* By descriptor: its path from the folder in which the process was started, or nothing. */
static char paths[MOST_FILES][256];
static char start[4096];
static int left;

#define REAL(name) ((__typeof__(&name))dlsym(RTLD_NEXT, #name))

__attribute__((constructor)) static void begin(void) {
    left = getenv("FAIL_AT") ? atoi(getenv("FAIL_AT")) : 0;
    if (!getcwd(start, sizeof start))
        *start = 0;
}

/* The path from the folder in which the process was started, or nothing where it leads elsewhere. */
static const char *from_start(const char *path) {
    size_t length = strlen(start);
    if (*path != '/')
        return path;
    return length && !strncmp(path, start, length) && path[length] == '/' ? path + length + 1 : "";
}

static const char *path_of(int fd) {
    return fd >= 0 && fd < MOST_FILES ? paths[fd] : "";
}

/* Whether the call of this name is the one that fails. */
static int fails(const char *name, const char *path) {
    if (!*path || !left || --left)
        return 0;
    FILE *told = fopen(getenv("FAIL_TOLD"), "w");
    fprintf(told, "%s %s\n", name, path);
    fclose(told);
    if (getenv("FAIL_STOP")) {
        raise(SIGSTOP);
        return 0;
    }
    errno = EIO;
    return 1;
}

int open(const char *path, int flags, ...) {
    va_list rest;
    va_start(rest, flags);
    int mode = flags & O_CREAT ? va_arg(rest, int) : 0;
    va_end(rest);
    if (fails("open", from_start(path)))
        return -1;
    int fd = REAL(open)(path, flags, mode);
    if (fd >= 0 && fd < MOST_FILES)
        snprintf(paths[fd], sizeof paths[fd], "%s", from_start(path));
    return fd;
}

int flock(int fd, int operation) {
    return fails("flock", path_of(fd)) ? -1 : REAL(flock)(fd, operation);
}

ssize_t read(int fd, void *into, size_t length) {
    return fails("read", path_of(fd)) ? -1 : REAL(read)(fd, into, length);
}

ssize_t pread(int fd, void *into, size_t length, off_t at) {
    return fails("pread", path_of(fd)) ? -1 : REAL(pread)(fd, into, length, at);
}

ssize_t write(int fd, const void *from, size_t length) {
    if (!fails("write", path_of(fd)))
        return REAL(write)(fd, from, length);
    REAL(write)(fd, from, length / 2);
    errno = EIO;
    return -1;
}

ssize_t pwrite(int fd, const void *from, size_t length, off_t at) {
    if (!fails("pwrite", path_of(fd)))
        return REAL(pwrite)(fd, from, length, at);
    REAL(pwrite)(fd, from, length / 2, at);
    errno = EIO;
    return -1;
}

int ftruncate(int fd, off_t length) {
    return fails("ftruncate", path_of(fd)) ? -1 : REAL(ftruncate)(fd, length);
}

int fdatasync(int fd) {
    return fails("fdatasync", path_of(fd)) ? -1 : REAL(fdatasync)(fd);
}

int fsync(int fd) {
    return fails("fsync", path_of(fd)) ? -1 : REAL(fsync)(fd);
}

int rename(const char *from, const char *to) {
    return fails("rename", from_start(from)) ? -1 : REAL(rename)(from, to);
}

int unlink(const char *path) {
    return fails("unlink", from_start(path)) ? -1 : REAL(unlink)(path);
}

int link(const char *from, const char *to) {
    return fails("link", from_start(to)) ? -1 : REAL(link)(from, to);
}

char *realpath(const char *path, char *into) {
    return fails("realpath", from_start(path)) ? NULL : REAL(realpath)(path, into);
}
