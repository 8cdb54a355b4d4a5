/*
 * Stands between the library and its images, in a program that is linked with the archive and with
 *
 *   -Wl,--wrap=open,--wrap=pread,--wrap=pwrite,--wrap=fdatasync,--wrap=nanosleep,--wrap=clock_gettime
 *
 * A device call is one of the first four on an image. No machine loses power in these tests, so a sync is no more than a pause, and they
 * are as quick on each disk.
 */
#include "device_faults.h"

#include <errno.h>
#include <fcntl.h>
#include <signal.h>
#include <stdarg.h>
#include <string.h>
#include <sys/types.h>
#include <time.h>

int __real_open(const char *path, int flags, ...);
ssize_t __real_pread(int file, void *into, size_t length, off_t at);
ssize_t __real_pwrite(int file, const void *from, size_t length, off_t at);
int __real_nanosleep(const struct timespec *length, struct timespec *left);
int __real_clock_gettime(clockid_t clock, struct timespec *now);

enum { MOST_FILES = 4096 };

static struct {
    bool is_image, is_written; /* written since the last sync */
} files[MOST_FILES]; /* by descriptor */
static enum { NONE, FAILURE, DEATH } fault = NONE;
static long calls_left;
static bool was_due;
static struct timespec skipped; /* so much of the clock */
static bool skips_all;
static struct timespec sync_length;

static void begin_faults(int which, long calls) {
    fault = which;
    calls_left = calls;
    was_due = false;
}

void fail_after(long calls) { begin_faults(FAILURE, calls); }
void die_after(long calls) { begin_faults(DEATH, calls); }

void skip_sleeps(bool skips) { skips_all = skips; }

void set_sync(long microseconds) { sync_length.tv_nsec = microseconds * 1000; }

bool end_faults(void) {
    fault = NONE;
    return was_due;
}

static bool fails(void) {
    if (fault == NONE || calls_left-- > 0)
        return false;
    if (fault == DEATH)
        raise(SIGKILL);
    calls_left = 0;
    was_due = true;
    errno = EIO;
    return true;
}

static bool is_known(int file) { return file >= 0 && file < MOST_FILES && files[file].is_image; }

static bool fails_on(int file) { return is_known(file) && fails(); }

int __wrap_open(const char *path, int flags, ...) {
    size_t length = strlen(path);
    bool opens_image = length > 4 && strcmp(path + length - 4, ".img") == 0;
    mode_t mode = 0;
    int file;
    va_list rest;
    va_start(rest, flags);
    if (flags & O_CREAT)
        mode = va_arg(rest, mode_t);
    va_end(rest);
    if (opens_image && fails())
        return -1;
    file = __real_open(path, flags, mode);
    if (file >= 0 && file < MOST_FILES) {
        files[file].is_image = opens_image;
        files[file].is_written = false;
    }
    return file;
}

ssize_t __wrap_pread(int file, void *into, size_t length, off_t at) { return fails_on(file) ? -1 : __real_pread(file, into, length, at); }

ssize_t __wrap_pwrite(int file, const void *from, size_t length, off_t at) {
    if (fails_on(file))
        return -1;
    if (is_known(file))
        files[file].is_written = true;
    return __real_pwrite(file, from, length, at);
}

int __wrap_fdatasync(int file) {
    if (fails_on(file))
        return -1;
    if (sync_length.tv_nsec > 0 && is_known(file) && files[file].is_written)
        (void)__real_nanosleep(&sync_length, NULL);
    if (is_known(file))
        files[file].is_written = false;
    return 0;
}

int __wrap_nanosleep(const struct timespec *length, struct timespec *left) {
    if (!skips_all && (fault != FAILURE || calls_left > 0))
        return __real_nanosleep(length, left);
    skipped.tv_sec += length->tv_sec + (skipped.tv_nsec + length->tv_nsec) / 1000000000;
    skipped.tv_nsec = (skipped.tv_nsec + length->tv_nsec) % 1000000000;
    return 0;
}

int __wrap_clock_gettime(clockid_t clock, struct timespec *now) {
    int done = __real_clock_gettime(clock, now);
    if (done == 0 && clock == CLOCK_MONOTONIC) {
        now->tv_sec += skipped.tv_sec + (now->tv_nsec + skipped.tv_nsec) / 1000000000;
        now->tv_nsec = (now->tv_nsec + skipped.tv_nsec) % 1000000000;
    }
    return done;
}
