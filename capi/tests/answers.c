/*
 * Part of an mg-lock that is linked with --wrap=mg_take,--wrap=mg_give,--wrap=fdatasync,--wrap=clock_gettime: it hears what the session says, or TAKE
 * and GIVE of the environment where they are there. With STOPPED a signal comes when the lock was granted, and with STOPS a terminal's stop in the midst of
 * the first talk. With LATE it is so many seconds later once mg_take has returned. What the session did is done all the same.
 */
#ifndef _POSIX_C_SOURCE
#define _POSIX_C_SOURCE 200809L
#endif
#include <mg_session.h>

#include <signal.h>
#include <stdbool.h>
#include <stdlib.h>
#include <time.h>
#include <unistd.h>

int __real_mg_take(struct mg_session *session, const char *name, int mode, int timeout, struct mg_held *held);
int __real_mg_give(struct mg_session *session, unsigned lock, const void *value);
int __real_fdatasync(int file);
int __real_clock_gettime(clockid_t clock, struct timespec *into);
int __wrap_mg_take(struct mg_session *session, const char *name, int mode, int timeout, struct mg_held *held);
int __wrap_mg_give(struct mg_session *session, unsigned lock, const void *value);
int __wrap_fdatasync(int file);
int __wrap_clock_gettime(clockid_t clock, struct timespec *into);

static bool has_taken, has_stopped;

int __wrap_mg_take(struct mg_session *session, const char *name, int mode, int timeout, struct mg_held *held) {
    int status = __real_mg_take(session, name, mode, timeout, held);
    has_taken = true;
    if (getenv("STOPPED"))
        raise(SIGTERM);
    return getenv("TAKE") ? atoi(getenv("TAKE")) : status;
}

int __wrap_mg_give(struct mg_session *session, unsigned lock, const void *value) {
    return getenv("GIVE") ? atoi(getenv("GIVE")) : __real_mg_give(session, lock, value);
}

int __wrap_fdatasync(int file) {
    if (getenv("STOPS") && !has_stopped) {
        has_stopped = true;
        raise(SIGTSTP);
    }
    return __real_fdatasync(file);
}

int __wrap_clock_gettime(clockid_t clock, struct timespec *into) {
    int status = __real_clock_gettime(clock, into);
    if (has_taken && getenv("LATE"))
        into->tv_sec += atoi(getenv("LATE"));
    return status;
}
