/* What tests of sessions share: folders of images, sessions over them, what their tables have, and the time. expect.h stands before it. */
#ifndef FOLDERS_H
#define FOLDERS_H

#include <mg_session.h>

#include <sys/stat.h>
#include <time.h>

static const char *work; /* the folder that the test was given */

/* A new folder of images, below that one. */
static inline const char *folder(const char *name, unsigned slots, uint64_t cluster) {
    static char paths[32][300];
    static int count = 0;
    char *path = paths[count++ % 32];
    snprintf(path, sizeof paths[0], "%s/%s", work, name);
    IS(mkdir(path, 0777), 0);
    IS(mg_format(path, 3, slots, cluster, NULL), MG_OK);
    return path;
}

static inline struct mg_session *begun(const char *path, unsigned host, unsigned flags) {
    struct mg_session *session = NULL;
    IS(mg_begin(path, host, flags, &session, NULL), MG_OK);
    return session;
}

/* How many locks the table has, by a look of its own. */
static inline size_t locks_of(const char *path) {
    struct mg_host *eye;
    size_t count = 0;
    IS(mg_open_to_look(path, &eye, NULL), MG_OK);
    IS(mg_look(eye, NULL), MG_OK);
    IS(mg_locks(eye, NULL, 0, &count), MG_OK);
    mg_close(eye);
    return count;
}

static inline int64_t milliseconds(void) {
    struct timespec now;
    clock_gettime(CLOCK_MONOTONIC, &now);
    return (int64_t)now.tv_sec * 1000 + now.tv_nsec / 1000000;
}

#endif
