/*
 * Each allocation fails in turn: a call then ends as MG_NO_MEMORY, and the host goes on; also where an epoch of a log without an end ends. Of a session, whose calls may also end well
 * then, no lock is left. Prints how many there are.
 * To be linked with -Wl,--wrap=malloc,--wrap=calloc,--wrap=realloc,--wrap=posix_memalign.
 *
 *   refused_memory FOLDER
 */
#include <mg_session.h>

#include "endless.h"

#include <errno.h>
#include <stdio.h>
#include <stdlib.h>
#include <sys/stat.h>

void *__real_malloc(size_t size);
void *__real_calloc(size_t count, size_t size);
void *__real_realloc(void *at, size_t size);
int __real_posix_memalign(void **at, size_t align, size_t size);

static long until_refused = -1;

static int refused(void) { return until_refused >= 0 && until_refused-- == 0; }

void *__wrap_malloc(size_t size) { return refused() ? NULL : __real_malloc(size); }
void *__wrap_calloc(size_t count, size_t size) { return refused() ? NULL : __real_calloc(count, size); }
void *__wrap_realloc(void *at, size_t size) { return refused() ? NULL : __real_realloc(at, size); }
int __wrap_posix_memalign(void **at, size_t align, size_t size) { return refused() ? ENOMEM : __real_posix_memalign(at, align, size); }

/* A call that was refused memory is made again. */
static int again(int (*call)(struct mg_host *host), struct mg_host *host, int *refusals) {
    int status = call(host);
    if (status != MG_NO_MEMORY)
        return status;
    ++*refusals;
    return call(host);
}

static int asks(struct mg_host *host) { return mg_enqueue(host, 1, 1, 1, MG_EX, "db", 0, NULL); }

static int shows(struct mg_host *host) {
    struct mg_lock_view views[2];
    char text[MG_TEXT_SIZE];
    size_t count;
    int status = mg_locks(host, views, 2, &count);
    return status == MG_OK ? mg_text(host, text, sizeof text, &count) : status;
}

static int marks(struct mg_host *host) { return mg_mark(host, NULL); }

/* Opens, asks, looks and closes. MG_OK, or MG_NO_MEMORY where a call was refused that and went well then; else the first other status. */
static int use(const char *folder) {
    struct mg_host *host;
    int refusals = 0, status = mg_open(folder, 0, &host, NULL);
    if (status != MG_OK)
        return status;
    status = again(asks, host, &refusals);
    if (status == MG_OK)
        status = again(shows, host, &refusals);
    if (status == MG_OK)
        status = again(marks, host, &refusals);
    if (status == MG_OK)
        status = again(shows, host, &refusals);
    mg_close(host);
    if (status == MG_NO_MEMORY)
        return MG_BROKEN;
    return status == MG_OK && refusals > 0 ? MG_NO_MEMORY : status;
}

/* 0 where each allocation of a host was refused in turn. */
static int refuse_host(const char *folder, int (*make_ready)(const char *folder)) {
    for (long allocations = 0;; allocations++) {
        int status;
        if (make_ready && !make_ready(folder))
            return 1;
        until_refused = allocations;
        status = use(folder);
        if (until_refused >= 0) {
            until_refused = -1;
            printf("%ld allocations, each refused in turn\n", allocations);
            return status != MG_OK;
        }
        if (status != MG_NO_MEMORY) {
            printf("allocation %ld: %d in place of %d\n", allocations, status, MG_NO_MEMORY);
            return 1;
        }
        if (use(folder) != MG_OK)
            return 1;
    }
}

static int copy(const char *from, const char *to) {
    static uint8_t bytes[IMAGE];
    int in = open(from, O_RDONLY), out = open(to, O_WRONLY | O_CREAT, 0666);
    int is_done = in >= 0 && out >= 0 && read(in, bytes, IMAGE) == IMAGE && write(out, bytes, IMAGE) == IMAGE;
    close(in);
    close(out);
    return is_done;
}

static int copy_image(const char *folder, const char *from, const char *to) {
    char source[500], target[500];
    path_of(source, sizeof source, folder, 0, from);
    path_of(target, sizeof target, folder, 0, to);
    return copy(source, target);
}

/* The image as it was just before the epoch was full. */
static int is_almost_full(const char *folder) { return copy_image(folder, ".kept", ""); }

/* The first epoch of a folder with one image gets so many commands that one slot is left. Who then asks takes that, and comes to the next epoch with its mark. */
static int fill(const char *folder) {
    struct mg_host *host;
    struct mg_answer answer = {-1, MG_NO_REPLY, 0, MG_NONE, MG_NONE};
    if (mkdir(folder, 0777) != 0 || !lay_out(folder, 1) || mg_open(folder, 1, &host, NULL) != MG_OK)
        return 0;
    for (uint64_t request = 1; answer.slot < SLOTS - 2; request++)
        if (mg_status(host, 2, request, 9, &answer) != MG_NO_SUCH_LOCK)
            return 0;
    mg_close(host);
    return copy_image(folder, "", ".kept");
}

static int use_session(const char *folder, unsigned flags) {
    struct mg_session *session;
    struct mg_held held;
    int status = mg_begin(folder, 1, flags, &session, NULL), given = MG_OK;
    if (status != MG_OK)
        return status;
    status = mg_take(session, "db", MG_PR, 60000, &held);
    if (status == MG_OK)
        status = mg_check(session, held.lock);
    if (held.lock != 0)
        given = mg_give(session, held.lock, NULL);
    mg_end(session);
    return status != MG_OK ? status : given;
}

/* How many locks are left in a folder, or -1. */
static int locks_of(const char *folder) {
    struct mg_host *host;
    size_t count = 0;
    if (mg_open(folder, 3, &host, NULL) != MG_OK)
        return -1;
    if (mg_mark(host, NULL) != MG_OK || mg_locks(host, NULL, 0, &count) != MG_OK)
        return -1;
    mg_close(host);
    return (int)count;
}

/* 0 where each allocation of a session was refused in turn. A new folder after each few of them: a log that is short is learned soon. Or, with one image, each time an
 * epoch that is almost full. */
static int refuse_session(const char *work, unsigned flags, int is_endless) {
    char folder[400];
    for (long allocations = 0;; allocations++) {
        int status, left;
        if (is_endless)
            snprintf(folder, sizeof folder, "%s", work);
        else if (allocations % 8 == 0) {
            snprintf(folder, sizeof folder, "%s/%u.%ld", work, flags, allocations);
            if (mkdir(folder, 0777) != 0 || mg_format(folder, 3, 64, 7, NULL) != MG_OK)
                return 1;
        }
        if (is_endless && !is_almost_full(folder))
            return 1;
        until_refused = allocations;
        status = use_session(folder, flags);
        if (until_refused >= 0) {
            printf("%ld allocations of a session, each refused in turn\n", allocations);
            return status != MG_OK;
        }
        until_refused = -1;
        /* In doubt: there was no memory to hear what became of a command. */
        if (status != MG_OK && status != MG_NO_MEMORY && status != MG_IN_DOUBT) {
            printf("session, allocation %ld: %d\n", allocations, status);
            return 1;
        }
        /* What it left, as one that was killed does, the next one releases. */
        if (use_session(folder, flags) != MG_OK)
            return 1;
        left = locks_of(folder);
        if (left != 0) {
            printf("session, allocation %ld: %d locks left\n", allocations, left);
            return 1;
        }
    }
}

int main(int argc, char **argv) {
    char endless[400];
    if (argc != 2 || mg_format(argv[1], 3, 512, 7, NULL) != MG_OK)
        return 2;
    snprintf(endless, sizeof endless, "%s/endless", argv[1]);
    if (refuse_host(argv[1], NULL) != 0 || !fill(endless) || refuse_host(endless, is_almost_full) != 0)
        return 1;
    for (unsigned flags = 0; flags <= MG_SHARE; flags += MG_SHARE) {
        until_refused = -1;
        if (refuse_session(argv[1], flags, 0) != 0 || refuse_session(endless, flags, 1) != 0)
            return 1;
    }
    return 0;
}
