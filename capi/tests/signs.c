/*
 * Signs of life that cannot be looked at, as where no descriptor is left or another user made them. Nobody takes that for a lock that is somebody's, or for one
 * that was taken away: each call says so, and what stays is counted. Linked with -Wl,--wrap=open,--wrap=stat.
 *
 *   signs FOLDER      an empty folder
 */
#include <mg_session.h>

#include <errno.h>
#include <fcntl.h>
#include <signal.h>
#include <stdarg.h>
#include <sys/stat.h>
#include <sys/wait.h>
#include <unistd.h>

#include "expect.h"
#include "folders.h"

int __real_open(const char *path, int flags, ...);
int __real_stat(const char *path, struct stat *facts);

static int refusal = 0; /* why signs cannot be opened and looked at; 0: they can */

static int is_refused(const char *path) {
    if (refusal == 0 || !strstr(path, "/mg-lock."))
        return 0;
    errno = refusal;
    return 1;
}

int __wrap_open(const char *path, int flags, ...) {
    mode_t mode = 0;
    va_list rest;
    va_start(rest, flags);
    if (flags & O_CREAT)
        mode = va_arg(rest, mode_t);
    va_end(rest);
    return is_refused(path) ? -1 : __real_open(path, flags, mode);
}

int __wrap_stat(const char *path, struct stat *facts) { return is_refused(path) ? -1 : __real_stat(path, facts); }

/* A process of host 0 takes db, and is killed. */
static void leave(const char *path, unsigned flags) {
    struct mg_session *session;
    struct mg_held held;
    pid_t child = fork();
    if (child == 0) {
        if (mg_begin(path, 0, flags, &session, NULL) == MG_OK && mg_take(session, "db", MG_EX, 0, &held) == MG_OK)
            raise(SIGKILL);
        _exit(1);
    }
    IS(waitpid(child, NULL, 0), child);
}

/* What a call says, with errno, where signs are refused for this cause. */
#define SAYS(cause, call, status)  \
    do {                           \
        refusal = (cause);         \
        errno = 0;                 \
        IS(call, status);          \
        IS(errno, cause);          \
        refusal = 0;               \
    } while (0)

static void left_over(const char *name, int cause, unsigned flags) {
    const char *path = folder(name, 64, 7);
    struct mg_session *session, *other;
    struct mg_held held;
    unsigned released = 9;
    leave(path, flags);
    SAYS(cause, mg_begin(path, 0, 0, &session, NULL), MG_NO_LOCK);
    if (flags == 0)
        SAYS(cause, mg_begin(path, 0, MG_KEEP, &session, NULL), MG_NO_LOCK);
    IS(mg_begin(path, 0, MG_SHARE, &session, NULL), MG_OK);
    for (unsigned all = 0; all <= MG_ALL; all += MG_ALL)
        if (all || flags == MG_SHARE) {
            SAYS(cause, mg_recover(session, all, &released), MG_NO_LOCK);
            IS(released, 0);
            IS(mg_stay(session), 1);
        }
    SAYS(cause, mg_take(session, "other", MG_EX, 0, &held), MG_NO_LOCK);
    IS(mg_begin(path, 1, 0, &other, NULL), MG_OK);
    SAYS(cause, mg_purge_dead(other, 0, &released), MG_NO_LOCK);
    IS(released, 0);
    mg_end(other);
    IS(mg_recover(session, MG_ALL, &released), MG_OK);
    IS(released, 1);
    IS(mg_stay(session), 0);
    mg_end(session);
}

/* A sign that is a link is nobody's: what it leads to is neither made nor locked. */
static void linked(void) {
    const char *path = folder("linked", 64, 7);
    char sign[400], target[400];
    struct mg_session *session;
    struct mg_held held;
    snprintf(sign, sizeof sign, "%s/mg-lock.7.0.1539", path);
    snprintf(target, sizeof target, "%s/made", work);
    IS(symlink(target, sign), 0);
    IS(mg_begin(path, 0, MG_SHARE, &session, NULL), MG_OK);
    IS(mg_take(session, "db", MG_EX, 0, &held), MG_NO_LOCK);
    IS(access(target, F_OK), -1);
    mg_end(session);
}

int main(int argc, char **argv) {
    if (argc != 2)
        return 2;
    work = argv[1];
    left_over("files", EMFILE, 0);
    left_over("files_shared", EMFILE, MG_SHARE);
    left_over("rights", EACCES, 0);
    left_over("rights_shared", EACCES, MG_SHARE);
    linked();
    if (failures == 0)
        puts("signs: as they should be");
    return failures != 0;
}
