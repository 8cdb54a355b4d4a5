/*
 * Signs of life that somebody removes, or puts a link in the place of, at a bad moment: a session's sign is the file of that name, it makes no other
 * file, and it says why it has none. Linked with the archive and --wrap=flock.
 *
 *   sign_files FOLDER      an empty folder
 */
#include <mg_session.h>

#include <errno.h>
#include <stdbool.h>
#include <stdlib.h>
#include <sys/file.h>
#include <sys/stat.h>
#include <unistd.h>

#include "expect.h"

int __real_flock(int file, int operation);
int __wrap_flock(int file, int operation);

static int removals; /* so many signs are removed just before they are locked */

int __wrap_flock(int file, int operation) {
    char at[64], path[500] = "";
    snprintf(at, sizeof at, "/proc/self/fd/%d", file);
    if (readlink(at, path, sizeof path - 1) > 0 && strstr(path, "/mg-lock.") && removals > 0) {
        removals--;
        IS(unlink(path), 0);
    }
    return __real_flock(file, operation);
}

/* Whether the sign of a lock of host 0 is there by its name, and is the session's. */
static bool has_sign(const char *folder, struct mg_session *session, unsigned lock) {
    char path[500];
    struct stat ours, there;
    snprintf(path, sizeof path, "%s/mg-lock.7.0.%u", folder, lock);
    return fstat(mg_sign_of(session, lock), &ours) == 0 && lstat(path, &there) == 0 && ours.st_ino == there.st_ino;
}

static void removed(const char *folder, struct mg_session *session) {
    struct mg_held held;
    for (int times = 0; times < 4; times++) {
        removals = times;
        IS(mg_take(session, "db", MG_EX, 0, &held), MG_OK);
        IS(removals, 0);
        IS(has_sign(folder, session, held.lock), true);
        IS(mg_give(session, held.lock, NULL), MG_OK);
    }
}

/* A sign that is removed each time: eight times it is made anew, and then the call says so, and nothing is held. */
static void removed_each_time(const char *folder, struct mg_session *session) {
    struct mg_held held;
    removals = 8;
    IS(mg_take(session, "db", MG_EX, 0, &held), MG_OK);
    IS(has_sign(folder, session, held.lock), true);
    IS(mg_give(session, held.lock, NULL), MG_OK);
    removals = 1000;
    errno = 0;
    IS(mg_take(session, "db", MG_EX, 0, &held), MG_NO_LOCK);
    IS(errno, EBUSY);
    IS(removals, 1000 - 9);
    removals = 0;
    IS(mg_take(session, "db", MG_EX, 0, &held), MG_OK);
    IS(mg_give(session, held.lock, NULL), MG_OK);
}

/* Where each number that comes next has a link in the place of a sign. */
static void linked(const char *folder, struct mg_session *session) {
    char path[500], made[500];
    struct mg_held held;
    snprintf(made, sizeof made, "%s/made", folder);
    for (int makes = 1; makes >= 0; makes--) {
        for (unsigned lock = 1536; lock < 1700; lock++) {
            snprintf(path, sizeof path, "%s/mg-lock.7.0.%u", folder, lock);
            if (makes)
                (void)symlink(made, path);
            else
                (void)unlink(path);
        }
        errno = 0;
        IS(mg_take(session, "db", MG_EX, 0, &held), makes ? MG_NO_LOCK : MG_OK);
        IS(!makes || errno == ELOOP, true);
        IS(access(made, F_OK), -1);
    }
    IS(has_sign(folder, session, held.lock), true);
    IS(mg_give(session, held.lock, NULL), MG_OK);
}

int main(int argc, char **argv) {
    struct mg_session *session;
    if (argc != 2)
        return 2;
    IS(mg_format(argv[1], 3, 128, 7, NULL), MG_OK);
    for (unsigned flags = 0; flags <= MG_SHARE; flags += MG_SHARE) {
        IS(mg_begin(argv[1], 0, flags, &session, NULL), MG_OK);
        removed(argv[1], session);
        removed_each_time(argv[1], session);
        linked(argv[1], session);
        mg_end(session);
    }
    return failures != 0;
}
