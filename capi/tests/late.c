/*
 * Commands that return before they are marked: what marks them, which are marked at once, and what a process leaves that is killed before.
 *
 *   late FOLDER      an empty folder
 */
#include "expect.h"
#include "mg_session.h"

#include <signal.h>
#include <sys/stat.h>
#include <sys/wait.h>
#include <unistd.h>

static struct mg_host *eye;

/* How many commands a look shows that knows nothing but marks. */
static long seen(void) {
    uint64_t learned = 999;
    IS(mg_look(eye, &learned), MG_OK);
    return (long)learned;
}

static void format(const char *folder, const char *part, char *into, size_t size) {
    snprintf(into, size, "%s/%s", folder, part);
    IS(mkdir(into, 0777), 0);
    IS(mg_format(into, 3, 64, 7, NULL), MG_OK);
    IS(mg_open_to_look(into, &eye, NULL), MG_OK);
}

/* The commands of a host. */
static void by_commands(const char *folder) {
    char path[300], value[MG_VALUE_LENGTH] = "";
    struct mg_host *host, *other;
    struct mg_answer answer;
    int granted;
    format(folder, "commands", path, sizeof path);
    IS(mg_set_late_marks(NULL, 1), MG_BAD_ARGUMENT);
    IS(mg_mark_now(NULL), MG_BAD_ARGUMENT);
    IS(mg_mark_now(eye), MG_OK);
    IS(mg_open(path, 0, &host, NULL), MG_OK);
    IS(mg_mark_now(host), MG_OK);

    /* Unless it is said, each command is marked first. */
    IS(mg_enqueue(host, 1, 1, 1, MG_EX, "db", 0, &answer), MG_OK);
    IS(seen(), 1);
    IS(mg_set_late_marks(host, 1), MG_OK);
    IS(mg_enqueue(host, 1, 2, 2, MG_EX, "two", 0, &answer), MG_OK);
    IS(answer.slot, 1);
    IS(answer.reply, MG_GRANTED);
    IS(seen(), 1);
    IS(mg_mark_now(host), MG_OK);
    IS(seen(), 2);
    IS(mg_mark_now(host), MG_OK);

    /* What shows the table marks nothing. Each call that works on the images does, also a further command. */
    IS(mg_status(host, 1, 3, 1, &answer), MG_OK);
    IS(mg_log(host, NULL, NULL), MG_OK);
    IS(seen(), 2);
    IS(mg_look(host, NULL), MG_OK);
    IS(seen(), 3);
    IS(mg_status(host, 1, 4, 1, &answer), MG_OK);
    IS(mg_refresh(host, NULL), MG_OK);
    IS(seen(), 4);
    IS(mg_status(host, 1, 5, 1, &answer), MG_OK);
    IS(mg_mark(host, NULL), MG_OK);
    IS(seen(), 5);
    IS(mg_status(host, 1, 6, 1, &answer), MG_OK);
    IS(mg_wait(host, 1, 5, 60000, &granted), MG_OK);
    IS(seen(), 6);
    IS(mg_status(host, 1, 7, 1, &answer), MG_OK);
    IS(mg_enqueue(host, 1, 8, 3, MG_NL, "three", 0, &answer), MG_OK);
    IS(seen(), 7);

    /* What somebody may wait for is marked at once, and what was to be marked before it. A command that is refused stands in the log, too. */
    IS(mg_convert(host, 1, 9, 1, MG_NL, 0, NULL), MG_OK);
    IS(seen(), 9);
    IS(mg_convert_value(host, 1, 10, 2, MG_PW, 0, value, NULL), MG_OK);
    IS(seen(), 10);
    IS(mg_enqueue(host, 1, 11, 3, MG_NL, "three", 0, NULL), MG_LOCK_IN_USE);
    IS(seen(), 10);
    IS(mg_cancel(host, 1, 12, 3, NULL), MG_NOTHING_TO_CANCEL);
    IS(seen(), 12);
    IS(mg_release(host, 1, 13, 3, NULL), MG_OK);
    IS(seen(), 13);
    IS(mg_release_value(host, 1, 14, 2, value, NULL), MG_OK);
    IS(seen(), 14);
    IS(mg_purge(host, 1, 15, 5, NULL), MG_OK);
    IS(seen(), 15);

    /* Another host carries it through, and its own command after it. It marks that alone: looks pass neither until the first is marked. */
    IS(mg_status(host, 1, 16, 1, NULL), MG_OK);
    IS(mg_open(path, 1, &other, NULL), MG_OK);
    IS(mg_status(other, 2, 1, 1, &answer), MG_OK);
    IS(answer.slot, 16);
    mg_close(other);
    IS(seen(), 15);
    IS(mg_mark_now(host), MG_OK);
    IS(seen(), 17);

    IS(mg_status(host, 1, 17, 1, NULL), MG_OK);
    IS(seen(), 17);
    mg_close(host);
    IS(seen(), 18);
    mg_close(eye);
}

/* What a session takes. With MG_SHARE it has the number until it has marked that. */
static void by_sessions(const char *folder, unsigned flags) {
    char path[300];
    struct mg_session *session;
    struct mg_host *host;
    struct mg_held held;
    struct mg_lock_view view;
    format(folder, flags ? "shared" : "own", path, sizeof path);
    IS(mg_mark_taken(NULL), MG_BAD_ARGUMENT);
    IS(mg_begin(path, 0, MG_LATE | MG_SHARE | MG_KEEP, &session, NULL), MG_BAD_ARGUMENT);
    IS(mg_begin(path, 0, MG_LATE | flags, &session, NULL), MG_OK);
    IS(mg_mark_taken(session), MG_OK);
    for (int way = 0; way < 4; way++) {
        long before = seen();
        IS(mg_take(session, "db", MG_EX, 60000, &held), MG_OK);
        IS(held.slot, before);
        IS(seen(), before);
        IS(mg_open(path, 0, &host, NULL), MG_HOST_IN_USE);
        if (way == 0) {
            IS(mg_mark_taken(session), MG_OK);
            IS(seen(), before + 1);
            IS(mg_open(path, 0, &host, NULL), flags ? MG_OK : MG_HOST_IN_USE);
            mg_close(host);
        } else if (way == 1) {
            IS(mg_check(session, held.lock), MG_OK);
            IS(seen(), before + 1);
        } else if (way == 2) {
            IS(mg_recover(session, 0, NULL), MG_OK);
            IS(seen(), before + 1);
        }
        IS(mg_give(session, held.lock, NULL), MG_OK);
        IS(seen(), before + 2);
        IS(mg_mark_taken(session), MG_OK);
    }
    IS(mg_take(session, "db", MG_EX, 60000, &held), MG_OK);
    mg_end(session);
    IS(seen(), 9);
    IS(mg_lock(eye, held.lock, &view), MG_OK);
    IS(view.held, MG_EX);
    mg_close(eye);
}

/* A process is killed once it has the lock, and before the mark. Whoever waits under that host number gets the lock, and another host's wait passes. */
static void killed_before(const char *folder) {
    char path[300];
    struct mg_session *session;
    struct mg_held held;
    int status;
    format(folder, "killed", path, sizeof path);
    for (unsigned host = 0; host < 2; host++) {
        pid_t child = fork();
        if (child == 0) {
            if (mg_begin(path, 0, MG_LATE | MG_SHARE, &session, NULL) == MG_OK && mg_take(session, "db", MG_EX, 60000, &held) == MG_OK)
                raise(SIGKILL);
            _exit(1);
        }
        IS(waitpid(child, &status, 0), child);
        IS(WIFSIGNALED(status) && WTERMSIG(status) == SIGKILL, 1);
        if (host == 1) {
            IS(mg_begin(path, 1, 0, &session, NULL), MG_OK);
            IS(mg_take(session, "db", MG_EX, 0, &held), MG_TIMED_OUT);
            mg_end(session);
        }
        IS(mg_begin(path, 0, MG_SHARE, &session, NULL), MG_OK);
        IS(mg_take(session, "db", MG_EX, 60000, &held), MG_OK);
        IS(mg_give(session, held.lock, NULL), MG_OK);
        mg_end(session);
    }
    mg_close(eye);
}

int main(int argc, char **argv) {
    if (argc != 2)
        return 2;
    by_commands(argv[1]);
    by_sessions(argv[1], 0);
    by_sessions(argv[1], MG_SHARE);
    killed_before(argv[1]);
    return failures != 0;
}
