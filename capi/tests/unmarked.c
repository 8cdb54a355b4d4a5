/*
 * A host dies between the answer to its release and the mark of it, as a process that is killed there. Whoever waits for the lock
 * gets it all the same: no look finds an unmarked command, so a wait recovers where it hears nothing. And a session believes no reply
 * that is that of such a command.
 *
 * The mark cannot be left out by a call of the library, so this has the library's own file in it.
 *
 *   unmarked FOLDER      an empty folder
 */
#include "../src/midgegalena.c"

#include "expect.h"
#include "mg_session.h"

/* A process that shares host 0 was killed between its enqueue and the mark. As far as a look tells its request is the next one's, too. */
static void left_without_a_mark(const char *folder) {
    struct request enqueue = asks(ENQUEUE, 240, 1, 1539);
    struct mg_session *session;
    struct mg_host *host;
    struct outcome taken;
    struct mg_held held;
    char sign[400];
    size_t count = 9;
    enqueue.mode = MG_EX;
    snprintf(sign, sizeof sign, "%s/mg-lock.7.0.1539", folder);
    IS(mkdir(folder, 0777), 0);
    IS(mg_format(folder, 3, 64, 7, NULL), MG_OK);
    IS(mg_open(folder, 0, &host, NULL), MG_OK);
    IS(submit_once(host, &enqueue, "other", &taken), MG_OK);
    mg_close(host);
    close(open(sign, O_RDWR | O_CREAT, 0666));

    IS(mg_begin(folder, 0, MG_SHARE, &session, NULL), MG_OK);
    IS(mg_take(session, "db", MG_EX, 0, &held), MG_OK);
    IS(held.lock != 1539 && held.slot > 1, 1);
    IS(mg_give(session, held.lock, NULL), MG_OK);
    /* Its lock was left over. */
    IS(held.released, 1);
    IS(access(sign, F_OK), -1);
    IS(mg_take(session, "other", MG_EX, 60000, &held), MG_OK);
    IS(mg_give(session, held.lock, NULL), MG_OK);
    IS(mg_host_of(session, &host), MG_OK);
    IS(mg_look(host, NULL), MG_OK);
    IS(mg_locks(host, NULL, 0, &count), MG_OK);
    IS(count, 0);
    mg_end(session);
}

/* The same, but what is asked for is that very lock. Somebody else waits behind it, and is told a slot, or a later command is there, too. */
static void asked_for_again(const char *folder, int timeout, bool is_stale) {
    struct request enqueue = asks(ENQUEUE, 240, 2, 1541), later = asks(STATUS, 240, 3, 1541);
    struct mg_session *session;
    struct mg_host *host;
    struct mg_answer waits = {0, 0, 0, 0, 0};
    struct outcome taken;
    struct mg_held held;
    char sign[400];
    enqueue.mode = MG_EX;
    snprintf(sign, sizeof sign, "%s/mg-lock.7.0.1541", folder);
    IS(mkdir(folder, 0777), 0);
    IS(mg_format(folder, 3, 64, 7, NULL), MG_OK);
    IS(mg_open(folder, 0, &host, NULL), MG_OK);
    IS(mg_status(host, 240, 1, 1541, NULL), MG_NO_SUCH_LOCK);
    IS(submit_once(host, &enqueue, "db", &taken), MG_OK);
    if (is_stale)
        IS(submit_once(host, &later, "", &taken), MG_OK);
    mg_close(host);
    close(open(sign, O_RDWR | O_CREAT, 0666));
    if (!is_stale) {
        IS(mg_open(folder, 1, &host, NULL), MG_OK);
        IS(mg_enqueue(host, 9, 1, 9, MG_EX, "db", 0, &waits), MG_OK);
        mg_close(host);
    }
    IS(mg_begin(folder, 0, MG_SHARE, &session, NULL), MG_OK);
    if (mg_take(session, "db", MG_EX, timeout, &held) == MG_OK) {
        /* It holds before the one that waits does, so its slot is the lower one. */
        IS(is_stale || held.slot < waits.slot, 1);
        IS(mg_give(session, held.lock, NULL), MG_OK);
    } else
        IS(is_stale, 0);
    IS(mg_take(session, "db", MG_EX, 0, &held), is_stale ? MG_OK : MG_TIMED_OUT);
    mg_end(session);
}

/* A command of somebody else has no mark, so a look sees nothing of what comes after it. Nor what a session with MG_SHARE took and gave back
 * there: the next one asks for the same lock, and is not told that it has it while host 1 does. */
static void hidden_by_another(const char *folder) {
    struct request enqueue = asks(ENQUEUE, 9, 1, 9);
    struct mg_session *session, *second;
    struct mg_host *host;
    struct outcome taken;
    struct mg_held held, other;
    IS(mkdir(folder, 0777), 0);
    IS(mg_format(folder, 3, 64, 7, NULL), MG_OK);
    IS(mg_open(folder, 2, &host, NULL), MG_OK);
    IS(submit_once(host, &enqueue, "another", &taken), MG_OK);
    mg_close(host);
    for (int run = 0; run < 2; run++) {
        IS(mg_begin(folder, 0, MG_SHARE, &session, NULL), MG_OK);
        IS(mg_take(session, "db", MG_EX, 60000 * run, &held), MG_OK);
        IS(mg_give(session, held.lock, NULL), MG_OK);
        mg_end(session);
    }
    IS(mg_begin(folder, 1, MG_SHARE, &second, NULL), MG_OK);
    IS(mg_take(second, "db", MG_EX, 60000, &other), MG_OK);
    for (int run = 0; run < 2; run++) {
        IS(mg_begin(folder, 0, MG_SHARE, &session, NULL), MG_OK);
        IS(mg_take(session, "db", MG_EX, 100 * run, &held), MG_TIMED_OUT);
        mg_end(session);
    }
    IS(mg_check(second, other.lock), MG_OK);
    IS(mg_give(second, other.lock, NULL), MG_OK);
    mg_end(second);
}

/* A purge behind a command without a mark: no check sees it, until somebody recovers. To give the lock back tells. */
static void purged_behind_it(const char *folder, unsigned flags) {
    struct request enqueue = asks(ENQUEUE, 9, 1, 9), purge = asks(PURGE, 8, 1, 0);
    struct mg_session *session;
    struct mg_host *host;
    struct outcome told;
    struct mg_held held;
    IS(mkdir(folder, 0777), 0);
    IS(mg_format(folder, 3, 64, 7, NULL), MG_OK);
    IS(mg_begin(folder, 0, flags, &session, NULL), MG_OK);
    IS(mg_take(session, "db", MG_EX, 0, &held), MG_OK);
    IS(mg_open(folder, 2, &host, NULL), MG_OK);
    IS(submit_once(host, &enqueue, "another", &told), MG_OK);
    IS(submit_once(host, &purge, "", &told), MG_OK);
    mg_close(host);
    IS(mg_check(session, held.lock), MG_OK);
    IS(mg_recover(session, 0, NULL), MG_OK);
    IS(mg_check(session, held.lock), MG_NO_SUCH_LOCK);
    IS(mg_give(session, held.lock, NULL), MG_NO_SUCH_LOCK);
    mg_end(session);
}

int main(int argc, char **argv) {
    char other[300];
    struct mg_host *first, *second;
    struct mg_answer answer;
    struct outcome released;
    struct request release = asks(RELEASE, 1, 2, 1);
    int granted;
    if (argc != 2)
        return 2;
    IS(mg_format(argv[1], 3, 16, 7, NULL), MG_OK);
    IS(mg_open(argv[1], 0, &first, NULL), MG_OK);
    IS(mg_open(argv[1], 1, &second, NULL), MG_OK);
    IS(mg_enqueue(first, 1, 1, 1, MG_EX, "db", 0, &answer), MG_OK);
    IS(mg_enqueue(second, 2, 1, 2, MG_EX, "db", 0, &answer), MG_OK);
    IS(answer.reply, MG_QUEUED);
    IS(submit_once(first, &release, "", &released), MG_OK);
    IS(released.reply, MG_RELEASED);
    mg_close(first);

    IS(mg_wait(second, 2, 100, 500, &granted), MG_TIMED_OUT);
    IS(mg_wait(second, 2, 100, 60000, &granted), MG_OK);
    IS(granted, MG_EX);
    mg_close(second);

    /* That was marked for all. */
    IS(mg_open(argv[1], 2, &first, NULL), MG_OK);
    IS(mg_look(first, NULL), MG_OK);
    IS(mg_lock(first, 1, &(struct mg_lock_view){0}), MG_NO_SUCH_LOCK);
    mg_close(first);
    snprintf(other, sizeof other, "%s/session", argv[1]);
    left_without_a_mark(other);
    for (int way = 0; way < 4; way++) {
        snprintf(other, sizeof other, "%s/again%d", argv[1], way);
        asked_for_again(other, way % 2 * (way >= 2 ? 60000 : 1000), way >= 2);
    }
    snprintf(other, sizeof other, "%s/hidden", argv[1]);
    hidden_by_another(other);
    for (unsigned flags = 0; flags <= MG_SHARE; flags += MG_SHARE) {
        snprintf(other, sizeof other, "%s/purged%u", argv[1], flags);
        purged_behind_it(other, flags);
    }
    return failures != 0;
}
