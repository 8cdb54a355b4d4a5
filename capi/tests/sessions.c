/*
 * Tries sessions, one after another in this process and in children: arguments, modes, values, timeouts, what a killed one left, purges,
 * full logs, other images, lost disks, and names, numbers and replies that somebody else has used.
 *
 *   sessions FOLDER      an empty folder
 */
#include <mg_session.h>

#include <fcntl.h>
#include <signal.h>
#include <stdlib.h>
#include <sys/file.h>
#include <sys/stat.h>
#include <sys/wait.h>
#include <time.h>
#include <unistd.h>

#include "expect.h"
#include "folders.h"

/* What the log has, by a look of its own. */
static uint64_t length_of(const char *path) {
    struct mg_host *eye;
    uint64_t learned = 0;
    IS(mg_open_to_look(path, &eye, NULL), MG_OK);
    IS(mg_look(eye, &learned), MG_OK);
    mg_close(eye);
    return learned;
}

static int told_to;

/* Runs `what` in a child, which is killed once it has told that it is there. */
static void killed(void (*what)(const char *), const char *path) {
    int tells[2];
    char byte;
    pid_t child;
    IS(pipe(tells), 0);
    child = fork();
    if (child == 0) {
        told_to = tells[1];
        what(path);
        byte = failures == 0;
        _exit(write(tells[1], &byte, 1) == 1 && pause() == 0);
    }
    IS(read(tells[0], &byte, 1), 1);
    IS(byte, 1);
    IS(kill(child, SIGKILL), 0);
    IS(waitpid(child, NULL, 0), child);
    close(tells[0]);
    close(tells[1]);
}

static int stops(void *with, int length) {
    (void)length;
    return --*(int *)with < 0;
}

static void bad_arguments(void) {
    const char *path = folder("arguments", 64, 7);
    struct mg_session *session = begun(path, 0, 0), *other;
    struct mg_host *host;
    struct mg_held held;
    unsigned count = 5;
    int disk = 5;
    IS(mg_begin(NULL, 0, 0, &other, NULL), MG_BAD_ARGUMENT);
    IS(other == NULL, 1);
    IS(mg_begin(path, 0, 0, NULL, NULL), MG_BAD_ARGUMENT);
    IS(mg_begin(path, 16, 0, &other, NULL), MG_BAD_ARGUMENT);
    IS(mg_begin(path, 1, 8, &other, NULL), MG_BAD_ARGUMENT);
    IS(mg_begin(path, 1, MG_KEEP | MG_SHARE, &other, NULL), MG_BAD_ARGUMENT);
    IS(mg_begin("", 1, 0, &other, NULL), MG_UNREADABLE);
    IS(mg_begin(path, 0, 0, &other, &disk), MG_HOST_IN_USE);
    IS(other == NULL && disk == -1, 1);
    IS(mg_begin(work, 0, 0, &other, &disk), MG_UNREADABLE);
    IS(disk, 0);
    IS(mg_begin(work, 0, MG_SHARE, &other, &disk), MG_UNREADABLE);
    IS(disk, 0);
    IS(mg_begin("/no/such/folder", 0, 0, &other, &disk), MG_UNREADABLE);
    IS(mg_take(NULL, "db", MG_EX, 0, &held), MG_BAD_ARGUMENT);
    IS(mg_take(session, "db", MG_EX, 0, NULL), MG_BAD_ARGUMENT);
    held.lock = 5;
    IS(mg_take(session, NULL, MG_EX, 0, &held), MG_BAD_ARGUMENT);
    IS(held.lock, 0);
    IS(mg_take(session, "", MG_EX, 0, &held), MG_BAD_ARGUMENT);
    IS(mg_take(session, "sixteen-letters-", MG_EX, 0, &held), MG_BAD_ARGUMENT);
    IS(mg_take(session, "a b", MG_EX, 0, &held), MG_BAD_ARGUMENT);
    IS(mg_take(session, "\xc3\xa4", MG_EX, 0, &held), MG_BAD_ARGUMENT);
    IS(mg_take(session, "db", -1, 0, &held), MG_BAD_ARGUMENT);
    IS(mg_take(session, "db", 6, 0, &held), MG_BAD_ARGUMENT);
    IS(mg_give(NULL, 1, NULL), MG_BAD_ARGUMENT);
    IS(mg_give(session, 0, NULL), MG_NO_SUCH_LOCK);
    IS(mg_give(session, 1538, NULL), MG_NO_SUCH_LOCK);
    IS(mg_check(NULL, 1), MG_BAD_ARGUMENT);
    IS(mg_check(session, 1), MG_NO_SUCH_LOCK);
    IS(mg_purge_dead(NULL, 1, NULL), MG_BAD_ARGUMENT);
    IS(mg_purge_dead(session, 16, &count), MG_BAD_ARGUMENT);
    IS(count, 0);
    IS(mg_purge_dead(session, 0, NULL), MG_BAD_ARGUMENT);
    IS(mg_recover(NULL, 0, NULL), MG_BAD_ARGUMENT);
    IS(mg_recover(session, 2, NULL), MG_BAD_ARGUMENT);
    IS(mg_set_interval(NULL, 1), MG_BAD_ARGUMENT);
    IS(mg_set_interval(session, 0), MG_BAD_ARGUMENT);
    IS(mg_set_interval(session, 60001), MG_BAD_ARGUMENT);
    IS(mg_set_rest(NULL, NULL, NULL), MG_BAD_ARGUMENT);
    IS(mg_host_of(NULL, &host), MG_BAD_ARGUMENT);
    IS(host == NULL, 1);
    IS(mg_host_of(session, NULL), MG_BAD_ARGUMENT);
    IS(mg_sign_of(NULL, 1), -1);
    IS(mg_sign_of(session, 1), -1);
    mg_end(NULL);
    mg_end(session);
    IS(length_of(path), 0);
}

/* Two sessions, both without or both with MG_SHARE. */
static void taken_and_given(const char *name, unsigned flags) {
    const char *path = folder(name, 128, 7);
    struct mg_session *first = begun(path, 0, flags), *second = begun(path, 1, flags);
    struct mg_host *host;
    struct mg_held a, b, c;
    uint64_t before;
    int64_t start;
    int rests = 3;
    IS(mg_take(first, "db", MG_EX, 0, &a), MG_OK);
    IS(a.slot, 0);
    IS(a.cluster, 7);
    IS(a.slots_left, HAS_NO_END ? UINT64_MAX : 127);
    IS(a.value.flags, MG_VALID);
    IS(mg_check(first, a.lock), MG_OK);
    IS(mg_check(second, a.lock), MG_NO_SUCH_LOCK);
    IS(mg_sign_of(first, a.lock) >= 3, 1);
    /* What is refused at once takes no slot, and what waited in vain is gone. */
    IS(mg_take(second, "db", MG_PR, 0, &b), MG_TIMED_OUT);
    IS(b.lock, 0);
    IS(length_of(path), 1);
    start = milliseconds();
    IS(mg_take(second, "db", MG_PR, 50, &b), MG_TIMED_OUT);
    IS(milliseconds() - start >= 50, 1);
    IS(locks_of(path), 1);
    IS(mg_set_rest(second, stops, &rests), MG_OK);
    IS(mg_take(second, "db", MG_PR, -1, &b), MG_STOPPED);
    IS(rests, -1);
    IS(mg_set_rest(second, NULL, NULL), MG_OK);
    IS(locks_of(path), 1);
    /* Others' locks are not given. */
    IS(mg_give(second, a.lock, NULL), MG_NO_SUCH_LOCK);
    IS(mg_take(second, "other", MG_EX, 0, &b), MG_OK);
    IS(mg_give(second, b.lock, NULL), MG_OK);
    IS(mg_give(second, b.lock, NULL), MG_NO_SUCH_LOCK);
    /* A value, that a null lock keeps. */
    IS(mg_take(second, "db", MG_NL, 0, &c), MG_OK);
    IS(mg_give(first, a.lock, "0123456789abcdef"), MG_OK);
    IS(mg_take(second, "db", MG_EX, 60000, &b), MG_OK);
    IS(memcmp(b.value.bytes, "0123456789abcdef", 16), 0);
    IS(b.slot > a.slot, 1);
    IS(mg_give(second, b.lock, NULL), MG_OK);
    IS(mg_give(second, c.lock, NULL), MG_OK);
    /* Both share. */
    IS(mg_take(first, "db", MG_PR, 0, &a), MG_OK);
    IS(mg_take(second, "db", MG_PR, 0, &b), MG_OK);
    IS(mg_take(first, "db", MG_CW, 0, &c), MG_TIMED_OUT);
    IS(mg_take(first, "db", MG_CR, 0, &c), MG_OK);
    IS(mg_give(first, c.lock, NULL), MG_OK);
    IS(mg_give(first, a.lock, NULL), MG_OK);
    IS(mg_give(second, b.lock, NULL), MG_OK);
    IS(locks_of(path), 0);
    before = length_of(path);
    IS(mg_host_of(first, &host), MG_OK);
    IS(mg_look(host, NULL), MG_OK);
    IS(mg_lock(host, a.lock, &(struct mg_lock_view){0, 0, 0, 0, 0, ""}), MG_NO_SUCH_LOCK);
    IS(length_of(path), (long)before);
    mg_end(first);
    mg_end(second);
}

/* The first pauses of a wait, which is stopped then. */
static struct {
    int count, lengths[4];
} pauses;

static int notes(void *with, int length) {
    (void)with;
    if (pauses.count < 4)
        pauses.lengths[pauses.count++] = length;
    return pauses.count == 4;
}

/* Looks are 1 ms apart, then twice as long each time, up to the bound that the caller sets: 5 ms at first. */
static void paced(const char *name, unsigned flags) {
    static const struct {
        int bound, lengths[4];
    } wanted[] = {{0, {1, 2, 5, 5}}, {1, {1, 1, 1, 1}}, {5, {1, 2, 5, 5}}, {8, {1, 2, 4, 8}}, {20000, {1, 2, 4, 8}}};
    const char *path = folder(name, 64, 7);
    struct mg_session *first = begun(path, 0, flags), *second = begun(path, 1, flags);
    struct mg_held a, b;
    IS(mg_take(first, "db", MG_EX, 0, &a), MG_OK);
    IS(mg_set_rest(second, notes, NULL), MG_OK);
    for (size_t i = 0; i < sizeof wanted / sizeof wanted[0]; i++) {
        if (wanted[i].bound > 0)
            IS(mg_set_interval(second, wanted[i].bound), MG_OK);
        pauses.count = 0;
        IS(mg_take(second, "db", MG_EX, -1, &b), MG_STOPPED);
        for (int k = 0; k < 4; k++)
            IS(pauses.lengths[k], wanted[i].lengths[k]);
    }
    IS(mg_give(first, a.lock, NULL), MG_OK);
    IS(locks_of(path), 0);
    mg_end(first);
    mg_end(second);
}

static void takes_db(const char *path) {
    static struct mg_held held;
    IS(mg_take(begun(path, 0, 0), "db", MG_EX, 0, &held), MG_OK);
}

static void takes_db_shared(const char *path) {
    static struct mg_held held;
    IS(mg_take(begun(path, 0, MG_SHARE), "db", MG_EX, 0, &held), MG_OK);
}

/* The first pause of a wait is told, and lasts. */
static int waits(void *with, int length) {
    (void)with;
    (void)length;
    return write(told_to, "\1", 1) != 1 || pause();
}

static void waits_for_db(const char *path) {
    static struct mg_held held;
    struct mg_session *session = begun(path, 0, 0);
    IS(mg_set_rest(session, waits, NULL), MG_OK);
    IS(mg_take(session, "db", MG_EX, -1, &held), MG_OK);
}

static void waits_for_db_shared(const char *path) {
    static struct mg_held held;
    struct mg_session *session = begun(path, 0, MG_SHARE);
    IS(mg_set_rest(session, waits, NULL), MG_OK);
    IS(mg_take(session, "db", MG_EX, -1, &held), MG_OK);
}

static void left_over(void) {
    const char *path = folder("left", 128, 7);
    struct mg_session *session, *other;
    struct mg_held a, b;
    unsigned count = 5;
    killed(takes_db, path);
    IS(locks_of(path), 1);
    session = begun(path, 0, 0);
    IS(locks_of(path), 0);
    mg_end(session);
    /* It is kept on request, and taken then without a command. */
    killed(takes_db, path);
    session = begun(path, 0, MG_KEEP);
    IS(locks_of(path), 1);
    IS(mg_take(session, "db", MG_PR, 0, &b), MG_TIMED_OUT);
    IS(mg_take(session, "db", MG_EX, 0, &a), MG_OK);
    IS(a.slot, -1);
    IS(mg_take(session, "db", MG_EX, 0, &b), MG_TIMED_OUT);
    IS(mg_give(session, a.lock, NULL), MG_OK);
    IS(locks_of(path), 0);
    mg_end(session);
    /* It was killed while it waited. */
    other = begun(path, 1, 0);
    IS(mg_take(other, "db", MG_EX, 0, &b), MG_OK);
    killed(waits_for_db, path);
    killed(waits_for_db_shared, path);
    IS(locks_of(path), 3);
    session = begun(path, 0, 0);
    IS(locks_of(path), 1);
    mg_end(session);
    killed(waits_for_db_shared, path);
    IS(mg_give(other, b.lock, NULL), MG_OK);
    mg_end(other);
    session = begun(path, 0, MG_SHARE);
    IS(mg_take(session, "db", MG_EX, 60000, &b), MG_OK);
    IS(mg_give(session, b.lock, NULL), MG_OK);
    IS(locks_of(path), 0);
    mg_end(session);
    /* With MG_SHARE: the next call of anybody under the number releases it, and a wait of the same number does. */
    killed(takes_db_shared, path);
    session = begun(path, 0, MG_SHARE);
    IS(locks_of(path), 1);
    IS(mg_take(session, "db", MG_EX, 0, &a), MG_OK);
    IS(mg_give(session, a.lock, NULL), MG_OK);
    IS(a.released, 1);
    killed(takes_db_shared, path);
    IS(mg_take(session, "db", MG_EX, 60000, &a), MG_OK);
    IS(a.released, 1);
    /* One that lives is left alone, by both kinds; and a session of the other kind leaves what it does not know. */
    other = begun(path, 0, MG_SHARE);
    IS(mg_recover(other, 0, &count), MG_OK);
    IS(count, 0);
    mg_end(other);
    other = begun(path, 0, 0);
    IS(mg_recover(other, MG_ALL, &count), MG_OK);
    IS(count, 0);
    mg_end(other);
    IS(mg_check(session, a.lock), MG_OK);
    IS(mg_give(session, a.lock, NULL), MG_OK);
    killed(takes_db, path);
    IS(mg_recover(session, 0, &count), MG_OK);
    IS(count, 0);
    IS(mg_recover(session, MG_ALL, &count), MG_OK);
    IS(count, 1);
    mg_end(session);
    /* Without its sign a lock stays until all are to be released. */
    killed(takes_db_shared, path);
    {
        char command[400];
        snprintf(command, sizeof command, "rm %s/mg-lock.7.0.*", path);
        IS(system(command), 0);
    }
    session = begun(path, 0, MG_SHARE);
    IS(mg_recover(session, 0, &count), MG_OK);
    IS(count, 0);
    IS(mg_recover(session, MG_ALL, &count), MG_OK);
    IS(count, 1);
    mg_end(session);
    IS(locks_of(path), 0);
}

/* Under a number of its own, once two locks are in the table. */
static int purges_who_waits(const char *path) {
    struct mg_session *session;
    struct mg_host *host;
    size_t count = 0;
    int status = mg_begin(path, 2, 0, &session, NULL);
    if (status == MG_OK)
        status = mg_host_of(session, &host);
    while (status == MG_OK && count < 2) {
        usleep(1000);
        status = mg_look(host, NULL);
        if (status == MG_OK)
            status = mg_locks(host, NULL, 0, &count);
    }
    if (status == MG_OK)
        status = mg_purge(host, 9, 2, 0, NULL);
    mg_end(session);
    return status != MG_OK;
}

static void purged(void) {
    const char *path = folder("purged", 128, 7);
    struct mg_session *session = begun(path, 1, 0), *alive = begun(path, 0, 0), *shares;
    struct mg_host *host;
    struct mg_held a, b;
    unsigned count = 5;
    IS(mg_take(alive, "db", MG_EX, 0, &a), MG_OK);
    IS(mg_purge_dead(session, 0, &count), MG_HOST_IN_USE);
    IS(count, 0);
    IS(locks_of(path), 1);
    mg_end(alive);
    IS(mg_take(session, "db", MG_EX, 0, &b), MG_TIMED_OUT);
    IS(mg_purge_dead(session, 0, &count), MG_OK);
    IS(count, 1);
    IS(mg_take(session, "db", MG_EX, 0, &b), MG_OK);
    IS(mg_purge_dead(session, 0, &count), MG_OK);
    IS(count, 0);
    /* One that shares the number has it only now and then, and its sign tells. */
    shares = begun(path, 0, MG_SHARE);
    IS(mg_take(shares, "other", MG_EX, 0, &a), MG_OK);
    IS(mg_purge_dead(session, 0, &count), MG_HOST_IN_USE);
    IS(mg_check(shares, a.lock), MG_OK);
    mg_end(shares);
    IS(mg_purge_dead(session, 0, &count), MG_OK);
    IS(count, 1);
    /* A purge of one that lives is told: by a check, by a wait, and by giving. */
    shares = begun(path, 0, MG_SHARE);
    IS(mg_take(shares, "other", MG_EX, 0, &a), MG_OK);
    IS(mg_host_of(session, &host), MG_OK);
    IS(mg_purge(host, 9, 1, 0, NULL), MG_OK);
    IS(mg_check(shares, a.lock), MG_NO_SUCH_LOCK);
    IS(mg_give(shares, a.lock, NULL), MG_NO_SUCH_LOCK);
    if (fork() == 0)
        _exit(purges_who_waits(path));
    IS(mg_take(shares, "db", MG_EX, 120000, &a), MG_NO_SUCH_LOCK);
    IS(a.lock, 0);
    wait(NULL);
    mg_end(shares);
    mg_end(session);
}

static void full(void) {
    const char *path = folder("full", 5, 8);
    struct mg_session *session, *shares;
    struct mg_held a, b;
    unsigned count;
    session = begun(path, 0, 0);
    shares = begun(path, 1, MG_SHARE);
    IS(mg_take(session, "db", MG_EX, 0, &a), MG_OK);
    IS(mg_take(shares, "other", MG_EX, 0, &b), MG_OK);
    IS(mg_give(shares, b.lock, NULL), MG_OK);
    IS(mg_take(shares, "other", MG_EX, 0, &b), MG_OK);
    IS(mg_give(shares, b.lock, NULL), MG_OK);
    IS(mg_take(shares, "other", MG_EX, 0, &b), MG_LOG_FULL);
    IS(b.lock, 0);
    IS(mg_take(shares, "db", MG_EX, 100, &b), MG_LOG_FULL);
    IS(mg_take(session, "other", MG_EX, -1, &b), MG_LOG_FULL);
    IS(mg_give(session, a.lock, NULL), MG_LOG_FULL);
    IS(mg_check(session, a.lock), MG_OK);
    IS(mg_purge_dead(shares, 2, NULL), MG_OK);
    mg_end(session);
    mg_end(shares);
    IS(locks_of(path), 1);
    /* What stays is told. */
    IS(mg_begin(path, 0, 0, &session, NULL), MG_LOG_FULL);
    IS(session == NULL, 1);
    shares = begun(path, 0, MG_SHARE);
    IS(mg_recover(shares, 0, &count), MG_OK);
    IS(mg_stay(shares), 0);
    IS(mg_recover(shares, MG_ALL, &count), MG_LOG_FULL);
    IS(count, 0);
    IS(mg_stay(shares), 1);
    IS(mg_stay(NULL), 0);
    mg_end(shares);
}

/* The last slot of a log is a purge. */
static void purged_in_full(const char *name, unsigned flags) {
    const char *path = folder(name, 2, 8);
    struct mg_session *session = begun(path, 0, flags);
    struct mg_host *host;
    struct mg_held a;
    IS(mg_take(session, "db", MG_EX, 0, &a), MG_OK);
    IS(mg_check(session, a.lock), MG_OK);
    IS(mg_open(path, 1, &host, NULL), MG_OK);
    IS(mg_purge(host, 9, 1, 0, NULL), MG_OK);
    mg_close(host);
    IS(mg_check(session, a.lock), MG_NO_SUCH_LOCK);
    mg_end(session);
}

/* What a wait calls to pause uses the session: it is refused, and the wait goes on. */
static struct {
    struct mg_session *session;
    uint32_t lock;
    int count;
} pause_uses;

static int uses(void *with, int length) {
    struct mg_session *session = pause_uses.session;
    struct mg_host *host;
    struct mg_held held;
    (void)with;
    (void)length;
    IS(mg_take(session, "more", MG_EX, 0, &held), MG_BUSY);
    IS(held.lock, 0);
    IS(mg_give(session, pause_uses.lock, NULL), MG_BUSY);
    IS(mg_check(session, pause_uses.lock), MG_BUSY);
    IS(mg_mark_taken(session), MG_BUSY);
    IS(mg_recover(session, 0, NULL), MG_BUSY);
    IS(mg_purge_dead(session, 2, NULL), MG_BUSY);
    IS(mg_host_of(session, &host), MG_BUSY);
    IS(host == NULL, 1);
    mg_end(session);
    return ++pause_uses.count == 3;
}

static void used_while_it_rests(const char *name, unsigned flags) {
    const char *path = folder(name, 64, 7);
    struct mg_session *session = begun(path, 0, flags), *other = begun(path, 1, 0);
    struct mg_held a, b;
    IS(mg_take(other, "db", MG_EX, 0, &b), MG_OK);
    IS(mg_take(session, "a", MG_EX, 0, &a), MG_OK);
    pause_uses.session = session;
    pause_uses.lock = a.lock;
    pause_uses.count = 0;
    IS(mg_set_rest(session, uses, NULL), MG_OK);
    IS(mg_take(session, "db", MG_EX, -1, &b), MG_STOPPED);
    IS(pause_uses.count, 3);
    IS(mg_check(session, a.lock), MG_OK);
    IS(mg_give(session, a.lock, NULL), MG_OK);
    IS(locks_of(path), 1);
    mg_end(session);
    mg_end(other);
}

/* Images of another cluster number come to stand in the folder: nothing that is known is looked for there. */
static void other_images(const char *name, unsigned flags) {
    char path[300], moved[300], other[300], new_name[40];
    struct mg_session *session;
    struct mg_held a, b;
    snprintf(new_name, sizeof new_name, "%s_new", name);
    snprintf(path, sizeof path, "%s", folder(name, 64, 7));
    snprintf(other, sizeof other, "%s", folder(new_name, 64, 8));
    snprintf(moved, sizeof moved, "%s/%s_moved", work, name);
    session = begun(path, 0, flags);
    IS(mg_take(session, "db", MG_EX, 0, &a), MG_OK);
    IS(a.cluster, 7);
    IS(rename(path, moved), 0);
    IS(rename(other, path), 0);
    IS(mg_check(session, a.lock), MG_WRONG_HEADER);
    IS(mg_take(session, "other", MG_EX, 0, &b), MG_WRONG_HEADER);
    IS(rename(path, other), 0);
    IS(rename(moved, path), 0);
    IS(mg_check(session, a.lock), MG_OK);
    IS(mg_give(session, a.lock, NULL), MG_OK);
    mg_end(session);
}

/* A folder's name that does not begin at the root is of the program's folder as the session begins. */
static void elsewhere(void) {
    const char *path = folder("elsewhere", 64, 7);
    char *back = getcwd(NULL, 0);
    struct mg_session *session;
    struct mg_held a;
    IS(chdir(work), 0);
    session = begun("elsewhere", 0, MG_SHARE);
    IS(mg_take(session, "db", MG_EX, 0, &a), MG_OK);
    IS(chdir("/"), 0);
    IS(mg_check(session, a.lock), MG_OK);
    IS(mg_give(session, a.lock, NULL), MG_OK);
    mg_end(session);
    IS(chdir(back), 0);
    free(back);
    IS(locks_of(path), 0);
}

/* The last lock number that there is, of the last host and the last client. */
static void last_number(void) {
    const char *path = folder("last", 64, 7);
    struct mg_session *session;
    struct mg_host *host;
    struct mg_held a;
    unsigned count;
    IS(mg_open(path, 15, &host, NULL), MG_OK);
    IS(mg_enqueue(host, 255, 1998, 5, MG_NL, "x", 0, NULL), MG_OK);
    mg_close(host);
    session = begun(path, 15, MG_SHARE);
    IS(mg_take(session, "db", MG_EX, 0, &a), MG_OK);
    IS(a.lock, 65535);
    IS(mg_check(session, a.lock), MG_OK);
    mg_end(session);
    session = begun(path, 15, MG_SHARE);
    IS(mg_recover(session, 0, &count), MG_OK);
    IS(count, 1);
    mg_end(session);
}

/* Cuts two of three images off, so that their calls fail, and puts them back. */
static void cut_off(const char *path, int disk, int back) {
    char from[300], to[300];
    snprintf(from, sizeof from, "%s/disk%d.img", path, disk);
    snprintf(to, sizeof to, "%s/lost%d.img", path, disk);
    IS(rename(back ? to : from, back ? from : to), 0);
}

/* Empties an image, so that each call on it fails, whoever has it open; or fills it again. */
static void empty(const char *path, int disk, int fills) {
    static char *kept[2];
    static struct stat facts;
    char name[300];
    int file;
    snprintf(name, sizeof name, "%s/disk%d.img", path, disk);
    file = open(name, O_RDWR);
    if (!fills) {
        IS(fstat(file, &facts), 0);
        kept[disk] = malloc((size_t)facts.st_size);
        IS(pread(file, kept[disk], (size_t)facts.st_size, 0), facts.st_size);
        IS(ftruncate(file, 0), 0);
    } else {
        IS(pwrite(file, kept[disk], (size_t)facts.st_size, 0), facts.st_size);
        free(kept[disk]);
    }
    close(file);
}

/* A session that had to give the number up, since the disks were away, keeps its locks. */
static void lost_number(void) {
    const char *path = folder("number", 128, 7);
    struct mg_session *session = begun(path, 0, 0), *other;
    struct mg_held a, b;
    IS(mg_take(session, "db", MG_EX, 0, &a), MG_OK);
    empty(path, 0, 0);
    empty(path, 1, 0);
    IS(mg_take(session, "other", MG_EX, 0, &b), MG_NO_MAJORITY);
    IS(mg_take(session, "other", MG_EX, 0, &b), MG_NO_MAJORITY);
    empty(path, 0, 1);
    empty(path, 1, 1);
    other = begun(path, 0, 0);
    IS(locks_of(path), 1);
    IS(mg_take(other, "db", MG_EX, 0, &b), MG_TIMED_OUT);
    IS(mg_take(session, "other", MG_EX, 0, &b), MG_HOST_IN_USE);
    IS(mg_give(session, a.lock, NULL), MG_HOST_IN_USE);
    mg_end(other);
    IS(mg_check(session, a.lock), MG_OK);
    IS(mg_give(session, a.lock, NULL), MG_OK);
    IS(mg_take(session, "other", MG_EX, 0, &b), MG_OK);
    mg_end(session);
}

static void lost_disks(void) {
    const char *path = folder("lost", 128, 7);
    struct mg_session *shares = begun(path, 1, MG_SHARE), *session = NULL;
    struct mg_held a, b;
    IS(mg_take(shares, "db", MG_EX, 0, &a), MG_OK);
    cut_off(path, 0, 0);
    session = begun(path, 0, 0);
    IS(mg_take(session, "db", MG_EX, 20, &b), MG_TIMED_OUT);
    mg_end(session);
    cut_off(path, 1, 0);
    IS(mg_begin(path, 0, 0, &session, NULL), MG_NO_MAJORITY);
    IS(mg_take(shares, "other", MG_EX, 0, &b), MG_NO_MAJORITY);
    if (fork() == 0) {
        usleep(300000);
        cut_off(path, 0, 1);
        cut_off(path, 1, 1);
        _exit(failures != 0);
    }
    IS(mg_give(shares, a.lock, NULL), MG_OK); /* it waits for the disks */
    wait(NULL);
    IS(locks_of(path), 0);
    mg_end(shares);
}

/* Somebody who counts for himself uses our client and our lock numbers. */
static void wrong_use(void) {
    const char *path = folder("wrong", 128, 7);
    struct mg_host *host;
    struct mg_session *session;
    struct mg_answer answer;
    struct mg_held a;
    IS(mg_open(path, 1, &host, NULL), MG_OK);
    IS(mg_enqueue(host, 240, 1, 1540, MG_EX, "taken", 0, &answer), MG_OK);
    session = begun(path, 0, 0);
    /* The number that comes next is in the table, and is another host's: it is passed. */
    IS(mg_take(session, "db", MG_EX, 0, &a), MG_OK);
    IS(a.lock != 1540, 1);
    /* The next request was used meanwhile: its reply, which says granted, is not believed. */
    IS(mg_enqueue(host, 240, 4, 99, MG_EX, "name", 0, &answer), MG_OK);
    IS(answer.reply, MG_GRANTED);
    IS(mg_give(session, a.lock, NULL), MG_OK);
    IS(mg_check(session, a.lock), MG_NO_SUCH_LOCK);
    IS(mg_take(session, "db", MG_EX, 0, &a), MG_OK);
    IS(mg_check(session, a.lock), MG_OK);
    IS(mg_give(session, a.lock, NULL), MG_OK);
    IS(locks_of(path), 2);
    mg_end(session);
    mg_close(host);
}

/* Many lock numbers in a row are taken when they come round again; and a table that is full. */
static void crowded(void) {
    const char *path = folder("crowded", 1024, 7);
    struct mg_session *session = begun(path, 0, 0);
    struct mg_host *host;
    struct mg_held held;
    int status = MG_OK;
    for (int i = 0; i < 250 && status == MG_OK; i++)
        status = mg_take(session, "crowd", MG_NL, 0, &held);
    IS(status, MG_OK);
    IS(mg_host_of(session, &host), MG_OK);
    IS(mg_release(host, 240, 2000, 1, NULL), MG_NO_SUCH_LOCK);
    IS(mg_take(session, "db", MG_EX, 0, &held), MG_OK);
    IS(held.lock, 1536 + 2 * 501); /* requests that do not wait are odd */
    while (status == MG_OK)
        status = mg_take(session, "crowd", MG_NL, 0, &held);
    IS(status, MG_TABLE_FULL);
    IS(locks_of(path), 256);
    mg_end(session);
    session = begun(path, 0, 0);
    IS(locks_of(path), 0);
    mg_end(session);
}

int main(int argc, char **argv) {
    if (argc != 2)
        return 2;
    work = argv[1];
    bad_arguments();
    taken_and_given("alone", 0);
    taken_and_given("sharing", MG_SHARE);
    paced("paced", 0);
    paced("paced_sharing", MG_SHARE);
    left_over();
    purged();
    if (!HAS_NO_END) {
        full();
        purged_in_full("purged_full", 0);
        purged_in_full("purged_full_shared", MG_SHARE);
    }
    for (unsigned flags = 0; flags <= MG_SHARE; flags += MG_SHARE) {
        used_while_it_rests(flags ? "resting_shared" : "resting", flags);
        other_images(flags ? "other_shared" : "other", flags);
    }
    elsewhere();
    last_number();
    lost_disks();
    lost_number();
    wrong_use();
    crowded();
    if (failures == 0)
        puts("sessions: as they should be");
    return failures != 0;
}
