/*
 * What is in doubt where device calls fail in the midst of a take or a give, where another process of the host number dies, where a wait
 * gives up in a full log, and where a lock was purged: no call says MG_OK of what is not so, no value is lost that was said to be kept,
 * and what a refused take left goes with the session's next call. The calls fail, or the process dies, at each device call in turn.
 * Linked as device_faults.c says.
 *
 *   doubt FOLDER      an empty folder
 */
#include <mg_session.h>

#include <signal.h>
#include <stdarg.h>
#include <stdlib.h>
#include <sys/stat.h>
#include <sys/types.h>
#include <sys/wait.h>
#include <unistd.h>

#include "device_faults.h"
#include "expect.h"
#include "tried.h"

enum { IN_DOUBT = -6, TRIES_OF_A_FOLDER = 8, LOG_SLOTS = 128, LEAST_CALLS = 10 };

static const char *work;
static const unsigned char ONE[MG_VALUE_LENGTH] = "the first value";
static const unsigned char TWO[MG_VALUE_LENGTH] = "the second one";

static void remove_images(const char *path) {
    char image[500];
    for (int disk = 0; disk < 3; disk++) {
        snprintf(image, sizeof image, "%s/disk%d.img", path, disk);
        (void)unlink(image);
    }
}

static int tries_left = 0; /* in the folder */

/* A new folder for each few tries: a log that is short is learned soon. */
static const char *folder(void) {
    static char path[400];
    static int count = 0;
    if (tries_left == 0) {
        if (count > 0)
            remove_images(path);
        snprintf(path, sizeof path, "%s/%d", work, count++);
        IS(mkdir(path, 0777), 0);
        IS(mg_format(path, 3, LOG_SLOTS, 7, NULL), MG_OK);
        tries_left = TRIES_OF_A_FOLDER;
    }
    tries_left--;
    return path;
}

static const char *new_folder(void) {
    tries_left = 0;
    return folder();
}

static struct mg_session *begun(const char *path, unsigned host, unsigned flags) {
    struct mg_session *session;
    int status = mg_begin(path, host, flags, &session, NULL);
    expect(status == MG_OK, "mg_begin of host %u said %d", host, status);
    if (status != MG_OK)
        exit(1);
    return session;
}

static struct mg_held taken(struct mg_session *session, const char *name, int mode) {
    struct mg_held held;
    int status = mg_take(session, name, mode, -1, &held);
    expect(status == MG_OK, "mg_take of %s, with nothing in its way, said %d", name, status);
    return held;
}

/* Another host, that knows all that was acknowledged, and what a minority of the disks has besides. */
static struct mg_host *another(const char *path) {
    struct mg_host *host;
    IS(mg_open(path, 5, &host, NULL), MG_OK);
    IS(mg_mark(host, NULL), MG_OK);
    return host;
}

/* How many locks on the name this other host knows. */
static int locks_on(const char *path, const char *name) {
    struct mg_host *host = another(path);
    struct mg_lock_view all[MG_LOCKS];
    size_t count = 0;
    int found = 0;
    IS(mg_locks(host, all, MG_LOCKS, &count), MG_OK);
    for (size_t i = 0; i < count; i++)
        found += strcmp(all[i].name, name) == 0;
    mg_close(host);
    return found;
}

/* ---- a give whose disks fail ---- */

/* "one", "two" or another value, that a host reads which takes the lock and gives it back; NULL: it does not get the lock. */
static const char *read_by(struct mg_session *session, const char *name) {
    struct mg_held held;
    if (mg_take(session, name, MG_EX, 0, &held) != MG_OK)
        return NULL;
    expect(mg_give(session, held.lock, NULL) == MG_OK, "who read the value could not give the lock back");
    if ((held.value.flags & MG_VALID) == 0)
        return "an invalid value";
    if (memcmp(held.value.bytes, ONE, sizeof ONE) == 0)
        return "one";
    return memcmp(held.value.bytes, TWO, sizeof TWO) == 0 ? "two" : "neither";
}

static bool is(const char *seen, const char *wanted) { return seen && strcmp(seen, wanted) == 0; }

static const char *told(const char *seen) { return seen ? seen : "nothing: the lock is not free"; }

/* What has to be read in the end, once the first give was refused. The give of "two" may count only where that of "one" never can. */
static const char *given_again(struct mg_session *first, uint32_t lock, int said, const char *seen) {
    int two, one;
    expect(!seen || said == IN_DOUBT, "mg_give(one) said %d, and its release stands in the log", said);
    expect(!seen || is(seen, "one"), "mg_give(one) said %d; another host got the lock, and read %s", said, told(seen));
    two = mg_give(first, lock, TWO);
    expect(!seen || two != MG_OK, "mg_give(one) said %d, another host read %s, and mg_give(two) said MG_OK then", said, told(seen));
    if (two == MG_OK)
        return seen ? "one" : "two";
    expect(two == MG_BAD_ARGUMENT, "mg_give(one) said %d, and mg_give(two) then %d", said, two);
    one = mg_give(first, lock, ONE);
    expect(one == MG_OK, "mg_give(one) said %d, mg_give(two) then %d, and mg_give(one) then %d", said, two, one);
    return "one";
}

/* Whether a device call of the give failed. */
static bool gives_while_disks_fail(unsigned flags, int next, long calls) {
    static int count = 0;
    const char *path = folder(), *seen, *wanted = "one";
    struct mg_session *keeper = begun(path, 2, 0), *first = begun(path, 0, flags), *second = begun(path, 1, 0);
    struct mg_held held;
    char name[MG_NAME_LENGTH + 1];
    bool failed;
    int said;
    (void)next;
    snprintf(tried, sizeof tried, "give, flags %u, disks fail after %ld calls", flags, calls);
    snprintf(name, sizeof name, "given%d", count++);
    (void)taken(keeper, name, MG_NL); /* a name's value goes with its last lock */
    held = taken(first, name, MG_EX);
    fail_after(calls);
    said = mg_give(first, held.lock, ONE);
    failed = end_faults();
    seen = read_by(second, name);
    if (said == MG_OK)
        expect(is(seen, "one"), "mg_give(one) said MG_OK, and another host read %s", told(seen));
    else
        wanted = given_again(first, held.lock, said, seen);
    seen = read_by(second, name);
    expect(is(seen, wanted), "in the end another host read %s in place of %s", told(seen), wanted);
    mg_end(second);
    mg_end(first);
    mg_end(keeper);
    return failed;
}

/* ---- a purge, and another process of the number that dies ---- */

static void takes_another(const char *path, long calls) {
    struct mg_session *session;
    struct mg_held held;
    die_after(calls);
    if (mg_begin(path, 0, MG_SHARE, &session, NULL) == MG_OK)
        (void)mg_take(session, "another", MG_EX, 0, &held);
    _exit(0);
}

/* Whether the other process died. In a folder of its own, so that both processes come to the same request number. */
static bool gives_what_was_purged(unsigned flags, int next, long calls) {
    const char *path = new_folder();
    struct mg_session *session = begun(path, 0, flags);
    struct mg_answer answer = {0, 0, 0, 0, 0};
    struct mg_held held;
    struct mg_host *host;
    pid_t child;
    int ended, said;
    (void)next;
    snprintf(tried, sizeof tried, "purge, another process dies after %ld calls", calls);
    held = taken(session, "db", MG_EX);
    child = fork();
    if (child == 0)
        takes_another(path, calls);
    IS(waitpid(child, &ended, 0), child);
    IS(mg_open(path, 1, &host, NULL), MG_OK);
    IS(mg_purge(host, 1, 1, 0, &answer), MG_OK);
    expect(answer.purged >= 1, "%u locks were purged", (unsigned)answer.purged);
    mg_close(host);
    said = mg_give(session, held.lock, ONE);
    expect(said == MG_NO_SUCH_LOCK, "mg_give of a lock that was purged said %d", said);
    mg_end(session);
    return WIFSIGNALED(ended);
}

/* ---- what a refused take leaves ---- */

enum { NEXT_CALLS = 3 };
static const char *const NEXT[NEXT_CALLS] = {"mg_take", "mg_give", "mg_check"};

static int call_next(struct mg_session *session, int next, uint32_t lock) {
    struct mg_held held;
    if (next == 0)
        return mg_take(session, "c", MG_NL, 0, &held);
    return next == 1 ? mg_give(session, lock, NULL) : mg_check(session, lock);
}

/* Whether a device call of the take failed. */
static bool takes_while_disks_fail(unsigned flags, int next, long calls) {
    const char *path = folder();
    struct mg_session *session = begun(path, 0, flags);
    struct mg_held a = taken(session, "a", MG_EX), b;
    bool failed;
    int said, left;
    snprintf(tried, sizeof tried, "take, flags %u, disks fail after %ld calls", flags, calls);
    fail_after(calls);
    said = mg_take(session, "b", MG_EX, 0, &b);
    failed = end_faults();
    if (said != MG_OK) {
        int then = call_next(session, next, a.lock);
        expect(then == MG_OK, "mg_take said %d, and %s then %d", said, NEXT[next], then);
        expect((b.lock != 0) == (said == IN_DOUBT), "mg_take said %d, and its lock is %u", said, (unsigned)b.lock);
        left = locks_on(path, "b");
        expect(left == 0, "mg_take said %d, and after the next call, %s, its lock is in the table", said, NEXT[next]);
    }
    mg_end(session);
    return failed;
}

/* It was never held, so a give stores nothing of it, whatever it says. Whether a device call of the take failed. */
static bool gives_what_was_refused(unsigned flags, int next, long calls) {
    static int count = 0;
    const char *path = folder(), *seen;
    struct mg_session *keeper = begun(path, 2, 0), *session = begun(path, 0, flags), *other = begun(path, 1, 0);
    struct mg_held held;
    char name[MG_NAME_LENGTH + 1];
    bool failed;
    int said, given = MG_BAD_ARGUMENT;
    (void)next;
    snprintf(tried, sizeof tried, "give after a refused take, flags %u, disks fail after %ld calls", flags, calls);
    snprintf(name, sizeof name, "doubted%d", count++);
    (void)taken(keeper, name, MG_NL);
    fail_after(calls);
    said = mg_take(session, name, MG_EX, 0, &held);
    if (said == IN_DOUBT)
        given = mg_give(session, held.lock, ONE);
    failed = end_faults();
    if (said == IN_DOUBT) {
        expect(given == MG_BAD_ARGUMENT, "mg_give of a value, and of a lock that was never held, said %d", given);
        given = mg_give(session, held.lock, NULL);
        expect(given == MG_OK, "mg_give of it without a value said %d", given);
        seen = read_by(other, name);
        expect(is(seen, "neither"), "another host read %s", told(seen));
    } else if (said == MG_OK)
        expect(mg_give(session, held.lock, NULL) == MG_OK, "it was taken, and not given back");
    mg_end(other);
    mg_end(session);
    mg_end(keeper);
    return failed;
}

/* ---- a wait that gives up in a full log ---- */

struct filling {
    const char *path;
    int stops; /* whether the wait is told to stop then */
    uint64_t request;
};

/* What a wait calls to pause. The log gets full meanwhile. */
static int fills(void *with, int length) {
    struct filling *filling = with;
    struct mg_host *host;
    (void)length;
    if (filling->request == 0) {
        IS(mg_open(filling->path, 5, &host, NULL), MG_OK);
        while (mg_status(host, 7, ++filling->request, 9, NULL) != MG_LOG_FULL)
            ;
        mg_close(host);
    }
    return filling->stops;
}

/* Its lock goes on waiting in the table, so it cannot say that nothing waits. */
static void gives_up_in_a_full_log(unsigned flags, int stops) {
    struct filling filling = {new_folder(), stops, 0};
    struct mg_session *holder = begun(filling.path, 1, 0), *session = begun(filling.path, 0, flags);
    struct mg_held held;
    int said;
    snprintf(tried, sizeof tried, "wait, flags %u, %s in a full log", flags, stops ? "told to stop" : "out of time");
    (void)taken(holder, "db", MG_EX);
    IS(mg_set_rest(session, fills, &filling), MG_OK);
    said = mg_take(session, "db", MG_EX, stops ? -1 : 300, &held);
    IS(locks_on(filling.path, "db"), 2);
    expect(said != MG_OK && said != MG_TIMED_OUT && said != MG_STOPPED && held.lock != 0,
           "mg_take said %d and named lock %u, and its lock waits in the table", said, (unsigned)held.lock);
    mg_end(session);
    mg_end(holder);
}

/* ---- a mark that fails ---- */

/* It is said again as long as the command has none. A call that opens the folder anew makes it. */
static void marks_while_disks_fail(unsigned flags) {
    const char *path = new_folder();
    struct mg_session *session = begun(path, 0, MG_LATE | flags);
    struct mg_host *eye;
    uint64_t learned = 0;
    snprintf(tried, sizeof tried, "mark, flags %u", flags);
    (void)taken(session, "db", MG_EX);
    fail_after(0);
    expect(mg_mark_taken(session) == MG_NO_MAJORITY, "mg_mark_taken did not say that its calls failed");
    expect(mg_mark_taken(session) > MG_OK, "mg_mark_taken did not say once more that it failed");
    (void)end_faults();
    expect(mg_recover(session, 0, NULL) == MG_OK, "mg_recover did not say MG_OK then");
    expect(mg_mark_taken(session) == MG_OK, "mg_mark_taken did not say MG_OK then");
    IS(mg_open_to_look(path, &eye, NULL), MG_OK);
    IS(mg_look(eye, &learned), MG_OK);
    expect(learned == 1, "mg_mark_taken said MG_OK, and %d commands have a mark", (int)learned);
    mg_close(eye);
    mg_end(session);
}

/* ---- a lock of a former run that was purged, and that another host has now ---- */

static void takes_what_was_kept(int timeout) {
    const char *path = new_folder();
    struct mg_session *session;
    struct mg_answer answer;
    struct mg_host *host;
    struct mg_held held;
    int said;
    pid_t child = fork();
    snprintf(tried, sizeof tried, "kept, and a take of %d ms", timeout);
    if (child == 0) {
        (void)taken(begun(path, 0, 0), "kept", MG_EX);
        raise(SIGKILL);
    }
    IS(waitpid(child, NULL, 0), child);
    session = begun(path, 0, MG_KEEP);
    host = another(path);
    IS(mg_purge(host, 7, 1, 0, &answer), MG_OK);
    IS(answer.purged, 1);
    IS(mg_enqueue(host, 7, 2, 9, MG_EX, "kept", 0, &answer), MG_OK);
    IS(answer.reply, MG_GRANTED);
    mg_close(host);
    said = mg_take(session, "kept", MG_EX, timeout, &held);
    expect(said != MG_OK, "mg_take said MG_OK, slot %d, and another host has the lock", (int)held.slot);
    mg_end(session);
}

/* ---- marks that are refused ---- */

/* Only once a command is marked mg_mark_taken says so, however often it was refused before; and so does mg_mark_now of two commands. */
static void marks_again(unsigned flags, int calls) {
    const char *path = new_folder();
    struct mg_session *session = begun(path, 0, flags | MG_LATE);
    struct mg_host *eye, *host;
    struct mg_held held;
    uint64_t learned;
    int status;
    snprintf(tried, sizeof tried, "a mark that is refused after %d calls, flags %u", calls, flags);
    IS(mg_open_to_look(path, &eye, NULL), MG_OK);
    held = taken(session, "db", MG_EX);
    for (int times = 0; times < 3; times++) {
        fail_after(calls);
        expect(mg_mark_taken(session) != MG_OK, "refused, and it said MG_OK");
        expect(end_faults(), "no call failed");
    }
    IS(mg_mark_taken(session), MG_OK);
    IS(mg_look(eye, &learned), MG_OK);
    expect(learned == 1, "it said MG_OK, and a look learns %d commands", (int)learned);
    IS(mg_give(session, held.lock, NULL), MG_OK);
    mg_end(session);

    IS(mg_open(path, 1, &host, NULL), MG_OK);
    IS(mg_set_late_marks(host, 1), MG_OK);
    IS(mg_enqueue(host, 1, 1, 1, MG_EX, "one", 0, NULL), MG_OK);
    fail_after(calls);
    expect(mg_mark_now(host) != MG_OK, "refused, and it said MG_OK");
    expect(end_faults(), "no call failed");
    status = mg_mark_now(host);
    IS(mg_look(eye, &learned), MG_OK);
    expect((status == MG_OK) == (learned == 3), "mg_mark_now said %d, and a look learns %d commands", status, (int)learned);
    mg_close(host);
    mg_close(eye);
}

/* ---- each place of failure in turn ---- */

/* How many places there are: the fault comes ever later, until it is not met any more. */
static long tried_throughout(bool (*tries)(unsigned flags, int next, long calls), unsigned flags, int next) {
    long calls = 0;
    tries_left = 0; /* what another kind has left is not in its way */
    while (tries(flags, next, calls))
        calls++;
    expect(calls >= LEAST_CALLS, "that was the last place of failure");
    return calls;
}

int main(int argc, char **argv) {
    long gives = 0, deaths, takes = 0;
    if (argc != 2)
        return 2;
    work = argv[1];
    setvbuf(stdout, NULL, _IOLBF, 0); /* a child that dies has nothing left to say */
    for (unsigned flags = 0; flags <= MG_SHARE; flags += MG_SHARE) {
        gives += tried_throughout(gives_while_disks_fail, flags, 0);
        for (int next = 0; next < NEXT_CALLS; next++)
            takes += tried_throughout(takes_while_disks_fail, flags, next);
        takes += tried_throughout(gives_what_was_refused, flags, 0);
        for (int stops = 0; stops < 2 && !HAS_NO_END; stops++)
            gives_up_in_a_full_log(flags, stops);
        marks_while_disks_fail(flags);
    }
    deaths = tried_throughout(gives_what_was_purged, MG_SHARE, 0);
    takes_what_was_kept(0);
    takes_what_was_kept(1000);
    for (int calls = 0; calls < 6; calls++)
        for (unsigned flags = 0; flags <= MG_SHARE; flags += MG_SHARE)
            marks_again(flags, calls);
    printf("doubt: %ld gives and %ld takes whose disks fail, %ld deaths, %d failures\n", gives, takes, deaths, failures);
    return failures != 0;
}
