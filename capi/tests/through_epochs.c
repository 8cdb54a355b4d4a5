/*
 * Sessions over a log without an end, through ends of epochs: one alone, many that are killed while disks come and go, a wait that a command without a mark stands
 * before, and device calls that fail, or at which the process dies, just as an epoch ends. Linked as device_faults.c says.
 *
 *   through_epochs FOLDER [TAKES]      an empty folder; how many takes of each process, 60 if left out
 */
#include <mg_session.h>

#include <fcntl.h>
#include <signal.h>
#include <stdbool.h>
#include <stdlib.h>
#include <sys/file.h>
#include <sys/mman.h>
#include <sys/stat.h>
#include <sys/wait.h>
#include <time.h>
#include <unistd.h>

#include "device_faults.h"
#include "endless.h"
#include "expect.h"
#include "tried.h"

enum { DISKS = 3, PROCESSES = 6, OPERATOR = 14, OTHER = 13, CLIENT = 7, BEFORE_AN_END = 2, STEP = 100 };

static const char *work;

static const char *folder(const char *name) {
    static char path[300];
    snprintf(path, sizeof path, "%s/%s", work, name);
    IS(mkdir(path, 0777), 0);
    IS(lay_out(path, DISKS), 1);
    return path;
}

static struct mg_session *begun(const char *path, unsigned host, unsigned flags) {
    struct mg_session *session = NULL;
    int status = mg_begin(path, host, flags, &session, NULL);
    expect(status == MG_OK, "mg_begin of host %u said %d: %s", host, status, mg_cause());
    if (status != MG_OK)
        exit(1);
    return session;
}

static int64_t milliseconds(void) {
    struct timespec now;
    clock_gettime(CLOCK_MONOTONIC, &now);
    return (int64_t)now.tv_sec * 1000 + now.tv_nsec / 1000000;
}

/* A host that knows all. */
static struct mg_host *operator_of(const char *path, unsigned number) {
    struct mg_host *host = NULL;
    int status = mg_open(path, number, &host, NULL);
    expect(status == MG_OK, "mg_open said %d", status);
    while (status == MG_OK && (status = mg_mark(host, NULL)) == MG_OUTRUN)
        ;
    expect(status == MG_OK, "mg_mark said %d", status);
    return host;
}

static size_t locks_on(const char *path, const char *name) {
    struct mg_lock_view all[MG_LOCKS];
    struct mg_host *host = operator_of(path, OPERATOR);
    size_t count = 0, found = 0;
    IS(mg_locks(host, all, MG_LOCKS, &count), MG_OK);
    for (size_t i = 0; i < count; i++)
        found += strcmp(all[i].name, name) == 0;
    mg_close(host);
    return found;
}

/* ---- one alone ---- */

/* Each take reads the value that the give before it has stored, and has a greater slot. */
static void alone(const char *name, unsigned flags, int takes) {
    const char *path = folder(name);
    struct mg_session *session = begun(path, 0, flags);
    struct mg_host *host;
    uint64_t epoch = 0, slots = 0;
    int64_t slot = -1;
    snprintf(tried, sizeof tried, "%s", name);
    for (uint32_t i = 0; i < (uint32_t)takes; i++) {
        unsigned char value[MG_VALUE_LENGTH] = {0};
        uint32_t stored;
        struct mg_held keeps, held;
        /* The value goes with the name's last lock. */
        if (i == 0)
            IS(mg_take(session, "db", MG_NL, 0, &keeps), MG_OK);
        int status = mg_take(session, "db", MG_EX, i % 2 ? 1000 : 0, &held);
        expect(status == MG_OK, "take %u said %d", (unsigned)i, status);
        if (status != MG_OK)
            break;
        memcpy(&stored, held.value.bytes, sizeof stored);
        expect(stored == i && (held.value.flags & MG_VALID), "take %u read %u", (unsigned)i, (unsigned)stored);
        expect(held.slot > slot && held.cluster == CLUSTER && held.slots_left == UINT64_MAX, "take %u has slot %lld after %lld", (unsigned)i, (long long)held.slot, (long long)slot);
        slot = held.slot;
        if (i % 50 == 0)
            IS(mg_check(session, held.lock), MG_OK);
        stored++;
        memcpy(value, &stored, sizeof stored);
        status = mg_give(session, held.lock, value);
        expect(status == MG_OK, "give %u said %d", (unsigned)i, status);
    }
    IS(mg_host_of(session, &host), MG_OK);
    IS(mg_look(host, NULL), MG_OK);
    IS(mg_epoch(host, &epoch, &slots, NULL), MG_OK);
    IS(slots, SLOTS);
    expect((int)epoch >= 2 * takes / SLOTS, "it is in epoch %d", (int)epoch);
    IS(mg_mark(host, NULL), flags & MG_SHARE ? MG_ONLY_LOOKS : MG_OK);
    IS(mg_has_number(session), flags & MG_SHARE ? 0 : 1);
    mg_end(session);
    IS(locks_on(path, "db"), 1);
    session = begun(path, 0, flags);
    IS(mg_recover(session, 0, NULL), MG_OK);
    IS(locks_on(path, "db"), 0);
    mg_end(session);
}

/* ---- many ---- */

static struct shared {
    volatile long counted;
    volatile long ended[PROCESSES];
    volatile long two, behind;
    volatile int64_t slot;
} *shared;

/* Three pairs: two of each of hosts 0 and 1 share it, and hosts 2 and 3 are sessions of their own. */
static unsigned host_of(int process) { return process < 4 ? (unsigned)process / 2 : (unsigned)process - 2; }

/* One of each kind answers before its mark. */
static unsigned flags_of(int process) { return (process < 4 ? MG_SHARE : 0) | (process % 4 == 1 ? MG_LATE : 0); }

static void count(const char *path, int process, long takes) {
    char guard[400];
    struct mg_session *session;
    snprintf(guard, sizeof guard, "%s/guard", work);
    srand((unsigned)getpid());
    /* The number of one that was killed may be in use for a moment. */
    for (;;) {
        int status = mg_begin(path, host_of(process), flags_of(process), &session, NULL);
        if (status == MG_OK)
            break;
        expect(status == MG_HOST_IN_USE || status == MG_OUTRUN || status == MG_NO_MAJORITY, "mg_begin said %d", status);
        usleep(20000);
    }
    while (shared->ended[process] < takes) {
        struct mg_held held;
        int status = mg_take(session, "db", MG_EX, -1, &held), file;
        long counted;
        if (status == MG_NO_MAJORITY || status == MG_HOST_IN_USE || status == MG_IN_DOUBT || status == MG_UNREADABLE) {
            usleep(10000);
            continue;
        }
        expect(status == MG_OK, "mg_take of process %d said %d: %s", process, status, mg_cause());
        if (status != MG_OK)
            _exit(1);
        file = open(guard, O_RDWR | O_CREAT | O_CLOEXEC, 0666);
        if (flock(file, LOCK_EX | LOCK_NB) != 0)
            shared->two++;
        if (held.slot <= shared->slot)
            shared->behind++;
        shared->slot = held.slot;
        counted = shared->counted;
        usleep((useconds_t)rand() % 1000);
        shared->counted = counted + 1;
        close(file);
        do
            status = mg_give(session, held.lock, NULL);
        while (status == MG_IN_DOUBT || status == MG_NO_MAJORITY);
        expect(status == MG_OK || status == MG_NO_SUCH_LOCK, "mg_give of process %d said %d", process, status);
        shared->ended[process]++;
    }
    mg_end(session);
    _exit(failures != 0);
}

static pid_t begin_to_count(const char *path, int process, long takes) {
    pid_t child = fork();
    if (child == 0)
        count(path, process, takes);
    return child;
}

static void move_disk(const char *path, int disk, bool is_back) {
    char there[400], away[400];
    snprintf(there, sizeof there, "%s/disk%d.img", path, disk);
    snprintf(away, sizeof away, "%s/lost%d", path, disk);
    IS(rename(is_back ? away : there, is_back ? there : away), 0);
}

/* Never two at once, and each later one has a greater slot. `kills` of the processes are killed at any moment, and begin again; and now and then a disk is away. */
static void many(long takes, int kills, bool moves) {
    const char *path = folder(moves ? "disks" : kills ? "killed" : "many");
    pid_t children[PROCESSES];
    int living = PROCESSES, away = -1;
    long done = 0;
    snprintf(tried, sizeof tried, "%d that count, %d kills%s", PROCESSES, kills, moves ? ", disks come and go" : "");
    memset(shared, 0, sizeof *shared);
    shared->slot = -1;
    for (int i = 0; i < PROCESSES; i++)
        children[i] = begin_to_count(path, i, takes);
    while (living > 0) {
        usleep(20000 + (useconds_t)rand() % 30000);
        if (moves && rand() % 4 == 0) {
            if (away >= 0)
                move_disk(path, away, true);
            away = away >= 0 ? -1 : rand() % DISKS;
            if (away >= 0)
                move_disk(path, away, false);
        }
        for (int i = 0; i < PROCESSES; i++) {
            int status;
            if (children[i] == 0)
                continue;
            if (kills > 0 && rand() % 12 == 0) {
                kill(children[i], SIGKILL);
                kills--;
            }
            if (waitpid(children[i], &status, WNOHANG) != children[i])
                continue;
            if (WIFSIGNALED(status)) {
                children[i] = begin_to_count(path, i, takes);
                continue;
            }
            IS(WEXITSTATUS(status), 0);
            children[i] = 0;
            living--;
        }
    }
    if (away >= 0)
        move_disk(path, away, true);
    for (int i = 0; i < PROCESSES; i++)
        done += shared->ended[i];
    expect(shared->two == 0, "two were there at once, %ld times", shared->two);
    expect(shared->behind == 0, "a slot was no greater than the one before it, %ld times", shared->behind);
    expect(shared->counted >= done, "counted %ld, done %ld", shared->counted, done);
    for (unsigned host = 0; host < 4; host++) {
        struct mg_session *session = begun(path, host, MG_SHARE);
        int status = mg_recover(session, MG_ALL, NULL);
        expect(status == MG_OK, "mg_recover of host %u said %d", host, status);
        mg_end(session);
    }
    IS(locks_on(path, "db"), 0);
    printf("%s: counted %ld\n", tried, shared->counted);
}

/* ---- a command without a mark ---- */

/* No look passes it, so who waits recovers once there was no news for long. */
static void waits_behind(unsigned flags) {
    const char *path = folder(flags ? "unmarked_shared" : "unmarked");
    struct mg_session *holder = begun(path, 1, 0), *session;
    struct mg_held db, held;
    int64_t start;
    pid_t child = fork();
    int status;
    snprintf(tried, sizeof tried, "a command without a mark, flags %u", flags);
    if (child == 0) {
        session = begun(path, 0, flags);
        status = mg_take(session, "db", MG_EX, 120000, &held);
        expect(status == MG_OK, "mg_take said %d", status);
        IS(mg_give(session, held.lock, NULL), MG_OK);
        mg_end(session);
        _exit(failures != 0);
    }
    IS(mg_take(holder, "db", MG_EX, 0, &db), MG_OK);
    while (locks_on(path, "db") < 2)
        usleep(10000);
    if (fork() == 0) {
        session = begun(path, 2, MG_LATE);
        _exit(mg_take(session, "other", MG_EX, 0, &held) != MG_OK);
    }
    IS(wait(&status) != child && status == 0, 1);
    start = milliseconds();
    IS(mg_give(holder, db.lock, NULL), MG_OK);
    IS(waitpid(child, &status, 0), child);
    IS(status, 0);
    start = milliseconds() - start;
    expect(start < 60000, "it got the lock after %ld ms", (long)start);
    mg_end(holder);
}

/* ---- faults as an epoch ends ---- */

/* Fills an epoch, so that but few of its slots are left. */
static void fill(const char *path, uint64_t left) {
    static uint64_t request = 0;
    struct mg_host *host = operator_of(path, OTHER);
    uint64_t used = 0;
    for (;;) {
        IS(mg_epoch(host, NULL, NULL, &used), MG_OK);
        if (used >= SLOTS - left)
            break;
        (void)mg_status(host, CLIENT, ++request, 1, NULL);
    }
    mg_close(host);
}

/* Whether a call of the give failed, and then it is given once more. */
static bool gives_at_an_end(const char *path, unsigned flags, uint64_t left, long calls) {
    struct mg_session *session = begun(path, 0, flags);
    struct mg_held held, again;
    int said, then = MG_OK, status = mg_take(session, "db", MG_EX, 60000, &held);
    bool was_due;
    snprintf(tried, sizeof tried, "give, flags %u, fault after %ld calls, %d slots are left", flags, calls, (int)left);
    expect(status == MG_OK, "mg_take said %d", status);
    fill(path, left);
    fail_after(calls);
    said = mg_give(session, held.lock, NULL);
    was_due = end_faults();
    if (said != MG_OK)
        then = mg_give(session, held.lock, NULL);
    expect(then == MG_OK || (then == MG_NO_SUCH_LOCK && said == MG_IN_DOUBT), "mg_give said %d, and then %d", said, then);
    IS(locks_on(path, "db"), 0);
    status = mg_take(session, "db", MG_EX, 60000, &again);
    expect(status == MG_OK && again.slot > held.slot, "the next mg_take said %d, slot %lld after %lld", status, (long long)again.slot, (long long)held.slot);
    IS(mg_give(session, again.lock, NULL), MG_OK);
    mg_end(session);
    return was_due;
}

/* The same of a take. What it left in the table, if it was refused, goes with the next call. */
static bool takes_at_an_end(const char *path, unsigned flags, uint64_t left, long calls) {
    struct mg_session *session = begun(path, 0, flags), *other;
    struct mg_held held, again;
    int said, status;
    bool was_due;
    snprintf(tried, sizeof tried, "take, flags %u, fault after %ld calls, %d slots are left", flags, calls, (int)left);
    fill(path, left);
    fail_after(calls);
    said = mg_take(session, "db", MG_EX, calls % 2 ? 300 : 0, &held);
    was_due = end_faults();
    expect(said != MG_OK || locks_on(path, "db") == 1, "mg_take said MG_OK, and the table has no such lock");
    if (said == MG_OK) {
        other = begun(path, 1, flags);
        status = mg_take(other, "db", MG_EX, 0, &again);
        expect(status == MG_TIMED_OUT, "another one's mg_take said %d", status);
        mg_end(other);
        IS(mg_give(session, held.lock, NULL), MG_OK);
    }
    status = mg_take(session, "db", MG_EX, 60000, &again);
    expect(status == MG_OK, "mg_take said %d, and the next one %d", said, status);
    IS(mg_give(session, again.lock, NULL), MG_OK);
    IS(locks_on(path, "db"), 0);
    mg_end(session);
    return was_due;
}

/* Whether it died in the midst. What it left is released by the next run. */
static bool dies_at_an_end(const char *path, unsigned flags, uint64_t left, long calls) {
    struct mg_session *session;
    struct mg_held held;
    int status;
    pid_t child;
    snprintf(tried, sizeof tried, "death, flags %u, after %ld calls, %d slots are left", flags, calls, (int)left);
    fill(path, left);
    child = fork();
    if (child == 0) {
        session = begun(path, 0, flags);
        die_after(calls);
        status = mg_take(session, "db", MG_EX, 0, &held);
        if (status == MG_OK)
            (void)mg_give(session, held.lock, NULL);
        (void)end_faults();
        mg_end(session);
        _exit(status);
    }
    IS(waitpid(child, &status, 0), child);
    session = begun(path, 0, flags);
    expect(mg_take(session, "db", MG_EX, 60000, &held) == MG_OK, "the next run did not get the lock");
    IS(mg_give(session, held.lock, NULL), MG_OK);
    mg_end(session);
    IS(locks_on(path, "db"), 0);
    return WIFSIGNALED(status);
}

static void at_ends(const char *name, bool (*tries)(const char *path, unsigned flags, uint64_t left, long calls)) {
    long count = 0;
    for (unsigned flags = 0; flags <= MG_SHARE; flags += MG_SHARE)
        for (uint64_t left = 0; left <= BEFORE_AN_END; left++) {
            char below[100];
            const char *path;
            long calls = 0;
            snprintf(below, sizeof below, "%s_%u_%u", name, flags, (unsigned)left);
            path = folder(below);
            while (tries(path, flags, left, calls)) {
                calls += 1 + rand() % STEP;
                count++;
            }
            expect(calls > 50, "that was the last place of failure");
        }
    printf("%s at ends of epochs: %ld\n", name, count);
}

int main(int argc, char **argv) {
    long takes = argc > 2 ? atol(argv[2]) : 60;
    if (argc < 2)
        return 2;
    work = argv[1];
    setvbuf(stdout, NULL, _IOLBF, 0);
    shared = mmap(NULL, sizeof *shared, PROT_READ | PROT_WRITE, MAP_SHARED | MAP_ANONYMOUS, -1, 0);
    if (shared == MAP_FAILED)
        return 2;
    alone("alone", 0, 400);
    alone("sharing", MG_SHARE, 200);
    alone("late", MG_LATE, 200);
    alone("late_sharing", MG_LATE | MG_SHARE, 200);
    waits_behind(0);
    waits_behind(MG_SHARE);
    many(takes, 0, false);
    many(takes, (int)takes / 2, false);
    many(takes, (int)takes / 2, true);
    at_ends("gives", gives_at_an_end);
    at_ends("takes", takes_at_an_end);
    at_ends("deaths", dies_at_an_end);
    if (failures == 0)
        puts("through_epochs: as they should be");
    return failures != 0;
}
