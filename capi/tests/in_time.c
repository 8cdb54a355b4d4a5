/*
 * How long calls last where the pages say how long, and what is marked meanwhile: locks that are left over, a host number that is somebody's, and a log whose
 * disks are slow. Where the machine has other work a call may be late: so each is tried up to three times, and what is late each time is late by itself. Linked as
 * device_faults.c says.
 *
 *   in_time FOLDER      an empty folder
 */
#include <mg_session.h>

#include <errno.h>
#include <signal.h>
#include <sys/wait.h>
#include <unistd.h>

#include "device_faults.h"
#include "expect.h"
#include "folders.h"

enum { SLOW_SYNC = 10000 };                       /* microseconds */
enum { AT_ONCE = 2000, TRIES = 3 };               /* milliseconds */
enum { MINUTE = 60000, LONGER_THAN_THAT = 66000 }; /* milliseconds */
enum { LEFT = 100, UNMARKED = 8 };

static int late, try; /* how many calls were late in this try, and which it is */

/* A folder for this try. */
static const char *new_folder(const char *name) {
    char of_try[100];
    snprintf(of_try, sizeof of_try, "%s%d", name, try);
    return folder(of_try, 1024, 7);
}

static void in_time(void (*test)(void)) {
    for (try = 0; try < TRIES; try++) {
        late = 0;
        test();
        if (late == 0)
            return;
    }
    failures += late;
}

/* A process of host 0 that takes many locks, and is killed. */
static void leave(const char *path, int many, const char *name) {
    struct mg_session *session;
    struct mg_held held;
    pid_t child = fork();
    if (child == 0) {
        session = begun(path, 0, MG_SHARE);
        while (many-- > 0)
            IS(mg_take(session, name, MG_NL, 0, &held), MG_OK);
        raise(SIGKILL);
    }
    IS(waitpid(child, NULL, 0), child);
}

static void took(int line, int64_t began, int64_t least, int64_t most) {
    int64_t lasted = milliseconds() - began;
    if (lasted < least || lasted > most) {
        printf("line %d: it lasted %ld ms\n", line, (long)lasted);
        late++;
    }
}

#define TOOK(began, least, most) took(__LINE__, began, least, most)

/* A name that is free is taken at once, whatever processes that are gone have left. Later talks release that, by and by, and a recovery releases all. */
static void left_locks(void) {
    const char *path = new_folder("left");
    struct mg_session *session;
    struct mg_held held;
    unsigned released;
    int64_t began;
    size_t stay;
    leave(path, LEFT, "crowd");
    session = begun(path, 0, MG_SHARE);
    set_sync(1000);
    for (int timeout = 0; timeout <= 1000; timeout += 1000) {
        began = milliseconds();
        IS(mg_take(session, "free", MG_EX, timeout, &held), MG_OK);
        TOOK(began, 0, AT_ONCE);
        IS(held.released > 0, 1);
        stay = locks_of(path);
        IS(mg_give(session, held.lock, NULL), MG_OK);
        IS(locks_of(path) < stay - 1, 1);
    }
    set_sync(0);
    IS(locks_of(path) > 0, 1);
    IS(mg_recover(session, 0, &released), MG_OK);
    IS(locks_of(path), 0);
    mg_end(session);
}

/* Somebody who waits for a name gets it at once where its holder was killed. */
static void killed_holder(void) {
    const char *path = new_folder("killed");
    struct mg_session *session = begun(path, 0, MG_SHARE);
    struct mg_held held;
    int64_t died = 0;
    int ready[2];
    char byte;
    pid_t child;
    IS(pipe(ready), 0);
    child = fork();
    if (child == 0) {
        struct mg_session *holder = begun(path, 0, MG_SHARE);
        IS(mg_take(holder, "db", MG_EX, 0, &held), MG_OK);
        IS(write(ready[1], "", 1), 1);
        for (int i = 0; i < 6000 && locks_of(path) < 2; i++)
            usleep(10000);
        usleep(100000); /* it waits for some while */
        died = milliseconds();
        IS(write(ready[1], &died, sizeof died), sizeof died);
        raise(SIGKILL);
    }
    IS(read(ready[0], &byte, 1), 1);
    IS(mg_take(session, "db", MG_EX, 120000, &held), MG_OK);
    IS(read(ready[0], &died, sizeof died), sizeof died);
    TOOK(died, 0, AT_ONCE);
    IS(held.released, 1);
    close(ready[0]);
    close(ready[1]);
    IS(waitpid(child, NULL, 0), child);
    mg_end(session);
}

/* While a session waits, another one has the number for itself, for some minutes. Then the holder lets go. */
static struct {
    const char *path;
    struct mg_session *alone, *holder;
    uint32_t lock;
    int64_t until;
} meanwhile;

static int goes_on(void *with, int length) {
    const struct timespec time = {length / 1000, (long)(length % 1000) * 1000000};
    (void)with;
    if (!meanwhile.alone)
        meanwhile.alone = begun(meanwhile.path, 0, 0);
    nanosleep(&time, NULL);
    if (meanwhile.holder && milliseconds() > meanwhile.until) {
        IS(mg_give(meanwhile.holder, meanwhile.lock, NULL), MG_OK);
        mg_end(meanwhile.holder);
        meanwhile.holder = NULL;
    }
    return 0;
}

static void waits_on(void) {
    struct mg_session *session;
    struct mg_held held;
    meanwhile.path = folder("on", 1024, 7);
    meanwhile.holder = begun(meanwhile.path, 1, 0);
    IS(mg_take(meanwhile.holder, "db", MG_EX, 0, &held), MG_OK);
    meanwhile.lock = held.lock;
    meanwhile.until = milliseconds() + 3 * MINUTE;
    session = begun(meanwhile.path, 0, MG_SHARE);
    IS(mg_set_interval(session, 100), MG_OK);
    IS(mg_set_rest(session, goes_on, NULL), MG_OK);
    skip_sleeps(true);
    IS(mg_take(session, "db", MG_EX, -1, &held), MG_OK);
    skip_sleeps(false);
    mg_end(meanwhile.alone);
    IS(mg_give(session, held.lock, NULL), MG_OK);
    mg_end(session);
}

/* A session has the number for itself. */
static void number_in_use(void) {
    const char *path = new_folder("number");
    struct mg_session *alone = begun(path, 0, 0), *shares = begun(path, 0, MG_SHARE);
    struct mg_held held;
    int64_t began;
    skip_sleeps(true);
    began = milliseconds();
    IS(mg_take(shares, "db", MG_EX, 0, &held), MG_HOST_IN_USE);
    TOOK(began, 5000, 6000);
    began = milliseconds();
    IS(mg_take(shares, "db", MG_EX, -1, &held), MG_HOST_IN_USE);
    TOOK(began, MINUTE, LONGER_THAN_THAT);
    skip_sleeps(false);
    mg_end(alone);
    IS(mg_take(shares, "db", MG_EX, 0, &held), MG_OK);
    mg_end(shares);
}

static void name_machine(const char *path, int number) {
    char at[400];
    FILE *file;
    snprintf(at, sizeof at, "%s/machine-id", path);
    file = fopen(at, "w");
    IS(file != NULL, 1);
    fprintf(file, "%032d\n", number);
    fclose(file);
}

/* A number that is another machine's. */
static void another_machines(void) {
    char one[300], two[300], image[400], target[400];
    struct mg_session *session, *other;
    struct mg_host *host;
    struct mg_held held;
    int64_t began;
    snprintf(one, sizeof one, "%s/one%d", work, try);
    snprintf(two, sizeof two, "%s/two%d", work, try);
    IS(mkdir(one, 0777), 0);
    IS(mkdir(two, 0777), 0);
    if (mg_format_shared(one, 3, 16, 7, 4, 512, 0, NULL) != MG_OK)
        return; /* the file system takes no O_DIRECT */
    name_machine(one, 1);
    name_machine(two, 2);
    for (int k = 0; k < 3; k++) {
        snprintf(image, sizeof image, "%s/disk%d.img", two, k);
        snprintf(target, sizeof target, "%s/disk%d.img", one, k);
        IS(symlink(target, image), 0);
    }
    IS(mg_open(one, 0, &host, NULL), MG_OK);
    mg_close(host);
    session = begun(two, 0, MG_SHARE);
    began = milliseconds();
    for (int timeout = -1; timeout <= 1; timeout++) {
        errno = 0;
        IS(mg_take(session, "db", MG_EX, 5000 * timeout, &held), MG_HOST_IN_USE);
        IS(errno, EREMOTE);
    }
    IS(mg_recover(session, 0, NULL), MG_HOST_IN_USE);
    IS(mg_begin(two, 0, 0, &other, NULL), MG_HOST_IN_USE);
    IS(errno, EREMOTE);
    TOOK(began, 0, AT_ONCE);
    mg_end(session);
}

static uint64_t marked(const char *path) {
    struct mg_host *eye;
    uint64_t learned = 0;
    IS(mg_open_to_look(path, &eye, NULL), MG_OK);
    IS(mg_look(eye, &learned), MG_OK);
    mg_close(eye);
    return learned;
}

/* Processes that were killed before they had marked their commands, each by its own. */
static void leave_unmarked(const char *path) {
    for (int i = 0; i < UNMARKED; i++) {
        pid_t child = fork();
        if (child == 0) {
            struct mg_host *host;
            IS(mg_open(path, 3, &host, NULL), MG_OK);
            IS(mg_set_late_marks(host, 1), MG_OK);
            IS(mg_enqueue(host, 3, (uint64_t)i + 1, 100, MG_NL, "unmarked", MG_NO_QUEUE, NULL), i == 0 ? MG_OK : MG_LOCK_IN_USE);
            _exit(failures != 0);
        }
        IS(waitpid(child, NULL, 0), child);
    }
}

/* Whoever learns commands without a mark marks some, also where to learn them takes long. */
static void slow_disks(void) {
    const char *path = folder("slow", 1024, 7);
    struct mg_session *session;
    uint64_t before = 0, now;
    leave_unmarked(path);
    IS((long)marked(path), 0);
    set_sync(SLOW_SYNC);
    for (int run = 0; run < 2; run++) {
        session = begun(path, (unsigned)run, 0);
        mg_end(session);
        now = marked(path);
        IS(now > before, 1);
        before = now;
    }
    set_sync(0);
}

/* A purge of the host, and slots without a mark before it: what the host takes after that is held, and given back with its value. */
static void purged_before(void) {
    const char *path = folder("before", 1024, 7);
    static const unsigned char stored[MG_VALUE_LENGTH] = "what is stored";
    struct mg_session *session, *other;
    struct mg_host *host;
    struct mg_held held, kept, seen;
    other = begun(path, 5, 0);
    IS(mg_take(other, "db", MG_NL, 0, &kept), MG_OK); /* a name's value goes with its last lock */
    leave_unmarked(path);
    IS(mg_host_of(other, &host), MG_OK);
    IS(mg_purge(host, 5, 1, 0, NULL), MG_OK);
    set_sync(SLOW_SYNC);
    session = begun(path, 0, MG_SHARE);
    IS(mg_take(session, "db", MG_EX, 0, &held), MG_OK);
    IS(mg_give(session, held.lock, stored), MG_OK);
    set_sync(0);
    IS(mg_take(other, "db", MG_EX, 0, &seen), MG_OK);
    IS(memcmp(seen.value.bytes, stored, sizeof stored), 0);
    mg_end(session);
    mg_end(other);
}

int main(int argc, char **argv) {
    if (argc != 2)
        return 2;
    work = argv[1];
    setvbuf(stdout, NULL, _IOLBF, 0);
    in_time(left_locks);
    in_time(killed_holder);
    in_time(number_in_use);
    if (!HAS_NO_END)
        waits_on(); /* by looks, which take no number here */
    in_time(another_machines);
    slow_disks();
    purged_before();
    if (failures == 0)
        puts("in_time: as they should be");
    return failures != 0;
}
