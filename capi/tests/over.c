/*
 * How late a take comes back whose time is up, or which is told to stop, while five other hosts take and give without a pause. Each leaves the queue. And one
 * that is told once is told, also while it releases what others left. Where the machine has other work all of them are slower: so time goes on no faster than
 * the turns that the five have meanwhile, of which TURNS are a second's. And it is tried up to three times: what is late each time is late by itself.
 * Linked as device_faults.c says: a sync of what was written lasts as long as SYNC, whatever the disk is.
 *
 *   over FOLDER      an empty folder
 */
#include <mg_session.h>

#include <signal.h>
#include <stdbool.h>
#include <stdio.h>
#include <stdlib.h>
#include <sys/mman.h>
#include <sys/stat.h>
#include <sys/types.h>
#include <sys/wait.h>
#include <time.h>
#include <unistd.h>

#include "device_faults.h"
#include "expect.h"
#include "folders.h"

#define SYNC 2000   /* microseconds */

/* Milliseconds. */
#define ENDS 100      /* when a take is to end */
#define MOSTLY 1000   /* when three of four takes have ended */
#define ALWAYS 8000   /* when each has ended */
#define TURNS 20      /* of the five, in a second: fewer than they have where the machine has no other work */
#define LONGEST 60000 /* so long one take may last by the clock, too */

enum { HOSTS = 5, FIRST_HOST = 2, TAKES = 20, SECONDS = 6, TRIES = 3, LOG_SLOTS = 2048, FEW_SLOTS = 500, MILLION = 1000000, LEFT = 20, PAUSES = 4 };

/* Slots that are left in the log, as the busy hosts know it, and how many turns they have had. */
static struct shared {
    volatile uint64_t slots_left;
    long turns;
} *shared;

static long turns(void) { return __atomic_load_n(&shared->turns, __ATOMIC_SEQ_CST); }

static void works(const char *folder, unsigned host) {
    struct mg_session *session;
    struct mg_held held;
    char name[MG_NAME_LENGTH + 1];
    int status = mg_begin(folder, host, 0, &session, NULL);
    snprintf(name, sizeof name, "work%u", host);
    while (status == MG_OK || status == MG_TIMED_OUT || status == MG_IN_DOUBT) {
        status = mg_take(session, name, MG_EX, 1000, &held);
        if (status == MG_OK) {
            shared->slots_left = held.slots_left;
            status = mg_give(session, held.lock, NULL);
            (void)__atomic_fetch_add(&shared->turns, 1, __ATOMIC_SEQ_CST);
        }
    }
    _exit(status != MG_LOG_FULL);
}

/* The lock that is asked for is held by a session of this process, and the other hosts are at work. */
struct scene {
    char folder[400];
    pid_t workers[HOSTS];
    struct mg_session *holder;
};

/* A process of host 1 that takes many locks on db, and is killed. */
static void leave(const char *folder, int many) {
    struct mg_session *session;
    struct mg_held held;
    pid_t child = fork();
    if (child == 0) {
        IS(mg_begin(folder, 1, MG_SHARE, &session, NULL), MG_OK);
        while (many-- > 0)
            IS(mg_take(session, "db", MG_NL, 0, &held), MG_OK);
        raise(SIGKILL);
    }
    waitpid(child, NULL, 0);
}

static void begin(struct scene *scene, int left) {
    static int count = 0;
    struct mg_held held;
    snprintf(scene->folder, sizeof scene->folder, "%s/%d", work, count++);
    IS(mkdir(scene->folder, 0777), 0);
    IS(mg_format(scene->folder, 3, LOG_SLOTS, 7, NULL), MG_OK);
    if (left > 0)
        leave(scene->folder, left);
    IS(mg_begin(scene->folder, 0, 0, &scene->holder, NULL), MG_OK);
    IS(mg_take(scene->holder, "db", MG_EX, 0, &held), MG_OK);
    shared->slots_left = LOG_SLOTS;
    for (unsigned i = 0; i < HOSTS; i++) {
        scene->workers[i] = fork();
        if (scene->workers[i] == 0)
            works(scene->folder, FIRST_HOST + i);
    }
    for (int i = 0; shared->slots_left == LOG_SLOTS && i < 120000; i++)
        usleep(1000);
}

static void end(struct scene *scene) {
    char image[500];
    for (int i = 0; i < HOSTS; i++) {
        kill(scene->workers[i], SIGKILL);
        waitpid(scene->workers[i], NULL, 0);
    }
    mg_end(scene->holder);
    for (int disk = 0; disk < 3; disk++) {
        snprintf(image, sizeof image, "%s/disk%d.img", scene->folder, disk);
        (void)unlink(image);
    }
}

/* Pauses, and says stop from a time on, as a program does that gets a signal. */
static int rest(void *with, int length) {
    int64_t stops_at = *(const int64_t *)with, left = stops_at - milliseconds();
    if (left > length)
        left = length;
    if (left > 0)
        usleep((useconds_t)left * 1000);
    return milliseconds() >= stops_at;
}

/* So long one take lasts, by the turns of the others where these say less. It ends by its time, or is told to stop then. */
static int64_t take(struct mg_session *session, bool stops) {
    int64_t began = milliseconds(), stops_at = began + ENDS, by_turns;
    long before = turns();
    struct mg_held held;
    int status;
    IS(mg_set_rest(session, stops ? rest : NULL, &stops_at), MG_OK);
    status = mg_take(session, "db", MG_EX, stops ? -1 : ENDS, &held);
    began = milliseconds() - began;
    by_turns = ENDS + (turns() - before) * 1000 / TURNS;
    /* The others were quicker for five seconds more. That is late, and no fault. */
    if (status == MG_IN_DOUBT)
        return MOSTLY + 1;
    if (status != (stops ? MG_STOPPED : MG_TIMED_OUT)) {
        printf("a take of what another host holds said %d\n", status);
        failures++;
    }
    return began < by_turns || began > LONGEST ? began : by_turns;
}

/* Whether they ended in time. */
static bool try_takes(const char *kind, unsigned flags, bool stops) {
    struct scene scene;
    struct mg_session *session;
    int64_t worst = 0, until = milliseconds() + SECONDS * 1000;
    int takes = 0, late = 0;
    begin(&scene, 0);
    IS(mg_begin(scene.folder, 1, flags, &session, NULL), MG_OK);
    while (takes < TAKES && milliseconds() < until) {
        int64_t lasted = take(session, stops);
        worst = lasted > worst ? lasted : worst;
        late += lasted > MOSTLY;
        takes++;
        if (shared->slots_left < FEW_SLOTS) {
            mg_end(session);
            end(&scene);
            begin(&scene, 0);
            IS(mg_begin(scene.folder, 1, flags, &session, NULL), MG_OK);
        }
    }
    mg_end(session);
    end(&scene);
    printf("%s, %s: %d takes that were to last %d ms, %d of them longer than %d ms, the longest %ld ms\n",
           stops ? "told to stop" : "out of time", kind, takes, ENDS, late, MOSTLY, (long)worst);
    return late <= 1 + takes / 4 && worst <= ALWAYS;
}

static void take_in_time(const char *kind, unsigned flags, bool stops) {
    for (int try = 1; !try_takes(kind, flags, stops); try++) {
        puts("    too late");
        if (try == TRIES) {
            failures++;
            return;
        }
    }
}

/* Says stop in one pause, and in no other. */
static int stops_once(void *with, int length) {
    usleep((useconds_t)length * 1000);
    return --*(int *)with == 0;
}

static void try_once(unsigned flags) {
    for (int pause = 1; pause <= PAUSES; pause++) {
        struct scene scene;
        struct mg_session *session;
        struct mg_held held;
        int status, pauses = pause;
        begin(&scene, LEFT);
        IS(mg_begin(scene.folder, 1, flags, &session, NULL), MG_OK);
        IS(mg_set_rest(session, stops_once, &pauses), MG_OK);
        status = mg_take(session, "db", MG_EX, 60000, &held);
        if (status != MG_STOPPED) {
            printf("told to stop in pause %d alone: mg_take said %d\n", pause, status);
            failures++;
        }
        mg_end(session);
        end(&scene);
    }
}

int main(int argc, char **argv) {
    if (argc != 2)
        return 2;
    work = argv[1];
    shared = mmap(NULL, sizeof *shared, PROT_READ | PROT_WRITE, MAP_SHARED | MAP_ANONYMOUS, -1, 0);
    if (shared == MAP_FAILED)
        return 2;
    set_sync(SYNC);
    for (int stops = 0; stops < 2; stops++) {
        take_in_time("own number", 0, stops);
        take_in_time("MG_SHARE", MG_SHARE, stops);
    }
    try_once(MG_SHARE);
    return failures != 0;
}
