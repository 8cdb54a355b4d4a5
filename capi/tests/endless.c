/*
 * A folder whose log has no end: the plain calls through epochs of 320 slots, beside a plain list of locks and clients. Hosts in turn, a process that is killed,
 * disks that are lost and come back, values, a wait and late marks over the end of an epoch; and what is refused there.
 *
 *   endless FOLDER [DLM]      an empty folder, and the program that reads the same images; without it none does
 */
#include <mg_session.h>

#include "endless.h"
#include "expect.h"

#include <signal.h>
#include <stdbool.h>
#include <stdlib.h>
#include <sys/mman.h>
#include <sys/stat.h>
#include <sys/wait.h>
#include <time.h>
#include <unistd.h>

enum { DISKS = 3 };

static const char *work;

/* ---- folders ---- */

/* A new folder of images. */
static const char *laid_out(const char *name) {
    static char folders[16][300];
    static int count = 0;
    char *folder = folders[count++];
    snprintf(folder, sizeof folders[0], "%s/%s", work, name);
    IS(mkdir(folder, 0777), 0);
    IS(lay_out(folder, DISKS), 1);
    return folder;
}

static void take_away(const char *folder, int disk) {
    char from[400], to[400];
    path_of(from, sizeof from, folder, disk, "");
    path_of(to, sizeof to, folder, disk, ".away");
    IS(rename(from, to), 0);
}

static void bring_back(const char *folder, int disk) {
    char from[400], to[400];
    path_of(from, sizeof from, folder, disk, ".away");
    path_of(to, sizeof to, folder, disk, "");
    IS(rename(from, to), 0);
}

static struct mg_host *opened(const char *folder, unsigned number) {
    struct mg_host *host = NULL;
    IS(mg_open(folder, number, &host, NULL), MG_OK);
    return host;
}

/* ---- a plain list ---- */

enum { NAMES = 3, CLIENTS = 4 };

/* A lock of the list. All are asked for in EX, so of a name the one that came first holds it. */
struct plain_lock {
    unsigned lock, client, name;
};

static struct plain_lock list[MG_LOCKS];
static size_t listed;
static uint64_t requests[CLIENTS]; /* the last of each client, which are 1, 2, .. */
static int64_t upto;               /* the place after all commands */

static const char *const NAME[NAMES] = {"a", "b", "c"};

static size_t known(void) {
    size_t count = 0;
    for (int i = 0; i < CLIENTS; i++)
        count += requests[i] != 0;
    return count;
}

/* Where the next command comes. After a whole epoch a command for each lock and for each client comes first. */
static int64_t next_place(void) { return upto > 0 && upto % SLOTS == 0 ? upto + (int64_t)(listed + known()) : upto; }

static bool is_first(size_t place) {
    for (size_t i = 0; i < place; i++)
        if (list[i].name == list[place].name)
            return false;
    return true;
}

static void take_out(size_t place) {
    memmove(&list[place], &list[place + 1], (listed - place - 1) * sizeof list[0]);
    listed--;
}

/* The client asks for the name, or gives up what it has or waits for. */
static void does(struct mg_host *host, unsigned client, unsigned name) {
    struct mg_answer answer;
    int64_t place = next_place();
    uint64_t request = ++requests[client - 1];
    unsigned lock = 1 + (client - 1) * NAMES + name;
    size_t at = 0;
    while (at < listed && list[at].lock != lock)
        at++;
    if (at == listed) {
        list[listed++] = (struct plain_lock){lock, client, name};
        IS(mg_enqueue(host, client, request, lock, MG_EX, NAME[name], 0, &answer), MG_OK);
        IS(answer.reply, is_first(at) ? MG_GRANTED : MG_QUEUED);
    } else if (is_first(at)) {
        take_out(at);
        IS(mg_release(host, client, request, lock, &answer), MG_OK);
        IS(answer.reply, MG_RELEASED);
    } else {
        take_out(at);
        IS(mg_cancel(host, client, request, lock, &answer), MG_OK);
        IS(answer.reply, MG_CANCELLED);
    }
    IS(answer.slot, place);
    upto = place + 1;
}

/* The host shows the locks and clients of the list, and no other ones. */
static void is_the_table(struct mg_host *host) {
    struct mg_lock_view locks[MG_LOCKS];
    struct mg_client_view clients[MG_CLIENTS];
    size_t count = 0, at = 0;
    IS(mg_locks(host, locks, MG_LOCKS, &count), MG_OK);
    IS(count, listed);
    for (unsigned name = 0; name < NAMES; name++)
        for (size_t i = 0; i < listed && at < count; i++) {
            if (list[i].name != name)
                continue;
            IS(locks[at].lock, list[i].lock);
            IS(locks[at].client, list[i].client);
            IS_TEXT(locks[at].name, NAME[name]);
            IS(locks[at].held, is_first(i) ? MG_EX : MG_NONE);
            IS(locks[at].wanted, is_first(i) ? MG_NONE : MG_EX);
            at++;
        }
    IS(mg_clients(host, clients, MG_CLIENTS, &count), MG_OK);
    IS(count, known());
    for (size_t i = 0; i < count; i++)
        IS(clients[i].request, requests[clients[i].client - 1]);
}

/* The host knows just what is in the list, and where the log ends. */
static void is_the_list(struct mg_host *host) {
    struct mg_host_view facts;
    uint64_t epoch = 99, slots = 99, used = 99;
    is_the_table(host);
    IS(mg_log(host, &slots, &used), MG_OK);
    IS(slots == UINT64_MAX, 1);
    IS(used, upto);
    IS(mg_host_facts(host, &facts), MG_OK);
    IS(facts.learned, upto);
    IS(mg_epoch(host, &epoch, &slots, &used), MG_OK);
    IS(slots, SLOTS);
    IS(epoch * SLOTS + used, upto);
    IS(used <= SLOTS, 1);
}

/* Whoever learns of a full epoch carries the table over into the next one. */
static void learns(struct mg_host *host, int (*learn)(struct mg_host *host, uint64_t *learned)) {
    uint64_t learned = 0;
    upto = next_place();
    IS(learn(host, &learned), MG_OK);
    IS(learned, upto);
    is_the_list(host);
}

/* Who only looks sees the same table. What nobody but a host has put behind it, to carry it over, it may not count. */
static void sees(struct mg_host *eye) {
    uint64_t learned = 0;
    IS(mg_look(eye, &learned), MG_OK);
    IS(learned <= (uint64_t)upto, 1);
    is_the_table(eye);
}

static void forget(void) {
    listed = 0;
    upto = 0;
    memset(requests, 0, sizeof requests);
}

/* Commands without an effect, until the epoch has so many slots left. */
static void fill(struct mg_host *host, int left) {
    while (SLOTS - upto % SLOTS != left || upto == 0) {
        struct mg_answer answer;
        int64_t place = next_place();
        IS(mg_status(host, CLIENTS, ++requests[CLIENTS - 1], 999, &answer), MG_NO_SUCH_LOCK);
        IS(answer.slot, place);
        upto = place + 1;
        if (failures > 20)
            return;
    }
}

/* ---- what is refused, and arguments ---- */

static int64_t changed(const char *folder, int disk) {
    struct stat facts;
    char path[400];
    path_of(path, sizeof path, folder, disk, "");
    IS(stat(path, &facts), 0);
    return (int64_t)facts.st_mtim.tv_sec * 1000000000 + facts.st_mtim.tv_nsec;
}

/* It shows no table before it has looked, and needs no number for that, though somebody has it. */
static void looks_alone(struct mg_host *eye) {
    size_t count = 99, locks = 0;
    IS(mg_locks(eye, NULL, 0, &count), MG_NO_TABLE);
    IS(mg_refresh(eye, NULL), MG_ONLY_LOOKS);
    IS(mg_mark(eye, NULL), MG_ONLY_LOOKS);
    IS(mg_enqueue(eye, 1, 9999, 1, MG_EX, "eye", 0, NULL), MG_ONLY_LOOKS);
    IS(mg_wait(eye, 999, 1, 1, NULL), MG_NO_SUCH_LOCK);
    IS(mg_look(eye, NULL), MG_OK);
    IS(mg_locks(eye, NULL, 0, &locks), MG_OK);
    IS(mg_epoch(eye, NULL, NULL, NULL), MG_OK);
}

/* A look without a number, as a session makes it, too, that shares its number; nothing is written. */
static void looks(const char *folder) {
    struct mg_host *eye = (struct mg_host *)&failures, *has_number = opened(folder, 0);
    struct mg_session *session = (struct mg_session *)&failures;
    char machine[33] = "?";
    int64_t before = changed(folder, 0);
    int disk = 5;
    IS(mg_open_to_look(folder, &eye, &disk), MG_OK);
    IS(disk, -1);
    looks_alone(eye);
    mg_close(eye);
    mg_close(has_number);
    IS(mg_begin(folder, 0, MG_SHARE, &session, NULL), MG_OK);
    has_number = opened(folder, 0);
    IS(mg_host_of(session, &eye), MG_OK);
    looks_alone(eye);
    IS(mg_has_number(session), 0);
    mg_close(has_number);
    mg_end(session);
    IS(mg_machine_of(folder, 0, machine, sizeof machine), MG_OK);
    IS_TEXT(machine, "");
    IS(mg_take_number(folder, 0, NULL), MG_BAD_ARGUMENT);
    IS_TEXT(mg_cause(), "the folder has no devices of several machines");
    IS(changed(folder, 0) == before, 1);
}

static void put_byte(const char *folder, int disk, off_t at, uint8_t byte) {
    char path[400];
    int file;
    path_of(path, sizeof path, folder, disk, "");
    file = open(path, O_WRONLY);
    IS(pwrite(file, &byte, 1, at), 1);
    close(file);
}

/* The image becomes one of a log that ends, of the same cluster. */
static void make_ending(const char *folder, int disk) {
    char path[400];
    path_of(path, sizeof path, folder, disk, "");
    put_byte(folder, disk, 1, 2);
    IS(truncate(path, 8192 + 4096 * SLOTS), 0);
}

/* Images that are wrong are disks that fail. A right one of the other kind refuses the folder. */
static void wrong_images(const char *folder) {
    static const struct {
        off_t at;
        uint8_t wrong, right;
        int status;
    } BYTES[] = {{0, 0, 0xA5, MG_NOT_FORMATTED}, {1, 5, 4, MG_WRONG_HEADER}, {24, 1, 0, MG_WRONG_HEADER}, {16, 0x41, 0, MG_WRONG_HEADER}, {7, 63, 64, MG_WRONG_HEADER}};
    struct mg_disk_view disks[MG_DISKS];
    struct mg_host *host;
    int disk = 5;
    for (size_t i = 0; i < sizeof BYTES / sizeof BYTES[0]; i++) {
        put_byte(folder, 1, BYTES[i].at, BYTES[i].wrong);
        host = opened(folder, 0);
        IS(mg_disks(host, disks, MG_DISKS, NULL), MG_OK);
        is_at((int)i, disks[1].status, BYTES[i].status);
        IS(disks[0].status + disks[2].status, MG_OK);
        IS(mg_look(host, NULL), MG_OK);
        mg_close(host);
        put_byte(folder, 1, BYTES[i].at, BYTES[i].right);
    }
    make_ending(folder, 1);
    IS(mg_open(folder, 0, &host, &disk), MG_WRONG_HEADER);
    IS(disk, 1);
    IS(mg_open_to_look(folder, &host, &disk), MG_WRONG_HEADER);
    IS(disk, 1);
    make_ending(folder, 0);
    IS(mg_open(folder, 0, &host, &disk), MG_WRONG_HEADER);
    IS(disk, 2);
    make_ending(folder, 2);
    IS(mg_open_to_look(folder, &host, &disk), MG_OK);
    mg_close(host);
}

/* The handle of a session that shares its number shows what its last look saw. */
static void looks_by_turns(const char *folder) {
    struct mg_session *session;
    struct mg_host *host = opened(folder, 1), *eye;
    uint64_t before = 0, learned = 0;
    size_t locks = 0, count = 99;
    IS(mg_begin(folder, 0, MG_SHARE, &session, NULL), MG_OK);
    IS(mg_host_of(session, &eye), MG_OK);
    IS(mg_look(eye, &before), MG_OK);
    IS(mg_locks(eye, NULL, 0, &locks), MG_OK);
    IS(mg_enqueue(host, 9, 1, 900, MG_EX, "turn", 0, NULL), MG_OK);
    IS(mg_locks(eye, NULL, 0, &count), MG_OK);
    IS(count, locks);
    IS(mg_look(eye, &learned), MG_OK);
    IS(learned, before + 1);
    IS(mg_locks(eye, NULL, 0, &count), MG_OK);
    IS(count, locks + 1);
    IS(mg_has_number(session), 0);
    IS(mg_release(host, 9, 2, 900, NULL), MG_OK);
    mg_close(host);
    IS(mg_look(eye, &learned), MG_OK);
    IS(learned, before + 2);
    mg_end(session);
}

/* It knows no table before its first operation. */
static void knows_nothing(struct mg_host *host) {
    struct mg_lock_view view;
    struct mg_client_view client;
    struct mg_value value;
    uint64_t epoch = 99, slots = 99, used = 99;
    size_t count = 99;
    char text[64] = "?";
    IS(mg_lock(host, 1, &view), MG_NO_TABLE);
    IS(mg_value(host, 1, &value), MG_NO_TABLE);
    IS(mg_locks(host, &view, 1, &count), MG_NO_TABLE);
    IS(count, 0);
    count = 99;
    IS(mg_clients(host, &client, 1, &count), MG_NO_TABLE);
    IS(count, 0);
    count = 99;
    IS(mg_text(host, text, sizeof text, &count), MG_NO_TABLE);
    IS_TEXT(text, "");
    IS(count, 0);
    IS(mg_log(host, &slots, &used), MG_OK);
    IS(slots == UINT64_MAX, 1);
    IS(used, 0);
    IS(mg_epoch(host, &epoch, &slots, &used), MG_NO_TABLE);
    IS(epoch, 0);
    IS(slots, SLOTS);
    IS(used, 0);
}

static void arguments(const char *folder) {
    struct mg_host *host = opened(folder, 0), *other = NULL;
    struct mg_host_view facts;
    struct mg_answer answer;
    struct mg_disk_view disks[MG_DISKS];
    struct mg_image_view images[MG_DISKS];
    uint64_t epoch = 99, slots = 99, used = 99;
    size_t count = 0;
    char text[64];
    IS(mg_open(folder, 0, &other, NULL), MG_HOST_IN_USE);
    IS(mg_epoch(NULL, &epoch, &slots, &used), MG_BAD_ARGUMENT);
    IS(epoch + slots + used, 0);
    IS(mg_epoch(host, NULL, NULL, NULL), MG_NO_TABLE);
    knows_nothing(host);
    IS(mg_host_facts(host, &facts), MG_OK);
    IS(facts.cluster, CLUSTER);
    IS(facts.host, 0);
    IS(facts.disks, DISKS);
    IS(facts.slots, SLOTS);
    IS(facts.endless, 1);
    IS(facts.learned, 0);
    IS(mg_disks(host, disks, MG_DISKS, &count), MG_OK);
    IS(count, DISKS);
    IS(mg_images(host, images, MG_DISKS, NULL), MG_OK);
    for (int k = 0; k < DISKS; k++) {
        IS(disks[k].status, MG_OK);
        IS(images[k].kind, MG_FILE_IMAGE);
    }
    memset(&answer, 9, sizeof answer);
    IS(mg_enqueue(host, 256, 1, 1, MG_EX, "a", 0, &answer), MG_BAD_ARGUMENT);
    IS(answer.slot, -1);
    IS(answer.reply, MG_NO_REPLY);
    IS(answer.held, MG_NONE);
    IS(mg_enqueue(host, 1, 0, 1, MG_EX, "a", 0, NULL), MG_BAD_ARGUMENT);
    IS(mg_enqueue(host, 1, 1, 65536, MG_EX, "a", 0, NULL), MG_BAD_ARGUMENT);
    IS(mg_enqueue(host, 1, 1, 1, 6, "a", 0, NULL), MG_BAD_ARGUMENT);
    IS(mg_enqueue(host, 1, 1, 1, MG_EX, "a", 2, NULL), MG_BAD_ARGUMENT);
    IS(mg_enqueue(host, 1, 1, 1, MG_EX, "a b", 0, NULL), MG_BAD_ARGUMENT);
    IS(mg_convert(host, 1, 1, 0, MG_EX, 0, NULL), MG_BAD_ARGUMENT);
    IS(mg_release(host, 1, UINT64_MAX, 1, NULL), MG_BAD_ARGUMENT);
    IS(mg_release_value(host, 1, 1, 1, NULL, NULL), MG_BAD_ARGUMENT);
    IS(mg_purge(host, 1, 1, 16, NULL), MG_BAD_ARGUMENT);
    IS(mg_set_tries(host, 0), MG_BAD_ARGUMENT);
    IS(mg_wait(host, 1, 0, 1, NULL), MG_BAD_ARGUMENT);
    IS(mg_mark_now(host), MG_OK);
    knows_nothing(host);
    IS(mg_look(host, &used), MG_OK);
    IS(used, 0);
    is_the_list(host);
    IS(mg_text(host, text, sizeof text, &count), MG_OK);
    IS_TEXT(text, "empty\n");
    IS(mg_refresh(host, &used), MG_OK);
    IS(used, 0);
    IS(mg_mark(host, &used), MG_OK);
    IS(used, 0);
    IS(mg_wait(host, 1, 1, 1, NULL), MG_NO_SUCH_LOCK);
    IS(mg_epoch(host, NULL, NULL, NULL), MG_OK);
    mg_close(host);
}

/* ---- through epochs ---- */

/* Two hosts in turn. Of what they do not submit themselves they learn by looks. Somebody looks without a number. */
static void through_epochs(const char *folder) {
    struct mg_host *hosts[2] = {opened(folder, 0), opened(folder, 1)}, *eye = NULL, *late_eye = NULL;
    IS(mg_open_to_look(folder, &eye, NULL), MG_OK);
    srand(1);
    for (int i = 0; upto < 2 * SLOTS + 40 && failures <= 20; i++) {
        unsigned client = 1 + (unsigned)rand() % (CLIENTS - 1);
        does(hosts[client % 2], client, (unsigned)rand() % NAMES);
        if (i % 40 == 0 || upto % SLOTS < 30) {
            is_the_list(hosts[client % 2]);
            sees(eye);
            learns(hosts[(client + 1) % 2], mg_look);
            sees(eye);
        }
    }
    IS(mg_open_to_look(folder, &late_eye, NULL), MG_OK);
    sees(late_eye);
    mg_close(late_eye);
    mg_close(eye);
    /* Who comes later learns all of it. */
    for (unsigned number = 4; number <= 5; number++) {
        struct mg_host *late = opened(folder, number);
        learns(late, number == 4 ? mg_look : mg_mark);
        mg_close(late);
    }
    mg_close(hosts[0]);
    mg_close(hosts[1]);
}

/* The same request gets the reply that it got an epoch before, and a place of its own. */
static void asks_again(const char *folder) {
    struct mg_host *host = opened(folder, 0);
    struct mg_answer answer;
    fill(host, 2);
    IS(mg_enqueue(host, 1, ++requests[0], 777, MG_EX, "again", 0, &answer), MG_OK);
    IS(answer.slot, upto++);
    IS(mg_enqueue(host, 2, ++requests[1], 778, MG_EX, "again", MG_NO_QUEUE, &answer), MG_NOT_QUEUED);
    IS(answer.slot, upto++);
    IS(answer.reply, MG_REFUSED);
    list[listed++] = (struct plain_lock){777, 1, NAMES};
    IS(mg_enqueue(host, 1, requests[0], 777, MG_EX, "again", 0, &answer), MG_OK);
    IS(answer.reply, MG_GRANTED);
    IS(answer.slot, next_place());
    upto = next_place() + 1;
    IS(mg_enqueue(host, 2, requests[1], 778, MG_EX, "again", MG_NO_QUEUE, &answer), MG_NOT_QUEUED);
    IS(answer.slot, upto++);
    IS(mg_release(host, 2, requests[1] - 1, 777, &answer), MG_STALE);
    IS(answer.slot, upto++);
    IS(mg_release(host, 1, ++requests[0], 777, &answer), MG_OK);
    IS(answer.slot, upto++);
    listed--;
    is_the_list(host);
    mg_close(host);
}

/* The epoch ends while a host of another number waits. */
static void waits(const char *folder) {
    struct mg_host *first = opened(folder, 0), *second = opened(folder, 1);
    int mode = 9, status = 0;
    pid_t child;
    IS(mg_enqueue(first, 1, ++requests[0], 800, MG_EX, "wait", 0, NULL), MG_OK);
    IS(mg_enqueue(second, 2, ++requests[1], 801, MG_EX, "wait", 0, NULL), MG_OK);
    upto += 2;
    listed += 2;
    IS(mg_wait(second, 801, 1, 5, &mode), MG_TIMED_OUT);
    IS(mode, MG_NONE);
    fill(first, 3);
    mg_close(first);
    child = fork();
    if (child == 0) {
        first = opened(folder, 0);
        IS(mg_look(first, NULL), MG_OK);
        fill(first, SLOTS - 40);
        IS(mg_release(first, 1, requests[0] + 1, 800, NULL), MG_OK);
        mg_close(first);
        _exit(failures != 0);
    }
    IS(mg_wait(second, 801, 5, 60000, &mode), MG_OK);
    IS(mode, MG_EX);
    IS(waitpid(child, &status, 0), child);
    IS(status, 0);
    IS(mg_release(second, 2, ++requests[1], 801, NULL), MG_OK);
    mg_close(second);
}

/* ---- values ---- */

/* The bytes of a name, and whether they are valid, go from epoch to epoch with its locks. */
static void values(const char *folder) {
    static const uint8_t one[MG_VALUE_LENGTH] = {1, 2, 3}, two[MG_VALUE_LENGTH] = {4, 5, 6};
    struct mg_host *first = opened(folder, 0), *second = opened(folder, 1);
    struct mg_value value;
    struct mg_answer answer;
    IS(mg_enqueue(first, 1, 1, 1, MG_EX, "v", 0, NULL), MG_OK);
    IS(mg_enqueue(second, 2, 1, 2, MG_NL, "v", 0, NULL), MG_OK);
    IS(mg_convert_value(first, 1, 2, 1, MG_NL, 0, one, NULL), MG_OK);
    upto = 3;
    requests[0] = 2;
    requests[1] = 1;
    listed = 2;
    fill(first, 1);
    fill(first, SLOTS - 20);
    IS(mg_look(second, NULL), MG_OK);
    IS(mg_value(second, 2, &value), MG_OK);
    IS(memcmp(value.bytes, one, sizeof one), 0);
    IS(value.flags, MG_VALID);
    IS(mg_convert(second, 2, 2, 2, MG_EX, 0, &answer), MG_OK);
    IS(answer.reply, MG_GRANTED);
    IS(mg_release_value(second, 2, 3, 2, two, &answer), MG_OK);
    IS(mg_look(first, NULL), MG_OK);
    IS(mg_value(first, 1, &value), MG_OK);
    IS(memcmp(value.bytes, two, sizeof two), 0);
    IS(mg_enqueue(second, 2, 4, 2, MG_EX, "v", 0, NULL), MG_OK);
    IS(mg_purge(first, 1, 3, 1, &answer), MG_OK);
    IS(answer.reply, MG_PURGED);
    IS(answer.purged, 1);
    upto += 4;
    listed = 1;
    fill(first, 1);
    fill(first, SLOTS - 20);
    IS(mg_value(first, 1, &value), MG_OK);
    IS(memcmp(value.bytes, two, sizeof two), 0);
    IS(value.flags, 0);
    mg_close(first);
    mg_close(second);
}

/* ---- late marks ---- */

/* A look stops at a command without a mark. In an epoch that is over nobody looks for one. */
static void late(const char *folder) {
    struct mg_host *first = opened(folder, 0), *second = opened(folder, 1);
    struct mg_answer answer;
    uint64_t learned;
    IS(mg_set_late_marks(first, 1), MG_OK);
    IS(mg_enqueue(first, 1, 1, 1, MG_EX, "l", 0, &answer), MG_OK);
    IS(answer.slot, 0);
    IS(mg_look(second, &learned), MG_OK);
    IS(learned, 0);
    IS(mg_mark_now(first), MG_OK);
    IS(mg_look(second, &learned), MG_OK);
    IS(learned, 1);
    upto = 1;
    requests[0] = 1;
    listed = 1;
    fill(second, 1);
    IS(mg_look(first, &learned), MG_OK);
    IS(learned, SLOTS - 1);
    IS(mg_status(first, 1, ++requests[0], 1, &answer), MG_OK);
    IS(answer.slot, SLOTS - 1);
    upto = SLOTS;
    fill(second, SLOTS - 10);
    IS(mg_mark_now(first), MG_OK);
    IS(mg_status(first, 1, ++requests[0], 1, &answer), MG_OK);
    IS(answer.slot, upto++);
    IS(answer.held, MG_EX);
    IS(mg_look(second, &learned), MG_OK);
    IS(learned, upto - 1);

    /* The images have no room any more for the epoch of the command that is to be marked. */
    fill(second, 1);
    fill(second, SLOTS - 20);
    fill(second, 1);
    fill(second, SLOTS - 20);
    IS(mg_mark_now(first), MG_OK);
    IS(mg_status(first, 1, ++requests[0], 1, &answer), MG_OK);
    IS(answer.slot, upto++);
    IS(answer.held, MG_EX);
    mg_close(first);
    IS(mg_look(second, &learned), MG_OK);
    IS(learned, upto);
    mg_close(second);
}

/* ---- disks that are lost ---- */

static void is_at_fault(struct mg_host *host, int disk) {
    struct mg_disk_view disks[MG_DISKS];
    IS(mg_disks(host, disks, MG_DISKS, NULL), MG_OK);
    for (int k = 0; k < DISKS; k++)
        IS(disks[k].status, k == disk ? MG_UNREADABLE : MG_OK);
}

/* Each disk in turn is away while an epoch begins. Then a majority of the others knows all, one of which was away before. */
static void loses_disks(const char *folder) {
    struct mg_host *host;
    for (int away = 0; away < DISKS && failures <= 20; away++) {
        take_away(folder, away);
        host = opened(folder, (unsigned)away % 2);
        is_at_fault(host, away);
        learns(host, mg_mark);
        does(host, 1 + (unsigned)away, 0);
        fill(host, 1);
        fill(host, SLOTS - 20);
        is_the_list(host);
        mg_close(host);
        bring_back(folder, away);
    }
    take_away(folder, 0);
    take_away(folder, 2);
    host = opened(folder, 3);
    IS(mg_look(host, NULL), MG_NO_MAJORITY);
    IS(mg_enqueue(host, 1, requests[0] + 1, 900, MG_EX, "a", 0, NULL), MG_NO_MAJORITY);
    knows_nothing(host);
    IS(mg_wait(host, 1, 1, 1, NULL), MG_NO_MAJORITY);
    mg_close(host);
    bring_back(folder, 0);
    bring_back(folder, 2);
    host = opened(folder, 3);
    learns(host, mg_refresh);
    mg_close(host);
}

/* ---- kills ---- */

/* What the process that is killed tells: the last request that was acknowledged, and its place. */
struct told {
    volatile uint64_t request;
    volatile int64_t place;
};

/* Odd requests ask for the lock, even ones give it back. */
static int ask(struct mg_host *host, uint64_t request, struct mg_answer *answer) {
    return request % 2 == 1 ? mg_enqueue(host, 1, request, 1, MG_EX, "k", 0, answer) : mg_release(host, 1, request, 1, answer);
}

static void goes_on(const char *folder, uint64_t request, struct told *told) {
    struct mg_host *host = opened(folder, 2);
    struct mg_answer answer;
    IS(mg_look(host, NULL), MG_OK);
    for (;; request++) {
        IS(ask(host, request, &answer), MG_OK);
        IS(answer.slot > told->place, 1);
        if (failures > 0)
            _exit(1);
        told->place = answer.slot;
        told->request = request;
    }
}

static void is_killed(const char *folder) {
    struct told *told = mmap(NULL, sizeof *told, PROT_READ | PROT_WRITE, MAP_SHARED | MAP_ANONYMOUS, -1, 0);
    uint64_t epoch = 0;
    srand(2);
    told->place = -1;
    for (int kills = 0; (kills < 8 || epoch < 1) && kills < 200 && failures <= 20; kills++) {
        const struct timespec pause = {0, 1000000 * (100 + rand() % 300)};
        struct mg_client_view client = {0, 0, 0, 0, 0};
        struct mg_lock_view view;
        struct mg_host *host;
        struct mg_answer answer;
        uint64_t learned = 0;
        size_t count = 0;
        int status = 0;
        pid_t child = fork();
        if (child == 0)
            goes_on(folder, told->request + 1, told);
        nanosleep(&pause, NULL);
        IS(kill(child, SIGKILL), 0);
        IS(waitpid(child, &status, 0), child);
        IS(WIFSIGNALED(status), 1);
        /* All that was acknowledged is there, and perhaps one command more. */
        host = opened(folder, 2);
        IS(mg_mark(host, &learned), MG_OK);
        IS((int64_t)learned > told->place, 1);
        IS(mg_clients(host, &client, 1, &count), MG_OK);
        IS(client.request == told->request || client.request == told->request + 1, 1);
        IS(mg_lock(host, 1, &view), client.request % 2 == 1 ? MG_OK : MG_NO_SUCH_LOCK);
        /* If it was not acknowledged it is asked again. */
        IS(ask(host, told->request + 1, &answer), MG_OK);
        IS(answer.slot > told->place, 1);
        told->place = answer.slot;
        told->request++;
        IS(mg_epoch(host, &epoch, NULL, NULL), MG_OK);
        mg_close(host);
    }
}

/* ---- the program ---- */

/* It knows the same table, and finds the images sound. */
static void dlm_reads(const char *folder, const char *dlm) {
    struct mg_host *host = opened(folder, 0);
    char command[2000], said[MG_TEXT_SIZE + 100], wanted[MG_TEXT_SIZE + 100];
    size_t length = 0;
    uint64_t learned;
    FILE *from;
    IS(mg_mark(host, &learned), MG_OK);
    snprintf(wanted, sizeof wanted, "recovered %llu\n", (unsigned long long)learned);
    IS(mg_text(host, wanted + strlen(wanted), MG_TEXT_SIZE, NULL), MG_OK);
    mg_close(host);
    snprintf(command, sizeof command, "'%s' table '%s' 3 2>&1", dlm, folder);
    from = popen(command, "r");
    IS(from != NULL, 1);
    length = fread(said, 1, sizeof said - 1, from);
    said[length] = '\0';
    IS(pclose(from), 0);
    IS_TEXT(said, wanted);
    snprintf(command, sizeof command, "'%s' check '%s' > '%s/said' 2>&1", dlm, folder, work);
    IS(system(command), 0);
    snprintf(command, sizeof command, "'%s' submit '%s' 0 status 9 1 1 > '%s/said' 2>&1", dlm, folder, work);
    IS(system(command), 0);
    host = opened(folder, 0);
    IS(mg_look(host, &learned), MG_OK);
    mg_close(host);
}

int main(int argc, char **argv) {
    const char *folder;
    if (argc < 2)
        return 2;
    work = argv[1];
    setvbuf(stdout, NULL, _IOLBF, 0);
    IS_TEXT(mg_name(MG_NO_TABLE), "");
    folder = laid_out("epochs");
    looks(folder);
    arguments(folder);
    wrong_images(laid_out("wrong"));
    looks_by_turns(laid_out("turns"));
    through_epochs(folder);
    looks(folder);
    loses_disks(folder);
    asks_again(folder);
    waits(folder);
    if (argc == 3 && access(argv[2], X_OK) == 0)
        dlm_reads(folder, argv[2]);
    forget();
    values(laid_out("values"));
    forget();
    late(laid_out("late"));
    is_killed(laid_out("killed"));
    if (failures == 0)
        puts("endless: as it should be");
    return failures != 0;
}
