/*
 * A log without an end over devices that several machines use. Two machines, of a folder each, go through its epochs in turn, and their names stay; what is refused
 * there. Prints nothing but that all is as it should be; the status is 3 where the file system takes no O_DIRECT.
 *
 *   shared_epochs FOLDER EPOCHS [DEVICE..]      an empty folder; three devices for each of two machines, which may be written over, else files are made
 */
#ifndef _GNU_SOURCE
#define _GNU_SOURCE
#endif
#include <midgegalena.h>

#include "expect.h"

#include <errno.h>
#include <fcntl.h>
#include <stdbool.h>
#include <stdlib.h>
#include <sys/stat.h>
#include <unistd.h>

enum { DISKS = 3, HOSTS = 4, SLOTS = 320, CLUSTER = 7, KEEPER = 9, SECTOR = 512, WHOLE = 4096 + (2 * SLOTS + 4) * HOSTS * SECTOR };

#define ONE "00000000000000000000000000000001"
#define TWO "f0000000000000000000000000000002"

static const char *work;
static char first[2000], second[2000], path[4096];

static const char *in(const char *folder, const char *name) {
    snprintf(path, sizeof path, "%s/%s", folder, name);
    return path;
}

static const char *disk_in(const char *folder, int disk) {
    char name[16];
    snprintf(name, sizeof name, "disk%d.img", disk);
    return in(folder, name);
}

/* A machine: a folder with its name, and links to these devices. */
static void make_machine(char *folder, size_t size, const char *name, const char *id, char **devices) {
    FILE *file;
    snprintf(folder, size, "%s/%s", work, name);
    IS(mkdir(folder, 0777), 0);
    file = fopen(in(folder, "machine-id"), "w");
    IS(file != NULL, true);
    fputs(id, file);
    fclose(file);
    for (int k = 0; k < DISKS && devices; k++)
        IS(symlink(devices[k], disk_in(folder, k)), 0);
}

static int format(const char *folder, unsigned slots, unsigned flags) {
    return mg_format_shared(folder, DISKS, slots, CLUSTER, HOSTS, SECTOR, MG_FILES | MG_NO_DSYNC | flags, NULL);
}

/* How a number opens, and closes again. */
static int opens(const char *folder, unsigned number, int *disk) {
    struct mg_host *host;
    int status, cause;
    errno = 0;
    status = mg_open(folder, number, &host, disk);
    cause = errno;
    mg_close(host);
    errno = cause;
    return status;
}

static struct mg_host *opened(const char *folder, unsigned number) {
    struct mg_host *host = NULL;
    IS(mg_open(folder, number, &host, NULL), MG_OK);
    if (!host)
        exit(1);
    return host;
}

static const char *machine_of(const char *folder, unsigned number) {
    static char text[33];
    IS(mg_machine_of(folder, number, text, sizeof text), MG_OK);
    return text;
}

/* ---- through epochs ---- */

/* One that counts: each of its locks reads what the one before it, of whatever machine, has stored. */
struct counter {
    struct mg_host *host;
    unsigned client;
    uint64_t request;
    int64_t slot; /* of its last command */
};

static uint32_t counted;
static int64_t last_slot = -1;

static void count(struct counter *counter) {
    struct mg_answer answer;
    struct mg_value value;
    unsigned lock = counter->client;
    uint32_t stored;
    int status = mg_enqueue(counter->host, counter->client, ++counter->request, lock, MG_EX, "db", MG_NO_QUEUE, &answer);
    if (status != MG_OK || answer.reply != MG_GRANTED || answer.slot <= last_slot) {
        printf("lock %u: %d, reply %d, slot %lld after %lld\n", (unsigned)counted, status, answer.reply, (long long)answer.slot, (long long)last_slot);
        exit(1);
    }
    IS(mg_value(counter->host, lock, &value), MG_OK);
    memcpy(&stored, value.bytes, sizeof stored);
    IS(stored, counted);
    stored = ++counted;
    memcpy(value.bytes, &stored, sizeof stored);
    IS(mg_release_value(counter->host, counter->client, ++counter->request, lock, value.bytes, &answer), MG_OK);
    last_slot = counter->slot = answer.slot;
}

static uint64_t epoch_of(struct mg_host *host) {
    uint64_t epoch = UINT64_MAX, slots = 0;
    IS(mg_epoch(host, &epoch, &slots, NULL), MG_OK);
    IS(slots, SLOTS);
    return epoch;
}

/* What a fresh look, or a fresh host, shows of the table. */
static const char *text_of(const char *folder, unsigned number, bool looks) {
    static char text[MG_TEXT_SIZE + 1];
    struct mg_host *host = NULL;
    uint64_t learned;
    text[0] = '\0';
    IS(looks ? mg_open_to_look(folder, &host, NULL) : mg_open(folder, number, &host, NULL), MG_OK);
    IS(looks ? mg_look(host, &learned) : mg_refresh(host, &learned), MG_OK);
    IS(mg_text(host, text, sizeof text, NULL), MG_OK);
    IS(learned >= (uint64_t)last_slot + 1, true);
    mg_close(host);
    return text;
}

static void through_epochs(long epochs) {
    struct counter one = {opened(first, 0), 1, 0, -1}, two = {opened(second, 1), 2, 0, -1}, *both[] = {&one, &two};
    struct mg_answer answer;
    struct mg_host_view facts;
    char seen[MG_TEXT_SIZE + 1];
    long turn = 0;
    /* The name keeps its value while somebody has a lock on it. */
    IS(mg_enqueue(one.host, KEEPER, 1, KEEPER, MG_NL, "db", 0, &answer), MG_OK);
    for (uint64_t before = 0; before < (uint64_t)epochs; turn++) {
        count(both[turn % 2]);
        if (epoch_of(both[turn % 2]->host) == before)
            continue;
        before = epoch_of(both[turn % 2]->host);
        /* Names of machines outlast the epoch, and its clearing. */
        IS_TEXT(machine_of(second, 0), before < 10 ? ONE : TWO);
        IS_TEXT(machine_of(first, 1), TWO);
        IS(opens(first, 1, NULL) == MG_HOST_IN_USE && errno == EREMOTE, true);
        if (before == 9) {
            /* The first machine is off, and the second one takes its number. */
            mg_close(one.host);
            IS(opens(second, 0, NULL) == MG_HOST_IN_USE && errno == EREMOTE, true);
            IS(mg_take_number(second, 0, NULL), MG_OK);
            one.host = opened(second, 0);
            IS(opens(first, 0, NULL) == MG_HOST_IN_USE && errno == EREMOTE, true);
        }
        if (before == 5 || before == 7) {
            /* The second machine has one of three disks less, for two epochs. */
            char away[2100];
            snprintf(away, sizeof away, "%s/away", second);
            IS(before == 5 ? rename(disk_in(second, 2), away) : rename(away, disk_in(second, 2)), 0);
            mg_close(two.host);
            two.host = opened(second, 1);
        }
    }
    IS(mg_host_facts(two.host, &facts), MG_OK);
    IS(facts.endless == 1 && facts.slots == SLOTS, true);
    strcpy(seen, text_of(first, 2, false));
    IS_TEXT(seen, text_of(second, 3, false));
    IS_TEXT(seen, text_of(second, 0, true));
    mg_close(one.host);
    mg_close(two.host);
}

/* ---- what is refused ---- */

static void swap(const char *a, const char *b) {
    char away[2100];
    snprintf(away, sizeof away, "%s/swapped", work);
    IS(rename(a, away), 0);
    IS(rename(b, a), 0);
    IS(rename(away, b), 0);
}

static void refuses(void) {
    struct mg_disk_view disks[MG_DISKS];
    struct mg_host *host;
    char mixed[2000], theirs[2100];
    size_t many = 0;
    int disk = -1;
    /* A set of both kinds, with the same numbers otherwise. */
    make_machine(mixed, sizeof mixed, "mixed", ONE, NULL);
    snprintf(theirs, sizeof theirs, "%s/ending", work);
    IS(mkdir(theirs, 0777), 0);
    IS(format(theirs, SLOTS, 0), MG_OK);
    IS(format(mixed, SLOTS, MG_ENDLESS), MG_OK);
    snprintf(path, sizeof path, "%s/ending/disk2.img", work);
    strcpy(theirs, path);
    swap(disk_in(mixed, 2), theirs);
    IS(opens(mixed, 0, &disk), MG_WRONG_HEADER);
    IS(disk, 2);
    IS_TEXT(mg_cause(), "disk2.img is of another set than an image before it");
    swap(disk_in(mixed, 2), theirs);
    IS(opens(mixed, 0, &disk), MG_OK);
    /* A device that is too short for what its header tells is a disk that fails. */
    IS(truncate(disk_in(mixed, 1), WHOLE - 1), 0);
    host = opened(mixed, 0);
    IS(mg_disks(host, disks, MG_DISKS, &many) == MG_OK && many == DISKS && disks[1].status == MG_WRONG_HEADER && disks[0].status == MG_OK, true);
    mg_close(host);
    IS(truncate(disk_in(mixed, 1), WHOLE), 0);
    host = opened(mixed, 0);
    IS(mg_disks(host, disks, MG_DISKS, &many) == MG_OK && disks[1].status == MG_OK, true);
    mg_close(host);
    IS(opens(mixed, HOSTS, NULL), MG_BAD_ARGUMENT);
    IS(format(mixed, SLOTS, MG_ENDLESS), MG_ALREADY_THERE);
}

int main(int argc, char **argv) {
    char *links[DISKS], names[DISKS][2100];
    int file;
    if (argc != 3 && argc != 3 + 2 * DISKS)
        return 2;
    work = argv[1];
    file = open(in(work, "tried"), O_RDWR | O_CREAT | O_DIRECT, 0666);
    if (file < 0 && errno == EINVAL)
        return 3;
    close(file);
    make_machine(first, sizeof first, "first", ONE, argc > 3 ? argv + 3 : NULL);
    for (int k = 0; k < DISKS; k++) {
        strcpy(names[k], disk_in(first, k));
        links[k] = names[k];
    }
    IS(format(first, SLOTS, MG_ENDLESS), MG_OK);
    make_machine(second, sizeof second, "second", TWO, argc > 3 ? argv + 3 + DISKS : links);
    through_epochs(atol(argv[2]));
    refuses();
    if (failures == 0)
        printf("shared_epochs: %u locks of two machines, through %s epochs\n", (unsigned)counted, argv[2]);
    return failures != 0;
}
