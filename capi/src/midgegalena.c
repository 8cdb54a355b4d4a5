/*
 * What stands between a C program and the proved library (crates/dlm_c). It looks at each pointer before it hands it on; it
 * opens the images, makes the device calls that the library names, and hands it what they were answered; it locks the host's
 * number, and it waits. No proof covers this file. It judges no header, no block, no command and no lock.
 */
#ifndef _GNU_SOURCE
#define _GNU_SOURCE
#endif

#include "claim.h"
#include "device.h"
#include "files.h"
#include "midgegalena.h"

#include <errno.h>
#include <fcntl.h>
#include <limits.h>
#include <stdarg.h>
#include <stdbool.h>
#include <stdio.h>
#include <stdlib.h>
#include <string.h>
#include <sys/file.h>
#include <sys/random.h>
#include <sys/stat.h>
#include <time.h>
#include <unistd.h>

/* ---- crates/dlm_c/src, and crates/c_host/src and crates/c_epochs/src below it ---- */

enum { ROW_LENGTH = 4096, COPY_LENGTH = 128, BLOCK_LENGTH = 256 };

/* Handle of handle.rt, of a log that ends: all zeros keep no host. Nothing but the functions below reads or writes it. */
struct handle {
    bool is_open;
    void *at;
};

/* EpochHandle of epoch_handle.rt: the same of a log without an end. */
struct epoch_handle {
    bool is_open;
    void *at;
};

/* Request of request.rt */
struct request {
    uint64_t request;
    uint32_t client;
    uint32_t action;
    uint32_t lock;
    uint32_t mode;
    uint32_t no_queue;
    uint32_t purged;
    uint32_t gives;
    uint32_t forgotten;
    uint8_t value[MG_VALUE_LENGTH];
};

/* Image, Images and Opened of images.rt */
struct image {
    uint64_t size;
    uint32_t is_read;
    uint32_t is_device;
    uint8_t bytes[HEADER_LENGTH];
};

struct images {
    struct image all[MG_DISKS];
};

struct opened {
    uint32_t used[MG_DISKS];
    uint32_t disks;
};

/* DueCall, Written and ToldAnswer of call.rt; device.h has Row, and HeaderBytes of header.rt */
struct due_call {
    uint64_t boot;
    uint64_t at;
    uint64_t length;
    uint32_t kind;
    uint32_t disk;
};

struct written {
    uint8_t bytes[COPY_LENGTH];
};

/* WrittenBlock of c_epochs: a host clears its whole blocks before it works in an epoch. */
struct written_block {
    uint8_t bytes[BLOCK_LENGTH];
};

struct told_answer {
    uint64_t boot;
    uint32_t outcome;
    uint32_t unused;
};

/* Answer of answer.rt in c_host */
struct answer {
    int32_t slot;
    int32_t reply;
    uint32_t purged;
    int32_t held;
    int32_t wanted;
    uint32_t count;
};

/* PlacedAnswer of answer.rt in c_epochs */
struct placed_answer {
    uint64_t place;
    uint64_t learned;
    int32_t reply;
    uint32_t purged;
    int32_t held;
    int32_t wanted;
    uint32_t marked;
    uint32_t unused;
};

/* EpochsView of view.rt in c_epochs */
struct epochs_view {
    uint64_t cluster;
    uint64_t epoch;
    uint64_t taken;
    uint64_t learned;
    uint32_t host;
    uint32_t disks;
    uint32_t slots;
    uint32_t is_in_epoch;
    uint32_t has_table;
    uint32_t away[MG_DISKS];
};

/* The sizes of the structs there. That each field lies where it does there is tried by tests/calls.c and tests/endless.c. */
typedef char sizes_are_as_there[sizeof(struct handle) == 16 && sizeof(struct request) == 56 && sizeof(struct image) == 1040 &&
                                        sizeof(struct images) == 7280 && sizeof(struct opened) == 32 &&
                                        sizeof(struct header) == 1032 && sizeof(struct due_call) == 32 &&
                                        sizeof(struct written) == 128 && sizeof(struct row) == 4096 && sizeof(struct told_answer) == 16 &&
                                        sizeof(struct answer) == 24 && sizeof(struct mg_value) == 20 && sizeof(struct mg_lock_view) == 36 &&
                                        sizeof(struct mg_client_view) == 24 && sizeof(struct mg_host_view) == 32 && sizeof(struct epoch_handle) == 16 &&
                                        sizeof(struct written_block) == 256 && sizeof(struct placed_answer) == 40 && sizeof(struct epochs_view) == 80
                                    ? 1
                                    : -1];

enum { ENQUEUE = 1, CONVERT = 2, RELEASE = 3, CANCEL = 4, STATUS = 5, PURGE = 6, FORGET = 7 };
enum { ATTACH = 1, SYNC = 2, READ = 3, WRITE = 4, AWAY = 5 };
enum { DONE = 0, RESET = 1, FAILED = 2 };
enum { NOTHING_DUE = -5, NO_TABLE = -10, HAS_AN_END = -11 };
enum { NOT_LEARNED = 30 }; /* of crates/attempt: of a marking, that place is of no epoch where the host is; of a look, marks do not tell the table */

bool dlm_c_is_waited_for(const struct request *request);
int32_t dlm_c_open(const struct images *images, uint32_t number, struct handle *handle, struct opened *told, int32_t *disk);
void dlm_c_close(struct handle *handle);
int32_t dlm_c_submit(struct handle *handle, const struct request *request, const uint8_t *name, size_t length, uint32_t tries);
int32_t dlm_c_recover(struct handle *handle, uint32_t tries);
int32_t dlm_c_look(struct handle *handle);
int32_t dlm_c_mark(struct handle *handle, uint32_t slot);
int32_t dlm_c_call(struct handle *handle, uint64_t boot, struct due_call *call, struct written *written);
int32_t dlm_c_next(struct handle *handle, const struct told_answer *told, const struct row *row, struct due_call *call,
                   struct written *written);
int32_t dlm_c_answer(struct handle *handle, struct answer *answer);
int32_t dlm_c_host(struct handle *handle, struct mg_host_view *into);
int32_t dlm_c_lock(struct handle *handle, uint32_t lock, struct mg_lock_view *into);
int32_t dlm_c_value(struct handle *handle, uint32_t lock, struct mg_value *into);
int32_t dlm_c_locks(struct handle *handle, struct mg_lock_view *into, size_t room, size_t *count);
int32_t dlm_c_clients(struct handle *handle, struct mg_client_view *into, size_t room, size_t *count);
int32_t dlm_c_text(struct handle *handle, uint8_t *into, size_t room, size_t *length);
int32_t dlm_c_sign_name(struct handle *handle, uint32_t number, uint32_t lock, uint8_t *into, size_t room);

int32_t dlm_c_epochs_open(const struct images *images, uint32_t number, struct epoch_handle *handle, struct opened *told, int32_t *disk);
int32_t dlm_c_epochs_open_to_look(const struct images *images, struct epoch_handle *handle, struct opened *told, int32_t *disk);
void dlm_c_epochs_close(struct epoch_handle *handle);
int32_t dlm_c_epochs_submit(struct epoch_handle *handle, const struct request *request, const uint8_t *name, size_t length, uint32_t tries);
int32_t dlm_c_epochs_recover(struct epoch_handle *handle, uint32_t tries);
int32_t dlm_c_epochs_look(struct epoch_handle *handle);
int32_t dlm_c_epochs_mark(struct epoch_handle *handle, uint64_t place);
int32_t dlm_c_epochs_call(struct epoch_handle *handle, uint64_t boot, struct due_call *call, struct written_block *written);
int32_t dlm_c_epochs_next(struct epoch_handle *handle, const struct told_answer *told, const struct row *row, struct due_call *call,
                          struct written_block *written);
int32_t dlm_c_epochs_answer(struct epoch_handle *handle, struct placed_answer *answer);
int32_t dlm_c_epochs_host(struct epoch_handle *handle, struct epochs_view *into);
int32_t dlm_c_epochs_lock(struct epoch_handle *handle, uint32_t lock, struct mg_lock_view *into);
int32_t dlm_c_epochs_value(struct epoch_handle *handle, uint32_t lock, struct mg_value *into);
int32_t dlm_c_epochs_locks(struct epoch_handle *handle, struct mg_lock_view *into, size_t room, size_t *count);
int32_t dlm_c_epochs_clients(struct epoch_handle *handle, struct mg_client_view *into, size_t room, size_t *count);
int32_t dlm_c_epochs_text(struct epoch_handle *handle, uint8_t *into, size_t room, size_t *length);
int32_t dlm_c_epochs_sign_name(struct epoch_handle *handle, uint32_t number, uint32_t lock, uint8_t *into, size_t room);

int32_t dlm_c_submit_order(struct claim *claim, struct handle *handle);
int32_t dlm_c_hear(struct claim *claim, struct handle *handle, uint32_t event, int32_t status, bool left_over);
int32_t dlm_c_next_left(struct handle *handle, const struct cleanup *cleanup, const uint32_t *ours, size_t length, struct mg_lock_view *into);
int32_t dlm_c_next_purge(struct handle *handle, const struct cleanup *cleanup, uint32_t *lock);
int32_t dlm_c_submit_purge(struct handle *handle, const struct cleanup *cleanup);

int32_t dlm_c_epochs_submit_order(struct claim *claim, struct epoch_handle *handle);
int32_t dlm_c_epochs_hear(struct claim *claim, struct epoch_handle *handle, uint32_t event, int32_t status, bool left_over);
int32_t dlm_c_epochs_next_left(struct epoch_handle *handle, const struct cleanup *cleanup, const uint32_t *ours, size_t length, struct mg_lock_view *into);
int32_t dlm_c_epochs_next_purge(struct epoch_handle *handle, const struct cleanup *cleanup, uint32_t *lock);
int32_t dlm_c_epochs_submit_purge(struct epoch_handle *handle, const struct cleanup *cleanup);

/* What it says below 0, but for a bad argument and a table that is not known, is of calls that this file does not make. */
int status_of(int32_t told) {
    if (told == NO_TABLE)
        return MG_NO_TABLE;
    return told >= MG_BAD_ARGUMENT ? told : MG_BROKEN;
}

/* ---- texts ---- */

struct meaning {
    int status;
    const char *name;
    const char *sentence;
};

static const struct meaning MEANINGS[] = {
    {MG_OK, "", "done"},
    {MG_BAD_ARGUMENT, "", "an argument is NULL or out of range; nothing was done"},
    {MG_TIMED_OUT, "", "the lock was not granted in time"},
    {MG_BROKEN, "", "the handle is in no state that it should be in; close it"},
    {MG_ONLY_LOOKS, "", "the handle was opened to look; nothing was done"},
    {MG_STOPPED, "", "it was told to stop; nothing is held"},
    {MG_BUSY, "", "a call of the session is under way; what mg_set_rest has it call may not use it, and nothing was done"},
    {MG_IN_DOUBT, "", "it is not known whether the lock stays in the table; the session keeps it, and releases it later"},
    {MG_NO_TABLE, "", "the host does not know the lock table now; a look, or mg_refresh, learns it"},
    {MG_NOT_YET, "", "the disk takes part from a later epoch on; until then it counts as lost"},
    {MG_OUTRUN, "Outrun", "another host's greater ballot was read at the last try; ask again, with the same request number"},
    {MG_NO_MAJORITY, "NoMajority",
     "no majority of the disks answers; bring them back, and ask again, with the same request number"},
    {MG_BALLOTS_SPENT, "BallotsSpent", "the ballots of this host are spent; try through another host number"},
    {MG_LOG_FULL, "LogFull",
     "all slots of the log are taken; dlm renew carries its table over into a new folder"},
    {MG_NOT_A_COMMAND, "NotACommand", "a committed value spells no command; somebody else wrote to the images"},
    {MG_LOCK_IN_USE, "LockInUse", "the lock number is in the table, or the client to forget has a lock"},
    {MG_NO_SUCH_LOCK, "NoSuchLock", "the lock number is not in the table"},
    {MG_NOT_OWNER, "NotOwner", "the lock is another client's"},
    {MG_ALREADY_CONVERTING, "AlreadyConverting", "the lock converts already"},
    {MG_STILL_WAITING, "StillWaiting", "the lock was not granted yet"},
    {MG_NOT_QUEUED, "NotQueued", "the lock cannot be granted at once"},
    {MG_TABLE_FULL, "TableFull", "the table has 256 locks"},
    {MG_STALE, "Stale", "the request number is below the client's last"},
    {MG_CLIENTS_FULL, "ClientsFull", "32 clients are known, and this is none of them"},
    {MG_NOTHING_TO_CANCEL, "NothingToCancel", "the lock is granted"},
    {MG_NO_MEMORY, "NoMemory", "out of memory"},
    {MG_NOT_FORMATTED, "NotFormatted", "the folder has no image with a right header"},
    {MG_WRONG_HEADER, "WrongHeader", "an image has a header that is not of this folder, or of another number"},
    {MG_UNREADABLE, "Unreadable", "an image cannot be opened, read, made or written"},
    {MG_ALREADY_THERE, "AlreadyThere", "one of the images that were to be made is there"},
    {MG_OLD_LAYOUT, "OldLayout", "an image has the layout before this one; dlm migrate moves it"},
    {MG_HOST_IN_USE, "HostInUse", "somebody else works under this host number"},
    {MG_NO_LOCK, "NoLock", "the host number, or the sign of life of a lock, cannot be locked; see errno"},
};

static const struct meaning *meaning_of(int status) {
    for (size_t i = 0; i < sizeof MEANINGS / sizeof MEANINGS[0]; i++)
        if (MEANINGS[i].status == status)
            return &MEANINGS[i];
    return NULL;
}

const char *mg_strerror(int status) {
    const struct meaning *found = meaning_of(status);
    return found ? found->sentence : "no number of this library";
}

const char *mg_name(int status) {
    const struct meaning *found = meaning_of(status);
    return found ? found->name : "";
}

#define TEXT_OF(number) #number
#define VERSION_OF(major, minor) TEXT_OF(major) "." TEXT_OF(minor)

const char *mg_version(void) { return VERSION_OF(MG_VERSION_MAJOR, MG_VERSION_MINOR); }

/* ---- what there is to add to a refusal ---- */

static __thread char cause[512];

const char *mg_cause(void) { return cause; }

void no_cause(void) { cause[0] = '\0'; }

void because(const char *format, ...) {
    size_t length = strlen(cause);
    int error = errno;
    va_list rest;
    va_start(rest, format);
    if (length > 0)
        (void)snprintf(cause + length, sizeof cause - length, "; ");
    length = strlen(cause);
    (void)vsnprintf(cause + length, sizeof cause - length, format, rest);
    va_end(rest);
    errno = error;
}

/* ---- files: as FileDisk of crates/disk ---- */

enum { MOST_READS = 9, BOOT = 1, LEAST_FILE = 3 };

int open_file(const char *path, int flags) {
    int file, low;
    do
        file = open(path, flags | O_CLOEXEC | O_NOCTTY, 0666);
    while (file < 0 && errno == EINTR);
    if (file < 0 || file >= LEAST_FILE)
        return file;
    low = file;
    file = fcntl(low, F_DUPFD_CLOEXEC, LEAST_FILE);
    close(low);
    return file;
}

static bool read_whole(int file, uint8_t *into, size_t length, uint64_t at) {
    while (length > 0) {
        ssize_t n = pread(file, into, length, (off_t)at);
        if (n < 0 && errno == EINTR)
            continue;
        if (n <= 0)
            return false;
        into += n;
        length -= (size_t)n;
        at += (uint64_t)n;
    }
    return true;
}

bool read_settled(int file, uint8_t *into, size_t length, uint64_t at) {
    uint8_t again[ROW_LENGTH];
    if (length > sizeof again || !read_whole(file, into, length, at))
        return false;
    for (int reads = 1; reads < MOST_READS; reads++) {
        if (!read_whole(file, again, length, at))
            return false;
        if (memcmp(into, again, length) == 0)
            return true;
        memcpy(into, again, length);
    }
    return false;
}

bool write_whole(int file, const uint8_t *from, size_t length, uint64_t at) {
    while (length > 0) {
        ssize_t n = pwrite(file, from, length, (off_t)at);
        if (n < 0 && errno == EINTR)
            continue;
        if (n <= 0)
            return false;
        from += n;
        length -= (size_t)n;
        at += (uint64_t)n;
    }
    return true;
}

char *path_of(const char *folder, const char *name, int number, const char *end) {
    size_t size = strlen(folder) + strlen(name) + strlen(end) + 5;
    char *path = malloc(size);
    if (path && number < 0)
        (void)snprintf(path, size, "%s/%s", folder, name);
    else if (path)
        (void)snprintf(path, size, "%s/%s%d%s", folder, name, number % 100, end);
    return path;
}

/* ---- a host ---- */

enum { FIRST_TRIES = 8, FIRST_BYTES = 64 };

/* LOOKS: without a number, so no call of it writes. TAKES: only to make the number this machine's. ASKS: only to tell whose it is. */
enum way { WORKS, LOOKS, TAKES, ASKS };

struct mg_host {
    struct handle handle;       /* one of these two is open */
    struct epoch_handle epochs;
    bool is_endless;            /* that one */
    unsigned tries, disks;
    bool only_looks;
    char *visited;                /* the folder where a look takes the number `visitor` for a moment if marks do not tell the table; NULL where none does */
    unsigned visitor;
    bool took_number;             /* the last look did */
    int lock;
    int files[MG_DISKS];          /* NO_FILE: every call fails */
    struct device how[MG_DISKS];  /* of a device that several machines use; of other images the sector size is 0 */
    uint8_t *room;                /* for rows of such a device, NULL where there is none */
    /* The device call that is due, what it writes, and what was read last. */
    struct due_call call;
    struct written written;
    struct written_block written_block; /* in its place, where the log has no end */
    struct row row;
    void (*follows)(struct mg_host *host, void *more); /* of mg_look_each; NULL where none does */
    void *more;
    int64_t took;         /* the last attempt, in microseconds */
    bool marks_late;
    int64_t due, due_end; /* the slots of commands that are to be marked, and others between; none where they are the same */
    int faults[MG_DISKS]; /* MG_OK, or why the image is not used, or that a call on it failed */
    struct mg_image_view images[MG_DISKS];
    int errors[MG_DISKS]; /* errno, where an image could not be opened or read */
    bool is_unfit[MG_DISKS]; /* it has the first bytes of a device of several machines, and is used as none */
    struct stat facts[MG_DISKS];          /* of the files, when they were opened or could not be */
    uint8_t first[MG_DISKS][FIRST_BYTES]; /* of a block device, its header's numbers among them */
};

static bool is_shared(const struct mg_host *host, unsigned disk) { return host->how[disk].sector_size != 0; }

/* Makes the device call that is due, and says what it was answered. An attach is hardly ever told: the library answers the first of them itself, since every
 * file tells boot number 1. AWAY is none: the disk takes no part yet, and the library listens to no answer. */
static uint32_t make_call(struct mg_host *host) {
    const struct due_call *call = &host->call;
    const uint8_t *bytes = host->is_endless ? host->written_block.bytes : host->written.bytes;
    size_t room = host->is_endless ? sizeof host->written_block : sizeof host->written;
    int *file = call->disk < MG_DISKS ? &host->files[call->disk] : NULL;
    bool done = false;
    if (call->kind == ATTACH || call->kind == AWAY)
        return DONE;
    if (call->boot != BOOT)
        return RESET;
    if (!file || *file == NO_FILE)
        return FAILED;
    if (call->kind == READ && is_shared(host, call->disk))
        done = call->length == ROW_LENGTH && device_read(*file, &host->how[call->disk], host->room, call->at, &host->row);
    else if (call->kind == READ)
        done = read_settled(*file, host->row.bytes, (size_t)call->length, call->at);
    else if (call->kind == WRITE && call->length > room)
        done = false;
    else if (call->kind == WRITE && is_shared(host, call->disk))
        done = device_write(*file, &host->how[call->disk], host->room, call->at, bytes, (size_t)call->length);
    else if (call->kind == WRITE)
        done = write_whole(*file, bytes, (size_t)call->length, call->at);
    else if (call->kind == SYNC) {
        done = sync_data(*file);
        if (!done) {
            /* The system may hold bytes for written that are not, and no later sync would tell. */
            close(*file);
            *file = NO_FILE;
        }
    }
    return done ? DONE : FAILED;
}

/* ---- a host of either kind of log ---- */

/* How an operation ended. */
struct outcome {
    int64_t slot;     /* of the command, through all epochs; -1 where it was not acknowledged */
    uint64_t learned; /* of a recovery and a look: how many commands are learned */
    int32_t reply;
    uint32_t purged;
    int32_t held;
    int32_t wanted;
};

static const struct outcome NO_OUTCOME = {-1, 0, MG_NO_REPLY, 0, MG_NONE, MG_NONE};

/* What a host knows of itself, and of the epoch where it is. A log that ends is one epoch. */
struct facts {
    struct mg_host_view view;
    bool is_in_epoch;
    uint64_t epoch;
    uint64_t taken; /* slots of it whose commands are learned */
    bool is_away[MG_DISKS]; /* the disk takes no part yet in this epoch */
};

static int32_t open_handle(struct mg_host *host, const struct images *images, unsigned number, enum way way, struct opened *told, int32_t *disk) {
    int32_t status = way == LOOKS ? dlm_c_epochs_open_to_look(images, &host->epochs, told, disk) : dlm_c_epochs_open(images, number, &host->epochs, told, disk);
    host->is_endless = status == 0;
    return status == HAS_AN_END ? dlm_c_open(images, number, &host->handle, told, disk) : status;
}

static void close_handle(struct mg_host *host) {
    dlm_c_close(&host->handle);
    dlm_c_epochs_close(&host->epochs);
}

/* It ends where it is outrun. */
static int32_t begin_to_submit(struct mg_host *host, const struct request *request, const char *name) {
    const uint8_t *bytes = (const uint8_t *)name;
    if (host->is_endless)
        return dlm_c_epochs_submit(&host->epochs, request, bytes, strlen(name), 1);
    return dlm_c_submit(&host->handle, request, bytes, strlen(name), 1);
}

static int32_t begin_to_recover(struct mg_host *host) {
    return host->is_endless ? dlm_c_epochs_recover(&host->epochs, host->tries) : dlm_c_recover(&host->handle, host->tries);
}

static int32_t begin_to_look(struct mg_host *host) { return host->is_endless ? dlm_c_epochs_look(&host->epochs) : dlm_c_look(&host->handle); }

static int32_t begin_to_mark(struct mg_host *host, int64_t slot) {
    return host->is_endless ? dlm_c_epochs_mark(&host->epochs, (uint64_t)slot) : dlm_c_mark(&host->handle, (uint32_t)slot);
}

static int32_t first_call(struct mg_host *host) {
    if (host->is_endless)
        return dlm_c_epochs_call(&host->epochs, BOOT, &host->call, &host->written_block);
    return dlm_c_call(&host->handle, BOOT, &host->call, &host->written);
}

static int32_t next_call(struct mg_host *host, const struct told_answer *told) {
    if (host->is_endless)
        return dlm_c_epochs_next(&host->epochs, told, &host->row, &host->call, &host->written_block);
    return dlm_c_next(&host->handle, told, &host->row, &host->call, &host->written);
}

static int32_t outcome_of_epochs(struct mg_host *host, struct outcome *into) {
    struct placed_answer answer;
    int32_t status;
    memset(&answer, 0, sizeof answer);
    status = dlm_c_epochs_answer(&host->epochs, &answer);
    into->slot = answer.reply == MG_NO_REPLY ? -1 : (int64_t)answer.place;
    into->learned = answer.learned;
    into->reply = answer.reply;
    into->purged = answer.purged;
    into->held = answer.held;
    into->wanted = answer.wanted;
    return status;
}

/* How the last operation ended. */
static int32_t outcome_of(struct mg_host *host, struct outcome *into) {
    struct answer answer;
    int32_t status;
    if (host->is_endless)
        return outcome_of_epochs(host, into);
    memset(&answer, 0, sizeof answer);
    status = dlm_c_answer(&host->handle, &answer);
    into->slot = answer.slot;
    into->learned = answer.count;
    into->reply = answer.reply;
    into->purged = answer.purged;
    into->held = answer.held;
    into->wanted = answer.wanted;
    return status;
}

static int facts_of_epochs(struct mg_host *host, struct facts *into) {
    struct epochs_view view;
    int status;
    memset(&view, 0, sizeof view);
    status = status_of(dlm_c_epochs_host(&host->epochs, &view));
    into->view.cluster = view.cluster;
    into->view.learned = view.learned;
    into->view.host = view.host;
    into->view.disks = view.disks;
    into->view.slots = view.slots;
    into->view.endless = 1;
    into->is_in_epoch = view.is_in_epoch == 1;
    into->epoch = view.epoch;
    into->taken = view.taken;
    for (unsigned k = 0; k < MG_DISKS; k++)
        into->is_away[k] = view.away[k] == 1;
    return status;
}

static int facts_of(struct mg_host *host, struct facts *into) {
    int status;
    memset(into, 0, sizeof *into);
    if (host->is_endless)
        return facts_of_epochs(host, into);
    status = status_of(dlm_c_host(&host->handle, &into->view));
    into->is_in_epoch = true;
    into->taken = into->view.learned;
    return status;
}

static int32_t show_lock(struct mg_host *host, uint32_t lock, struct mg_lock_view *into) {
    return host->is_endless ? dlm_c_epochs_lock(&host->epochs, lock, into) : dlm_c_lock(&host->handle, lock, into);
}

static int32_t show_value(struct mg_host *host, uint32_t lock, struct mg_value *into) {
    return host->is_endless ? dlm_c_epochs_value(&host->epochs, lock, into) : dlm_c_value(&host->handle, lock, into);
}

static int32_t show_locks(struct mg_host *host, struct mg_lock_view *into, size_t room, size_t *count) {
    return host->is_endless ? dlm_c_epochs_locks(&host->epochs, into, room, count) : dlm_c_locks(&host->handle, into, room, count);
}

static int32_t show_clients(struct mg_host *host, struct mg_client_view *into, size_t room, size_t *count) {
    return host->is_endless ? dlm_c_epochs_clients(&host->epochs, into, room, count) : dlm_c_clients(&host->handle, into, room, count);
}

static int32_t show_text(struct mg_host *host, uint8_t *into, size_t room, size_t *length) {
    return host->is_endless ? dlm_c_epochs_text(&host->epochs, into, room, length) : dlm_c_text(&host->handle, into, room, length);
}

/* ---- operations ---- */

/* Whoever follows a look is told where another number of commands is known than before. */
static void tell_follower(struct mg_host *host, uint64_t *known) {
    struct facts facts;
    if (facts_of(host, &facts) != MG_OK || facts.view.learned == *known)
        return;
    *known = facts.view.learned;
    host->follows(host, host->more);
}

/* Makes the calls of an operation that was begun, until it has ended, and tells how. Where memory is refused a host of a log without an end gives it up. */
static int carry_out(struct mg_host *host, int32_t begun, struct outcome *outcome) {
    struct told_answer told = {BOOT, DONE, 0};
    uint64_t known = UINT64_MAX;
    int32_t status;
    *outcome = NO_OUTCOME;
    if (begun != 0)
        return status_of(begun);
    status = first_call(host);
    while (status == 0) {
        if (host->follows)
            tell_follower(host, &known);
        told.outcome = make_call(host);
        if (told.outcome != DONE && host->call.disk < MG_DISKS && host->faults[host->call.disk] == MG_OK)
            host->faults[host->call.disk] = MG_UNREADABLE;
        status = next_call(host, &told);
    }
    if (host->follows)
        tell_follower(host, &known);
    if (status != NOTHING_DUE)
        return status == MG_NO_MEMORY ? MG_NO_MEMORY : MG_BROKEN;
    return status_of(outcome_of(host, outcome));
}

/* Marks what is to be marked. It stands in the log whether or not that comes to its end. With late marks what was refused is still to be marked. Of an epoch
 * that the host has left nothing is: nobody looks there. */
static int mark_due(struct mg_host *host) {
    struct outcome marked;
    int status = MG_OK;
    while (host->due < host->due_end && status == MG_OK) {
        status = carry_out(host, begin_to_mark(host, host->due), &marked);
        if (status == NOT_LEARNED && host->is_endless)
            status = MG_OK;
        if (status == MG_OK)
            host->due++;
    }
    if (!host->marks_late)
        host->due = host->due_end;
    return status;
}

/* Notes why images are not used, by what the proved library says of their first bytes. */
static void note_faults(struct mg_host *host, const struct images *images) {
    for (unsigned k = 0; k < MG_DISKS; k++) {
        const struct image *image = &images->all[k];
        struct header found;
        found.size = image->size;
        memcpy(found.bytes, image->bytes, HEADER_LENGTH);
        if (host->files[k] != NO_FILE)
            host->faults[k] = MG_OK;
        else if (image->is_read != 1)
            host->faults[k] = MG_UNREADABLE;
        else
            host->faults[k] = image->size >= HEADER_LENGTH && !dlm_c_is_formatted(&found) ? MG_NOT_FORMATTED : MG_WRONG_HEADER;
    }
}

static void let_go(struct mg_host *host) {
    for (unsigned disk = 0; disk < MG_DISKS; disk++)
        if (host->files[disk] != NO_FILE)
            close(host->files[disk]);
    if (host->lock != NO_FILE)
        close(host->lock);
    close_handle(host);
    free(host->visited);
    free(host->room);
    free(host);
}

/* Of a device of several machines that is not right as this disk: as which other one it is. */
static void find_other(struct mg_host *host, unsigned disk, int file) {
    struct device how;
    struct header shown;
    if (!device_first(file, host->room) || !device_version(host->room[1]))
        return;
    for (unsigned other = 0; other < MG_DISKS; other++)
        if (other != disk && device_find(file, other, host->room, &how, &shown))
            host->images[disk].other = (int32_t)other;
}

/* Opens an image anew, past the machine's cache, if it is a device that several machines use. Tells of it as of the image that it shows. */
static bool find_shared(struct mg_host *host, unsigned disk, const char *path, int flags, struct image *image) {
    struct device how;
    struct header shown;
    int file = open_file(path, flags | O_DIRECT | O_DSYNC);
    bool is_found = file != NO_FILE && device_find(file, disk, host->room, &how, &shown);
    if (file == NO_FILE)
        host->errors[disk] = errno;
    else if (!is_found)
        find_other(host, disk, file);
    if (file != NO_FILE && !(is_found && how.dsync)) {
        close(file);
        file = is_found ? open_file(path, flags | O_DIRECT) : NO_FILE;
        if (is_found && file == NO_FILE)
            host->errors[disk] = errno;
    }
    if (file == NO_FILE)
        return false;
    close(host->files[disk]);
    host->files[disk] = file;
    host->how[disk] = how;
    host->images[disk].kind = MG_SHARED_IMAGE;
    host->images[disk].sector = how.sector_size;
    host->images[disk].hosts = how.hosts;
    image->is_device = 0;
    image->size = shown.size;
    memcpy(image->bytes, shown.bytes, HEADER_LENGTH);
    return true;
}

/* Opens an image where that can be done in this way, and reads its first bytes. False where memory was refused. */
static bool find_image(struct mg_host *host, const char *folder, unsigned disk, int flags, struct image *image) {
    struct stat facts;
    int *file = &host->files[disk];
    char *path = path_of(folder, "disk", (int)disk, ".img");
    if (!path)
        return false;
    errno = 0;
    *file = open_file(path, flags);
    if (*file == NO_FILE) {
        int error = errno;
        (void)stat(path, &host->facts[disk]);
        errno = error;
    } else if (fstat(*file, &facts) == 0) {
        off_t size = S_ISBLK(facts.st_mode) ? lseek(*file, 0, SEEK_END) : facts.st_size;
        host->facts[disk] = facts;
        if (size >= 0) {
            image->is_device = S_ISBLK(facts.st_mode) ? 1 : 0;
            image->size = (uint64_t)size;
            host->images[disk].kind = image->is_device ? MG_DEVICE_IMAGE : MG_FILE_IMAGE;
            /* What the machine has in its cache of a device may be old. */
            image->is_read = image->is_device && find_shared(host, disk, path, flags, image);
            if (!image->is_read && read_settled(*file, image->bytes, size < HEADER_LENGTH ? (size_t)size : HEADER_LENGTH, 0)) {
                image->is_read = 1;
                host->is_unfit[disk] = device_version(image->bytes[1]) && (image->is_device || !find_shared(host, disk, path, flags, image));
            }
        }
    }
    if (!image->is_read) {
        host->errors[disk] = errno;
        host->images[disk].kind = MG_NO_IMAGE;
    }
    free(path);
    if (*file != NO_FILE)
        host->images[disk].read_only = device_is_read_only(*file);
    if (*file != NO_FILE && !image->is_read) {
        close(*file);
        *file = NO_FILE;
    }
    return true;
}

/* Locks the host's number, as lock_host of crates/folders does: by the same file, and the same kind of lock. */
static int lock_number(const char *folder, unsigned number, int *lock) {
    int done;
    char *path = path_of(folder, "host", (int)number, ".lock");
    if (!path)
        return MG_NO_MEMORY;
    *lock = open_file(path, O_RDWR | O_CREAT);
    if (*lock == NO_FILE)
        *lock = open_file(path, O_RDONLY);
    free(path);
    if (*lock == NO_FILE) {
        because("host%u.lock can be neither made nor opened: %s", number, strerror(errno));
        return MG_NO_LOCK;
    }
    do
        done = flock(*lock, LOCK_EX | LOCK_NB);
    while (done != 0 && errno == EINTR);
    if (done == 0)
        return MG_OK;
    if (errno == EWOULDBLOCK)
        return MG_HOST_IN_USE;
    because("host%u.lock cannot be locked: %s", number, strerror(errno));
    return MG_NO_LOCK;
}

/* The name of this machine, for devices that keep one: 32 digits of the file machine-id in the folder, or else of /etc/machine-id. */
static bool read_machine(const char *folder, struct machine *name) {
    static const char digits[] = "0123456789abcdef";
    char text[2 * sizeof name->bytes + 1] = "";
    char *path = path_of(folder, "machine-id", -1, "");
    int file = path ? open_file(path, O_RDONLY) : NO_FILE;
    bool is_elsewhere = path && file == NO_FILE && errno == ENOENT, is_there, done;
    if (is_elsewhere)
        file = open_file("/etc/machine-id", O_RDONLY);
    free(path);
    is_there = file != NO_FILE;
    done = is_there && read_whole(file, (uint8_t *)text, sizeof text - 1, 0) && strspn(text, digits) == sizeof text - 1 && strspn(text, "0") < sizeof text - 1;
    if (!done)
        because("this machine has no name: %s %s, and 32 digits of 0 to 9 and a to f are wanted, not all of them 0",
                is_elsewhere ? "the folder has no machine-id, and /etc/machine-id" : "the folder's machine-id",
                is_there ? "has something else" : errno == ENOENT ? "is not there" : "cannot be read");
    if (is_there) {
        close(file);
        errno = EINVAL;
    }
    for (size_t i = 0; i < sizeof text - 1 && done; i++)
        name->bytes[i / 2] = (uint8_t)(name->bytes[i / 2] << 4 | (strchr(digits, text[i]) - digits));
    return done;
}

/* Says of an image that is not used what is known of it. */
static void say_why_not(const struct mg_host *host, unsigned disk) {
    const struct mg_image_view *image = &host->images[disk];
    if (image->kind == MG_NO_IMAGE)
        because("disk%u.img: %s", disk, strerror(host->errors[disk] ? host->errors[disk] : EIO));
    else if (image->other >= 0)
        because("disk%u.img is formatted as disk %d", disk, (int)image->other);
    else if (host->is_unfit[disk] && host->errors[disk])
        because("disk%u.img cannot be opened past this machine's cache: %s", disk, strerror(host->errors[disk]));
    else if (host->is_unfit[disk])
        because("disk%u.img has the header of a device of several machines, and is damaged or too short for that", disk);
    else if (host->files[disk] != NO_FILE)
        because("disk%u.img is read only", disk);
    else
        because("disk%u.img is no right image of this set", disk);
}

/* Where devices keep the names of machines the number has to be this one's. */
static int own_number(struct mg_host *host, const char *folder, unsigned number, bool takes) {
    struct machine machine, other;
    int status;
    bool any = false;
    for (unsigned k = 0; k < host->disks; k++)
        any |= is_shared(host, k) && host->files[k] != NO_FILE;
    if (!any && takes)
        because("the folder has no devices of several machines");
    if (!any)
        return takes ? MG_BAD_ARGUMENT : MG_OK;
    if (!read_machine(folder, &machine))
        return MG_NO_LOCK;
    status = status_of(device_claim(host->files, host->how, host->disks, number, takes ? TAKE : CLAIM, &machine, &other, host->room));
    if (status == MG_NO_MAJORITY) {
        because("half of the devices or fewer tell whose host number %u is", number);
        for (unsigned k = 0; k < host->disks; k++)
            if (host->files[k] == NO_FILE || host->images[k].read_only)
                say_why_not(host, k);
    }
    errno = EREMOTE;
    return status;
}

static int open_host(struct mg_host *host, struct images *images, const char *folder, unsigned number, enum way way, int32_t *disk) {
    struct opened told;
    int32_t status;
    memset(&told, 0, sizeof told);
    host->room = device_room();
    if (!host->room)
        return MG_NO_MEMORY;
    for (unsigned k = 0; k < MG_DISKS; k++)
        if (!find_image(host, folder, k, way == WORKS || way == TAKES ? O_RDWR : O_RDONLY, &images->all[k]))
            return MG_NO_MEMORY;
    status = open_handle(host, images, number, way, &told, disk);
    if (status != 0 && *disk >= 0 && *disk < MG_DISKS && (status == MG_UNREADABLE || host->images[*disk].other >= 0 || host->is_unfit[*disk]))
        say_why_not(host, (unsigned)*disk);
    else if (status == MG_WRONG_HEADER && *disk >= 0 && *disk < MG_DISKS && is_shared(host, (unsigned)*disk))
        because("disk%d.img is of another set than an image before it", (int)*disk);
    if (status != 0)
        return status_of(status);
    host->disks = told.disks;
    for (unsigned k = 0; k < MG_DISKS; k++) {
        if (host->files[k] != NO_FILE && (k >= told.disks || told.used[k] != 1)) {
            close(host->files[k]);
            host->files[k] = NO_FILE;
        }
        if (host->files[k] != NO_FILE && is_shared(host, k) && number >= host->how[k].hosts) {
            because("disk%u.img has host numbers from 0 to %u, and %u was given", k, (unsigned)host->how[k].hosts - 1, number);
            return MG_BAD_ARGUMENT;
        }
    }
    if (way != WORKS && way != TAKES)
        return MG_OK;
    status = lock_number(folder, number, &host->lock);
    return status == MG_OK ? own_number(host, folder, number, way == TAKES) : status;
}

static int open_once(const char *folder, unsigned number, enum way way, struct mg_host **out, int *disk) {
    int32_t at_fault = -1;
    int status;
    struct mg_host *host;
    struct images *images;
    char *followed;
    no_cause();
    if (disk)
        *disk = -1;
    if (out)
        *out = NULL;
    if (!folder || !out || number >= MG_HOSTS)
        return MG_BAD_ARGUMENT;
    host = calloc(1, sizeof *host);
    if (!host)
        return MG_NO_MEMORY;
    host->tries = FIRST_TRIES;
    host->only_looks = way == LOOKS;
    host->lock = NO_FILE;
    for (unsigned k = 0; k < MG_DISKS; k++) {
        host->files[k] = NO_FILE;
        host->images[k].disk = k;
        host->images[k].other = -1;
    }
    images = calloc(1, sizeof *images);
    /* A link is followed once: one that is moved meanwhile would give images of one folder, and the lock of another. */
    followed = realpath(folder, NULL);
    status = images ? open_host(host, images, followed ? followed : folder, number, way, &at_fault) : MG_NO_MEMORY;
    free(followed);
    if (status == MG_OK)
        note_faults(host, images);
    for (unsigned k = 0; status == MG_OK && k < MG_DISKS; k++)
        memcpy(host->first[k], images->all[k].bytes, FIRST_BYTES);
    free(images);
    if (disk)
        *disk = at_fault;
    if (status != MG_OK) {
        int error = errno;
        let_go(host);
        errno = error;
        return status;
    }
    *out = host;
    return MG_OK;
}

enum { OPENINGS = 3 };

/* A lost image may be replaced after the images were opened, and before the number is locked: nobody does so while it is. Then all are opened anew. Who replaces so
 * often that they are others once more has not ended every process before, as is asked of him. */
static int open_folder(const char *folder, unsigned number, enum way way, struct mg_host **out, int *disk) {
    int status = open_once(folder, number, way, out, disk);
    for (unsigned i = 1; i < OPENINGS && status == MG_OK && (way == WORKS || way == TAKES) && !has_images_of(*out, folder); i++) {
        let_go(*out);
        status = open_once(folder, number, way, out, disk);
    }
    return status;
}

int mg_open(const char *folder, unsigned number, struct mg_host **out, int *disk) {
    return open_folder(folder, number, WORKS, out, disk);
}

/* Whether an image that is open is the one at this path. A block device may have got another header, of a later set. */
static bool is_image_at(const struct mg_host *host, unsigned disk, const struct stat *there) {
    const struct stat *ours = &host->facts[disk];
    uint8_t first[FIRST_BYTES];
    if (!S_ISBLK(ours->st_mode))
        return ours->st_dev == there->st_dev && ours->st_ino == there->st_ino;
    if (!S_ISBLK(there->st_mode) || ours->st_rdev != there->st_rdev)
        return false;
    return is_shared(host, disk) || !read_whole(host->files[disk], first, sizeof first, 0) || memcmp(first, host->first[disk], sizeof first) == 0;
}

/* Whether each image that is found in the folder is the one that was there as it was opened: a lost one may have been replaced. It asks for no memory. */
bool has_images_of(const struct mg_host *host, const char *folder) {
    for (unsigned k = 0; k < host->disks; k++) {
        struct stat there;
        char path[PATH_MAX];
        int long_as = snprintf(path, sizeof path, "%s/disk%u.img", folder, k);
        bool is_found = long_as > 0 && (size_t)long_as < sizeof path && stat(path, &there) == 0;
        if (is_found && !is_image_at(host, k, &there))
            return false;
    }
    return true;
}

static int64_t nanoseconds(const struct timespec *time) { return (int64_t)time->tv_sec * 1000000000 + time->tv_nsec; }

enum { JUST_NOW = 20000000 }; /* nanoseconds: two writes within so long may be told as of one time */

uint64_t last_write(const struct mg_host *host) {
    struct timespec now = {0, 0};
    uint64_t sum = 0;
    (void)clock_gettime(CLOCK_REALTIME, &now);
    for (unsigned k = 0; k < MG_DISKS; k++) {
        struct stat facts;
        if (host->files[k] == NO_FILE)
            continue;
        if (fstat(host->files[k], &facts) != 0 || !S_ISREG(facts.st_mode) || nanoseconds(&facts.st_mtim) > nanoseconds(&now) - JUST_NOW)
            return 0;
        sum = 31 * sum + (uint64_t)nanoseconds(&facts.st_mtim);
    }
    return sum;
}

/* A look learns what marks say, whoever set them, so it does not matter under which number. */
int mg_open_to_look(const char *folder, struct mg_host **out, int *disk) { return open_folder(folder, 0, LOOKS, out, disk); }

int open_to_visit(const char *folder, unsigned number, struct mg_host **out, int *disk) {
    int status = open_folder(folder, 0, LOOKS, out, disk);
    if (status != MG_OK || !(*out)->is_endless)
        return status;
    (*out)->visited = strdup(folder);
    (*out)->visitor = number;
    if ((*out)->visited)
        return MG_OK;
    let_go(*out);
    *out = NULL;
    return MG_NO_MEMORY;
}

void mg_close(struct mg_host *host) {
    if (!host)
        return;
    (void)mark_due(host);
    let_go(host);
}

int mg_take_number(const char *folder, unsigned number, int *disk) {
    struct mg_host *host;
    int status = open_folder(folder, number, TAKES, &host, disk);
    if (status == MG_OK)
        let_go(host);
    return status;
}

int mg_machine_of(const char *folder, unsigned number, char *into, size_t size) {
    static const struct machine nobody;
    struct machine ours, owner;
    struct mg_host *host;
    int status;
    if (!into || size < 2 * sizeof owner.bytes + 1)
        return MG_BAD_ARGUMENT;
    into[0] = '\0';
    status = open_folder(folder, number, ASKS, &host, NULL);
    if (status != MG_OK)
        return status;
    /* If it is another machine's, that one; else this one's, if the devices have that name. */
    status = read_machine(folder, &ours) ? device_claim(host->files, host->how, host->disks, number, TELL, &ours, &owner, host->room) : IS_OURS;
    if (status != IS_OTHERS)
        status = device_claim(host->files, host->how, host->disks, number, TELL, &nobody, &owner, host->room);
    let_go(host);
    for (size_t i = 0; i < sizeof owner.bytes && status == IS_OTHERS; i++)
        (void)snprintf(into + 2 * i, 3, "%02x", owner.bytes[i]);
    return MG_OK;
}

int mg_set_tries(struct mg_host *host, unsigned tries) {
    if (!host || tries < 1 || tries > 255)
        return MG_BAD_ARGUMENT;
    host->tries = tries;
    return MG_OK;
}

int mg_set_late_marks(struct mg_host *host, int late) {
    if (!host)
        return MG_BAD_ARGUMENT;
    host->marks_late = late != 0;
    return MG_OK;
}

int mg_mark_now(struct mg_host *host) { return host ? mark_due(host) : MG_BAD_ARGUMENT; }

bool is_unmarked(const struct mg_host *host) { return host->due < host->due_end; }

/* ---- waiting ---- */

int64_t microseconds(void) {
    struct timespec now = {0, 0};
    (void)clock_gettime(CLOCK_MONOTONIC, &now);
    return (int64_t)now.tv_sec * 1000000 + now.tv_nsec / 1000;
}

static int64_t milliseconds(void) { return microseconds() / 1000; }

void sleep_for(int64_t length) {
    struct timespec left;
    left.tv_sec = (time_t)(length / 1000000);
    left.tv_nsec = (long)(length % 1000000) * 1000;
    while (nanosleep(&left, &left) != 0 && errno == EINTR)
        ;
}

/* Where the system has no random numbers it is the greatest there is. */
static uint32_t any_number(void) {
    uint32_t part;
    return getrandom(&part, sizeof part, 0) == (ssize_t)sizeof part ? part : UINT32_MAX;
}

enum { SHORTEST_BOUND = 20, LONGEST_BOUND = 2048000 }; /* microseconds */

/* How long to wait after being outrun, in microseconds: for a random time. Its bound is as long as the attempt took, so it fits memory and slow
 * disks, and doubles with the tries that were outrun before. Where the system has no random numbers the pause is as long as it ever is after
 * so many. */
int64_t pause_after(const struct mg_host *host, unsigned outrun) {
    uint64_t took = (uint64_t)(host->took < LONGEST_BOUND ? host->took : LONGEST_BOUND);
    uint64_t bound = took << (outrun < 7 ? outrun : 7);
    if (bound < SHORTEST_BOUND)
        bound = SHORTEST_BOUND;
    return (int64_t)(((bound < LONGEST_BOUND ? bound : LONGEST_BOUND) * any_number()) >> 32);
}

/* ---- commands ---- */

static const struct mg_answer NO_ANSWER = {-1, MG_NO_REPLY, 0, MG_NONE, MG_NONE};

static uint64_t learned_by(struct mg_host *host) {
    struct facts facts;
    (void)facts_of(host, &facts);
    return facts.view.learned;
}

/* How many commands were learned in between: where the host has come to another epoch, of that one. */
static uint64_t learned_since(const struct facts *before, const struct facts *after) {
    if (!before->is_in_epoch || before->epoch != after->epoch || before->taken > after->taken)
        return after->taken;
    return after->taken - before->taken;
}

/* A submission that was begun, and ends where it is outrun. It may have learned commands of others first. So its last attempt is taken to be as
 * long as it was on average for a slot. */
static int carry_out_once(struct mg_host *host, int32_t begun, struct outcome *outcome) {
    struct facts before, after;
    int64_t from = microseconds();
    int status;
    (void)facts_of(host, &before);
    status = carry_out(host, begun, outcome);
    (void)facts_of(host, &after);
    host->took = (microseconds() - from) / (int64_t)(1 + learned_since(&before, &after));
    return status;
}

/* Whether it was outrun, and may try again, having been outrun so often before: then it waits first. */
static bool tries_again(const struct mg_host *host, int status, unsigned outrun) {
    if (status != MG_OUTRUN || outrun + 1 >= host->tries)
        return false;
    sleep_for(pause_after(host, outrun));
    return true;
}

/* Marks a command that is acknowledged, or leaves that to the next call. */
static int mark_in_time(struct mg_host *host, int64_t slot, bool is_waited_for) {
    bool is_alone = !is_unmarked(host);
    if (is_alone || slot < host->due)
        host->due = slot;
    if (is_alone || slot >= host->due_end)
        host->due_end = slot + 1;
    return host->marks_late && !is_waited_for ? MG_OK : mark_due(host);
}

static int submit_once(struct mg_host *host, const struct request *request, const char *name, struct outcome *outcome) {
    return carry_out_once(host, begin_to_submit(host, request, name), outcome);
}

static int submit(struct mg_host *host, const struct request *request, const char *name, struct mg_answer *into) {
    struct outcome outcome;
    unsigned outrun = 0;
    int status;
    if (into)
        *into = NO_ANSWER;
    if (!host || !name)
        return MG_BAD_ARGUMENT;
    if (host->only_looks)
        return MG_ONLY_LOOKS;
    (void)mark_due(host);
    do
        status = submit_once(host, request, name, &outcome);
    while (tries_again(host, status, outrun++));
    if (into) {
        into->slot = outcome.slot;
        into->reply = outcome.reply;
        into->purged = outcome.purged;
        into->held = outcome.held;
        into->wanted = outcome.wanted;
    }
    if (outcome.slot >= 0)
        (void)mark_in_time(host, outcome.slot, dlm_c_is_waited_for(request));
    return status;
}

/* A mode below 0 becomes one that is none, and other flags than those that are known are refused. */
static struct request asks(uint32_t action, unsigned client, uint64_t request, unsigned lock) {
    struct request asked = {0, 0, 0, 0, 0, 0, 0, 0, 0, {0}};
    asked.request = request;
    asked.client = client;
    asked.action = action;
    asked.lock = lock;
    return asked;
}

/* The same with a value. */
static int submit_giving(struct mg_host *host, struct request *request, const void *value, struct mg_answer *into) {
    if (!value) {
        if (into)
            *into = NO_ANSWER;
        return MG_BAD_ARGUMENT;
    }
    request->gives = 1;
    memcpy(request->value, value, MG_VALUE_LENGTH);
    return submit(host, request, "", into);
}

int mg_enqueue(struct mg_host *host, unsigned client, uint64_t request, unsigned lock, int mode, const char *name,
               unsigned flags, struct mg_answer *answer) {
    struct request asked = asks(ENQUEUE, client, request, lock);
    asked.mode = (uint32_t)mode;
    asked.no_queue = flags;
    return submit(host, &asked, name, answer);
}

int mg_convert(struct mg_host *host, unsigned client, uint64_t request, unsigned lock, int mode, unsigned flags,
               struct mg_answer *answer) {
    struct request asked = asks(CONVERT, client, request, lock);
    asked.mode = (uint32_t)mode;
    asked.no_queue = flags;
    return submit(host, &asked, "", answer);
}

int mg_convert_value(struct mg_host *host, unsigned client, uint64_t request, unsigned lock, int mode, unsigned flags,
                     const void *value, struct mg_answer *answer) {
    struct request asked = asks(CONVERT, client, request, lock);
    asked.mode = (uint32_t)mode;
    asked.no_queue = flags;
    return submit_giving(host, &asked, value, answer);
}

int mg_release(struct mg_host *host, unsigned client, uint64_t request, unsigned lock, struct mg_answer *answer) {
    struct request asked = asks(RELEASE, client, request, lock);
    return submit(host, &asked, "", answer);
}

int mg_release_value(struct mg_host *host, unsigned client, uint64_t request, unsigned lock, const void *value,
                     struct mg_answer *answer) {
    struct request asked = asks(RELEASE, client, request, lock);
    return submit_giving(host, &asked, value, answer);
}

int mg_cancel(struct mg_host *host, unsigned client, uint64_t request, unsigned lock, struct mg_answer *answer) {
    struct request asked = asks(CANCEL, client, request, lock);
    return submit(host, &asked, "", answer);
}

int mg_status(struct mg_host *host, unsigned client, uint64_t request, unsigned lock, struct mg_answer *answer) {
    struct request asked = asks(STATUS, client, request, lock);
    return submit(host, &asked, "", answer);
}

int mg_purge(struct mg_host *host, unsigned client, uint64_t request, unsigned purged, struct mg_answer *answer) {
    struct request asked = asks(PURGE, client, request, 0);
    asked.purged = purged;
    return submit(host, &asked, "", answer);
}

int mg_forget(struct mg_host *host, unsigned client, uint64_t request, unsigned forgotten, struct mg_answer *answer) {
    struct request asked = asks(FORGET, client, request, 0);
    asked.forgotten = forgotten;
    return submit(host, &asked, "", answer);
}

/* ---- claims ---- */

void claim_hears(struct claim *claim, struct mg_host *host, enum event event, int status, bool left_over) {
    if (host->is_endless)
        (void)dlm_c_epochs_hear(claim, &host->epochs, event, status, left_over);
    else
        (void)dlm_c_hear(claim, &host->handle, event, status, left_over);
}

static int32_t begin_to_submit_order(struct mg_host *host, struct claim *claim) {
    return host->is_endless ? dlm_c_epochs_submit_order(claim, &host->epochs) : dlm_c_submit_order(claim, &host->handle);
}

/* Puts the claim's command into the log, tells the claim what came of that, and then marks it. The status is of the command, or of the mark: an image
 * that fails then is given up by the host, too. */
int claim_submits(struct claim *claim, struct mg_host *host, bool is_waited_for) {
    struct outcome outcome;
    int status;
    (void)mark_due(host);
    status = carry_out_once(host, begin_to_submit_order(host, claim), &outcome);
    if (status == MG_NO_MEMORY)
        claim_hears(claim, host, IS_REFUSED, status, false); /* a host of a log without an end has given up, and says nothing */
    else
        claim_hears(claim, host, HAS_REPLIED, 0, false);
    return outcome.slot < 0 ? status : mark_in_time(host, outcome.slot, is_waited_for);
}

/* The name of a lock's sign of life, by the set that is open. */
int sign_name(struct mg_host *host, unsigned number, uint32_t lock, char *into, size_t room) {
    uint8_t *bytes = (uint8_t *)into;
    if (host->is_endless)
        return status_of(dlm_c_epochs_sign_name(&host->epochs, number, lock, bytes, room));
    return status_of(dlm_c_sign_name(&host->handle, number, lock, bytes, room));
}

/* ---- locks of processes that are gone ---- */

static int look(struct mg_host *host, struct outcome *outcome);

/* Whether the table is not known, since a call failed as an epoch began, and a look has learned it. */
static bool has_found_table(struct mg_host *host, int32_t told) {
    struct outcome outcome;
    return told == NO_TABLE && look(host, &outcome) == MG_OK;
}

static int32_t tell_next_left(struct mg_host *host, const struct cleanup *cleanup, const uint32_t *ours, struct mg_lock_view *into) {
    memset(into, 0, sizeof *into);
    if (host->is_endless)
        return dlm_c_epochs_next_left(&host->epochs, cleanup, ours, MG_LOCKS, into);
    return dlm_c_next_left(&host->handle, cleanup, ours, MG_LOCKS, into);
}

int next_left(struct mg_host *host, const struct cleanup *cleanup, const uint32_t *ours, struct mg_lock_view *into) {
    int32_t told = tell_next_left(host, cleanup, ours, into);
    if (has_found_table(host, told))
        told = tell_next_left(host, cleanup, ours, into);
    return told == NOTHING_DUE ? MG_OK : status_of(told);
}

static int32_t tell_next_purge(struct mg_host *host, const struct cleanup *cleanup, uint32_t *lock) {
    return host->is_endless ? dlm_c_epochs_next_purge(&host->epochs, cleanup, lock) : dlm_c_next_purge(&host->handle, cleanup, lock);
}

int next_purge(struct mg_host *host, const struct cleanup *cleanup, uint32_t *lock, bool *is_purged) {
    int32_t told = tell_next_purge(host, cleanup, lock);
    if (has_found_table(host, told))
        told = tell_next_purge(host, cleanup, lock);
    *is_purged = told == NOTHING_DUE;
    return *is_purged ? MG_OK : status_of(told);
}

static int32_t begin_to_purge(struct mg_host *host, const struct cleanup *cleanup) {
    return host->is_endless ? dlm_c_epochs_submit_purge(&host->epochs, cleanup) : dlm_c_submit_purge(&host->handle, cleanup);
}

int submit_purge(struct mg_host *host, const struct cleanup *cleanup, unsigned *purged) {
    struct outcome outcome;
    int status;
    (void)mark_due(host);
    status = carry_out_once(host, begin_to_purge(host, cleanup), &outcome);
    *purged += outcome.purged;
    if (outcome.slot >= 0)
        (void)mark_in_time(host, outcome.slot, true);
    return status;
}

/* ---- what others did ---- */

/* A host's look that finds an epoch full carries its table over, by commands that others may outrun. Any other look is never outrun. One without a number may learn
 * of the newest epoch no more than marks tell, and then not know the table. */
static int look(struct mg_host *host, struct outcome *outcome) {
    unsigned outrun = 0;
    int status;
    (void)mark_due(host);
    do
        status = host->is_endless ? carry_out_once(host, begin_to_look(host), outcome) : carry_out(host, begin_to_look(host), outcome);
    while (tries_again(host, status, outrun++));
    return status == NOT_LEARNED ? MG_NO_TABLE : status;
}

/* Looks by another handle, and what that has learned is shown from then on: by one that has the number meanwhile, or by one without. */
static int look_through(struct mg_host *host, enum way way, struct outcome *outcome) {
    struct mg_host *other, seen;
    int status = open_folder(host->visited, way == LOOKS ? 0 : host->visitor, way, &other, NULL);
    *outcome = NO_OUTCOME;
    if (status != MG_OK)
        return status;
    status = look(other, outcome);
    if (other->lock != NO_FILE)
        close(other->lock);
    other->lock = NO_FILE;
    if (status == MG_OK) {
        other->only_looks = true;
        other->visited = host->visited;
        other->visitor = host->visitor;
        other->took_number = way == WORKS;
        host->visited = NULL;
        seen = *other;
        *other = *host;
        *host = seen;
    }
    let_go(other);
    return status;
}

static bool is_behind_a_whole_epoch(struct mg_host *host, uint64_t *epoch) {
    uint64_t slots, used;
    return mg_epoch(host, epoch, &slots, &used) == MG_OK && used == slots;
}

/* A handle that took the number has let it go, so it looks no more. A look without a number ends with the epoch in which it was. Once it knows all of that it looks
 * again, for there may be a later one. */
static int look_alone(struct mg_host *host, struct outcome *outcome) {
    uint64_t epoch, before;
    int status = host->took_number ? look_through(host, LOOKS, outcome) : look(host, outcome);
    if (!host->only_looks || !host->is_endless || status != MG_OK || !is_behind_a_whole_epoch(host, &epoch))
        return status;
    do {
        before = epoch;
        status = look(host, outcome);
    } while (status == MG_OK && is_behind_a_whole_epoch(host, &epoch) && epoch != before);
    return status;
}

static int visit(struct mg_host *host, struct outcome *outcome) {
    int status = look_alone(host, outcome);
    return status == MG_NO_TABLE && host->visited ? look_through(host, WORKS, outcome) : status;
}

int look_once(struct mg_host *host) {
    struct outcome outcome;
    return visit(host, &outcome);
}

bool took_number(const struct mg_host *host) { return host->took_number; }

enum { FOR_A_TURN = 5000, LONGEST_TURN = 16 }; /* milliseconds */

/* Waits while somebody else on this machine has a number that the look needs. */
static int visit_in_turn(struct mg_host *host, struct outcome *outcome) {
    int64_t until = milliseconds() + FOR_A_TURN;
    for (;;) {
        int status = visit(host, outcome);
        if (status != MG_HOST_IN_USE || errno == EREMOTE || milliseconds() >= until)
            return status;
        sleep_for(1000 * (1 + any_number() % LONGEST_TURN));
    }
}

static int refresh(struct mg_host *host, struct outcome *outcome) {
    int status = look(host, outcome);
    if (status != MG_OK)
        return status;
    return carry_out(host, begin_to_recover(host), outcome);
}

int mg_look(struct mg_host *host, uint64_t *learned) {
    struct outcome outcome;
    int status;
    if (learned)
        *learned = 0;
    if (!host)
        return MG_BAD_ARGUMENT;
    status = visit_in_turn(host, &outcome);
    if (learned)
        *learned = outcome.learned;
    return status;
}

int mg_refresh(struct mg_host *host, uint64_t *learned) {
    struct outcome outcome;
    int status;
    if (learned)
        *learned = 0;
    if (!host)
        return MG_BAD_ARGUMENT;
    if (host->only_looks)
        return MG_ONLY_LOOKS;
    status = refresh(host, &outcome);
    if (learned)
        *learned = outcome.learned;
    return status;
}

int mg_look_each(struct mg_host *host, void (*told)(struct mg_host *host, void *more), void *more, uint64_t *learned) {
    int status;
    if (learned)
        *learned = 0;
    if (!host || !told)
        return MG_BAD_ARGUMENT;
    host->follows = told;
    host->more = more;
    status = mg_look(host, learned);
    host->follows = NULL;
    return status;
}

/* Learns all that was acknowledged, and marks what it has learned so: one command, and then more for so many milliseconds. Of a log without an end it marks those
 * of the newest epoch, for nobody looks at one before. */
static int learn_and_mark(struct mg_host *host, int64_t length, struct outcome *outcome) {
    struct outcome marked;
    struct facts facts;
    uint64_t before, first, end;
    int64_t learned;
    int status = look(host, outcome);
    if (status != MG_OK)
        return status;
    before = learned_by(host);
    status = carry_out(host, begin_to_recover(host), outcome);
    (void)facts_of(host, &facts);
    end = facts.view.learned;
    first = end > facts.taken ? end - facts.taken : 0;
    first = before > first ? before : first;
    learned = milliseconds();
    for (uint64_t slot = first; slot < end && (slot == first || milliseconds() - learned < length); slot++)
        (void)carry_out(host, begin_to_mark(host, (int64_t)slot), &marked);
    return status;
}

int learn_all(struct mg_host *host, int64_t length) {
    struct outcome outcome;
    return learn_and_mark(host, length, &outcome);
}

int mg_mark(struct mg_host *host, uint64_t *learned) {
    struct outcome outcome;
    int status;
    if (learned)
        *learned = 0;
    if (!host)
        return MG_BAD_ARGUMENT;
    if (host->only_looks)
        return MG_ONLY_LOOKS;
    status = learn_and_mark(host, INT64_MAX, &outcome);
    if (learned)
        *learned = outcome.learned;
    return status;
}

/* Without news for so long a wait recovers, for a command may be in the log without a mark, which stops every look. */
enum { BEFORE_A_RECOVERY = 2000 }; /* milliseconds, and by chance up to as many more: hosts wait at the same time */

static int64_t time_of_recovery(void) { return milliseconds() + BEFORE_A_RECOVERY + any_number() % BEFORE_A_RECOVERY; }

/* A look, or where no look has learned anything for long, a recovery that is marked for all. */
static int look_further(struct mg_host *host, int64_t *recovers) {
    uint64_t learned = learned_by(host);
    int status = mg_look(host, NULL);
    /* Others carry the table over into the next epoch, and mark that; or what tells it is not marked yet. */
    if (status == MG_OUTRUN || status == MG_NO_TABLE)
        return MG_OK;
    if (status != MG_OK)
        return status;
    if (learned_by(host) == learned) {
        if (host->only_looks || milliseconds() < *recovers)
            return MG_OK;
        status = mg_mark(host, NULL);
    }
    *recovers = time_of_recovery();
    /* An outrun recovery is another host's: its marks come. */
    return status == MG_OUTRUN ? MG_OK : status;
}

static bool is_full(struct mg_host *host) {
    uint64_t slots, used;
    return mg_log(host, &slots, &used) == MG_OK && used >= slots;
}

int mg_wait(struct mg_host *host, unsigned lock, int interval, int timeout, int *granted) {
    int64_t start, recovers;
    int64_t pause = 1;
    if (granted)
        *granted = MG_NONE;
    if (!host || interval < 1)
        return MG_BAD_ARGUMENT;
    start = milliseconds();
    recovers = time_of_recovery();
    for (;;) {
        struct mg_lock_view view;
        int64_t nap = pause;
        int status = look_further(host, &recovers);
        if (status != MG_OK)
            return status;
        status = mg_lock(host, lock, &view);
        /* If it was outrun as an epoch began it does not know the table. A later look tells. */
        if (status != MG_OK && status != MG_NO_TABLE)
            return status;
        if (status == MG_OK && view.wanted == MG_NONE) {
            if (granted)
                *granted = view.held;
            return MG_OK;
        }
        /* No command comes into it any more, so here the lock would wait for ever. */
        if (is_full(host))
            return MG_LOG_FULL;
        if (timeout >= 0) {
            int64_t left = timeout - (milliseconds() - start);
            if (left <= 0)
                return MG_TIMED_OUT;
            if (left < nap)
                nap = left;
        }
        sleep_for(nap * 1000);
        pause = pause < interval / 2 ? 2 * pause : interval;
    }
}

/* ---- the table ---- */

int mg_host_facts(struct mg_host *host, struct mg_host_view *into) {
    struct facts facts;
    int status;
    if (!host || !into)
        return MG_BAD_ARGUMENT;
    status = facts_of(host, &facts);
    *into = facts.view;
    return status;
}

int mg_log(struct mg_host *host, uint64_t *slots, uint64_t *used) {
    struct mg_host_view view;
    int status;
    memset(&view, 0, sizeof view);
    status = mg_host_facts(host, &view);
    if (slots)
        *slots = view.endless ? UINT64_MAX : view.slots;
    if (used)
        *used = view.learned;
    return status;
}

int mg_epoch(struct mg_host *host, uint64_t *epoch, uint64_t *slots, uint64_t *used) {
    struct facts facts;
    int status = MG_BAD_ARGUMENT;
    memset(&facts, 0, sizeof facts);
    if (host)
        status = facts_of(host, &facts);
    if (epoch)
        *epoch = facts.epoch;
    if (slots)
        *slots = facts.view.slots;
    if (used)
        *used = facts.taken;
    return status == MG_OK && !facts.is_in_epoch ? MG_NO_TABLE : status;
}

int mg_lock(struct mg_host *host, unsigned lock, struct mg_lock_view *into) {
    if (!host || !into)
        return MG_BAD_ARGUMENT;
    memset(into, 0, sizeof *into);
    return status_of(show_lock(host, lock, into));
}

int mg_value(struct mg_host *host, unsigned lock, struct mg_value *into) {
    if (!host || !into)
        return MG_BAD_ARGUMENT;
    memset(into, 0, sizeof *into);
    return status_of(show_value(host, lock, into));
}

/* Whether there is a host, and a place for so much as there is room for; nothing is counted so far. */
static bool may_show(const struct mg_host *host, const void *into, size_t room, size_t *count) {
    if (count)
        *count = 0;
    return host && (into || room == 0);
}

/* A slice of no elements still has a place, and each element is initialized before it is handed on. */

int mg_locks(struct mg_host *host, struct mg_lock_view *into, size_t room, size_t *count) {
    struct mg_lock_view none;
    size_t there = 0;
    int status;
    if (!may_show(host, into, room, count))
        return MG_BAD_ARGUMENT;
    if (room > MG_LOCKS)
        room = MG_LOCKS;
    if (room > 0)
        memset(into, 0, room * sizeof *into);
    status = status_of(show_locks(host, room > 0 ? into : &none, room, &there));
    if (count)
        *count = there;
    return status;
}

int mg_clients(struct mg_host *host, struct mg_client_view *into, size_t room, size_t *count) {
    struct mg_client_view none;
    size_t there = 0;
    int status;
    if (!may_show(host, into, room, count))
        return MG_BAD_ARGUMENT;
    if (room > MG_CLIENTS)
        room = MG_CLIENTS;
    if (room > 0)
        memset(into, 0, room * sizeof *into);
    status = status_of(show_clients(host, room > 0 ? into : &none, room, &there));
    if (count)
        *count = there;
    return status;
}

int mg_text(struct mg_host *host, char *into, size_t size, size_t *length) {
    uint8_t none = 0;
    size_t there = 0;
    size_t room;
    int status;
    if (!may_show(host, into, size, length))
        return MG_BAD_ARGUMENT;
    room = size > 0 ? size - 1 : 0;
    if (room > MG_TEXT_SIZE)
        room = MG_TEXT_SIZE;
    if (size > 0)
        memset(into, 0, room + 1);
    status = status_of(show_text(host, room > 0 ? (uint8_t *)into : &none, room, &there));
    if (length)
        *length = there;
    return status;
}

/* ---- the images ---- */

/* Counts the disks, and tells of how many there is room to show something. */
static int count_disks(struct mg_host *host, const void *into, size_t room, size_t *count, unsigned *shown) {
    struct mg_host_view facts;
    int status;
    *shown = 0;
    if (!may_show(host, into, room, count))
        return MG_BAD_ARGUMENT;
    status = mg_host_facts(host, &facts);
    if (status != MG_OK)
        return status;
    if (count)
        *count = facts.disks;
    if (room > MG_DISKS)
        room = MG_DISKS;
    *shown = facts.disks < room ? facts.disks : (unsigned)room;
    return MG_OK;
}

int mg_disks(struct mg_host *host, struct mg_disk_view *into, size_t room, size_t *count) {
    struct facts facts;
    unsigned shown;
    int status = count_disks(host, into, room, count, &shown);
    if (shown > 0)
        (void)facts_of(host, &facts);
    for (unsigned k = 0; k < shown; k++) {
        into[k].disk = k;
        into[k].status = host->faults[k] == MG_OK && facts.is_away[k] ? MG_NOT_YET : host->faults[k];
    }
    return status;
}

int mg_images(struct mg_host *host, struct mg_image_view *into, size_t room, size_t *count) {
    unsigned shown;
    int status = count_disks(host, into, room, count, &shown);
    for (unsigned k = 0; k < shown; k++)
        into[k] = host->images[k];
    return status;
}
