/*
 * midgegalena.h: a lock manager for hosts that share a folder of images and nothing else.
 *
 * A program links libmidgegalena.a or libmidgegalena.so (pkg-config midgegalena). Nothing is printed, no signal is caught, no
 * thread is started, and no call ends the process: each returns a number, and so does each bad argument. docs/LIBRARY.md says
 * what a caller has to see to.
 *
 * Threads: a handle is for one thread at a time. Several handles of one process may be used by several threads at once, each
 * with a host number of its own.
 *
 * Processes: one handle at a time for a host number. mg_open locks the number by the file hostH.lock in the folder, as the
 * program dlm does, and is refused with MG_HOST_IN_USE where somebody has it.
 *
 * A child of fork may use no handle of its parent, not even to close it. No call from a signal handler, nor, in a process with
 * threads, from a child of fork before it has called exec.
 */
#ifndef MIDGEGALENA_H
#define MIDGEGALENA_H

#include <stddef.h>
#include <stdint.h>

#ifdef __cplusplus
extern "C" {
#endif

/* The library's numbers: an increase of the first breaks programs, an increase of the second adds to what there is. As long as the first is 0 the second
 * may break programs, too, as 8 does: compile them anew. */
#define MG_VERSION_MAJOR 0
#define MG_VERSION_MINOR 8

/* "0.8", of the library that is linked. */
const char *mg_version(void);

/* ---- limits ---- */

#define MG_HOSTS 16        /* numbered from 0 */
#define MG_DISKS 7
#define MG_SLOTS 4096      /* commands in the life of a folder whose log ends */
#define MG_EPOCH_SLOTS 1024 /* slots of an epoch of a log without an end, where nobody says how many */
#define MG_LOCKS 256       /* at once */
#define MG_CLIENTS 32      /* in the life of a folder; a renewal may leave some out */
#define MG_NAME_LENGTH 15  /* bytes from 0x21 to 0x7E */
#define MG_VALUE_LENGTH 16 /* bytes that are kept with a name */
#define MG_TEXT_SIZE 16384 /* a table's text is never longer */

/* ---- what a call returns: 0, or one of these ----
 *
 * Those above 0 are the numbers of the printed texts, as docs/REFUSALS.md has them: with cause, and with what to do.
 */
enum mg_outcome {
    MG_OK = 0,

    /* of this library */
    MG_BAD_ARGUMENT = -1, /* NULL, or a number or a name out of range. Nothing was done */
    MG_TIMED_OUT = -2,    /* not granted in time: with mg_wait the lock still waits, with mg_take nothing does */
    MG_BROKEN = -3,       /* the handle is in no state that it should be in. Close it. No cause is known */
    MG_ONLY_LOOKS = -4,   /* the handle is of mg_open_to_look, and the call is more than a look. Nothing was done */
    MG_STOPPED = -5,      /* mg_take: it was told to stop (mg_set_rest) */
    MG_IN_DOUBT = -6,     /* mg_take, mg_give: it is not known whether the lock is, or stays, in the table (mg_session.h) */
    MG_BUSY = -7,         /* a call of the session is under way: this one came from what mg_set_rest has it call. Nothing was done */
    MG_NO_TABLE = -8,     /* the host does not know the lock table now: see "a log without an end". A look learns it */
    MG_NOT_YET = -9,      /* mg_disks: the disk takes part from a later epoch on, and counts as lost until then */

    /* The host refused the operation. The command is not acknowledged, and may be in the log all the same: ask again with the
     * same request number */
    MG_OUTRUN = 6,
    MG_NO_MAJORITY = 7,
    MG_BALLOTS_SPENT = 8,
    MG_LOG_FULL = 9, /* of mg_wait, too: see "commands" */
    MG_NOT_A_COMMAND = 10,

    /* The command is in the log, and the lock table refused it: nothing was changed */
    MG_LOCK_IN_USE = 11,
    MG_NO_SUCH_LOCK = 12,
    MG_NOT_OWNER = 13,
    MG_ALREADY_CONVERTING = 14,
    MG_STILL_WAITING = 15,
    MG_NOT_QUEUED = 16,
    MG_TABLE_FULL = 17,
    MG_STALE = 18,
    MG_CLIENTS_FULL = 19,
    MG_NOTHING_TO_CANCEL = 20,

    /* of a folder, of a host number, and of memory */
    MG_NO_MEMORY = 21,
    MG_NOT_FORMATTED = 24,
    MG_WRONG_HEADER = 25,
    MG_UNREADABLE = 26,
    MG_ALREADY_THERE = 29,
    MG_OLD_LAYOUT = 32, /* images of the layout before this one: dlm migrate moves them */
    MG_HOST_IN_USE = 36,
    MG_NO_LOCK = 37
};

/* A sentence for any such number. It is never NULL, and is never to be freed. */
const char *mg_strerror(int status);

/* The name of the printed text, as "NoMajority"; "" where there is none. */
const char *mg_name(int status);

/* ---- modes, as libdlm counts them ---- */

enum mg_mode {
    MG_NONE = -1, /* in what is told: no mode */
    MG_NL = 0,    /* null */
    MG_CR = 1,    /* concurrent read */
    MG_CW = 2,    /* concurrent write */
    MG_PR = 3,    /* protected read */
    MG_PW = 4,    /* protected write */
    MG_EX = 5     /* exclusive */
};

/* ---- flags ---- */

#define MG_NO_QUEUE 1u /* mg_enqueue, mg_convert: refused, MG_NOT_QUEUED, in place of queued */

/* ---- a host ---- */

struct mg_host;

/* Makes the images of a new folder, which is there and has none: 1 to 7 disks, 1 to 4,096 slots. Its log ends; one without an end is made by `dlm format`. `diskK.img` may be a link to a block device, which is written over;
 * else it becomes a file. Where `disk` is not NULL it becomes the image that is at fault, -1 where none is. mg_cause says more.
 *
 * Refused, and nothing is changed: MG_ALREADY_THERE where anything else has the name of an image, or a device is formatted; MG_UNREADABLE where a device is too
 * short, read only, or in use on this machine, as by a mount; MG_BAD_ARGUMENT, and `*disk` names it, where it is one device with another disk. Where a later call
 * fails, MG_UNREADABLE, what was made is undone. No gate is opened before all images are whole; a format that ends within that is finished by the same words. */
int mg_format(const char *folder, unsigned disks, unsigned slots, uint64_t cluster, int *disk);

/* The same of devices that several machines use at once (docs/OPERATIONS.md). `diskK.img` in the folder is a link to a block device. Each block has a
 * sector of its own, and each call on it passes by the machine's cache. All other calls see by the header what an image is, and work on such devices as
 * on any.
 *
 * `hosts` are the numbers that there are from 0 on, 1 to 16; others are MG_BAD_ARGUMENT from then on. `sector` is 512, 1024, 2048 or
 * 4096 bytes, 0 for 4096. Each write is made to last by itself (O_DSYNC), but with the flag MG_NO_DSYNC by the next sync alone. With the flag MG_FILES a file is
 * made where there is no `diskK.img`. With the flag MG_ENDLESS the log has no end: `slots` are those of an epoch, 320 to 4,096, or 0 for MG_EPOCH_SLOTS. All
 * devices of a set are of one kind of log.
 *
 * Also refused: MG_UNREADABLE where `diskK.img` is no block device and no file, or is missing without that flag; MG_BAD_ARGUMENT, and `*disk` names it, where a
 * device's physical sectors are longer than `sector`, or where it does not begin at a multiple of that. */
#define MG_NO_DSYNC 1u
#define MG_FILES 2u
#define MG_ENDLESS 4u
int mg_format_shared(const char *folder, unsigned disks, unsigned slots, uint64_t cluster, unsigned hosts, unsigned sector, unsigned flags, int *disk);

/* What there is to add to the number that this thread's last call of mg_open, mg_open_to_look, mg_take_number, mg_format or mg_format_shared returned, as a session's
 * calls do by these: which disk, why, and what is wanted; "" where there is nothing. It is not to be freed, and stays until the next such call. */
const char *mg_cause(void);

/* Opens a folder's images for the host of this number, 0 to 15, and locks the number. At MG_OK `*out` is a host that has
 * learned nothing, and is to be closed; else it is NULL.
 *
 * On devices that several machines use a number belongs to the machine that opened it first. The devices keep its name: 32 digits, those
 * of the file machine-id in the folder, or where there is none of /etc/machine-id. Another machine gets MG_HOST_IN_USE with errno EREMOTE,
 * one without a name MG_NO_LOCK, and one that reaches half of the devices or fewer MG_NO_MAJORITY. */
int mg_open(const char *folder, unsigned host, struct mg_host **out, int *disk);

/* Opens a folder's images to read alone: for mg_look, mg_wait, and what shows the table. It takes no host number, locks nothing
 * and writes nothing, so any number of processes may do so at once, beside those that work under the numbers. mg_refresh, mg_mark
 * and all commands are refused, MG_ONLY_LOOKS, and mg_wait does not recover. mg_host_facts tells host 0, which says nothing here. */
int mg_open_to_look(const char *folder, struct mg_host **out, int *disk);

/* Makes a host number of such devices this machine's. It is the caller's word that the machine that had it is off, or cut off from the
 * devices: nobody here sees to that. MG_BAD_ARGUMENT where the folder has none such. */
int mg_take_number(const char *folder, unsigned host, int *disk);

/* The name of the machine that has a host number, of 32 digits and a zero; "" where none has it, where half of the devices or fewer can be asked, or where
 * there are no such devices. */
int mg_machine_of(const char *folder, unsigned host, char *into, size_t size);

/* Lets a host and its number go. NULL is nothing. The host's locks stay: they are in the log. */
void mg_close(struct mg_host *host);

/* How often an operation may be outrun before it ends as MG_OUTRUN: 1 to 255, 8 at first. A command waits before each further
 * try, for a random time in proportion to how long the last one took, which grows. */
int mg_set_tries(struct mg_host *host, unsigned tries);

/* Whether a command may return before it is marked, 0 at first. With anything else mg_enqueue and mg_status return as soon as the command is
 * acknowledged, on three disks after 21 syncs and not after 33. The mark is made by mg_mark_now, by the next call that works on the images, or by
 * mg_close. Commands that somebody may wait for are marked at once: conversions, releases, cancels, purges and mg_forget. Until a command is marked looks of all
 * hosts stop at it, and whoever submits has to carry it through once more: so call mg_mark_now as soon as there is time. If the process is killed
 * before, it is a command without a mark as any other. */
int mg_set_late_marks(struct mg_host *host, int late);

/* Marks the command that is to be marked, if one is. Else MG_OK. Where it fails the command is in the log all the same. */
int mg_mark_now(struct mg_host *host);

/* ---- commands ----
 *
 * `client` is 0 to 255, and owns its locks. `request` is 1 to 2^62, and rises from one command of a client to its next: the
 * same number again is answered as it was, and is not carried out twice; a lower one is MG_STALE. `lock` is 1 to 65,535, and
 * is free for mg_enqueue. Clients from 240 on and locks from 1,536 on are for mg_session.h and mg-lock. `answer` may be NULL.
 *
 * A command that is acknowledged is marked then (but see mg_set_late_marks), so that others learn it by mg_look. A mark that fails is not told.
 *
 * A full log refuses each command with MG_LOG_FULL, and ends mg_wait so for a lock that waits. Nothing was changed, and nothing
 * in this folder changes any more: the host knows all of it, and goes on showing it. mg_open, mg_look, mg_refresh and mg_mark end
 * well. mg_log tells in time. Once all hosts are stopped, `dlm renew` carries the table over into a new folder.
 */

enum mg_reply {
    MG_NO_REPLY = 0,
    MG_GRANTED = 1,
    MG_QUEUED = 2,
    MG_RELEASED = 3,
    MG_CANCELLED = 4,
    MG_PURGED = 5,
    MG_STATE = 6,
    MG_REFUSED = 7,
    MG_FORGOTTEN = 8
};

struct mg_answer {
    int64_t slot;    /* where the command stands in the log, -1 where it was not acknowledged */
    int32_t reply;   /* enum mg_reply */
    uint32_t purged; /* MG_PURGED: how many locks were taken away */
    int32_t held;    /* MG_STATE: the mode that the lock holds, and the one that it wants, MG_NONE for none */
    int32_t wanted;
};

int mg_enqueue(struct mg_host *host, unsigned client, uint64_t request, unsigned lock, int mode, const char *name,
               unsigned flags, struct mg_answer *answer);
int mg_convert(struct mg_host *host, unsigned client, uint64_t request, unsigned lock, int mode, unsigned flags,
               struct mg_answer *answer);
int mg_release(struct mg_host *host, unsigned client, uint64_t request, unsigned lock, struct mg_answer *answer);
int mg_cancel(struct mg_host *host, unsigned client, uint64_t request, unsigned lock, struct mg_answer *answer);
int mg_status(struct mg_host *host, unsigned client, uint64_t request, unsigned lock, struct mg_answer *answer);

/* The same, and they give MG_VALUE_LENGTH bytes that are kept with the lock's name, for those that get a lock on it later
 * (mg_value). A release keeps them where the lock holds MG_PW or MG_EX. A conversion keeps them where it is downward: from
 * MG_EX, or from MG_PW to any mode but MG_EX. It is granted at once then. Elsewhere the command is carried out and the bytes
 * are dropped. */
int mg_convert_value(struct mg_host *host, unsigned client, uint64_t request, unsigned lock, int mode, unsigned flags,
                     const void *value, struct mg_answer *answer);
int mg_release_value(struct mg_host *host, unsigned client, uint64_t request, unsigned lock, const void *value,
                     struct mg_answer *answer);

/* Takes away all locks that came through a host. See first that it is stopped for good: nobody here does. */
int mg_purge(struct mg_host *host, unsigned client, uint64_t request, unsigned purged, struct mg_answer *answer);

/* Forgets what the table keeps of the client `forgotten`: the number of its last request, and the reply. So another client has room, of
 * the 32 that a table knows. MG_LOCK_IN_USE while it has a lock, or waits for one. A client that is not known is MG_FORGOTTEN, too. `client` may
 * be the same: where MG_CLIENTS_FULL refuses all others, a known client makes room so. See first that nobody works as the forgotten
 * client: it begins anew, and an old request of it that comes again is carried out again. */
int mg_forget(struct mg_host *host, unsigned client, uint64_t request, unsigned forgotten, struct mg_answer *answer);

/* ---- what others did ----
 *
 * A host knows what was in the log when its last operation ended. These learn more; they take no slot. `*learned`, where it is
 * not NULL, becomes the number of commands that are learned.
 */

/* Learns all that was acknowledged before the call. It looks first, and then recovers: that writes to the images, and may
 * outrun, or be outrun by, a command of another host. */
int mg_refresh(struct mg_host *host, uint64_t *learned);

/* Learns the commands that are marked, up to the first that is not. It reads and syncs, writes nothing (but see "a log without an end") and disturbs nobody. It
 * claims nothing of what it has not learned: a command whose host died before it had marked it, and each after that one, may
 * be acknowledged and stay unseen until somebody marks it (mg_mark). */
int mg_look(struct mg_host *host, uint64_t *learned);

/* As mg_look, and calls `told` with `more` as it begins and each time it has learned another command: one after the other, so that the caller sees by which command
 * the table came to be as it is. `told` may ask what the host knows, as by mg_locks, mg_host_facts and mg_epoch, and makes no other call on it. Of a log without an end
 * the look begins in the newest epoch, whose first commands carry the table over: while these are learned the table is refused, MG_NO_TABLE. */
int mg_look_each(struct mg_host *host, void (*told)(struct mg_host *host, void *more), void *more, uint64_t *learned);

/* Learns as mg_refresh does, and marks what it had to recover, so that looks pass it from then on. */
int mg_mark(struct mg_host *host, uint64_t *learned);

/* Looks until a lock waits and converts no longer. Between looks it sleeps, 1 millisecond at first, then twice as long each
 * time, but never longer than `interval` milliseconds. Where no look has learned anything for two seconds, or by chance up to
 * four, it does what mg_mark does: a command that its host left without a mark would stop every look.
 *
 * MG_OK: the lock holds the mode `*granted`, where that is not NULL, and wants no other: it was granted, or a conversion was
 * cancelled and left it what it held. MG_NO_SUCH_LOCK: it is gone: cancelled, released or purged. MG_TIMED_OUT after
 * `timeout` milliseconds, below 0 for no end; the lock still waits. MG_LOG_FULL: it waits, and all slots are learned, so in this
 * folder it waits for ever. Another number ends it at once. */
int mg_wait(struct mg_host *host, unsigned lock, int interval, int timeout, int *granted);

/* ---- a log without an end ----
 *
 * All calls of a host work on it as on a log that ends, and see by the header what it is. So do sessions. The log is a row of epochs, each with so many slots.
 * When one is full the next one begins, with commands that carry the table over. Slots are counted through all epochs, and some of them hold such commands. So a
 * command's slot grows for ever, and is a token as good as in a log that ends.
 *
 * - It is never full, so no command is refused for that, and mg_wait waits on.
 * - A look, too, comes to the newest epoch, and writes the host's own blocks for that. If it finds an epoch full it carries the table over into the next one,
 *   and may be outrun, MG_OUTRUN. mg_wait goes on then.
 * - A look of mg_open_to_look writes nothing. It is refused, MG_NO_TABLE, where a command without a mark hides which table the newest epoch began with, until
 *   somebody recovers or submits. mg_wait goes on then.
 * - A host knows the table once it has looked, learned or had a command acknowledged. A call that fails as an epoch begins may leave it without one. Then what
 *   shows the table is refused, MG_NO_TABLE, and mg_log and mg_host_facts tell 0 commands, until a call learns it.
 * - Where memory is refused the operation is given up, MG_NO_MEMORY. Its command may be in the log: ask again with the same request number.
 * - A new image may stand in the place of a lost one, and takes part from a later epoch on. While the host is in one before that, no call is made on the disk, and
 *   mg_disks says MG_NOT_YET. The image is made while no host number is in use, so while mg_open has none open. A session finds it with its next call. A handle of
 *   mg_open_to_look does not: close it, and open another one.
 */

/* The epoch where the host is, how many slots each has, and how many of its own hold commands that the host has learned. A log that ends is one epoch, 0.
 * Each may be NULL. MG_NO_TABLE: it is in none, as before its first operation. It makes no device call; mg_look finds the newest epoch. */
int mg_epoch(struct mg_host *host, uint64_t *epoch, uint64_t *slots, uint64_t *used);

/* ---- the table, as the host knows it: no device call ---- */

struct mg_lock_view {
    uint32_t lock;
    uint32_t client;
    uint32_t host;  /* through which it was enqueued */
    int32_t held;   /* MG_NONE: it waits */
    int32_t wanted; /* MG_NONE: it wants nothing more */
    char name[16];  /* ends in a zero */
};

struct mg_client_view {
    uint64_t request; /* its last */
    uint32_t client;
    int32_t reply;    /* to that, enum mg_reply */
    int32_t refusal;  /* of MG_REFUSED: which one, as MG_NOT_OWNER */
    int32_t unused;
};

struct mg_host_view {
    uint64_t cluster;
    uint64_t learned; /* commands of the log */
    uint32_t host;
    uint32_t disks;
    uint32_t slots;   /* of the log; of one without an end, of an epoch */
    uint32_t endless; /* 1: the log has no end; else 0 */
};

int mg_host_facts(struct mg_host *host, struct mg_host_view *into);

/* How many slots the log has, and how many of them hold the commands that this host has learned. Others may have taken more
 * since: mg_look learns them. Where both are the same the log is full. A log without an end has UINT64_MAX. Either may be NULL. */
int mg_log(struct mg_host *host, uint64_t *slots, uint64_t *used);

/* The lock of this number, or MG_NO_SUCH_LOCK. */
int mg_lock(struct mg_host *host, unsigned lock, struct mg_lock_view *into);

#define MG_VALID 1u

struct mg_value {
    uint8_t bytes[MG_VALUE_LENGTH];
    uint32_t flags; /* MG_VALID, or 0: a lock of the name that held MG_PW or MG_EX was purged, and may have been about to change what they speak of */
};

/* The value of the name of the lock of this number, or MG_NO_SUCH_LOCK. A name's value is zeros and valid from its first lock
 * on, and goes with its last. */
int mg_value(struct mg_host *host, unsigned lock, struct mg_value *into);

/* All locks, by name, and in a name granted, converting, waiting. Fills up to `room` of them; `*count` is how many there are.
 * `into` may be NULL where `room` is 0. */
int mg_locks(struct mg_host *host, struct mg_lock_view *into, size_t room, size_t *count);

/* All clients that the table knows, by number: those that were ever heard, but for those that mg_forget or a renewal let go. */
int mg_clients(struct mg_host *host, struct mg_client_view *into, size_t room, size_t *count);

/* The text of `dlm table`, after its first line. Puts up to `size` - 1 bytes and a zero into `into`; `*length` is how long
 * the text is. */
int mg_text(struct mg_host *host, char *into, size_t size, size_t *length);

/* ---- the images, as the host knows them: no device call ---- */

struct mg_disk_view {
    uint32_t disk;
    int32_t status; /* MG_OK: it is used */
};

/* Each disk, by number. When the images were opened MG_UNREADABLE could not be opened or read, MG_NOT_FORMATTED has no header that was
 * made to its end, and MG_WRONG_HEADER has one that is not this image's, or another length or layout. MG_UNREADABLE is also a disk on
 * which a call of this host has failed since. A call on other disks tells nothing of it: a look, for one, reads a majority. Of the
 * blocks it says nothing: `dlm check` reads these. MG_NOT_YET is a disk that takes no part yet in the epoch where the host is. All goes on while more than half are MG_OK. Fills up to `room`; `*count` is how
 * many there are. `into` may be NULL where `room` is 0. */
int mg_disks(struct mg_host *host, struct mg_disk_view *into, size_t room, size_t *count);

/* What stood behind the name of each image when the images were opened. */
enum mg_image_kind {
    MG_NO_IMAGE = 0,     /* it could not be opened or read */
    MG_FILE_IMAGE = 1,   /* a file, or what else is no block device, for processes of one machine */
    MG_DEVICE_IMAGE = 2, /* a block device, for processes of one machine */
    MG_SHARED_IMAGE = 3  /* a device, or a file, of mg_format_shared */
};

struct mg_image_view {
    uint32_t disk;
    int32_t kind;
    uint32_t sector;    /* MG_SHARED_IMAGE: bytes of a sector */
    uint32_t hosts;     /* MG_SHARED_IMAGE: how many host numbers there are */
    uint32_t read_only; /* 1: nobody may write to it. The device is read only, or the file system of the file is */
    int32_t other;      /* the disk as which it was formatted by mg_format_shared, where that is not this one; else -1 */
};

/* As mg_disks. */
int mg_images(struct mg_host *host, struct mg_image_view *into, size_t room, size_t *count);

#ifdef __cplusplus
}
#endif

#endif
