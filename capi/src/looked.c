/*
 * What mg-lock --status looks at: the images, by a handle that has no host number (mg_open_to_look), and of Linux which files of the folder somebody has locked. Only
 * where marks do not tell the table of a log without an end it takes a number for a moment.
 *
 * Who has a file locked by flock(2) stands in /proc/locks, by the device and inode of the file. A lock of the file's own would tell it, too, but
 * would keep others from the file for that moment. So no file of the folder is even opened, but for its place (O_PATH), or to read an image.
 */
#ifndef _GNU_SOURCE
#define _GNU_SOURCE
#endif
#include "looked.h"

#include "probe.h"

#include <mg_session.h>

#include <errno.h>
#include <fcntl.h>
#include <inttypes.h>
#include <limits.h>
#include <stdio.h>
#include <stdlib.h>
#include <string.h>
#include <sys/stat.h>
#include <sys/sysmacros.h>
#include <unistd.h>

enum { FIRST_CLIENT = 240 };
enum { SLOW = 500000, FEW = 20 }; /* microseconds of a read; a log is nearly full where less than one slot of so many is left */

/* ---- files that are locked ---- */

/* The device of an open file as /proc/locks has it, the one of its mount. Some file systems tell another one by fstat. */
static bool device_of(int file, struct locked *into) {
    char path[64], line[PATH_MAX + 256];
    unsigned mount = 0, found;
    bool is_found = false;
    FILE *from;
    snprintf(path, sizeof path, "/proc/self/fdinfo/%d", file);
    from = fopen(path, "re");
    while (from && fgets(line, sizeof line, from))
        if (sscanf(line, "mnt_id: %u", &mount) == 1)
            is_found = true;
    if (from)
        fclose(from);
    from = is_found ? fopen("/proc/self/mountinfo", "re") : NULL;
    is_found = false;
    while (from && !is_found && fgets(line, sizeof line, from))
        is_found = sscanf(line, "%u %*u %u:%u", &found, &into->major_of, &into->minor_of) == 3 && found == mount;
    if (from)
        fclose(from);
    return is_found;
}

/* Reads which files are locked by flock(2). A line with "->" is of one who waits. */
static void read_locked(struct status *status) {
    char line[256];
    size_t room = 0;
    FILE *locks = fopen("/proc/locks", "re");
    status->is_known = locks != NULL;
    while (locks && status->is_known && fgets(line, sizeof line, locks)) {
        struct locked one;
        if (sscanf(line, "%*d: FLOCK %*s %*s %*s %x:%x:%llu", &one.major_of, &one.minor_of, &one.inode) != 3)
            continue;
        if (status->locked_count == room) {
            struct locked *more = realloc(status->locked, (room = 2 * room + 64) * sizeof *more);
            status->is_known = more != NULL;
            status->locked = more ? more : status->locked;
        }
        if (status->is_known)
            status->locked[status->locked_count++] = one;
    }
    if (locks) {
        status->is_known &= !ferror(locks);
        fclose(locks);
    }
}

static enum held find_locked(const struct status *status, int file) {
    struct locked wanted;
    struct stat facts;
    if (!status->is_known || fstat(file, &facts) != 0)
        return NOT_KNOWN;
    if (!device_of(file, &wanted))
        wanted.major_of = major(facts.st_dev), wanted.minor_of = minor(facts.st_dev);
    for (size_t i = 0; i < status->locked_count; i++) {
        const struct locked *one = &status->locked[i];
        if (one->inode == facts.st_ino && one->major_of == wanted.major_of && one->minor_of == wanted.minor_of)
            return IS_HELD;
    }
    return IS_FREE;
}

static enum held is_locked(const struct status *status, const char *path) {
    enum held held;
    int file = open(path, O_PATH | O_CLOEXEC);
    if (file < 0)
        return errno == ENOENT ? IS_MISSING : NOT_KNOWN;
    held = find_locked(status, file);
    close(file);
    return held;
}

static void find_hosts(struct status *status, const char *folder) {
    status->knows_hosts = status->is_known;
    for (unsigned host = 0; host < MG_HOSTS; host++) {
        char path[PATH_MAX];
        snprintf(path, sizeof path, "%s/host%u.lock", folder, host);
        status->hosts[host] = is_locked(status, path);
        status->knows_hosts &= status->hosts[host] != NOT_KNOWN;
    }
}

/* The sign of life of each lock that a session took. */
static void find_signs(struct status *status, const char *folder) {
    for (size_t i = 0; i < status->count; i++) {
        const struct mg_lock_view *lock = &status->locks[i];
        char path[PATH_MAX];
        snprintf(path, sizeof path, "%s/mg-lock.%" PRIu64 ".%u.%u", folder, status->facts.cluster, (unsigned)lock->host, (unsigned)lock->lock);
        status->signs[i] = lock->client == FIRST_CLIENT + lock->host ? is_locked(status, path) : IS_MISSING;
    }
}

/* ---- looking ---- */

static int look_at(struct status *status, struct mg_host *host) {
    size_t disks = 0;
    int refusal;
    memset(status->followed, 0, sizeof *status->followed);
    refusal = mg_look_each(host, follow, status->followed, NULL);
    status->refusal = refusal;
    if (refusal == MG_OK)
        refusal = mg_locks(host, status->locks, MG_LOCKS, &status->count);
    if (refusal == MG_OK)
        refusal = mg_clients(host, NULL, 0, &status->clients);
    if (status->count > MG_LOCKS)
        status->count = MG_LOCKS;
    (void)mg_host_facts(host, &status->facts);
    status->is_in_epoch = mg_epoch(host, &status->epoch, NULL, &status->taken) == MG_OK;
    (void)mg_disks(host, status->disks, MG_DISKS, &disks);
    (void)mg_images(host, status->images, MG_DISKS, NULL);
    for (size_t i = 0; i < disks; i++) {
        status->answering += status->disks[i].status == MG_OK;
        status->writable += status->disks[i].status == MG_OK && !status->images[i].read_only;
    }
    return refusal;
}

/* Which machine has a host number of devices that several of them use. */
static void find_machines(struct status *status, const char *folder) {
    const struct mg_image_view *shared = first_of(status, MG_SHARED_IMAGE);
    for (unsigned host = 0; shared && host < shared->hosts && host < MG_HOSTS; host++)
        (void)mg_machine_of(folder, host, status->machines[host], sizeof status->machines[host]);
}

/* How long a read takes of each disk that answers. */
static void time_disks(struct status *status, const char *folder) {
    for (unsigned disk = 0; disk < MG_DISKS; disk++)
        status->took[disk] = disk < status->facts.disks && status->disks[disk].status == MG_OK ? probe(folder, disk) : -1;
}

bool is_slow(const struct status *status, size_t disk) { return status->took[disk] >= SLOW; }

/* Since when the lock at a place has its mode, or wants another. The look has followed each command up to this table. */
const struct since *since_of(const struct status *status, size_t place, bool waits) {
    static const struct since unknown;
    const struct followed *followed = status->followed;
    if (followed->learned != status->facts.learned || followed->count != status->count)
        return &unknown;
    return waits ? &followed->wanted[place] : &followed->held[place];
}

/* How many of those that answer, and may be written, are more than a majority. */
size_t spare(const struct status *status) {
    size_t majority = status->facts.disks / 2 + 1;
    return status->writable > majority ? status->writable - majority : 0;
}

/* The first disk in use that is of a kind; NULL where none is. */
const struct mg_image_view *first_of(const struct status *status, int kind) {
    for (size_t i = 0; i < status->facts.disks; i++)
        if (status->disks[i].status == MG_OK && status->images[i].kind == kind)
            return &status->images[i];
    return NULL;
}

/* Looks without a host number. Where marks do not tell the table it looks by the greatest number that nobody has. */
static int look_by_any(struct status *status, const char *folder, struct mg_host **host, int *disk) {
    struct mg_host *by_number = NULL;
    struct followed *followed = status->followed;
    const char *given = status->folder;
    int result = look_at(status, *host), opened = MG_HOST_IN_USE;
    if (status->refusal != MG_NO_TABLE)
        return result;
    for (unsigned number = MG_HOSTS; opened == MG_HOST_IN_USE && number-- > 0;)
        opened = mg_open(folder, number, &by_number, disk);
    if (opened != MG_OK)
        return result;
    mg_close(*host);
    *host = by_number;
    memset(status, 0, sizeof *status);
    status->folder = given;
    status->followed = followed;
    return look_at(status, *host);
}

void end_status(struct status *status) {
    if (!status)
        return;
    free(status->followed);
    free(status->locked);
    free(status);
}

int look_at_all(struct status *status, const char *folder, int *disk) {
    struct mg_host *host;
    int result = mg_open_to_look(folder, &host, disk);
    if (result != MG_OK)
        return result;
    result = look_by_any(status, folder, &host, disk);
    mg_close(host);
    read_locked(status);
    find_hosts(status, folder);
    find_signs(status, folder);
    time_disks(status, folder);
    if (result == MG_OK) /* else it would take the place of the cause */
        find_machines(status, folder);
    return result;
}

struct status *begin_status(const char *folder) {
    struct status *status = calloc(1, sizeof *status);
    if (status) {
        status->folder = folder;
        status->followed = calloc(1, sizeof *status->followed);
    }
    if (status && status->followed)
        return status;
    end_status(status);
    return NULL;
}

/* ---- what is wrong ---- */

static bool is_refused(const struct status *status) { return status->refusal != MG_OK; }

/* How many slots of a log that ends are left; of another one there are always some. */
static uint64_t slots_left(const struct status *status) {
    return status->facts.endless || is_refused(status) ? UINT64_MAX : status->facts.slots - status->facts.learned;
}

static bool is_full(const struct status *status) { return slots_left(status) == 0; }

static bool is_nearly_full(const struct status *status) { return !is_full(status) && slots_left(status) < (status->facts.slots + FEW - 1) / FEW; }

static bool may_not_be_written(const struct status *status) {
    return status->answering > status->facts.disks / 2 && status->writable <= status->facts.disks / 2;
}

static bool has_lost_disk(const struct status *status) { return status->answering < status->facts.disks; }

static bool has_read_only_disk(const struct status *status) { return status->writable < status->answering; }

static bool has_slow_disk(const struct status *status) {
    bool any = false;
    for (size_t i = 0; i < status->facts.disks; i++)
        any |= is_slow(status, i);
    return any;
}

static bool has_left_locks(const struct status *status) {
    bool any = false;
    for (size_t i = 0; i < status->count; i++)
        any |= status->signs[i] == IS_FREE;
    return any;
}

const struct wrong WRONG[WRONGS] = {
    {"refused", "the table cannot be read", is_refused, IS_STUCK},
    {"log_full", "the log is full", is_full, IS_STUCK},
    {"not_writable", "no majority of the disks may be written", may_not_be_written, IS_STUCK},
    {"disk_lost", "a disk does not answer", has_lost_disk, IS_WORSE},
    {"disk_read_only", "a disk may only be read", has_read_only_disk, IS_WORSE},
    {"disk_slow", "a disk is slow", has_slow_disk, IS_WORSE},
    {"log_nearly_full", "the log is nearly full", is_nearly_full, IS_WORSE},
    {"locks_left_over", "killed processes left locks", has_left_locks, IS_WORSE},
};

enum health health_of(const struct status *status) {
    enum health worst = IS_WELL;
    for (size_t i = 0; i < WRONGS; i++)
        if (WRONG[i].is_so(status) && WRONG[i].health > worst)
            worst = WRONG[i].health;
    return worst;
}
