/*
 * New folders: images for the processes of one machine, and devices that several machines use. midgegalena.h says what is refused. No proof covers this file. What a
 * header says the proved library tells.
 */
#ifndef _GNU_SOURCE
#define _GNU_SOURCE
#endif

#include "device.h"
#include "files.h"
#include "midgegalena.h"

#include <errno.h>
#include <fcntl.h>
#include <stdlib.h>
#include <string.h>
#include <sys/stat.h>
#include <unistd.h>

/* Images that are to be made, as disk 0 to one below `disks`. Each that is there is open until all is done; a block device for this process alone. */
struct plan {
    const char *folder;
    bool is_shared;       /* devices that several machines use; else images for the processes of one */
    struct device device; /* of images for one machine nothing but the slots */
    unsigned disks, flags;
    uint64_t cluster, size;
    struct first_bytes first; /* of the disk that is due, with an open gate */
    char *paths[MG_DISKS];
    int files[MG_DISKS];
    struct identity which[MG_DISKS];
    enum state states[MG_DISKS];
    bool is_file[MG_DISKS]; /* a file was there */
    bool is_made[MG_DISKS]; /* a file of this format */
    uint8_t *room;
};

static const char *const FILE_THERE = "is a file that is there";

/* Has the first bytes of a disk, and its size, if there may be such a disk. */
static bool find_first(struct plan *plan, unsigned disk) {
    struct header image;
    if (plan->is_shared)
        return dlm_c_device_header(&plan->device, plan->disks, plan->cluster, disk, &plan->first, &plan->size) == 0;
    memset(&image, 0, sizeof image);
    if (dlm_c_header(plan->disks, plan->device.slots, plan->cluster, disk, &image) != 0)
        return false;
    memset(&plan->first, 0, sizeof plan->first);
    memcpy(plan->first.bytes, image.bytes, sizeof image.bytes);
    plan->size = image.size;
    return true;
}

/* How each image is opened, or made: past the machine's cache where several machines use it. */
static int flags_of(const struct plan *plan) { return O_RDWR | (plan->is_shared ? O_DIRECT : 0); }

/* ---- looking: nothing is changed ---- */

/* Says why the place of a disk does not do. */
static int refuse_place(int status, unsigned disk, const char *why) {
    because("disk%u.img %s", disk, why);
    return status;
}

static int refuse_error(unsigned disk, int error) {
    because("disk%u.img cannot be opened: %s", disk, strerror(error));
    return MG_UNREADABLE;
}

/* Whatever has the name of an image for the processes of one machine is there, be it an image or not. */
static int refuse_other(const struct plan *plan, unsigned disk, const char *why) {
    return refuse_place(plan->is_shared ? MG_UNREADABLE : MG_ALREADY_THERE, disk, why);
}

/* Whether what is there may become this disk: long enough, and where several machines use it in sectors that are not longer, and from a multiple of one on. */
static int fits(const struct plan *plan, unsigned disk) {
    int file = plan->files[disk];
    off_t size = lseek(file, 0, SEEK_END);
    uint64_t begin = device_begin(file);
    uint32_t sector = plan->device.sector_size, physical = device_sector(file);
    if (plan->is_shared && physical > sector)
        because("disk%u.img has sectors of %u bytes, and %u were asked for", disk, (unsigned)physical, (unsigned)sector);
    else if (plan->is_shared && begin % sector != 0)
        because("disk%u.img begins %llu bytes into what it is a part of, which is no multiple of %u", disk, (unsigned long long)begin, (unsigned)sector);
    if (mg_cause()[0] != '\0')
        return MG_BAD_ARGUMENT;
    if (size >= 0 && (uint64_t)size >= plan->size)
        return MG_OK;
    because("disk%u.img has %lld bytes, and %llu are needed", disk, (long long)size, (unsigned long long)plan->size);
    return MG_UNREADABLE;
}

/* Opens what is there as this disk; a block device for nobody else on this machine. */
static int open_place(struct plan *plan, unsigned disk, bool is_block) {
    const char *path = plan->paths[disk];
    int file = open_file(path, O_RDONLY);
    bool is_known = file != NO_FILE && device_identity(file, &plan->which[disk]);
    if (file != NO_FILE)
        close(file);
    for (unsigned other = 0; other < disk && is_known; other++)
        if (plan->files[other] != NO_FILE && memcmp(&plan->which[other], &plan->which[disk], sizeof plan->which[disk]) == 0) {
            because("disk%u.img is the same device as disk%u.img", disk, other);
            return MG_BAD_ARGUMENT;
        }
    plan->files[disk] = is_known ? open_file(path, flags_of(plan) | (is_block ? O_EXCL : 0)) : NO_FILE;
    if (plan->files[disk] != NO_FILE)
        return MG_OK;
    if (!is_block && !plan->is_shared)
        return refuse_place(MG_ALREADY_THERE, disk, FILE_THERE);
    if (errno == EBUSY)
        return refuse_place(MG_UNREADABLE, disk, "is in use on this machine: by a mount, as swap, or as a part of something");
    return refuse_error(disk, errno);
}

/* Judges what is open as this disk. A file is none but that of a format of the same words that was ended. */
static int judge(struct plan *plan, unsigned disk, bool is_block) {
    struct header found;
    int status = MG_OK, file = plan->files[disk];
    bool is_read = find_first(plan, disk) && device_first(file, plan->room);
    plan->states[disk] = is_read ? device_state(file, &plan->first, plan->size, plan->room) : OTHER_BYTES;
    plan->is_file[disk] = !is_block;
    if (!is_block && (plan->states[disk] == OTHER_BYTES || lseek(file, 0, SEEK_END) != (off_t)plan->size))
        return refuse_place(MG_ALREADY_THERE, disk, FILE_THERE);
    status = fits(plan, disk);
    if (status == MG_OK && !is_read)
        status = refuse_place(MG_UNREADABLE, disk, "cannot be read");
    if (status == MG_OK && device_is_read_only(file))
        status = refuse_place(MG_UNREADABLE, disk, "is read only");
    if (status != MG_OK)
        return status;
    found.size = plan->size;
    memcpy(found.bytes, plan->room, HEADER_LENGTH);
    if (plan->states[disk] == OTHER_BYTES && dlm_c_is_formatted(&found))
        return refuse_place(MG_ALREADY_THERE, disk, "is formatted");
    return MG_OK;
}

/* Looks at the place of a disk. */
static int look_at_disk(struct plan *plan, unsigned disk) {
    struct stat facts;
    const char *path = plan->paths[disk];
    bool is_there = lstat(path, &facts) == 0;
    int status = MG_OK;
    if (!is_there && errno == ENOENT && (plan->flags & MG_FILES) && stat(plan->folder, &facts) == 0)
        return MG_OK;
    if (!is_there && errno == ENOENT && stat(plan->folder, &facts) == 0)
        return refuse_place(MG_UNREADABLE, disk, "is not there: a link to a block device is wanted, unless files are asked for");
    if (stat(path, &facts) != 0 && is_there && errno == ENOENT)
        return refuse_other(plan, disk, "is a link that leads nowhere");
    if (stat(path, &facts) != 0)
        return refuse_error(disk, errno);
    if (!S_ISBLK(facts.st_mode) && !S_ISREG(facts.st_mode))
        return refuse_other(plan, disk, S_ISDIR(facts.st_mode) ? "is a folder, and no block device" : "is no block device");
    status = open_place(plan, disk, S_ISBLK(facts.st_mode));
    return status == MG_OK ? judge(plan, disk, S_ISBLK(facts.st_mode)) : status;
}

/* Whoever opens the folder would look at further images, too. */
static int look_for_more(const struct plan *plan, unsigned *disk) {
    struct stat facts;
    for (*disk = plan->disks; *disk < MG_DISKS; ++*disk)
        if (lstat(plan->paths[*disk], &facts) == 0) {
            because("something has the name disk%u.img, and %u disks are asked for", *disk, plan->disks);
            return MG_ALREADY_THERE;
        }
    return MG_OK;
}

/* Whether all are free, or are to be finished: each is whole, and some gates are closed. */
static int judge_all(const struct plan *plan, bool *finishes, unsigned *disk) {
    unsigned open = 0, closed = 0;
    for (unsigned k = 0; k < plan->disks; k++) {
        open += plan->states[k] == GATE_OPEN;
        closed += plan->states[k] == GATE_CLOSED;
    }
    *finishes = closed > 0 && open + closed == plan->disks;
    if (*finishes)
        return MG_OK;
    for (*disk = 0; *disk < plan->disks; ++*disk)
        if (plan->states[*disk] == GATE_OPEN || plan->is_file[*disk])
            return refuse_place(MG_ALREADY_THERE, *disk, plan->states[*disk] == GATE_OPEN ? "is formatted" : FILE_THERE);
    return look_for_more(plan, disk);
}

static int look_at_all(struct plan *plan, bool *finishes, unsigned *disk) {
    for (*disk = 0; *disk < plan->disks; ++*disk) {
        int status = look_at_disk(plan, *disk);
        if (status != MG_OK)
            return status;
    }
    return judge_all(plan, finishes, disk);
}

/* ---- making: as dlm format does ---- */

static bool sync_folder(const char *folder) {
    int file = open_file(folder, O_RDONLY);
    int done;
    if (file == NO_FILE)
        return false;
    do
        done = fsync(file);
    while (done != 0 && errno == EINTR);
    close(file);
    return done == 0;
}

/* Makes files where there is nothing. Their names are to last: a file whose name is lost is lost with all that it held. */
static bool make_files(struct plan *plan, unsigned *disk) {
    for (*disk = 0; *disk < plan->disks; ++*disk)
        if (plan->files[*disk] == NO_FILE) {
            plan->files[*disk] = open_file(plan->paths[*disk], flags_of(plan) | O_CREAT | O_EXCL);
            plan->is_made[*disk] = plan->files[*disk] != NO_FILE;
            if (!plan->is_made[*disk])
                return false;
        }
    *disk = 0;
    return sync_folder(plan->folder);
}

/* Makes a step at all disks. Of a device that several machines use whole sectors are written. */
static bool make_step(struct plan *plan, enum step step, unsigned *disk) {
    size_t length = plan->is_shared ? DEVICE_FIRST : step == GATE ? 1 : HEADER_LENGTH;
    for (*disk = 0; *disk < plan->disks; ++*disk) {
        errno = 0;
        if (step == HEADER)
            plan->states[*disk] = GATE_CLOSED;
        if (!find_first(plan, *disk) || !device_lay_out(plan->files[*disk], &plan->first, length, plan->size, step, plan->room))
            return false;
    }
    return true;
}

/* No gate is open: files of this format go, and the headers of devices become zeros again, as far as these can be written. */
static void undo(struct plan *plan) {
    for (unsigned k = 0; k < plan->disks; k++)
        if (plan->is_made[k])
            (void)unlink(plan->paths[k]);
        else if (plan->states[k] == GATE_CLOSED && !device_lay_out(plan->files[k], &plan->first, DEVICE_FIRST, plan->size, UNDONE, plan->room))
            because("disk%u.img may have a header whose gate is closed, which does no harm", k);
    (void)sync_folder(plan->folder);
}

/* No gate is opened before all images are whole. Once one is nothing is undone any more: hosts may use those that are open. */
static int make_all(struct plan *plan, bool finishes, unsigned *disk) {
    bool is_whole = finishes || (make_files(plan, disk) && make_step(plan, ZEROS, disk) && make_step(plan, HEADER, disk));
    if (is_whole && make_step(plan, GATE, disk))
        return MG_OK;
    because("disk%u.img cannot be made: %s", *disk, errno ? strerror(errno) : "a write was cut off");
    if (is_whole)
        because("some disks may be formatted to the end: the same words format the others");
    else
        undo(plan);
    return MG_UNREADABLE;
}

/* ---- the two calls ---- */

static int format_planned(struct plan *plan, unsigned *disk) {
    bool finishes = false;
    int status;
    for (unsigned k = 0; k < MG_DISKS; k++) {
        plan->paths[k] = path_of(plan->folder, "disk", (int)k, ".img");
        if (!plan->paths[k])
            return MG_NO_MEMORY;
    }
    status = look_at_all(plan, &finishes, disk);
    return status == MG_OK ? make_all(plan, finishes, disk) : status;
}

/* Does what is planned, where there may be such disks. */
static int format(struct plan *plan, int *disk) {
    unsigned at_fault = 0;
    int status = MG_BAD_ARGUMENT;
    no_cause();
    if (disk)
        *disk = -1;
    for (unsigned k = 0; k < MG_DISKS; k++)
        plan->files[k] = NO_FILE;
    plan->room = device_room();
    if (!plan->room)
        return MG_NO_MEMORY;
    if (plan->folder && plan->flags <= (MG_NO_DSYNC | MG_FILES | MG_ENDLESS) && find_first(plan, 0)) {
        status = format_planned(plan, &at_fault);
        if (disk && status != MG_OK && status != MG_NO_MEMORY)
            *disk = (int)at_fault;
    }
    for (unsigned k = 0; k < MG_DISKS; k++) {
        if (plan->files[k] != NO_FILE)
            close(plan->files[k]);
        free(plan->paths[k]);
    }
    free(plan->room);
    return status;
}

int mg_format(const char *folder, unsigned disks, unsigned slots, uint64_t cluster, int *disk) {
    struct plan plan;
    memset(&plan, 0, sizeof plan);
    plan.folder = folder;
    plan.device.slots = slots;
    plan.disks = disks;
    plan.flags = MG_FILES;
    plan.cluster = cluster;
    return format(&plan, disk);
}

int mg_format_shared(const char *folder, unsigned disks, unsigned slots, uint64_t cluster, unsigned hosts, unsigned sector, unsigned flags, int *disk) {
    struct plan plan;
    memset(&plan, 0, sizeof plan);
    plan.folder = folder;
    plan.is_shared = true;
    plan.device.sector_size = sector == 0 ? DEVICE_LONGEST_SECTOR : sector;
    plan.device.hosts = hosts;
    plan.device.endless = (flags & MG_ENDLESS) != 0;
    plan.device.slots = plan.device.endless && slots == 0 ? MG_EPOCH_SLOTS : slots;
    plan.device.dsync = (flags & MG_NO_DSYNC) == 0;
    plan.disks = disks;
    plan.flags = flags;
    plan.cluster = cluster;
    return format(&plan, disk);
}
