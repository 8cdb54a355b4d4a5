/*
 * device.h says what for. No proof covers this file. It judges no header, no sector and no name: it moves whole sectors, past the machine's cache.
 */
#define _GNU_SOURCE
#include "device.h"

#include <errno.h>
#include <linux/fs.h>
#include <linux/loop.h>
#include <stdio.h>
#include <stdlib.h>
#include <string.h>
#include <sys/ioctl.h>
#include <sys/stat.h>
#include <sys/statvfs.h>
#include <sys/sysmacros.h>
#include <unistd.h>

enum { MOST_READS = 9, ROOM = DEVICE_HOSTS * DEVICE_LONGEST_SECTOR };

uint8_t *device_room(void) {
    void *room = NULL;
    return posix_memalign(&room, DEVICE_LONGEST_SECTOR, 2 * ROOM) == 0 ? room : NULL;
}

/* All of it in one call, or it has failed: a sector is not put together of two. */
static bool move(int file, uint8_t *bytes, uint64_t length, uint64_t at, bool writes) {
    ssize_t n;
    do
        n = writes ? pwrite(file, bytes, (size_t)length, (off_t)at) : pread(file, bytes, (size_t)length, (off_t)at);
    while (n < 0 && errno == EINTR);
    return n >= 0 && (uint64_t)n == length;
}

bool sync_data(int file) {
    while (fdatasync(file) != 0)
        if (errno != EINTR)
            return false;
    return true;
}

bool device_first(int file, uint8_t *room) { return move(file, room, DEVICE_FIRST, 0, false); }

bool device_find(int file, unsigned disk, uint8_t *room, struct device *device, struct header *image) {
    off_t size = lseek(file, 0, SEEK_END);
    return size >= 0 && device_first(file, room) && dlm_c_device(disk, (uint64_t)size, (const struct first_bytes *)room, device, image) == 0;
}

uint32_t device_sector(int file) {
    unsigned physical;
    return ioctl(file, BLKPBSZGET, &physical) == 0 ? physical : 0;
}

/* What the system tells of a block device; 0 where it tells nothing. */
static uint64_t fact_of(dev_t number, const char *name) {
    char path[80];
    long long told = 0;
    FILE *from;
    (void)snprintf(path, sizeof path, "/sys/dev/block/%u:%u/%s", major(number), minor(number), name);
    from = fopen(path, "re");
    if (from && (fscanf(from, "%lld", &told) != 1 || told < 0))
        told = 0;
    if (from)
        fclose(from);
    return (uint64_t)told;
}

/* A partition's start is told in parts of 512 bytes. A volume has an offset from where sectors of its disks begin. */
uint64_t device_begin(int file) {
    struct loop_info64 loop;
    struct stat facts;
    uint64_t begin;
    if (fstat(file, &facts) != 0 || !S_ISBLK(facts.st_mode))
        return 0;
    begin = 512 * fact_of(facts.st_rdev, "start");
    if (begin == 0)
        begin = fact_of(facts.st_rdev, "alignment_offset");
    return begin + (ioctl(file, LOOP_GET_STATUS64, &loop) == 0 ? loop.lo_offset : 0);
}

bool device_identity(int file, struct identity *into) {
    struct loop_info64 loop;
    struct stat facts;
    memset(into, 0, sizeof *into);
    if (fstat(file, &facts) != 0)
        return false;
    into->of = facts.st_dev;
    into->number = facts.st_ino;
    if (S_ISBLK(facts.st_mode) && ioctl(file, LOOP_GET_STATUS64, &loop) == 0) {
        /* Of a file, or of a block device behind it. */
        into->of = loop.lo_device;
        into->number = loop.lo_inode;
        into->at = device_begin(file);
    } else if (S_ISBLK(facts.st_mode)) {
        into->is_block = 1;
        into->of = facts.st_rdev;
        into->number = 0;
    }
    return true;
}

bool device_is_read_only(int file) {
    struct statvfs facts;
    int is_so = 0;
    if (ioctl(file, BLKROGET, &is_so) == 0)
        return is_so != 0;
    return fstatvfs(file, &facts) == 0 && (facts.f_flag & ST_RDONLY) != 0;
}

/* A write that is cut off goes on, so that a full disk is told as one. */
static bool put_zeros(int file, uint64_t size, const uint8_t *zeros) {
    for (uint64_t at = 0; at < size;) {
        ssize_t n = pwrite(file, zeros, size - at < ROOM ? (size_t)(size - at) : ROOM, (off_t)at);
        if (n < 0 && errno == EINTR)
            continue;
        if (n <= 0)
            return false;
        at += (uint64_t)n;
    }
    return true;
}

bool device_lay_out(int file, const struct first_bytes *first, size_t length, uint64_t size, enum step step, uint8_t *room) {
    uint8_t *header = room + ROOM;
    bool done;
    memset(room, 0, ROOM);
    memcpy(header, first->bytes, sizeof first->bytes);
    if (step == HEADER)
        header[0] = 0;
    if (step == ZEROS)
        done = put_zeros(file, size, room);
    else
        done = move(file, step == UNDONE ? room : header, length, 0, true);
    return done && sync_data(file);
}

/* Whether all is zeros after the first bytes. */
static bool holds_nothing(int file, uint64_t size, uint8_t *room) {
    for (uint64_t at = DEVICE_FIRST; at < size; at += ROOM) {
        uint64_t length = size - at < ROOM ? size - at : ROOM;
        if (!move(file, room, length, at, false) || room[0] != 0 || memcmp(room, room + 1, (size_t)length - 1) != 0)
            return false;
    }
    return true;
}

enum state device_state(int file, const struct first_bytes *first, uint64_t size, uint8_t *room) {
    if (memcmp(room + 1, first->bytes + 1, DEVICE_FIRST - 1) != 0)
        return OTHER_BYTES;
    if (room[0] == first->bytes[0])
        return GATE_OPEN;
    return holds_nothing(file, size, room + ROOM) ? GATE_CLOSED : OTHER_BYTES;
}

bool device_read(int file, const struct device *device, uint8_t *room, uint64_t at, struct row *row) {
    uint8_t *const reads[] = {room, room + ROOM};
    struct sectors them;
    bool is_row = dlm_c_device_row(device, at, &them) == 0, done = false;
    for (int n = 0; n < MOST_READS && is_row && !done && move(file, reads[n % 2], them.length, them.place, false); n++)
        done = n > 0 && dlm_c_device_agreed(device, reads[0], (size_t)them.length, reads[1], (size_t)them.length, row) == 0;
    return done;
}

bool device_write(int file, const struct device *device, uint8_t *room, uint64_t at, const uint8_t *from, size_t length) {
    struct sectors it;
    return length == 0 ||
           (dlm_c_device_block(device, at, length, &it) == 0 && move(file, room, it.length, it.place, false) &&
            dlm_c_device_put(room, (size_t)it.length, it.offset, from, length) == 0 && move(file, room, it.length, it.place, true));
}

int device_claim(const int *files, const struct device *devices, unsigned disks, unsigned host, enum claim_of kind, const struct machine *machine,
                 struct machine *other, uint8_t *room) {
    struct all_heard said = {{{0, {{0}}}}, disks};
    struct sectors at[DEVICE_DISKS];
    int status;
    for (unsigned k = 0; k < disks; k++)
        said.all[k].is_heard = files[k] >= 0 && dlm_c_device_block(&devices[k], DEVICE_ROW + host * DEVICE_BLOCK, 0, &at[k]) == 0 &&
                               move(files[k], room, at[k].length, at[k].place, false) && dlm_c_device_name(room, (size_t)at[k].length, &said.all[k].name) == 0;
    status = dlm_c_device_owner(&said, machine, other);
    for (unsigned k = 0; k < disks && kind != TELL && (status == IS_OURS || (kind == TAKE && status == IS_OTHERS)); k++)
        if (said.all[k].is_heard && memcmp(&said.all[k].name, machine, sizeof *machine) != 0) {
            said.all[k].is_heard = move(files[k], room, at[k].length, at[k].place, false) && dlm_c_device_put_name(room, (size_t)at[k].length, machine) == 0 &&
                                   move(files[k], room, at[k].length, at[k].place, true) && sync_data(files[k]);
            said.all[k].name = *machine;
        }
    return dlm_c_device_owner(&said, machine, other);
}
