/*
 * dlm-mount: shows devices that several machines use at once as a folder of images, to programs of this machine, such as dlm. It keeps no bytes:
 * each read, write and sync of an image is one of whole sectors on its device, past the machine's cache.
 *
 *   dlm-mount FOLDER MOUNTPOINT      FOLDER has links diskK.img to formatted devices (dlm-shared format)
 *
 * It speaks FUSE to the kernel by /dev/fuse, and ends when it is unmounted. README.md beside it says more. No proof covers this file.
 */
#ifndef _GNU_SOURCE
#define _GNU_SOURCE
#endif
#include <midgegalena.h>

#include "device.h"

#include <errno.h>
#include <fcntl.h>
#include <linux/fuse.h>
#include <stdio.h>
#include <stdlib.h>
#include <string.h>
#include <sys/mount.h>
#include <sys/stat.h>
#include <time.h>
#include <unistd.h>

#define USAGE "usage: dlm-mount FOLDER MOUNTPOINT\n       dlm-mount -h | -V"

enum { DISKS = 7, ROOT = 1, FIRST_DISK = 10, FIRST_LOCK = 100, BUFFER = 1 << 20, MOST = 1 << 17 };
enum { KIND = 1, SET_FROM = 3, SET_TO = 16 }; /* the header's bytes that all disks of a set have: the kind of log; disks, slots, cluster */

static const char *folder;
static int files[DISKS], fuse; /* below 0: it is not there */
static time_t tried[DISKS];    /* when it was last looked for, in seconds */
static uint64_t lives[DISKS];  /* how often it was found. Who opened an image of an earlier life has to open it anew */
static unsigned disks;         /* of the set */
static struct device how[DISKS];
static struct header shown[DISKS]; /* the length and the first bytes of an image */
static struct machine machine;
static uint8_t *room;

/* ---- devices that go and come back ---- */

static time_t now(void) {
    struct timespec time = {0, 0};
    (void)clock_gettime(CLOCK_MONOTONIC, &time);
    return time.tv_sec;
}

/* Opens a device, if it is right as this disk, in the set that was mounted. Each write lasts by itself where its header says so. */
static bool attach(unsigned disk) {
    char path[4096];
    struct header found;
    const struct header *other = NULL;
    int file;
    for (unsigned k = 0; k < DISKS && !other; k++)
        other = lives[k] > 0 ? &shown[k] : NULL;
    tried[disk] = now();
    snprintf(path, sizeof path, "%s/disk%u.img", folder, disk);
    file = open(path, O_RDWR | O_DIRECT | O_DSYNC | O_CLOEXEC);
    if (file >= 0 && (!device_find(file, disk, room, &how[disk], &found) ||
                      (other && found.bytes[KIND] != other->bytes[KIND]) || (other && memcmp(found.bytes + SET_FROM, other->bytes + SET_FROM, SET_TO - SET_FROM) != 0))) {
        close(file);
        file = -1;
    }
    if (file >= 0 && !how[disk].dsync) {
        close(file);
        file = open(path, O_RDWR | O_DIRECT | O_CLOEXEC);
    }
    files[disk] = file;
    if (file < 0)
        return false;
    shown[disk] = found;
    lives[disk]++;
    return true;
}

/* Looks for a device that is not there, once a second at most. */
static bool is_there(unsigned disk) { return files[disk] >= 0 || (now() > tried[disk] && attach(disk)); }

static void lose(unsigned disk) {
    close(files[disk]);
    files[disk] = -1;
    tried[disk] = now();
}

/* After a call that failed: where the header cannot be read either, or is another one, the device is gone. */
static void look_whether_gone(unsigned disk) {
    struct device found;
    struct header header;
    if (files[disk] >= 0 && (!device_find(files[disk], disk, room, &found, &header) || memcmp(&header, &shown[disk], sizeof header) != 0))
        lose(disk);
}

/* ---- nodes ---- */

static bool is_disk(uint64_t node) { return node >= FIRST_DISK && node < FIRST_DISK + DISKS && files[node - FIRST_DISK] >= 0; }
static bool is_lock(uint64_t node) { return node >= FIRST_LOCK && node < FIRST_LOCK + DEVICE_HOSTS; }
static uint64_t size_of(unsigned disk) { return shown[disk].size; }

static void answer(uint64_t unique, int error, const void *bytes, size_t length) {
    static uint8_t out[sizeof(struct fuse_out_header) + MOST + 4096];
    struct fuse_out_header head = {(uint32_t)(sizeof head + (error ? 0 : length)), -error, unique};
    memcpy(out, &head, sizeof head);
    if (!error && length > 0)
        memcpy(out + sizeof head, bytes, length);
    (void)!write(fuse, out, head.len);
}

static int put_attr(uint64_t node, struct fuse_attr *attr) {
    memset(attr, 0, sizeof *attr);
    attr->ino = node;
    attr->nlink = 1;
    attr->blksize = DEVICE_ROW;
    attr->mode = node == ROOT ? S_IFDIR | 0777 : S_IFREG | 0666;
    if (is_disk(node)) {
        attr->size = size_of((unsigned)(node - FIRST_DISK));
        attr->blocks = attr->size / 512;
    }
    return node == ROOT || is_disk(node) || is_lock(node) ? 0 : ENOENT;
}

static uint64_t node_of(const char *name) {
    char right[32];
    for (unsigned n = 0; n < DEVICE_HOSTS; n++) {
        snprintf(right, sizeof right, "host%u.lock", n);
        if (strcmp(name, right) == 0)
            return FIRST_LOCK + n;
        snprintf(right, sizeof right, "disk%u.img", n);
        if (n < DISKS && strcmp(name, right) == 0 && is_there(n))
            return FIRST_DISK + n;
    }
    return 0;
}

static int read_rows(unsigned disk, uint64_t at, uint8_t *into, size_t length) {
    struct row row = {{0}};
    while (length > 0) {
        size_t from = (size_t)(at % DEVICE_ROW), part = DEVICE_ROW - from < length ? DEVICE_ROW - from : length;
        if (at < DEVICE_ROW)
            memcpy(row.bytes, shown[disk].bytes, sizeof shown[disk].bytes);
        else if (!device_read(files[disk], &how[disk], room, at - from, &row)) {
            look_whether_gone(disk);
            return EIO;
        }
        memcpy(into, row.bytes + from, part);
        into += part;
        at += part;
        length -= part;
    }
    return 0;
}

static int write_part(unsigned disk, uint64_t at, const uint8_t *from, size_t length) {
    if (at < DEVICE_ROW)
        return EROFS;
    if (device_write(files[disk], &how[disk], room, at, from, length))
        return 0;
    look_whether_gone(disk);
    return EIO;
}

/* After a sync that failed the machine may hold bytes for written that are not, and no later sync would tell. */
static int sync_disk(unsigned disk) {
    if (sync_data(files[disk]))
        return 0;
    lose(disk);
    return EIO;
}

/* Whoever opens the file by which a host number is locked means to work under it: the number has to be this machine's. */
static int own_number(uint64_t node) {
    struct machine other;
    int status;
    if (!is_lock(node))
        return 0;
    for (unsigned k = 0; k < disks; k++)
        (void)is_there(k);
    status = device_claim(files, how, disks, (unsigned)(node - FIRST_LOCK), CLAIM, &machine, &other, room);
    for (unsigned k = 0; k < disks && status == IS_UNHEARD; k++)
        look_whether_gone(k);
    return status == IS_OURS ? 0 : EACCES;
}

/* Opens a file. Of an image the handle says which life of its device it is of. */
static int open_node(uint64_t node, uint64_t *handle) {
    if (node >= FIRST_DISK && node < FIRST_DISK + DISKS) {
        if (!is_there((unsigned)(node - FIRST_DISK)))
            return EIO;
        *handle = lives[node - FIRST_DISK];
        return 0;
    }
    return own_number(node);
}

/* Whether a handle is of the device as it is there now. */
static bool is_live(uint64_t node, uint64_t handle) { return is_disk(node) && lives[node - FIRST_DISK] == handle; }

static void serve(const struct fuse_in_header *in, const void *argument) {
    static uint8_t bytes[MOST];
    uint64_t node = in->nodeid;
    unsigned disk = is_disk(node) ? (unsigned)(node - FIRST_DISK) : 0;
    union {
        struct fuse_init_out init;
        struct fuse_entry_out entry;
        struct fuse_attr_out attr;
        struct fuse_open_out open;
        struct fuse_write_out write;
        struct fuse_statfs_out statfs;
        struct {
            struct fuse_entry_out entry;
            struct fuse_open_out open;
        } create;
    } out;
    int error = 0;
    memset(&out, 0, sizeof out);
    switch (in->opcode) {
    case FUSE_INIT: {
        const struct fuse_init_in *init = argument;
        out.init.major = FUSE_KERNEL_VERSION;
        out.init.minor = init->minor < FUSE_KERNEL_MINOR_VERSION ? init->minor : FUSE_KERNEL_MINOR_VERSION;
        out.init.max_write = MOST;
        out.init.flags = FUSE_BIG_WRITES;
        answer(in->unique, 0, &out, sizeof out.init);
        break;
    }
    case FUSE_LOOKUP:
        out.entry.nodeid = node_of(argument);
        error = out.entry.nodeid == 0 ? ENOENT : put_attr(out.entry.nodeid, &out.entry.attr);
        answer(in->unique, error, &out, sizeof out.entry);
        break;
    case FUSE_CREATE:
        out.create.entry.nodeid = node_of((const char *)argument + sizeof(struct fuse_create_in));
        out.create.open.open_flags = FOPEN_DIRECT_IO;
        error = out.create.entry.nodeid == 0 ? EROFS : put_attr(out.create.entry.nodeid, &out.create.entry.attr);
        error = error ? error : open_node(out.create.entry.nodeid, &out.create.open.fh);
        answer(in->unique, error, &out, sizeof out.create);
        break;
    case FUSE_GETATTR:
    case FUSE_SETATTR:
        error = put_attr(node, &out.attr.attr);
        answer(in->unique, error, &out, sizeof out.attr);
        break;
    case FUSE_OPEN:
        out.open.open_flags = FOPEN_DIRECT_IO;
        error = open_node(node, &out.open.fh);
        answer(in->unique, error, &out, sizeof out.open);
        break;
    case FUSE_OPENDIR:
        answer(in->unique, 0, &out, sizeof out.open);
        break;
    case FUSE_READ: {
        const struct fuse_read_in *asked = argument;
        size_t length = asked->size < MOST ? asked->size : MOST;
        if (asked->offset >= size_of(disk))
            length = 0;
        else if (asked->offset + length > size_of(disk))
            length = (size_t)(size_of(disk) - asked->offset);
        if (is_lock(node))
            length = 0;
        else
            error = is_live(node, asked->fh) ? read_rows(disk, asked->offset, bytes, length) : EIO;
        answer(in->unique, error, bytes, length);
        break;
    }
    case FUSE_WRITE: {
        const struct fuse_write_in *asked = argument;
        out.write.size = asked->size;
        error = is_lock(node)                ? EROFS
                : is_live(node, asked->fh) ? write_part(disk, asked->offset, (const uint8_t *)argument + sizeof *asked, asked->size)
                                           : EIO;
        answer(in->unique, error, &out, sizeof out.write);
        break;
    }
    case FUSE_FSYNC: {
        const struct fuse_fsync_in *asked = argument;
        error = is_lock(node) || node == ROOT ? 0 : is_live(node, asked->fh) ? sync_disk(disk) : EIO;
        answer(in->unique, error, NULL, 0);
        break;
    }
    case FUSE_STATFS:
        answer(in->unique, 0, &out, sizeof out.statfs);
        break;
    case FUSE_FORGET:
    case FUSE_BATCH_FORGET:
        break;
    case FUSE_FLUSH:
    case FUSE_RELEASE:
    case FUSE_RELEASEDIR:
    case FUSE_FSYNCDIR:
    case FUSE_READDIR:
    case FUSE_ACCESS:
        answer(in->unique, 0, NULL, 0);
        break;
    default:
        answer(in->unique, ENOSYS, NULL, 0);
    }
}

/* Opens the devices of the folder, and learns from the first of them how many the set has. */
static bool find(void) {
    for (unsigned k = 0; k < DISKS; k++)
        if (attach(k) && disks == 0)
            disks = shown[k].bytes[SET_FROM];
    return disks >= 1 && disks <= DISKS;
}

/* As the library does: the file machine-id in the folder, or else /etc/machine-id. */
static bool read_machine(void) {
    char path[4096];
    unsigned byte;
    FILE *file;
    size_t n = 0;
    snprintf(path, sizeof path, "%s/machine-id", folder);
    file = fopen(path, "r");
    if (!file && errno == ENOENT)
        file = fopen("/etc/machine-id", "r");
    while (file && n < sizeof machine.bytes && fscanf(file, "%2x", &byte) == 1)
        machine.bytes[n++] = (uint8_t)byte;
    if (file)
        fclose(file);
    return n == sizeof machine.bytes;
}

int main(int count, char **words) {
    static uint8_t buffer[BUFFER] __attribute__((aligned(16)));
    char options[128];
    if (count == 2 && (strcmp(words[1], "-V") == 0 || strcmp(words[1], "--version") == 0))
        return printf("dlm-mount of midgegalena %d.%d\n", MG_VERSION_MAJOR, MG_VERSION_MINOR) < 0;
    if (count == 2 && (strcmp(words[1], "-h") == 0 || strcmp(words[1], "--help") == 0))
        return puts(USAGE) < 0;
    if (count != 3) {
        fputs(USAGE "\n", stderr);
        return 2;
    }
    room = device_room();
    folder = words[1];
    if (!room || !find()) {
        fprintf(stderr, "dlm-mount: %s: none of disk0.img to disk6.img leads to a right device of dlm-shared that may be written\n", folder);
        return 1;
    }
    if (!read_machine()) {
        fprintf(stderr, "dlm-mount: %s: this machine has no name: machine-id there, or else /etc/machine-id, has to begin with 32 digits\n", folder);
        return 1;
    }
    fuse = open("/dev/fuse", O_RDWR | O_CLOEXEC);
    snprintf(options, sizeof options, "fd=%d,rootmode=40000,user_id=%u,group_id=%u,allow_other", fuse, (unsigned)getuid(), (unsigned)getgid());
    if (fuse < 0 || mount("dlm-mount", words[2], "fuse.dlm", MS_NOSUID | MS_NODEV, options) != 0) {
        perror(fuse < 0 ? "/dev/fuse" : words[2]);
        return 1;
    }
    for (;;) {
        ssize_t n = read(fuse, buffer, sizeof buffer);
        if (n < 0 && (errno == EINTR || errno == EAGAIN || errno == ENOENT))
            continue;
        if (n < (ssize_t)sizeof(struct fuse_in_header))
            return errno == ENODEV ? 0 : 1;
        serve((const struct fuse_in_header *)buffer, buffer + sizeof(struct fuse_in_header));
    }
}
