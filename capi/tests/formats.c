/*
 * Formats for the processes of one machine and for several machines. Each call fails in turn, alone or with all after it, or ends the process: never is a set left
 * that works with fewer disks than were asked for, unless the same words finish it. Then full disks, places that are taken, and formats that are to be finished.
 * To be linked with
 *
 *   -Wl,--wrap=open,--wrap=pread,--wrap=pwrite,--wrap=fdatasync,--wrap=fsync
 *
 *   formats alone|shared FOLDER [DEVICE DEVICE DEVICE]      an empty folder; block devices that may be written over, and else files
 */
#ifndef _GNU_SOURCE
#define _GNU_SOURCE
#endif
#include <midgegalena.h>

#include "expect.h"

#include <errno.h>
#include <fcntl.h>
#include <signal.h>
#include <stdarg.h>
#include <stdbool.h>
#include <sys/stat.h>
#include <sys/wait.h>
#include <unistd.h>

int __real_open(const char *path, int flags, ...);
ssize_t __real_pread(int file, void *into, size_t length, off_t at);
ssize_t __real_pwrite(int file, const void *from, size_t length, off_t at);
int __real_fdatasync(int file);
int __real_fsync(int file);

enum { DISKS = 3, SLOTS = 16, CLUSTER = 7, GATE = 0xA5 };
static enum fault { NONE, FAILS_ONCE, FAILS, DIES } fault;
static long calls_left;
static bool was_due;
static int folder_syncs;
static long room = -1; /* bytes that files can still grow by; below 0: any */

static bool fails(void) {
    if (fault == NONE || (was_due && fault == FAILS_ONCE) || calls_left-- > 0)
        return false;
    if (fault == DIES)
        raise(SIGKILL);
    calls_left = 0;
    was_due = true;
    errno = EIO;
    return true;
}

int __wrap_open(const char *path, int flags, ...) {
    mode_t mode = 0;
    va_list rest;
    va_start(rest, flags);
    if (flags & O_CREAT)
        mode = va_arg(rest, mode_t);
    va_end(rest);
    return strstr(path, ".img") && fails() ? -1 : __real_open(path, flags, mode);
}

ssize_t __wrap_pread(int file, void *into, size_t length, off_t at) { return fails() ? -1 : __real_pread(file, into, length, at); }
int __wrap_fdatasync(int file) { return fails() ? -1 : __real_fdatasync(file); }

int __wrap_fsync(int file) {
    folder_syncs++;
    return fails() ? -1 : __real_fsync(file);
}

/* On a full disk a write is cut off, and then none is made. */
ssize_t __wrap_pwrite(int file, const void *from, size_t length, off_t at) {
    struct stat facts;
    long grows;
    if (fails())
        return -1;
    IS(fstat(file, &facts), 0);
    grows = (long)(at + (off_t)length - facts.st_size);
    if (room < 0 || !S_ISREG(facts.st_mode) || grows <= 0)
        return __real_pwrite(file, from, length, at);
    if (room == 0) {
        errno = ENOSPC;
        return -1;
    }
    if (grows > room)
        length -= (size_t)(grows - room);
    room -= grows > room ? room : grows;
    return __real_pwrite(file, from, length, at);
}

static char path[4096];
static char **devices;
static const char *folder;
static bool is_shared;
static int at_fault;
static long between; /* processes that ended between two gates */

static const char *image(int disk) {
    snprintf(path, sizeof path, "%s/disk%d.img", folder, disk);
    return path;
}

/* No image is there, or devices of zeros. */
static void fresh(void) {
    static char zeros[4096];
    for (int disk = 0; disk < DISKS; disk++) {
        unlink(image(disk));
        if (devices) {
            int file = __real_open(devices[disk], O_WRONLY);
            IS(__real_pwrite(file, zeros, sizeof zeros, 0), sizeof zeros);
            IS(__real_fsync(file), 0);
            close(file);
            IS(symlink(devices[disk], image(disk)), 0);
        }
    }
}

static int format_for(uint64_t cluster) {
    return is_shared ? mg_format_shared(folder, DISKS, SLOTS, cluster, 4, 0, devices ? 0 : MG_FILES, &at_fault)
                     : mg_format(folder, DISKS, SLOTS, cluster, &at_fault);
}

static int format(void) { return format_for(CLUSTER); }

/* How many images have an open gate, how many such a header, and how many files there are. */
static void count(int *open, int *headers, int *there) {
    struct stat facts;
    *open = *headers = *there = 0;
    for (int disk = 0; disk < DISKS; disk++) {
        uint8_t first[2] = {0, 0};
        int file = __real_open(image(disk), O_RDONLY);
        if (file >= 0)
            (void)!__real_pread(file, first, 2, 0);
        if (file >= 0)
            close(file);
        *open += first[0] == GATE;
        *headers += first[1] == (is_shared ? 3 : 2);
        *there += lstat(image(disk), &facts) == 0;
    }
}

/* All three are used. */
static void works(void) {
    struct mg_disk_view views[MG_DISKS];
    struct mg_host *host;
    size_t disks = 0;
    IS(mg_open_to_look(folder, &host, NULL), MG_OK);
    IS(mg_disks(host, views, MG_DISKS, &disks), MG_OK);
    IS(disks, DISKS);
    for (size_t k = 0; k < disks; k++)
        IS(views[k].status, MG_OK);
    mg_close(host);
}

/* Formats with a fault at a call; whether there were so many calls. */
static bool try(enum fault kind, long calls) {
    int open, headers, there, status, told = 0;
    pid_t child;
    fresh();
    fault = kind;
    calls_left = calls;
    was_due = false;
    if (kind == DIES) {
        child = fork();
        if (child == 0)
            _exit(format());
        IS(waitpid(child, &told, 0), child);
        was_due = WIFSIGNALED(told);
        status = was_due ? MG_UNREADABLE : WEXITSTATUS(told);
    } else
        status = format();
    fault = NONE;
    IS(status, was_due ? MG_UNREADABLE : MG_OK);
    IS(kind == DIES || (mg_cause()[0] != '\0') == was_due, true);
    count(&open, &headers, &there);
    /* A gate is opened when all are whole. What fails before is undone, where the devices can be written, and else the same words finish it. */
    IS(open == 0 || headers == DISKS, true);
    if (was_due && kind != DIES && headers < DISKS)
        IS(there == (devices ? DISKS : 0) && (headers == 0 || kind == FAILS), true);
    if (open > 0 && open < DISKS) {
        between++;
        IS(format_for(CLUSTER + 1), MG_ALREADY_THERE);
    }
    status = was_due ? format() : MG_OK;
    if (open == DISKS && was_due) {
        /* But for a sync. */
        IS(status, MG_ALREADY_THERE);
        status = MG_OK;
    } else if (status == MG_ALREADY_THERE && kind == DIES && !devices && headers < DISKS) {
        /* Files that are not all whole: nobody can tell whose they are. */
        fresh();
        status = format();
    }
    IS(status, MG_OK);
    works();
    IS(format(), MG_ALREADY_THERE);
    return was_due;
}

/* The disk is full at each image, at its beginning and later: none is left. Once there is room all are made. */
static void full(void) {
    const long size = is_shared ? 4096 * (1 + 4 * (SLOTS + 1)) : 4096 * (SLOTS + 2);
    char why[100];
    for (int disk = 0; disk < DISKS; disk++)
        for (int part = 0; part < 3; part++) {
            int open, headers, there;
            fresh();
            room = disk * size + (part == 0 ? 0 : part == 1 ? 4096 : size - 4096);
            IS(format(), MG_UNREADABLE);
            IS(at_fault, disk);
            snprintf(why, sizeof why, "disk%d.img cannot be made: %s", disk, strerror(ENOSPC));
            IS_TEXT(mg_cause(), why);
            count(&open, &headers, &there);
            IS(there, 0);
            room = DISKS * size;
            folder_syncs = 0;
            IS(format(), MG_OK);
            IS(folder_syncs, 1);
            IS(room, 0);
            IS(at_fault, -1);
            IS_TEXT(mg_cause(), "");
            room = -1;
            works();
        }
}

/* The format is refused so, with this disk at fault, and no header is written. */
static void refuses(int wanted, int disk, const char *why) {
    int open, headers, there;
    IS(format(), wanted);
    IS(at_fault, disk);
    IS_TEXT(mg_cause(), why);
    count(&open, &headers, &there);
    IS(headers, 0);
    IS(there, devices ? DISKS : disk < DISKS);
}

/* The place of the third disk is taken, or something has the name of a fourth. */
static void taken(void) {
    const int no_place = is_shared ? MG_UNREADABLE : MG_ALREADY_THERE;
    int file;
    fresh();
    unlink(image(2));
    IS(mkdir(image(2), 0777), 0);
    refuses(no_place, 2, "disk2.img is a folder, and no block device");
    IS(rmdir(image(2)), 0);
    IS(symlink("nowhere", image(2)), 0);
    refuses(no_place, 2, "disk2.img is a link that leads nowhere");
    unlink(image(2));
    file = __real_open(image(2), O_RDWR | O_CREAT, 0666);
    IS(ftruncate(file, 1 << 20), 0);
    close(file);
    refuses(MG_ALREADY_THERE, 2, "disk2.img is a file that is there");
    unlink(image(2));
    if (devices) {
        IS(symlink(devices[0], image(2)), 0);
        refuses(MG_BAD_ARGUMENT, 2, "disk2.img is the same device as disk0.img");
    }
    fresh();
    IS(symlink("nowhere", image(3)), 0);
    refuses(MG_ALREADY_THERE, 3, "something has the name disk3.img, and 3 disks are asked for");
    unlink(image(3));
}

static void put(int disk, off_t at, uint8_t byte) {
    int file = __real_open(image(disk), O_RDWR);
    IS(__real_pwrite(file, &byte, 1, at), 1);
    IS(__real_fsync(file), 0);
    close(file);
}

static void count_open(int wanted) {
    int open, headers, there;
    count(&open, &headers, &there);
    IS(open, wanted);
}

/* Whole images with closed gates are opened, if they are empty: some, and all. */
static void finishes(void) {
    for (int first = 0; first < DISKS; first++) {
        fresh();
        IS(format(), MG_OK);
        for (int disk = first; disk < DISKS; disk++)
            put(disk, 0, disk == first ? 0x77 : 0);
        count_open(first);
        put(2, 12288, 1);
        if (first > 0 || !devices)
            IS(format(), MG_ALREADY_THERE);
        count_open(first);
        put(2, 12288, 0);
        IS(format(), MG_OK);
        IS_TEXT(mg_cause(), "");
        works();
    }
    /* A file of another length, and files beside one that is missing. */
    if (!devices) {
        put(2, 0, 0);
        for (int longer = 0; longer < 2; longer++) {
            IS(truncate(image(2), longer ? 1 << 20 : 8192), 0);
            IS(format(), MG_ALREADY_THERE);
        }
        unlink(image(2));
        put(0, 0, 0);
        put(1, 0, 0);
        IS(format(), MG_ALREADY_THERE);
        IS(access(image(2), F_OK), -1);
    }
}

int main(int argc, char **argv) {
    if ((argc != 3 && argc != 3 + DISKS) || (strcmp(argv[1], "alone") != 0 && strcmp(argv[1], "shared") != 0))
        return 2;
    is_shared = strcmp(argv[1], "shared") == 0;
    folder = argv[2];
    devices = argc > 3 ? argv + 3 : NULL;
    if (!devices)
        full();
    taken();
    finishes();
    for (enum fault kind = FAILS_ONCE; kind <= DIES; kind++) {
        long calls = 0;
        while (try(kind, calls) && failures < 20)
            calls++;
        IS(calls >= 8 * DISKS, true);
        IS(between >= DISKS - 1, true);
        between = 0;
    }
    if (failures == 0)
        puts("formats: as it should be");
    return failures != 0;
}
