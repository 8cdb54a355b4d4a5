/*
 * The host number of mg, where none is given: a number is free where the library opens the folder under it. It is let go at once, and the program that mg
 * becomes takes it. In that moment somebody else may get it: mg-lock waits for it then, and mg-folder is refused and has done nothing.
 */
#ifndef _GNU_SOURCE
#define _GNU_SOURCE
#endif
#include "mg_host.h"

#include <errno.h>
#include <fcntl.h>
#include <limits.h>
#include <stdio.h>
#include <stdlib.h>
#include <linux/magic.h>
#include <sys/file.h>
#include <sys/vfs.h>
#include <time.h>
#include <unistd.h>

enum { PATIENCE = 333, PAUSE = 5 }; /* milliseconds */
enum { FIRST_CLIENT = 240 };        /* sessions of host H are client 240 + H */

/* Types of file systems that have no name in every linux/magic.h. */
#define CIFS 0xFF534D42
#define SMB2 0xFE534D42
#define GFS2 0x01161970
#define LUSTRE 0x0BD00BD0

static int64_t milliseconds(void) {
    struct timespec now = {0, 0};
    clock_gettime(CLOCK_MONOTONIC, &now);
    return (int64_t)now.tv_sec * 1000 + now.tv_nsec / 1000000;
}

/* Opens the folder under the number, and lets it go. */
static int try_number(const char *folder, unsigned number, int *disk) {
    const struct timespec pause = {0, PAUSE * 1000000};
    int64_t until = milliseconds() + PATIENCE;
    for (;;) {
        struct mg_host *host;
        int status = mg_open(folder, number, &host, disk);
        if (status == MG_OK)
            mg_close(host);
        if (status != MG_HOST_IN_USE || milliseconds() >= until)
            return status;
        nanosleep(&pause, NULL);
    }
}

bool is_free(const char *folder, unsigned number) {
    int disk;
    return try_number(folder, number, &disk) == MG_OK;
}

/* Whether it is on a file system that several machines, or guests of one, may have. */
static bool is_remote(const char *path) {
    static const long types[] = {FUSE_SUPER_MAGIC, NFS_SUPER_MAGIC, SMB_SUPER_MAGIC, CIFS, SMB2,   V9FS_MAGIC, AFS_SUPER_MAGIC,
                                 AFS_FS_MAGIC,     CODA_SUPER_MAGIC, CEPH_SUPER_MAGIC, GFS2, OCFS2_SUPER_MAGIC, LUSTRE};
    struct statfs facts;
    if (statfs(path, &facts) != 0)
        return false;
    for (size_t i = 0; i < sizeof types / sizeof types[0]; i++)
        if ((unsigned)facts.f_type == (unsigned)types[i])
            return true;
    return false;
}

/* Whether the folder is, where the locks on numbers are, or one of its images. */
static bool is_elsewhere(const char *folder) {
    char path[PATH_MAX];
    bool any = is_remote(folder);
    for (unsigned disk = 0; disk < MG_DISKS && !any; disk++)
        any = snprintf(path, sizeof path, "%s/disk%u.img", folder, disk) < (int)sizeof path && is_remote(path);
    return any;
}

/* Whether an image is a device, for one machine or for several. */
static int find_devices(const char *folder, bool *any, int *disk) {
    struct mg_image_view images[MG_DISKS];
    struct mg_host *eye;
    size_t count = 0;
    int status = mg_open_to_look(folder, &eye, disk);
    *any = false;
    if (status != MG_OK)
        return status;
    status = mg_images(eye, images, MG_DISKS, &count);
    for (size_t i = 0; status == MG_OK && i < count; i++)
        *any |= images[i].kind == MG_DEVICE_IMAGE || images[i].kind == MG_SHARED_IMAGE;
    mg_close(eye);
    return status;
}

enum choice choose_number(const char *folder, unsigned *number, int *status, int *disk) {
    bool any;
    *disk = -1;
    *status = find_devices(folder, &any, disk);
    if (*status != MG_OK)
        return IS_REFUSED;
    if (any)
        return ARE_DEVICES;
    if (is_elsewhere(folder))
        return IS_ELSEWHERE;
    for (*number = 0; *number < MG_HOSTS; ++*number) {
        *status = try_number(folder, *number, disk);
        if (*status == MG_OK)
            return IS_CHOSEN;
        if (*status != MG_HOST_IN_USE)
            return IS_REFUSED;
    }
    return ARE_ALL_IN_USE;
}

/* The file is above 2, where what is printed goes, and stays open in the program that this process becomes. */
void wait_for_turn(const char *folder) {
    char path[PATH_MAX];
    int file, kept;
    if (snprintf(path, sizeof path, "%s/turn.lock", folder) >= (int)sizeof path)
        return;
    file = open(path, O_RDWR | O_CREAT | O_CLOEXEC, 0666);
    if (file < 0)
        file = open(path, O_RDONLY | O_CLOEXEC);
    if (file < 0)
        return;
    kept = fcntl(file, F_DUPFD, STDERR_FILENO + 1);
    close(file);
    while (kept >= 0 && flock(kept, LOCK_EX) != 0 && errno == EINTR)
        ;
}

int find_hosts(const char *folder, bool has[MG_HOSTS], int *disk) {
    struct mg_lock_view *locks = calloc(MG_LOCKS, sizeof *locks);
    struct mg_host *eye;
    size_t count = 0;
    int status = locks ? mg_open_to_look(folder, &eye, disk) : MG_NO_MEMORY;
    if (status == MG_OK) {
        status = mg_look(eye, NULL);
        if (status == MG_OK)
            status = mg_locks(eye, locks, MG_LOCKS, &count);
        mg_close(eye);
    }
    for (size_t i = 0; status == MG_OK && i < count && i < MG_LOCKS; i++)
        if (locks[i].host < MG_HOSTS && locks[i].client == FIRST_CLIENT + locks[i].host)
            has[locks[i].host] = true;
    free(locks);
    return status;
}
