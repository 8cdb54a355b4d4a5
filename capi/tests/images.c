/*
 * What becomes of a folder whose images are missing, short, unformatted, of another folder or layout, or fail. Prints nothing but that all is
 * as it should be.
 *
 *   images FOLDER      an empty folder
 */
#include <midgegalena.h>

#include "expect.h"

#include <fcntl.h>
#include <stdio.h>
#include <string.h>
#include <sys/stat.h>
#include <unistd.h>

static char path[4096];
static char other[4096];

static const char *image(const char *folder, int disk) {
    snprintf(path, sizeof path, "%s/disk%d.img", folder, disk);
    return path;
}

/* What opening tells, and which image is at fault. */
static int opens(const char *folder, int *disk) {
    struct mg_host *host;
    int status = mg_open(folder, 5, &host, disk);
    mg_close(host);
    return status;
}

/* What is told of a disk. */
static int tells(struct mg_host *host, unsigned disk) {
    struct mg_disk_view views[MG_DISKS];
    size_t count = 0;
    IS(mg_disks(host, views, MG_DISKS, &count), MG_OK);
    IS(count, 3);
    IS(views[disk].disk, disk);
    return views[disk].status;
}

static int enqueues(struct mg_host *host, int request) {
    return mg_enqueue(host, 1, (uint64_t)request, (unsigned)request, MG_NL, "a", 0, NULL);
}

int main(int argc, char **argv) {
    struct mg_host *host;
    char inner[4096];
    int disk, file;
    if (argc < 2)
        return 2;
    snprintf(inner, sizeof inner, "%s/other", argv[1]);
    IS(mkdir(inner, 0777), 0);
    IS(mg_format(argv[1], 3, 16, 7, &disk), MG_OK);
    IS(mg_format(inner, 3, 16, 8, &disk), MG_OK);

    /* One image of three is missing: the others are a majority. With two missing there is none. */
    IS(rename(image(argv[1], 0), strcat(strcpy(other, argv[1]), "/kept")), 0);
    IS(mg_open(argv[1], 0, &host, &disk), MG_OK);
    IS(enqueues(host, 1), MG_OK);
    IS(mg_mark(host, NULL), MG_OK);
    IS(tells(host, 0), MG_UNREADABLE);
    IS(tells(host, 1), MG_OK);
    IS(tells(host, 2), MG_OK);
    IS(mg_disks(host, NULL, 0, NULL), MG_OK);
    mg_close(host);
    IS(rename(image(argv[1], 1), strcat(strcpy(other, argv[1]), "/kept1")), 0);
    IS(mg_open(argv[1], 0, &host, &disk), MG_OK);
    IS(enqueues(host, 2), MG_NO_MAJORITY);
    IS(mg_refresh(host, NULL), MG_NO_MAJORITY);
    IS(mg_look(host, NULL), MG_NO_MAJORITY);
    IS(mg_wait(host, 1, 1, 10, NULL), MG_NO_MAJORITY);
    IS(tells(host, 1), MG_UNREADABLE);
    IS(tells(host, 2), MG_OK);
    mg_close(host);

    /* They are back: what was acknowledged is there. */
    IS(rename(other, image(argv[1], 1)), 0);
    IS(rename(strcat(strcpy(other, argv[1]), "/kept"), image(argv[1], 0)), 0);
    IS(mg_open(argv[1], 0, &host, &disk), MG_OK);
    IS(mg_refresh(host, NULL), MG_OK);
    IS(mg_lock(host, 1, &(struct mg_lock_view){0, 0, 0, 0, 0, ""}), MG_OK);
    mg_close(host);

    /* An image of another folder is told. */
    IS(rename(image(argv[1], 2), strcat(strcpy(other, argv[1]), "/kept")), 0);
    IS(link(image(inner, 2), strcat(strcpy(other, argv[1]), "/disk2.img")), 0);
    IS(opens(argv[1], &disk), MG_WRONG_HEADER);
    IS(disk, 2);

    /* A short one, and one with a closed gate, are not used; the others are. */
    file = open(image(argv[1], 2), O_RDWR);
    IS(ftruncate(file, 100), 0);
    IS(opens(argv[1], &disk), MG_OK);
    IS(disk, -1);
    close(file);
    file = open(image(argv[1], 1), O_RDWR);
    IS(pwrite(file, "", 1, 0), 1);
    close(file);
    IS(mg_open(argv[1], 0, &host, &disk), MG_OK);
    IS(enqueues(host, 3), MG_NO_MAJORITY);
    IS(tells(host, 0), MG_OK);
    IS(tells(host, 1), MG_NOT_FORMATTED);
    IS(tells(host, 2), MG_WRONG_HEADER);
    mg_close(host);

    /* No image is right: that is told of the first. */
    file = open(image(argv[1], 0), O_RDWR);
    IS(pwrite(file, "", 1, 0), 1);
    IS(opens(argv[1], &disk), MG_NOT_FORMATTED);
    IS(disk, 0);
    IS(ftruncate(file, 100), 0);
    IS(opens(argv[1], &disk), MG_WRONG_HEADER);
    IS(disk, 0);

    /* The first is right by the layout before this one: version 1, here with 16 slots, and 1,024 bytes a row. */
    IS(ftruncate(file, 0), 0);
    IS(ftruncate(file, 2048 + 16 * 1024), 0);
    IS(pwrite(file, "\xa5\1\0\3\0\0\0\x10\0\0\0\0\0\0\0\7", 16, 0), 16);
    IS(opens(argv[1], &disk), MG_OLD_LAYOUT);
    IS(disk, 0);
    IS(ftruncate(file, 2048 + 15 * 1024), 0);
    IS(opens(argv[1], &disk), MG_WRONG_HEADER);
    IS(disk, 0);
    close(file);

    /* A call fails on an image that was opened. */
    IS(mg_open(inner, 0, &host, &disk), MG_OK);
    IS(tells(host, 1), MG_OK);
    file = open(image(inner, 1), O_RDWR);
    IS(ftruncate(file, 4096), 0);
    IS(enqueues(host, 1), MG_NO_MAJORITY);
    IS(tells(host, 0), MG_OK);
    IS(tells(host, 1), MG_UNREADABLE);
    mg_close(host);
    IS(ftruncate(file, 8192 + 16 * 4096), 0);
    close(file);

    /* The lock's file cannot be made: its place is taken by a folder without rights of its own kind. */
    IS(mkdir(strcat(strcpy(other, inner), "/host5.lock"), 0777), 0);
    IS(opens(inner, &disk), MG_OK); /* a folder can be locked, too */
    IS(rmdir(other), 0);
    IS(symlink("nowhere/at/all", other), 0);
    IS(opens(inner, &disk), MG_NO_LOCK);
    if (failures == 0)
        puts("images: as they should be");
    return failures != 0;
}
