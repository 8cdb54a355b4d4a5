/*
 * What tests over logs without an end share: images with fewer slots an epoch than those of `dlm format`, by docs/FORMAT.md. With -DSHARED_DEVICES they are for
 * several machines.
 */
#ifndef ENDLESS_H
#define ENDLESS_H

#include <fcntl.h>
#include <stdint.h>
#include <stdio.h>
#include <unistd.h>

enum { SLOTS = 320, CLUSTER = 7, IMAGE = 2 * (8192 + 4096 * SLOTS) + 4096 };

static inline void path_of(char *into, size_t size, const char *folder, int disk, const char *end) { snprintf(into, size, "%s/disk%d.img%s", folder, disk, end); }

#ifdef SHARED_DEVICES
#include <midgegalena.h>

static inline int lay_out_as(const char *folder, int disks, int cluster) {
    return mg_format_shared(folder, (unsigned)disks, SLOTS, (uint64_t)cluster, MG_HOSTS, 512, MG_FILES | MG_NO_DSYNC | MG_ENDLESS, NULL) == MG_OK;
}
#else
/* Whether the images of a set of this cluster number below 256 were made in a folder that has none. */
static inline int lay_out_as(const char *folder, int disks, int cluster) {
    int is_made = 1;
    for (int k = 0; k < disks && is_made; k++) {
        const uint8_t header[16] = {0xA5, 4, (uint8_t)k, (uint8_t)disks, 0, 0, SLOTS / 256, SLOTS % 256, 0, 0, 0, 0, 0, 0, 0, (uint8_t)cluster};
        char path[500];
        int file;
        path_of(path, sizeof path, folder, k, "");
        file = open(path, O_WRONLY | O_CREAT | O_EXCL, 0666);
        is_made = file >= 0 && ftruncate(file, IMAGE) == 0 && pwrite(file, header, sizeof header, 0) == (ssize_t)sizeof header;
        if (file >= 0)
            close(file);
    }
    return is_made;
}

#endif

static inline int lay_out(const char *folder, int disks) { return lay_out_as(folder, disks, CLUSTER); }

#endif
