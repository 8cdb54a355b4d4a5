/*
 * How long a disk takes to answer. What the machine has in its cache would tell nothing of the disk, so the read passes by it (O_DIRECT).
 */
#ifndef _GNU_SOURCE
#define _GNU_SOURCE
#endif
#include "probe.h"

#include <errno.h>
#include <fcntl.h>
#include <limits.h>
#include <stdio.h>
#include <stdlib.h>
#include <sys/stat.h>
#include <time.h>
#include <unistd.h>

enum { LENGTH = 4096 };

static int64_t microseconds(void) {
    struct timespec now = {0, 0};
    (void)clock_gettime(CLOCK_MONOTONIC, &now);
    return (int64_t)now.tv_sec * 1000000 + now.tv_nsec / 1000;
}

static int64_t time_read(int file, void *into) {
    int64_t from = microseconds();
    ssize_t length;
    do
        length = pread(file, into, LENGTH, 0);
    while (length < 0 && errno == EINTR);
    return length < 0 ? -1 : microseconds() - from;
}

int64_t probe(const char *folder, unsigned disk) {
    char path[PATH_MAX];
    struct stat facts;
    void *into;
    int64_t took = -1;
    int file;
    if (snprintf(path, sizeof path, "%s/disk%u.img", folder, disk) >= (int)sizeof path || posix_memalign(&into, LENGTH, LENGTH) != 0)
        return -1;
    /* What is neither a file nor a block device might have one wait for ever. */
    file = open(path, O_RDONLY | O_DIRECT | O_CLOEXEC | O_NOCTTY | O_NONBLOCK);
    if (file >= 0 && fstat(file, &facts) == 0 && (S_ISREG(facts.st_mode) || S_ISBLK(facts.st_mode)))
        took = time_read(file, into);
    if (file >= 0)
        close(file);
    free(into);
    return took;
}
