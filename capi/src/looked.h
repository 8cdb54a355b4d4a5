/*
 * looked.h: what mg-lock --status has looked at, and what is wrong with it.
 */
#ifndef MG_LOOKED_H
#define MG_LOOKED_H

#include "since.h"
#include "status.h"

#include <midgegalena.h>

#include <stdbool.h>
#include <stddef.h>
#include <stdint.h>

/* Whether somebody on this machine has a file locked. */
enum held { IS_HELD, IS_FREE, IS_MISSING, NOT_KNOWN };

/* A file that somebody has locked. */
struct locked {
    unsigned major_of, minor_of;
    unsigned long long inode;
};

/* What is shown. */
struct status {
    const char *folder; /* as the caller names it */
    int refusal;        /* of the look */
    struct mg_host_view facts;
    bool is_in_epoch;
    uint64_t epoch, taken; /* of a log without an end: which one, and how many of its slots are used */
    struct mg_disk_view disks[MG_DISKS];
    struct mg_image_view images[MG_DISKS];
    int64_t took[MG_DISKS]; /* to read of a disk, in microseconds; -1: not known */
    size_t answering;
    size_t writable; /* of those that answer */
    enum held hosts[MG_HOSTS];
    bool knows_hosts;             /* of each number whether it is in use */
    char machines[MG_HOSTS][33]; /* of devices that several machines use: which one has the number, by its name; "": none */
    struct mg_lock_view locks[MG_LOCKS];
    enum held signs[MG_LOCKS];
    size_t count;
    struct followed *followed; /* the same locks, and since when they are so */
    size_t clients;            /* that the table knows */
    struct locked *locked;
    size_t locked_count;
    bool is_known;
};

/* Nothing is known yet of the folder, as the caller names it. NULL: no memory. */
struct status *begin_status(const char *folder);
void end_status(struct status *status);

/* Looks at a folder, by a path without links. As show_status; where the folder could not be opened nothing is known of its disks. */
int look_at_all(struct status *status, const char *folder, int *disk);

/* Whether a read of the disk took half a second or more. */
bool is_slow(const struct status *status, size_t disk);

/* Since when the lock at a place has its mode, or wants another. */
const struct since *since_of(const struct status *status, size_t place, bool waits);

/* How many of those that answer, and may be written, are more than a majority. */
size_t spare(const struct status *status);

/* The first disk in use that is of a kind; NULL where none is. */
const struct mg_image_view *first_of(const struct status *status, int kind);

/* What may be wrong, the worst first. A refused folder has an exit status of its own. */
enum { WRONGS = 8 };
struct wrong {
    const char *name, *sentence;
    bool (*is_so)(const struct status *status);
    enum health health;
};
extern const struct wrong WRONG[WRONGS];

/* The worst of what is wrong. */
enum health health_of(const struct status *status);

#endif
