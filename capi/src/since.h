/*
 * since.h: how many commands ago a lock came to be as it is, by a look that is followed from command to command (mg_look_each).
 */
#ifndef MG_SINCE_H
#define MG_SINCE_H

#include <midgegalena.h>

#include <stdbool.h>
#include <stddef.h>
#include <stdint.h>

/* By which command of the log. */
struct since {
    bool is_known;
    bool is_earlier; /* or by one before it: what came over from an epoch before was so already when this epoch's table was first seen */
    uint64_t slot;
};

/* Locks as mg_locks shows them, and of each since when it has its mode, and wants another. All zeros have followed nothing. */
struct followed {
    bool has_table;
    uint64_t learned;
    size_t count;
    struct mg_lock_view locks[MG_LOCKS];
    struct since held[MG_LOCKS], wanted[MG_LOCKS];
    struct since asked[MG_HOSTS]; /* of each host number: a lock last came through it */
    uint16_t places[1 << 16];     /* of each lock number one more than its place, 0: it has none */
};

/* For mg_look_each: `followed` is a struct followed. */
void follow(struct mg_host *host, void *followed);

/* How many commands have come since: 0 where the last one that is known did it. */
uint64_t slots_since(const struct followed *followed, const struct since *since);

#endif
