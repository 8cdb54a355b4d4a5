/* What the program of docs/LIBRARY.md does under its lock when restarted.c tries it: it counts, and sees whether it is alone. */
#ifndef TURN_H
#define TURN_H

#include <fcntl.h>
#include <stdint.h>
#include <stdlib.h>
#include <sys/file.h>
#include <sys/mman.h>
#include <unistd.h>

#define HOST ((unsigned)atoi(getenv("HOST")))

struct turns {
    volatile long counted;   /* by reading and writing, under the lock alone */
    volatile long ended[16]; /* of each process, by itself */
    volatile long two;       /* times that somebody else was there */
    volatile int64_t slot;   /* of the last holder */
    volatile long behind;    /* times that a holder had a lower slot than the one before it */
};

static inline struct turns *turns_in(const char *path) {
    int file = open(path, O_RDWR);
    void *at = file < 0 ? MAP_FAILED : mmap(NULL, sizeof(struct turns), PROT_READ | PROT_WRITE, MAP_SHARED, file, 0);
    if (at == MAP_FAILED)
        abort();
    return at;
}

static inline void turn(int64_t slot) {
    struct turns *turns = turns_in("turns.map");
    int guard = open("guard", O_RDWR | O_CREAT | O_CLOEXEC, 0666);
    long counted;
    if (flock(guard, LOCK_EX | LOCK_NB) != 0)
        turns->two++;
    if (slot < turns->slot)
        turns->behind++;
    turns->slot = slot;
    counted = turns->counted;
    usleep((useconds_t)rand() % 2000);
    turns->counted = counted + 1;
    close(guard);
}

#endif
