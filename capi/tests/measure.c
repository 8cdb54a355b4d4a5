/*
 * Times a command over an open host, and a look that finds nothing, against the bare system calls of the same device calls on files of
 * the same size. Both take turns, 100 of a kind in a batch. Prints the least microseconds of all batches, and their quotient.
 *
 *   measure FOLDER BATCHES      an empty folder, best in memory; up to 39 batches
 */
#ifndef _DEFAULT_SOURCE
#define _DEFAULT_SOURCE
#endif
#ifndef _POSIX_C_SOURCE
#define _POSIX_C_SOURCE 200809L
#endif
#include <midgegalena.h>

#include <fcntl.h>
#include <stdio.h>
#include <stdlib.h>
#include <time.h>
#include <unistd.h>

enum { DISKS = 3, SLOTS = 4096, ROWS = 8192, ROW = 4096, COPY = 128 };

static int files[DISKS];
static char row[ROW];

static double now(void) {
    struct timespec at;
    clock_gettime(CLOCK_MONOTONIC, &at);
    return (double)at.tv_sec * 1e6 + (double)at.tv_nsec / 1e3;
}

static void needs(int well) {
    if (!well) {
        puts("a call failed");
        exit(1);
    }
}

static void bare_sync(int file) { needs(fdatasync(file) == 0); }

/* A row is read until two reads agree. */
static void bare_read(int file, off_t at) {
    needs(pread(file, row, ROW, at) == ROW);
    needs(pread(file, row, ROW, at) == ROW);
}

/* The gate is closed where it stands open, and the first time it does not: then that write has no bytes, and is no call. */
static void bare_write(int file, off_t at, int closes) {
    if (closes)
        needs(pwrite(file, row, 1, at) == 1);
    bare_sync(file);
    needs(pwrite(file, row + 1, COPY - 1, at + 1) == COPY - 1);
    bare_sync(file);
    needs(pwrite(file, row, 1, at) == 1);
    bare_sync(file);
}

/* The device calls of a submission and of the marking after it: 17 and 9 a disk. */
static void bare_command(int slot) {
    off_t at = ROWS + (off_t)slot * ROW;
    for (int k = 0; k < DISKS; k++) {
        bare_sync(files[k]);
        bare_read(files[k], at);
    }
    for (int k = 0; k < DISKS; k++) {
        bare_write(files[k], at, 0);
        bare_read(files[k], at);
    }
    for (int k = 0; k < DISKS; k++) {
        bare_write(files[k], at + COPY, 0);
        bare_read(files[k], at);
    }
    for (int k = 0; k < DISKS; k++) {
        bare_sync(files[k]);
        bare_read(files[k], at);
        bare_write(files[k], at, 1);
    }
}

/* More than half of the disks show that no mark tells the slot. */
static void bare_look(int slot) {
    for (int k = 0; 2 * k <= DISKS; k++)
        bare_read(files[k], ROWS + (off_t)slot * ROW);
}

/* ---- batches: of the library and of bare calls in turn ---- */

/* After each batch of commands there are ten of looks: these take no slots. */
enum { BATCH = 100, MOST_BATCHES = SLOTS / BATCH - 1, LOOKS = 10, MOST_TIMES = LOOKS * MOST_BATCHES };

struct times {
    double library[MOST_TIMES];
    double bare[MOST_TIMES];
};

static void commands(struct mg_host *host, int batch, struct times *times) {
    double begun = now();
    for (int n = batch * BATCH; n < (batch + 1) * BATCH; n++) {
        uint64_t request = (uint64_t)n + 1;
        int status = n % 2 == 0 ? mg_enqueue(host, 1, request, 1, MG_EX, "db", 0, NULL) : mg_release(host, 1, request, 1, NULL);
        needs(status == MG_OK);
    }
    times->library[batch] = (now() - begun) / BATCH;
    begun = now();
    for (int n = batch * BATCH; n < (batch + 1) * BATCH; n++)
        bare_command(n);
    times->bare[batch] = (now() - begun) / BATCH;
}

static void looks(struct mg_host *host, int slot, int batch, struct times *times) {
    double begun = now();
    for (int i = 0; i < BATCH; i++)
        needs(mg_look(host, NULL) == MG_OK);
    times->library[batch] = (now() - begun) / BATCH;
    begun = now();
    for (int i = 0; i < BATCH; i++)
        bare_look(slot);
    times->bare[batch] = (now() - begun) / BATCH;
}

static int in_order(const void *a, const void *b) {
    double first = *(const double *)a, second = *(const double *)b;
    return (first > second) - (first < second);
}

static void tell(const char *what, struct times *times, int batches) {
    double quotients[MOST_TIMES];
    for (int i = 0; i < batches; i++)
        quotients[i] = times->library[i] / times->bare[i];
    qsort(quotients, (size_t)batches, sizeof quotients[0], in_order);
    qsort(times->library, (size_t)batches, sizeof times->library[0], in_order);
    qsort(times->bare, (size_t)batches, sizeof times->bare[0], in_order);
    printf("%s: %.2f us, its system calls %.2f us, quotient %.2f; of the batches the middle quotient %.2f\n", what, times->library[0],
           times->bare[0], times->library[0] / times->bare[0], quotients[batches / 2]);
}

int main(int argc, char **argv) {
    static struct times of_commands, of_looks;
    struct mg_host *host;
    char path[4096];
    int batches;
    if (argc != 3)
        return 2;
    batches = atoi(argv[2]);
    if (batches < 1 || batches > MOST_BATCHES)
        return 2;
    needs(mg_format(argv[1], DISKS, SLOTS, 7, NULL) == MG_OK && mg_open(argv[1], 0, &host, NULL) == MG_OK);
    for (int k = 0; k < DISKS; k++) {
        static char zeros[4096];
        snprintf(path, sizeof path, "%s/bare%d", argv[1], k);
        files[k] = open(path, O_RDWR | O_CREAT, 0666);
        needs(files[k] >= 0);
        for (int at = 0; at < ROWS + SLOTS * ROW; at += (int)sizeof zeros)
            needs(pwrite(files[k], zeros, sizeof zeros, at) == (ssize_t)sizeof zeros);
    }
    for (int batch = 0; batch < batches; batch++) {
        commands(host, batch, &of_commands);
        for (int i = 0; i < LOOKS; i++)
            looks(host, (batch + 1) * BATCH, batch * LOOKS + i, &of_looks);
    }
    tell("a command", &of_commands, batches);
    tell("a look that finds nothing", &of_looks, batches * LOOKS);
    mg_close(host);
    return 0;
}
