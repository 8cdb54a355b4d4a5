/*
 * What endless.py times inside one process: an open host, or an open session.
 *
 *   rows many FOLDER COMMANDS     host 0 stays open and makes so many commands, all of client 1, which takes and lets go in turn. Prints the seconds and the
 *                                 kilobytes of memory that the process has after a tenth of them and at the end
 *   rows held FOLDER LOCKS        host 1: so many locks, each of a client of its own, with a name of its own, stay in the table
 *   rows turns FOLDER TURNS       a session of host 0 takes and gives so often. Prints microseconds: the median turn, the 99th of 100, the longest take; and how
 *                                 many epochs began
 */
#ifndef _DEFAULT_SOURCE
#define _DEFAULT_SOURCE
#endif
#include <mg_session.h>

#include <stdio.h>
#include <stdlib.h>
#include <string.h>
#include <time.h>
#include <unistd.h>

enum { CLIENT = 1, LOCK = 1, FIRST = 10 };

static double now(void) {
    struct timespec at;
    clock_gettime(CLOCK_MONOTONIC, &at);
    return (double)at.tv_sec * 1e6 + (double)at.tv_nsec / 1e3;
}

static void needs(const char *what, int status) {
    if (status != MG_OK) {
        fprintf(stderr, "rows: %s: %d %s\n", what, status, mg_strerror(status));
        exit(1);
    }
}

static long kilobytes(void) {
    long pages = 0, resident = 0;
    FILE *file = fopen("/proc/self/statm", "r");
    if (file == NULL || fscanf(file, "%ld %ld", &pages, &resident) != 2)
        exit(1);
    fclose(file);
    return resident * (sysconf(_SC_PAGESIZE) / 1024);
}

static void many(const char *folder, long commands) {
    struct mg_host *host;
    struct mg_client_view known[MG_CLIENTS];
    size_t count = 0;
    uint64_t first = 1, learned;
    double began;
    long early = 0;
    needs("mg_open", mg_open(folder, 0, &host, NULL));
    needs("mg_refresh", mg_refresh(host, &learned));
    needs("mg_clients", mg_clients(host, known, MG_CLIENTS, &count));
    for (size_t k = 0; k < count; k++)
        if (known[k].client == CLIENT)
            first = known[k].request + 1;
    began = now();
    for (long k = 0; k < commands; k++) {
        uint64_t request = first + (uint64_t)k;
        if (k == commands / 10)
            early = kilobytes();
        if (request % 2 == 1)
            needs("mg_enqueue", mg_enqueue(host, CLIENT, request, LOCK, MG_EX, "turn", 0, NULL));
        else
            needs("mg_release", mg_release(host, CLIENT, request, LOCK, NULL));
    }
    printf("%.3f %ld %ld\n", (now() - began) / 1e6, early, kilobytes());
    mg_close(host);
}

static void held(const char *folder, unsigned locks) {
    struct mg_host *host;
    char name[MG_NAME_LENGTH + 1];
    needs("mg_open", mg_open(folder, 1, &host, NULL));
    for (unsigned k = 0; k < locks; k++) {
        snprintf(name, sizeof name, "held%u", k);
        needs("mg_enqueue", mg_enqueue(host, FIRST + k, 1, FIRST + k, MG_EX, name, 0, NULL));
    }
    mg_close(host);
}

static int by_size(const void *left, const void *right) {
    double a = *(const double *)left, b = *(const double *)right;
    return (a > b) - (a < b);
}

static void turns(const char *folder, long many) {
    struct mg_session *session;
    struct mg_held db;
    uint64_t first = 0, last = 0;
    double *took = malloc((size_t)many * sizeof *took), longest = 0;
    if (took == NULL)
        exit(1);
    needs("mg_begin", mg_begin(folder, 0, 0, &session, NULL));
    needs("mg_take", mg_take(session, "db", MG_EX, -1, &db));
    first = (uint64_t)db.slot;
    needs("mg_give", mg_give(session, db.lock, NULL));
    for (long k = 0; k < many; k++) {
        double began = now(), taken;
        needs("mg_take", mg_take(session, "db", MG_EX, -1, &db));
        taken = now() - began;
        needs("mg_give", mg_give(session, db.lock, NULL));
        took[k] = now() - began;
        longest = taken > longest ? taken : longest;
        last = (uint64_t)db.slot;
    }
    mg_end(session);
    qsort(took, (size_t)many, sizeof *took, by_size);
    printf("%.1f %.1f %.1f %.1f %lu\n", took[many / 2], took[many * 99 / 100], took[many - 1], longest, (unsigned long)(last / MG_EPOCH_SLOTS - first / MG_EPOCH_SLOTS));
    free(took);
}

int main(int argc, char **argv) {
    long count = argc == 4 ? atol(argv[3]) : 0;
    if (count < 1)
        return 2;
    if (strcmp(argv[1], "many") == 0)
        many(argv[2], count);
    else if (strcmp(argv[1], "held") == 0)
        held(argv[2], (unsigned)count);
    else if (strcmp(argv[1], "turns") == 0)
        turns(argv[2], count);
    else
        return 2;
    return 0;
}
