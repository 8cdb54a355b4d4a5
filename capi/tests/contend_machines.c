/*
 * Several processes, each a host that stays open, on the folders of several machines in turn, take turns at one lock and count under it, in a file that is
 * no part of the folders. Prints how often they were inside, with whom, and how many commands the log has; the status is 1 where that is not right.
 *
 *   contend_machines COUNTER HOSTS ROUNDS FOLDER..      folders that lead to the same devices, formatted; a round is two commands of each host
 */
#ifndef _GNU_SOURCE
#define _GNU_SOURCE
#endif
#include <midgegalena.h>

#include <fcntl.h>
#include <stdio.h>
#include <stdlib.h>
#include <sys/file.h>
#include <sys/wait.h>
#include <unistd.h>

/* Until it is not outrun, with the same request number. */
#define UNTIL_DONE(call)                                                                                               \
    do                                                                                                                 \
        status = (call);                                                                                               \
    while (status == MG_OUTRUN);                                                                                       \
    if (status != MG_OK) {                                                                                             \
        fprintf(stderr, "host %u: %s: %d %s\n", number, #call, status, mg_name(status));                               \
        return -1;                                                                                                     \
    }

/* Counts under the lock, so often. How often another was there, or below 0. */
static int work(const char *folder, unsigned number, int rounds, const char *counter) {
    struct mg_host *host;
    int status, together = 0;
    uint64_t request = 1;
    UNTIL_DONE(mg_open(folder, number, &host, NULL));
    for (int round = 0; round < rounds; round++, request += 2) {
        long counted = 0;
        int file;
        UNTIL_DONE(mg_enqueue(host, number, request, number + 1, MG_EX, "counter", 0, NULL));
        UNTIL_DONE(mg_wait(host, number + 1, 20, -1, NULL));
        file = open(counter, O_RDWR);
        together += file < 0 || flock(file, LOCK_EX | LOCK_NB) != 0;
        usleep(300);
        if (file < 0 || read(file, &counted, sizeof counted) != (ssize_t)sizeof counted)
            return -1;
        counted++;
        if (pwrite(file, &counted, sizeof counted, 0) != (ssize_t)sizeof counted)
            return -1;
        close(file);
        UNTIL_DONE(mg_release(host, number, request + 1, number + 1, NULL));
    }
    mg_close(host);
    return together < 100 ? together : 100;
}

int main(int argc, char **argv) {
    struct mg_host *host;
    struct mg_host_view facts = {0, 0, 0, 0, 0, 0};
    long counted = 0, wanted;
    int hosts, rounds, machines = argc - 4, status, together = 0, wrong = 0, file;
    if (argc < 5)
        return 2;
    hosts = atoi(argv[2]);
    rounds = atoi(argv[3]);
    wanted = (long)hosts * rounds;
    file = open(argv[1], O_RDWR | O_CREAT | O_TRUNC, 0666);
    if (file < 0 || write(file, &counted, sizeof counted) != (ssize_t)sizeof counted)
        return 1;
    for (int i = 0; i < hosts; i++)
        if (fork() == 0)
            _exit(work(argv[4 + i % machines], (unsigned)i, rounds, argv[1]));
    while (wait(&status) > 0) {
        wrong |= !WIFEXITED(status) || WEXITSTATUS(status) == 255;
        together += WIFEXITED(status) ? WEXITSTATUS(status) : 0;
    }
    status = mg_open(argv[4], 0, &host, NULL);
    if (status == MG_OK) {
        do
            status = mg_refresh(host, NULL);
        while (status == MG_OUTRUN);
        wrong |= mg_host_facts(host, &facts) != MG_OK;
        mg_close(host);
    }
    wrong |= status != MG_OK || pread(file, &counted, sizeof counted, 0) != (ssize_t)sizeof counted;
    wrong |= together > 0 || counted != wanted || facts.learned != 2 * (uint64_t)wanted;
    printf("%d hosts on %d machines: counted %ld of %ld, %d times with another, %lu of %ld commands in the log\n", hosts, machines, counted, wanted, together,
           (unsigned long)facts.learned, 2 * wanted);
    return wrong;
}
