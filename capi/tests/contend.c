/*
 * Several processes, each a host of its own, take turns at one lock and count under it. Prints how much was counted, and by how many
 * commands. A log has 4096 slots, so what is more than 4096 commands goes to further folders, one after another.
 *
 *   contend FOLDER HOSTS ROUNDS [FOLDERS]      an empty folder; a round is two commands of each host
 */
#include <midgegalena.h>

#include <fcntl.h>
#include <stdio.h>
#include <stdlib.h>
#include <sys/stat.h>
#include <sys/wait.h>
#include <unistd.h>

/* Until it is not outrun, with the same request number. */
#define UNTIL_DONE(call)                                                                                               \
    do {                                                                                                               \
        status = (call);                                                                                               \
        outrun += status == MG_OUTRUN;                                                                                 \
    } while (status == MG_OUTRUN);                                                                                     \
    if (status != MG_OK) {                                                                                             \
        fprintf(stderr, "host %u: %s: %d %s\n", number, #call, status, mg_name(status));                               \
        return 1;                                                                                                      \
    }

/* Counts under the lock, so often. */
static int work(const char *folder, unsigned number, int rounds, const char *counter) {
    struct mg_host *host;
    int status, round, descriptor;
    uint64_t request = 1;
    long outrun = 0;
    UNTIL_DONE(mg_open(folder, number, &host, NULL));
    for (round = 0; round < rounds; round++) {
        long counted = 0;
        UNTIL_DONE(mg_enqueue(host, number, request, number + 1, MG_EX, "counter", 0, NULL));
        UNTIL_DONE(mg_wait(host, number + 1, 20, -1, NULL));
        descriptor = open(counter, O_RDWR);
        if (descriptor < 0 || read(descriptor, &counted, sizeof counted) != (ssize_t)sizeof counted)
            return 1;
        counted++;
        if (pwrite(descriptor, &counted, sizeof counted, 0) != (ssize_t)sizeof counted)
            return 1;
        close(descriptor);
        UNTIL_DONE(mg_release(host, number, request + 1, number + 1, NULL));
        request += 2;
    }
    mg_close(host);
    if (outrun > 0)
        fprintf(stderr, "host %u: %ld calls were outrun\n", number, outrun);
    return 0;
}

/* Lets the hosts work on a new folder, and adds the commands that its log has then. */
static int contend(const char *folder, int hosts, int rounds, const char *counter, long *commands) {
    struct mg_host *host;
    struct mg_host_view facts;
    int status, wrong = 0;
    if (mg_format(folder, 3, 4096, 7, NULL) != MG_OK)
        return 1;
    for (int i = 0; i < hosts; i++)
        if (fork() == 0)
            _exit(work(folder, (unsigned)i, rounds, counter));
    while (wait(&status) > 0)
        wrong |= status != 0;
    if (mg_open(folder, 0, &host, NULL) != MG_OK)
        return 1;
    wrong |= mg_refresh(host, NULL) != MG_OK || mg_host_facts(host, &facts) != MG_OK;
    mg_close(host);
    if (!wrong)
        *commands += (long)facts.learned;
    return wrong;
}

int main(int argc, char **argv) {
    char counter[4096], folder[4096];
    int descriptor, hosts, rounds, folders, wrong = 0;
    long counted = 0, commands = 0, turns;
    if (argc != 4 && argc != 5)
        return 2;
    hosts = atoi(argv[2]);
    rounds = atoi(argv[3]);
    folders = argc == 5 ? atoi(argv[4]) : 1;
    turns = (long)hosts * rounds * folders;
    snprintf(counter, sizeof counter, "%s/counter", argv[1]);
    descriptor = open(counter, O_RDWR | O_CREAT, 0666);
    if (descriptor < 0 || write(descriptor, &counted, sizeof counted) != (ssize_t)sizeof counted)
        return 1;
    for (int i = 0; i < folders && !wrong; i++) {
        snprintf(folder, sizeof folder, "%s/%d", argv[1], i);
        wrong = mkdir(folder, 0777) != 0 || contend(folder, hosts, rounds, counter, &commands);
    }
    if (pread(descriptor, &counted, sizeof counted, 0) != (ssize_t)sizeof counted)
        return 1;
    printf("counted %ld of %ld, commands: %ld, folders: %d\n", counted, turns, commands, folders);
    return wrong || counted != turns;
}
