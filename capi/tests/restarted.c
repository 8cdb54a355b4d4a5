/*
 * Four processes run a program again and again, and are killed at random. Never are two in their turn at once, no turn is lost, and
 * in the end no lock is left. The program is that of docs/LIBRARY.md with turn.h in it; it takes its host number from HOST.
 *
 *   restarted SECONDS HOSTS PROGRAM      in a folder with images and nothing else
 */
#include <mg_session.h>

#include <signal.h>
#include <stdio.h>
#include <sys/wait.h>
#include <time.h>

#include "turn.h"

enum { PROCESSES = 4 };

static int hosts, failed;
static const char *program;

static pid_t started(int process) {
    pid_t child = fork();
    if (child == 0) {
        char host[12];
        snprintf(host, sizeof host, "%d", process % hosts);
        setenv("HOST", host, 1);
        execl(program, program, (char *)NULL);
        _exit(99);
    }
    return child;
}

static void look_at_end(struct turns *turns, int process, int status) {
    if (WIFEXITED(status) && WEXITSTATUS(status) == 0)
        turns->ended[process]++;
    else if (!WIFSIGNALED(status) || WTERMSIG(status) != SIGKILL) {
        printf("a program ended with status %x\n", (unsigned)status);
        failed = 1;
    }
}

static long locks_left(void) {
    struct mg_host *eye;
    size_t count = 99;
    if (mg_open_to_look("images", &eye, NULL) != MG_OK || mg_look(eye, NULL) != MG_OK)
        return -1;
    (void)mg_locks(eye, NULL, 0, &count);
    mg_close(eye);
    return (long)count;
}

int main(int argc, char **argv) {
    pid_t children[PROCESSES];
    struct turns *turns;
    time_t end;
    int status, file;
    long kills = 0, ended = 0;
    if (argc != 4)
        return 2;
    end = time(NULL) + atoi(argv[1]);
    hosts = atoi(argv[2]);
    program = argv[3];
    file = open("turns.map", O_RDWR | O_CREAT | O_TRUNC, 0666);
    if (file < 0 || ftruncate(file, sizeof *turns) != 0)
        return 1;
    turns = turns_in("turns.map");
    for (int i = 0; i < PROCESSES; i++)
        children[i] = started(i);
    while (time(NULL) < end) {
        usleep(2000 + (useconds_t)rand() % 20000);
        for (int i = 0; i < PROCESSES; i++)
            if (waitpid(children[i], &status, WNOHANG) == children[i]) {
                look_at_end(turns, i, status);
                children[i] = started(i);
            }
        if (rand() % 3 == 0) {
            int victim = rand() % PROCESSES;
            kills += kill(children[victim], SIGKILL) == 0;
            waitpid(children[victim], &status, 0);
            look_at_end(turns, victim, status);
            children[victim] = started(victim);
        }
    }
    /* Each goes to its end, and once more, so that none is stuck behind a lock that was left. */
    for (int again = 0; again < 2; again++)
        for (int i = 0; i < PROCESSES; i++) {
            waitpid(children[i], &status, 0);
            look_at_end(turns, i, status);
            if (!again)
                children[i] = started(i);
        }
    for (int i = 0; i < PROCESSES; i++)
        ended += turns->ended[i];
    printf("%ld turns, %ld of them ended, %ld kills, %ld times two, %ld slots behind, %ld locks left\n", turns->counted, ended, kills, turns->two,
           turns->behind, locks_left());
    return failed || turns->two != 0 || turns->behind != 0 || ended == 0 || turns->counted < ended || turns->counted > ended + kills ||
           locks_left() != 0;
}
