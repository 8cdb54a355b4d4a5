/*
 * Two hosts want one lock. The one that has it dies. The other sees so, takes its locks away, and goes on.
 *
 *   failover FOLDER      an empty folder
 *
 * Who may say that a host is dead? On one machine whoever opens the folder under its number: no process has that then, and
 * none gets it. In a cluster it is whoever can stop a machine for good: nobody in this library can, and a host that lives on
 * after its locks were purged does harm.
 */
#include <midgegalena.h>

#include <signal.h>
#include <stdio.h>
#include <stdlib.h>
#include <sys/wait.h>
#include <unistd.h>

enum { FIRST = 0, SECOND = 1 };

/* A host's client has its host's number here, and takes one lock. */
enum { LOCK_OF_FIRST = 1, LOCK_OF_SECOND = 2 };

static void check(const char *what, int status) {
    if (status != MG_OK) {
        printf("%s: %d %s\n", what, status, mg_strerror(status));
        exit(1);
    }
}

/* Takes the lock, tells so, and works until it is killed. */
static void work_as_first(const char *folder, int told) {
    struct mg_host *host;
    struct mg_answer answer;
    check("open", mg_open(folder, FIRST, &host, NULL));
    check("enqueue", mg_enqueue(host, FIRST, 1, LOCK_OF_FIRST, MG_EX, "db", 0, &answer));
    if (answer.reply != MG_GRANTED || write(told, "", 1) != 1)
        exit(1);
    for (;;)
        pause();
}

int main(int argc, char **argv) {
    struct mg_host *host, *dead;
    struct mg_answer answer;
    char text[MG_TEXT_SIZE];
    int between[2], status, mode;
    pid_t first;
    char byte;
    if (argc != 2)
        return 2;
    setvbuf(stdout, NULL, _IONBF, 0);
    check("format", mg_format(argv[1], 3, 64, 7, NULL));

    /* A child has a handle of its own: none is handed over a fork. */
    if (pipe(between) != 0 || (first = fork()) < 0)
        return 1;
    if (first == 0)
        work_as_first(argv[1], between[1]);
    if (read(between[0], &byte, 1) != 1)
        return 1;
    puts("host 0: works");

    check("open", mg_open(argv[1], SECOND, &host, NULL));
    check("enqueue", mg_enqueue(host, SECOND, 1, LOCK_OF_SECOND, MG_EX, "db", 0, &answer));
    printf("host 1: %s\n", answer.reply == MG_QUEUED ? "waits" : "need not wait");
    status = mg_wait(host, LOCK_OF_SECOND, 20, 100, NULL);
    printf("host 1: %s\n", mg_strerror(status));

    /* Host 0 dies, and its lock stays: it is in the log. */
    kill(first, SIGKILL);
    if (waitpid(first, &status, 0) != first || !WIFSIGNALED(status))
        return 1;
    puts("host 0: dead");

    /* Whoever has the dead host's number knows that no process works under it. The request number goes up with each command of a client. */
    check("open as host 0", mg_open(argv[1], FIRST, &dead, NULL));
    check("purge", mg_purge(host, SECOND, 2, FIRST, &answer));
    mg_close(dead);
    printf("host 1: took %u lock away\n", (unsigned)answer.purged);
    check("wait", mg_wait(host, LOCK_OF_SECOND, 20, 1000, &mode));
    printf("host 1: holds db in mode %d\n", mode);
    check("text", mg_text(host, text, sizeof text, NULL));
    printf("%s", text);
    check("release", mg_release(host, SECOND, 3, LOCK_OF_SECOND, NULL));
    mg_close(host);
    return 0;
}
