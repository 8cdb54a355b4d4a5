/*
 * mg_format by the words of dlm format, with what dlm prints. All other words are for the program that the variable DLM names. So tests of dlm try mg_format:
 * tests/power_loss.py --format --program.
 *
 *   DLM=PROGRAM as_dlm WORD..
 */
#define _POSIX_C_SOURCE 200809L
#include <midgegalena.h>

#include <stdio.h>
#include <stdlib.h>
#include <string.h>
#include <unistd.h>

/* By one call of write, which tests/shim/calls.c writes down. */
static int say(int file, const char *text) { return write(file, text, strlen(text)) == (ssize_t)strlen(text) ? 0 : 1; }

int main(int argc, char **argv) {
    char text[100];
    int disk, status;
    if (argc != 6 || strcmp(argv[1], "format") != 0) {
        argv[0] = getenv("DLM");
        if (argv[0])
            execv(argv[0], argv);
        return 127;
    }
    status = mg_format(argv[2], (unsigned)atoi(argv[3]), (unsigned)atoi(argv[4]), strtoull(argv[5], NULL, 10), &disk);
    if (status == MG_OK) {
        snprintf(text, sizeof text, "formatted %s disks, %s slots\n", argv[3], argv[4]);
        return say(STDOUT_FILENO, text);
    }
    if (status == MG_UNREADABLE)
        snprintf(text, sizeof text, "dlm: %d %s disk%d\n", status, mg_name(status), disk);
    else
        snprintf(text, sizeof text, "dlm: %d %s\n", status, mg_name(status));
    return 1 + say(STDERR_FILENO, text);
}
