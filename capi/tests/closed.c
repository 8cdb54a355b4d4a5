/*
 * A program that was started without standard input, output or error opens a folder, takes a lock, and prints. What it prints goes
 * into no image.
 *
 *   closed FOLDER SET      a folder that was formatted; the sum of 1 for input, 2 for output, 4 for error
 */
#include <midgegalena.h>

#include <stdio.h>
#include <stdlib.h>
#include <unistd.h>

int main(int argc, char **argv) {
    struct mg_host *host;
    struct mg_answer answer;
    int status, set;
    if (argc != 3)
        return 2;
    set = atoi(argv[2]);
    for (int descriptor = 0; descriptor < 3; descriptor++)
        if (set >> descriptor & 1)
            close(descriptor);
    if (mg_open(argv[1], 0, &host, NULL) != MG_OK)
        return 1;
    status = mg_enqueue(host, 1, (uint64_t)set, (unsigned)set, MG_NL, "db", 0, &answer);
    printf("what is printed is longer than a header's first bytes: %d %d\n", status, answer.reply);
    fprintf(stderr, "and so is this, whatever it says\n");
    fflush(stdout);
    mg_close(host);
    return status != MG_OK;
}
