/* Whether a read of 4,096 bytes of a file or device is one step, beside a thread that writes 127 bytes of the first of sixteen blocks
 * and then 127 bytes of the last, with a number that rises. It tells how many reads had bytes of two writes within one block, and how many
 * had the two blocks as they never stood together. The file is written over.
 *
 *   cc -O2 -pthread -o moments tests/shim/moments_of_a_read.c && ./moments FILE SECONDS
 */
#include <fcntl.h>
#include <pthread.h>
#include <stdio.h>
#include <stdlib.h>
#include <string.h>
#include <time.h>
#include <unistd.h>

enum { BLOCK = 256, ROW = 4096, BODY = 127, LAST = 15 * BLOCK };

static int file;
static volatile int stop;

static void *writer(void *unused) {
    unsigned char body[BODY];
    for (unsigned turn = 0; !stop; turn++) {
        memset(body, (int)(turn & 0xff), BODY);
        if (pwrite(file, body, BODY, 1) != BODY || pwrite(file, body, BODY, LAST + 1) != BODY)
            exit(1);
    }
    return unused;
}

static int is_mixed(const unsigned char *body) {
    for (int k = 1; k < BODY; k++)
        if (body[k] != body[0])
            return 1;
    return 0;
}

int main(int count, char **words) {
    if (count != 3) {
        fputs("moments FILE SECONDS\n", stderr);
        return 2;
    }
    unsigned char row[ROW] = {0};
    file = open(words[1], O_RDWR | O_CREAT, 0600);
    int reader = open(words[1], O_RDONLY);
    if (file < 0 || reader < 0 || pwrite(file, row, ROW, 0) != ROW) {
        perror(words[1]);
        return 1;
    }
    pthread_t thread;
    pthread_create(&thread, 0, writer, 0);
    long reads = 0, mixed = 0, apart = 0;
    for (time_t end = time(0) + atoi(words[2]); time(0) < end;) {
        for (int k = 0; k < 1000; k++, reads++) {
            if (pread(reader, row, ROW, 0) != ROW)
                return 1;
            unsigned char ahead = row[1] - row[LAST + 1];
            if (is_mixed(row + 1) || is_mixed(row + LAST + 1))
                mixed++;
            else if (ahead > 1)
                apart++;
        }
    }
    stop = 1;
    pthread_join(thread, 0);
    printf("%ld reads: %ld with bytes of two writes in one block, %ld with blocks of two moments\n", reads, mixed, apart);
    return 0;
}
