/* Whether a read of a sector that another machine writes is one step. A thread writes the first and the last of sixteen sectors in turn, past the cache of one
 * device, with a number that rises; another reads all sixteen past the cache of another device over the same storage. Tells how many reads had bytes of two
 * writes within the first 264 bytes of a sector (block and stamp), how many within a whole sector, and how many had the two sectors as they never stood
 * together; and of the reads that were the same twice in a row, how many had the first or the last of these. The status is 1 where there is one such.
 *
 *   cc -O2 -pthread -o moments_of_sectors tests/shim/moments_of_sectors.c
 *   moments_of_sectors WRITTEN READ SECTOR SECONDS      devices over the same storage that may be written over
 */
#define _GNU_SOURCE
#include <fcntl.h>
#include <pthread.h>
#include <stdio.h>
#include <stdlib.h>
#include <string.h>
#include <time.h>
#include <unistd.h>

enum { SECTORS = 16, COUNTS = 264 };

static int file, sector;
static volatile int stop;
static long writes;

static void *writer(void *unused) {
    unsigned char *body = aligned_alloc(4096, 4096);
    for (unsigned turn = 0; !stop; turn++, writes += 2) {
        memset(body, (int)(turn & 0xff), (size_t)sector);
        if (pwrite(file, body, (size_t)sector, 0) != sector || pwrite(file, body, (size_t)sector, (SECTORS - 1) * sector) != sector) {
            perror("pwrite");
            exit(2);
        }
    }
    free(body);
    return unused;
}

static int is_mixed(const unsigned char *body, int length) {
    for (int k = 1; k < length; k++)
        if (body[k] != body[0])
            return 1;
    return 0;
}

int main(int count, char **words) {
    if (count != 5)
        return 2;
    sector = atoi(words[3]);
    size_t row = SECTORS * (size_t)sector;
    unsigned char *one = aligned_alloc(4096, row), *other = aligned_alloc(4096, row);
    file = open(words[1], O_RDWR | O_DIRECT);
    int reader = open(words[2], O_RDONLY | O_DIRECT);
    memset(one, 0, row);
    if (file < 0 || reader < 0 || pwrite(file, one, row, 0) != (ssize_t)row) {
        perror(words[1]);
        return 2;
    }
    pthread_t thread;
    pthread_create(&thread, 0, writer, 0);
    long reads = 0, mixed = 0, whole = 0, apart = 0, twice = 0, equal = 0;
    for (time_t end = time(0) + atoi(words[4]); time(0) < end;) {
        for (int k = 0; k < 100; k++, reads++) {
            if (pread(reader, one, row, 0) != (ssize_t)row || pread(reader, other, row, 0) != (ssize_t)row)
                return 2;
            const unsigned char *last = one + (SECTORS - 1) * (size_t)sector;
            unsigned char ahead = (unsigned char)(one[0] - last[0]);
            int same = memcmp(one, other, row) == 0, is_torn = is_mixed(one, COUNTS) || is_mixed(last, COUNTS);
            equal += same;
            mixed += is_torn;
            whole += is_mixed(one, sector) || is_mixed(last, sector);
            apart += ahead > 1;
            twice += same && (ahead > 1 || is_torn);
        }
    }
    stop = 1;
    pthread_join(thread, 0);
    printf("%ld reads beside %ld writes: %ld with two writes within %d bytes, %ld within a sector, %ld with sectors of two moments; %ld pairs of reads agreed,"
           " %ld of them with either\n", reads, writes, mixed, COUNTS, whole, apart, equal, twice);
    free(one);
    free(other);
    return twice > 0;
}
