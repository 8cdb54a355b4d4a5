/*
 * The calls on a device that several machines use, and what becomes of each that fails. To be linked with
 *
 *   -Wl,--wrap=pread,--wrap=pwrite,--wrap=fdatasync
 *
 *   devices FILE..      files or block devices that may be written over, three at least; the status is 3 where they take no O_DIRECT
 */
#ifndef _GNU_SOURCE
#define _GNU_SOURCE
#endif
#include "../src/device.h"

#include "expect.h"

#include <errno.h>
#include <fcntl.h>
#include <stdlib.h>
#include <unistd.h>

ssize_t __real_pread(int file, void *into, size_t length, off_t at);
ssize_t __real_pwrite(int file, const void *from, size_t length, off_t at);
int __real_fdatasync(int file);

enum fault { NONE, FAILS, IS_SHORT, IS_INTERRUPTED };

static struct {
    long reads, writes, syncs, calls;
    size_t length; /* of the last read or write */
    long until;    /* calls until the fault; below 0: none */
    enum fault fault;
    int reader;    /* each read of this file shows another stamp, so often */
    long changes;
} seen;

static void reset(enum fault fault, long until) {
    memset(&seen, 0, sizeof seen);
    seen.fault = fault;
    seen.until = fault == NONE ? -1 : until;
    seen.reader = -1;
}

/* Whether this call is the one that goes wrong, and how much of it is made. */
static enum fault due(size_t *length) {
    seen.calls++;
    if (seen.until < 0 || seen.until-- != 0)
        return NONE;
    if (seen.fault == IS_SHORT)
        *length -= 512;
    errno = seen.fault == IS_INTERRUPTED ? EINTR : EIO;
    return seen.fault;
}

ssize_t __wrap_pread(int file, void *into, size_t length, off_t at) {
    enum fault fault = due(&length);
    ssize_t n;
    seen.reads++;
    seen.length = length;
    if (fault == FAILS || fault == IS_INTERRUPTED)
        return -1;
    n = __real_pread(file, into, length, at);
    if (file == seen.reader && seen.changes-- > 0 && n > 263)
        ((uint8_t *)into)[263] ^= (uint8_t)seen.changes + 1;
    return n;
}

ssize_t __wrap_pwrite(int file, const void *from, size_t length, off_t at) {
    enum fault fault = due(&length);
    seen.writes++;
    seen.length = length;
    return fault == FAILS || fault == IS_INTERRUPTED ? -1 : __real_pwrite(file, from, length, at);
}

int __wrap_fdatasync(int file) {
    size_t none = 512;
    enum fault fault = due(&none);
    seen.syncs++;
    return fault == NONE || fault == IS_SHORT ? __real_fdatasync(file) : -1;
}

/* Disk 1 of three. The image that it shows has the same first bytes but for the version, and zeros behind them. */
enum { DISKS = 3, DISK = 1, CLUSTER = 9 };
static const uint8_t FIRST[24] = {0xA5, 3, 1, 3, 0, 0, 0, 4, 0, 0, 0, 0, 0, 0, 0, 9, 0, 0, 0x10, 0, 1, 4, 1, 0};
static const struct device HOW = {4096, 4, 4, 1, 0};

static uint8_t *room;

/* The first byte of a device. */
static int gate(int file) {
    IS(__real_pread(file, room, 4096, 0), 4096);
    return room[0];
}

/* Each field of what is handed to the proved library, and back, is where that has it: bytes and numbers by hand from docs/FORMAT.md. */
static void crosses(void) {
    static const uint8_t wanted[24] = {0xA5, 3, 2, 5, 0, 0, 0, 7, 1, 2, 3, 4, 5, 6, 7, 8, 0, 0, 2, 0, 1, 3, 0, 0};
    static const uint8_t given[3] = {1, 2, 3};
    const struct device how = {512, 3, 7, 0, 0}, wrong = {512, 3, 4097, 0, 0};
    struct device found = {0, 0, 0, 9, 9};
    struct first_bytes first;
    struct header image = {0, {0}};
    struct sectors at = {9, 9, 9};
    struct machine ours, theirs, other = {{0}};
    struct all_heard said = {{{0, {{0}}}}, 3};
    struct row row;
    uint8_t raw[3 * 512], again[3 * 512];
    uint64_t size = 0;
    IS(dlm_c_device_header(&how, 5, 0x0102030405060708, 2, &first, &size), 0);
    IS(size, 4096 + 8 * 3 * 512);
    IS(memcmp(first.bytes, wanted, sizeof wanted), 0);
    for (size_t i = sizeof wanted; i < sizeof first.bytes; i++)
        is_at(1000, first.bytes[i], 0);
    IS(dlm_c_device(2, size, &first, &found, &image), 0);
    IS(memcmp(&found, &how, sizeof how), 0);
    IS(image.size, 4096 * 9);
    IS(image.bytes[1], 2);
    for (size_t i = 0; i < sizeof image.bytes; i++)
        is_at(1100, i == 1 ? 3 : image.bytes[i], i < 16 ? wanted[i] : 0);
    IS(dlm_c_device(2, size - 1, &first, &found, &image) == -1 && dlm_c_device(1, size, &first, &found, &image) == -1, true);
    IS(dlm_c_device_header(&wrong, 5, 7, 2, &first, &size) == -1 && dlm_c_device_header(&how, 5, 7, 5, &first, &size) == -1, true);
    first.bytes[22] = 1;
    IS(dlm_c_device(2, size, &first, &found, &image) == 0 && found.dsync == 1, true);
    IS(dlm_c_device_row(&how, 8192 + 4096, &at), 0);
    IS(at.place == 4096 + 2 * 3 * 512 && at.length == 3 * 512 && at.offset == 0, true);
    IS(dlm_c_device_block(&how, 8192 + 256 * 2 + 129, 127, &at), 0);
    IS(at.place == 4096 + 3 * 512 + 2 * 512 && at.length == 512 && at.offset == 129, true);
    IS(dlm_c_device_row(&how, 8192 + 256, &at) == -1 && dlm_c_device_block(&how, 8192 + 255, 2, &at) == -1 && dlm_c_device_block(&how, 8192 + 768, 1, &at) == -1, true);
    for (int host = 0; host < 3; host++) {
        memset(raw + 512 * host, 0x10 + host, 256);
        memset(raw + 512 * host + 256, 0x20 + host, 8);
        memset(raw + 512 * host + 264, 0xEE, 248);
    }
    memcpy(again, raw, sizeof raw);
    again[511] = 0;
    memset(row.bytes, 0xFF, sizeof row.bytes);
    IS(dlm_c_device_agreed(&how, raw, sizeof raw, again, sizeof again, &row), 0);
    for (int i = 0; i < 4096; i++)
        is_at(2000 + i / 256, row.bytes[i], i < 768 ? 0x10 + i / 256 : 0);
    again[512 + 263]++;
    IS(dlm_c_device_agreed(&how, raw, sizeof raw, again, sizeof again, &row), -8);
    IS(dlm_c_device_agreed(&how, raw, sizeof raw, again, sizeof again - 1, &row), -1);
    memset(raw + 256, 0, 8);
    raw[263] = 0xFF;
    memcpy(again, raw, 512);
    IS(dlm_c_device_put(raw, 512, 128, given, 3), 0);
    for (int i = 0; i < 512; i++)
        is_at(3000 + i, raw[i], i >= 128 && i < 131 ? i - 127 : i == 262 ? 1 : i == 263 ? 0 : again[i]);
    IS(dlm_c_device_put(raw, 512, 254, given, 3), -1);
    memset(ours.bytes, 'a', sizeof ours.bytes);
    memset(theirs.bytes, 'b', sizeof theirs.bytes);
    IS(dlm_c_device_put_name(raw, 512, &ours), 0);
    for (int i = 0; i < 512; i++)
        is_at(4000 + i, raw[i], i >= 128 && i < 131 ? i - 127 : i == 262 || i == 263 ? 1 : i >= 264 && i < 280 ? 'a' : again[i]);
    IS(dlm_c_device_name(raw, 512, &other) == 0 && memcmp(&other, &ours, sizeof ours) == 0, true);
    IS(dlm_c_device_name(raw, 279, &other) == -1 && dlm_c_device_put_name(raw, 279, &ours) == -1, true);
    memset(raw + 256, 0xFF, 8);
    IS(dlm_c_device_put(raw, 512, 0, given, 3) == -9 && dlm_c_device_put_name(raw, 512, &ours) == -9, true);
    for (int k = 0; k < 2; k++) {
        said.all[k].is_heard = 1;
        said.all[k].name = k == 0 ? ours : theirs;
    }
    IS(dlm_c_device_owner(&said, &ours, &other) == IS_OTHERS && memcmp(&other, &theirs, sizeof other) == 0, true);
    said.all[2] = said.all[0];
    IS(dlm_c_device_owner(&said, &ours, &other), IS_OURS);
    said.disks = 5;
    IS(dlm_c_device_owner(&said, &ours, &other), IS_OTHERS);
    said.disks = 7;
    IS(dlm_c_device_owner(&said, &ours, &other), IS_UNHEARD);
    said.disks = 8;
    IS(dlm_c_device_owner(&said, &ours, &other), -1);
}

/* The same of a log without an end, whose image has two areas of 320 slots and two rows of standings: 644 rows. */
static void crosses_endless(void) {
    static const uint8_t wanted[24] = {0xA5, 5, 2, 5, 0, 0, 1, 64, 1, 2, 3, 4, 5, 6, 7, 8, 0, 0, 2, 0, 1, 3, 1, 0};
    const struct device how = {512, 3, 320, 1, 1}, wrong = {512, 3, 319, 1, 1};
    struct device found = {0, 0, 0, 9, 9};
    struct first_bytes first;
    struct header image = {0, {0}};
    struct sectors at = {9, 9, 9};
    uint64_t size = 0, area = 8192 + 4096 * 320;
    IS(dlm_c_device_header(&wrong, 5, 7, 2, &first, &size), -1);
    IS(dlm_c_device_header(&how, 5, 0x0102030405060708, 2, &first, &size), 0);
    IS(size, 4096 + 644 * 3 * 512);
    IS(memcmp(first.bytes, wanted, sizeof wanted), 0);
    for (size_t i = sizeof wanted; i < sizeof first.bytes; i++)
        is_at(1200, first.bytes[i], 0);
    IS(dlm_c_device(2, size, &first, &found, &image), 0);
    IS(memcmp(&found, &how, sizeof how), 0);
    IS(image.size, 2 * area + 4096);
    IS(image.bytes[1], 4);
    for (size_t i = 0; i < sizeof image.bytes; i++)
        is_at(1300, i == 1 ? 5 : image.bytes[i], i < 16 ? wanted[i] : 0);
    IS(dlm_c_device(2, size - 1, &first, &found, &image), -1);
    /* The first row of standings, and host 2's block of the last slot. */
    IS(dlm_c_device_row(&how, area, &at) == 0 && at.place == 4096 + 321 * 3 * 512, true);
    IS(dlm_c_device_block(&how, 2 * area + 512, 256, &at) == 0 && at.place == size - 512 && at.offset == 0, true);
    IS(dlm_c_device_row(&how, 2 * area + 4096, &at), -1);
    /* One of a later program, and the image itself. */
    first.bytes[1] = 6;
    IS(dlm_c_device(2, size, &first, &found, &image), -1);
    first.bytes[1] = 4;
    IS(dlm_c_device(2, size, &first, &found, &image), -1);
    IS(device_version(3) && device_version(5) && !device_version(4) && !device_version(6), true);
}

/* What each disk says: 'a' our name, 'b' and 'c' of others, '-' nobody's, '?' not heard. Whose the number is: "ours", another one's name, or '?'. */
static void owner(const char *says, char whose) {
    struct all_heard said = {{{0, {{0}}}}, (uint32_t)strlen(says)};
    struct machine ours, other = {{0}};
    int status;
    memset(ours.bytes, 'a', sizeof ours.bytes);
    for (unsigned k = 0; k < said.disks; k++) {
        memset(said.all[k].name.bytes, says[k] == '-' ? 0 : says[k], sizeof ours.bytes);
        said.all[k].is_heard = says[k] != '?';
    }
    status = dlm_c_device_owner(&said, &ours, &other);
    if (status != (whose == 'a' ? IS_OURS : whose == '?' ? IS_UNHEARD : IS_OTHERS) || (status == IS_OTHERS && other.bytes[15] != whose)) {
        printf("%s: %d, not %c's\n", says, status, whose);
        failures++;
    }
}

static void owners(void) {
    static const char *const all[] = {"--- a", "aaa a", "a-- a", "?-- a", "bbb b", "b-- b", "aab a", "ab? b", "a?b b", "abb b", "a-b b", "cbb b", "bccbc c", "aaabb a", "aabb? b", "a?? ?", "?a ?", "a a", "b b", "? ?", "aaaabbb a", "aaa?bbc b", "aa--b b"};
    for (size_t i = 0; i < sizeof all / sizeof *all; i++) {
        char says[8] = "";
        (void)sscanf(all[i], "%7s", says);
        owner(says, all[i][strlen(says) + 1]);
    }
}

static struct first_bytes first_of(uint64_t cluster, unsigned disk, uint64_t *size) {
    struct first_bytes first;
    memset(&first, 0, sizeof first);
    IS(dlm_c_device_header(&HOW, DISKS, cluster, disk, &first, size), 0);
    return first;
}

static bool makes(int file, enum step step) {
    uint64_t size = 0;
    struct first_bytes first = first_of(CLUSTER, DISK, &size);
    return device_lay_out(file, &first, sizeof first, size, step, room);
}

static bool is_laid_out(int file) { return makes(file, ZEROS) && makes(file, HEADER) && makes(file, GATE); }

static enum state state_of(int file, uint64_t cluster, unsigned disk) {
    uint64_t size = 0;
    struct first_bytes first = first_of(cluster, disk, &size);
    return device_first(file, room) ? device_state(file, &first, size, room) : OTHER_BYTES;
}

static enum state state(int file) { return state_of(file, CLUSTER, DISK); }

static void puts_byte(int file, int at, uint8_t byte) {
    IS(__real_pread(file, room, 4096, at / 4096 * 4096), 4096);
    room[at % 4096] = byte;
    IS(__real_pwrite(file, room, 4096, at / 4096 * 4096), 4096);
}

static void lays_out(int file) {
    struct device how;
    struct header image;
    long calls;
    memset(room, 0xEE, 65536);
    for (int at = 0; at < 200; at++)
        IS(__real_pwrite(file, room, 4096, 4096 * at), 4096);
    reset(NONE, 0);
    IS(is_laid_out(file), true);
    IS(seen.syncs, 3);
    calls = seen.calls;
    IS(device_find(file, DISK, room, &how, &image), true);
    IS(memcmp(&how, &HOW, sizeof how) == 0 && image.size == 6 * 4096, true);
    IS(memcmp(room, FIRST, sizeof FIRST), 0);
    IS(device_find(file, 0, room, &how, &image), false);
    for (int at = 1; at < 21; at++) {
        IS(__real_pread(file, room, 4096, 4096 * at), 4096);
        for (int i = 0; i < 4096; i++)
            is_at(5000 + at, room[i], 0);
    }
    /* How far it came, and that it is undone. Another set's header is none. */
    IS(state(file), GATE_OPEN);
    IS(state_of(file, CLUSTER + 1, DISK) == OTHER_BYTES && state_of(file, CLUSTER, 0) == OTHER_BYTES, true);
    IS(makes(file, HEADER) && state(file) == GATE_CLOSED && gate(file) == 0 && !device_find(file, DISK, room, &how, &image), true);
    puts_byte(file, 0, 0x77);
    IS(state(file), GATE_CLOSED);
    puts_byte(file, 4096 * 21 - 1, 1);
    IS(state(file), OTHER_BYTES);
    puts_byte(file, 4096 * 21 - 1, 0);
    IS(state(file), GATE_CLOSED);
    IS(makes(file, UNDONE) && state(file) == OTHER_BYTES, true);
    IS(__real_pread(file, room, 4096, 0), 4096);
    for (int i = 0; i < 4096; i++)
        is_at(5100, room[i], 0);
    IS(makes(file, HEADER) && makes(file, GATE) && device_find(file, DISK, room, &how, &image), true);
    /* What is behind it stays. */
    IS(__real_pread(file, room, 4096, 4096 * 21), 4096);
    IS(room[0], 0xEE);
    /* Where a call fails, or a write is short, it says so, and no gate is open but by the last write and its sync. */
    for (enum fault fault = FAILS; fault <= IS_SHORT; fault++)
        for (long until = 0; until < calls; until++) {
            memset(room, 0xEE, 4096);
            IS(__real_pwrite(file, room, 4096, 0), 4096);
            reset(fault, until);
            if (is_laid_out(file)) {
                /* A short sync is none. */
                IS(fault, IS_SHORT);
                continue;
            }
            reset(NONE, 0);
            IS(gate(file) != 0xA5 || until >= calls - 2, true);
        }
    /* A call that is interrupted is made again. */
    for (long until = 0; until < calls; until++) {
        reset(IS_INTERRUPTED, until);
        IS(is_laid_out(file), true);
    }
}

static void reads_and_writes(int file) {
    static const uint8_t body[127] = {2, 1, 0, 9};
    uint8_t before[4096];
    struct row row;
    reset(NONE, 0);
    IS(device_write(file, &HOW, room, 8192 + 256 * 2 + 129, body, 127), true);
    IS(seen.reads == 1 && seen.writes == 1 && seen.syncs == 0 && seen.length == 4096, true);
    reset(NONE, 0);
    IS(device_write(file, &HOW, room, 8192, body, 0), true);
    IS(seen.calls, 0);
    /* Host 2's sector of slot 0 is the third after those of the heartbeat area. */
    IS(__real_pread(file, room, 4096, 4096 * (1 + 4 + 2)), 4096);
    memcpy(before, room, sizeof before);
    for (int i = 0; i < 4096; i++)
        is_at(6000 + i, before[i], i >= 129 && i < 256 ? body[i - 129] : i == 263);
    reset(NONE, 0);
    IS(device_read(file, &HOW, room, 8192, &row), true);
    IS(seen.reads == 2 && seen.length == 4 * 4096, true);
    for (int i = 0; i < 4096; i++)
        is_at(7000 + i / 256, row.bytes[i], i >= 512 + 129 && i < 768 ? body[i - 641] : 0);
    /* No row, no block, bytes of two blocks, and a host without a block. */
    IS(device_read(file, &HOW, room, 0, &row) || device_read(file, &HOW, room, 8192 + 256, &row) || device_read(file, &HOW, room, 8192 + 4 * 4096, &row), false);
    IS(device_write(file, &HOW, room, 100, body, 1) || device_write(file, &HOW, room, 8192 + 200, body, 100) || device_write(file, &HOW, room, 8192 + 1024, body, 1), false);
    /* A call that fails, and one that is short. The sector stays as it was, or has all of the write. */
    for (enum fault fault = FAILS; fault <= IS_SHORT; fault++)
        for (long until = 0; until < 2; until++) {
            reset(fault, until);
            IS(device_write(file, &HOW, room, 8192 + 256, body, 127), false);
            IS(seen.writes, until);
            reset(fault, until);
            IS(device_read(file, &HOW, room, 8192, &row), false);
        }
    reset(IS_INTERRUPTED, 1);
    IS(device_write(file, &HOW, room, 8192 + 512 + 129, body, 127), true);
    IS(seen.writes, 2);
    IS(__real_pread(file, room, 4096, 4096 * (1 + 4 + 2)), 4096);
    before[263] = 2;
    IS(memcmp(room, before, 4096), 0);
    /* Stamps that change from read to read: nine reads are made, and the last two of them may agree. */
    for (long changes = 0; changes < 10; changes++) {
        reset(NONE, 0);
        seen.reader = file;
        seen.changes = changes;
        IS(device_read(file, &HOW, room, 8192, &row), changes <= 7);
        IS(seen.reads, changes <= 7 ? changes + 2 : 9);
    }
}

static void claims(int *files, char **paths) {
    const struct device how[3] = {HOW, HOW, HOW}, mixed[3] = {HOW, {0, 0, 0, 0, 0}, HOW};
    struct machine ours, theirs, owner, nobody = {{0}};
    int two[3], one[3];
    memset(ours.bytes, 1, sizeof ours.bytes);
    memset(theirs.bytes, 2, sizeof theirs.bytes);
    for (int k = 0; k < 3; k++) {
        two[k] = k == 1 ? -1 : files[k];
        one[k] = k == 1 ? files[k] : -1;
        IS(is_laid_out(files[k]), true);
    }
    reset(NONE, 0);
    IS(device_claim(files, how, 3, 2, TELL, &nobody, &owner, room), IS_OURS);
    IS(seen.writes, 0);
    IS(device_claim(two, how, 3, 2, CLAIM, &ours, &owner, room), IS_OURS);
    IS(seen.writes == 2 && seen.syncs == 2, true);
    reset(NONE, 0);
    IS(device_claim(files, how, 3, 2, CLAIM, &theirs, &owner, room), IS_OTHERS);
    IS(memcmp(&owner, &ours, sizeof owner), 0);
    /* On the third device nobody has the number so far. Half of the devices say nothing, and get no name. */
    IS(device_claim(one, how, 3, 2, CLAIM, &theirs, &owner, room), IS_UNHEARD);
    IS(device_claim(one, how, 3, 2, TAKE, &theirs, &owner, room), IS_UNHEARD);
    IS(device_claim(files, mixed, 3, 2, TELL, &nobody, &owner, room), IS_OTHERS);
    IS(seen.writes, 0);
    IS(device_claim(files, how, 3, 2, CLAIM, &ours, &owner, room), IS_OURS);
    IS(seen.writes, 1);
    reset(NONE, 0);
    IS(device_claim(files, how, 3, 2, CLAIM, &ours, &owner, room), IS_OURS);
    IS(seen.reads == 3 && seen.writes == 0, true);
    /* Another number is not touched, and a block of the heartbeat area keeps its bytes beside the name. */
    IS(device_claim(files, how, 3, 3, TELL, &nobody, &owner, room), IS_OURS);
    IS(device_write(files[0], &HOW, room, 4096 + 512, ours.bytes, 16), true);
    IS(device_claim(two, how, 3, 2, TAKE, &theirs, &owner, room), IS_OURS);
    IS(__real_pread(files[0], room, 4096, 4096 * 3), 4096);
    IS(memcmp(room, ours.bytes, 16) == 0 && room[16] == 0 && memcmp(room + 264, theirs.bytes, 16) == 0 && room[263] == 3, true);
    IS(device_claim(files, how, 3, 2, CLAIM, &ours, &owner, room), IS_OTHERS);
    /* The device that was away still has the first name: it gets the other one. */
    IS(device_claim(files, how, 3, 2, CLAIM, &theirs, &owner, room), IS_OURS);
    IS(device_claim(one, how, 1, 2, TELL, &nobody, &owner, room), IS_UNHEARD);
    IS(device_claim(files + 1, how, 1, 2, TELL, &nobody, &owner, room), IS_OTHERS);
    IS(memcmp(&owner, &theirs, sizeof owner), 0);
    /* No such host; a read, a write or a sync that fails on two devices of three. */
    IS(device_claim(files, how, 3, 4, CLAIM, &ours, &owner, room), IS_UNHEARD);
    for (int closed = 0; closed < 2; closed++) {
        int few[3] = {files[0], open(paths[1], O_RDONLY | O_DIRECT), open(paths[2], closed ? O_RDONLY | O_DIRECT : O_RDWR | O_DIRECT)};
        IS(device_claim(few, how, 3, (unsigned)closed, CLAIM, &ours, &owner, room), closed ? IS_UNHEARD : IS_OURS);
        close(few[1]);
        close(few[2]);
    }
}

int main(int argc, char **argv) {
    int files[3];
    struct device how;
    struct header image;
    if (argc < 4)
        return 2;
    crosses();
    crosses_endless();
    owners();
    room = device_room();
    reset(NONE, 0);
    for (int k = 0; k < 3; k++) {
        files[k] = open(argv[k + 1], O_RDWR | O_DIRECT);
        if (files[k] < 0 && errno == EINVAL)
            return 3;
        IS(files[k] >= 0, 1);
    }
    memset(room, 0, 4096);
    IS(__real_pwrite(files[0], room, 4096, 0), 4096);
    IS(device_find(files[0], 0, room, &how, &image), false);
    {
        struct identity one, again, other;
        int second = open(argv[1], O_RDONLY);
        IS(device_sector(files[0]) <= 4096 && device_begin(files[0]) == 0 && !device_is_read_only(files[0]), true);
        IS(device_identity(files[0], &one) && device_identity(second, &again) && device_identity(files[1], &other), true);
        IS(memcmp(&one, &again, sizeof one) == 0 && memcmp(&one, &other, sizeof one) != 0, true);
        IS(device_identity(-1, &one), false);
        close(second);
    }
    lays_out(files[0]);
    reads_and_writes(files[0]);
    claims(files, argv + 1);
    if (argc > 4) {
        /* A device that is too short for what its header tells. */
        int brief = open(argv[4], O_RDWR | O_DIRECT);
        memset(room, 0, 4096);
        memcpy(room, FIRST, sizeof FIRST);
        IS(__real_pwrite(brief, room, 4096, 0), 4096);
        IS(device_find(brief, DISK, room, &how, &image), false);
        close(brief);
    }
    for (int k = 0; k < 3; k++)
        close(files[k]);
    free(room);
    return failures != 0;
}
