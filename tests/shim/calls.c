/* What a process does to disk images, written down, or made slower and coarser. For LD_PRELOAD; tests/power_loss.py and
 * tests/at_once.py build it with `cc -shared -fPIC`.
 *
 * DLM_LOG=FILE   each image that is made, each write, cut, sync and printed line goes into FILE, in the order in which they took
 *                effect: of the processes with the same FILE one makes a call at a time. So does each sync of a folder, and each
 *                image that is removed or gets another name. A sync makes no system call then. diskK.img.new is image K + 20
 * DLM_OLD=PATH   to the numbers of the images in this folder 10 is added there
 * DLM_READ=N     a read is made in pieces of N bytes, each at a moment of its own; -N: the last piece first
 * DLM_WRITE=N    a write, likewise
 * DLM_GAP=P,U    between two pieces it sleeps up to U microseconds, P times in 100
 * DLM_PAUSE=P,U  and so before each call
 * DLM_STOP=P     before a sync, or within a write, the process ends, P times in 1,000
 * DLM_PAGES=1    an image is opened without O_DIRECT and O_DSYNC, where these are asked for
 * DLM_SLEEP=U    a sync sleeps U microseconds in place of the system call
 */
#define _GNU_SOURCE
#include <dlfcn.h>
#include <fcntl.h>
#include <stdarg.h>
#include <stdint.h>
#include <stdio.h>
#include <stdlib.h>
#include <string.h>
#include <sys/file.h>
#include <time.h>
#include <unistd.h>

#define MOST_FILES 1024
#define PART 4096 /* a longer write is several records */
#define OLD 10
#define NEW 20

static int (*real_open)(const char *, int, ...);
static ssize_t (*real_pread)(int, void *, size_t, off_t);
static ssize_t (*real_pwrite)(int, const void *, size_t, off_t);
static ssize_t (*real_write)(int, const void *, size_t);
static int (*real_fdatasync)(int);
static int (*real_fsync)(int);
static int (*real_ftruncate)(int, off_t);
static int (*real_unlink)(const char *);
static int (*real_rename)(const char *, const char *);

/* By descriptor: the number of the image, with OLD if it is in the old folder, and 1; or 0. And whether it is the old folder. */
static int images[MOST_FILES], is_old_folder[MOST_FILES];
static const char *old_folder;
static int log_fd = -1, read_piece, write_piece, gap_percent, gap_most, pause_percent, pause_most, stop, sleep_for = -1, through_pages;
static uint64_t state;

static unsigned next_random(void) {
    state ^= state << 13;
    state ^= state >> 7;
    state ^= state << 17;
    return (unsigned)(state >> 20);
}

static int number(const char *name, int none) {
    const char *text = getenv(name);
    return text ? atoi(text) : none;
}

static void pair(const char *name, int *percent, int *most) {
    const char *text = getenv(name);
    if (text)
        sscanf(text, "%d,%d", percent, most);
}

static void sleep_up_to(int percent, int most) {
    if (percent && (int)(next_random() % 100) < percent)
        usleep(next_random() % (most + 1));
}

static int stops(void) {
    return stop && (int)(next_random() % 1000) < stop;
}

__attribute__((constructor)) static void begin(void) {
    real_open = dlsym(RTLD_NEXT, "open");
    real_pread = dlsym(RTLD_NEXT, "pread");
    real_pwrite = dlsym(RTLD_NEXT, "pwrite");
    real_write = dlsym(RTLD_NEXT, "write");
    real_fdatasync = dlsym(RTLD_NEXT, "fdatasync");
    real_fsync = dlsym(RTLD_NEXT, "fsync");
    real_ftruncate = dlsym(RTLD_NEXT, "ftruncate");
    real_unlink = dlsym(RTLD_NEXT, "unlink");
    real_rename = dlsym(RTLD_NEXT, "rename");
    struct timespec now;
    clock_gettime(CLOCK_MONOTONIC, &now);
    state = (uint64_t)now.tv_nsec * 2654435761u + (uint64_t)getpid() * 40503u + 88172645463325252u;
    read_piece = number("DLM_READ", 0);
    write_piece = number("DLM_WRITE", 0);
    sleep_for = number("DLM_SLEEP", -1);
    stop = number("DLM_STOP", 0);
    through_pages = number("DLM_PAGES", 0);
    old_folder = getenv("DLM_OLD");
    pair("DLM_GAP", &gap_percent, &gap_most);
    pair("DLM_PAUSE", &pause_percent, &pause_most);
    if (getenv("DLM_LOG"))
        log_fd = real_open(getenv("DLM_LOG"), O_WRONLY | O_APPEND | O_CREAT | O_CLOEXEC, 0600);
}

static int image_of(int fd) {
    return fd >= 0 && fd < MOST_FILES ? images[fd] : 0;
}

/* A record: kind, image, process, place, length, bytes. */
static void note(char kind, int image, uint64_t at, const void *bytes, uint32_t length) {
    char record[8192];
    uint32_t process = (uint32_t)getpid();
    if (length > 8000)
        abort();
    record[0] = kind;
    record[1] = (char)image;
    memcpy(record + 2, &process, 4);
    memcpy(record + 6, &at, 8);
    memcpy(record + 14, &length, 4);
    memcpy(record + 18, bytes, length);
    if (real_write(log_fd, record, 18 + length) != (ssize_t)(18 + length))
        abort();
}

static void one_at_a_time(int begins) {
    if (log_fd >= 0)
        flock(log_fd, begins ? LOCK_EX : LOCK_UN);
}

static int is_in_old(const char *path) {
    size_t length = old_folder ? strlen(old_folder) : 0;
    return length && !strncmp(path, old_folder, length) && path[length] == '/';
}

/* The number of the image of this name, and 1; or 0. */
static int image_at(const char *path) {
    const char *slash = strrchr(path, '/');
    const char *name = slash ? slash + 1 : path;
    if (strlen(name) < 9 || strncmp(name, "disk", 4) || strncmp(name + 5, ".img", 4) || (name[9] && strcmp(name + 9, ".new")))
        return 0;
    return name[4] - '0' + 1 + (name[9] ? NEW : is_in_old(path) ? OLD : 0);
}

int open(const char *path, int flags, ...) {
    va_list rest;
    va_start(rest, flags);
    int mode = flags & O_CREAT ? va_arg(rest, int) : 0;
    va_end(rest);
    int image = image_at(path);
    if (image && through_pages)
        flags &= ~(O_DIRECT | O_DSYNC);
    int makes = image && flags & O_CREAT && log_fd >= 0;
    if (makes)
        one_at_a_time(1);
    int fd = real_open(path, flags, mode);
    if (makes) {
        if (fd >= 0)
            note('C', image - 1, 0, "", 0);
        one_at_a_time(0);
    }
    if (fd >= 0 && fd < MOST_FILES) {
        images[fd] = image;
        is_old_folder[fd] = old_folder && !strcmp(path, old_folder);
    }
    return fd;
}

static ssize_t pieces(int fd, char *bytes, size_t length, off_t at, int piece, int writes) {
    size_t size = (size_t)abs(piece), count = size ? (length + size - 1) / size : 1;
    if (!size)
        size = length;
    for (size_t i = 0; i < count; i++) {
        size_t from = (piece < 0 ? count - 1 - i : i) * size, n = length - from < size ? length - from : size;
        if (i)
            sleep_up_to(gap_percent, gap_most);
        ssize_t done = writes ? real_pwrite(fd, bytes + from, n, at + (off_t)from) : real_pread(fd, bytes + from, n, at + (off_t)from);
        if (done != (ssize_t)n)
            return done < 0 ? -1 : (ssize_t)from + done;
    }
    return (ssize_t)length;
}

ssize_t pread(int fd, void *into, size_t length, off_t at) {
    if (!image_of(fd))
        return real_pread(fd, into, length, at);
    sleep_up_to(pause_percent, pause_most);
    one_at_a_time(1);
    ssize_t done = pieces(fd, into, length, at, read_piece, 0);
    one_at_a_time(0);
    return done;
}

ssize_t pwrite(int fd, const void *from, size_t length, off_t at) {
    int image = image_of(fd);
    if (!image)
        return real_pwrite(fd, from, length, at);
    sleep_up_to(pause_percent, pause_most);
    int ends = stops();
    if (ends)
        length = next_random() % (length + 1);
    one_at_a_time(1);
    for (size_t n = 0; log_fd >= 0 && n < length; n += PART)
        note('W', image - 1, (uint64_t)at + n, (const char *)from + n, (uint32_t)(length - n < PART ? length - n : PART));
    ssize_t done = pieces(fd, (char *)from, length, at, write_piece, 1);
    if (ends)
        _exit(137);
    one_at_a_time(0);
    return done;
}

int fdatasync(int fd) {
    int image = image_of(fd);
    if (!image)
        return real_fdatasync(fd);
    sleep_up_to(pause_percent, pause_most);
    if (stops())
        _exit(137);
    if (log_fd >= 0) {
        one_at_a_time(1);
        note('S', image - 1, 0, "", 0);
        one_at_a_time(0);
        return 0;
    }
    if (sleep_for >= 0) {
        usleep((useconds_t)sleep_for);
        return 0;
    }
    return real_fdatasync(fd);
}

int fsync(int fd) {
    if (log_fd < 0)
        return real_fsync(fd);
    int image = image_of(fd);
    one_at_a_time(1);
    if (image)
        note('S', image - 1, 0, "", 0);
    else
        note('N', fd < MOST_FILES && is_old_folder[fd] ? OLD : 0, 0, "", 0);
    one_at_a_time(0);
    return 0;
}

int ftruncate(int fd, off_t length) {
    int notes = image_of(fd) && log_fd >= 0;
    if (notes) {
        one_at_a_time(1);
        note('T', image_of(fd) - 1, (uint64_t)length, "", 0);
    }
    int done = real_ftruncate(fd, length);
    if (notes)
        one_at_a_time(0);
    return done;
}

ssize_t write(int fd, const void *from, size_t length) {
    int image = image_of(fd), notes = (fd == 1 || image) && log_fd >= 0;
    if (notes)
        one_at_a_time(1);
    ssize_t done = real_write(fd, from, length);
    if (notes && fd == 1)
        note('P', 0, 0, from, (uint32_t)length);
    else if (notes && done > 0)
        note('W', image - 1, (uint64_t)(lseek(fd, 0, SEEK_CUR) - done), from, (uint32_t)done);
    if (notes)
        one_at_a_time(0);
    return done;
}

int unlink(const char *path) {
    int image = log_fd >= 0 ? image_at(path) : 0;
    if (image)
        one_at_a_time(1);
    int done = real_unlink(path);
    if (image && done == 0)
        note('U', image - 1, 0, "", 0);
    if (image)
        one_at_a_time(0);
    return done;
}

/* Its place is the image that it was. */
int rename(const char *from, const char *to) {
    int image = log_fd >= 0 ? image_at(to) : 0;
    if (image)
        one_at_a_time(1);
    int done = real_rename(from, to);
    if (image && done == 0)
        note('R', image - 1, (uint64_t)(image_at(from) - 1), "", 0);
    if (image)
        one_at_a_time(0);
    return done;
}
