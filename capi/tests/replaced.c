/*
 * A lost image of a log without an end has a new one in its place, which takes part from a later epoch on: before that it is a lost disk, to whomever works and
 * looks, and no byte of it is read as a vote; from then on it is one like the others, and another one may be lost. Hosts, and sessions that were begun before.
 *
 *   replaced FOLDER [DLM]      an empty folder, and the program by which images are replaced; without it the test makes each itself, all zeros after its header
 *
 * Linked with -Wl,--wrap=flock, so that one is replaced just before a host number is locked.
 */
#include <mg_session.h>

#include "endless.h"
#include "expect.h"

#include <stdbool.h>
#include <stdlib.h>
#include <sys/file.h>
#include <sys/stat.h>
#include <sys/wait.h>
#include <unistd.h>

enum { DISKS = 3, HOST = 0, CLIENT = 100, STEP = 65536 };

/* Where the areas are, and the rows of standings between them. */
enum { AREA = 8192 + 4096 * SLOTS, STANDINGS = AREA, SECOND = AREA + 8192 };

static const char *work, *dlm;
static uint64_t request;

static const char *laid_out(const char *name) {
    static char folders[8][300];
    static int count = 0;
    char *folder = folders[count++];
    snprintf(folder, sizeof folders[0], "%s/%s", work, name);
    IS(mkdir(folder, 0777), 0);
    IS(lay_out(folder, DISKS), 1);
    request = 0;
    return folder;
}

static struct mg_host *opened(const char *folder, unsigned number) {
    struct mg_host *host = NULL;
    int status = mg_open(folder, number, &host, NULL);
    IS(status, MG_OK);
    if (status != MG_OK)
        exit(1);
    return host;
}

static void take_away(const char *folder, int disk) {
    char from[400], to[400];
    path_of(from, sizeof from, folder, disk, "");
    path_of(to, sizeof to, folder, disk, ".lost");
    IS(rename(from, to), 0);
}

static void bring_back(const char *folder, int disk) {
    char from[400], to[400];
    path_of(from, sizeof from, folder, disk, ".lost");
    path_of(to, sizeof to, folder, disk, "");
    IS(rename(from, to), 0);
}

/* The status of dlm. */
static int replaces(const char *folder, int disk) {
    char number[2] = {(char)('0' + disk), '\0'};
    int status = 0;
    pid_t child = fork();
    if (child == 0) {
        IS(freopen("/dev/null", "w", stdout) != NULL, 1);
        execl(dlm, dlm, "replace", folder, number, (char *)NULL);
        _exit(127);
    }
    IS(waitpid(child, &status, 0), child);
    return WIFEXITED(status) ? WEXITSTATUS(status) : -1;
}

static uint64_t first_epoch(const char *path) {
    uint8_t bytes[8] = {0};
    uint64_t first = 0;
    int file = open(path, O_RDONLY);
    IS(pread(file, bytes, sizeof bytes, 16), sizeof bytes);
    close(file);
    for (size_t i = 0; i < sizeof bytes; i++)
        first = 256 * first + bytes[i];
    return first;
}

/* By dlm, or all zeros after the header, to take part from this epoch on. From which one it does. */
static uint64_t replaced(const char *folder, int disk, uint8_t first) {
    const uint8_t header[24] = {0xA5, 4, (uint8_t)disk, DISKS, 0, 0, SLOTS / 256, SLOTS % 256, [15] = CLUSTER, [23] = first};
    char path[400], made[400];
    int file;
    path_of(path, sizeof path, folder, disk, "");
    path_of(made, sizeof made, folder, disk, ".new");
    if (dlm) {
        IS(replaces(folder, disk), 0);
        return first_epoch(path);
    }
    file = open(made, O_WRONLY | O_CREAT | O_EXCL, 0666);
    IS(ftruncate(file, IMAGE), 0);
    IS(pwrite(file, header, sizeof header, 0), sizeof header);
    close(file);
    IS(rename(made, path), 0);
    return first;
}

/* Whether these bytes of the image are zeros. */
static bool is_blank(const char *folder, int disk, const char *end, off_t from, off_t to) {
    static uint8_t bytes[STEP];
    char path[400];
    bool blank = true;
    int file;
    path_of(path, sizeof path, folder, disk, end);
    file = open(path, O_RDONLY);
    IS(file >= 0, 1);
    while (from < to && blank) {
        size_t wanted = to - from < STEP ? (size_t)(to - from) : STEP;
        IS(pread(file, bytes, wanted, from), wanted);
        for (size_t i = 0; i < wanted; i++)
            blank &= bytes[i] == 0;
        from += (off_t)wanted;
    }
    close(file);
    return blank;
}

static bool has_no_rows(const char *folder, int disk) { return is_blank(folder, disk, "", 4096, AREA) && is_blank(folder, disk, "", SECOND, IMAGE); }

static uint64_t epoch_of(struct mg_host *host) {
    uint64_t epoch = 99;
    IS(mg_epoch(host, &epoch, NULL, NULL), MG_OK);
    return epoch;
}

/* A command without an effect on the table. */
static int ask(struct mg_host *host) { return mg_status(host, CLIENT, ++request, 999, NULL); }

/* Until the host is in this epoch, and a few commands more. */
static void work_to(struct mg_host *host, uint64_t epoch) {
    uint64_t now = 0;
    for (int i = 0; failures < 20 && now < epoch; i++) {
        IS(ask(host), MG_NO_SUCH_LOCK);
        IS(mg_epoch(host, &now, NULL, NULL), MG_OK);
    }
    for (int i = 0; i < 5; i++)
        IS(ask(host), MG_NO_SUCH_LOCK);
    IS(epoch_of(host), (long)epoch);
}

/* Whoever looks sees the lock. */
static void sees(const char *folder) {
    struct mg_lock_view view;
    struct mg_host *eye = NULL;
    IS(mg_open_to_look(folder, &eye, NULL), MG_OK);
    IS(mg_look(eye, NULL), MG_OK);
    IS(mg_lock(eye, 7, &view), MG_OK);
    IS(view.held, MG_EX);
    mg_close(eye);
}

/* What is told of the new disk. The others are used. */
static void is_told(struct mg_host *host, int status) {
    struct mg_disk_view disks[MG_DISKS];
    size_t count = 0;
    IS(mg_disks(host, disks, MG_DISKS, &count), MG_OK);
    IS(count, DISKS);
    IS(disks[0].status, MG_OK);
    IS(disks[1].status, status);
    IS(disks[2].status, MG_OK);
}

/* The folder in which disk 1 is replaced before the next lock, and its first epoch then. */
static const char *replaced_late;
static uint64_t first_late;

int __real_flock(int file, int how);
int __wrap_flock(int file, int how);

int __wrap_flock(int file, int how) {
    const char *folder = replaced_late;
    replaced_late = NULL;
    if (folder) {
        take_away(folder, 1);
        first_late = replaced(folder, 1, 1);
    }
    return __real_flock(file, how);
}

/* Who has opened the images by then, and locks its number after that, works on the new one. */
static void late(void) {
    const char *folder = laid_out("late");
    struct mg_host *host = opened(folder, HOST);
    struct stat before, after;
    char path[400];
    IS(mg_enqueue(host, CLIENT, ++request, 7, MG_EX, "db", 0, NULL), MG_OK);
    mg_close(host);
    replaced_late = folder;
    host = opened(folder, HOST);
    IS(replaced_late == NULL, 1);
    path_of(path, sizeof path, folder, 1, ".lost");
    IS(stat(path, &before), 0);
    work_to(host, first_late);
    IS(has_no_rows(folder, 1), 0);
    mg_close(host);
    IS(stat(path, &after), 0);
    IS(before.st_mtim.tv_sec == after.st_mtim.tv_sec && before.st_mtim.tv_nsec == after.st_mtim.tv_nsec, 1);
    sees(folder);
}

/* Nothing is written before its first epoch. From then on it stands in for the next one that is lost. */
static void hosts(void) {
    const char *folder = laid_out("hosts");
    struct mg_host *host = opened(folder, HOST);
    uint64_t first;
    IS(mg_enqueue(host, CLIENT, ++request, 7, MG_EX, "db", 0, NULL), MG_OK);
    work_to(host, 1);
    take_away(folder, 1);
    mg_close(host);
    host = opened(folder, HOST);
    IS(ask(host), MG_NO_SUCH_LOCK);
    if (dlm)
        IS(replaces(folder, 1), 1); /* somebody has a host number */
    mg_close(host);
    first = replaced(folder, 1, 3);
    IS(first > 1 && first < 4, 1);
    host = opened(folder, HOST);
    is_told(host, MG_OK);
    for (uint64_t epoch = 1; epoch < first; epoch++) {
        work_to(host, epoch);
        IS(has_no_rows(folder, 1), 1);
        IS(!dlm && !is_blank(folder, 1, "", STANDINGS, SECOND), 0);
        is_told(host, MG_NOT_YET);
        sees(folder);
    }
    work_to(host, first);
    IS(has_no_rows(folder, 1), 0);
    IS(is_blank(folder, 1, "", STANDINGS, SECOND), 0);
    is_told(host, MG_OK);
    mg_close(host);
    /* Another one is lost. What is acknowledged now stands on the new one. */
    take_away(folder, 2);
    host = opened(folder, HOST);
    work_to(host, first + 1);
    IS(is_blank(folder, 1, "", 4096, AREA), 0);
    IS(is_blank(folder, 1, "", SECOND, IMAGE), 0);
    mg_close(host);
    sees(folder);
    take_away(folder, 0);
    bring_back(folder, 2);
    host = opened(folder, HOST);
    work_to(host, first + 2);
    mg_close(host);
    sees(folder);
}

/* It counts in no majority before its first epoch: with another one lost nobody goes on, and nothing is lost. */
static void no_majority(void) {
    const char *folder = laid_out("majority");
    struct mg_host *host = opened(folder, HOST);
    uint64_t first;
    IS(mg_enqueue(host, CLIENT, ++request, 7, MG_EX, "db", 0, NULL), MG_OK);
    mg_close(host);
    take_away(folder, 1);
    first = replaced(folder, 1, 1);
    IS(first > 0, 1);
    take_away(folder, 2);
    host = opened(folder, HOST);
    IS(ask(host), MG_NO_MAJORITY);
    IS(mg_look(host, NULL), MG_NO_MAJORITY);
    mg_close(host);
    IS(has_no_rows(folder, 1), 1);
    bring_back(folder, 2);
    sees(folder);
    host = opened(folder, HOST);
    work_to(host, first);
    mg_close(host);
    take_away(folder, 2);
    host = opened(folder, HOST);
    work_to(host, first + 1);
    mg_close(host);
    sees(folder);
}

/* A session that has the lost image open takes the new one with its next call. So does one to which it was lost before. */
static void sessions(bool is_lost_before) {
    const char *folder = laid_out(is_lost_before ? "lost_before" : "session");
    struct mg_session *session = NULL;
    struct mg_host *host;
    struct mg_held held, kept;
    struct stat before, after;
    char path[400];
    uint64_t first;
    if (is_lost_before)
        take_away(folder, 1);
    IS(mg_begin(folder, HOST, MG_SHARE, &session, NULL), MG_OK);
    IS(mg_take(session, "kept", MG_EX, 0, &kept), MG_OK);
    if (!is_lost_before)
        take_away(folder, 1);
    IS(mg_take(session, "db", MG_EX, 0, &held), MG_OK);
    first = replaced(folder, 1, 1);
    path_of(path, sizeof path, folder, 1, ".lost");
    IS(stat(path, &before), 0);
    IS(mg_give(session, held.lock, NULL), MG_OK);
    IS(has_no_rows(folder, 1), 1);
    host = opened(folder, HOST + 1);
    work_to(host, first);
    mg_close(host);
    for (int i = 0; i < 3; i++) {
        IS(mg_take(session, "db", MG_EX, 0, &held), MG_OK);
        IS(mg_give(session, held.lock, NULL), MG_OK);
    }
    IS(mg_check(session, kept.lock), MG_OK);
    /* Its own blocks are there, beside those of the other host. */
    IS(is_blank(folder, 1, "", (first % 2 ? STANDINGS + 4096 : STANDINGS) + 256 * HOST, (first % 2 ? STANDINGS + 4096 : STANDINGS) + 256 * HOST + 256), 0);
    IS(stat(path, &after), 0);
    IS(before.st_mtim.tv_sec == after.st_mtim.tv_sec && before.st_mtim.tv_nsec == after.st_mtim.tv_nsec, 1);
    take_away(folder, 2);
    IS(mg_take(session, "db", MG_EX, 0, &held), MG_OK);
    IS(mg_give(session, held.lock, NULL), MG_OK);
    IS(mg_give(session, kept.lock, NULL), MG_OK);
    mg_end(session);
}

int main(int argc, char **argv) {
    if (argc < 2 || argc > 3) {
        fprintf(stderr, "usage: replaced FOLDER [DLM]\n");
        return 2;
    }
    work = argv[1];
    dlm = argc == 3 ? argv[2] : NULL;
    hosts();
    no_majority();
    late();
    sessions(false);
    sessions(true);
    printf("replaced: %d failures\n", failures);
    return failures != 0;
}
