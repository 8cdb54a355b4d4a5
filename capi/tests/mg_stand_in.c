/*
 * In the place of the library, for tests/mg_front.py: mg asks it for a host number and whether images are devices. A folder is one where it has
 * disk0.img: its first word says what the images are, "file", "device", or the number of a refusal. Host numbers are locked as by the library. In the
 * folder the file `locks` has a line for each lock of the table, with its client and host. Linked with -Wl,--wrap=statfs: by the variable FILE_SYSTEM all
 * whose path ends so is on a file system of that type, as in "disk0.img 6969".
 */
#ifndef _GNU_SOURCE
#define _GNU_SOURCE
#endif
#include <midgegalena.h>

#include <errno.h>
#include <fcntl.h>
#include <stdio.h>
#include <stdlib.h>
#include <string.h>
#include <sys/file.h>
#include <sys/vfs.h>
#include <unistd.h>

struct mg_host {
    char folder[4096];
    int lock;
    int kind;
};

static char cause[256];

int __real_statfs(const char *path, struct statfs *into);
int __wrap_statfs(const char *path, struct statfs *into);

int __wrap_statfs(const char *path, struct statfs *into) {
    const char *given = getenv("FILE_SYSTEM");
    char end[32];
    unsigned type;
    int status = __real_statfs(path, into);
    if (given && sscanf(given, "%31s %x", end, &type) == 2 && strlen(path) >= strlen(end) && strcmp(path + strlen(path) - strlen(end), end) == 0)
        into->f_type = (int)type;
    return status;
}

const char *mg_version(void) { return "0.0"; }
const char *mg_cause(void) { return cause; }
const char *mg_strerror(int status) { return status == MG_OK ? "well" : "somebody says why"; }
const char *mg_name(int status) { return status == MG_HOST_IN_USE ? "HostInUse" : status == MG_NO_LOCK ? "NoLock" : "Unreadable"; }

static int open_images(const char *folder, struct mg_host **out, int *disk) {
    char path[4200], word[16] = "";
    FILE *image;
    struct mg_host *host = calloc(1, sizeof *host);
    int number = 0;
    cause[0] = '\0';
    *out = NULL;
    snprintf(path, sizeof path, "%s/disk0.img", folder);
    image = fopen(path, "r");
    if (image) {
        if (fscanf(image, "%15s", word) == 1)
            number = atoi(word);
        fclose(image);
    }
    if (!host || !image || number) {
        snprintf(cause, sizeof cause, "disk0.img: %s", image ? "it is so" : strerror(errno));
        *disk = 0;
        free(host);
        return number ? number : MG_UNREADABLE;
    }
    snprintf(host->folder, sizeof host->folder, "%s", folder);
    host->lock = -1;
    host->kind = strcmp(word, "device") == 0 ? MG_DEVICE_IMAGE : MG_FILE_IMAGE;
    *out = host;
    return MG_OK;
}

int mg_open_to_look(const char *folder, struct mg_host **out, int *disk) { return open_images(folder, out, disk); }

int mg_open(const char *folder, unsigned number, struct mg_host **out, int *disk) {
    char path[4200];
    int status = open_images(folder, out, disk);
    if (status != MG_OK)
        return status;
    snprintf(path, sizeof path, "%s/host%u.lock", folder, number);
    (*out)->lock = open(path, O_RDWR | O_CREAT | O_CLOEXEC, 0666);
    if ((*out)->lock >= 0 && flock((*out)->lock, LOCK_EX | LOCK_NB) == 0)
        return MG_OK;
    status = errno == EWOULDBLOCK ? MG_HOST_IN_USE : MG_NO_LOCK;
    if (status == MG_NO_LOCK)
        snprintf(cause, sizeof cause, "host%u.lock can be neither made nor opened: %s", number, strerror(errno));
    mg_close(*out);
    *out = NULL;
    return status;
}

void mg_close(struct mg_host *host) {
    if (host && host->lock >= 0)
        close(host->lock);
    free(host);
}

int mg_images(struct mg_host *host, struct mg_image_view *into, size_t room, size_t *count) {
    memset(into, 0, room * sizeof *into);
    into[0].kind = host->kind;
    *count = 1;
    return MG_OK;
}

int mg_look(struct mg_host *host, uint64_t *learned) {
    (void)host;
    (void)learned;
    return MG_OK;
}

int mg_locks(struct mg_host *host, struct mg_lock_view *into, size_t room, size_t *count) {
    char path[4200];
    FILE *locks;
    *count = 0;
    snprintf(path, sizeof path, "%s/locks", host->folder);
    locks = fopen(path, "r");
    while (locks && *count < room && fscanf(locks, "%u %u", &into[*count].client, &into[*count].host) == 2)
        ++*count;
    if (locks)
        fclose(locks);
    return MG_OK;
}
