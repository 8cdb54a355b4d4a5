/*
 * Folders for several machines: what formatting refuses, which host numbers there are, and whose they are. Prints nothing but that all is as it should be; the
 * status is 3 where the file system takes no O_DIRECT.
 *
 *   shared FOLDER      an empty folder
 */
#ifndef _GNU_SOURCE
#define _GNU_SOURCE
#endif
#include <mg_session.h>

#include "expect.h"

#include <errno.h>
#include <fcntl.h>
#include <stdbool.h>
#include <sys/stat.h>
#include <unistd.h>

static char path[4096], first[2000], second[2000], other_set[2020];

static const char *in(const char *folder, const char *name) {
    snprintf(path, sizeof path, "%s/%s", folder, name);
    return path;
}

/* Names the machine that the folder is of. */
static void name(const char *folder, const char *text) {
    FILE *file = fopen(in(folder, "machine-id"), "w");
    IS(file != NULL, 1);
    fputs(text, file);
    fclose(file);
}

static int opens(const char *folder, unsigned number, int *disk) {
    struct mg_host *host;
    int status, cause;
    errno = 0;
    status = mg_open(folder, number, &host, disk);
    cause = errno;
    mg_close(host);
    errno = cause;
    return status;
}

static const char *machine_of(const char *folder, unsigned number) {
    static char text[33];
    IS(mg_machine_of(folder, number, text, sizeof text), MG_OK);
    return text;
}

#define ONE "00000000000000000000000000000001"
#define TWO "f0000000000000000000000000000002"
#define NAMELESS \
    "this machine has no name: the folder's machine-id has something else, and 32 digits of 0 to 9 and a to f are wanted, not all of them 0"

/* The place of disk 1 is taken in some way: what is said, and that no other disk was made. */
static void refuses(const char *folder, int wanted, const char *why) {
    int disk = 5;
    struct stat facts;
    IS(mg_format_shared(folder, 3, 16, 7, 4, 0, MG_FILES, &disk), wanted);
    IS(disk, 1);
    IS_TEXT(mg_cause(), why);
    IS(lstat(in(folder, "disk0.img"), &facts), -1);
    IS(lstat(in(folder, "disk2.img"), &facts), -1);
    IS(remove(in(folder, "disk1.img")), 0);
}

static void formats(const char *folder) {
    int disk = 5, file;
    struct stat facts;
    IS(mg_format_shared(NULL, 3, 16, 7, 4, 0, 0, &disk), MG_BAD_ARGUMENT);
    IS(disk, -1);
    IS(mg_format_shared(folder, 0, 16, 7, 4, 0, 0, NULL), MG_BAD_ARGUMENT);
    IS(mg_format_shared(folder, 8, 16, 7, 4, 0, 0, NULL), MG_BAD_ARGUMENT);
    IS(mg_format_shared(folder, 3, 4097, 7, 4, 0, 0, NULL), MG_BAD_ARGUMENT);
    IS(mg_format_shared(folder, 3, 16, 7, 0, 0, 0, NULL), MG_BAD_ARGUMENT);
    IS(mg_format_shared(folder, 3, 16, 7, 17, 0, 0, NULL), MG_BAD_ARGUMENT);
    IS(mg_format_shared(folder, 3, 16, 7, 4, 256, 0, NULL), MG_BAD_ARGUMENT);
    IS(mg_format_shared(folder, 3, 16, 7, 4, 8192, 0, NULL), MG_BAD_ARGUMENT);
    IS(mg_format_shared(folder, 3, 16, 7, 4, 0, 8, &disk), MG_BAD_ARGUMENT);
    IS(mg_format_shared(folder, 3, 0, 7, 4, 0, 0, &disk), MG_BAD_ARGUMENT);
    IS(mg_format_shared(folder, 3, 319, 7, 4, 0, MG_ENDLESS, &disk), MG_BAD_ARGUMENT);
    IS(mg_format_shared(folder, 3, 4097, 7, 4, 0, MG_ENDLESS, &disk), MG_BAD_ARGUMENT);
    IS(disk, -1);
    IS_TEXT(mg_cause(), "");
    /* A file is made only where it is asked for. */
    IS(mg_format_shared(folder, 3, 16, 7, 4, 0, 0, &disk), MG_UNREADABLE);
    IS(disk, 0);
    IS_TEXT(mg_cause(), "disk0.img is not there: a link to a block device is wanted, unless files are asked for");
    IS(mg_format_shared(in(folder, "nowhere"), 3, 16, 7, 4, 0, MG_FILES, &disk), MG_UNREADABLE);
    IS(symlink("nowhere", in(folder, "disk1.img")), 0);
    refuses(folder, MG_UNREADABLE, "disk1.img is a link that leads nowhere");
    IS(symlink("/dev/null", in(folder, "disk1.img")), 0);
    refuses(folder, MG_UNREADABLE, "disk1.img is no block device");
    IS(mkdir(in(folder, "disk1.img"), 0777), 0);
    refuses(folder, MG_UNREADABLE, "disk1.img is a folder, and no block device");
    file = open(in(folder, "disk1.img"), O_RDWR | O_CREAT, 0666);
    IS(ftruncate(file, 1 << 20), 0);
    close(file);
    refuses(folder, MG_ALREADY_THERE, "disk1.img is a file that is there");
    IS(stat(in(folder, "disk0.img"), &facts), -1);
    IS(mg_format_shared(folder, 3, 16, 7, 4, 0, MG_FILES, &disk), MG_OK);
    IS_TEXT(mg_cause(), "");
    IS(stat(in(folder, "disk2.img"), &facts), 0);
    IS(facts.st_size, 4096 + 17 * 4 * 4096);
    IS(mg_format_shared(folder, 3, 16, 7, 4, 0, MG_FILES, &disk), MG_ALREADY_THERE);
    IS_TEXT(mg_cause(), "disk0.img is formatted");
    IS(mg_format(folder, 3, 16, 7, &disk), MG_ALREADY_THERE);
}

/* The same images, from the folder of another machine. */
static void link_to(const char *from, const char *to) {
    char image[16], target[4096];
    IS(mkdir(to, 0777), 0);
    for (int k = 0; k < 3; k++) {
        snprintf(image, sizeof image, "disk%d.img", k);
        snprintf(target, sizeof target, "%s/%s", from, image);
        IS(symlink(target, in(to, image)), 0);
    }
}

static void move(const char *from, const char *to) {
    char source[4096];
    strcpy(source, in(second, from));
    IS(rename(source, in(second, to)), 0);
}

/* What a look sees of the images, and as which other disk each is formatted. */
static void looks(const char *folder, const int *other) {
    struct mg_image_view views[MG_DISKS];
    struct mg_host *eye;
    size_t count;
    IS(mg_open_to_look(folder, &eye, NULL), MG_OK);
    IS(mg_images(eye, NULL, 1, NULL), MG_BAD_ARGUMENT);
    IS(mg_images(eye, NULL, 0, &count), MG_OK);
    IS(count, 3);
    IS(mg_images(eye, views, MG_DISKS, NULL), MG_OK);
    for (unsigned k = 0; k < count; k++) {
        IS(views[k].disk == k && views[k].other == other[k] && views[k].read_only == 0, true);
        IS(views[k].kind, other[k] < 0 ? MG_SHARED_IMAGE : MG_FILE_IMAGE);
        IS(other[k] >= 0 || (views[k].sector == 4096 && views[k].hosts == 4), true);
    }
    mg_close(eye);
}

static void numbers(void) {
    struct mg_host *host, *eye;
    struct mg_host_view facts;
    uint64_t learned = 0;
    int disk;
    IS_TEXT(machine_of(first, 0), "");
    IS(opens(first, 4, &disk), MG_BAD_ARGUMENT);
    IS_TEXT(mg_cause(), "disk0.img has host numbers from 0 to 3, and 4 was given");
    IS(mg_take_number(first, 4, &disk), MG_BAD_ARGUMENT);
    IS(mg_take_number(first, 16, &disk), MG_BAD_ARGUMENT);
    IS(mg_machine_of(first, 0, path, 32), MG_BAD_ARGUMENT);
    IS(mg_machine_of(first, 0, NULL, 40), MG_BAD_ARGUMENT);

    /* A machine without a name has no number, and may look. */
    name(first, "");
    IS(opens(first, 0, &disk), MG_NO_LOCK);
    IS_TEXT(mg_cause(), NAMELESS);
    name(first, "00000000000000000000000000000000\n");
    IS(opens(first, 0, &disk), MG_NO_LOCK);
    IS_TEXT(mg_cause(), NAMELESS);
    name(first, "0000000000000000000000000000000G\n");
    IS(opens(first, 0, &disk), MG_NO_LOCK);
    IS_TEXT(mg_cause(), NAMELESS);
    IS(mg_open_to_look(first, &eye, &disk), MG_OK);
    IS(mg_look(eye, &learned), MG_OK);
    mg_close(eye);
    IS_TEXT(machine_of(first, 0), "");
    name(first, ONE "\n");
    name(second, TWO "\n");

    /* The first that opens a number has it, in whatever folder, and another machine has another number. */
    IS(mg_open(first, 0, &host, &disk), MG_OK);
    IS_TEXT(machine_of(second, 0), ONE);
    IS(mg_enqueue(host, 1, 1, 1, MG_EX, "db", 0, NULL), MG_OK);
    IS(opens(second, 0, &disk), MG_HOST_IN_USE);
    IS(errno, EREMOTE);
    IS(opens(first, 0, &disk), MG_HOST_IN_USE);
    IS(errno, EWOULDBLOCK);
    IS(mg_take_number(first, 0, &disk), MG_HOST_IN_USE);
    mg_close(host);
    IS(opens(second, 0, &disk), MG_HOST_IN_USE);
    IS(opens(first, 0, &disk), MG_OK);
    IS(opens(second, 1, &disk), MG_OK);
    IS(opens(first, 1, &disk), MG_HOST_IN_USE);
    IS_TEXT(machine_of(first, 1), TWO);

    /* Until it is taken. What its first machine acknowledged is there. */
    IS(mg_take_number(second, 0, &disk), MG_OK);
    IS_TEXT(machine_of(first, 0), TWO);
    IS(opens(first, 0, &disk), MG_HOST_IN_USE);
    IS(errno, EREMOTE);
    IS(mg_open(second, 0, &host, &disk), MG_OK);
    IS(mg_refresh(host, &learned), MG_OK);
    IS(learned, 1);
    IS(mg_host_facts(host, &facts), MG_OK);
    IS(facts.slots, 16);
    mg_close(host);

    /* Half of the images or fewer say nothing. With one of three away all goes on, and it gets the name when it is back. */
    move("disk0.img", "away0");
    IS(opens(second, 2, &disk), MG_OK);
    move("disk1.img", "away1");
    IS(opens(second, 2, &disk), MG_NO_MAJORITY);
    IS_TEXT(mg_cause(), "half of the devices or fewer tell whose host number 2 is; disk0.img: No such file or directory; disk1.img: No such file or directory");
    IS(opens(second, 3, &disk), MG_NO_MAJORITY);
    IS(mg_take_number(second, 3, &disk), MG_NO_MAJORITY);
    IS(mg_open_to_look(second, &eye, &disk), MG_OK);
    mg_close(eye);
    /* A link leads to a device of another set. */
    IS(mkdir(in(second, "other"), 0777), 0);
    snprintf(other_set, sizeof other_set, "%s/other", second);
    IS(mg_format_shared(other_set, 3, 16, 8, 4, 0, MG_FILES, NULL), MG_OK);
    move("other/disk2.img", "disk2.other");
    move("disk2.img", "away2");
    move("disk2.other", "disk2.img");
    move("away0", "disk0.img");
    IS(opens(second, 2, &disk), MG_WRONG_HEADER);
    IS(disk, 2);
    IS_TEXT(mg_cause(), "disk2.img is of another set than an image before it");
    move("disk0.img", "away0");
    move("away2", "disk2.img");
    /* Two links are exchanged. */
    move("away1", "disk0.img");
    move("away0", "disk1.img");
    IS(opens(second, 2, &disk), MG_NO_MAJORITY);
    IS_TEXT(mg_cause(), "half of the devices or fewer tell whose host number 2 is; disk0.img is formatted as disk 1; disk1.img is formatted as disk 0");
    looks(second, (const int[]){1, 0, -1});
    move("disk0.img", "away1");
    move("disk1.img", "disk0.img");
    move("away1", "disk1.img");
    looks(second, (const int[]){-1, -1, -1});
    IS_TEXT(machine_of(first, 3), "");
    IS(opens(first, 2, &disk), MG_HOST_IN_USE);
    IS(opens(second, 2, &disk), MG_OK);
}

/* A device that has become too short is told as that, and not as a wrong image. */
static void cut(void) {
    int disk = 5;
    snprintf(other_set, sizeof other_set, "%s/cut", second);
    IS(mkdir(other_set, 0777), 0);
    IS(mg_format_shared(other_set, 1, 16, 8, 4, 0, MG_FILES, NULL), MG_OK);
    IS(truncate(in(other_set, "disk0.img"), 4096 + 17 * 4 * 4096 - 1), 0);
    IS(opens(other_set, 0, &disk), MG_WRONG_HEADER);
    IS(disk, 0);
    IS_TEXT(mg_cause(), "disk0.img has the header of a device of several machines, and is damaged or too short for that");
}

/* A session of a number that is another machine's ends at once, also one that shares the number. */
static void sessions(void) {
    struct mg_session *session;
    struct mg_held held;
    unsigned purged;
    IS(mg_begin(first, 2, 0, &session, NULL), MG_HOST_IN_USE);
    IS(mg_begin(first, 2, MG_SHARE, &session, NULL), MG_OK);
    IS(mg_take(session, "db", MG_PR, 0, &held), MG_HOST_IN_USE);
    mg_end(session);
    IS(mg_begin(first, 3, 0, &session, NULL), MG_OK);
    IS(mg_take(session, "other", MG_EX, 0, &held), MG_OK);
    /* Who is dead on another machine is not known. */
    IS(mg_purge_dead(session, 1, &purged), MG_HOST_IN_USE);
    IS(mg_give(session, held.lock, NULL), MG_OK);
    mg_end(session);
}

int main(int argc, char **argv) {
    int file;
    if (argc != 2)
        return 2;
    snprintf(first, sizeof first, "%s/first", argv[1]);
    snprintf(second, sizeof second, "%s/second", argv[1]);
    file = open(in(argv[1], "tried"), O_RDWR | O_CREAT | O_DIRECT, 0666);
    if (file < 0 && errno == EINVAL)
        return 3;
    close(file);
    IS(mkdir(first, 0777), 0);
    formats(first);
    link_to(first, second);
    numbers();
    cut();
    sessions();
    /* A folder of ordinary images has no machines. */
    IS(mkdir(in(argv[1], "plain"), 0777), 0);
    IS(mg_format(path, 1, 4, 8, NULL), MG_OK);
    snprintf(first, sizeof first, "%s/plain", argv[1]);
    IS(mg_take_number(first, 0, NULL), MG_BAD_ARGUMENT);
    IS_TEXT(mg_cause(), "the folder has no devices of several machines");
    IS_TEXT(machine_of(first, 0), "");
    IS(opens(first, 15, NULL), MG_OK);
    if (failures == 0)
        puts("shared: as it should be");
    return failures != 0;
}
