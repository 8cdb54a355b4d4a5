/*
 * dlm-shared: words of dlm over devices that several machines use at once, by the library. It prints what dlm prints, and ends with the same statuses; of wrong words
 * it says which, and what is wanted.
 * man man/dlm-shared.1 says how it is used. No proof covers this file.
 */
#ifndef _GNU_SOURCE
#define _GNU_SOURCE
#endif
#include <midgegalena.h>

#include "device.h"

#include <errno.h>
#include <fcntl.h>
#include <signal.h>
#include <stdio.h>
#include <stdlib.h>
#include <string.h>
#include <sys/stat.h>
#include <sys/wait.h>
#include <unistd.h>

enum { REFUSED = 1, WRONG = 2, NO_PROGRAM = 127, PATH_LENGTH = 4096, LONGEST_WORD = 100 };

static const uint64_t LAST_REQUEST = (uint64_t)1 << 62;

static const char *const MODES[] = {"NL", "CR", "CW", "PR", "PW", "EX"};

/* What ends a check, which then has its copies to remove. */
static const int ENDS[] = {SIGHUP, SIGINT, SIGTERM};
static volatile sig_atomic_t stopped;

static void stop(int number) { stopped = number; }

/* ---- saying ---- */

/* A word as it may stand in a line. */
static const char *shown(const char *word) {
    size_t length = strlen(word);
    for (const char *at = word; *at; at++)
        if (*at < 0x21 || *at > 0x7E)
            return "..";
    return length >= 1 && length <= LONGEST_WORD ? word : "..";
}

/* Says which word is wrong, or is missing, and what is wanted in its place. */
static int wrong(const char *name, const char *word, const char *wanted) {
    if (word)
        fprintf(stderr, "dlm-shared: %s is %s: %s\n", name, shown(word), wanted);
    else
        fprintf(stderr, "dlm-shared: %s is missing: %s\n", name, wanted);
    return WRONG;
}

static void help(void) {
    puts("usage: dlm-shared format FOLDER DISKS CLUSTER [nodsync] [files]\n"
         "       dlm-shared format FOLDER DISKS SLOTS CLUSTER [HOSTS [SECTOR]] [nodsync] [files]\n"
         "       dlm-shared submit FOLDER HOST COMMAND...\n"
         "       dlm-shared table FOLDER HOST\n"
         "       dlm-shared mark FOLDER HOST\n"
         "       dlm-shared check FOLDER\n"
         "       dlm-shared export FOLDER INTO\n"
         "       dlm-shared take FOLDER HOST\n"
         "Does what dlm does, over devices that several machines use at once. mg-lock --help has the words of COMMAND.\n"
         "Without SLOTS, or with - there, the log has no end.\n"
         "\n"
         "  -h, --help; -V, --version\n"
         "\n"
         "Exit status: 0 done; 1 refused, or a check found something; 2 wrong words, or declined; 127 check found no dlm.");
}

/* What cannot be done over such devices, and why. */
static int decline(const char *what, const char *why) {
    fprintf(stderr, "dlm-shared: %s: %s\n", what, why);
    return WRONG;
}

/* "dlm: 26 Unreadable disk1", as dlm has it, and what there is to add; a host number that is another machine's has that one's name behind it. One line, by one write. */
static int refuse(int status, const char *folder, unsigned host, int disk) {
    char machine[33] = "", whose[32] = "", why[512];
    bool is_elsewhere = status == MG_HOST_IN_USE && errno == EREMOTE;
    if (status < 0) {
        fprintf(stderr, "dlm-shared: %s\n", mg_cause()[0] ? mg_cause() : mg_strerror(status));
        return WRONG;
    }
    snprintf(why, sizeof why, "%s", mg_cause());
    if (status == MG_HOST_IN_USE || status == MG_NO_LOCK)
        snprintf(whose, sizeof whose, " host%u", host);
    else if (disk >= 0)
        snprintf(whose, sizeof whose, " disk%d", disk);
    if (is_elsewhere)
        (void)mg_machine_of(folder, host, machine, sizeof machine);
    fprintf(stderr, "dlm: %d %s%s%s%s%s%s%s\n", status, mg_name(status), whose, machine[0] ? " " : "", machine, why[0] ? " (" : "", why, why[0] ? ")" : "");
    return REFUSED;
}

/* Whether all that was printed has gone out. */
static int ended(void) { return fflush(stdout) == 0 && !ferror(stdout) ? 0 : REFUSED; }

/* ---- words ---- */

/* Digits without a sign and without leading zeros. */
static bool number(const char *word, uint64_t most, uint64_t *into) {
    *into = 0;
    if (word[0] == '\0' || (word[0] == '0' && word[1] != '\0'))
        return false;
    for (; *word; word++) {
        unsigned digit = (unsigned)*word - '0';
        if (digit > 9 || digit > most || *into > (most - digit) / 10)
            return false;
        *into = 10 * *into + digit;
    }
    return *into <= most;
}

/* The same with a range. Where the word is none of it, that is said. */
static bool number_of(const char *name, const char *word, uint64_t least, uint64_t most, uint64_t *into) {
    char range[48];
    if (word && number(word, most, into) && *into >= least)
        return true;
    snprintf(range, sizeof range, "%llu to %llu", (unsigned long long)least, (unsigned long long)most);
    wrong(name, word, range);
    return false;
}

static bool mode_of(const char *word, int *into) {
    for (*into = MG_NL; word && *into <= MG_EX; ++*into)
        if (strcmp(word, MODES[*into]) == 0)
            return true;
    wrong("MODE", word, "NL, CR, CW, PR, PW or EX");
    return false;
}

/* The library judges the name's bytes again. */
static bool name_of(const char *word, const char **into) {
    *into = word;
    if (word && word[0] != '\0' && strlen(word) <= MG_NAME_LENGTH && strcmp(shown(word), word) == 0)
        return true;
    wrong("NAME", word, "1 to 15 bytes from 0x21 to 0x7E");
    return false;
}

static bool value_of(const char *word, uint8_t *into) {
    static const char digits[] = "0123456789abcdef";
    bool is_value = word && strlen(word) == 2 * MG_VALUE_LENGTH && strspn(word, digits) == 2 * MG_VALUE_LENGTH;
    for (int i = 0; i < 2 * MG_VALUE_LENGTH && is_value; i++)
        into[i / 2] = (uint8_t)(into[i / 2] << 4 | (strchr(digits, word[i]) - digits));
    if (!is_value)
        wrong("VALUE", word, "32 digits of 0 to 9 and a to f");
    return is_value;
}

static bool no_more(char **words) {
    if (*words)
        fprintf(stderr, "dlm-shared: %s is a word too many: see dlm-shared --help\n", shown(*words));
    return !*words;
}

/* Takes the word, if it comes next. */
static bool takes_next(char ***words, const char *word) {
    bool is_there = **words && strcmp(**words, word) == 0;
    *words += is_there;
    return is_there;
}

/* ---- commands ---- */

enum kind { ENQUEUE, CONVERT, RELEASE, CANCEL, STATUS, PURGE, FORGET, KINDS };

/* What comes in each after the client and the request: a number of this range, and more. */
static const struct {
    const char *word, *number;
    uint64_t least, most;
    bool has_mode, has_name, may_give;
} WORDS_OF[KINDS] = {
    {"enqueue", "LOCK", 1, 65535, true, true, false},    {"convert", "LOCK", 1, 65535, true, false, true},
    {"release", "LOCK", 1, 65535, false, false, true},   {"cancel", "LOCK", 1, 65535, false, false, false},
    {"status", "LOCK", 1, 65535, false, false, false},   {"purge", "HOST", 0, MG_HOSTS - 1, false, false, false},
    {"forget", "FORGOTTEN", 0, 255, false, false, false},
};

struct command {
    enum kind kind;
    unsigned client, number, flags;
    uint64_t request;
    int mode;
    const char *name;
    bool gives;
    uint8_t value[MG_VALUE_LENGTH];
};

/* Reads the words after the host, up to NULL. If they spell no command, it is said which is wrong. */
static bool read_command(char **words, struct command *into) {
    uint64_t client, number;
    memset(into, 0, sizeof *into);
    while (into->kind < KINDS && *words && strcmp(*words, WORDS_OF[into->kind].word) != 0)
        into->kind++;
    if (!*words || into->kind == KINDS) {
        wrong("COMMAND", *words, "enqueue, convert, release, cancel, status, purge or forget");
        return false;
    }
    if (!number_of("CLIENT", *++words, 0, 255, &client) || !number_of("REQUEST", *++words, 1, LAST_REQUEST, &into->request) ||
        !number_of(WORDS_OF[into->kind].number, *++words, WORDS_OF[into->kind].least, WORDS_OF[into->kind].most, &number))
        return false;
    into->client = (unsigned)client;
    into->number = (unsigned)number;
    if (WORDS_OF[into->kind].has_mode && !mode_of(*++words, &into->mode))
        return false;
    if (WORDS_OF[into->kind].has_name && !name_of(*++words, &into->name))
        return false;
    words++;
    if (WORDS_OF[into->kind].has_mode && takes_next(&words, "noqueue"))
        into->flags = MG_NO_QUEUE;
    into->gives = WORDS_OF[into->kind].may_give && takes_next(&words, "value");
    if (into->gives && !value_of(*words++, into->value))
        return false;
    return no_more(words);
}

static int submit_it(struct mg_host *host, const struct command *it, struct mg_answer *answer) {
    switch (it->kind) {
    case ENQUEUE: return mg_enqueue(host, it->client, it->request, it->number, it->mode, it->name, it->flags, answer);
    case CONVERT:
        if (it->gives)
            return mg_convert_value(host, it->client, it->request, it->number, it->mode, it->flags, it->value, answer);
        return mg_convert(host, it->client, it->request, it->number, it->mode, it->flags, answer);
    case RELEASE:
        if (it->gives)
            return mg_release_value(host, it->client, it->request, it->number, it->value, answer);
        return mg_release(host, it->client, it->request, it->number, answer);
    case CANCEL: return mg_cancel(host, it->client, it->request, it->number, answer);
    case STATUS: return mg_status(host, it->client, it->request, it->number, answer);
    case PURGE: return mg_purge(host, it->client, it->request, it->number, answer);
    default: return mg_forget(host, it->client, it->request, it->number, answer);
    }
}

static const char *mode_text(int mode) { return mode >= MG_NL && mode <= MG_EX ? MODES[mode] : "-"; }

/* The value of the lock's name as it is printed; "" where that is not shown. */
static void show_value(struct mg_host *host, unsigned lock, char text[48]) {
    static const uint8_t zeros[MG_VALUE_LENGTH];
    struct mg_value value;
    text[0] = '\0';
    if (mg_value(host, lock, &value) != MG_OK)
        return;
    if ((value.flags & MG_VALID) && memcmp(value.bytes, zeros, sizeof zeros) == 0)
        return;
    for (int i = 0; i < MG_VALUE_LENGTH; i++)
        snprintf(text + 2 * i, 3, "%02x", value.bytes[i]);
    if (!(value.flags & MG_VALID))
        strcat(text, " invalid");
}

/* Of an operation: without a majority, which disks are not there, or may only be read. */
static int refuse_operation(int status, struct mg_host *host, const char *folder, unsigned number_of_host) {
    struct mg_image_view images[MG_DISKS];
    struct mg_disk_view disks[MG_DISKS];
    char why[512] = "";
    size_t count = 0, length = 0;
    if (status != MG_NO_MAJORITY || mg_images(host, images, MG_DISKS, NULL) != MG_OK || mg_disks(host, disks, MG_DISKS, &count) != MG_OK)
        return refuse(status, folder, number_of_host, -1);
    for (size_t k = 0; k < count; k++)
        if (disks[k].status != MG_OK || images[k].read_only)
            length += (size_t)snprintf(why + length, sizeof why - length, "%sdisk%zu%s%s%s", length ? "; " : " (", k, disks[k].status == MG_OK ? "" : " ",
                                       disks[k].status == MG_OK ? "" : mg_name(disks[k].status), images[k].read_only ? " is read only" : "");
    fprintf(stderr, "dlm: %d %s%s%s\n", status, mg_name(status), why, length ? ")" : "");
    return REFUSED;
}

/* One line, by one write. */
static int submit(struct mg_host *host, const char *folder, unsigned number_of_host, const struct command *it) {
    static const char *const replies[] = {"", "", "Queued", "Released", "Cancelled"};
    struct mg_answer answer = {-1, MG_NO_REPLY, 0, MG_NONE, MG_NONE};
    char value[48], reply[128], line[160];
    int length, status = submit_it(host, it, &answer);
    if (answer.slot < 0)
        return refuse_operation(status, host, folder, number_of_host);
    show_value(host, it->number, value);
    if (answer.reply == MG_PURGED)
        snprintf(reply, sizeof reply, "Purged(%u)", (unsigned)answer.purged);
    else if (answer.reply == MG_STATE)
        snprintf(reply, sizeof reply, "State(held=%s, wanted=%s%s%s)", mode_text(answer.held), mode_text(answer.wanted),
                 answer.held != MG_NONE && value[0] ? ", value=" : "", answer.held != MG_NONE ? value : "");
    else if (answer.reply == MG_GRANTED)
        snprintf(reply, sizeof reply, value[0] ? "Granted(%s)" : "Granted%s", value);
    else if (answer.reply > MG_GRANTED && answer.reply <= MG_CANCELLED)
        snprintf(reply, sizeof reply, "%s", replies[answer.reply]);
    else if (answer.reply == MG_FORGOTTEN)
        snprintf(reply, sizeof reply, "Forgotten");
    else
        snprintf(reply, sizeof reply, "%d %s", status, mg_name(status));
    length = snprintf(line, sizeof line, "ack %lld %s\n", (long long)answer.slot, reply);
    return write(STDOUT_FILENO, line, (size_t)length) == length ? 0 : REFUSED;
}

static int table(struct mg_host *host, const char *folder, unsigned number_of_host) {
    static char text[MG_TEXT_SIZE + 1];
    uint64_t learned;
    int status = mg_refresh(host, &learned);
    if (status == MG_OK)
        status = mg_text(host, text, sizeof text, NULL);
    if (status != MG_OK)
        return refuse_operation(status, host, folder, number_of_host);
    printf("recovered %llu\n%s", (unsigned long long)learned, text);
    return ended();
}

/* What a look learns has its mark already. */
static int mark(struct mg_host *host, const char *folder, unsigned number_of_host) {
    uint64_t before, learned;
    int status = mg_look(host, &before);
    if (status == MG_OK)
        status = mg_mark(host, &learned);
    if (status != MG_OK)
        return refuse_operation(status, host, folder, number_of_host);
    printf("recovered %llu\nmarked %llu slots\n", (unsigned long long)learned, (unsigned long long)(learned - before));
    return ended();
}

/* Images that dlm makes are for the processes of one machine: over devices that several machines see, and through their pages, commands are lost. So they are refused,
 * before a host number is locked or taken. A folder that cannot be looked at is refused by whoever opens it, or says itself what is wrong. */
static int refuse_others(const char *folder) {
    struct mg_image_view images[MG_DISKS];
    struct mg_disk_view disks[MG_DISKS];
    struct mg_host *host;
    size_t count = 0;
    int disk, status = mg_open_to_look(folder, &host, &disk);
    if (status == MG_WRONG_HEADER)
        return refuse(status, folder, 0, disk);
    if (status != MG_OK)
        return 0;
    if (mg_images(host, images, MG_DISKS, NULL) != MG_OK || mg_disks(host, disks, MG_DISKS, &count) != MG_OK)
        count = 0;
    mg_close(host);
    for (size_t k = 0; k < count; k++)
        if (disks[k].status == MG_OK && images[k].kind != MG_SHARED_IMAGE) {
            fprintf(stderr, "dlm: %d %s disk%zu (an image for the processes of one machine alone: dlm and mg-lock work on it)\n", MG_WRONG_HEADER,
                    mg_name(MG_WRONG_HEADER), k);
            return REFUSED;
        }
    return 0;
}

/* HOST, and the words of a command, or none. */
static int over_host(const char *task, const char *folder, char **words) {
    struct mg_host *host;
    struct command it;
    uint64_t n;
    int disk, result, status;
    bool submits = strcmp(task, "submit") == 0;
    if (!number_of("HOST", words[0], 0, MG_HOSTS - 1, &n) || !(submits ? read_command(words + 1, &it) : no_more(words + 1)))
        return WRONG;
    if (refuse_others(folder) != 0)
        return REFUSED;
    status = mg_open(folder, (unsigned)n, &host, &disk);
    if (status != MG_OK)
        return refuse(status, folder, (unsigned)n, disk);
    if (submits)
        result = submit(host, folder, (unsigned)n, &it);
    else
        result = strcmp(task, "table") == 0 ? table(host, folder, (unsigned)n) : mark(host, folder, (unsigned)n);
    mg_close(host);
    return result;
}

static int take(const char *folder, char **words) {
    char machine[33];
    uint64_t n;
    int disk, status;
    if (!number_of("HOST", words[0], 0, MG_HOSTS - 1, &n) || !no_more(words + 1))
        return WRONG;
    if (refuse_others(folder) != 0)
        return REFUSED;
    status = mg_take_number(folder, (unsigned)n, &disk);
    if (status == MG_OK)
        status = mg_machine_of(folder, (unsigned)n, machine, sizeof machine);
    if (status != MG_OK)
        return refuse(status, folder, (unsigned)n, disk);
    printf("host%u %s\n", (unsigned)n, machine);
    return ended();
}

/* What a set of devices is to be. */
struct set {
    uint64_t disks, slots, cluster, hosts, sector;
    unsigned flags;
};

/* Takes a word off the end, if it stands there. */
static bool takes_last(size_t *count, char **words, const char *word) {
    bool is_there = *count > 0 && strcmp(words[*count - 1], word) == 0;
    *count -= is_there;
    if (is_there)
        words[*count] = NULL;
    return is_there;
}

static bool sector_of(const char *word, uint64_t *into) {
    if (number(word, DEVICE_LONGEST_SECTOR, into) && *into >= DEVICE_LONGEST_SECTOR / 8 && (*into & (*into - 1)) == 0)
        return true;
    wrong("SECTOR", word, "512, 1024, 2048 or 4096");
    return false;
}

/* The slots of a log that ends, and - for one without an end. */
static bool slots_of(const char *word, struct set *into) {
    if (strcmp(word, "-") == 0)
        into->flags |= MG_ENDLESS;
    else if (!number(word, MG_SLOTS, &into->slots) || into->slots == 0) {
        wrong("SLOTS", word, "1 to 4096, or - for a log without an end");
        return false;
    }
    return true;
}

/* Reads DISKS [SLOTS] CLUSTER [HOSTS [SECTOR]] [nodsync] [files], up to NULL. Where one word follows DISKS it is CLUSTER. */
static bool read_set(char **words, struct set *into) {
    size_t count = 0;
    memset(into, 0, sizeof *into);
    into->hosts = MG_HOSTS;
    while (words[count])
        count++;
    into->flags |= takes_last(&count, words, "files") ? MG_FILES : 0;
    into->flags |= takes_last(&count, words, "nodsync") ? MG_NO_DSYNC : 0;
    into->flags |= count < 3 ? MG_ENDLESS : 0;
    if (!number_of("DISKS", words[0], 1, MG_DISKS, &into->disks) || (count > 2 && !slots_of(words[1], into)))
        return false;
    words += count > 2 ? 2 : 1;
    if (!number_of("CLUSTER", *words++, 0, UINT64_MAX, &into->cluster))
        return false;
    if (*words && !number_of("HOSTS", *words++, 1, MG_HOSTS, &into->hosts))
        return false;
    if (*words && !sector_of(*words++, &into->sector))
        return false;
    return no_more(words);
}

static int format(const char *folder, char **words) {
    struct set set;
    int disk = -1, status;
    if (!read_set(words, &set))
        return WRONG;
    status = mg_format_shared(folder, (unsigned)set.disks, (unsigned)set.slots, set.cluster, (unsigned)set.hosts, (unsigned)set.sector, set.flags, &disk);
    if (status == MG_BAD_ARGUMENT && disk >= 0)
        return decline("format", mg_cause());
    if (status != MG_OK)
        return refuse(status, folder, 0, disk);
    if (set.flags & MG_ENDLESS)
        printf("formatted %u disks, %u slots an epoch\n", (unsigned)set.disks, MG_EPOCH_SLOTS);
    else
        printf("formatted %u disks, %u slots\n", (unsigned)set.disks, (unsigned)set.slots);
    return ended();
}

/* ---- images as dlm has them ---- */

/* Copies a device as the image that it shows. Of anything else the first bytes are copied, so that a check tells what is wrong with it. */
static bool copy_image(int from, unsigned disk, FILE *to, uint8_t *room) {
    struct device how;
    struct header shown;
    struct row row;
    if (!device_find(from, disk, room, &how, &shown))
        return device_first(from, room) && fwrite(room, 1, DEVICE_FIRST, to) == DEVICE_FIRST;
    memset(&row, 0, sizeof row);
    memcpy(row.bytes, shown.bytes, sizeof shown.bytes);
    for (uint64_t at = DEVICE_ROW; fwrite(row.bytes, 1, sizeof row.bytes, to) == sizeof row.bytes; at += DEVICE_ROW)
        if (at == shown.size)
            return true;
        else if (stopped || !device_read(from, &how, room, at, &row))
            return false;
    return false;
}

/* Copies what there is of disk0.img to disk6.img. An image that cannot be read to its end has no copy. */
static int copies(const char *folder, const char *into, mode_t mode, unsigned *count) {
    char path[PATH_LENGTH], copy[PATH_LENGTH];
    uint8_t *room = device_room();
    int result = room ? 0 : REFUSED;
    *count = 0;
    for (unsigned k = 0; k < MG_DISKS && room && !stopped; k++) {
        int from, to;
        FILE *out;
        bool done;
        snprintf(path, sizeof path, "%s/disk%u.img", folder, k);
        snprintf(copy, sizeof copy, "%s/disk%u.img", into, k);
        from = open(path, O_RDONLY | O_DIRECT | O_CLOEXEC);
        if (from < 0 && errno == ENOENT)
            continue;
        to = open(copy, O_WRONLY | O_CREAT | O_EXCL | O_CLOEXEC, mode);
        out = to >= 0 ? fdopen(to, "wb") : NULL;
        done = from >= 0 && out && copy_image(from, k, out, room);
        if (from >= 0)
            close(from);
        if (out)
            done = fclose(out) == 0 && done;
        *count += done;
        if (!done) {
            if (!stopped)
                fprintf(stderr, "dlm-shared: disk%u: %s\n", k, to < 0 ? "it has no room for a copy, or there is one" : "not copied to its end");
            result = REFUSED;
            if (to >= 0)
                unlink(copy);
        }
    }
    free(room);
    return result;
}

static int export_images(const char *folder, const char *into) {
    unsigned count;
    int result;
    if (refuse_others(folder) != 0)
        return REFUSED;
    result = copies(folder, into, 0666, &count);
    printf("exported %u images\n", count);
    return result == 0 ? ended() : result;
}

/* Runs dlm check over a folder. A signal that ends this process ends that one first. */
static int run_check(const char *into, const sigset_t *before) {
    int status = 0;
    pid_t child = fork();
    if (child == 0) {
        for (size_t i = 0; i < sizeof ENDS / sizeof *ENDS; i++) {
            struct sigaction now;
            if (sigaction(ENDS[i], NULL, &now) == 0 && now.sa_handler != SIG_IGN)
                signal(ENDS[i], SIG_DFL);
        }
        sigprocmask(SIG_SETMASK, before, NULL);
        execlp("dlm", "dlm", "check", into, (char *)NULL);
        fprintf(stderr, "dlm-shared: check: dlm cannot be run: %s\n", strerror(errno));
        _exit(NO_PROGRAM);
    }
    sigprocmask(SIG_SETMASK, before, NULL);
    while (child > 0 && waitpid(child, &status, 0) < 0 && errno == EINTR)
        if (stopped)
            kill(child, stopped);
    return child > 0 && WIFEXITED(status) ? WEXITSTATUS(status) : REFUSED;
}

/* dlm checks copies, which then go. They have a whole log, so nobody else may read them. */
static int check(const char *folder) {
    char into[PATH_LENGTH], path[PATH_LENGTH + 16];
    struct sigaction stops;
    sigset_t ends, before;
    unsigned count;
    int result = REFUSED;
    if (refuse_others(folder) != 0)
        return REFUSED;
    memset(&stops, 0, sizeof stops);
    stops.sa_handler = stop;
    sigemptyset(&ends);
    for (size_t i = 0; i < sizeof ENDS / sizeof *ENDS; i++) {
        struct sigaction now;
        sigaddset(&ends, ENDS[i]);
        if (sigaction(ENDS[i], NULL, &now) == 0 && now.sa_handler != SIG_IGN)
            sigaction(ENDS[i], &stops, NULL);
    }
    if (snprintf(into, sizeof into, "%s/check.XXXXXX", folder) >= PATH_LENGTH || !mkdtemp(into))
        return decline("check", "no folder can be made in the folder, for copies that dlm check reads; export has them elsewhere");
    (void)copies(folder, into, 0600, &count);
    sigprocmask(SIG_BLOCK, &ends, &before);
    if (stopped)
        sigprocmask(SIG_SETMASK, &before, NULL);
    else
        result = run_check(into, &before);
    for (unsigned k = 0; k < MG_DISKS; k++) {
        snprintf(path, sizeof path, "%s/disk%u.img", into, k);
        unlink(path);
    }
    rmdir(into);
    if (stopped) {
        signal(stopped, SIG_DFL);
        raise(stopped);
    }
    return result;
}

/* What dlm does, and nothing does over such devices: why. NULL: it is another word. */
static const char *why_declined(const char *task) {
    if (strcmp(task, "fill") == 0 || strcmp(task, "renew") == 0)
        return "a log on shared devices is not renewed: nothing puts a table onto such devices. One without an end needs no renewal";
    if (strcmp(task, "migrate") == 0)
        return "dlm moves images to images for the processes of one machine, and to no shared devices";
    if (strcmp(task, "replace") == 0)
        return "the header of a shared device has no first epoch: a lost one stays lost";
    return NULL;
}

int main(int count, char **words) {
    static const char *const TASKS = "format, submit, table, mark, check, export or take";
    const char *task = count > 1 ? words[1] : NULL, *folder = count > 2 ? words[2] : NULL;
    bool is_over_host, is_task;
    if (count == 2 && (strcmp(task, "-h") == 0 || strcmp(task, "--help") == 0)) {
        help();
        return ended();
    }
    if (count == 2 && (strcmp(task, "-V") == 0 || strcmp(task, "--version") == 0)) {
        printf("dlm-shared of midgegalena %s\n", mg_version());
        return ended();
    }
    if (!task)
        return wrong("WORD", task, TASKS);
    if (why_declined(task))
        return decline(task, why_declined(task));
    is_over_host = strcmp(task, "submit") == 0 || strcmp(task, "table") == 0 || strcmp(task, "mark") == 0;
    is_task = is_over_host || strcmp(task, "format") == 0 || strcmp(task, "check") == 0 || strcmp(task, "export") == 0 || strcmp(task, "take") == 0;
    if (!is_task)
        return wrong("WORD", task, TASKS);
    if (!folder)
        return wrong("FOLDER", folder, "a folder with links disk0.img to disk6.img");
    if (is_over_host)
        return over_host(task, folder, words + 3);
    if (strcmp(task, "format") == 0)
        return format(folder, words + 3);
    if (strcmp(task, "take") == 0)
        return take(folder, words + 3);
    if (strcmp(task, "check") == 0)
        return no_more(words + 3) ? check(folder) : WRONG;
    if (!words[3])
        return wrong("INTO", words[3], "a folder that has no images");
    return no_more(words + 4) ? export_images(folder, words[3]) : WRONG;
}
