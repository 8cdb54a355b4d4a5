/*
 * mg: the words for people, over mg-lock and dlm. No proof covers this file. It reads its words and says what is wrong with them. Where none is given it adds
 * a cluster number or a host number. Then it becomes one of the two. Where mg-folder is installed, the proved program of crates/mg, it becomes that in place
 * of dlm. man man/mg.1 says how it is used; capi/mg_pages.py has the words.
 */
#ifndef _GNU_SOURCE
#define _GNU_SOURCE
#endif
#include "mg_host.h"
#include "mg_words.h"

#include <ctype.h>
#include <errno.h>
#include <fcntl.h>
#include <inttypes.h>
#include <limits.h>
#include <stdarg.h>
#include <stdio.h>
#include <stdlib.h>
#include <string.h>
#include <sys/random.h>
#include <sys/stat.h>
#include <sys/statvfs.h>
#include <sys/wait.h>
#include <time.h>
#include <unistd.h>

enum { REFUSED = 1, WRONG = 2, LOCK_FAILED = 125 };
enum { LONGEST = 100, ROOM = OPTIONS + 16 }; /* bytes of a word that is shown; words that are handed on beside those given */

/* What is asked for. */
static struct {
    const struct word *word;
    const char *taken[2]; /* FOLDER, and NAME or DISK; or SCRIPT */
    size_t count;
    const char *given[OPTIONS]; /* the value of each option, "" of a flag; NULL: not given */
    char **rest;                /* COMMAND, or NULL */
} asked;

static bool is_asked(enum word_name name) { return asked.word == &ALL_WORDS[name]; }

/* What ends with the statuses of mg-lock. */
static bool is_of_lock(void) { return is_asked(W_LOCK) || is_asked(W_TAKE) || is_asked(W_GIVE); }

/* ---- saying ---- */

/* A word in one line, with what a terminal would obey spelled out. Three may be shown at once. */
static const char *shown(const char *word) {
    static char texts[3][4 * LONGEST + 8];
    static unsigned next;
    char *text = texts[next++ % 3], *end = text;
    size_t length = 0;
    if (word[0] == '\0')
        return "''";
    for (; word[length] && length < LONGEST; length++) {
        unsigned char byte = (unsigned char)word[length];
        if (byte < 0x20 || byte == 0x7F)
            end += sprintf(end, "\\x%02x", byte);
        else
            *end++ = (char)byte;
    }
    strcpy(end, word[length] ? ".." : "");
    return text;
}

/* The system's reason, in small letters. `what` is what was looked for. */
static const char *reason(int cause, const char *what) {
    static char text[128];
    if (cause == ENOENT)
        snprintf(text, sizeof text, "no such %s", what);
    else if (cause == ENOTDIR)
        snprintf(text, sizeof text, "not a folder");
    else
        snprintf(text, sizeof text, "%s", strerror(cause));
    text[0] = (char)tolower((unsigned char)text[0]);
    return text;
}

/* Says one line, by one write. */
static void say(const char *format, va_list rest, const char *page) {
    char line[2048];
    size_t length = (size_t)snprintf(line, sizeof line, "mg: ");
    vsnprintf(line + length, sizeof line - length - 64, format, rest);
    length = strlen(line);
    length += (size_t)snprintf(line + length, sizeof line - length, "%s\n", page);
    if (write(STDERR_FILENO, line, length) < 0)
        return; /* nobody hears it */
}

/* The words are wrong. */
__attribute__((noreturn, format(printf, 1, 2))) static void wrong(const char *format, ...) {
    char page[64];
    va_list rest;
    snprintf(page, sizeof page, " (see mg help%s%s)", asked.word ? " " : "", asked.word ? asked.word->name : "");
    va_start(rest, format);
    say(format, rest, page);
    va_end(rest);
    exit(is_of_lock() ? LOCK_FAILED : WRONG);
}

/* The words are right, and it cannot be done. */
__attribute__((noreturn, format(printf, 1, 2))) static void refuse(const char *format, ...) {
    va_list rest;
    va_start(rest, format);
    say(format, rest, " (see man mg, DIAGNOSTICS)");
    va_end(rest);
    exit(is_of_lock() ? LOCK_FAILED : REFUSED);
}

/* What the library refused: "25 WrongHeader disk1 (disk1.img is of another set)". */
__attribute__((noreturn)) static void refuse_folder(int status, int disk) {
    const char *why = mg_cause()[0] ? mg_cause() : mg_strerror(status);
    char image[16] = "", number[48] = "";
    if (disk >= 0)
        snprintf(image, sizeof image, " disk%d", disk);
    if (status > 0)
        snprintf(number, sizeof number, "%d %s", status, mg_name(status));
    refuse("FOLDER is %s: %s%s%s%s%s", shown(asked.taken[0]), number, image, status > 0 ? " (" : "", why, status > 0 ? ")" : "");
}

static void print(const char *text) {
    size_t length = strlen(text);
    while (length > 0) {
        ssize_t printed = write(STDOUT_FILENO, text, length);
        if (printed < 0)
            exit(REFUSED);
        text += printed;
        length -= (size_t)printed;
    }
}

/* ---- the words ---- */

static const struct word *find_word(const char *name) {
    for (size_t i = 0; i < WORDS; i++)
        if (strcmp(ALL_WORDS[i].name, name) == 0)
            return &ALL_WORDS[i];
    return NULL;
}

/* "--host" with its length, or "-w". */
static const struct option_of *find_option(const char *text, size_t length) {
    for (const struct option_of *option = asked.word->options; option->name; option++) {
        bool is_long = text[1] == '-' && strlen(option->name) == length - 2 && strncmp(option->name, text + 2, length - 2) == 0;
        if (is_long || (length == 2 && option->letter && option->letter == text[1]))
            return option;
    }
    return NULL;
}

/* "--host, --json" */
static const char *options_of(const struct word *word) {
    static char text[256];
    size_t length = 0;
    snprintf(text, sizeof text, "it has none");
    for (const struct option_of *option = word->options; option->name && length < sizeof text; option++)
        length += (size_t)snprintf(text + length, sizeof text - length, "%s--%s", length ? ", " : "", option->name);
    return text;
}

/* Digits without a sign and without leading zeros. Returns where they end, or NULL. */
static const char *digits(const char *text, uint64_t most, uint64_t *into) {
    const char *end = text;
    *into = 0;
    for (; isdigit((unsigned char)*end); end++) {
        unsigned digit = (unsigned)(*end - '0');
        if (digit > most || *into > (most - digit) / 10)
            return NULL;
        *into = 10 * *into + digit;
    }
    return end == text || (text[0] == '0' && end - text > 1) ? NULL : end;
}

/* Thousandths of a second; further digits are passed over. */
static bool seconds(const char *text, uint64_t most, uint64_t *into) {
    const char *end = digits(text, most / 1000, into);
    unsigned worth = 100;
    bool is_over = false;
    if (!end || (*end == '.' && !isdigit((unsigned char)end[1])))
        return false;
    *into *= 1000;
    for (end += *end == '.'; isdigit((unsigned char)*end); end++, worth /= 10) {
        *into += worth * (unsigned)(*end - '0');
        is_over |= *end != '0';
    }
    return *end == '\0' && *into <= most && !(*into == most && is_over && most % 1000 == 0);
}

static bool is_mode(const char *text) {
    static const char *const modes[] = {"NL", "CR", "CW", "PR", "PW", "EX"};
    for (size_t i = 0; i < sizeof modes / sizeof modes[0]; i++)
        if (strcmp(modes[i], text) == 0)
            return true;
    return false;
}

static bool is_right(const struct option_of *option, const char *value) {
    uint64_t number;
    const char *end;
    switch (option->kind) {
    case NUMBER: end = digits(value, option->most, &number); return end && *end == '\0' && number >= option->least;
    case SECONDS: return seconds(value, option->most, &number) && number >= option->least;
    case MODE: return is_mode(value);
    case TEXT: return value[0] != '\0';
    default: return true;
    }
}

/* How many words it was. */
static int read_option(char **words) {
    const char *text = words[0], *equals = text[1] == '-' ? strchr(text, '=') : NULL, *value = "";
    size_t length = equals ? (size_t)(equals - text) : strlen(text);
    const struct option_of *option = find_option(text, length);
    char name[64];
    if (!option)
        wrong("%s is no option of %s: %s", shown(text), asked.word->name, options_of(asked.word));
    snprintf(name, sizeof name, "%.*s", (int)length, text);
    if (asked.given[option->is])
        wrong("%s is given twice", name);
    if (option->kind == FLAG && equals)
        wrong("%s is %s: it takes no value", name, shown(equals + 1));
    if (option->kind != FLAG) {
        value = equals ? equals + 1 : words[1];
        if (!value)
            wrong("%s has no %s: %s", name, option->kind == NUMBER ? "number" : "value", option->range);
        if (!is_right(option, value))
            wrong("%s is %s: %s", name, shown(value), option->range);
    }
    asked.given[option->is] = value;
    return option->kind == FLAG || equals ? 1 : 2;
}

/* `options` ends the options of which one at most is given. */
static void see_one_of(const enum option_name options[3]) {
    const char *first = NULL;
    for (size_t i = 0; i < 3 && options[i] != OPTIONS; i++) {
        const struct option_of *option = asked.word->options;
        while (option->is != options[i])
            option++;
        if (asked.given[option->is] && first)
            wrong("--%s and --%s: one of them", first, option->name);
        if (asked.given[option->is])
            first = option->name;
    }
}

static void see_name(const char *name) {
    size_t length = strlen(name);
    bool is_plain = true;
    for (size_t i = 0; i < length; i++)
        is_plain &= (unsigned char)name[i] >= 0x21 && (unsigned char)name[i] <= 0x7E;
    if (length < 1 || length > MG_NAME_LENGTH || !is_plain)
        wrong("NAME is %s: 1 to 15 bytes from 0x21 to 0x7E, no blank", shown(name));
}

static void see_disk(const char *disk) {
    uint64_t number;
    const char *end = digits(disk, MG_DISKS - 1, &number);
    if (!end || *end != '\0')
        wrong("DISK is %s: 0 to %d", shown(disk), MG_DISKS - 1);
}

/* ---- the command of submit ---- */

/* What a word of a command is. A number is between two others. */
static const struct part {
    const char *name;
    uint64_t least, most;
    const char *range;
} PARTS[] = {
    {"CLIENT", 0, 255, "0 to 255"},
    {"REQUEST", 1, (uint64_t)1 << 62, "1 to 4611686018427387904"},
    {"LOCK", 1, 65535, "1 to 65535"},
    {"HOST", 0, MG_HOSTS - 1, "0 to 15"},
    {"FORGOTTEN", 0, 255, "0 to 255"},
};

static void see_number(const char *name, const char *word) {
    const struct part *part = PARTS;
    const char *end;
    uint64_t number;
    while (strcmp(part->name, name) != 0)
        part++;
    end = digits(word, part->most, &number);
    if (!end || *end != '\0' || number < part->least)
        wrong("%s is %s: %s", name, shown(word), part->range);
}

static void see_part(const char *name, const char *word) {
    if (strcmp(name, "NAME") == 0)
        see_name(word);
    else if (strcmp(name, "MODE") == 0 && !is_mode(word))
        wrong("MODE is %s: NL, CR, CW, PR, PW, EX", shown(word));
    else if (strcmp(name, "VALUE") == 0 && (strlen(word) != 2 * MG_VALUE_LENGTH || strspn(word, "0123456789abcdef") != 2 * MG_VALUE_LENGTH))
        wrong("VALUE is %s: 32 digits, 0 to 9 and a to f", shown(word));
    else if (strcmp(name, "MODE") != 0 && strcmp(name, "VALUE") != 0)
        see_number(name, word);
}

static const struct command *find_command(const char *name) {
    for (size_t i = 0; i < sizeof ALL_COMMANDS / sizeof ALL_COMMANDS[0]; i++)
        if (strcmp(ALL_COMMANDS[i].name, name) == 0)
            return &ALL_COMMANDS[i];
    wrong("no command is called %s: %s", shown(name), NAMES_OF_COMMANDS);
}

/* Goes through what the help says of the command: a word in small letters stands for itself, and in brackets is what may be left out. */
static void see_command(void) {
    const struct command *command = find_command(asked.rest[0]);
    char **word = asked.rest + 1, text[128], *name, *left;
    bool is_left_out = false;
    snprintf(text, sizeof text, "%s", command->words);
    for (name = strtok_r(text, " ", &left); name; name = strtok_r(NULL, " ", &left)) {
        bool ends = name[strlen(name) - 1] == ']';
        name[strlen(name) - ends] = '\0';
        if (name[0] == '[')
            is_left_out = !*word || strcmp(*word, ++name) != 0;
        if (!is_left_out && !*word)
            wrong("%s is missing: mg submit FOLDER [--host N] [--json] %s %s", name, command->name, command->words);
        if (!is_left_out && isupper((unsigned char)name[0]))
            see_part(name, *word);
        word += !is_left_out;
        is_left_out &= !ends;
    }
    if (*word)
        wrong("%s is a word too many: mg submit FOLDER [--host N] [--json] %s %s", shown(*word), command->name, command->words);
}

/* Sees whether all is there. */
static void see_whole(bool is_parted) {
    const struct word *word = asked.word;
    size_t takes = word->takes[1] ? 2 : 1;
    if (asked.count < takes)
        wrong("%s is missing: %s", word->takes[asked.count], word->usage);
    if (!asked.rest && (word->needs_more || (is_parted && word->is_followed && !asked.given[O_COMMAND])))
        wrong("%s is missing: %s", is_asked(W_GIVE) ? "LOCK" : "COMMAND", word->usage);
    if (asked.rest && asked.given[O_COMMAND])
        wrong("%s is a word too many: LINE of --command is one word, and no COMMAND follows", shown(asked.rest[0]));
    see_one_of(word->one_of[0]);
    see_one_of(word->one_of[1]);
    if (is_of_lock())
        see_name(asked.taken[1]);
    if (word == &ALL_WORDS[W_REPLACE])
        see_disk(asked.taken[1]);
    if (word == &ALL_WORDS[W_SUBMIT])
        see_command();
}

/* Shows the help of one word, or of all. */
__attribute__((noreturn)) static void help(const char *name) {
    const struct word *word = name ? find_word(name) : NULL;
    if (name && !word)
        wrong("no word is called %s: %s", shown(name), NAMES_OF_WORDS);
    print(word ? word->help : SHORT_HELP);
    exit(0);
}

/* Reads what follows the first word. */
static void read_rest(char **words) {
    size_t takes = asked.word->takes[1] ? 2 : 1;
    bool is_parted = false;
    while (*words) {
        const char *text = *words;
        bool is_option = !is_parted && text[0] == '-' && text[1] != '\0';
        if (is_option && (strcmp(text, "--help") == 0 || strcmp(text, "-h") == 0))
            help(asked.word->name);
        if (is_option && strcmp(text, "--") == 0)
            is_parted = true, words++;
        else if (is_option)
            words += read_option(words);
        else if (asked.count < takes)
            asked.taken[asked.count++] = *words++;
        else if (asked.word->is_followed) {
            asked.rest = words;
            break;
        } else
            wrong("%s is a word too many: %s", shown(text), asked.word->usage);
    }
    see_whole(is_parted);
}

/* ---- becoming another program ---- */

static char **words; /* those handed on */
static size_t words_count;

static void add(const char *word) { words[words_count++] = (char *)(uintptr_t)word; }

/* A name that begins with a dash is not to be taken for an option. */
static void add_folder(const char *folder) {
    char *safe;
    if (folder[0] != '-') {
        add(folder);
        return;
    }
    safe = malloc(strlen(folder) + 3);
    if (!safe)
        refuse("FOLDER is %s: no memory", shown(folder));
    sprintf(safe, "./%s", folder);
    add(safe);
}

/* FOLDER or SCRIPT, and DISK. */
static void add_taken(void) {
    add_folder(asked.taken[0]);
    if (asked.taken[1])
        add(asked.taken[1]);
}

static void add_given(const struct option_of *option) {
    static char names[OPTIONS][32];
    if (!asked.given[option->is])
        return;
    snprintf(names[option->is], sizeof names[0], "--%s", option->name);
    add(names[option->is]);
    if (option->kind != FLAG)
        add(asked.given[option->is]);
}

/* Where a program is: beside this one, or in libexec where it is installed. */
static const char *place_of(const char *name, bool is_in_libexec) {
    static char path[PATH_MAX + 64];
    char here[PATH_MAX];
    ssize_t length = readlink("/proc/self/exe", here, sizeof here - 1);
    char *slash;
    if (length < 0)
        refuse("/proc/self/exe cannot be read: %s", reason(errno, "file"));
    here[length] = '\0';
    slash = strrchr(here, '/');
    *slash = '\0';
    if (is_in_libexec) {
        snprintf(path, sizeof path, "%s/../libexec/midgegalena/%s", here, name);
        if (access(path, F_OK) == 0)
            return path;
    }
    snprintf(path, sizeof path, "%s/%s", here, name);
    return path;
}

__attribute__((noreturn)) static void become_it(void) {
    execvp(words[0], words);
    refuse("%s cannot be started: %s; install.sh puts it there", words[0], reason(errno, "file"));
}

static void begin_words(const char *program, bool is_in_libexec) {
    words_count = 0;
    add(place_of(program, is_in_libexec));
}

/* Ends the words. */
static void add_rest(void) {
    for (char **word = asked.rest; word && *word; word++)
        add(*word);
    words[words_count] = NULL;
}

/* ---- numbers that were not given ---- */

static const char *number_text(unsigned number) {
    static char text[8];
    snprintf(text, sizeof text, "%u", number);
    return text;
}

/* A host number for the folder, if none is given. */
static void find_host(void) {
    int status, disk;
    unsigned number;
    if (asked.given[O_HOST])
        return;
    switch (choose_number(asked.taken[0], &number, &status, &disk)) {
    case ARE_DEVICES: refuse("--host is missing, 0 to 15: the images are devices, which other machines may use");
    case IS_ELSEWHERE: refuse("--host is missing, 0 to 15: the file system is one that other machines may use");
    case ARE_ALL_IN_USE: refuse("--host is missing, and each of 0 to 15 is in use");
    case IS_REFUSED: refuse_folder(status, disk);
    default: asked.given[O_HOST] = number_text(number);
    }
}

/* A cluster number of 1 to 2^40, so that there are greater ones for renewals. */
static void find_cluster(void) {
    static char text[24];
    uint64_t number;
    if (getrandom(&number, sizeof number, 0) != (ssize_t)sizeof number)
        refuse("--cluster is missing, and no number could be chosen: %s", reason(errno, "file"));
    snprintf(text, sizeof text, "%" PRIu64, 1 + number % ((uint64_t)1 << 40));
    asked.given[O_CLUSTER] = text;
}

/* ---- what each word does ---- */

static void see_there(void) {
    bool is_script = strcmp(asked.word->takes[0], "SCRIPT") == 0;
    const char *path = is_script && strcmp(asked.taken[0], "-") == 0 ? "/dev/stdin" : asked.taken[0];
    struct stat facts;
    asked.taken[0] = path;
    if (stat(path, &facts) != 0)
        refuse("%s is %s: %s", asked.word->takes[0], shown(path), reason(errno, is_script ? "file" : "folder"));
    if (is_script && (S_ISDIR(facts.st_mode) || access(path, R_OK) != 0))
        refuse("SCRIPT is %s: %s", shown(path), S_ISDIR(facts.st_mode) ? "it is a folder" : reason(errno, "file"));
    if (!is_script && !S_ISDIR(facts.st_mode))
        refuse("FOLDER is %s: not a folder", shown(path));
}

/* dlm has no --json. So that is seen before anything is made. */
static void see_json(void) {
    if (asked.given[O_JSON] && access(place_of("mg-folder", true), F_OK) != 0)
        refuse("--json is by mg-folder, which is not installed");
}

static void make_folder(void) {
    const char *path = asked.taken[0];
    see_json();
    if (mkdir(path, 0777) != 0 && errno != EEXIST)
        refuse("FOLDER is %s: it cannot be made: %s", shown(path), reason(errno, "folder above it"));
}

static uint64_t number_of(enum option_name option, uint64_t usual) {
    return asked.given[option] ? strtoull(asked.given[option], NULL, 10) : usual;
}

/* Before files are made: whether they may be, and have room. Images that are links lead elsewhere. */
static void see_room(void) {
    const char *path = asked.taken[0];
    uint64_t image = asked.given[O_SLOTS] ? 8192 + 4096 * number_of(O_SLOTS, 0) : 8409088, needed = image * number_of(O_DISKS, 3), free_there;
    char first[PATH_MAX];
    struct statvfs facts;
    struct stat there;
    if (snprintf(first, sizeof first, "%s/disk0.img", path) >= (int)sizeof first || lstat(first, &there) == 0)
        return;
    if (access(path, W_OK | X_OK) != 0)
        refuse("FOLDER is %s: %s", shown(path), reason(errno, "folder"));
    if (statvfs(path, &facts) != 0)
        return;
    free_there = (uint64_t)facts.f_bavail * facts.f_frsize;
    if (free_there < needed)
        refuse("FOLDER is %s: no space left: %" PRIu64 " bytes are needed, and %" PRIu64 " are free", shown(path), needed, free_there);
}

/* dlm has the same tasks by words of its own. It is beside this program, or on the path. */
static void begin_dlm(void) {
    bool creates = asked.word == &ALL_WORDS[W_CREATE];
    see_json();
    begin_words("dlm", false);
    if (access(words[0], F_OK) != 0)
        words[0] = strrchr(words[0], '/') + 1;
    add(creates ? "format" : asked.word->name);
    add_taken();
    if (creates) {
        add(asked.given[O_DISKS] ? asked.given[O_DISKS] : "3");
        if (asked.given[O_SLOTS])
            add(asked.given[O_SLOTS]);
        add(asked.given[O_CLUSTER]);
    }
    if (asked.given[O_HOST])
        add(asked.given[O_HOST]);
    add_rest();
}

static void begin_folder(void) {
    begin_words("mg-folder", true);
    if (access(words[0], F_OK) != 0) {
        begin_dlm();
        return;
    }
    add(asked.word->name);
    add_taken();
    for (const struct option_of *option = asked.word->options; option->name; option++)
        add_given(option);
    add_rest();
}

__attribute__((noreturn)) static void become_folder(void) {
    begin_folder();
    become_it();
}

__attribute__((noreturn)) static void become_lock(void) {
    begin_words("mg-lock", false);
    if (is_asked(W_TAKE))
        add("--take");
    for (const struct option_of *option = asked.word->options; option->name; option++)
        if (option->is != O_HOST && option->is != O_COMMAND)
            add_given(option);
    add_folder(asked.taken[0]);
    add(asked.given[O_HOST]);
    add(asked.taken[1]);
    if (asked.given[O_COMMAND]) {
        add("-c");
        add(asked.given[O_COMMAND]);
    } else if (asked.rest)
        add("--");
    add_rest();
    become_it();
}

/* The host follows from the number of a lock. */
__attribute__((noreturn)) static void become_giving(void) {
    begin_words("mg-lock", false);
    add("--give");
    add_folder(asked.taken[0]);
    add(asked.taken[1]);
    add_rest();
    become_it();
}

static void begin_status(void) {
    begin_words("mg-lock", false);
    add("--status");
    for (const struct option_of *option = asked.word->options; option->name; option++)
        if (option->is != O_EVERY)
            add_given(option);
    add_folder(asked.taken[0]);
    add_rest();
}

static void begin_recovery(const char *host) {
    begin_words("mg-lock", false);
    add("--recover");
    if (asked.given[O_ALL])
        add("--all");
    add_folder(asked.taken[0]);
    add(host);
    add_rest();
}

/* Whoever has closed a standard stream would get the pipe in its place. */
static void open_streams(void) {
    for (int file = 0; file <= STDERR_FILENO; file++)
        if (fcntl(file, F_GETFD) < 0)
            (void)open("/dev/null", O_RDWR);
}

/* Runs the words as a child, and reads what it prints, up to the room that there is; also what it tells on standard error, if that is wanted. Its status. */
static int run_and_read(char *text, size_t room, bool with_errors) {
    int pipe_of[2], status;
    size_t length = 0;
    ssize_t more;
    pid_t child;
    open_streams();
    if (pipe(pipe_of) != 0)
        refuse("%s cannot be started: %s", words[0], reason(errno, "file"));
    child = fork();
    if (child < 0)
        refuse("%s cannot be started: %s", words[0], reason(errno, "file"));
    if (child == 0) {
        if (dup2(pipe_of[1], STDOUT_FILENO) < 0 || (with_errors && dup2(pipe_of[1], STDERR_FILENO) < 0))
            _exit(LOCK_FAILED);
        close(pipe_of[0]);
        close(pipe_of[1]);
        become_it();
    }
    close(pipe_of[1]);
    while (length + 1 < room && (more = read(pipe_of[0], text + length, room - length - 1)) != 0) {
        if (more < 0 && errno != EINTR)
            break;
        length += more > 0 ? (size_t)more : 0;
    }
    text[length] = '\0';
    close(pipe_of[0]);
    while (waitpid(child, &status, 0) < 0 && errno == EINTR)
        ;
    return WIFEXITED(status) ? WEXITSTATUS(status) : LOCK_FAILED;
}

/* Makes images of a cluster whose number was chosen here, and then says the number: where they are not made nothing is printed. */
static int create_numbered(void) {
    static char made[256], text[256 + 48];
    int status;
    find_cluster();
    begin_folder();
    if (asked.given[O_JSON]) /* the number is in the object */
        become_it();
    status = run_and_read(made, sizeof made, false);
    if (status != 0)
        return status;
    snprintf(text, sizeof text, "cluster %s\n%s", asked.given[O_CLUSTER], made);
    print(text);
    return 0;
}

static unsigned released_by[MG_HOSTS]; /* how many locks of each host number were released */

static unsigned released_by_all(void) {
    unsigned released = 0;
    for (unsigned host = 0; host < MG_HOSTS; host++)
        released += released_by[host];
    return released;
}

/* Releases what a host has left; a line says how much, if it is some. Ends where mg-lock fails. */
static void recover_host(unsigned host) {
    char text[64], line[64];
    int status;
    begin_recovery(number_text(host));
    status = run_and_read(text, sizeof text, false);
    if (status != 0)
        exit(status);
    (void)sscanf(text, "released %u", &released_by[host]);
    snprintf(line, sizeof line, "host %u: released %u\n", host, released_by[host]);
    if (released_by[host] > 0 && !asked.given[O_JSON])
        print(line);
}

/* The first recovery learns the whole log and marks it, so a look knows then which other host numbers have locks. Those that are in use are passed. */
static void recover_all(void) {
    bool has[MG_HOSTS] = {false};
    unsigned first;
    int status, disk = -1;
    find_host();
    first = (unsigned)atoi(asked.given[O_HOST]);
    recover_host(first);
    status = find_hosts(asked.taken[0], has, &disk);
    if (status != MG_OK)
        refuse_folder(status, disk);
    for (unsigned host = 0; host < MG_HOSTS; host++)
        if (has[host] && host != first && is_free(asked.taken[0], host))
            recover_host(host);
}

/* One object: how many locks were released, and of each host number that had some. */
static void tell_released(void) {
    char text[64 + 40 * MG_HOSTS];
    const char *before = "";
    size_t length = (size_t)sprintf(text, "{\"released\":%u,\"hosts\":[", released_by_all());
    for (unsigned host = 0; host < MG_HOSTS; host++)
        if (released_by[host] > 0) {
            length += (size_t)sprintf(text + length, "%s{\"host\":%u,\"released\":%u}", before, host, released_by[host]);
            before = ",";
        }
    strcpy(text + length, "]}\n");
    print(text);
}

/* With a host number mg-lock itself says what it released. */
static int recover(void) {
    if (asked.given[O_HOST] && !asked.given[O_JSON]) {
        begin_recovery(asked.given[O_HOST]);
        become_it();
    }
    if (asked.given[O_HOST])
        recover_host((unsigned)atoi(asked.given[O_HOST]));
    else
        recover_all();
    if (asked.given[O_JSON])
        tell_released();
    else if (released_by_all() == 0)
        print("released 0\n");
    return 0;
}

/* Shows the status again and again, by one write each time. */
__attribute__((noreturn)) static void watch(void) {
    static char text[1 << 16], screen[(1 << 16) + 256];
    uint64_t every = 2000;
    struct timespec pause;
    bool clears = isatty(STDOUT_FILENO) == 1;
    if (asked.given[O_EVERY])
        (void)seconds(asked.given[O_EVERY], UINT64_MAX, &every);
    pause.tv_sec = (time_t)(every / 1000);
    pause.tv_nsec = (long)(every % 1000) * 1000000;
    for (;;) {
        time_t now = time(NULL);
        char when[32] = "";
        struct tm parts;
        begin_status();
        (void)run_and_read(text, sizeof text, true);
        if (localtime_r(&now, &parts))
            strftime(when, sizeof when, "%Y-%m-%d %H:%M:%S", &parts);
        snprintf(screen, sizeof screen, "%s%s %s\n%s%s", clears ? "\033[H\033[2J" : "", shown(asked.taken[0]), when, text, clears ? "" : "\n");
        print(screen);
        nanosleep(&pause, NULL);
    }
}

static int carry_out(void) {
    enum word_name name = (enum word_name)(asked.word - ALL_WORDS);
    if (name == W_CREATE)
        make_folder();
    see_there();
    if (name == W_CREATE)
        see_room();
    switch (name) {
    case W_LOCK:
    case W_TAKE: find_host(); become_lock();
    case W_GIVE: become_giving();
    case W_STATUS: begin_status(); become_it();
    case W_WATCH: watch();
    case W_RECOVER: return recover();
    case W_CREATE:
        if (!asked.given[O_CLUSTER])
            return create_numbered();
        become_folder();
    case W_SUBMIT:
    case W_TABLE:
    case W_MARK:
        if (!asked.given[O_HOST])
            wait_for_turn(asked.taken[0]);
        find_host();
        become_folder();
    default: become_folder();
    }
}

int main(int argc, char **argv) {
    const char *first = argc > 1 ? argv[1] : NULL;
    if (!first) {
        if (write(STDERR_FILENO, SHORT_HELP, strlen(SHORT_HELP)) < 0)
            return WRONG;
        return WRONG;
    }
    if (strcmp(first, "--help") == 0 || strcmp(first, "-h") == 0 || strcmp(first, "help") == 0) {
        if (argc > 3)
            wrong("%s is a word too many: mg help [WORD]", shown(argv[3]));
        help(argv[2]);
    }
    if (strcmp(first, "--version") == 0 || strcmp(first, "-V") == 0) {
        printf("mg of midgegalena %s\n", mg_version());
        return fflush(stdout) == 0 ? 0 : REFUSED;
    }
    asked.word = find_word(first);
    if (!asked.word)
        wrong(first[0] == '-' ? "%s is no option: a word comes first, one of %s" : "no word is called %s: %s", shown(first), NAMES_OF_WORDS);
    words = calloc((size_t)argc + ROOM, sizeof *words);
    if (!words)
        refuse("no memory");
    read_rest(argv + 2);
    return carry_out();
}
