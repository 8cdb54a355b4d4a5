/* Made by capi/mg_pages.py: the words of mg, their options and their help. */
#ifndef MG_WORDS_H
#define MG_WORDS_H

#include <stdbool.h>
#include <stddef.h>
#include <stdint.h>

enum option_name {
    O_ALL,
    O_CHECK,
    O_CLOSE,
    O_CLUSTER,
    O_COMMAND,
    O_CONFLICT_EXIT_CODE,
    O_DISKS,
    O_EVERY,
    O_EXCLUSIVE,
    O_HOST,
    O_INTERVAL,
    O_JSON,
    O_MODE,
    O_NONBLOCK,
    O_PROMETHEUS,
    O_SHARED,
    O_SLOTS,
    O_VALUE,
    O_VERBOSE,
    O_WAIT,
    OPTIONS
};

enum word_name {
    W_CREATE,
    W_LOCK,
    W_TAKE,
    W_GIVE,
    W_STATUS,
    W_WATCH,
    W_RECOVER,
    W_SUBMIT,
    W_TABLE,
    W_MARK,
    W_CHECK,
    W_MIGRATE,
    W_REPLACE,
    W_RUN,
    W_SWEEP,
    WORDS
};

enum kind { FLAG, NUMBER, SECONDS, MODE, TEXT };

/* `least` and `most` are of a number; of seconds they are in thousandths. */
struct option_of {
    const char *name;
    enum option_name is;
    char letter; /* 0: none */
    enum kind kind;
    uint64_t least, most;
    const char *range; /* what is right, for people */
};

struct word {
    const char *name;
    const char *takes[2];          /* what has to be given */
    bool is_followed, needs_more;  /* whether a COMMAND may follow, or has to */
    struct option_of options[14];
    enum option_name one_of[2][3]; /* those that exclude one another; OPTIONS: none */
    const char *usage, *help;
};

static const struct word ALL_WORDS[WORDS] = {
    [W_CREATE] = {
        .name = "create",
        .takes = {"FOLDER"},
        .is_followed = false,
        .needs_more = false,
        .options =
            {{"cluster", O_CLUSTER, 0, NUMBER, 0u, 18446744073709551615ull, "0 to 18446744073709551615"},
             {"disks", O_DISKS, 0, NUMBER, 1u, 7u, "1 to 7"},
             {"slots", O_SLOTS, 0, NUMBER, 1u, 4096u, "1 to 4096"},
             {"json", O_JSON, 0, FLAG, 0u, 0u, ""}},
        .one_of = {{OPTIONS, OPTIONS, OPTIONS}, {OPTIONS, OPTIONS, OPTIONS}},
        .usage = "mg create FOLDER [OPTION]..",
        .help =
        "usage: mg create FOLDER [OPTION]..\n"
        "Makes FOLDER if it is not there, and in it the images of a new log. It never writes over images\n"
        "that are there.\n"
        "\n"
        "  --cluster N  another number for each folder; without it one at random\n"
        "  --disks N    how many images; 3 without it\n"
        "  --slots N    the log ends after so many commands; without it, it has no end\n"
        "  --json       for programs: one object\n"
        "\n"
        "Examples:\n"
        "  mg create images\n"
        "  mg create images --disks 5\n",
    },
    [W_LOCK] = {
        .name = "lock",
        .takes = {"FOLDER", "NAME"},
        .is_followed = true,
        .needs_more = false,
        .options =
            {{"host", O_HOST, 0, NUMBER, 0u, 15u, "0 to 15"},
             {"mode", O_MODE, 'm', MODE, 0u, 0u, "NL, CR, CW, PR, PW, EX"},
             {"shared", O_SHARED, 's', FLAG, 0u, 0u, ""},
             {"exclusive", O_EXCLUSIVE, 'x', FLAG, 0u, 0u, ""},
             {"wait", O_WAIT, 'w', SECONDS, 0u, 86400000u, "a number of seconds, 0 to 86400"},
             {"nonblock", O_NONBLOCK, 'n', FLAG, 0u, 0u, ""},
             {"conflict-exit-code", O_CONFLICT_EXIT_CODE, 'E', NUMBER, 0u, 255u, "0 to 255"},
             {"check", O_CHECK, 'k', NUMBER, 1u, 86400u, "1 to 86400"},
             {"interval", O_INTERVAL, 'i', NUMBER, 1u, 60000u, "1 to 60000"},
             {"value", O_VALUE, 'v', FLAG, 0u, 0u, ""},
             {"close", O_CLOSE, 'o', FLAG, 0u, 0u, ""},
             {"verbose", O_VERBOSE, 0, FLAG, 0u, 0u, ""},
             {"command", O_COMMAND, 'c', TEXT, 0u, 0u, "a line for the shell"}},
        .one_of = {{O_MODE, O_SHARED, O_EXCLUSIVE}, {O_WAIT, O_NONBLOCK, OPTIONS}},
        .usage = "mg lock FOLDER NAME [OPTION].. [--] [COMMAND..]",
        .help =
        "usage: mg lock FOLDER NAME [OPTION].. [--] [COMMAND..]\n"
        "Waits for the lock on NAME, runs COMMAND, lets go, and ends with the status of COMMAND. Without\n"
        "COMMAND it holds the lock until it is interrupted. NAME has 1 to 15 bytes, and no blank. It\n"
        "becomes mg-lock, whose manual page has signals, statuses and what COMMAND finds in its\n"
        "environment.\n"
        "\n"
        "      --host N                the host number; without it mg chooses one\n"
        "  -m, --mode MODE             the mode; EX without it\n"
        "  -s, --shared                the mode PR: others may have PR, too\n"
        "  -x, --exclusive             the mode EX\n"
        "  -w, --wait SECONDS          wait no longer, as 2.5\n"
        "  -n, --nonblock              do not wait\n"
        "  -E, --conflict-exit-code N  the status where the lock is not granted; 1 without it\n"
        "  -k, --check SECONDS         look so often whether the lock was taken away, and end COMMAND then\n"
        "  -i, --interval MS           the longest pause between looks, in milliseconds; 5 without it\n"
        "  -v, --value                 print the value of NAME first\n"
        "  -o, --close                 COMMAND does not keep the lock if its mg-lock is killed\n"
        "      --verbose               say how long it waited\n"
        "  -c, --command LINE          in place of COMMAND: the shell runs LINE, which is one word\n"
        "\n"
        "Examples:\n"
        "  mg lock images db -- ./backup\n"
        "  mg lock images db --wait 60 -- ./backup\n"
        "  mg lock images db -n -E 75 -- ./backup\n",
    },
    [W_TAKE] = {
        .name = "take",
        .takes = {"FOLDER", "NAME"},
        .is_followed = false,
        .needs_more = false,
        .options =
            {{"host", O_HOST, 0, NUMBER, 0u, 15u, "0 to 15"},
             {"mode", O_MODE, 'm', MODE, 0u, 0u, "NL, CR, CW, PR, PW, EX"},
             {"wait", O_WAIT, 'w', SECONDS, 0u, 86400000u, "a number of seconds, 0 to 86400"},
             {"json", O_JSON, 0, FLAG, 0u, 0u, ""}},
        .one_of = {{OPTIONS, OPTIONS, OPTIONS}, {OPTIONS, OPTIONS, OPTIONS}},
        .usage = "mg take FOLDER NAME [OPTION]..",
        .help =
        "usage: mg take FOLDER NAME [OPTION]..\n"
        "Waits for the lock on NAME, prints its number and its token, and ends with 0: the lock stays.\n"
        "The token grows from each holder of EX to the next: a resource can refuse a lower one. The\n"
        "status is 1 if the lock was not granted in time; then nothing waits, and nothing is printed. The\n"
        "lock has no process: mg give releases it, a purge of its host, and mg recover --all, but not mg\n"
        "recover. If mg take was killed mg table shows whether it has taken a lock, and its number.\n"
        "\n"
        "      --host N        the host number; without it mg chooses one\n"
        "  -m, --mode MODE     the mode; EX without it\n"
        "  -w, --wait SECONDS  wait no longer, as 2.5\n"
        "      --json          for programs: one object\n"
        "\n"
        "Example:\n"
        "  mg take images db --wait 60\n",
    },
    [W_GIVE] = {
        .name = "give",
        .takes = {"FOLDER", "NAME"},
        .is_followed = true,
        .needs_more = true,
        .one_of = {{OPTIONS, OPTIONS, OPTIONS}, {OPTIONS, OPTIONS, OPTIONS}},
        .usage = "mg give FOLDER NAME LOCK..",
        .help =
        "usage: mg give FOLDER NAME LOCK..\n"
        "Gives back locks on NAME that mg take took. LOCK is the number, or in one word the line that was\n"
        "printed. The status is 1 where there is nothing to give, as the second time: so it may be run\n"
        "again after a kill.\n"
        "\n"
        "Example:\n"
        "  mg give images db 1541\n",
    },
    [W_STATUS] = {
        .name = "status",
        .takes = {"FOLDER"},
        .is_followed = false,
        .needs_more = false,
        .options =
            {{"json", O_JSON, 0, FLAG, 0u, 0u, ""},
             {"prometheus", O_PROMETHEUS, 0, FLAG, 0u, 0u, ""}},
        .one_of = {{O_JSON, O_PROMETHEUS, OPTIONS}, {OPTIONS, OPTIONS, OPTIONS}},
        .usage = "mg status FOLDER [--json] [--prometheus]",
        .help =
        "usage: mg status FOLDER [--json] [--prometheus]\n"
        "Shows slots, disks, host numbers, and locks with how many slots ago they were granted or began\n"
        "to wait. It only looks. The status is 0 if nothing is wrong, 1 if work goes on all the same, 3\n"
        "if no command gets into the log, 125 if the table cannot be read.\n"
        "\n"
        "  --json        for programs: one object\n"
        "  --prometheus  for node_exporter of Prometheus\n"
        "\n"
        "Example:\n"
        "  mg status images\n",
    },
    [W_WATCH] = {
        .name = "watch",
        .takes = {"FOLDER"},
        .is_followed = false,
        .needs_more = false,
        .options =
            {{"every", O_EVERY, 0, SECONDS, 100u, 86400000u, "a number of seconds, 0.1 to 86400"}},
        .one_of = {{OPTIONS, OPTIONS, OPTIONS}, {OPTIONS, OPTIONS, OPTIONS}},
        .usage = "mg watch FOLDER [--every SECONDS]",
        .help =
        "usage: mg watch FOLDER [--every SECONDS]\n"
        "Shows what mg status shows, again and again, until it is interrupted. On a terminal it clears\n"
        "the screen each time.\n"
        "\n"
        "  --every SECONDS  the pause between two looks; 2 without it\n"
        "\n"
        "Example:\n"
        "  mg watch images --every 10\n",
    },
    [W_RECOVER] = {
        .name = "recover",
        .takes = {"FOLDER"},
        .is_followed = false,
        .needs_more = false,
        .options =
            {{"host", O_HOST, 0, NUMBER, 0u, 15u, "0 to 15"},
             {"all", O_ALL, 0, FLAG, 0u, 0u, ""},
             {"json", O_JSON, 0, FLAG, 0u, 0u, ""}},
        .one_of = {{OPTIONS, OPTIONS, OPTIONS}, {OPTIONS, OPTIONS, OPTIONS}},
        .usage = "mg recover FOLDER [--host N] [--all] [--json]",
        .help =
        "usage: mg recover FOLDER [--host N] [--all] [--json]\n"
        "Releases the locks of each mg lock that was killed, once its COMMAND has ended, too. It prints\n"
        "how many, for each host number that had some.\n"
        "\n"
        "  --host N  of this host number alone; without it of each one that is in use by nobody\n"
        "  --all     also locks without a sign of life: only when the machine has just started\n"
        "  --json    for programs: one object\n"
        "\n"
        "Examples:\n"
        "  mg recover images\n"
        "  mg recover images --all\n",
    },
    [W_SUBMIT] = {
        .name = "submit",
        .takes = {"FOLDER"},
        .is_followed = true,
        .needs_more = true,
        .options =
            {{"host", O_HOST, 0, NUMBER, 0u, 15u, "0 to 15"},
             {"json", O_JSON, 0, FLAG, 0u, 0u, ""}},
        .one_of = {{OPTIONS, OPTIONS, OPTIONS}, {OPTIONS, OPTIONS, OPTIONS}},
        .usage = "mg submit FOLDER [--host N] [--json] COMMAND..",
        .help =
        "usage: mg submit FOLDER [--host N] [--json] COMMAND..\n"
        "Puts COMMAND into the log, and prints its place and the reply of the lock table. The client, its\n"
        "request and the lock are numbers that you choose. A request counts once: each new one needs a\n"
        "greater number than the client's last.\n"
        "\n"
        "  --host N  the host number; without it mg chooses one\n"
        "  --json    for programs: one object\n"
        "\n"
        "COMMAND is one of these:\n"
        "  enqueue CLIENT REQUEST LOCK MODE NAME [noqueue]\n"
        "  convert CLIENT REQUEST LOCK MODE [noqueue] [value VALUE]\n"
        "  release CLIENT REQUEST LOCK [value VALUE]\n"
        "  cancel CLIENT REQUEST LOCK\n"
        "  status CLIENT REQUEST LOCK\n"
        "  purge CLIENT REQUEST HOST\n"
        "  forget CLIENT REQUEST FORGOTTEN\n"
        "\n"
        "Example:\n"
        "  mg submit images enqueue 1 $(date +%s%N) 1 EX db\n",
    },
    [W_TABLE] = {
        .name = "table",
        .takes = {"FOLDER"},
        .is_followed = false,
        .needs_more = false,
        .options =
            {{"host", O_HOST, 0, NUMBER, 0u, 15u, "0 to 15"},
             {"json", O_JSON, 0, FLAG, 0u, 0u, ""}},
        .one_of = {{OPTIONS, OPTIONS, OPTIONS}, {OPTIONS, OPTIONS, OPTIONS}},
        .usage = "mg table FOLDER [--host N] [--json]",
        .help =
        "usage: mg table FOLDER [--host N] [--json]\n"
        "Learns the whole log, and prints the locks of each name.\n"
        "\n"
        "  --host N  the host number; without it mg chooses one\n"
        "  --json    for programs: one object\n"
        "\n"
        "Example:\n"
        "  mg table images\n",
    },
    [W_MARK] = {
        .name = "mark",
        .takes = {"FOLDER"},
        .is_followed = false,
        .needs_more = false,
        .options =
            {{"host", O_HOST, 0, NUMBER, 0u, 15u, "0 to 15"},
             {"json", O_JSON, 0, FLAG, 0u, 0u, ""}},
        .one_of = {{OPTIONS, OPTIONS, OPTIONS}, {OPTIONS, OPTIONS, OPTIONS}},
        .usage = "mg mark FOLDER [--host N] [--json]",
        .help =
        "usage: mg mark FOLDER [--host N] [--json]\n"
        "Learns the whole log, and marks each command that has no mark, so that looks pass it. Run it\n"
        "after a crash.\n"
        "\n"
        "  --host N  the host number; without it mg chooses one\n"
        "  --json    for programs: one object\n"
        "\n"
        "Example:\n"
        "  mg mark images\n",
    },
    [W_CHECK] = {
        .name = "check",
        .takes = {"FOLDER"},
        .is_followed = false,
        .needs_more = false,
        .options =
            {{"json", O_JSON, 0, FLAG, 0u, 0u, ""}},
        .one_of = {{OPTIONS, OPTIONS, OPTIONS}, {OPTIONS, OPTIONS, OPTIONS}},
        .usage = "mg check FOLDER [--json]",
        .help =
        "usage: mg check FOLDER [--json]\n"
        "Reads all images to their ends, and prints a line for whatever is wrong, or sound. It writes\n"
        "nothing.\n"
        "\n"
        "  --json  for programs: one object\n"
        "\n"
        "Example:\n"
        "  mg check images\n",
    },
    [W_MIGRATE] = {
        .name = "migrate",
        .takes = {"FOLDER"},
        .is_followed = false,
        .needs_more = false,
        .options =
            {{"json", O_JSON, 0, FLAG, 0u, 0u, ""}},
        .one_of = {{OPTIONS, OPTIONS, OPTIONS}, {OPTIONS, OPTIONS, OPTIONS}},
        .usage = "mg migrate FOLDER [--json]",
        .help =
        "usage: mg migrate FOLDER [--json]\n"
        "Makes the log of FOLDER one without an end, in its own images. Stop every host of the folder\n"
        "before, and copy the images: there is no way back.\n"
        "\n"
        "  --json  for programs: one object\n"
        "\n"
        "Example:\n"
        "  mg migrate images\n",
    },
    [W_REPLACE] = {
        .name = "replace",
        .takes = {"FOLDER", "DISK"},
        .is_followed = false,
        .needs_more = false,
        .options =
            {{"json", O_JSON, 0, FLAG, 0u, 0u, ""}},
        .one_of = {{OPTIONS, OPTIONS, OPTIONS}, {OPTIONS, OPTIONS, OPTIONS}},
        .usage = "mg replace FOLDER DISK [--json]",
        .help =
        "usage: mg replace FOLDER DISK [--json]\n"
        "Makes a new image of number DISK, 0 to 6, in the place of a lost one, in a log without an end.\n"
        "End every process that has FOLDER open before, and move away what has the name of the image.\n"
        "Until the epoch that it prints the new image counts as lost.\n"
        "\n"
        "  --json  for programs: one object\n"
        "\n"
        "Example:\n"
        "  mg replace images 1\n",
    },
    [W_RUN] = {
        .name = "run",
        .takes = {"SCRIPT"},
        .is_followed = false,
        .needs_more = false,
        .one_of = {{OPTIONS, OPTIONS, OPTIONS}, {OPTIONS, OPTIONS, OPTIONS}},
        .usage = "mg run SCRIPT",
        .help =
        "usage: mg run SCRIPT\n"
        "Runs SCRIPT over disks in memory, with hosts, faults and crashes where it says so. A SCRIPT - is\n"
        "the standard input.\n"
        "\n"
        "Example:\n"
        "  mg run examples/first_reply.dlm\n",
    },
    [W_SWEEP] = {
        .name = "sweep",
        .takes = {"SCRIPT"},
        .is_followed = false,
        .needs_more = false,
        .one_of = {{OPTIONS, OPTIONS, OPTIONS}, {OPTIONS, OPTIONS, OPTIONS}},
        .usage = "mg sweep SCRIPT",
        .help =
        "usage: mg sweep SCRIPT\n"
        "Runs SCRIPT once for each fault before each of its steps, and says how many runs were wrong. A\n"
        "SCRIPT - is the standard input.\n"
        "\n"
        "Example:\n"
        "  mg sweep examples/first_reply.dlm\n",
    },
};

/* What submit puts into the log: its words, as the help has them. */
static const struct command {
    const char *name, *words;
} ALL_COMMANDS[] = {
    {"enqueue", "CLIENT REQUEST LOCK MODE NAME [noqueue]"},
    {"convert", "CLIENT REQUEST LOCK MODE [noqueue] [value VALUE]"},
    {"release", "CLIENT REQUEST LOCK [value VALUE]"},
    {"cancel", "CLIENT REQUEST LOCK"},
    {"status", "CLIENT REQUEST LOCK"},
    {"purge", "CLIENT REQUEST HOST"},
    {"forget", "CLIENT REQUEST FORGOTTEN"},
};

static const char NAMES_OF_COMMANDS[] =
        "enqueue, convert, release, cancel, status, purge, forget";

static const char SHORT_HELP[] =
        "usage: mg WORD ..\n"
        "Locks for programs that share disks: a folder of images, no network, no daemon.\n"
        "\n"
        "  mg create FOLDER        make the images of a folder\n"
        "  mg lock FOLDER NAME     run a command under a lock\n"
        "  mg take FOLDER NAME     take a lock that stays when mg ends\n"
        "  mg give FOLDER NAME     give back what mg take took\n"
        "  mg status FOLDER        show slots, disks and locks\n"
        "  mg watch FOLDER         show the status again and again\n"
        "  mg recover FOLDER       release what killed processes left\n"
        "  mg submit FOLDER        put a command into the log\n"
        "  mg table FOLDER         show the lock table\n"
        "  mg mark FOLDER          mark what has no mark\n"
        "  mg check FOLDER         look for damage in the images\n"
        "  mg migrate FOLDER       make a log that ends endless\n"
        "  mg replace FOLDER DISK  make a new image in the place of a lost one\n"
        "  mg run SCRIPT           run a script over disks in memory\n"
        "  mg sweep SCRIPT         run a script with each single fault\n"
        "\n"
        "Two lines to begin with:\n"
        "  mg create images\n"
        "  mg lock images db -- ./backup\n"
        "\n"
        "mg help WORD has the options, and an example. man mg says more. mg --version shows the version.\n";

static const char NAMES_OF_WORDS[] =
        "create, lock, take, give, status, watch, recover, submit, table, mark, check, migrate, replace, run, sweep, help";

#endif
