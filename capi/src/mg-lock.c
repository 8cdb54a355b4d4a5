/*
 * mg-lock: takes a lock in a folder of images, runs a command, and lets go. Or it takes one that outlives it, or gives that back. man man/mg-lock.1 says how it is
 * used. All of its locks are those of a session with MG_SHARE (mg_session.h), and the command inherits the sign of life.
 *
 * Signals are blocked throughout, and taken where it pauses. So no talk with the images is cut off in the middle.
 */
#ifndef _GNU_SOURCE
#define _GNU_SOURCE
#endif
#include <mg_session.h>

#include "status.h"

#include <errno.h>
#include <fcntl.h>
#include <getopt.h>
#include <paths.h>
#include <signal.h>
#include <stdarg.h>
#include <stdbool.h>
#include <stdio.h>
#include <stdlib.h>
#include <string.h>
#include <sys/prctl.h>
#include <sys/stat.h>
#include <sys/syscall.h>
#include <sys/wait.h>
#include <time.h>
#include <unistd.h>

enum { FAILED = 125, CANNOT_RUN = 126, NOT_FOUND = 127, LOWEST_SIGN = 100, FEW_OF_SLOTS = 20 };
enum { MOMENT = 2, MOMENTS = 6, LATE = 5000 }; /* milliseconds, and how many moments */
enum { FIRST_CLIENT = 240, FIRST_LOCK = 1536, LOCKS_OF_A_HOST = 4000 }; /* of sessions: mg_session.h */

static const char *const MODES[] = {"NL", "CR", "CW", "PR", "PW", "EX"};
static const int SIGNALS[] = {SIGHUP, SIGINT, SIGQUIT, SIGTERM, SIGUSR1, SIGUSR2};

/* What is asked for. */
static struct {
    const char *folder, *name;
    char **words, **command; /* --give: the locks */
    unsigned host;
    int mode, conflict, interval, check, timeout; /* milliseconds, below 0: none */
    bool closes, prints, verbose, recovers, all, shows, takes, gives;
    enum status_form form;
} asked = {.mode = MG_EX, .conflict = 1, .interval = 5, .timeout = -1};

static int64_t begun;    /* when, in milliseconds */
static sigset_t ends;    /* the signals that end a wait, and that are handed on to a command */
static sigset_t heard;   /* these, and those of job control */
static int ended;        /* by a signal that ends a wait; 0: not */
static int cause;        /* the errno of the session's last call */
static struct mg_held db; /* the lock */

/* ---- saying ---- */

__attribute__((format(printf, 1, 2))) static void say(const char *format, ...) {
    va_list rest;
    va_start(rest, format);
    fputs("mg-lock: ", stderr);
    vfprintf(stderr, format, rest);
    fputc('\n', stderr);
    va_end(rest);
}

/* "36 HostInUse (somebody else works under this host number)" */
static const char *told(int status) {
    static char text[640];
    char machine[33];
    if (status < 0 && mg_cause()[0])
        return mg_cause();
    if (status > 0 && status != MG_HOST_IN_USE && mg_cause()[0]) {
        snprintf(text, sizeof text, "%d %s (%s)", status, mg_name(status), mg_cause());
        return text;
    }
    if (status == MG_HOST_IN_USE && mg_machine_of(asked.folder, asked.host, machine, sizeof machine) == MG_OK && machine[0])
        snprintf(text, sizeof text, "%d %s (the host number is of machine %s, and in use)", status, mg_name(status), machine);
    else if (status == MG_NO_LOCK)
        snprintf(text, sizeof text, "%d %s (the host number, or the sign of life of a lock, cannot be locked: %s)", status, mg_name(status), strerror(cause));
    else if (status > 0)
        snprintf(text, sizeof text, "%d %s (%s)", status, mg_name(status), mg_strerror(status));
    else
        snprintf(text, sizeof text, "%s", mg_strerror(status));
    return text;
}

static int64_t milliseconds(void) {
    struct timespec now = {0, 0};
    clock_gettime(CLOCK_MONOTONIC, &now);
    return (int64_t)now.tv_sec * 1000 + now.tv_nsec / 1000000;
}

static double seconds_since_begin(void) { return (double)(milliseconds() - begun) / 1000; }

/* ---- signals ---- */

/* The next of these signals within so many milliseconds, below 0 without an end; else 0. */
static int next_of(const sigset_t *awaited, int64_t length, siginfo_t *what) {
    const struct timespec time = {(time_t)(length / 1000), (long)(length % 1000) * 1000000};
    int signal = length < 0 ? sigwaitinfo(awaited, what) : sigtimedwait(awaited, what, &time);
    return signal > 0 ? signal : 0;
}

/* Stops as the terminal wanted it, until somebody has this go on. */
static void suspend(void) {
    sigset_t one;
    sigemptyset(&one);
    sigaddset(&one, SIGTSTP);
    raise(SIGTSTP);
    sigprocmask(SIG_UNBLOCK, &one, NULL);
    sigprocmask(SIG_BLOCK, &one, NULL);
}

/* What the session calls to pause: until a signal that ends the wait. It stops only where it keeps the host number from nobody. */
static int rest(void *with, int length) {
    static bool is_to_stop;
    if (!ended) {
        int signal = next_of(&heard, length, NULL);
        is_to_stop = signal == SIGTSTP || (is_to_stop && signal != SIGCONT);
        ended = signal == SIGTSTP || signal == SIGCONT ? 0 : signal;
    }
    if (is_to_stop && !mg_has_number(with)) {
        is_to_stop = false;
        suspend();
    }
    return ended;
}

static bool has_ended(void) { return rest(NULL, 0) != 0; }

/* What was ignored when this began stays so, for the command too. Where nobody reads what is printed the lock is given back all the same. */
static void block_signals(sigset_t *before) {
    sigset_t blocked;
    sigemptyset(&ends);
    for (size_t i = 0; i < sizeof SIGNALS / sizeof SIGNALS[0]; i++) {
        struct sigaction now;
        if (sigaction(SIGNALS[i], NULL, &now) == 0 && now.sa_handler != SIG_IGN)
            sigaddset(&ends, SIGNALS[i]);
    }
    heard = ends;
    sigaddset(&heard, SIGTSTP);
    sigaddset(&heard, SIGCONT);
    blocked = heard;
    sigaddset(&blocked, SIGCHLD);
    sigaddset(&blocked, SIGPIPE);
    sigprocmask(SIG_BLOCK, &blocked, before);
    signal(SIGCHLD, SIG_DFL);
}

/* Ends as by the signal, for whoever started this process. */
static int end_by(int number) {
    sigset_t one;
    signal(number, SIG_DFL);
    sigemptyset(&one);
    sigaddset(&one, number);
    raise(number);
    sigprocmask(SIG_UNBLOCK, &one, NULL);
    return 128 + number;
}

/* ---- whether a signal reached the whole process group ---- */

/* The witness is a process of this group that does nothing. With all signals blocked it keeps each one that reaches it. What reached this process and the
 * witness reached the command, too. It has none of the files of this process, so it keeps neither a lock nor a pipe, and it ends with this process. */
static pid_t witness = -1;
static uint64_t reached; /* signals that were found there, a bit for each */

/* Where there can be none, what is sent to the group reaches the command twice. */
static void begin_witness(void) {
    pid_t parent = getpid();
    witness = fork();
    if (witness != 0)
        return;
#ifdef SYS_close_range
    (void)syscall(SYS_close_range, 0, ~0U, 0);
#endif
    /* So that it is not found by the name of this program, and sent what is meant for that. */
    (void)prctl(PR_SET_NAME, "lock-witness");
    for (char **word = asked.words; *word; word++)
        memset(*word, 0, strlen(*word));
    (void)prctl(PR_SET_PDEATHSIG, SIGKILL);
    while (getppid() == parent)
        pause();
    _exit(0);
}

static void end_witness(void) {
    if (witness > 0 && kill(witness, SIGKILL) == 0)
        waitpid(witness, NULL, 0);
    witness = -1;
}

/* The signals that have reached it. */
static uint64_t found_there(void) {
    char path[64], line[256];
    unsigned long long found = 0;
    FILE *from;
    snprintf(path, sizeof path, "/proc/%d/status", (int)witness);
    from = fopen(path, "re");
    while (from && fgets(line, sizeof line, from))
        if (sscanf(line, "ShdPnd: %llx", &found) == 1)
            break;
    if (from)
        fclose(from);
    return found;
}

/* Whether a signal that came here reached the group. Not all get it in the very same moment, and one that comes twice meanwhile counts as one. */
static bool reached_group(int number, pid_t child) {
    const struct timespec moment = {0, MOMENT * 1000000};
    const uint64_t bit = (uint64_t)1 << (number - 1);
    sigset_t one;
    if (witness < 0 || getpgid(child) != getpgrp())
        return false;
    for (int tries = 0; (reached & bit) == 0 && tries < MOMENTS; tries++) {
        if (tries > 0)
            nanosleep(&moment, NULL);
        reached |= found_there();
    }
    if ((reached & bit) == 0)
        return false;
    end_witness();
    begin_witness();
    reached &= ~bit;
    sigemptyset(&one);
    sigaddset(&one, number);
    (void)next_of(&one, 0, NULL);
    return true;
}

/* ---- the command ---- */

__attribute__((format(printf, 2, 3))) static void put(const char *name, const char *format, ...) {
    char text[4200];
    va_list rest;
    va_start(rest, format);
    vsnprintf(text, sizeof text, format, rest);
    va_end(rest);
    setenv(name, text, 1);
}

static void put_environment(void) {
    bool is_valid = (db.value.flags & MG_VALID) != 0;
    char value[2 * MG_VALUE_LENGTH + 1];
    for (int i = 0; i < MG_VALUE_LENGTH; i++)
        snprintf(value + 2 * i, 3, "%02x", db.value.bytes[i]);
    put("MG_LOCK_FOLDER", "%s", asked.folder);
    put("MG_LOCK_HOST", "%u", asked.host);
    put("MG_LOCK_NAME", "%s", asked.name);
    put("MG_LOCK_MODE", "%s", MODES[asked.mode]);
    put("MG_LOCK_NUMBER", "%u", (unsigned)db.lock);
    put("MG_LOCK_SLOT", "%lld", (long long)db.slot);
    put("MG_LOCK_CLUSTER", "%llu", (unsigned long long)db.cluster);
    put("MG_LOCK_VALUE", "%s", value);
    put("MG_LOCK_VALID", "%d", is_valid);
    if (asked.prints) {
        printf("%s%s\n", value, is_valid ? "" : " invalid");
        fflush(stdout);
    }
}

/* In the child, once nobody has the other end of the gate. The sign gets a number above those that scripts use. */
static void become_command(int gate, int sign, const sigset_t *before) {
    char none;
    int cause;
    while (read(gate, &none, 1) < 0 && errno == EINTR)
        ;
    close(gate);
    if (sign >= 0 && fcntl(sign, F_DUPFD, LOWEST_SIGN) < 0)
        fcntl(sign, F_SETFD, 0);
    sigprocmask(SIG_SETMASK, before, NULL);
    execvp(asked.command[0], asked.command);
    cause = errno;
    say("%s: %s", asked.command[0], strerror(cause));
    _exit(cause == ENOENT ? NOT_FOUND : CANNOT_RUN);
}

/* Signals that came before the child was there did not reach it, not even a terminal's. Until these are handed on it waits, with all
 * blocked: so one that did reach it meanwhile is the same as the one that is handed on. */
static void hand_on_earlier(pid_t child) {
    int signal;
    while ((signal = next_of(&ends, 0, NULL)) > 0) {
        (void)reached_group(signal, child);
        kill(child, signal);
    }
}

/* What a terminal sends, or somebody sends to the process group, reaches the command by itself. */
static void hand_on(const siginfo_t *what, pid_t child) {
    bool is_sent = what->si_code == SI_USER || what->si_code == SI_QUEUE || what->si_code == SI_TKILL;
    if (!reached_group(what->si_signo, child) && is_sent)
        kill(child, what->si_signo);
}

/* Looks whether the lock was taken away, and ends the command then. */
static bool has_lost(struct mg_session *session, pid_t child) {
    if (mg_check(session, db.lock) != MG_NO_SUCH_LOCK)
        return false;
    say("the lock on %s was taken away", asked.name);
    if (child > 0)
        kill(child, SIGTERM);
    return true;
}

/* Waits for the command, or without one for a signal. */
static int attend(struct mg_session *session, pid_t child, bool *lost) {
    int64_t looks = milliseconds() + 1000 * (int64_t)asked.check;
    sigset_t awaited = heard;
    sigaddset(&awaited, SIGCHLD);
    for (;;) {
        siginfo_t what;
        int64_t left = asked.check > 0 && !*lost ? looks - milliseconds() : -1;
        int status, signal;
        if (child > 0 && waitpid(child, &status, WNOHANG) == child)
            return WIFEXITED(status) ? WEXITSTATUS(status) : 128 + WTERMSIG(status);
        if (asked.check > 0 && !*lost && left <= 0) {
            *lost = has_lost(session, child);
            looks = milliseconds() + 1000 * (int64_t)asked.check;
            if (*lost && child < 0)
                return 0;
            continue;
        }
        signal = next_of(&awaited, left, &what);
        if (signal == SIGTSTP)
            suspend();
        else if (sigismember(&ends, signal) == 1) {
            if (child < 0)
                return 0;
            hand_on(&what, child);
        }
    }
}

static int run_command(struct mg_session *session, const sigset_t *before, bool *lost) {
    int gate[2], status, sign = asked.closes ? -1 : mg_sign_of(session, db.lock);
    pid_t child;
    begin_witness();
    child = pipe(gate) == 0 ? fork() : -1;
    if (child < 0) {
        say("no process for the command: %s", strerror(errno));
        end_witness();
        return FAILED;
    }
    if (child == 0) {
        close(gate[1]);
        become_command(gate[0], sign, before);
    }
    close(gate[0]);
    hand_on_earlier(child);
    close(gate[1]);
    status = attend(session, child, lost);
    end_witness();
    return status;
}

static int run(struct mg_session *session, const sigset_t *before, bool *lost) {
    put_environment();
    return asked.command[0] ? run_command(session, before, lost) : attend(session, -1, lost);
}

/* ---- what is asked ---- */

static void usage(FILE *where) {
    fputs("usage: mg-lock [OPTION]... FOLDER HOST NAME [--] [COMMAND [ARGUMENT]...]\n"
          "       mg-lock [OPTION]... FOLDER HOST NAME -c LINE\n"
          "       mg-lock --take [--json] [OPTION]... FOLDER HOST NAME\n"
          "       mg-lock --give FOLDER NAME LOCK...\n"
          "       mg-lock --recover [--all] FOLDER HOST\n"
          "       mg-lock --status [--json | --prometheus] FOLDER\n"
          "Runs COMMAND while it holds a lock on NAME, through host HOST of the images in FOLDER.\n"
          "Without a COMMAND it holds the lock until it is interrupted.\n"
          "\n"
          "  -x, --exclusive        EX, the mode if none is given\n"
          "  -s, --shared           PR\n"
          "  -m, --mode MODE        NL, CR, CW, PR, PW or EX\n"
          "  -n, --nonblock, --nb   do not wait\n"
          "  -w, --timeout SECONDS  wait no longer, as 2.5; also --wait\n"
          "  -E, --conflict-exit-code N  status where it was not granted (1)\n"
          "  -v, --value            print the value of NAME first\n"
          "  -o, --close            COMMAND does not keep the lock if mg-lock is killed\n"
          "  -k, --check SECONDS    look so often whether the lock was taken away, and end COMMAND then\n"
          "  -i, --interval MS      longest pause between looks (5)\n"
          "  -r, --recover          release what mg-locks that are gone have left, and no more\n"
          "  -a, --all              with -r: all locks of this host; only when its machine has just started\n"
          "      --take             print the lock and its token, and leave it taken; with --json for programs\n"
          "      --give             give such locks back: their numbers, or the lines that were printed\n"
          "      --status           print slots, disks, host numbers in use here, and locks; it only looks\n"
          "      --json             with --status: for programs\n"
          "      --prometheus       with --status: for node_exporter of Prometheus\n"
          "      --verbose          say how long it waited\n"
          "  -c, --command LINE     after NAME: the shell runs LINE, which is one word\n"
          "  -h, --help; -V, --version\n"
          "\n"
          "Exit status: that of COMMAND, 128 + N if signal N ended it; 1 (-E) not granted, or nothing to give; 125 mg-lock\n"
          "failed, or the lock was lost, or may stay; 126, 127 COMMAND cannot be run, was not found.\n"
          "With --status: 0 nothing is wrong, 1 work goes on all the same, 3 no command gets into the log, 125 no table.\n",
          where);
}

/* dlm prints no help: its texts are fixed. */
static void help_for_dlm(void) {
    fputs("\n"
          "The words of dlm, which makes the images and prints no help:\n"
          "  dlm format FOLDER DISKS [SLOTS] CLUSTER\n"
          "  dlm submit FOLDER HOST COMMAND, one of:\n"
          "      enqueue CLIENT REQUEST LOCK MODE NAME [noqueue]\n"
          "      convert CLIENT REQUEST LOCK MODE [noqueue] [value VALUE]\n"
          "      release CLIENT REQUEST LOCK [value VALUE]\n"
          "      cancel CLIENT REQUEST LOCK\n"
          "      status CLIENT REQUEST LOCK\n"
          "      purge CLIENT REQUEST HOST\n"
          "      forget CLIENT REQUEST FORGOTTEN\n"
          "  dlm table FOLDER HOST\n"
          "  dlm mark FOLDER HOST\n"
          "  dlm check FOLDER\n"
          "  dlm migrate FOLDER\n"
          "  dlm migrate OLD NEW SLOTS\n"
          "  dlm replace FOLDER DISK\n"
          "  dlm fill FOLDER HOST\n"
          "  dlm renew OLD HOST NEW DISKS SLOTS CLUSTER [CLIENT]...\n"
          "  dlm run SCRIPT\n"
          "  dlm sweep SCRIPT\n"
          "  dlm race HOSTS\n"
          "Disks 1 to 7; slots 1 to 4096, or none for a log without an end; cluster any number. Host 0 to 15; client 0 to 239,\n"
          "and from 240 on of mg-lock; request 1 to 2^62, each above the client's last, as $(date +%s%N); lock 1 to 1535, and\n"
          "from 1536 on of mg-lock; name 1 to 15 bytes; value 32 digits, 0 to 9 and a to f.\n",
          stdout);
}

static int refuse(const char *what, const char *given) {
    say("%s%s%s", what, given ? ": " : "", given ? given : "");
    return FAILED;
}

/* By the disk that is at fault, if the cause does not name it. */
static int refuse_folder(int status, int disk) {
    char image[16];
    snprintf(image, sizeof image, "disk%d", disk);
    return refuse(told(status), disk < 0 || mg_cause()[0] ? NULL : image);
}

static bool number(const char *text, long least, long most, int *into) {
    char *end;
    long n;
    errno = 0;
    n = strtol(text, &end, 10);
    *into = (int)n;
    return errno == 0 && end != text && *end == '\0' && n >= least && n <= most;
}

static bool seconds(const char *text, int *into) {
    char *end;
    double n = strtod(text, &end);
    if (end == text || *end != '\0' || !(n >= 0 && n <= 2e6))
        return false;
    *into = (int)(n * 1000);
    return true;
}

static bool mode_of(const char *text, int *into) {
    for (*into = MG_EX; *into >= 0; --*into)
        if (strcmp(text, MODES[*into]) == 0)
            return true;
    return false;
}

static const struct option OPTIONS[] = {
    {"exclusive", 0, NULL, 'x'}, {"shared", 0, NULL, 's'},   {"mode", 1, NULL, 'm'},    {"nonblock", 0, NULL, 'n'}, {"nb", 0, NULL, 'n'},
    {"timeout", 1, NULL, 'w'},   {"wait", 1, NULL, 'w'},     {"conflict-exit-code", 1, NULL, 'E'},
    {"value", 0, NULL, 'v'},     {"close", 0, NULL, 'o'},    {"check", 1, NULL, 'k'},   {"interval", 1, NULL, 'i'},
    {"recover", 0, NULL, 'r'},   {"all", 0, NULL, 'a'},      {"verbose", 0, NULL, 'l'}, {"help", 0, NULL, 'h'},
    {"version", 0, NULL, 'V'},   {"status", 0, NULL, 'S'},   {"json", 0, NULL, 'J'},    {"prometheus", 0, NULL, 'P'},
    {"take", 0, NULL, 'T'},      {"give", 0, NULL, 'G'},
    {NULL, 0, NULL, 0}};

/* 0, or the status to end with; below 0: end well. */
static int read_options(int argc, char **argv) {
    int option;
    while ((option = getopt_long(argc, argv, "+xsm:nw:E:vok:i:rahV", OPTIONS, NULL)) != -1) {
        switch (option) {
        case 'x': asked.mode = MG_EX; break;
        case 's': asked.mode = MG_PR; break;
        case 'm':
            if (!mode_of(optarg, &asked.mode))
                return refuse("no mode", optarg);
            break;
        case 'n': asked.timeout = 0; break;
        case 'w':
            if (!seconds(optarg, &asked.timeout))
                return refuse("no number of seconds", optarg);
            break;
        case 'E':
            if (!number(optarg, 0, 255, &asked.conflict))
                return refuse("no exit status", optarg);
            break;
        case 'v': asked.prints = true; break;
        case 'o': asked.closes = true; break;
        case 'k':
            if (!number(optarg, 1, 86400, &asked.check))
                return refuse("no number of seconds", optarg);
            break;
        case 'i':
            if (!number(optarg, 1, 60000, &asked.interval))
                return refuse("no number of milliseconds", optarg);
            break;
        case 'r': asked.recovers = true; break;
        case 'a': asked.all = true; break;
        case 'l': asked.verbose = true; break;
        case 'S': asked.shows = true; break;
        case 'T': asked.takes = true; break;
        case 'G': asked.gives = true; break;
        case 'J':
        case 'P':
            if (asked.form == (option == 'J' ? FOR_PROMETHEUS : AS_JSON))
                return refuse("--json or --prometheus, not both", NULL);
            asked.form = option == 'J' ? AS_JSON : FOR_PROMETHEUS;
            break;
        case 'h':
            usage(stdout);
            help_for_dlm();
            return -1;
        case 'V': printf("mg-lock of midgegalena %s\n", mg_version()); return -1;
        default: usage(stderr); return FAILED;
        }
    }
    return 0;
}

/* Whether there are as many words as what is asked for takes, and no option of something else. */
static bool may_be(int words) {
    if (asked.shows + asked.recovers + asked.takes + asked.gives > 1 || (asked.all && !asked.recovers))
        return false;
    if (asked.shows)
        return words == 1;
    if (asked.takes)
        return words == 3 && asked.form != FOR_PROMETHEUS;
    return (asked.recovers ? words == 2 : words >= 3) && asked.form == FOR_PEOPLE;
}

/* The shell is to run this one word. */
static int by_shell(char **line) {
    static char option[] = "-c";
    static char *words[4];
    const char *shell = getenv("SHELL");
    if (!line[0] || line[1])
        return refuse("-c takes one word, and it is the last", NULL);
    words[0] = strdup(shell && shell[0] ? shell : _PATH_BSHELL);
    words[1] = option;
    words[2] = line[0];
    if (!words[0])
        return refuse(strerror(errno), NULL);
    asked.command = words;
    return 0;
}

static int read_arguments(int argc, char **argv) {
    int host, status = read_options(argc, argv);
    if (status != 0)
        return status;
    argc -= optind;
    argv += optind;
    if (!may_be(argc)) {
        usage(stderr);
        return FAILED;
    }
    asked.folder = argv[0];
    if (asked.shows)
        return 0;
    if (asked.gives) {
        asked.name = argv[1];
        asked.command = argv + 2;
        return 0;
    }
    if (!number(argv[1], 0, MG_HOSTS - 1, &host))
        return refuse("no host", argv[1]);
    asked.host = (unsigned)host;
    if (asked.recovers)
        return 0;
    asked.name = argv[2];
    asked.command = argv + 3;
    if (!asked.command[0])
        return 0;
    if (strcmp(asked.command[0], "-c") == 0 || strcmp(asked.command[0], "--command") == 0)
        return by_shell(asked.command + 1);
    if (strcmp(asked.command[0], "--") == 0)
        asked.command++;
    return 0;
}

static int recover(struct mg_session *session) {
    unsigned released;
    int status = mg_recover(session, asked.all ? MG_ALL : 0, &released);
    cause = errno;
    if (mg_stay(session) > 0)
        say("%u locks whose processes are gone stay in the table", mg_stay(session));
    if (status != MG_OK)
        return refuse(told(status), NULL);
    printf("released %u\n", released);
    return 0;
}

/* By one write, if that takes all of it. */
static bool print(const char *text, size_t length) {
    while (length > 0) {
        ssize_t printed = write(STDOUT_FILENO, text, length);
        if (printed < 0)
            return false;
        text += printed;
        length -= (size_t)printed;
    }
    return true;
}

/* Prints nothing before all of it is there. */
static int show(void) {
    char *text = NULL;
    size_t length = 0;
    FILE *out = open_memstream(&text, &length);
    enum health health;
    int disk, status;
    bool is_whole;
    if (!out)
        return refuse("it could not be printed", strerror(errno));
    status = show_status(asked.folder, asked.form, out, &disk, &health);
    if (status != MG_OK)
        (void)refuse_folder(status, disk);
    is_whole = !ferror(out);
    is_whole &= fclose(out) == 0;
    if (!is_whole || !print(text, length))
        status = refuse("it could not be printed", strerror(errno));
    free(text);
    return status == MG_OK ? (int)health : FAILED;
}

/* Says which lock was not given back. Where a session has the host number for itself, no mg-lock gets it: that session's mg_take releases. */
static void say_what_stays(int status) {
    bool in_doubt = status == MG_IN_DOUBT;
    say("the lock %u on %s %s in the table: %s; the next mg-lock or mg_take under host %u releases it, once the log can be written",
        (unsigned)db.lock, asked.name, in_doubt ? "may stay" : "stays", in_doubt ? "its release was not acknowledged" : told(status), asked.host);
}

/* MG_OK, or MG_NO_SUCH_LOCK where it was taken away before. */
static int give_back(struct mg_session *session) {
    int status = mg_give(session, db.lock, NULL);
    cause = errno;
    if (status != MG_OK && status != MG_NO_SUCH_LOCK)
        say_what_stays(status);
    return status;
}

/* The status where the lock was not granted. Where it may stay it is given back once more, and if it may stay all the same that is no conflict. */
static int decline(struct mg_session *session, int status) {
    if (status == MG_IN_DOUBT && mg_give(session, db.lock, NULL) == MG_OK)
        status = asked.timeout < 0 ? MG_STOPPED : MG_TIMED_OUT;
    if (status == MG_IN_DOUBT)
        say_what_stays(status);
    if (has_ended())
        return end_by(ended);
    if (status == MG_IN_DOUBT)
        return FAILED;
    if (status == MG_BAD_ARGUMENT && mg_cause()[0] == '\0')
        return refuse("a name has 1 to 15 bytes from 0x21 to 0x7E", asked.name);
    if (status == MG_NO_SUCH_LOCK)
        return refuse("the lock was taken away while it waited", asked.name);
    if (status != MG_TIMED_OUT)
        return refuse(told(status), NULL);
    if (asked.verbose)
        say("%s was not granted in %.3f s", asked.name, seconds_since_begin());
    return asked.conflict;
}

static void warn_of_end(struct mg_session *session) {
    struct mg_host *host;
    struct mg_host_view facts;
    if (db.slots_left == UINT64_MAX)
        return; /* the log has no end */
    if (mg_host_of(session, &host) == MG_OK && mg_host_facts(host, &facts) == MG_OK && db.slots_left < facts.slots / FEW_OF_SLOTS)
        say("%u of %u slots of the log of %s are left, and a run takes two", (unsigned)db.slots_left, (unsigned)facts.slots, asked.folder);
}

/* Whether it was granted so late that it is not wanted any more, as where this process was stopped meanwhile. */
static bool is_late(void) { return asked.timeout > 0 && milliseconds() > begun + asked.timeout + LATE; }

/* ---- a lock that outlives this process ---- */

/* It has no sign of life. So it may be somebody's, and no recovery releases it but one of all locks. Once its sign is there again, and nobody's, it is one that
 * is left over, and each recovery releases it: whoever has made the sign need not live on. */

/* Its path is empty where that is too long: nothing is found or made there. */
static const char *path_of_sign(uint64_t cluster) {
    static char path[4200];
    int length = snprintf(path, sizeof path, "%s/mg-lock.%llu.%u.%u", asked.folder, (unsigned long long)cluster, asked.host, (unsigned)db.lock);
    if (length < 0 || length >= (int)sizeof path)
        path[0] = '\0';
    return path;
}

static bool make_sign(uint64_t cluster) {
    int file = open(path_of_sign(cluster), O_RDWR | O_CREAT | O_CLOEXEC | O_NOFOLLOW, 0666);
    if (file >= 0)
        close(file);
    return file >= 0 || access(path_of_sign(cluster), F_OK) == 0;
}

/* The folder may be a link that leads elsewhere by now. */
static bool remove_sign(struct mg_session *session) {
    struct stat ours, there;
    const char *path = path_of_sign(db.cluster);
    return fstat(mg_sign_of(session, db.lock), &ours) == 0 && stat(path, &there) == 0 && ours.st_dev == there.st_dev && ours.st_ino == there.st_ino &&
           unlink(path) == 0;
}

/* "taken db: lock 1541 of client 240, token 17", and for programs an object. */
static bool print_taken(void) {
    char line[256], name[2 * MG_NAME_LENGTH + 1];
    size_t length = 0;
    for (const char *next = asked.name; *next; next++) {
        if (*next == '"' || *next == '\\')
            name[length++] = '\\';
        name[length++] = *next;
    }
    name[length] = '\0';
    if (asked.form == AS_JSON)
        snprintf(line, sizeof line, "{\"name\": \"%s\", \"lock\": %u, \"client\": %u, \"host\": %u, \"held\": \"%s\", \"token\": %lld, \"cluster\": \"%llu\"}\n", name,
                 (unsigned)db.lock, FIRST_CLIENT + asked.host, asked.host, MODES[asked.mode], (long long)db.slot, (unsigned long long)db.cluster);
    else
        snprintf(line, sizeof line, "taken %s: lock %u of client %u, token %lld\n", asked.name, (unsigned)db.lock, FIRST_CLIENT + asked.host, (long long)db.slot);
    return print(line, strlen(line));
}

/* Leaves the lock taken, and says which it is. Where nobody can hear that it is given back. */
static int leave_taken(struct mg_session *session) {
    bool is_removed = remove_sign(session);
    if (is_removed && print_taken())
        return 0;
    say("%s: %s", is_removed ? "it could not be printed" : "the sign of life cannot be removed", strerror(errno));
    if (is_removed)
        (void)make_sign(db.cluster);
    (void)give_back(session);
    return FAILED;
}

/* The number of a lock, or the line that was printed when it was taken. Its host follows from it, and with MG_SHARE it is odd. */
static bool read_lock(const char *text) {
    char begins[64];
    size_t length = (size_t)snprintf(begins, sizeof begins, "taken %.*s: lock ", MG_NAME_LENGTH + 1, asked.name);
    bool is_line = strncmp(text, begins, length) == 0;
    char *end;
    unsigned long lock;
    text += is_line ? length : 0;
    lock = strtoul(text, &end, 10);
    if (end == text || text[0] == '-' || (is_line ? *end != ' ' : *end != '\0') || lock % 2 == 0 || lock < FIRST_LOCK ||
        lock >= FIRST_LOCK + LOCKS_OF_A_HOST * MG_HOSTS)
        return false;
    db.lock = (uint32_t)lock;
    asked.host = ((unsigned)lock - FIRST_LOCK) / LOCKS_OF_A_HOST;
    return true;
}

/* MG_OK: as far as a look tells the lock is in the table, and on this name. */
static int look_for_it(struct mg_session *session) {
    struct mg_lock_view view;
    struct mg_host_view facts;
    struct mg_host *host;
    int status = mg_host_of(session, &host);
    if (status == MG_OK)
        status = mg_look(host, NULL);
    if (status == MG_OK)
        status = mg_host_facts(host, &facts);
    if (status == MG_OK) {
        db.cluster = facts.cluster;
        status = mg_lock(host, db.lock, &view);
    }
    cause = errno;
    if (status == MG_OK && (view.client != FIRST_CLIENT + asked.host || view.host != asked.host || strcmp(view.name, asked.name) != 0))
        return MG_NO_SUCH_LOCK;
    return status;
}

/* Releases it as one that is left over. A look sees nothing after a command without a mark, so it is recovered before a lock is not there. */
static int release_it(struct mg_session *session) {
    int recovered, status = look_for_it(session);
    if (status != MG_OK) {
        status = mg_recover(session, 0, NULL);
        cause = errno;
        if (status == MG_OK)
            status = look_for_it(session);
    }
    if (status == MG_NO_SUCH_LOCK) {
        say("there is nothing to give: %s has no lock %u", asked.name, (unsigned)db.lock);
        return 1;
    }
    if (status != MG_OK)
        return refuse(told(status), NULL);
    if (!make_sign(db.cluster))
        return refuse("the sign of life cannot be made", strerror(errno));
    recovered = mg_recover(session, 0, NULL);
    cause = errno;
    status = look_for_it(session);
    /* Whoever has released it has removed its sign. */
    if (status == MG_NO_SUCH_LOCK || (recovered == MG_OK && access(path_of_sign(db.cluster), F_OK) != 0))
        return 0;
    if (recovered != MG_OK) {
        say_what_stays(recovered);
        return FAILED;
    }
    if (status != MG_OK)
        return refuse(told(status), NULL);
    say("there is nothing to give: a process has the lock %u on %s", (unsigned)db.lock, asked.name);
    return 1;
}

static int give(const char *text) {
    struct mg_session *session;
    int disk, status;
    if (!read_lock(text))
        return refuse("no lock that --take printed", text);
    status = mg_begin(asked.folder, asked.host, MG_SHARE, &session, &disk);
    cause = errno;
    if (status != MG_OK)
        return refuse_folder(status, disk);
    status = release_it(session);
    mg_end(session);
    return status;
}

/* Each of them is tried. */
static int give_all(void) {
    int worst = 0;
    for (char **text = asked.command; *text; text++) {
        int status = give(*text);
        if (status > worst)
            worst = status;
    }
    return worst;
}

static int take_and_run(struct mg_session *session, const sigset_t *before) {
    bool lost = false;
    int result, status = mg_take(session, asked.name, asked.mode, asked.timeout, &db);
    cause = errno;
    /* Not so long as to run what is not wanted any more. */
    if (status == MG_OK && has_ended()) {
        (void)give_back(session);
        status = MG_STOPPED;
    }
    if (status == MG_OK && is_late()) {
        status = give_back(session);
        if (status != MG_OK && status != MG_NO_SUCH_LOCK)
            return FAILED;
        status = MG_TIMED_OUT;
    }
    if (status != MG_OK)
        return decline(session, status);
    if (db.released > 0)
        say("released %u locks whose processes are gone", (unsigned)db.released);
    if (asked.verbose)
        say("%s was granted after %.3f s", asked.name, seconds_since_begin());
    warn_of_end(session);
    if (asked.takes)
        return leave_taken(session);
    result = run(session, before, &lost);
    status = give_back(session);
    if (status == MG_NO_SUCH_LOCK && !lost)
        say("the lock on %s was taken away while the command ran", asked.name);
    return result == 0 && (lost || status != MG_OK) ? FAILED : result;
}

int main(int argc, char **argv) {
    struct mg_session *session;
    sigset_t before;
    int disk, status = read_arguments(argc, argv);
    asked.words = argv;
    if (status != 0)
        return status < 0 ? 0 : status;
    if (asked.shows)
        return show();
    begun = milliseconds();
    block_signals(&before);
    if (asked.gives)
        return give_all();
    status = mg_begin(asked.folder, asked.host, MG_SHARE, &session, &disk);
    cause = errno;
    if (status != MG_OK)
        return refuse_folder(status, disk);
    (void)mg_set_interval(session, asked.interval);
    (void)mg_set_rest(session, rest, session);
    status = asked.recovers ? recover(session) : take_and_run(session, &before);
    mg_end(session);
    return status;
}
