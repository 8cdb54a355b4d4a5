#!/usr/bin/env python3
"""mg_pages.py [check]: writes what is made of the words of `mg`, which stand here and nowhere else: capi/src/mg_words.h (the words, options and help of the
program), man/mg.1, and the completions. With the word `check` it writes nothing, names each of these files that is another one, and ends with 1 where one is.

In a text `so` is something to be typed. A word of mg, its option or its help is changed here; then run this, and commit what it wrote."""
import os
import re
import sys
from collections import namedtuple

CAPI = os.path.dirname(os.path.realpath(__file__))
TOP = os.path.dirname(CAPI)
DATE = "December 1, 2026"

# ---- the words ----

# kind: FLAG, or what the value is. `least` and `most` bound a number; `range` says so to people.
Option = namedtuple("Option", "name letter kind value least most range text")
# takes: what has to be given. rest: what may follow it, and is handed on; `needs` says that something has to. one_of: options that exclude one another.
Word = namedtuple("Word", "name takes options rest needs one_of does text examples")


def option(name, kind, text, value="", least=0, most=0, bounds="", letter=""):
    return Option(name, letter, kind, value, least, most, bounds, text)


def number(name, value, least, most, text, letter=""):
    return option(name, "NUMBER", text, value, least, most, f"{least} to {most}", letter)


def seconds(name, least, most, text, letter=""):
    """`least` and `most` in milliseconds."""
    return option(name, "SECONDS", text, "SECONDS", least, most, f"a number of seconds, {least / 1000:g} to {most // 1000}", letter)


DISKS = [str(disk) for disk in range(7)]
MODES = ["NL", "CR", "CW", "PR", "PW", "EX"]
HOST = number("host", "N", 0, 15, "the host number; without it mg chooses one")
JSON = option("json", "FLAG", "for programs: one object")
MODE = option("mode", "MODE", "the mode; EX without it", "MODE", bounds=", ".join(MODES), letter="m")
WAIT = seconds("wait", 0, 86400000, "wait no longer, as 2.5", "w")

# What a client may ask for, in the words of a script.
COMMANDS = [
    ("enqueue", "CLIENT REQUEST LOCK MODE NAME [noqueue]"),
    ("convert", "CLIENT REQUEST LOCK MODE [noqueue] [value VALUE]"),
    ("release", "CLIENT REQUEST LOCK [value VALUE]"),
    ("cancel", "CLIENT REQUEST LOCK"),
    ("status", "CLIENT REQUEST LOCK"),
    ("purge", "CLIENT REQUEST HOST"),
    ("forget", "CLIENT REQUEST FORGOTTEN"),
]


def word(name, takes, options, does, text, examples, rest="", needs=False, one_of=()):
    return Word(name, takes.split(), options, rest, needs, one_of, does, text, examples)


WORDS = [
    word("create", "FOLDER", [
        number("cluster", "N", 0, 2**64 - 1, "another number for each folder; without it one at random"),
        number("disks", "N", 1, 7, "how many images; 3 without it"),
        number("slots", "N", 1, 4096, "the log ends after so many commands; without it, it has no end"),
        JSON,
    ], "make the images of a folder",
        ["Makes FOLDER if it is not there, and in it the images of a new log.", "It never writes over images that are there."],
        ["mg create images", "mg create images --disks 5"]),
    word("lock", "FOLDER NAME", [
        HOST,
        MODE,
        option("shared", "FLAG", "the mode PR: others may have PR, too", letter="s"),
        option("exclusive", "FLAG", "the mode EX", letter="x"),
        WAIT,
        option("nonblock", "FLAG", "do not wait", letter="n"),
        number("conflict-exit-code", "N", 0, 255, "the status where the lock is not granted; 1 without it", "E"),
        number("check", "SECONDS", 1, 86400, "look so often whether the lock was taken away, and end COMMAND then", "k"),
        number("interval", "MS", 1, 60000, "the longest pause between looks, in milliseconds; 5 without it", "i"),
        option("value", "FLAG", "print the value of NAME first", letter="v"),
        option("close", "FLAG", "COMMAND does not keep the lock if its mg-lock is killed", letter="o"),
        option("verbose", "FLAG", "say how long it waited"),
        option("command", "TEXT", "in place of COMMAND: the shell runs LINE, which is one word", "LINE", bounds="a line for the shell", letter="c"),
    ], "run a command under a lock",
        ["Waits for the lock on NAME, runs COMMAND, lets go, and ends with the status of COMMAND.", "Without COMMAND it holds the lock until it is interrupted.",
         "NAME has 1 to 15 bytes, and no blank.", "It becomes `mg-lock`, whose manual page has signals, statuses and what COMMAND finds in its environment."],
        ["mg lock images db -- ./backup", "mg lock images db --wait 60 -- ./backup", "mg lock images db -n -E 75 -- ./backup"],
        rest="COMMAND", one_of=(("mode", "shared", "exclusive"), ("wait", "nonblock"))),
    word("take", "FOLDER NAME", [
        HOST, MODE, WAIT,
        option("json", "FLAG", "for programs: one object"),
    ], "take a lock that stays when mg ends",
        ["Waits for the lock on NAME, prints its number and its token, and ends with 0: the lock stays.", "The token grows from each holder of EX to the next: a resource can refuse a lower one.",
         "The status is 1 if the lock was not granted in time; then nothing waits, and nothing is printed.",
         "The lock has no process: `mg give` releases it, a purge of its host, and `mg recover --all`, but not `mg recover`.",
         "If `mg take` was killed `mg table` shows whether it has taken a lock, and its number."],
        ["mg take images db --wait 60"]),
    word("give", "FOLDER NAME", [], "give back what mg take took",
        ["Gives back locks on NAME that `mg take` took. LOCK is the number, or in one word the line that was printed.",
         "The status is 1 where there is nothing to give, as the second time: so it may be run again after a kill."],
        ["mg give images db 1541"], rest="LOCK", needs=True),
    word("status", "FOLDER", [
        JSON,
        option("prometheus", "FLAG", "for node_exporter of Prometheus"),
    ], "show slots, disks and locks",
        ["Shows slots, disks, host numbers, and locks with how many slots ago they were granted or began to wait.", "It only looks.",
         "The status is 0 if nothing is wrong, 1 if work goes on all the same, 3 if no command gets into the log, 125 if the table cannot be read."],
        ["mg status images"], one_of=(("json", "prometheus"),)),
    word("watch", "FOLDER", [
        seconds("every", 100, 86400000, "the pause between two looks; 2 without it"),
    ], "show the status again and again",
        ["Shows what `mg status` shows, again and again, until it is interrupted.", "On a terminal it clears the screen each time."],
        ["mg watch images --every 10"]),
    word("recover", "FOLDER", [
        number("host", "N", 0, 15, "of this host number alone; without it of each one that is in use by nobody"),
        option("all", "FLAG", "also locks without a sign of life: only when the machine has just started"),
        JSON,
    ], "release what killed processes left",
        ["Releases the locks of each `mg lock` that was killed, once its COMMAND has ended, too.", "It prints how many, for each host number that had some."],
        ["mg recover images", "mg recover images --all"]),
    word("submit", "FOLDER", [HOST, JSON], "put a command into the log",
         ["Puts COMMAND into the log, and prints its place and the reply of the lock table.", "The client, its request and the lock are numbers that you choose.",
          "A request counts once: each new one needs a greater number than the client's last."],
         ["mg submit images enqueue 1 $(date +%s%N) 1 EX db"], rest="COMMAND", needs=True),
    word("table", "FOLDER", [HOST, JSON], "show the lock table", ["Learns the whole log, and prints the locks of each name."], ["mg table images"]),
    word("mark", "FOLDER", [HOST, JSON], "mark what has no mark",
         ["Learns the whole log, and marks each command that has no mark, so that looks pass it.", "Run it after a crash."], ["mg mark images"]),
    word("check", "FOLDER", [JSON], "look for damage in the images",
         ["Reads all images to their ends, and prints a line for whatever is wrong, or `sound`.", "It writes nothing."], ["mg check images"]),
    word("migrate", "FOLDER", [JSON], "make a log that ends endless",
         ["Makes the log of FOLDER one without an end, in its own images.", "Stop every host of the folder before, and copy the images: there is no way back."],
         ["mg migrate images"]),
    word("replace", "FOLDER DISK", [JSON], "make a new image in the place of a lost one",
         ["Makes a new image of number DISK, 0 to 6, in the place of a lost one, in a log without an end.",
          "End every process that has FOLDER open before, and move away what has the name of the image.", "Until the epoch that it prints the new image counts as lost."],
         ["mg replace images 1"]),
    word("run", "SCRIPT", [], "run a script over disks in memory", ["Runs SCRIPT over disks in memory, with hosts, faults and crashes where it says so.", "A SCRIPT `-` is the standard input."],
         ["mg run examples/first_reply.dlm"]),
    word("sweep", "SCRIPT", [], "run a script with each single fault", ["Runs SCRIPT once for each fault before each of its steps, and says how many runs were wrong.", "A SCRIPT `-` is the standard input."],
         ["mg sweep examples/first_reply.dlm"]),
]

# The names in the objects that are printed, with what they stand for, as lines of mdoc. mg-lock.1 has those of take and status.
OBJECTS = [
    ("create", [".Ar folder ;", ".Ar cluster ,", "a string;", ".Ar disks ;", ".Ar slots ,", "null without an end;", ".Ar kind :", "ending or endless"]),
    ("recover", [".Ar released ;", ".Ar hosts ,", "of each host number that had some:", ".Ar host , released"]),
    ("submit", [".Ar folder ;", ".Ar place ,", "in the log;", ".Ar reply ,", "in words"]),
    ("table", [".Ar folder ;", ".Ar recovered ,", "how many commands;", ".Ar lines ,", "of the locks"]),
    ("mark", [".Ar folder ;", ".Ar recovered , marked ,", "how many commands"]),
    ("check", [".Ar folder ;", ".Ar sound ,", "true or false;", ".Ar lines :", "those that are printed without", ".Fl -json ,", "but for sound"]),
    ("migrate", [".Ar folder ;", ".Ar disks ;", ".Ar made ,", "false where the log was endless before;", ".Ar slots_an_epoch ,", "null where it was"]),
    ("replace", [".Ar folder ;", ".Ar disk ;", ".Ar first_epoch ,", "from which on the new image takes part"]),
]

# What it says, and what to do. The program says the first part.
TELLS = [
    ("no such folder", "FOLDER is not there: is the path right? `mg create` makes one"),
    ("read-only file system", "each word but `status`, `watch` and `check` writes into FOLDER: mount it for writing"),
    ("permission denied", "you need to read and write the images, and to make files in FOLDER: let a group have it"),
    ("no space left", "free some space, or make the images elsewhere and link them: they do not grow, and the file that locks a host number is empty"),
    ("that other machines may use", "give each machine a host number of its own, for good, and say it by `--host`"),
    ("is in use", "every host number has a process: say by `--host` which one to wait for, or end one"),
    ("a number and a name, as 36 HostInUse", "REFUSALS.md has the cause, and what to do"),
]


def usage(it):
    words = ["mg", it.name, *it.takes]
    if len(it.options) > 3:
        words.append("[OPTION]..")
    else:
        words += [f"[--{one.name}{' ' + one.value if one.value else ''}]" for one in it.options]
    if it.rest:
        words.append(f"{it.rest}.." if it.needs else f"[--] [{it.rest}..]")
    return " ".join(words)


def forms(one):
    """`-w, --wait SECONDS`"""
    return f"{'-' + one.letter + ', ' if one.letter else ''}--{one.name}{' ' + one.value if one.value else ''}"


def plain(text):
    return text.replace("`", "")


# ---- help ----


def fill(text, width=96):
    lines = [""]
    for one in text.split():
        if lines[-1] and len(lines[-1]) + 1 + len(one) > width:
            lines.append("")
        lines[-1] += (" " if lines[-1] else "") + one
    return lines


def help_of(it):
    lines = [f"usage: {usage(it)}", *fill(plain(" ".join(it.text)))]
    if it.options:
        indent = "" if all(not one.letter for one in it.options) else "    "
        rows = [((indent if not one.letter else "") + forms(one), plain(one.text)) for one in it.options]
        width = max(len(left) for left, _ in rows)
        lines += ["", *(f"  {left:<{width}}  {text}" for left, text in rows)]
    if it.name == "submit":
        lines += ["", "COMMAND is one of these:", *(f"  {name} {words}" for name, words in COMMANDS)]
    lines += ["", "Examples:" if len(it.examples) > 1 else "Example:", *(f"  {one}" for one in it.examples)]
    return "\n".join(lines) + "\n"


def short_help():
    width = max(len(f"mg {it.name} {' '.join(it.takes)}") for it in WORDS)
    lines = ["usage: mg WORD ..", "Locks for programs that share disks: a folder of images, no network, no daemon.", ""]
    for it in WORDS:
        lines.append(f"  {'mg ' + it.name + ' ' + ' '.join(it.takes):<{width}}  {it.does}")
    lines += ["", "Two lines to begin with:", "  mg create images", "  mg lock images db -- ./backup", "",
              "mg help WORD has the options, and an example. man mg says more. mg --version shows the version."]
    return "\n".join(lines) + "\n"


# ---- the header for mg.c ----


def in_c(text):
    return '"' + text.replace("\\", "\\\\").replace('"', '\\"').replace("\n", '\\n') + '"'


def lines_in_c(text):
    return "\n".join("        " + in_c(line) for line in text.splitlines(keepends=True))


def header():
    out = ["/* Made by capi/mg_pages.py: the words of mg, their options and their help. */", "#ifndef MG_WORDS_H", "#define MG_WORDS_H", "",
           "#include <stdbool.h>", "#include <stddef.h>", "#include <stdint.h>", ""]
    names = sorted({one.name for it in WORDS for one in it.options})
    longest = max(len(it.options) for it in WORDS)
    out += ["enum option_name {", *(f"    O_{name.upper().replace('-', '_')}," for name in names), "    OPTIONS", "};", ""]
    out += ["enum word_name {", *(f"    W_{it.name.upper()}," for it in WORDS), "    WORDS", "};", ""]
    out += ["enum kind { FLAG, NUMBER, SECONDS, MODE, TEXT };", "",
            "/* `least` and `most` are of a number; of seconds they are in thousandths. */",
            "struct option_of {", "    const char *name;", "    enum option_name is;", "    char letter; /* 0: none */", "    enum kind kind;",
            "    uint64_t least, most;", "    const char *range; /* what is right, for people */", "};", "",
            "struct word {", "    const char *name;", "    const char *takes[2];          /* what has to be given */",
            "    bool is_followed, needs_more;  /* whether a COMMAND may follow, or has to */",
            f"    struct option_of options[{longest + 1}];", "    enum option_name one_of[2][3]; /* those that exclude one another; OPTIONS: none */",
            "    const char *usage, *help;", "};", "", "static const struct word ALL_WORDS[WORDS] = {"]
    for it in WORDS:
        out += [f"    [W_{it.name.upper()}] = {{", f"        .name = {in_c(it.name)},", f"        .takes = {{{', '.join(map(in_c, it.takes))}}},",
                f"        .is_followed = {'true' if it.rest else 'false'},", f"        .needs_more = {'true' if it.needs else 'false'},"]
        if it.options:
            out.append("        .options =")
            rows = [f"{{{in_c(one.name)}, O_{one.name.upper().replace('-', '_')}, {repr(one.letter) if one.letter else 0}, {one.kind}, {one.least}u, "
                    f"{one.most}u{'ll' if one.most > 2**32 else ''}, {in_c(one.range)}}}" for one in it.options]
            out.append("            {" + ",\n             ".join(rows) + "},")
        groups = [list(group) + [None] * (3 - len(group)) for group in it.one_of] + [[None] * 3] * (2 - len(it.one_of))
        out.append("        .one_of = {" + ", ".join("{" + ", ".join("O_" + one.upper() if one else "OPTIONS" for one in group) + "}" for group in groups) + "},")
        out += [f"        .usage = {in_c(usage(it))},", "        .help =", lines_in_c(help_of(it)) + ",", "    },"]
    out += ["};", "", "/* What submit puts into the log: its words, as the help has them. */", "static const struct command {", "    const char *name, *words;",
            "} ALL_COMMANDS[] = {", *(f"    {{{in_c(name)}, {in_c(words)}}}," for name, words in COMMANDS), "};", "",
            "static const char NAMES_OF_COMMANDS[] =", f"        {in_c(', '.join(name for name, _ in COMMANDS))};"]
    out += ["", "static const char SHORT_HELP[] =", lines_in_c(short_help()) + ";", "",
            "static const char NAMES_OF_WORDS[] =", f"        {in_c(', '.join(it.name for it in WORDS) + ', help')};", "", "#endif"]
    return "\n".join(out) + "\n"


# ---- the manual page ----


def escaped(text):
    return text.replace("\\", "\\e").replace("-", "\\-")


def sentence_in_mdoc(text):
    """The lines of a sentence: what stands between backquotes is a literal, and the marks after it are its line's."""
    lines, parts = [], text.split("`")
    for at, part in enumerate(parts):
        if at % 2:
            marks = re.match(r"[.,;:]*", parts[at + 1]).group(0)
            lines.append(f".Ql {escaped(part)}" + "".join(f" {mark}" for mark in marks))
            parts[at + 1] = parts[at + 1][len(marks):]
        elif part.strip():
            lines.append(part.strip())
    return lines


def text_in_mdoc(sentences):
    return [line for one in sentences for line in sentence_in_mdoc(one)]


def option_in_mdoc(one):
    flags = f"Fl {one.letter} , " if one.letter else ""
    return f"{flags}Fl -{one.name}" + (f" Ar {one.value.lower()}" if one.value else "")


def synopsis(it):
    lines = [".Nm", f".Cm {it.name}", f".Ar {' '.join(it.takes).lower()}"]
    if len(it.options) > 3:
        lines.append(".Op Ar option ...")
    else:
        lines += [f".Op {option_in_mdoc(one)}" for one in it.options]
    if it.rest:
        lines += [f".Ar {it.rest.lower()} ..."] if it.needs else [".Op Fl -", f".Op Ar {it.rest.lower()} ..."]
    return lines


def in_page(text):
    """FOLDER, NAME and so on are arguments of the page, and small letters there."""
    return re.sub(r"\b(FOLDER|NAME|DISK|COMMAND|SCRIPT|LINE|LOCK)\b", lambda it: it.group(0).lower(), text)


def described(it):
    lines = [f".It Cm {it.name}", *text_in_mdoc(map(in_page, it.text))]
    if it.options:
        lines += [".Bl -tag -width Ds"]
        for one in it.options:
            text = in_page(one.text)
            bounds = f" ({one.range})" if one.range and one.kind in ("NUMBER", "MODE") else ""
            lines += [f".It {option_in_mdoc(one)}", *sentence_in_mdoc(text[0].upper() + text[1:] + bounds + ".")]
        lines.append(".El")
    if it.name == "submit":
        lines += [".Pp", "The commands are:", ".Bl -item -compact -offset indent"]
        lines += [line for name, words in COMMANDS for line in (".It", f"{name} {escaped(words)}")] + [".El"]
    return lines


def manual(version):
    out = [f".Dd {DATE}", ".Dt MG 1", f".Os Midgegalena {version}", ".Sh NAME", ".Nm mg", ".Nd locks for programs that share disks", ".Sh SYNOPSIS"]
    for it in WORDS:
        out += synopsis(it)
    out += [".Nm", ".Cm help", ".Op Ar word", ".Nm", ".Fl -version"]
    out += [".Sh DESCRIPTION", ".Nm", "keeps locks in a folder of images, which stand for disks.", "No network and no daemon takes part.",
            "Its words for one lock around one command are those that most need:", ".Bd -literal -offset indent", "$ mg create images",
            "$ mg lock images db \\-\\- ./backup", ".Ed", ".Pp", ".Nm", "reads its words, and becomes", ".Xr mg-lock 1", "for locks and the status, or else", ".Pa mg-folder .",
            "Where that is not installed it becomes", ".Xr dlm 1 ,", "which knows no", ".Fl -json .",
            "Options stand anywhere after the first word, and before", ".Ar command", "or", ".Ql -- .", "The words are:", ".Bl -tag -width Ds"]
    for it in WORDS:
        out += described(it)
    out += [".It Cm help", "Shows the words, or of one word its options and an example.", "So do", ".Fl h", "and", ".Fl -help", "behind a word.", ".El"]
    out += [".Sh HOST NUMBERS", "Each process that writes has a host number, 0 to 15, and one process at a time has it.",
            "Without", ".Fl -host", ".Nm", "takes the least one that it gets within a third of a second.", "So each",
            ".Ql mg lock", "on a folder has number 0, unless a service keeps that: they share it, and the next one releases what a killed one left.",
            ".Cm submit , table", "and", ".Cm mark", "wait for one another.",
            "If somebody else takes the number in the same moment they are refused,", ".Ql 36 HostInUse :", "nothing was done, so run them again.", ".Pp",
            "Where images are devices, or files of a network file system or of FUSE, other machines and guests may use them.", ".Nm",
            "cannot know their numbers, so there", ".Fl -host", "has to be given."]
    out += [".Sh OUTPUT FOR PROGRAMS", "With", ".Fl -json", "each of these words prints one object in a line, with these names:", ".Bl -tag -width Ds"]
    for name, names in OBJECTS:
        out += [f".It Cm {name}", *names]
    out += [".El", ".Pp", "The object of", ".Cm check", "is printed where something was found, too.", "A refusal is a line on standard error, with or without", ".Fl -json ."]
    out += [".Sh FILES", ".Bl -tag -width Ds", ".It Pa turn.lock", "in the folder: locked by", ".Cm submit , table", "and", ".Cm mark", "without", ".Fl -host .",
            "It is empty, and may stay.", ".It Pa hostHOST.lock", "in the folder: locked while a host number is in use.", ".It Pa libexec/midgegalena/mg-folder",
            "beside the folder of", ".Nm", "itself: the program for a folder's words and a script's.", ".El"]
    out += [".Sh EXIT STATUS", "That of", ".Xr mg-lock 1", "for", ".Cm lock , take , give , status", "and", ".Cm recover .", "Otherwise:", ".Bl -tag -width Ds", ".It 0",
            "done", ".It 1", "refused, or a check found something", ".It 2", "the words are wrong, and nothing was done;", ".Cm lock , take", "and", ".Cm give", "end with 125 then", ".El"]
    out += [".Sh EXAMPLES", "Each word, as it is typed:", ".Bd -literal -offset indent"]
    out += [escaped(one) for it in WORDS for one in it.examples]
    out += [".Ed", ".Sh DIAGNOSTICS", "What is wrong with the words is said with what would be right, as", ".Ql --disks is 8: 1 to 7 .",
            "What the system refuses is said with its reason:", ".Bl -tag -width Ds"]
    for told, todo in TELLS:
        out += [f".It Li {told}" if len(told) < 40 else f".It {told}", *sentence_in_mdoc(in_page(todo)[0].upper() + in_page(todo)[1:] + ".")]
    out += [".El", ".Sh SEE ALSO", ".Xr dlm 1 ,", ".Xr flock 1 ,", ".Xr mg-lock 1", ".Pp", "The pages in", ".Pa docs :", "MG begins with a lock, REFUSALS has each refusal.",
            "A release puts them into", ".Pa share/doc/midgegalena ."]
    return "\n".join(out) + "\n"


# ---- completions ----


def bash():
    values = []
    for one in sorted({one for it in WORDS for one in it.options if one.value}, key=lambda one: one.name):
        flags = f"--{one.name}" + (f" | -{one.letter}" if one.letter else "")
        if one.name in ("host", "disks"):
            values.append(f'        {flags}) compopt -o nosort; words="{" ".join(map(str, range(one.least, one.most + 1)))}" ;;')
        elif one.kind == "MODE":
            values.append(f'        {flags}) words="{" ".join(MODES)}" ;;')
        else:
            values.append(f"        {flags}) return ;;")
    values = list(dict.fromkeys(values))
    with_value = " | ".join(dict.fromkeys(flag for it in WORDS for one in it.options if one.value
                                          for flag in ([f"--{one.name}"] + ([f"-{one.letter}"] if one.letter else []))))
    options = [f'        {it.name}) options="{" ".join("--" + one.name for one in it.options)}{" " if it.options else ""}--help" takes={len(it.takes)} ;;' for it in WORDS]
    return f"""# Completion for bash of mg: words, options, folders and scripts. Made by capi/mg_pages.py.

_mg() {{
    local word=${{COMP_WORDS[COMP_CWORD]}} before=${{COMP_WORDS[COMP_CWORD - 1]}} task=${{COMP_WORDS[1]-}} words= options= takes=0 given=0 i
    COMPREPLY=()
    if [[ $COMP_CWORD -eq 1 ]]; then
        mapfile -t COMPREPLY < <(compgen -W "{' '.join(it.name for it in WORDS)} help --help --version" -- "$word")
        return
    fi
    case $task in
        help) [[ $COMP_CWORD -ne 2 ]] || mapfile -t COMPREPLY < <(compgen -W "{' '.join(it.name for it in WORDS)}" -- "$word"); return ;;
{chr(10).join(options)}
        *) return ;;
    esac
    # How many words stand before this one that are no options.
    for ((i = 2; i < COMP_CWORD; i++)); do
        case ${{COMP_WORDS[i]}} in
            --) [[ $given -lt $takes ]] || ((given++)) ;;
            {with_value}) if [[ $given -le $takes ]]; then ((i++)); else ((given++)); fi ;;
            -*) [[ $given -le $takes ]] || ((given++)) ;;
            *) ((given++)) ;;
        esac
    done
    if [[ $given -le $takes ]]; then
        case $before in
{chr(10).join('    ' + line for line in values)}
        esac
        if [[ -n $words ]]; then
            mapfile -t COMPREPLY < <(compgen -W "$words" -- "$word")
            return
        elif [[ $word == -* ]]; then
            mapfile -t COMPREPLY < <(compgen -W "$options" -- "$word")
            return
        fi
    fi
    case $given:$task in
        0:run | 0:sweep) compopt -o filenames; mapfile -t COMPREPLY < <(compgen -f -- "$word") ;;
        0:*) compopt -o filenames; mapfile -t COMPREPLY < <(compgen -d -- "$word") ;;
        1:submit) mapfile -t COMPREPLY < <(compgen -W "{' '.join(name for name, _ in COMMANDS)}" -- "$word") ;;
        1:replace) mapfile -t COMPREPLY < <(compgen -W "{' '.join(DISKS)}" -- "$word") ;;
        5:submit) mapfile -t COMPREPLY < <(compgen -W "{' '.join(MODES)}" -- "$word") ;;
        1:lock) ;;
        *:lock) compopt -o filenames; mapfile -t COMPREPLY < <(compgen -c -- "$word"; compgen -f -- "$word") ;;
    esac
}}

complete -F _mg mg
"""


def in_zsh(text):
    return plain(text).replace("'", "'\\''").replace("[", "\\[").replace("]", "\\]").replace(":", "\\:")


def zsh_value(one):
    if not one.value:
        return ""
    if one.name in ("host", "disks"):
        return f":{one.value}, {one.range}:({{{one.least}..{one.most}}})"
    if one.kind == "MODE":
        return f":mode:({' '.join(MODES)})"
    return f":{in_zsh(one.value + ', ' + one.range)}:"


def zsh_option(one):
    if one.letter:
        return f"'(-{one.letter} --{one.name})'{{-{one.letter},--{one.name}}}'[{in_zsh(one.text)}]{zsh_value(one)}'"
    return f"'--{one.name}[{in_zsh(one.text)}]{zsh_value(one)}'"


def zsh():
    tasks = " ".join(f"{it.name}:'{in_zsh(it.does)}'" for it in WORDS)
    cases = []
    for it in WORDS:
        words = [zsh_option(one) for one in it.options] + ["'(- *)'{-h,--help}'[show the options and an example]'"]
        for at, one in enumerate(it.takes, 1):
            words.append({"FOLDER": f"'{at}:folder:_directories'", "SCRIPT": f"'{at}:script:_files'", "NAME": f"'{at}:name, 1 to 15 bytes:'",
                          "DISK": f"'{at}:disk:({' '.join(DISKS)})'"}[one])
        if it.name == "submit":
            words += [f"'2:command:({' '.join(name for name, _ in COMMANDS)})'", "'*:words of the command:'"]
        elif it.rest:
            words.append("'*::command: _normal'" if it.rest == "COMMAND" else "'*:lock, the number or the line that was printed:'")
        joined = " \\\n                ".join(words)
        cases.append(f"        {it.name})\n            _arguments -S \\\n                {joined}\n            ;;")
    cases.append("        help) [[ $CURRENT -ne 2 ]] || _describe word tasks ;;")
    return f"""#compdef mg
# Completion for zsh of mg: words, options, folders and scripts. Made by capi/mg_pages.py.

_mg() {{
    local -a tasks
    tasks=({tasks})
    if [[ $CURRENT -eq 2 ]]; then
        _describe word tasks
        return
    fi
    # What follows is of the word alone.
    local task=$words[2]
    shift words
    ((CURRENT--))
    case $task in
{chr(10).join(cases)}
    esac
}}

_mg "$@"
"""


def in_fish(text):
    return "'" + plain(text).replace("\\", "\\\\").replace("'", "\\'") + "'"


def fish():
    with_value = " ".join(dict.fromkeys(flag for it in WORDS for one in it.options if one.value
                                        for flag in ([f"--{one.name}"] + ([f"-{one.letter}"] if one.letter else []))))
    names = " ".join(it.name for it in WORDS)
    lines = ["# Completion for fish of mg: words, options, folders and scripts. Made by capi/mg_pages.py.", "",
             "# How many words stand behind the first one that are no options.", "function __mg_given",
             "    set -l words (commandline -opc)", "    set -l given 0", "    set -l skips 0", "    for word in $words[3..]",
             "        if test $skips -eq 1", "            set skips 0", f"        else if contains -- $word {with_value}", "            set skips 1",
             "        else if not string match -q -- '-*' $word", "            set given (math $given + 1)", "        end", "    end", "    echo $given", "end", "",
             "# Whether the first word is this one, and so many words are given behind it.", "function __mg_at", "    set -l words (commandline -opc)",
             "    test (count $words) -ge 2; and test $words[2] = $argv[1]; and test (__mg_given) -eq $argv[2]", "end", "",
             "function __mg_word", "    set -l words (commandline -opc)", "    test (count $words) -ge 2; and test $words[2] = $argv[1]", "end", "",
             "complete -c mg -f"]
    for it in WORDS:
        lines.append(f"complete -c mg -n 'test (count (commandline -opc)) -eq 1' -a {it.name} -d {in_fish(it.does)}")
    lines.append("complete -c mg -n 'test (count (commandline -opc)) -eq 1' -a help -d 'show the words'")
    lines.append(f"complete -c mg -n '__mg_at help 0' -a '{names}'")
    for it in WORDS:
        offers = "(__fish_complete_path)" if it.takes[0] == "SCRIPT" else "(__fish_complete_directories)"
        lines.append(f"complete -c mg -n '__mg_at {it.name} 0' -a '{offers}'")
        for one in it.options:
            value = ""
            if one.value:
                value = " -x"
                if one.name in ("host", "disks"):
                    value += f" -a '(seq {one.least} {one.most})'"
                elif one.kind == "MODE":
                    value += f" -a '{' '.join(MODES)}'"
            letter = f" -s {one.letter}" if one.letter else ""
            lines.append(f"complete -c mg -n '__mg_word {it.name}'{letter} -l {one.name}{value} -d {in_fish(one.text)}")
    lines.append(f"complete -c mg -n '__mg_at submit 1' -a '{' '.join(name for name, _ in COMMANDS)}'")
    lines.append(f"complete -c mg -n '__mg_at replace 1' -a '{' '.join(DISKS)}'")
    lines.append(f"complete -c mg -n '__mg_at submit 5' -a '{' '.join(MODES)}'")
    lines.append("complete -c mg -n '__mg_word lock; and test (__mg_given) -ge 2' -F")
    return "\n".join(lines) + "\n"


# ---- all of it ----


def made():
    with open(f"{TOP}/VERSION", encoding="ascii") as file:
        version = file.read().strip()
    return {"capi/src/mg_words.h": header(), "man/mg.1": manual(version), "completions/mg.bash": bash(), "completions/_mg": zsh(), "completions/mg.fish": fish()}


def main(words):
    if words not in ([], ["check"]):
        print("usage: mg_pages.py [check]", file=sys.stderr)
        return 2
    others = 0
    for name, text in made().items():
        path = f"{TOP}/{name}"
        there = ""
        if os.path.exists(path):
            with open(path, encoding="utf-8") as file:
                there = file.read()
        if there == text:
            continue
        others += 1
        if words:
            print(f"{name} is not what capi/mg_pages.py makes")
        else:
            with open(path, "w", encoding="utf-8") as file:
                file.write(text)
            print(name)
    return 1 if words and others else 0


if __name__ == "__main__":
    sys.exit(main(sys.argv[1:]))
