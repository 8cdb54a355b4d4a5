#!/usr/bin/env python3
"""mg_front.py: the front `mg` alone, compiled with a stand-in for the library (capi/tests/mg_stand_in.c), and with small programs in the places of mg-lock,
mg-folder and dlm that print their words. What it hands on; the host and cluster numbers that it chooses; what it says of wrong words, in one write, and its statuses;
help, signals, `watch` and `recover`. And what capi/mg_pages.py makes is what is there. It needs `cc`. It prints each difference, and how many checks there were."""
import fcntl
import json
import os
import pty
import re
import select
import shutil
import signal
import socket
import subprocess
import sys
import tempfile
import threading
import time

TOP = os.path.dirname(os.path.dirname(os.path.realpath(__file__)))
checks = failed = 0

# Prints its words, one in brackets each. With LOCKS it has its host number as mg-folder has (refused where it is in use), or as mg-lock has (it waits).
STAND_IN = """#!/bin/bash
name=${0##*/}
case $1 in
    --status) [[ -z $STATUS_FAILS ]] || { echo "mg-lock: 7 NoMajority" >&2; exit 125; }; echo "status of ${!#}"; exit ;;
    --recover) host=${!#}; [[ -z $RECOVER_FAILS ]] || { echo "mg-lock: 9 LogFull" >&2; exit 125; }; echo "released $((host % 4))"; echo "recover $*" >> "$TOLD"; exit ;;
esac
if [[ -n $LOCKS && $name == mg-folder ]]; then
    exec 9>>"$2/host$4.lock"
    flock --nonblock 9 || { echo "mg: 36 HostInUse host$4" >&2; exit 1; }
    sleep "$LOCKS"
elif [[ -n $LOCKS ]]; then
    exec 9>>"$1/host$2.lock"
    flock 9
    sleep "$LOCKS"
fi
printf '%s:' "$name"; printf ' [%s]' "$@"; echo
[[ -z $FILES ]] || { for file in /proc/$$/fd/*; do echo "${file##*/} $(readlink -- "$file")"; done | grep " $FILES" > "$TOLD"; exit; }
[[ -z $WAITS ]] || { trap 'echo heard; exit 9' TERM; echo "pid $$"; while true; do sleep 0.02; done; }
exit "${STATUS-0}"
"""


def expect(well, what):
    global checks, failed
    checks += 1
    if not well:
        failed += 1
        print("failed:", what, flush=True)
    return well


def build():
    """A tree as install.sh makes it: bin/ and libexec/. With the sanitizers, where the compiler has them."""
    os.makedirs("usr/bin")
    os.makedirs("usr/libexec/midgegalena")
    sources = [f"{TOP}/capi/src/mg.c", f"{TOP}/capi/src/mg_host.c", f"{TOP}/capi/tests/mg_stand_in.c"]
    words = ["cc", "-std=c99", "-O1", "-g", "-Wall", "-Wextra", "-pedantic", "-Werror", "-I", f"{TOP}/capi/include", *sources, "-Wl,--wrap=statfs", "-o", "usr/bin/mg"]
    sanitized = subprocess.run([*words, "-fsanitize=address,undefined", "-fno-sanitize-recover=all"], capture_output=True, text=True, check=False)
    built = sanitized if sanitized.returncode == 0 else subprocess.run(words, capture_output=True, text=True, check=False)
    expect(built.returncode == 0, f"it is compiled: {built.stderr}")
    for name in ("bin/mg-lock", "libexec/midgegalena/mg-folder"):
        with open(f"usr/{name}", "w", encoding="ascii") as file:
            file.write(STAND_IN)
        os.chmod(f"usr/{name}", 0o755)
    return built.returncode == 0


def mg(*words, **more):
    return subprocess.run(["usr/bin/mg", *words], stdin=subprocess.DEVNULL, capture_output=True, text=True, timeout=600, check=False, **more)


def folder(image="file"):
    shutil.rmtree("images", ignore_errors=True)
    os.mkdir("images")
    with open("images/disk0.img", "w", encoding="ascii") as file:
        file.write(image)


def begin(*words, **more):
    return subprocess.Popen(["usr/bin/mg", *words], stdin=subprocess.DEVNULL, stdout=subprocess.PIPE, stderr=subprocess.PIPE, text=True, **more)


class Kept:
    """A host number that somebody keeps."""

    def __init__(self, number):
        self.file = open(f"images/host{number}.lock", "w", encoding="ascii")
        fcntl.flock(self.file, fcntl.LOCK_EX)

    def close(self):
        self.file.close()


# ---- what is handed on ----

HANDED = [
    ("submit images enqueue 1 1 1 EX db", "mg-folder: [submit] [images] [--host] [0] [enqueue] [1] [1] [1] [EX] [db]"),
    ("submit images --host 3 enqueue 1 1 1 EX db noqueue", "mg-folder: [submit] [images] [--host] [3] [enqueue] [1] [1] [1] [EX] [db] [noqueue]"),
    ("submit --host=15 images enqueue 1 1 1 EX --json", "mg-folder: [submit] [images] [--host] [15] [enqueue] [1] [1] [1] [EX] [--json]"),
    ("submit --json images --host 2 cancel 1 1 1", "mg-folder: [submit] [images] [--host] [2] [--json] [cancel] [1] [1] [1]"),
    ("submit images -- purge 1 2 0", "mg-folder: [submit] [images] [--host] [0] [purge] [1] [2] [0]"),
    ("submit images forget 1 2 3", "mg-folder: [submit] [images] [--host] [0] [forget] [1] [2] [3]"),
    ("submit images convert 0 4611686018427387904 65535 NL", "mg-folder: [submit] [images] [--host] [0] [convert] [0] [4611686018427387904] [65535] [NL]"),
    ("submit images convert 1 1 1 PR noqueue value 0123456789abcdef0123456789abcdef",
     "mg-folder: [submit] [images] [--host] [0] [convert] [1] [1] [1] [PR] [noqueue] [value] [0123456789abcdef0123456789abcdef]"),
    ("submit images release 255 1 1 value 0123456789abcdef0123456789abcdef",
     "mg-folder: [submit] [images] [--host] [0] [release] [255] [1] [1] [value] [0123456789abcdef0123456789abcdef]"),
    ("submit images cancel 1 1 1", "mg-folder: [submit] [images] [--host] [0] [cancel] [1] [1] [1]"),
    ("table images", "mg-folder: [table] [images] [--host] [0]"),
    ("table images --host 0", "mg-folder: [table] [images] [--host] [0]"),
    ("table -- images", "mg-folder: [table] [images] [--host] [0]"),
    ("table images --json", "mg-folder: [table] [images] [--host] [0] [--json]"),
    ("mark --host 7 images", "mg-folder: [mark] [images] [--host] [7]"),
    ("mark --json images --host=7", "mg-folder: [mark] [images] [--host] [7] [--json]"),
    ("check images", "mg-folder: [check] [images]"),
    ("check --json images", "mg-folder: [check] [images] [--json]"),
    ("migrate images", "mg-folder: [migrate] [images]"),
    ("migrate images --json", "mg-folder: [migrate] [images] [--json]"),
    ("replace images 1", "mg-folder: [replace] [images] [1]"),
    ("replace --json images 0", "mg-folder: [replace] [images] [0] [--json]"),
    ("replace -- -odd 6", "mg-folder: [replace] [./-odd] [6]"),
    ("run one.dlm", "mg-folder: [run] [one.dlm]"),
    ("run -", "mg-folder: [run] [/dev/stdin]"),
    ("run -- -odd/-one", "mg-folder: [run] [./-odd/-one]"),
    ("sweep one.dlm", "mg-folder: [sweep] [one.dlm]"),
    ("create images --cluster 7", "mg-folder: [create] [images] [--cluster] [7]"),
    ("create --slots 64 --disks=7 --cluster 18446744073709551615 images", "mg-folder: [create] [images] [--cluster] [18446744073709551615] [--disks] [7] [--slots] [64]"),
    ("create images --json --cluster 7", "mg-folder: [create] [images] [--cluster] [7] [--json]"),
    ("create ./-odd --cluster 0", "mg-folder: [create] [./-odd] [--cluster] [0]"),
    ("create --cluster 0 -- -odd", "mg-folder: [create] [./-odd] [--cluster] [0]"),
    ("lock images db", "mg-lock: [images] [0] [db]"),
    ("lock images db -- ls -l --host 9", "mg-lock: [images] [0] [db] [--] [ls] [-l] [--host] [9]"),
    ("lock images db ls -l", "mg-lock: [images] [0] [db] [--] [ls] [-l]"),
    ("lock images db --host 4 --mode PR --wait 2.5 -- ls", "mg-lock: [--mode] [PR] [--wait] [2.5] [images] [4] [db] [--] [ls]"),
    ("lock -s -w 0 -E 75 images -k 60 -i 100 db -v -o --verbose ls",
     "mg-lock: [--shared] [--wait] [0] [--conflict-exit-code] [75] [--check] [60] [--interval] [100] [--value] [--close] [--verbose] [images] [0] [db] [--] [ls]"),
    ("lock -n -x images db ls", "mg-lock: [--exclusive] [--nonblock] [images] [0] [db] [--] [ls]"),
    ("lock images db -c date", "mg-lock: [images] [0] [db] [-c] [date]"),
    ("lock -- images -db ls", "mg-lock: [images] [0] [-db] [--] [ls]"),
    ("lock images db -- -c date", "mg-lock: [images] [0] [db] [--] [-c] [date]"),
    ("lock images db --wait 86400 --check=86400 --interval=60000 --conflict-exit-code=255 -- ls",
     "mg-lock: [--wait] [86400] [--conflict-exit-code] [255] [--check] [86400] [--interval] [60000] [images] [0] [db] [--] [ls]"),
    ("take images db", "mg-lock: [--take] [images] [0] [db]"),
    ("take --json images -m PR --host=4 db -w 2.5", "mg-lock: [--take] [--mode] [PR] [--wait] [2.5] [--json] [images] [4] [db]"),
    ("take -- images -db", "mg-lock: [--take] [images] [0] [-db]"),
    ("give images db 1539", "mg-lock: [--give] [images] [db] [1539]"),
    ("give images db 1539 taken", "mg-lock: [--give] [images] [db] [1539] [taken]"),
    ("give -- -odd -db -5", "mg-lock: [--give] [./-odd] [-db] [-5]"),
]


def handed_on():
    folder()
    os.makedirs("-odd", exist_ok=True)
    for name in ("one.dlm", "-odd/-one"):
        with open(name, "w", encoding="ascii"):
            pass
    for words, wanted in HANDED:
        told = mg(*words.split())
        expect((told.returncode, told.stdout, told.stderr) == (0, wanted + "\n", ""), f"{words}: {told}")
    for words in ("status images", "status images --json", "status --prometheus images"):
        expect(mg(*words.split()).stdout == "status of images\n", words)
    for words, wanted in (("recover images --host 5", "released 1\n"), ("recover --all images --host 5", "released 1\n")):
        with open("told", "w", encoding="ascii"):
            pass
        told = mg(*words.split(), env={**os.environ, "TOLD": "told"})
        with open("told", encoding="ascii") as file:
            said = file.read()
        expect(told.stdout == wanted and said == f"recover --recover{' --all' if '--all' in words else ''} images 5\n", f"{words}: {told}, {said}")


def statuses():
    folder()
    for status in (0, 1, 2, 42, 125, 255):
        for words in ("lock images db ls", "take images db", "give images db 1539", "table images", "run one.dlm"):
            told = mg(*words.split(), env={**os.environ, "STATUS": str(status)})
            expect(told.returncode == status, f"{words}, status {status}: {told}")
    # Neither program is there, or it cannot be started.
    os.rename("usr/bin/mg-lock", "usr/away")
    told = mg("lock", "images", "db", "ls")
    expect(told.returncode == 125 and re.match(r"mg: .*/mg-lock cannot be started: no such file; .*\n$", told.stderr), f"no mg-lock: {told}")
    os.rename("usr/away", "usr/bin/mg-lock")
    os.chmod("usr/libexec/midgegalena/mg-folder", 0o644)
    told = mg("table", "images")
    expect(told.returncode == 1 and re.match(r"mg: .*/mg-folder cannot be started: permission denied; .*\n$", told.stderr), f"no mg-folder: {told}")
    os.chmod("usr/libexec/midgegalena/mg-folder", 0o755)
    # Where it is built there is no libexec.
    os.rename("usr/libexec/midgegalena/mg-folder", "usr/bin/mg-folder")
    expect(mg("table", "images").stdout == "mg-folder: [table] [images] [--host] [0]\n", "mg-folder beside mg")
    os.rename("usr/bin/mg-folder", "usr/libexec/midgegalena/mg-folder")
    # By a link, and by the path.
    os.makedirs("links", exist_ok=True)
    if not os.path.lexists("links/mg"):
        os.symlink("../usr/bin/mg", "links/mg")
    for program in ("links/mg", "mg"):
        told = subprocess.run([program, "table", "images"], env={**os.environ, "PATH": f"{os.getcwd()}/usr/bin:{os.environ['PATH']}"}, capture_output=True, text=True, check=False)
        expect(told.stdout == "mg-folder: [table] [images] [--host] [0]\n", f"{program}: {told}")


BY_DLM = [
    ("create images --cluster 7", "dlm: [format] [images] [3] [7]"),
    ("create images --slots 64 --disks 5 --cluster 7", "dlm: [format] [images] [5] [64] [7]"),
    ("submit images enqueue 1 1 1 EX db", "dlm: [submit] [images] [0] [enqueue] [1] [1] [1] [EX] [db]"),
    ("submit images --host 3 purge 1 1 1", "dlm: [submit] [images] [3] [purge] [1] [1] [1]"),
    ("table images --host 15", "dlm: [table] [images] [15]"),
    ("mark images", "dlm: [mark] [images] [0]"),
    ("check images", "dlm: [check] [images]"),
    ("migrate images", "dlm: [migrate] [images]"),
    ("replace images 0", "dlm: [replace] [images] [0]"),
    ("run one.dlm", "dlm: [run] [one.dlm]"),
    ("sweep one.dlm", "dlm: [sweep] [one.dlm]"),
]


def by_dlm():
    """Where mg-folder is not there dlm does the same, beside mg or on the path."""
    folder()
    os.rename("usr/libexec/midgegalena/mg-folder", "usr/away")
    shutil.copy("usr/away", "usr/bin/dlm")
    for words, wanted in BY_DLM:
        told = mg(*words.split())
        expect((told.returncode, told.stdout, told.stderr) == (0, wanted + "\n", ""), f"{words}, by dlm: {told}")
    told = mg("check", "images", "--json")
    expect((told.returncode, told.stderr) == (1, "mg: --json is by mg-folder, which is not installed (see man mg, DIAGNOSTICS)\n"), f"--json, by dlm: {told}")
    told = mg("create", "anew", "--json")
    expect(told.returncode == 1 and not os.path.exists("anew"), f"create --json, by dlm: {told}")
    os.makedirs("path", exist_ok=True)
    os.rename("usr/bin/dlm", "path/dlm")
    told = mg("check", "images", env={**os.environ, "PATH": f"path:{os.environ['PATH']}"})
    expect(told.stdout == "dlm: [check] [images]\n", f"dlm on the path: {told}")
    told = mg("check", "images", env={**os.environ, "PATH": "/nowhere"})
    expect((told.returncode, told.stderr) == (1, "mg: dlm cannot be started: no such file; install.sh puts it there (see man mg, DIAGNOSTICS)\n"), f"no dlm: {told}")
    os.rename("usr/away", "usr/libexec/midgegalena/mg-folder")


# ---- wrong words ----

LONG = "x" * 300
# The words, the status, and what is said of the word that is bad.
WRONG = [
    (["tabel"], 2, "no word is called tabel: create, lock, take, give, status, "),
    (["format"], 2, "no word is called format: create, "),
    ([""], 2, "no word is called '': create, "),
    (["Lock"], 2, "no word is called Lock: create, "),
    (["--json"], 2, "--json is no option: a word comes first, one of create, "),
    (["-x"], 2, "-x is no option: a word comes first, one of create, "),
    (["help", "tabel"], 2, "no word is called tabel: create, "),
    (["help", "lock", "now"], 2, "now is a word too many: mg help [WORD]"),
    (["create"], 2, "FOLDER is missing: mg create FOLDER "),
    (["create", "images", "more"], 2, "more is a word too many: mg create FOLDER "),
    (["create", "images", "--disks", "8"], 2, "--disks is 8: 1 to 7"),
    (["create", "images", "--disks", "0"], 2, "--disks is 0: 1 to 7"),
    (["create", "images", "--disks"], 2, "--disks has no number: 1 to 7"),
    (["create", "images", "--disks=03"], 2, "--disks is 03: 1 to 7"),
    (["create", "images", "--slots", "4097"], 2, "--slots is 4097: 1 to 4096"),
    (["create", "images", "--slots", "-1"], 2, "--slots is -1: 1 to 4096"),
    (["create", "images", "--slots", ""], 2, "--slots is '': 1 to 4096"),
    (["create", "images", "--cluster", "18446744073709551616"], 2, "--cluster is 18446744073709551616: 0 to 18446744073709551615"),
    (["create", "images", "--cluster", "+7"], 2, "--cluster is +7: 0 to 18446744073709551615"),
    (["create", "images", "--cluster", "7", "--cluster", "7"], 2, "--cluster is given twice"),
    (["create", "images", "--host", "0"], 2, "--host is no option of create: --cluster, --disks, --slots"),
    (["create", "images", "-d", "3"], 2, "-d is no option of create: --cluster, --disks, --slots"),
    (["lock"], 125, "FOLDER is missing: mg lock FOLDER NAME "),
    (["lock", "images"], 125, "NAME is missing: mg lock FOLDER NAME "),
    (["lock", "images", ""], 125, "NAME is '': 1 to 15 bytes from 0x21 to 0x7E, no blank"),
    (["lock", "images", "sixteen-letters-", "ls"], 125, "NAME is sixteen-letters-: 1 to 15 bytes"),
    (["lock", "images", "a b", "ls"], 125, "NAME is a b: 1 to 15 bytes"),
    (["lock", "images", "a\nb", "ls"], 125, "NAME is a\\x0ab: 1 to 15 bytes"),
    (["lock", "images", "\u00e4", "ls"], 125, "NAME is \u00e4: 1 to 15 bytes"),
    (["lock", "images", "db", "--"], 125, "COMMAND is missing: mg lock FOLDER NAME "),
    (["lock", "images", "db", "--mode", "ex", "ls"], 125, "--mode is ex: NL, CR, CW, PR, PW, EX"),
    (["lock", "images", "db", "--mode", "EX", "--shared", "ls"], 125, "--mode and --shared: one of them"),
    (["lock", "images", "db", "-x", "-s", "ls"], 125, "--shared and --exclusive: one of them"),
    (["lock", "images", "db", "-n", "-w", "3", "ls"], 125, "--wait and --nonblock: one of them"),
    (["lock", "images", "db", "--wait", "x", "ls"], 125, "--wait is x: a number of seconds, 0 to 86400"),
    (["lock", "images", "db", "-w", "-1", "ls"], 125, "-w is -1: a number of seconds, 0 to 86400"),
    (["lock", "images", "db", "-w", "86400.001", "ls"], 125, "-w is 86400.001: a number of seconds, 0 to 86400"),
    (["lock", "images", "db", "-w", "86400.0001", "ls"], 125, "-w is 86400.0001: a number of seconds, 0 to 86400"),
    (["lock", "images", "db", "-w", "1e3", "ls"], 125, "-w is 1e3: a number of seconds, 0 to 86400"),
    (["lock", "images", "db", "-w", "2.", "ls"], 125, "-w is 2.: a number of seconds, 0 to 86400"),
    (["lock", "images", "db", "-w", "1.5s", "ls"], 125, "-w is 1.5s: a number of seconds, 0 to 86400"),
    (["lock", "images", "db", "-w", "nan", "ls"], 125, "-w is nan: a number of seconds, 0 to 86400"),
    (["lock", "images", "db", "-w", "99999999999999999999999", "ls"], 125, "-w is 99999999999999999999999: a number of seconds"),
    (["lock", "images", "db", "-E", "256", "ls"], 125, "-E is 256: 0 to 255"),
    (["lock", "images", "db", "--check", "0", "ls"], 125, "--check is 0: 1 to 86400"),
    (["lock", "images", "db", "-i", "60001", "ls"], 125, "-i is 60001: 1 to 60000"),
    (["lock", "images", "db", "--host", "16", "ls"], 125, "--host is 16: 0 to 15"),
    (["lock", "images", "db", "--host"], 125, "--host has no number: 0 to 15"),
    (["lock", "images", "db", "-ns", "ls"], 125, "-ns is no option of lock: --host, --mode, "),
    (["lock", "images", "db", "--nowait", "ls"], 125, "--nowait is no option of lock: --host, "),
    (["lock", "images", "db", "--json", "ls"], 125, "--json is no option of lock: --host, "),
    (["lock", "images", "db", "--value=1", "ls"], 125, "--value is 1: it takes no value"),
    (["lock", "images", "db", "-v", "--value", "ls"], 125, "--value is given twice"),
    (["lock", "images", "db", "-c", "date", "ls"], 125, "ls is a word too many: LINE of --command is one word"),
    (["lock", "images", "db", "-c", ""], 125, "-c is '': a line for the shell"),
    (["lock", "images", "db", "-c"], 125, "-c has no value: a line for the shell"),
    (["take", "images"], 125, "NAME is missing: mg take FOLDER NAME [OPTION].."),
    (["take", "images", "a b"], 125, "NAME is a b: 1 to 15 bytes"),
    (["take", "images", "db", "ls"], 125, "ls is a word too many: mg take FOLDER NAME "),
    (["take", "images", "db", "--nonblock"], 125, "--nonblock is no option of take: --host, --mode, --wait, --json"),
    (["take", "images", "db", "--wait", "-1"], 125, "--wait is -1: a number of seconds, 0 to 86400"),
    (["give", "images"], 125, "NAME is missing: mg give FOLDER NAME LOCK.."),
    (["give", "images", "db"], 125, "LOCK is missing: mg give FOLDER NAME LOCK.."),
    (["give", "images", "db", "--"], 125, "LOCK is missing: mg give FOLDER NAME LOCK.."),
    (["give", "images", "", "1539"], 125, "NAME is '': 1 to 15 bytes"),
    (["give", "images", "db", "--host", "0", "1539"], 125, "--host is no option of give: it has none"),
    (["status"], 2, "FOLDER is missing: mg status FOLDER [--json] [--prometheus]"),
    (["status", "images", "--json", "--prometheus"], 2, "--json and --prometheus: one of them"),
    (["status", "images", "--json=yes"], 2, "--json is yes: it takes no value"),
    (["status", "images", "--host", "0"], 2, "--host is no option of status: --json, --prometheus"),
    (["watch", "images", "--every", "0"], 2, "--every is 0: a number of seconds, 0.1 to 86400"),
    (["watch", "images", "--every", "0.05"], 2, "--every is 0.05: a number of seconds, 0.1 to 86400"),
    (["watch", "images", "--json"], 2, "--json is no option of watch: --every"),
    (["recover", "images", "0"], 2, "0 is a word too many: mg recover FOLDER [--host N] [--all] [--json]"),
    (["recover", "images", "--host", "a"], 2, "--host is a: 0 to 15"),
    (["submit"], 2, "FOLDER is missing: mg submit FOLDER [--host N] [--json] COMMAND.."),
    (["submit", "images"], 2, "COMMAND is missing: mg submit FOLDER [--host N] [--json] COMMAND.."),
    (["submit", "images", "--host", "0"], 2, "COMMAND is missing: mg submit FOLDER "),
    (["submit", "images", "--hots", "0", "enqueue"], 2, "--hots is no option of submit: --host"),
    (["submit", "images", "--host", "00", "enqueue"], 2, "--host is 00: 0 to 15"),
    (["submit", "images", "enqeue", "1", "1", "1", "EX", "db"], 2, "no command is called enqeue: enqueue, convert, release, cancel, status, purge, forget"),
    (["submit", "images", "enqueue"], 2, "CLIENT is missing: mg submit FOLDER [--host N] [--json] enqueue CLIENT REQUEST LOCK MODE NAME [noqueue]"),
    (["submit", "images", "enqueue", "256", "1", "1", "EX", "db"], 2, "CLIENT is 256: 0 to 255"),
    (["submit", "images", "enqueue", "1", "0", "1", "EX", "db"], 2, "REQUEST is 0: 1 to 4611686018427387904"),
    (["submit", "images", "enqueue", "1", "4611686018427387905", "1", "EX", "db"], 2, "REQUEST is 4611686018427387905: 1 to 4611686018427387904"),
    (["submit", "images", "enqueue", "1", "1", "0", "EX", "db"], 2, "LOCK is 0: 1 to 65535"),
    (["submit", "images", "enqueue", "1", "1", "65536", "EX", "db"], 2, "LOCK is 65536: 1 to 65535"),
    (["submit", "images", "enqueue", "1", "1", "1", "ex", "db"], 2, "MODE is ex: NL, CR, CW, PR, PW, EX"),
    (["submit", "images", "enqueue", "1", "1", "1", "EX"], 2, "NAME is missing: mg submit FOLDER [--host N] [--json] enqueue CLIENT "),
    (["submit", "images", "enqueue", "1", "1", "1", "EX", "sixteen-letters-"], 2, "NAME is sixteen-letters-: 1 to 15 bytes"),
    (["submit", "images", "enqueue", "1", "1", "1", "EX", "db", "nowait"], 2, "nowait is a word too many: mg submit FOLDER [--host N] [--json] enqueue CLIENT "),
    (["submit", "images", "enqueue", "1", "1", "1", "EX", "db", "noqueue", "noqueue"], 2, "noqueue is a word too many: mg submit FOLDER "),
    (["submit", "images", "convert", "1", "+1", "1", "EX"], 2, "REQUEST is +1: 1 to 4611686018427387904"),
    (["submit", "images", "convert", "1", "1", "1"], 2, "MODE is missing: mg submit FOLDER [--host N] [--json] convert CLIENT "),
    (["submit", "images", "convert", "1", "1", "1", "NL", "value"], 2, "VALUE is missing: mg submit FOLDER [--host N] [--json] convert CLIENT "),
    (["submit", "images", "convert", "1", "1", "1", "NL", "value", "0" * 32, "noqueue"], 2, "noqueue is a word too many: mg submit FOLDER "),
    (["submit", "images", "release", "1", "1", "1", "value", "12"], 2, "VALUE is 12: 32 digits, 0 to 9 and a to f"),
    (["submit", "images", "release", "1", "1", "1", "value", "A" * 32], 2, f"VALUE is {'A' * 32}: 32 digits, 0 to 9 and a to f"),
    (["submit", "images", "release", "1", "1", "1", "values"], 2, "values is a word too many: mg submit FOLDER "),
    (["submit", "images", "cancel", "01", "1", "1"], 2, "CLIENT is 01: 0 to 255"),
    (["submit", "images", "status", "1", "1"], 2, "LOCK is missing: mg submit FOLDER [--host N] [--json] status CLIENT REQUEST LOCK"),
    (["submit", "images", "purge", "1", "1", "16"], 2, "HOST is 16: 0 to 15"),
    (["submit", "images", "forget", "1", "1", "256"], 2, "FORGOTTEN is 256: 0 to 255"),
    (["submit", "images", "forget", "1", ""], 2, "REQUEST is '': 1 to 4611686018427387904"),
    (["table", "images", "--jsn"], 2, "--jsn is no option of table: --host, --json"),
    (["table", "images", "--"], 0, ""),
    (["table", "images", "0"], 2, "0 is a word too many: mg table FOLDER "),
    (["table", "--host", "--json", "images"], 2, "--host is --json: 0 to 15"),
    (["mark", "images", "--host", "1", "--host=2"], 2, "--host is given twice"),
    (["mark", "images", "--host", "\x1b[31m"], 2, "--host is \\x1b[31m: 0 to 15"),
    (["check", "images", "--host", "1"], 2, "--host is no option of check: --json"),
    (["migrate", "images", "new", "64"], 2, "new is a word too many: mg migrate FOLDER [--json]"),
    (["replace", "images"], 2, "DISK is missing: mg replace FOLDER DISK [--json]"),
    (["replace", "images", "7"], 2, "DISK is 7: 0 to 6"),
    (["replace", "images", "01"], 2, "DISK is 01: 0 to 6"),
    (["replace", "images", ""], 2, "DISK is '': 0 to 6"),
    (["replace", "images", "disk1.img"], 2, "DISK is disk1.img: 0 to 6"),
    (["replace", "images", "1", "2"], 2, "2 is a word too many: mg replace FOLDER DISK [--json]"),
    (["replace", "images", "1", "--host", "0"], 2, "--host is no option of replace: --json"),
    (["run"], 2, "SCRIPT is missing: mg run SCRIPT"),
    (["run", "one.dlm", "--json"], 2, "--json is no option of run: it has none"),
    (["sweep", "one.dlm", "two.dlm"], 2, "two.dlm is a word too many: mg sweep SCRIPT"),
    (["table", "images", LONG], 2, LONG[:100] + ".. is a word too many: "),
]
# The words are right, and it cannot be done.
REFUSED = [
    (["table", "nowhere"], 1, "FOLDER is nowhere: no such folder"),
    (["table", ""], 1, "FOLDER is '': no such folder"),
    (["status", "one.dlm"], 1, "FOLDER is one.dlm: not a folder"),
    (["lock", "nowhere", "db", "ls"], 125, "FOLDER is nowhere: no such folder"),
    (["lock", "one.dlm/images", "db", "ls"], 125, "FOLDER is one.dlm/images: not a folder"),
    (["take", "nowhere", "db"], 125, "FOLDER is nowhere: no such folder"),
    (["give", "nowhere", "db", "1539"], 125, "FOLDER is nowhere: no such folder"),
    (["take", "empty", "db"], 125, "FOLDER is empty: 26 Unreadable disk0 (disk0.img: No such file or directory)"),
    (["create", "nowhere/images"], 1, "FOLDER is nowhere/images: it cannot be made: no such folder above it"),
    (["create", "one.dlm"], 1, "FOLDER is one.dlm: not a folder"),
    (["create", LONG], 1, f"FOLDER is {LONG[:100]}..: it cannot be made: file name too long"),
    (["run", "nowhere.dlm"], 1, "SCRIPT is nowhere.dlm: no such file"),
    (["sweep", "images"], 1, "SCRIPT is images: it is a folder"),
    (["watch", "nowhere"], 1, "FOLDER is nowhere: no such folder"),
    (["replace", "nowhere", "1"], 1, "FOLDER is nowhere: no such folder"),
    (["recover", "nowhere"], 1, "FOLDER is nowhere: no such folder"),
    (["table", "empty"], 1, "FOLDER is empty: 26 Unreadable disk0 (disk0.img: No such file or directory)"),
    (["lock", "empty", "db", "ls"], 125, "FOLDER is empty: 26 Unreadable disk0 (disk0.img: No such file or directory)"),
]


def said(words):
    """The status, all that was printed, and each write to standard error."""
    ours, theirs = socket.socketpair(socket.AF_UNIX, socket.SOCK_SEQPACKET)
    with ours, theirs, open("out", "wb") as out:
        ended = subprocess.run(["usr/bin/mg", *words], stdin=subprocess.DEVNULL, stdout=out, stderr=theirs, timeout=600, check=False)
        theirs.close()
        writes = []
        while more := ours.recv(1 << 16):
            writes.append(more.decode())
    with open("out", encoding="utf-8") as out:
        return ended.returncode, out.read(), writes


def wrong_words():
    folder()
    os.makedirs("empty", exist_ok=True)
    for words, status, text in WRONG + REFUSED:
        ended, printed, writes = said(words)
        if status == 0:
            expect((ended, writes) == (0, []), f"{words}: {ended}, {writes}")
            continue
        line = writes[0] if writes else ""
        page = "see man mg, DIAGNOSTICS" if (words, status, text) in REFUSED else f"see mg help{' ' + words[0] if words[0] in NAMES and words[0] != 'help' else ''}"
        expect((ended, printed, len(writes)) == (status, "", 1), f"{words}: status {ended}, printed {printed!r}, writes {writes}")
        expect(line.startswith("mg: " + text) and line.endswith(f" ({page})\n") and line.count("\n") == 1, f"{words}: {line!r}")
    expect(len(WRONG) > 60, f"{len(WRONG)} wrong calls")
    # Nothing hears it.
    for words in (["tabel"], ["table", "nowhere"], []):
        told = subprocess.run(["bash", "-c", 'exec "$0" "$@" 2>&-', "usr/bin/mg", *words], stdout=subprocess.PIPE, check=False)
        expect(told.returncode in (1, 2) and told.stdout == b"", f"{words}, standard error closed: {told}")


# ---- help ----

NAMES = ["create", "lock", "take", "give", "status", "watch", "recover", "submit", "table", "mark", "check", "migrate", "replace", "run", "sweep"]


def helps():
    for words in (["--help"], ["-h"], ["help"]):
        told = mg(*words)
        expect(told.returncode == 0 and told.stderr == "" and all(re.search(rf"^  mg {name} [A-Z]", told.stdout, re.MULTILINE) for name in NAMES), f"{words}: {told}")
    status, printed, writes = said([])
    expect((status, printed, writes) == (2, "", [mg("help").stdout]), f"no words: {status}, {printed}, {writes}")
    for name in NAMES:
        texts = {mg(*words).stdout for words in (["help", name], [name, "--help"], [name, "-h"], [name, "images", "--help"])}
        text = texts.pop()
        expect(texts == set() and re.match(rf"usage: mg {name} ", text) and re.search(rf"^Examples?:\n(  mg {name} .*\n)+\Z", text, re.MULTILINE), f"help {name}: {text}")
        expect(max(map(len, text.split("\n"))) <= 100, f"help {name}: a line is long")
    expect(mg("lock", "images", "db", "--", "ls", "--help").stdout.endswith("[ls] [--help]\n"), "--help of the command")
    for word in ("--version", "-V"):
        expect(mg(word).stdout == "mg of midgegalena 0.0\n", word)


# ---- numbers that are not given ----


def cluster_numbers():
    seen = set()
    for _ in range(20):
        told = mg("create", "images")
        found = re.fullmatch(r"cluster ([1-9][0-9]*)\nmg-folder: \[create\] \[images\] \[--cluster\] \[\1\]\n", told.stdout)
        if expect(found is not None, f"create: {told}"):
            seen.add(int(found.group(1)))
    expect(len(seen) == 20 and all(1 <= number <= 2**40 for number in seen), f"cluster numbers: {sorted(seen)}")
    shutil.rmtree("images")
    expect(mg("create", "images").returncode == 0 and os.path.isdir("images"), "the folder is made")
    told = subprocess.run(["bash", "-c", "usr/bin/mg create images > /dev/full"], capture_output=True, check=False)
    expect(told.returncode == 1, f"create, nowhere to print: {told}")
    # Where the images are not made no number is said; and in an object it is mg-folder that says it.
    for status in (1, 2, 125):
        told = mg("create", "images", env={**os.environ, "STATUS": str(status)})
        expect((told.returncode, told.stdout, told.stderr) == (status, "", ""), f"create that is refused: {told}")
    told = mg("create", "images", "--json")
    expect(re.fullmatch(r"mg-folder: \[create\] \[images\] \[--cluster\] \[[1-9][0-9]*\] \[--json\]\n", told.stdout) is not None, f"create --json: {told}")


def host_of(told):
    found = re.search(r"\[--host\] \[(\d+)\]|: \[images\] \[(\d+)\]", told.stdout)
    return int(found.group(1) or found.group(2)) if found else None


def host_numbers():
    folder()
    for words in ("lock images db ls", "table images", "mark images", "submit images status 1 1 1"):
        kept = [Kept(0)]
        expect(host_of(mg(*words.split())) == 1, f"{words}: the least that nobody has")
        kept += [Kept(1), Kept(3)]
        expect(host_of(mg(*words.split())) == 2, f"{words}: between two")
        # One that is let go soon is waited for, but not for long: where the machine has other work it may be let go too late.
        chosen = []
        for _ in range(3):
            threading.Timer(0.1, kept[0].close).start()
            chosen.append(host_of(mg(*words.split())))
            if chosen[-1] == 0:
                break
            kept[0].close()
            kept[0] = Kept(0)
        expect(chosen[-1] == 0, f"{words}: one that is let go: {chosen}")
        for one in kept:
            one.close()
    kept = [Kept(number) for number in range(16)]
    for words, status in (("lock images db ls", 125), ("table images", 1)):
        ended, printed, writes = said(words.split())
        expect((ended, printed, writes) == (status, "", ["mg: --host is missing, and each of 0 to 15 is in use (see man mg, DIAGNOSTICS)\n"]), f"{words}: {writes}")
    expect(host_of(mg("lock", "images", "db", "--host", "2", "ls")) == 2, "one that is given is not tried")
    for one in kept:
        one.close()
    folder("device")
    for words, status in (("lock images db ls", 125), ("table images", 1), ("recover images", 1)):
        ended, _, writes = said(words.split())
        expect(ended == status and writes == ["mg: --host is missing, 0 to 15: the images are devices, which other machines may use (see man mg, DIAGNOSTICS)\n"], f"{words}: {writes}")
    expect(host_of(mg("table", "images", "--host", "2")) == 2, "of devices it is given")
    # NFS, SMB, FUSE, 9p, GFS2, OCFS2, Ceph; and ext4, tmpfs, btrfs, xfs, ZFS. Of the folder, and of an image.
    folder()
    for place in ("images", "disk0.img"):
        for kind in ("6969", "ff534d42", "fe534d42", "65735546", "1021997", "1161970", "7461636f", "c36400"):
            told = mg("lock", "images", "db", "ls", env={**os.environ, "FILE_SYSTEM": f"{place} {kind}"})
            line = "mg: --host is missing, 0 to 15: the file system is one that other machines may use (see man mg, DIAGNOSTICS)\n"
            expect((told.returncode, told.stdout, told.stderr) == (125, "", line), f"{place} of type {kind}: {told}")
        for kind in ("ef53", "1021994", "9123683e", "58465342", "2fc12fc1"):
            expect(host_of(mg("lock", "images", "db", "ls", env={**os.environ, "FILE_SYSTEM": f"{place} {kind}"})) == 0, f"{place} of type {kind}")
    given = {**os.environ, "FILE_SYSTEM": "images 6969"}
    expect(host_of(mg("lock", "images", "db", "--host", "3", "ls", env=given)) == 3, "of other file systems it is given")


def at_once():
    """None is refused, and none has a number while another one has it."""
    folder()
    locks = {**os.environ, "LOCKS": "0.02"}
    started = [begin("submit", "images", "status", "1", str(number), "1", env=locks) for number in range(1, 13)]
    started += [begin("lock", "images", "db", "--", "ls", env=locks) for _ in range(12)]
    for one in started:
        out, err = one.communicate(timeout=600)
        # mg-lock waits for its number; mg-folder may meet an mg-lock that came in between, and has done nothing then.
        is_met = one.returncode == 1 and err.startswith("mg: 36 HostInUse ")
        expect((one.returncode == 0 and err == "") or is_met, f"at once: {one.returncode}, {out}, {err}")
    started = [begin(*words.split(), env=locks) for words in ["table images", "mark images", "submit images status 1 1 1"] * 6]
    told = [one.communicate(timeout=600) for one in started]
    expect(all(one.returncode == 0 for one in started) and all("[--host] [0]" in out for out, _ in told), f"mg-folder at once, in turn: {told}")


# ---- what it becomes ----


def signals():
    """It becomes the other program: the same process, which hears what is sent to it."""
    folder()
    for words in ("lock images db -- ls", "table images --host 0", "table images"):
        process = begin(*words.split(), env={**os.environ, "WAITS": "1"})
        process.stdout.readline()
        expect(process.stdout.readline() == f"pid {process.pid}\n", f"{words}: the same process")
        process.send_signal(signal.SIGTERM)
        out, _ = process.communicate(timeout=600)
        expect((process.returncode, out) == (9, "heard\n"), f"{words}: {process.returncode}, {out}")


def descriptors():
    """What the other program inherits: the turn, where a number was chosen for it, and no more. It is in the place of no standard stream."""
    folder()
    inherits = {**os.environ, "FILES": f"{os.getcwd()}/images", "TOLD": "told"}
    for words, is_turn in (("table images", True), ("mark images", True), ("table images --host 0", False), ("lock images db ls", False), ("check images", False)):
        for closed in ("", "<&-", ">&-", "<&- >&- 2>&-"):
            subprocess.run(["bash", "-c", f'exec "$0" "$@" {closed}', "usr/bin/mg", *words.split()], env=inherits, capture_output=True, check=False)
            with open("told", encoding="ascii") as file:
                told = file.read()
            wanted = rf"(\d\d+|[3-9]) {os.getcwd()}/images/turn\.lock\n" if is_turn else ""
            expect(re.fullmatch(wanted, told) is not None, f"{words} {closed} inherits: {told}")


def recovers():
    folder()
    with open("images/locks", "w", encoding="ascii") as file:
        file.write("245 5\n1 6\n246 6\n247 7\n240 0\n246 6\n")
    kept = Kept(7)
    with open("told", "w", encoding="ascii"):
        pass
    told = mg("recover", "images", "--all", env={**os.environ, "TOLD": "told"})
    with open("told", encoding="ascii") as file:
        calls = file.read()
    expect(told.stdout == "host 5: released 1\nhost 6: released 2\n" and told.returncode == 0, f"recover: {told}")
    expect(calls == "".join(f"recover --recover --all images {host}\n" for host in (0, 5, 6)), f"recover: {calls}")
    told = mg("recover", "images", "--json", env={**os.environ, "TOLD": "told"})
    wanted = {"released": 3, "hosts": [{"host": 5, "released": 1}, {"host": 6, "released": 2}]}
    expect(told.returncode == 0 and told.stdout.count("\n") == 1 and json.loads(told.stdout) == wanted, f"recover --json: {told}")
    told = mg("recover", "images", "--json", "--host", "6", env={**os.environ, "TOLD": "told"})
    expect(told.returncode == 0 and json.loads(told.stdout) == {"released": 2, "hosts": [{"host": 6, "released": 2}]}, f"recover --json of one host: {told}")
    kept.close()
    os.remove("images/locks")
    expect(mg("recover", "images", env={**os.environ, "TOLD": "told"}).stdout == "released 0\n", "nothing to recover")
    told = mg("recover", "images", "--json", env={**os.environ, "TOLD": "told"})
    expect(told.returncode == 0 and json.loads(told.stdout) == {"released": 0, "hosts": []}, f"nothing to recover, by --json: {told}")
    told = mg("recover", "images", env={**os.environ, "RECOVER_FAILS": "1"})
    expect((told.returncode, told.stdout, told.stderr) == (125, "", "mg-lock: 9 LogFull\n"), f"recover that fails: {told}")


def watches():
    folder()
    # On a terminal.
    child, terminal = pty.fork()
    if child == 0:
        os.execv("usr/bin/mg", ["mg", "watch", "images", "--every", "0.1"])
    text, end = b"", time.monotonic() + 120
    while text.count(b"status of images") < 3 and time.monotonic() < end:
        if select.select([terminal], [], [], 0.1)[0]:
            text += os.read(terminal, 4096)
    os.write(terminal, b"\x03")
    _, status = os.waitpid(child, 0)
    os.close(terminal)
    screen = rb"\x1b\[H\x1b\[2Jimages \d{4}-\d\d-\d\d \d\d:\d\d:\d\d\r\nstatus of images\r\n"
    expect(re.match(screen + screen, text) is not None, f"watch on a terminal: {text}")
    expect(os.WIFSIGNALED(status) and os.WTERMSIG(status) == signal.SIGINT, f"watch ends by Ctrl-C: {status}")
    # Elsewhere; and where the status fails it goes on.
    process = begin("watch", "images", "--every=0.1", env={**os.environ, "STATUS_FAILS": "1"})
    lines = [process.stdout.readline() for _ in range(6)]
    process.send_signal(signal.SIGTERM)
    process.communicate(timeout=600)
    expect(lines[1] == lines[4] == "mg-lock: 7 NoMajority\n" and lines[2] == "\n" and "\x1b" not in "".join(lines), f"watch in a pipe: {lines}")
    told = subprocess.run(["bash", "-c", "usr/bin/mg watch images > /dev/full"], capture_output=True, timeout=600, check=False)
    expect(told.returncode == 1, f"watch, nowhere to print: {told}")
    told = subprocess.run(["bash", "-c", 'exec "$0" "$@" >&- 2>&- <&-', "usr/bin/mg", "recover", "images"], env={**os.environ, "TOLD": "told"}, timeout=600, check=False)
    expect(told.returncode == 0, f"recover with closed streams: {told}")


def file_systems():
    """A file system that is read only, and one that is full: by mounts of a namespace of its own."""
    script = """set -e
mount -t tmpfs -o size=64k none place
mkdir place/images
usr/bin/mg create place/images 2>&1 || true
usr/bin/mg create place/images --disks 1 --slots 15 2>&1 || true
usr/bin/mg create place/images --cluster 7 --disks 1 --slots 14 2>&1 || true
umount place
mount -t tmpfs -o nr_inodes=3 none place
mkdir place/images
usr/bin/mg create place/images --cluster 7 --slots 4096
echo file > place/images/disk0.img
echo mounted
usr/bin/mg create place/more 2>&1 || true
usr/bin/mg table place/images 2>&1 || true
mount -o remount,ro place
usr/bin/mg create place/more 2>&1 || true
usr/bin/mg create place 2>&1 || true
usr/bin/mg table place/images 2>&1 || true
usr/bin/mg lock place/images db ls 2>&1 || true
"""
    os.makedirs("place", exist_ok=True)
    told = subprocess.run(["unshare", "--mount", "bash", "-c", script], capture_output=True, text=True, check=False) if shutil.which("unshare") else None
    if not told or "mounted" not in told.stdout:
        print("left out: mg_front.py, file systems that are full or read only: no mounts here")
        return
    page = " (see man mg, DIAGNOSTICS)"
    wanted = ["mg: FOLDER is place/images: no space left: 25227264 bytes are needed, and 65536 are free" + page,
              "mg: FOLDER is place/images: no space left: 69632 bytes are needed, and 65536 are free" + page,
              "mg-folder: [create] [place/images] [--cluster] [7] [--disks] [1] [--slots] [14]", "mg-folder: [create] [place/images] [--cluster] [7] [--slots] [4096]",
              "mounted", "mg: FOLDER is place/more: it cannot be made: no space left on device" + page,
              "mg: FOLDER is place/images: 37 NoLock (host0.lock can be neither made nor opened: No space left on device)" + page,
              "mg: FOLDER is place/more: it cannot be made: read-only file system" + page, "mg: FOLDER is place: read-only file system" + page,
              "mg: FOLDER is place/images: 37 NoLock (host0.lock can be neither made nor opened: Read-only file system)" + page,
              "mg: FOLDER is place/images: 37 NoLock (host0.lock can be neither made nor opened: Read-only file system)" + page]
    expect(told.stdout.splitlines() == wanted, f"file systems: {told.stdout}{told.stderr}")


def pages():
    told = subprocess.run([f"{TOP}/capi/mg_pages.py", "check"], capture_output=True, text=True, check=False)
    expect(told.returncode == 0, told.stdout + told.stderr)
    # It sees what is another.
    shutil.copytree(f"{TOP}/capi/src", "copy/capi/src")
    for name in ("capi/mg_pages.py", "man/mg.1", "completions/mg.bash", "completions/_mg", "completions/mg.fish", "VERSION"):
        os.makedirs(os.path.dirname(f"copy/{name}"), exist_ok=True)
        shutil.copy(f"{TOP}/{name}", f"copy/{name}")
    with open("copy/man/mg.1", "a", encoding="ascii") as file:
        file.write(".Pp\n")
    told = subprocess.run(["copy/capi/mg_pages.py", "check"], capture_output=True, text=True, check=False)
    expect((told.returncode, told.stdout) == (1, "man/mg.1 is not what capi/mg_pages.py makes\n"), f"another page: {told}")


def main():
    with tempfile.TemporaryDirectory() as work:
        os.chdir(work)
        pages()
        if not shutil.which("cc"):
            print("left out: mg_front.py, the front alone: no C compiler (cc)")
        elif build():
            for test in (handed_on, statuses, by_dlm, wrong_words, helps, cluster_numbers, host_numbers, at_once, signals, descriptors, recovers, watches, file_systems):
                test()
        os.chdir("/")
    print(f"mg_front.py: {checks} checks, {failed} failed")
    return failed > 0


if __name__ == "__main__":
    sys.exit(main())
