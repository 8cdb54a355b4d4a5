#!/usr/bin/env python3
"""renew.py [--program PATH] [--kills N] [--long N]: renews folders with `dlm fill` and `dlm renew`. Random commands are submitted until a log of 16 slots is
all but full, and `dlm fill` takes the slots that are left. Then the table is carried over onto another number of disks, and `dlm table` of both
folders has to print the same. Each client's last request, made again in the new folder, gets the reply that it got before. So it is ten times in a
row. Clients are left out, and begin anew. What is refused is refused in the order that docs/REFUSALS.md has. Then it kills as many renewals (none given: none) at random moments
(`kill -9`): of three one at any, one once a new image is there, one once a gate is open. After each it looks that no state of the new folder reads as
another table, and that the next run with the same words ends it or is refused.

Each call on a file of a fill, of a renewal and of a run that ends one fails once. Before each call of a renewal it stops, and a second one with the
same words is made meanwhile; and some start at the same moment. Before each call of the other commands a link to their folder moves. For all this a few
lines of C stand before the C library; where there is no C compiler it is left out. `--long` renews one cluster so many times in a row (none given: none),
onto other numbers of disks and slots. Submissions, fills and renewals are killed and begun again, as docs/OPERATIONS.md says. After each the table and each
client's last reply are those of a plain table.

It prints each difference, and how many there were; the status is 1 where there was one. The program has to be built: `./dlm` does so.
"""
import argparse
import collections
import fcntl
import functools
import itertools
import os
import random
import shutil
import signal
import subprocess
import sys
import tempfile
import time

import folder_tests
import lock_log
from folder_tests import TOP, prints, refused, run, run_tests, test, usage, wants

PROGRAM = folder_tests.PROGRAM
MEMORY = "/dev/shm" if os.access("/dev/shm", os.W_OK) else None
SLOTS = 16
CLIENTS = range(1, 5)
LOCKS = range(1, 6)
MODES = ["NL", "CR", "CW", "PR", "PW", "EX"]


def bytes_of(path):
    with open(path, "rb") as file:
        return file.read()


def put_byte(path, at, byte):
    with open(path, "r+b") as file:
        file.seek(at)
        file.write(bytes([byte]))


def link(folder):
    """Moves the link `current` to this folder."""
    os.symlink(folder, "next")
    os.replace("next", "current")


def make(folder, disks, slots, cluster):
    os.mkdir(folder)
    prints(f"format {folder} {disks} {slots} {cluster}", f"formatted {disks} disks, {slots} slots\n")


def table(folder, host=9):
    """How many commands are recovered, and what is printed of the table after them."""
    status, printed, told = run(f"table {folder} {host}")
    wants(f"the table of {folder}", (status, told), (0, ""))
    first, rest = printed.split("\n", 1)
    return int(first.split(" ")[1]), rest


# RANDOM COMMANDS

def some_words():
    """A client, and the words of a command but for the client and the request number."""
    lock, name, mode = str(random.choice(LOCKS)), random.choice("ab"), random.choice(MODES)
    words = random.choice([
        ["enqueue", lock, mode, name], ["enqueue", lock, mode, name], ["enqueue", lock, mode, name, "noqueue"], ["convert", lock, mode],
        ["convert", lock, mode, "value", os.urandom(16).hex()], ["release", lock], ["release", lock, "value", os.urandom(16).hex()], ["cancel", lock], ["status", lock],
        ["purge", str(random.randrange(16))],
    ])
    return random.choice(CLIENTS), words


class Clients:
    """The last request of each client, and the reply to it."""

    def __init__(self):
        self.last = {}

    def submits(self, folder, client, words):
        """Submits these words, with a request number between, through some host."""
        request = self.last.get(client, (0, "", ""))[0] + 1
        command = f"{words[0]} {client} {request} {' '.join(words[1:])}"
        status, printed, told = run(f"submit {folder} {random.randrange(16)} {command}")
        wants(f"`{command}`", (status, told), (0, ""))
        self.last[client] = (request, command, printed.split(" ", 2)[2])

    def submits_some(self, folder):
        self.submits(folder, *some_words())

    def ask_again(self, folder, slot):
        """Each one's last request is made again, whatever it asks now. The first one comes into this slot."""
        for client, (request, command, reply) in self.last.items():
            again = random.choice([command, f"status {client} {request} 1"])
            prints(f"submit {folder} {random.randrange(16)} {again}", f"ack {slot} {reply}")
            slot += 1
        return slot


def fill(folder, left):
    prints(f"fill {folder} 3", f"filled {left} slots\n")


def is_renewed(old, new, disks, slots, cluster):
    """The full log of a folder is renewed. How many commands carry its table over is the result."""
    _, shown = table(old)
    status, printed, told = run(f"renew {old} 1 {new} {disks} {slots} {cluster}")
    words = printed.split(" ")
    wants(f"a renewal of {old}", (status, told, words[0], " ".join(words[2:])), (0, "", "renewed", f"commands, {disks} disks, {slots} slots\n"))
    count, again = table(new)
    wants(f"the table of {new}", (count, again), (int(words[1]), shown))
    wants(f"the table of {old}, once more", table(old)[1], shown)
    return count


@test
def one_renewal():
    make("d", 3, SLOTS, 7)
    clients = Clients()
    for _ in range(SLOTS - 3):
        clients.submits_some("d")
    before = table("d")
    wants("how many are recovered", before[0], SLOTS - 3)
    os.mkdir("e")
    refused("renew d 1 e 5 64 8", "dlm: 38 NotFull\n")
    fill("d", 3)
    wants("the table of a full log", table("d"), (SLOTS, before[1]))
    fill("d", 0)
    refused("submit d 0 status 1 99 1", "dlm: 9 LogFull\n")
    count = is_renewed("d", "e", 5, 64, 8)
    wants("the new images", sorted(os.listdir("e"))[:5], [f"disk{disk}.img" for disk in range(5)])
    slot = clients.ask_again("e", count)
    wants("the table after that", table("e"), (slot, before[1]))
    for _ in range(8):
        clients.submits_some("e")
    wants("how many are recovered then", table("e")[0], slot + 8)


@test
def ten_in_a_row():
    make("set0", 3, SLOTS, 100)
    clients, count, slots = Clients(), 0, SLOTS
    for turn in range(10):
        for _ in range(slots - count - random.randrange(1, 5)):
            clients.submits_some(f"set{turn}")
        fill(f"set{turn}", slots - table(f"set{turn}")[0])
        os.mkdir(f"set{turn + 1}")
        slots = 32
        count = is_renewed(f"set{turn}", f"set{turn + 1}", random.randrange(1, 8), slots, 101 + turn)
        count = clients.ask_again(f"set{turn + 1}", count)


@test
def two_fill_at_once():
    make("d", 3, 256, 7)
    Clients().submits("d", 1, ["enqueue", "1", "EX", "a"])
    shown = table("d")[1]
    both = [subprocess.Popen([PROGRAM, "fill", "d", str(host)], stdout=subprocess.PIPE, stderr=subprocess.PIPE, text=True) for host in (0, 1)]
    ended = [process.communicate() for process in both]
    # One of them may be outrun too often. It is begun anew.
    filled = sum(int(printed.split(" ")[1]) for printed, _ in ended if printed)
    wants("what they told", [told for _, told in ended if told not in ("", "dlm: 6 Outrun\n")], [])
    prints("fill d 2", f"filled {int(run('table d 9')[1].split()[1]) - 256} slots\n")
    wants("the table", table("d"), (256, shown))
    wants("slots that were filled", filled <= 255, True)


def full(folder, cluster=7):
    """A folder of one disk and four slots that is full."""
    make(folder, 1, 4, cluster)
    prints(f"submit {folder} 0 enqueue 1 1 1 EX db", "ack 0 Granted\n")
    fill(folder, 3)


HELD = "db\n  granted 1 1 0 EX\n"
RENEWED_OF_TWO = "renewed 2 commands, 3 disks, 16 slots\n"


@test
def refusals():
    for words in ("renew", "renew d 1 e 3 16", "renew d 16 e 3 16 8", "renew d 1 e 0 16 8", "renew d 1 e 3 4097 8", "renew d 1 e 3 16 x", "renew d 1 e 3 16 8 256", "renew d 1 e 3 16 8 4 x", "fill d", "fill d 16", "fill d 1 2"):
        usage(words)
    refused("renew d 1 e 3 16 8", "dlm: 26 Unreadable disk0\n")
    refused("fill d 1", "dlm: 26 Unreadable disk0\n")
    make("d", 1, 4, 7)
    refused("fill d 1", "dlm: 40 NoClient\n")
    refused("renew d 1 e 3 16 7", "dlm: 39 SameCluster\n")
    refused("renew d 1 e 3 16 8", "dlm: 37 NoLock host0\n")
    os.mkdir("e")
    refused("renew d 1 e 3 16 8", "dlm: 38 NotFull\n")
    prints("submit d 0 enqueue 1 1 1 EX db", "ack 0 Granted\n")
    fill("d", 3)
    with open("d/host1.lock", "r+b") if os.path.exists("d/host1.lock") else open("d/host1.lock", "w+b") as lock:
        fcntl.flock(lock, fcntl.LOCK_EX)
        refused("renew d 1 e 3 16 8", "dlm: 36 HostInUse host1\n")
        refused("fill d 1", "dlm: 36 HostInUse host1\n")
    refused("renew d 1 e 3 2 8", "dlm: 33 TooFewSlots\n")
    # Whoever opened the new folder would look at an image of another number, too.
    for disk in (2, 3, 6):
        with open(f"e/disk{disk}.img", "wb"):
            pass
        refused("renew d 1 e 3 16 8", "dlm: 29 AlreadyThere\n")
        wants("what is there", os.listdir("e"), [f"disk{disk}.img"])
        os.remove(f"e/disk{disk}.img")
    # A folder that is not there, or that has no name, and one where somebody works as host 0.
    os.rmdir("e")
    for new in ("e", ""):
        refused(f"renew d 1 {new} 3 16 8", "dlm: 37 NoLock host0\n")
    os.mkdir("e")
    with open("e/host0.lock", "w+b") as lock:
        fcntl.flock(lock, fcntl.LOCK_EX)
        refused("renew d 1 e 3 16 8", "dlm: 36 HostInUse host0\n")
    wants("what was made", os.listdir("e"), ["host0.lock"])
    prints("renew d 1 e 3 16 8", RENEWED_OF_TWO)
    prints("table e 1", "recovered 2\n" + HELD)
    # All gates are open: nobody is told that this is his table.
    refused("renew d 1 e 3 16 8", "dlm: 29 AlreadyThere\n")
    # A gate that is closed was left by a run that was ended.
    put_byte("e/disk2.img", 0, 0)
    prints("renew d 1 e 3 16 8", "finished 3 disks\n")
    wants("the gate", bytes_of("e/disk2.img")[0], 0xA5)
    # All are closed: it is no cluster, and nothing is done.
    for disk in range(3):
        put_byte(f"e/disk{disk}.img", 0, 0)
    refused("table e 1", "dlm: 24 NotFormatted disk0\n")
    refused("renew d 1 e 3 16 8", "dlm: 29 AlreadyThere\n")


# CLIENTS THAT ARE LEFT OUT

STALE, CLIENTS_FULL = "18 Stale", "19 ClientsFull"


@test
def clients_are_left_out():
    make("d", 1, 16, 7)
    prints("submit d 0 enqueue 1 5 1 EX db", "ack 0 Granted\n")
    prints("submit d 0 status 2 5 9", "ack 1 12 NoSuchLock\n")
    prints("submit d 0 status 3 7 9", "ack 2 12 NoSuchLock\n")
    fill("d", 13)
    _, shown = table("d")
    # Client 2 is known and has no lock, and is named twice. Client 200 is not known.
    os.mkdir("e")
    prints("renew d 1 e 3 16 8 2 200 2", "renewed 3 commands, 3 disks, 16 slots\n")
    wants("the table", table("e"), (3, shown))
    # What was left out counts from 1 again. The others go on.
    prints("submit e 0 status 2 1 9", "ack 3 12 NoSuchLock\n")
    prints("submit e 0 status 3 6 9", f"ack 4 {STALE}\n")
    prints("submit e 0 status 3 7 1", "ack 5 12 NoSuchLock\n")
    prints("submit e 0 status 1 4 1", f"ack 6 {STALE}\n")
    prints("submit e 0 release 1 6 1", "ack 7 Released\n")


@test
def clients_with_locks_are_not_left_out():
    make("d", 1, 8, 7)
    prints("submit d 0 enqueue 1 1 1 EX db", "ack 0 Granted\n")
    prints("submit d 0 enqueue 2 1 2 EX db", "ack 1 Queued\n")
    prints("submit d 0 status 3 1 9", "ack 2 12 NoSuchLock\n")
    os.mkdir("e")
    refused("renew d 1 e 1 8 8 1", "dlm: 38 NotFull\n")
    fill("d", 5)
    refused("renew d 1 e 1 8 8 1", "dlm: 42 HasLocks client1\n")
    # A client that waits has a lock, too. The first word that names one is told.
    refused("renew d 1 e 1 8 8 3 2 1", "dlm: 42 HasLocks client2\n")
    refused("renew d 1 e 1 1 8 3 2", "dlm: 42 HasLocks client2\n")
    refused("renew d 1 e 1 4 8 3", "dlm: 33 TooFewSlots\n")
    wants("what was made", os.listdir("e"), [])
    # The slots of what is left out are free.
    prints("renew d 1 e 1 5 8 3", "renewed 4 commands, 1 disks, 5 slots\n")


@test
def a_new_client_gets_in():
    make("d", 1, 64, 7)
    for client in range(32):
        prints(f"submit d 0 status {client} 1 9", f"ack {client} 12 NoSuchLock\n")
    prints("submit d 0 status 32 1 9", f"ack 32 {CLIENTS_FULL}\n")
    fill("d", 31)
    os.mkdir("e")
    prints("renew d 1 e 1 64 8 " + " ".join(str(client) for client in range(0, 256, 2)), "renewed 16 commands, 1 disks, 64 slots\n")
    prints("submit e 0 status 32 1 9", "ack 16 12 NoSuchLock\n")
    prints("submit e 0 status 1 1 9", "ack 17 12 NoSuchLock\n")


@test
def a_run_that_ends_another_one_leaves_out_what_that_one_did():
    full("d")
    os.mkdir("e")
    prints("renew d 1 e 2 8 8 9", "renewed 2 commands, 2 disks, 8 slots\n")
    put_byte("e/disk1.img", 0, 0)
    prints("renew d 1 e 2 8 8 1", "finished 2 disks\n")
    prints("table e 1", "recovered 2\n" + HELD)


@test
def a_format_that_was_ended_is_no_renewal():
    full("d")
    make("e", 3, 16, 8)
    put_byte("e/disk1.img", 0, 0)
    os.remove("e/disk2.img")
    refused("renew d 1 e 3 16 8", "dlm: 29 AlreadyThere\n")
    wants("the gate", bytes_of("e/disk1.img")[0], 0)


@test
def an_old_folder_is_no_new_one():
    make("d", 3, 4, 7)
    prints("submit d 0 enqueue 1 1 1 EX db", "ack 0 Granted\n")
    fill("d", 3)
    # Where its own image is missing that is to be made first, too; and by whatever path it is given.
    os.remove("d/disk0.img")
    os.symlink("d", "current")
    for old, host, new in (("d", 1, "d"), ("d", 0, "current"), ("current", 0, "d/../d")):
        for disks in (1, 3):
            refused(f"renew {old} {host} {new} {disks} 16 8", "dlm: 29 AlreadyThere\n")
    wants("what is there", sorted(os.listdir("d")), [*(f"disk{disk}.img" for disk in (1, 2)), *(f"host{host}.lock" for host in (0, 1, 3))])
    prints("table d 1", "recovered 4\n" + HELD)


# WHAT IS LEFT OF A RUN THAT WAS ENDED

# Of what a folder tells whose images are not all open, or not all there.
NOT_READY = ("dlm: 24 ", "dlm: 25 ", "dlm: 26 ", "dlm: 7 ")


def looks(shown, folder="new"):
    """A copy of the new folder reads as the whole table, or as none. Whether it reads is the result."""
    shutil.rmtree("copy", ignore_errors=True)
    shutil.copytree(folder, "copy")
    status, printed, told = run("table copy 9")
    if status == 0:
        wants("the table", printed.split("\n", 1)[1], shown)
        return True
    wants(f"a refusal, {told!r}", told.startswith(NOT_READY), True)
    return False


def gates(folder="new"):
    return [name for name, data in images_of(folder).items() if data[:1] == b"\xa5"]


def images_of(folder):
    return {name: bytes_of(f"{folder}/{name}") for name in sorted(os.listdir(folder)) if name.endswith(".img")}


# CALLS THAT FAIL

BUILT = tempfile.TemporaryDirectory()


@functools.cache
def built_failing():
    """The path of the library by which a call fails, or None where there is no C compiler."""
    if not shutil.which("cc"):
        print("left out: renew.py, calls that fail: no C compiler (cc)")
        return None
    library = os.path.join(BUILT.name, "failing.so")
    subprocess.run(["cc", "-shared", "-fPIC", "-o", library, os.path.join(TOP, "tests/shim/failing.c"), "-ldl"], check=True)
    return library


def at_each_call(library, text, folders, **more):
    """Runs these words over these folders again and again, and each time something happens at another call. Gives the call, how often it was
    made by then, and the process; until no call is left."""
    times = collections.Counter()
    for number in itertools.count(1):
        for folder, files in folders.items():
            put(folder, files)
        env = {**os.environ, "LD_PRELOAD": library, "FAIL_AT": str(number), "FAIL_TOLD": "told", **more}
        with subprocess.Popen([PROGRAM, *text.split(" ")], env=env, stdin=subprocess.DEVNULL, stdout=subprocess.PIPE, stderr=subprocess.PIPE, text=True) as process:
            os.waitid(os.P_PID, process.pid, os.WEXITED | os.WSTOPPED | os.WNOWAIT)
            if not os.path.exists("told"):
                wants(f"calls of `{text}`", number > 20, True)
                return
            call = bytes_of("told").decode().strip()
            os.remove("told")
            times[call] += 1
            try:
                yield call, times[call], process
            finally:
                # One that stopped would be waited for.
                process.kill()


def end_of(process):
    printed, told = process.communicate()
    return process.returncode, printed, told


def put(folder, files):
    """A folder with these files, and nothing else."""
    shutil.rmtree(folder, ignore_errors=True)
    os.mkdir(folder)
    for name, data in files.items():
        with open(f"{folder}/{name}", "wb") as file:
            file.write(data)


@test
def each_call_of_a_fill_fails():
    library = built_failing()
    if not library:
        return
    make("d", 3, 4, 7)
    clients = Clients()
    clients.submits("d", 1, ["enqueue", "1", "EX", "a"])
    clients.submits("d", 2, ["enqueue", "2", "PR", "a"])
    shown = table("d")[1]
    for call, times, process in at_each_call(library, "fill d 3", {"d": images_of("d")}):
        # One image of three may fail.
        told = "dlm: 37 NoLock host3\n" if call.endswith(".lock") else "dlm: 26 Unreadable disk0\n" if call.startswith("realpath") else ""
        wants(f"a fill where {call} fails, {times}", end_of(process), (1, "", told) if told else (0, "filled 2 slots\n", ""))
        fill("d", 2 if told else 0)
        wants(f"the table after {call}", table("d"), (4, shown))


WORDS_OF_CALLS = "renew d 1 e 3 6 8"
RENEWED = "renewed 4 commands, 3 disks, 6 slots\n"


def full_and_renewed():
    """The table of a full log, its images, each slot of which is marked, and those into which it is renewed."""
    make("d", 3, 5, 7)
    clients = Clients()
    for client, words in ((1, ["enqueue", "1", "EX", "a"]), (2, ["enqueue", "2", "PR", "a"]), (1, ["convert", "1", "PW", "value", "07" * 16])):
        clients.submits("d", client, words)
    fill("d", 2)
    prints("mark d 3", "recovered 5\nmarked 2 slots\n")
    shown, old = table("d")[1], images_of("d")
    os.mkdir("e")
    prints(WORDS_OF_CALLS, RENEWED)
    return shown, old, images_of("e")


@test
def each_call_fails():
    library = built_failing()
    if not library:
        return
    shown, old, new = full_and_renewed()
    # A renewal, and then a run that ends one of which the first gate was opened.
    left = {name: data if name == "disk0.img" else b"\0" + data[1:] for name, data in new.items()}
    for wanted, folders in ((of_a_renewal, {"d": old, "e": {}}), (of_a_finish, {"d": old, "e": left})):
        for call, times, process in at_each_call(library, WORDS_OF_CALLS, folders):
            wants(f"a run where {call} fails, {times}", end_of(process), wanted(*call.split(" "), times))
            wants(f"the old images after {call}, {times}", images_of("d"), old)
            wants(f"gates that are open after {call}, {times}", looks(shown, "e"), len(gates("e")) > 1)
            again = run(WORDS_OF_CALLS)
            if again[2] == "dlm: 29 AlreadyThere\n" and not gates("e"):
                put("e", {})
                prints(WORDS_OF_CALLS, RENEWED)
            wants(f"the new images in the end, after {call}, {times}", images_of("e"), new)


# And the host of which each tells.
LOCKS_OF_A_RENEWAL = {"d/host1.lock": 1, "e/host0.lock": 0}


def of_a_renewal(name, path, times):
    """What a renewal comes to where this call fails, which it made this often. One old image of three may fail."""
    if name == "realpath" and path in ("d", "e"):
        return of_no_folder(path)
    if path.startswith("d/disk"):
        return 0, RENEWED, ""
    if path in LOCKS_OF_A_RENEWAL:
        return 1, "", f"dlm: 37 NoLock host{LOCKS_OF_A_RENEWAL[path]}\n"
    # The file of each new image is made, in eight writes and a sync, and then its folder is synced.
    if path == "e":
        return 1, "", f"dlm: 26 Unreadable disk{times - 1}\n"
    if times <= {"open": 1, "pwrite": 8, "fdatasync": 1}[name]:
        return 1, "", f"dlm: 26 Unreadable {path[2:7]}\n"
    return 1, "", "dlm: 34 MigrationFailed\n"


def of_a_finish(name, path, times):
    """And a run that opens the last two gates. A new image that cannot be read is passed over, and left to the next run."""
    if name == "realpath":
        return of_no_folder(path)
    # It is asked first for a command in its first slot, which the next image has too, and then for its gate, which is the only one that is open.
    if path == "e/disk0.img" and (name == "open" and times == 2 or name == "pread" and times in (3, 4)):
        return 1, "", "dlm: 29 AlreadyThere\n"
    if path.startswith("e/") and name in ("pwrite", "fdatasync"):
        return 1, "", "dlm: 34 MigrationFailed\n"
    return 0, "finished 3 disks\n", ""


def of_no_folder(path):
    return 1, "", "dlm: 26 Unreadable disk0\n" if path == "d" else "dlm: 37 NoLock host0\n"


# TWO AT ONCE

SAME = "renew d 2 e 3 6 8"
OF_TWO = [RENEWED, "finished 3 disks\n", *(f"dlm: {told}\n" for told in ("29 AlreadyThere", "36 HostInUse host0", "36 HostInUse host1"))]


@test
def two_renew_at_once():
    """One run stops before each of its calls, and another one onto the same folder is made meanwhile; then some start at the same moment. One of them
    renews, and what the other one tells follows from its words."""
    shown, old, new = full_and_renewed()
    folders = {"d": old, "e": {}}
    library = built_failing()
    for second in (SAME, WORDS_OF_CALLS) if library else ():
        for call, times, process in at_each_call(library, WORDS_OF_CALLS, folders, FAIL_STOP="yes"):
            meanwhile = run(second)
            process.send_signal(signal.SIGCONT)
            one_has_renewed(f"`{second}` before {call}, {times}", [end_of(process), meanwhile], shown, new)
    for turn in range(24):
        for folder, files in folders.items():
            put(folder, files)
        both = []
        for words in (WORDS_OF_CALLS, (SAME, WORDS_OF_CALLS)[turn % 2]):
            both.append(subprocess.Popen([PROGRAM, *words.split(" ")], stdout=subprocess.PIPE, stderr=subprocess.PIPE, text=True))
            time.sleep(random.choice((0, random.uniform(0, 0.02))))
        one_has_renewed("both at once", [end_of(process) for process in both], shown, new)


def one_has_renewed(what, ended, shown, new):
    tells = [printed or told for _, printed, told in ended]
    wants(f"{what}: how often it was renewed, {tells}", tells.count(RENEWED), 1)
    wants(f"{what}: others than what may be told, {tells}", [told for told in tells if told not in OF_TWO], [])
    wants(f"{what}: the new images", images_of("e"), new)
    wants(f"{what}: what is read", looks(shown, "e"), True)
    refused(SAME, "dlm: 29 AlreadyThere\n")


# LINKS THAT MOVE

@test
def a_link_is_followed_once():
    """Before each call of a command the link to its folder moves to another one. It works on one of the two, and under that one's lock."""
    library = built_failing()
    if not library:
        return
    _, old, new = full_and_renewed()
    both = {"d": old, "e": new}
    for words in ("table current 2", "submit current 2 status 1 9 1", "mark current 2", "fill current 2", "check current"):
        may = []
        for folder in both:
            for each, files in both.items():
                put(each, files)
            link(folder)
            may.append((run(words), locked(both)))
        link("d")
        for call, times, process in at_each_call(library, words, both, FAIL_STOP="yes"):
            link("e")
            process.send_signal(signal.SIGCONT)
            found = end_of(process), locked(both)
            wants(f"`{words}`, where the link moves before {call}, {times}, came to {found}: it may", found in may, True)
            link("d")


def locked(folders):
    return [folder for folder in folders if os.path.exists(f"{folder}/host2.lock")]


# MANY IN A ROW

WRITERS = ("PW", "EX")


class Valued(lock_log.Table):
    """The plain table, with the value of each name that has another one than zeros."""

    def __init__(self):
        super().__init__()
        self.values = {}

    def carry_out(self, host, client, words):
        given = words[-1] if "value" in words else None
        words = words[:words.index("value")] if given else words
        before, number = self.locks, int(words[3])
        lock = None if words[0] == "purge" else self.find(number)
        reply = super().carry_out(host, client, words)
        if given and (words[0] == "release" and reply == "Released" and lock[4] in WRITERS or words[0] == "convert" and reply == "Granted" and self.is_downward(lock[4], words[4])):
            self.values[lock[3]] = given
        if words[0] == "purge":
            for name in {each[3] for each in before if each[2] == number and each[4] in WRITERS}:
                self.values[name] = self.values.get(name, "00" * 16)[:32] + " invalid"
        self.values = {name: value for name, value in self.values.items() if value != "00" * 16 and any(each[3] == name for each in self.locks)}
        value = self.values.get(words[5] if words[0] == "enqueue" else lock and lock[3])
        if value and reply == "Granted":
            return f"Granted({value})"
        if value and reply.startswith("State(held=") and "held=-" not in reply:
            return f"{reply[:-1]}, value={value})"
        return reply

    @staticmethod
    def is_downward(held, wanted):
        return held == "EX" or held == "PW" and wanted != "EX"

    def text(self):
        return [line if line.startswith("  ") or line not in self.values else f"{line} {self.values[line]}" for line in super().text()]


def wait_until(process, is_so):
    while process.poll() is None and not is_so():
        pass


def is_there(folder):
    return os.path.exists(f"{folder}/disk0.img")


def is_open(folder):
    try:
        with open(f"{folder}/disk0.img", "rb") as file:
            return file.read(1) == b"\xa5"
    except FileNotFoundError:
        return False


class Row:
    """A cluster that is renewed again and again, and what a plain table makes of its commands."""

    def __init__(self):
        self.model, self.counts = Valued(), collections.Counter()
        # A command that has no reply yet, with its client's host. How long a renewal took.
        self.left, self.took = None, 0.05
        # A sync takes a little while, or most runs in memory would be over before they are killed.
        shim = lock_log.built_shim(".")
        self.env = {**os.environ, **({"LD_PRELOAD": os.path.realpath(shim), "DLM_SLEEP": "200"} if shim else {})}
        self.folder, self.slots, self.cluster = "set100", 24, 100
        make(self.folder, 3, self.slots, self.cluster)

    def killed_or_ended(self, words, longest, percent, *moments):
        """What came of a run that may be killed, so many times in a hundred: at some moment until so many seconds have passed, or once one of these is
        so."""
        process = subprocess.Popen([PROGRAM, *words.split(" ")], env=self.env, stdin=subprocess.DEVNULL, stdout=subprocess.PIPE, stderr=subprocess.PIPE, text=True)
        if random.random() * 100 < percent:
            moment = random.choice([None, *moments])
            if moment:
                wait_until(process, moment)
            else:
                time.sleep(random.uniform(0, longest))
            process.kill()
        return end_of(process)

    def submits(self, host, command):
        """A command, again and again through this host until it has its reply. Tells whether the log is full."""
        while True:
            status, printed, told = self.killed_or_ended(f"submit {self.folder} {host} {command}", 0.03, 20)
            if printed:
                wants(f"`{command}`", printed.split(" ", 2)[2], self.model.apply(host, command.split(" ")) + "\n")
                self.counts["commands"] += 1
                return False
            if status == -9:
                self.counts["submissions killed"] += 1
            else:
                wants(f"`{command}`", (status, told), (1, "dlm: 9 LogFull\n"))
                self.left = host, command
                return True

    def submits_some(self):
        """Random commands until the log is full, or until there were enough."""
        for _ in range(random.randrange(5, 2 * self.slots)):
            client, words = some_words()
            request = self.model.clients.get(client, (0,))[0] + 1
            if self.submits(random.randrange(16), f"{words[0]} {client} {request} {' '.join(words[1:])}"):
                return

    def is_filled(self):
        while True:
            status, printed, told = self.killed_or_ended(f"fill {self.folder} {random.randrange(16)}", 0.1, 40)
            if status == 0:
                return
            wants("a fill", (status, told), (-9, ""))
            self.counts["fills killed"] += 1

    def is_renewed(self):
        """As docs/OPERATIONS.md says: the same words again, until they tell that it was renewed or finished, or that all is there."""
        before, new = table(self.folder)[1], f"set{self.cluster + 1}"
        slots, disks = random.randrange(16, 65), random.randrange(1, 8)
        words = f"renew {self.folder} {random.randrange(16)} {new} {disks} {slots}"
        os.mkdir(new)
        while True:
            began = time.monotonic()
            status, printed, told = self.killed_or_ended(f"{words} {self.cluster + 1}", self.took, 60, lambda: is_there(new), lambda: is_open(new))
            if status == -9 and not printed:
                self.counts["renewals killed"] += 1
            elif told == "dlm: 29 AlreadyThere\n":
                if len(gates(new)) == disks:
                    break
                wants("open gates of images that are there", gates(new), [])
                self.counts["renewals begun anew"] += 1
                for name in images_of(new):
                    os.remove(f"{new}/{name}")
            else:
                wants(f"`{words}`, {told!r}", printed in (f"finished {disks} disks\n",) or printed.startswith("renewed "), True)
                self.counts["renewals finished by a further run"] += printed.startswith("finished")
                self.took = 1.2 * (time.monotonic() - began)
                break
        self.counts["renewals"] += 1
        shutil.rmtree(self.folder)
        self.folder, self.slots, self.cluster = new, slots, self.cluster + 1
        wants(f"the table of {new}", table(new)[1], before)

    def agrees(self):
        """A client that met a full log asks again. Then the table, and each client's last reply."""
        if self.left:
            host, command = self.left
            self.left = None
            wants(f"a full log after `{command}`", self.submits(host, command), False)
        _, shown = table(self.folder)
        wants(f"the table of {self.folder}", lock_log.sorted_below(shown.splitlines()), self.model.text())
        for client, (request, reply) in self.model.clients.items():
            status, printed, told = run(f"submit {self.folder} {random.randrange(16)} status {client} {request} 1")
            wants(f"the last reply to client {client}", (status, printed.split(" ", 2)[2:], told), (0, [reply + "\n"], ""))


def long(count):
    began = time.monotonic()
    row = Row()
    for _ in range(count):
        row.submits_some()
        row.is_filled()
        row.is_renewed()
        row.agrees()
    print(f"renew.py: {', '.join(f'{number} {what}' for what, number in sorted(row.counts.items()))}, {time.monotonic() - began:.0f} seconds")


# KILLS

WORDS = "renew old 1 new 5 64 8"


def goes_on(shown, renewed, counts):
    """The run after one that was killed."""
    status, printed, told = run(WORDS)
    if (status, told) == (1, "dlm: 29 AlreadyThere\n"):
        # None is open, or all are. If none is, somebody removes the images, and begins anew.
        if not gates():
            counts["refused"] += 1
            shutil.rmtree("new")
            os.mkdir("new")
            prints(WORDS, renewed)
        else:
            counts["ended"] += 1
    else:
        wants("a run", (status, told), (0, ""))
        wants(f"what it printed, {printed!r}", printed in (renewed, "finished 5 disks\n"), True)
        counts["anew" if printed == renewed else "finished"] += 1
    wants("open gates", gates(), [f"disk{disk}.img" for disk in range(5)])
    wants("what is read", looks(shown), True)


def kill(kills):
    make("old", 3, SLOTS, 7)
    os.mkdir("new")
    clients = Clients()
    for _ in range(SLOTS - 2):
        clients.submits_some("old")
    fill("old", 2)
    shown = table("old")[1]
    began = time.monotonic()
    count = is_renewed("old", "new", 5, 64, 8)
    long = time.monotonic() - began
    renewed = f"renewed {count} commands, 5 disks, 64 slots\n"
    counts = {"killed": 0, "late": 0, "read": 0, "refused": 0, "anew": 0, "finished": 0, "ended": 0}
    while counts["killed"] < kills:
        shutil.rmtree("new")
        os.mkdir("new")
        with subprocess.Popen([PROGRAM, *WORDS.split(" ")], stdout=subprocess.PIPE, stderr=subprocess.PIPE) as process:
            if counts["killed"] % 3 == 0:
                time.sleep(random.uniform(0, long))
            elif counts["killed"] % 3 == 1:
                wait_until(process, lambda: is_there("new"))
                time.sleep(random.uniform(0, long / 20))
            else:
                wait_until(process, lambda: is_open("new"))
            process.kill()
            process.communicate()
        if process.returncode == 0:
            counts["late"] += 1
            continue
        counts["killed"] += 1
        if looks(shown):
            counts["read"] += 1
        goes_on(shown, renewed, counts)
    print("renew.py: " + ", ".join(f"{count} {what}" for what, count in counts.items()))


def main():
    global PROGRAM
    parser = argparse.ArgumentParser()
    parser.add_argument("--program", default=PROGRAM)
    parser.add_argument("--kills", type=int, default=0)
    parser.add_argument("--long", type=int, default=0)
    given = parser.parse_args()
    PROGRAM = folder_tests.PROGRAM = os.path.realpath(given.program)
    seed = random.randrange(1 << 32)
    random.seed(seed)
    more = []
    if given.kills > 0:
        more.append(("kill", lambda: kill(given.kills)))
    if given.long > 0:
        more.append(("long", lambda: long(given.long)))
    # Kills are not in memory: there a renewal is over before it is killed.
    return run_tests(__file__, more, lambda name: None if name == "kill" else MEMORY, f", of seed {seed}")


if __name__ == "__main__":
    sys.exit(main())
