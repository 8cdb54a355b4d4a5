#!/usr/bin/env python3
"""migrate.py [--kills N]: moves folders of the first layout with `dlm migrate`. What it prints, what it tells on standard error, its status, the
bytes of the new images, and what is left alone. Each write and sync on a new image fails once, from the first one after all were made zeros; for
that a few lines of C stand before the C library, and where there is no C compiler this is left out. Then it kills as many migrations (none given: none) at random moments (`kill -9`): of three
one at any, one once a new image is there, one once a gate is open. After each it looks that the next run ends it or is refused, and that no
state of the new folder reads as a cluster that lacks a command.

The old images are written here byte by byte, by docs/FORMAT.md. So are new ones whose log begins with what carries a table over, as `dlm renew`
writes them: each command has to read them. It prints each difference, and how many there were; the status is 1 where
there was one. The program has to be built: `./dlm` does so.
"""
import argparse
import fcntl
import os
import random
import shutil
import subprocess
import sys
import time

from folder_tests import PROGRAM, prints, refused, run, run_tests, test, wants


# THE FIRST LAYOUT

def numbers(*given):
    return b"".join(number.to_bytes(8, "big") for number in given)


def old_header(disk, disks, slots, cluster):
    return (bytes([0xA5, 1, disk, disks]) + slots.to_bytes(4, "big") + numbers(cluster)).ljust(1024, b"\0")


def old_block(command, host=0):
    """A host's block of a slot once its command is acknowledged in its first ballot: a copy of phase 1, and one of phase 2."""
    ballot = host + 1
    first = bytes([0xA5, 1, 0, 0, 0, 0, 0, 0]) + numbers(1, ballot, 0) + bytes(32)
    second = bytes([0xA5, 1, 1, 0, 0, 0, 0, 0]) + numbers(2, ballot, ballot) + command
    return first + second


def old_image(disk, disks, slots, cluster, commands):
    rows = b"".join(old_block(command).ljust(1024, b"\0") for command in commands)
    return (old_header(disk, disks, slots, cluster).ljust(2048, b"\0") + rows).ljust(2048 + 1024 * slots, b"\0")


def enqueue(client, request, lock, mode, name):
    head = bytes([1, 0, client, mode, 0, len(name)]) + lock.to_bytes(2, "big")
    return head + numbers(request) + b"\0" + name.ljust(15, b"\0")


FIRST = bytes.fromhex("0100010500020001" "0000000000000001" "0064620000000000" "0000000000000000")


def make_old(folder, disks, slots, commands):
    os.mkdir(folder)
    for disk in range(disks):
        with open(f"{folder}/disk{disk}.img", "wb") as file:
            file.write(old_image(disk, disks, slots, 7, commands))


def put_byte(path, at, byte):
    with open(path, "r+b") as file:
        file.seek(at)
        file.write(bytes([byte]))


def bytes_of(path):
    with open(path, "rb") as file:
        return file.read()


# THE SECOND LAYOUT

def new_image(disk, disks, slots, commands):
    header = (bytes([0xA5, 2, disk, disks]) + slots.to_bytes(4, "big") + numbers(7)).ljust(8192, b"\0")
    blocks = [bytes([0xA5, 2, 1, 1, 0, 0, 0, 0]) + numbers(1, 1, 1) + command for command in commands]
    return (header + b"".join(block.ljust(4096, b"\0") for block in blocks)).ljust(8192 + 4096 * slots, b"\0")


HELD = "recovered 1\ndb\n  granted 1 1 0 EX\n"


@test
def one_command():
    wants("a command", enqueue(1, 1, 1, 5, b"db"), FIRST)
    make_old("d", 3, 16, [FIRST])
    os.mkdir("e")
    refused("table d 0", "dlm: 32 OldLayout disk0\n")
    refused("migrate d e 8", "dlm: 33 TooFewSlots\n")
    wants("the new folder", os.listdir("e"), [])
    prints("migrate d e 32", "migrated 1 commands, 3 disks, 32 slots\n")
    for disk in range(3):
        wants(f"image {disk}", bytes_of(f"e/disk{disk}.img"), new_image(disk, 3, 32, [FIRST]))
        wants(f"its length {disk}", os.path.getsize(f"e/disk{disk}.img"), 139264)
    # The old log is still there.
    refused("table d 0", "dlm: 32 OldLayout disk0\n")
    prints("table e 9", HELD)
    prints("submit e 12 release 1 2 1", "ack 1 Released\n")
    put_byte("e/disk2.img", 0, 0)
    prints("migrate d e 32", "finished 3 disks\n")
    wants("the gate", bytes_of("e/disk2.img")[0], 0xA5)
    prints("table e 3", "recovered 2\nempty\n")
    # A migration of another size is another set.
    refused("migrate d e 64", "dlm: 29 AlreadyThere\n")


@test
def images_of_other_numbers():
    make_old("d", 3, 16, [FIRST])
    os.mkdir("e")
    # Whoever opened the new folder would look at this one, too.
    with open("e/disk6.img", "wb") as file:
        file.write(b"")
    refused("migrate d e 16", "dlm: 29 AlreadyThere\n")
    wants("the new folder", os.listdir("e"), ["disk6.img"])
    # Nor is there room beside the old images, or in a folder that is not there.
    os.remove("d/disk0.img")
    old = {name: bytes_of(f"d/{name}") for name in ("disk1.img", "disk2.img")}
    refused("migrate d d 16", "dlm: 29 AlreadyThere\n")
    wants("the old folder", sorted(os.listdir("d")), ["disk1.img", "disk2.img", "host0.lock"])
    wants("how long its images are", [os.path.getsize(f"d/{name}") for name in old], [len(data) for data in old.values()])
    refused("migrate d no 16", "dlm: 26 Unreadable disk0\n")


@test
def finishing_touches_nothing_else():
    make_old("d", 3, 16, [FIRST])
    os.mkdir("e")
    prints("migrate d e 16", "migrated 1 commands, 3 disks, 16 slots\n")
    put_byte("e/disk0.img", 0, 0)
    put_byte("e/disk1.img", 1, 3)
    put_byte("e/disk1.img", 0, 0)
    old = [bytes_of(f"d/disk{disk}.img") for disk in range(3)]
    # It needs no majority of the old disks, and no lock.
    os.remove("d/disk1.img")
    os.remove("d/disk2.img")
    os.remove("d/host0.lock")
    prints("migrate d e 16", "finished 3 disks\n")
    wants("the old folder", (sorted(os.listdir("d")), bytes_of("d/disk0.img")), (["disk0.img"], old[0]))
    wants("gates", [bytes_of(f"e/disk{disk}.img")[0] for disk in range(3)], [0xA5, 0, 0xA5])
    prints("table e 1", HELD)


@test
def refusals():
    make_old("d", 3, 16, [FIRST])
    wants("too many slots", run("migrate d e 4097"), (2, "", "dlm: usage\n"))
    wants("no slots", run("migrate d e 0"), (2, "", "dlm: usage\n"))
    wants("too few words", run("migrate d e"), (2, "", "dlm: usage\n"))
    refused("migrate nothing e 16", "dlm: 26 Unreadable disk0\n")
    refused("migrate d e 16", "dlm: 26 Unreadable disk0\n")
    refused("migrate d d 16", "dlm: 29 AlreadyThere\n")
    os.mkdir("e")
    with open("e/disk2.img", "wb"):
        pass
    refused("migrate d e 16", "dlm: 29 AlreadyThere\n")
    wants("what is there", (os.listdir("e"), os.path.getsize("e/disk2.img")), (["disk2.img"], 0))
    os.remove("e/disk2.img")
    with open("d/host0.lock", "r+b") as lock:
        fcntl.flock(lock, fcntl.LOCK_EX)
        refused("migrate d e 16", "dlm: 36 HostInUse host0\n")
    os.mkdir("f")
    prints("format f 3 16 7", "formatted 3 disks, 16 slots\n")
    refused("migrate f e 16", "dlm: 25 WrongHeader disk0\n")
    # An image of another old set refuses them all; closed gates are no images.
    put_byte("d/disk2.img", 15, 8)
    refused("migrate d e 16", "dlm: 25 WrongHeader disk2\n")
    put_byte("d/disk2.img", 0, 0)
    put_byte("d/disk1.img", 0, 0)
    refused("migrate d e 16", "dlm: 7 NoMajority\n")
    put_byte("d/disk0.img", 0, 0)
    refused("migrate d e 16", "dlm: 24 NotFormatted disk0\n")
    wants("the new folder", os.listdir("e"), [])


@test
def value_that_is_no_command():
    """Zeros, a purge of the ninth of eight hosts, and a kind of command that the first layout did not have."""
    purge = bytes([6, 0, 2, 0, 0, 0, 0, 0]) + numbers(1) + bytes([8]) + bytes(15)
    for place, value in enumerate([bytes(32), purge, bytes([7]) + purge[1:16] + bytes(16)]):
        make_old(f"d{place}", 3, 16, [FIRST, value])
        os.mkdir(f"e{place}")
        refused(f"migrate d{place} e{place} 16", "dlm: 10 NotACommand\n")
        wants("the new folder", os.listdir(f"e{place}"), [])


@test
def full_log_gets_more_slots():
    commands = [enqueue(1, request, request, 0, b"a") for request in range(1, 4)]
    make_old("d", 1, 3, commands)
    os.mkdir("e")
    prints("migrate d e 3", "migrated 3 commands, 1 disks, 3 slots\n")
    wants("the image", bytes_of("e/disk0.img"), new_image(0, 1, 3, commands))
    refused("submit e 0 enqueue 1 4 4 NL a", "dlm: 9 LogFull\n")
    os.mkdir("f")
    prints("migrate d f 4096", "migrated 3 commands, 1 disks, 4096 slots\n")
    prints("submit f 0 enqueue 1 4 4 NL a", "ack 3 Granted\n")


@test
def purge_leaves_values_valid():
    purge = bytes([6, 0, 2, 0, 0, 0, 0, 0]) + numbers(1) + bytes(16)
    make_old("d", 3, 16, [FIRST, enqueue(3, 1, 9, 0, b"db"), purge])
    os.mkdir("e")
    prints("migrate d e 16", "migrated 3 commands, 3 disks, 16 slots\n")
    quiet = bytes([7]) + purge[1:]
    wants("the image", bytes_of("e/disk1.img"), new_image(1, 3, 16, [FIRST, enqueue(3, 1, 9, 0, b"db"), quiet]))
    prints("table e 1", "recovered 3\nempty\n")


@test
def empty_log():
    make_old("d", 3, 16, [])
    os.mkdir("e")
    prints("migrate d e 16", "migrated 0 commands, 3 disks, 16 slots\n")
    prints("table e 1", "recovered 0\nempty\n")


# A TABLE THAT IS CARRIED OVER

# As `dlm renew` writes such a log. Each command reads one.
def carried_lock(host, client, mode, flags, name, lock, state, value=b""):
    head = bytes([8, host, client, mode, flags, len(name)]) + lock.to_bytes(2, "big")
    return head + numbers(1) + bytes([state]) + name.ljust(15, b"\0") + value.ljust(16, b"\0")


def carried_client(client, request, answer, mode=0, flags=0, count=0, value=b""):
    head = bytes([9, 0, client, mode, flags, 0]) + count.to_bytes(2, "big")
    return head + numbers(request) + bytes([answer]) + bytes(15) + value.ljust(16, b"\0")


CARRIED = [
    carried_lock(0, 4, 5, 2, b"a", 9, 0, b"sixteen bytes on"),
    carried_lock(1, 2, 3, 6, b"db", 2, 0),
    carried_lock(0, 1, 3, 6, b"db", 1, 7),
    carried_lock(2, 3, 1, 6, b"db", 3, 1),
    carried_client(1, 2, 9),
    carried_client(2, 1, 8, flags=6),
    carried_client(3, 7, 1, mode=1),
    carried_client(4, 3, 7, mode=3, flags=2, value=b"sixteen bytes on"),
    carried_client(5, 3, 22, count=256),
    carried_client(6, 2, 13),
]


@test
def log_that_carries_a_table_over():
    os.mkdir("e")
    for disk in range(3):
        with open(f"e/disk{disk}.img", "wb") as file:
            file.write(new_image(disk, 3, 32, CARRIED))
    invalid = "00000000000000000000000000000000 invalid"
    value = b"sixteen bytes on".hex()
    locks = f"a {value}\n  granted 9 4 0 EX\ndb {invalid}\n  granted 2 2 1 PR\n  converting 1 1 0 PR EX\n"
    prints("table e 1", f"recovered 10\n{locks}  waiting 3 3 2 CR\n")
    # Each client's last request again, through any host, whatever it asks now. Then an older one.
    last = [
        (1, 2, "Queued"),
        (2, 1, f"Granted({invalid})"),
        (3, 7, "State(held=-, wanted=CR)"),
        (4, 3, f"State(held=PR, wanted=EX, value={value})"),
        (5, 3, "Purged(256)"),
        (6, 2, "13 NotOwner"),
    ]
    for place, (client, request, reply) in enumerate(last):
        prints(f"submit e 7 release {client} {request} 1", f"ack {10 + place} {reply}\n")
    prints("submit e 7 release 3 6 3", "ack 16 18 Stale\n")
    # And the table goes on.
    prints("submit e 7 release 2 2 2", "ack 17 Released\n")
    prints("submit e 7 status 1 3 1", f"ack 18 State(held=EX, wanted=-, value={invalid})\n")
    prints("submit e 7 cancel 3 8 3", "ack 19 Cancelled\n")


# CALLS THAT FAIL

# For LD_PRELOAD. FAILS=w3: once three syncs were made on images of the folder e, the next write there leaves the first half of its bytes and
# fails. FAILS=s3: the next sync fails.
FAILING = r"""
#define _GNU_SOURCE
#include <dlfcn.h>
#include <errno.h>
#include <fcntl.h>
#include <stdarg.h>
#include <stdio.h>
#include <stdlib.h>
#include <string.h>
#include <unistd.h>

#define MOST_FILES 1024

static int (*real_open)(const char *, int, ...);
static ssize_t (*real_pwrite)(int, const void *, size_t, off_t);
static int (*real_fdatasync)(int);
static int images[MOST_FILES], syncs, fails_after = -1;
static char fails;

__attribute__((constructor)) static void begin(void) {
    real_open = dlsym(RTLD_NEXT, "open");
    real_pwrite = dlsym(RTLD_NEXT, "pwrite");
    real_fdatasync = dlsym(RTLD_NEXT, "fdatasync");
    if (getenv("FAILS"))
        sscanf(getenv("FAILS"), "%c%d", &fails, &fails_after);
}

int open(const char *path, int flags, ...) {
    va_list rest;
    va_start(rest, flags);
    int mode = flags & O_CREAT ? va_arg(rest, int) : 0;
    va_end(rest);
    int fd = real_open(path, flags, mode);
    if (fd >= 0 && fd < MOST_FILES)
        images[fd] = strstr(path, "/e/disk") != NULL;
    return fd;
}

static int fails_now(int fd, char call) {
    if (fd < 0 || fd >= MOST_FILES || !images[fd] || fails != call || syncs != fails_after)
        return 0;
    fails = 0;
    return 1;
}

ssize_t pwrite(int fd, const void *from, size_t length, off_t at) {
    if (!fails_now(fd, 'w'))
        return real_pwrite(fd, from, length, at);
    real_pwrite(fd, from, length / 2, at);
    errno = EIO;
    return -1;
}

int fdatasync(int fd) {
    if (fails_now(fd, 's')) {
        errno = EIO;
        return -1;
    }
    if (fd >= 0 && fd < MOST_FILES)
        syncs += images[fd];
    return real_fdatasync(fd);
}
"""


def built_failing():
    """The path of the library, or None where there is no C compiler."""
    if not shutil.which("cc"):
        print("left out: migrate.py, calls that fail: no C compiler (cc)")
        return None
    with open("failing.c", "w", encoding="ascii") as file:
        file.write(FAILING)
    subprocess.run(["cc", "-shared", "-fPIC", "-o", "failing.so", "failing.c", "-ldl"], check=True)
    return os.path.realpath("failing.so")


def fails(library, call):
    """This call on a new image fails, and with it the migration."""
    env = {**os.environ, "LD_PRELOAD": library, "FAILS": call}
    words = [PROGRAM, "migrate", "d", "e", "16"]
    ended = subprocess.run(words, env=env, stdin=subprocess.DEVNULL, capture_output=True, check=False, text=True)
    wants(f"a migration where {call} fails", (ended.returncode, ended.stdout, ended.stderr), (1, "", "dlm: 34 MigrationFailed\n"))


def fails_not(library, call):
    """No such call is made where all gates are open."""
    env = {**os.environ, "LD_PRELOAD": library, "FAILS": call}
    ended = subprocess.run([PROGRAM, "migrate", "d", "e", "16"], env=env, stdin=subprocess.DEVNULL, capture_output=True, check=False, text=True)
    wants(f"a finished migration without {call}", (ended.returncode, ended.stdout, ended.stderr), (0, "finished 3 disks\n", ""))


def first_bytes():
    return [bytes_of(f"e/disk{disk}.img")[0] for disk in range(3)]


def are_complete(what):
    for disk in range(3):
        wants(f"{what}, image {disk}", bytes_of(f"e/disk{disk}.img"), new_image(disk, 3, 16, [FIRST]))


def reads(count):
    """A copy of the folder, so many of whose gates are open, is no cluster, or lacks a majority, or has the whole log."""
    shutil.rmtree("copy", ignore_errors=True)
    shutil.copytree("e", "copy")
    if count == 0:
        refused("table copy 9", "dlm: 24 NotFormatted disk0\n")
    elif count == 1:
        refused("table copy 9", "dlm: 7 NoMajority\n")
    else:
        prints("table copy 9", HELD)


@test
def failed_calls():
    library = built_failing()
    if not library:
        return
    make_old("d", 3, 16, [FIRST])
    # On each disk a sync of the zeros; then on each one of the blocks and one of the header; then on each one of the gate.
    for made in range(3, 12):
        for call, opened in ((f"w{made}", max(made - 9, 0)), (f"s{made}", max(made - 8, 0))):
            os.mkdir("e")
            fails(library, call)
            wants(f"files at {call}", sorted(os.listdir("e")), ["disk0.img", "disk1.img", "disk2.img"])
            wants(f"gates at {call}", first_bytes(), [0xA5] * opened + [0] * (3 - opened))
            reads(opened)
            if opened == 0:
                refused("migrate d e 16", "dlm: 29 AlreadyThere\n")
                shutil.rmtree("e")
                os.mkdir("e")
                prints("migrate d e 16", "migrated 1 commands, 3 disks, 16 slots\n")
            else:
                prints("migrate d e 16", "finished 3 disks\n")
            are_complete(f"after {call}")
            shutil.rmtree("e")


@test
def failed_finish():
    library = built_failing()
    if not library:
        return
    make_old("d", 3, 16, [FIRST])
    os.mkdir("e")
    prints("migrate d e 16", "migrated 1 commands, 3 disks, 16 slots\n")
    # The gate of disk 0 is synced, and that of disk 1 opened and synced, and then that of disk 2. Where a call fails no other is made.
    one, two, three = [0xA5, 0, 0], [0xA5, 0xA5, 0], [0xA5, 0xA5, 0xA5]
    for call, gates_left in (("s0", one), ("w1", one), ("s1", two), ("w2", two), ("s2", three)):
        put_byte("e/disk1.img", 0, 0)
        put_byte("e/disk2.img", 0, 0)
        fails(library, call)
        wants(f"gates at {call}", first_bytes(), gates_left)
        reads(gates_left.count(0xA5))
        prints("migrate d e 16", "finished 3 disks\n")
        are_complete(f"after {call}")
    # Gates that are open already are synced, each of them, and none is written.
    for call in ("s0", "s1", "s2"):
        fails(library, call)
        are_complete(f"open gates, {call}")
    for call in ("w0", "w1", "w2", "w3", "s3"):
        fails_not(library, call)


# KILLS

def commands_of(count):
    """So many commands, each of a client of its own."""
    return [enqueue(lock % 32, lock, lock, 0, b"a") for lock in range(1, count + 1)]


def table_of(count):
    """What is printed of the table after them."""
    return f"recovered {count}\na\n" + "".join(f"  granted {lock} {lock % 32} 0 NL\n" for lock in range(1, count + 1))


COMMANDS = commands_of(8)
TABLE = table_of(8)
MIGRATED = "migrated 8 commands, 3 disks, 32 slots\n"
# Of what a folder tells whose images are not all open, or not all there.
NOT_READY = ("dlm: 24 ", "dlm: 25 ", "dlm: 26 ", "dlm: 7 ")


def looks(folder):
    """A copy of the folder reads as the whole log, or as none. Whether it reads is the result."""
    shutil.rmtree("copy", ignore_errors=True)
    shutil.copytree(folder, "copy")
    status, printed, told = run("table copy 9")
    if status == 0:
        wants("the table", printed, TABLE)
        return True
    wants(f"a refusal, {told!r}", told.startswith(NOT_READY), True)
    return False


def gates():
    return [name for name in sorted(os.listdir("new")) if bytes_of(f"new/{name}")[:1] == b"\xa5"]


def goes_on(counts):
    """The run after one that was killed."""
    status, printed, told = run("migrate old new 32")
    if (status, told) == (1, "dlm: 29 AlreadyThere\n"):
        # No gate is open: somebody removes the images, and begins anew.
        wants("open gates", gates(), [])
        counts["refused"] += 1
        shutil.rmtree("new")
        os.mkdir("new")
        prints("migrate old new 32", MIGRATED)
    else:
        wants("a run", (status, told), (0, ""))
        wants(f"what it printed, {printed!r}", printed in (MIGRATED, "finished 3 disks\n"), True)
        counts["anew" if printed == MIGRATED else "finished"] += 1
    wants("all images", gates(), ["disk0.img", "disk1.img", "disk2.img"])
    wants("what is read", looks("new"), True)


def wait_until(process, is_so):
    while process.poll() is None and not is_so():
        pass


def is_there():
    return os.path.exists("new/disk0.img")


def is_open():
    try:
        return bytes_of("new/disk0.img")[:1] == b"\xa5"
    except FileNotFoundError:
        return False


def kill(kills):
    make_old("old", 3, 32, COMMANDS)
    os.mkdir("new")
    began = time.monotonic()
    prints("migrate old new 32", MIGRATED)
    long = time.monotonic() - began
    counts = {"killed": 0, "late": 0, "read": 0, "refused": 0, "anew": 0, "finished": 0}
    while counts["killed"] < kills:
        shutil.rmtree("new")
        os.mkdir("new")
        with subprocess.Popen([PROGRAM, "migrate", "old", "new", "32"], stdout=subprocess.PIPE, stderr=subprocess.PIPE) as process:
            if counts["killed"] % 3 == 0:
                time.sleep(random.uniform(0, long))
            elif counts["killed"] % 3 == 1:
                wait_until(process, is_there)
                time.sleep(random.uniform(0, long / 20))
            else:
                wait_until(process, is_open)
            process.kill()
            process.communicate()
        if process.returncode == 0:
            counts["late"] += 1
            continue
        counts["killed"] += 1
        if looks("new"):
            counts["read"] += 1
        goes_on(counts)
    print("migrate.py: " + ", ".join(f"{count} {what}" for what, count in counts.items()))


def main():
    parser = argparse.ArgumentParser()
    parser.add_argument("--kills", type=int, default=0)
    kills = parser.parse_args().kills
    # No folder is in memory: there a migration is over before it is killed.
    return run_tests(__file__, [("kill", lambda: kill(kills))] if kills > 0 else [])


if __name__ == "__main__":
    sys.exit(main())
