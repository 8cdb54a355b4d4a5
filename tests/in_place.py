#!/usr/bin/env python3
"""in_place.py [--kills N] [--states N] [--places N] [--seed N]: folders of a log that ends, which `dlm migrate FOLDER` makes endless in place.
What it prints and tells, its status, the bytes of the images, and what a refused folder has left. The old log's locks are there afterwards, and
the log goes on beyond its old end.

Then `tests/shim/calls.c` writes down each write, each cut, each change of a length and each sync of one run. At places of that record (all where headers change, and so
many others; none given: 24) it builds what the end of the process leaves there, and what a loss of power may leave (so many states; none given: 3).
In each state no command opens less than the whole log, and a further run ends with the same images. Last it kills as many runs (none given: 12) at
random moments. It prints each difference, and how many there were. Where there is no C compiler the states are left out.

The images are worked out here byte by byte, by docs/FORMAT.md. The program has to be built: `./dlm` does so.
"""
import argparse
import fcntl
import os
import random
import re
import shutil
import subprocess
import sys
import tempfile
import time

import lock_log
import migrate
import power_loss
from folder_tests import PROGRAM, Differs, TESTS, prints, refused, run, run_tests, usage, wants

# The tests of migrate.py are its own.
TESTS.clear()
from folder_tests import test

SLOTS = 320
OLD_LENGTH = 8192 + 4096 * SLOTS
LENGTH = 2 * OLD_LENGTH + 4096
MADE = f"made endless: 3 disks, {SLOTS} slots an epoch\n"
FINISHED = "finished 3 disks\n"
# What is told of a folder of which not all images can be used.
NO_LOG = re.compile(r"dlm: (7 NoMajority|2[456] \w+ disk\d)\n")
NUMBERS = argparse.Namespace(kills=12, states=3, places=24, seed=random.randrange(1 << 30))


def make(folder, slots=SLOTS, disks=3):
    """A folder of a log that ends, with three commands in it."""
    os.mkdir(folder)
    prints(f"format {folder} {disks} {slots} 7", f"formatted {disks} disks, {slots} slots\n")
    prints(f"submit {folder} 0 enqueue 1 1 1 EX db", "ack 0 Granted\n")
    prints(f"submit {folder} 1 enqueue 2 1 2 PR db", "ack 1 Queued\n")
    prints(f"submit {folder} 2 enqueue 3 1 3 CR log", "ack 2 Granted\n")


def images(folder):
    """The images of a folder, by their names."""
    return {name: migrate.bytes_of(f"{folder}/{name}") for name in sorted(os.listdir(folder)) if name.endswith(".img")}


def endless(image):
    """What an image of a log that ends becomes."""
    made = bytearray(image.ljust(LENGTH, b"\0"))
    made[1] = 4
    return bytes(made)


def put(folder, found):
    shutil.rmtree(folder, ignore_errors=True)
    os.mkdir(folder)
    for name, data in found.items():
        with open(f"{folder}/{name}", "wb") as file:
            file.write(data)


@test
def made_in_place():
    make("d")
    before, table = images("d"), run("table d 9")
    wants("a length", len(before["disk0.img"]), OLD_LENGTH)
    # A recovery may write, so the images are those after it.
    before = images("d")
    prints("migrate d", MADE)
    wants("the images", images("d"), {name: endless(image) for name, image in before.items()})
    prints("migrate d", FINISHED)
    wants("the images again", images("d"), {name: endless(image) for name, image in before.items()})
    wants("the table", run("table d 9"), table)
    status, printed, told = run("check d")
    wants("a check", (status, printed.splitlines()[-1:], told), (0, ["sound"], ""))
    prints("submit d 1 release 1 2 1", "ack 3 Released\n")
    # A client's last request that is repeated has its reply.
    status, printed, told = run("submit d 1 release 1 2 1")
    wants("a repeated request", (status, printed.split()[2:], told), (0, ["Released"], ""))
    prints("migrate d", FINISHED)


@test
def goes_on_beyond_its_end():
    make("d")
    filled = run("fill d 1")
    wants("fill", filled, (0, f"filled {SLOTS - 3} slots\n", ""))
    refused("submit d 1 enqueue 4 1 4 EX x", "dlm: 9 LogFull\n")
    shown = run("table d 9")[1].split("\n", 1)[1]
    prints("migrate d", MADE)
    wants("the table", run("table d 9")[1].split("\n", 1)[1], shown)
    status, printed, told = run("submit d 1 enqueue 4 1 4 EX x")
    wants("the first one beyond", (status, told, printed.split()[2:]), (0, "", ["Granted"]))
    wants("its place", int(printed.split()[1]) > SLOTS, True)
    wants("the table then", run("table d 9")[1].split("\n", 1)[1], shown + "x\n  granted 4 4 1 EX\n")


@test
def one_disk_and_seven():
    for disks in (1, 7):
        make(f"d{disks}", disks=disks)
        before = images(f"d{disks}")
        prints(f"migrate d{disks}", f"made endless: {disks} disks, {SLOTS} slots an epoch\n")
        wants("the images", images(f"d{disks}"), {name: endless(image) for name, image in before.items()})


def stays(words, folder, told):
    """The words are refused, and the folder is as it was."""
    before = {name: migrate.bytes_of(f"{folder}/{name}") for name in sorted(os.listdir(folder))}
    refused(words, told)
    wants(f"the folder after `{words}`", {name: migrate.bytes_of(f"{folder}/{name}") for name in sorted(os.listdir(folder))}, before)


@test
def refusals():
    usage("migrate")
    usage("migrate d e")
    refused("migrate nothing", "dlm: 26 Unreadable disk0\n")
    os.mkdir("empty")
    stays("migrate empty", "empty", "dlm: 26 Unreadable disk0\n")
    make("short", slots=SLOTS - 1)
    stays("migrate short", "short", "dlm: 33 TooFewSlots\n")
    migrate.make_old("old", 3, SLOTS, [migrate.FIRST])
    stays("migrate old", "old", "dlm: 32 OldLayout disk0\n")
    make("d")
    whole = images("d")
    # A lost image would be left behind.
    for disk in range(3):
        put("e", {name: image for name, image in whole.items() if name != f"disk{disk}.img"})
        stays("migrate e", "e", f"dlm: 26 Unreadable disk{disk}\n")
    put("e", {**whole, "disk1.img": whole["disk1.img"][:-1]})
    stays("migrate e", "e", "dlm: 25 WrongHeader disk1\n")
    # One whose gate is closed is none, and one of another cluster is of another set.
    for at, byte, told in [(0, 0, "24 NotFormatted"), (15, 8, "25 WrongHeader")]:
        changed = bytearray(whole["disk2.img"])
        changed[at] = byte
        put("e", {**whole, "disk2.img": bytes(changed)})
        stays("migrate e", "e", f"dlm: {told} disk2\n")
    # So is one beside the others, as it would be looked at by whoever opens the folder.
    make("four", disks=4)
    put("e", {**whole, "disk3.img": images("four")["disk3.img"]})
    stays("migrate e", "e", "dlm: 25 WrongHeader disk3\n")


@test
def renewed_folder():
    make("d")
    with open("d/renewed", "w", encoding="utf-8") as file:
        file.write("8 3 320 /elsewhere\n")
    before = images("d")
    refused("migrate d", "dlm: 41 RenewedElsewhere\n")
    wants("the images", images("d"), before)


@test
def host_in_use():
    make("d")
    before = images("d")
    for host in (0, 7, 15):
        with open(f"d/host{host}.lock", "ab") as lock:
            fcntl.flock(lock, fcntl.LOCK_EX)
            refused("migrate d", f"dlm: 36 HostInUse host{host}\n")
    wants("the images", images("d"), before)
    prints("migrate d", MADE)
    with open("d/host3.lock", "ab") as lock:
        fcntl.flock(lock, fcntl.LOCK_EX)
        refused("migrate d", "dlm: 36 HostInUse host3\n")


@test
def full_disk():
    make("d")
    before = images("d")
    out = subprocess.run(["bash", "-c", "trap '' XFSZ; ulimit -f 2000; exec \"$0\" migrate d", PROGRAM], capture_output=True, check=False, text=True)
    wants("with files that may not grow", (out.returncode, out.stdout, out.stderr), (1, "", "dlm: 26 Unreadable disk0\n"))
    wants("the images", images("d"), before)
    os.mkdir("small")
    if subprocess.run(["mount", "-t", "tmpfs", "-o", f"size={3 * OLD_LENGTH + OLD_LENGTH * 3 // 2}", "small", "small"], capture_output=True, check=False).returncode:
        print("left out: in_place.py, a disk that is full at the second image: no root, or no tmpfs")
        return
    try:
        for name, image in before.items():
            with open(f"small/{name}", "wb") as file:
                file.write(image)
        refused("migrate small", "dlm: 26 Unreadable disk1\n")
        wants("the images", images("small"), before)
    finally:
        subprocess.run(["umount", "small"], check=True)


@test
def some_are_made():
    """What an earlier run has left: each image at a step of its own."""
    make("d")
    before = images("d")
    marked, turned = (bytearray(before["disk1.img"].ljust(LENGTH, b"\0")) for _ in range(2))
    marked[24], turned[1], turned[24] = 1, 77, 255
    ways = {"old": before["disk1.img"], "longer": before["disk1.img"].ljust(LENGTH - 4096, b"\0") + b"\xff" * 4096, "marked": bytes(marked), "turned": bytes(turned), "made": endless(before["disk1.img"])}
    for one, left in ways.items():
        put("e", {"disk0.img": endless(before["disk0.img"]), "disk1.img": left, "disk2.img": before["disk2.img"]})
        prints("migrate e", MADE)
        wants(f"the images after {one}", images("e"), {name: endless(image) for name, image in before.items()})
    # What stands in the second area of an image that is endless already stays.
    later = bytearray(endless(before["disk0.img"]))
    later[OLD_LENGTH + 8192 + 100] = 1
    put("e", {**{name: endless(image) for name, image in before.items()}, "disk0.img": bytes(later), "disk2.img": before["disk2.img"]})
    prints("migrate e", MADE)
    wants("the second area", images("e")["disk0.img"], bytes(later))


# WHAT ENDS AND LOSSES LEAVE

class Image:
    """An image as it lasts, and what was done to it since a sync: bytes at a place, or a new length."""

    def __init__(self, data):
        self.lasting, self.waiting = bytearray(data), []

    def after(self, choose):
        """The image with these of the changes that wait, each as it is chosen."""
        data = bytearray(self.lasting)
        for at, new in self.waiting:
            how = choose()
            if new is None:
                if how != "old":
                    data = data[:at] + bytes(max(0, at - len(data)))
            elif how != "old":
                data += bytes(max(0, at + len(new) - len(data)))
                old = bytes(data[at:at + len(new)])
                data[at:at + len(new)] = {"new": new, "front": new[:len(new) // 2] + old[len(new) // 2:], "ones": b"\xff" * len(new)}[how]
        return bytes(data)

    def sync(self):
        self.lasting, self.waiting = bytearray(self.after(lambda: "new")), []


def look_at(state, table, whole, told):
    """The state has the whole log or reads as none, and a further run ends it."""
    put("e", state)
    status, printed, said = run("table e 9")
    is_whole, is_none = (status, printed) == (0, table), status == 1 and NO_LOG.fullmatch(said)
    wants("the table", (status, printed, said) if not (is_whole or is_none and not told) else None, None)
    put("e", state)
    is_made = all(image == whole[name] for name, image in state.items())
    prints("migrate e", FINISHED if is_made else MADE)
    wants("the images in the end", images("e") == whole, True)


@test
def ends_and_losses():
    shim = lock_log.built_shim(os.getcwd())
    if not shim:
        print("left out: in_place.py, ends and losses of power: no C compiler (cc)")
        return
    rng = random.Random(NUMBERS.seed)
    make("d")
    table = run("table d 9")[1]
    before = images("d")
    whole = {name: endless(image) for name, image in before.items()}
    out = subprocess.run([PROGRAM, "migrate", "d"], env={**os.environ, "LD_PRELOAD": shim, "DLM_LOG": "log"}, capture_output=True, check=False, text=True)
    wants("the run", (out.returncode, out.stdout, out.stderr), (0, MADE, ""))
    found = power_loss.records("log")
    headers = [place for place, record in enumerate(found) if record[0] == "W" and record[3] < 1024]
    places = set(range(headers[0] - 4, len(found) + 1)) | set(rng.sample(range(len(found)), min(NUMBERS.places, len(found))))
    left = {name: Image(image) for name, image in before.items()}
    told = ""
    for place, record in enumerate([*found, None]):
        if place in places:
            for way in ["new", "old"] + [None] * NUMBERS.states:
                state = {name: image.after(lambda: way or rng.choice(["old", "new", "new", "front", "ones"])) for name, image in left.items()}
                try:
                    look_at(state, table, whole, told)
                except Differs as difference:
                    raise Differs(f"seed {NUMBERS.seed}, place {place} of {len(found)}, {way}: {difference}") from None
        if record:
            kind, image, _, at, given = record
            image = left.get(f"disk{image}.img")
            if kind == "P":
                told += given.decode()
            elif image and kind in "WT":
                image.waiting.append((at, given if kind == "W" else None))
            elif image and kind == "S":
                image.sync()
    wants("what was told", told, MADE)


@test
def killed():
    rng = random.Random(NUMBERS.seed)
    make("d")
    before = images("d")
    whole = {name: endless(image) for name, image in before.items()}
    began = time.monotonic()
    prints("migrate d", MADE)
    long = time.monotonic() - began
    for _ in range(NUMBERS.kills):
        put("e", before)
        for _ in range(3):
            process = subprocess.Popen([PROGRAM, "migrate", "e"], stdout=subprocess.DEVNULL, stderr=subprocess.DEVNULL)
            time.sleep(rng.random() * long)
            process.kill()
            process.wait()
        is_made = images("e") == whole
        prints("migrate e", FINISHED if is_made else MADE)
        wants("the images", images("e") == whole, True)


def main():
    words = argparse.ArgumentParser()
    for name, number in vars(NUMBERS).items():
        words.add_argument(f"--{name}", type=int, default=number)
    words.parse_args(namespace=NUMBERS)
    where = "/dev/shm" if os.access("/dev/shm", os.W_OK) else tempfile.gettempdir()
    return run_tests(__file__, room=lambda name: where)


if __name__ == "__main__":
    sys.exit(main())
