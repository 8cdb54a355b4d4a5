#!/usr/bin/env python3
"""What is left in the table when a wait gives up, or a holder ends, and the log is full or no majority of the disks answers. Nothing of it
stays unsaid. Once the table is carried over into a new folder, or the disks are back, what is left is released, and another host gets the lock.

    gives_up.py MG_LOCK DLM LIBRARY WORK

MG_LOCK, DLM and LIBRARY, libmidgegalena.so, are files, WORK an empty folder. Prints what was wrong, and how many checks there were."""
import os
import re
import signal
import subprocess
import sys

import heard  # noqa: F401
from checks import expect, finish, until

mg_lock, dlm, library, work = map(os.path.abspath, sys.argv[1:])
sys.path.insert(0, os.path.join(os.path.dirname(os.path.dirname(os.path.realpath(__file__))), "python"))
from midgegalena import Refused, Session  # noqa: E402

LOG_FULL = 9
OPERATOR, HOLDER = "13", "5"  # hosts


def told(process):
    """How a process of mg-lock ended, and what it said. One that hangs is ended."""
    try:
        err = process.communicate(timeout=600)[1]
    except subprocess.TimeoutExpired:
        process.kill()
        err = process.communicate()[1] + "(killed: it did not end)"
    return process.returncode, err.strip()


def do(*words):
    done = subprocess.run([dlm, *map(str, words)], capture_output=True, text=True)
    expect(done.returncode == 0, f"dlm {' '.join(map(str, words))}: {done.stderr}")
    return done.stdout


def begin(*words):
    return subprocess.Popen([mg_lock, *map(str, words)], stdout=subprocess.DEVNULL, stderr=subprocess.PIPE, text=True)


def run(*words):
    return told(begin(*words))


class Folder:
    """A folder of images in the life of a test, and the one that it is renewed to."""

    def __init__(self, name, slots=24):
        self.at = os.path.join(work, name)
        self.renewed = self.at + ".renewed"
        os.mkdir(self.at)
        do("format", self.at, 3, slots, 7)

    def locks(self, host):
        """The lines of the table that are of sessions of a host: of its client."""
        return re.findall(rf"^  \w+ \d+ {240 + host} .*", do("table", self.at, 15), re.M)

    def fill(self):
        do("fill", self.at, OPERATOR)

    def renew(self):
        os.mkdir(self.renewed)
        do("renew", self.at, OPERATOR, self.renewed, 3, 64, 8)
        self.at = self.renewed

    def lose_disks(self):
        """Empties two of the three images, so that each call on them fails, whoever has them open."""
        self.lost = {}
        for image in (os.path.join(self.at, f"disk{disk}.img") for disk in (1, 2)):
            with open(image, "rb") as file:
                self.lost[image] = file.read()
            os.truncate(image, 0)

    def bring_disks_back(self):
        for image, whole in self.lost.items():
            with open(image, "r+b") as file:
                file.write(whole)


def is_said(what, host, status, said, wanted):
    """That the lock on db may stay, and who releases it, is said: it is not the status of a wait that left nothing."""
    expect(status in wanted, f"{what}: status {status}, and its lock is in the table; it said: {said or 'nothing'}")
    expect("db" in said and "stay" in said and f"host {host}" in said,
           f"{what}: its lock is in the table, and this is all it said of it, with status {status}: {said or 'nothing'}")


def is_released(what, folder, host):
    """The next process of the host number releases what is left; in a new folder, where no lock has a sign of life, only with --all."""
    words = ("--recover", "--all", folder.at, host) if folder.at == folder.renewed else ("-n", folder.at, host, "other", "--", "true")
    status, said = run(*words)
    expect(status == 0, f"{what}: the next mg-lock under host {host}: status {status}, {said}")
    left = folder.locks(host)
    expect(left == [], f"{what}: the next mg-lock under host {host} has left this in the table: {left}")


def another_gets_it(what, folder):
    status, said = run("-w", "60", folder.at, 3, "db", "--", "true")
    expect(status == 0, f"{what}: another host does not get the lock: status {status}, {said}")


def waits(folder, *options):
    """A wait under host 1, for a lock that a client of another host has."""
    do("submit", folder.at, HOLDER, "enqueue", 7, 1, 9, "EX", "db")
    process = begin(*options, folder.at, 1, "db", "--", "true")
    expect(until(lambda: len(folder.locks(1)) == 1), "it waits")
    return process


def lets_go(folder):
    do("submit", folder.at, HOLDER, "release", 7, 2, 9)


def wait_gives_up(what, name, slots, breaks, mends, by_signal):
    # Where the machine has other work a short time may be up before that is done, and the wait leaves nothing.
    for seconds in (600,) if by_signal else (3, 15, 60):
        folder = Folder(f"{name}{seconds}", slots)
        process = waits(folder, "-w", seconds)
        breaks(folder)
        if by_signal:
            process.send_signal(signal.SIGTERM)
        status, said = told(process)
        mends(folder)
        if status != 1 or said or folder.locks(1):
            break
    if expect(len(folder.locks(1)) == 1, f"{what}: its lock cannot have gone: status {status}, {said}"):
        is_said(what, 1, status, said, (125, -signal.SIGTERM) if by_signal else (125,))
    is_released(what, folder, 1)
    lets_go(folder)
    another_gets_it(what, folder)


def waits_give_up():
    for by_signal, how in ((False, "a wait whose time is up"), (True, "a wait that SIGTERM ends")):
        wait_gives_up(f"{how}, full log", "full", 24, Folder.fill, Folder.renew, by_signal)
        wait_gives_up(f"{how}, lost disks", "lost", 64, Folder.lose_disks, Folder.bring_disks_back, by_signal)


def holder_ends():
    """What an mg-lock that held says as it ends over a full log comes true."""
    what, folder, done = "a holder that ends, full log", Folder("holder"), os.path.join(work, "done")
    process = begin(folder.at, 0, "db", "--", "sh", "-c", f"until [ -e {done} ]; do sleep 0.02; done")
    expect(until(lambda: len(folder.locks(0)) == 1), "it holds")
    folder.fill()
    with open(done, "w"):
        pass
    status, said = told(process)
    is_said(what, 0, status, said, (125,))
    folder.renew()
    is_released(what, folder, 0)
    another_gets_it(what, folder)


def begins(folder, host):
    """The status of mg_begin, and its sentence."""
    try:
        Session(folder.at, host, library=library).close()
    except Refused as why:
        return why.status, str(why)
    return 0, ""


ENDS = """
import os, sys
sys.path.insert(0, {examples!r}); sys.dont_write_bytecode = True
from midgegalena import Session
session = Session({folder!r}, 0, library={library!r})
with session.lock("db", timeout=0):
    session.close()
    os._exit(0)
"""


def program_ends():
    """A program ends without giving its lock back, and finds the log full when it begins again."""
    what, folder = "a program that ended without a give, full log", Folder("program")
    code = ENDS.format(examples=sys.path[0], folder=folder.at, library=library)
    expect(subprocess.run([sys.executable, "-c", code]).returncode == 0 and len(folder.locks(0)) == 1, f"{what}: its lock stays")
    folder.fill()
    status, said = begins(folder, 0)
    expect(status == LOG_FULL, f"{what}: mg_begin said {status} ({said or 'no more'}), and the table has {folder.locks(0)}")
    status, said = run("--recover", "--all", folder.at, 0)
    expect(status == 125 and "9 LogFull" in said,
           f"{what}: --recover --all ended with {status}, said {said or 'nothing'}, and the table has {folder.locks(0)}")
    folder.renew()
    is_released(what, folder, 0)
    status, said = begins(folder, 0)
    expect(status == 0, f"{what}: mg_begin in the new folder said {status} ({said})")
    another_gets_it(what, folder)


for test in (waits_give_up, holder_ends, program_ends):
    test()
finish("gives_up")
