#!/usr/bin/env python3
"""Many that wait under one host number end at once, by a signal or as their time is up. Each needs the number to leave the queue, and all leave it: who
comes next gets the lock. Where somebody has the number for longer than a wait's end may take, mg-lock tries once more. As many of them as a slow disk lets end in
that time are begun, and two at least. Where the machine has other work they may be later than that, so each test is tried up to three times.

    turns.py [--endless] MG_LOCK LIBRARY WORK..

MG_LOCK and LIBRARY, libmidgegalena.so, are files, each WORK an empty folder: as of a file system in memory, and of one on a disk. --endless: over logs without
an end. Prints what was wrong, and how late the latest was."""
import json
import os
import signal
import subprocess
import sys
import time

from checks import endless, expect, finish, lay_out, until

mg_lock, library, *works = map(os.path.abspath, sys.argv[1:])
sys.path.insert(0, os.path.join(os.path.dirname(os.path.dirname(os.path.realpath(__file__))), "python"))
from midgegalena import Refused, Session, format_images  # noqa: E402

TIMED_OUT, HOST_IN_USE = 75, 36
LATE, ENDS = 10, 3  # seconds
latest = 0.0
wrong = []  # of the try that is under way
# Where this runs in the background it may be ignored, and what is ignored stays so.
signal.signal(signal.SIGINT, signal.default_int_handler)


def see(well, what):
    if not well:
        wrong.append(what)


def tried(test, work, *words):
    for turn in range(3):
        wrong.clear()
        test(os.path.join(work, f"{turn}"), *words)
        if not wrong:
            break
    expect(not wrong, "\n".join(wrong))


def begin(*words):
    return subprocess.Popen([mg_lock, *map(str, words)], stdout=subprocess.DEVNULL, stderr=subprocess.PIPE, text=True)


def locks(folder, held):
    """How many locks are held, or wait."""
    status = json.loads(subprocess.run([mg_lock, "--status", "--json", folder], capture_output=True, text=True).stdout)
    return sum((lock["held"] is not None) == held for lock in status["locks"])


def waiting(folder):
    return locks(folder, False)


def new_folder(work, name):
    folder = os.path.join(work, name)
    os.makedirs(folder)
    if endless:
        lay_out(folder)
    else:
        format_images(folder, 3, 1024, 7, library=library)
    return folder


def held(folder):
    """A process of host 1 that has db until it is told to end."""
    holder = begin(folder, 1, "db", "--", "sleep", 1000)
    see(until(lambda: locks(folder, True) == 1), "it holds")
    return holder


def lets_go(what, folder, holder):
    """Nothing waits in the table, and another host gets the lock once the holder ends."""
    left = waiting(folder)
    see(left == 0, f"{what}: {left} locks wait in the table, and their processes have ended")
    holder.terminate()
    holder.wait()
    other = begin("-w", 60, folder, 2, "db", "--", "true")
    said = other.communicate()[1]
    see(other.returncode == 0, f"{what}: another host does not get the lock: status {other.returncode}, {said}")


def usual(folder):
    """How long one lasts that gets its lock at once."""
    begun = time.monotonic()
    begin(folder, 3, "free", "--", "true").communicate()
    return time.monotonic() - begun


def end(processes, wanted, what):
    """Waits for them, and sees how late the last of them is."""
    global latest
    begun = time.monotonic()
    said = [process.communicate()[1].strip() for process in processes]
    statuses = [process.returncode for process in processes]
    see(statuses == len(processes) * [wanted], f"{what}: they ended with {statuses}")
    see(not any(said), f"{what}: they said {[text for text in said if text]}")
    late = time.monotonic() - begun
    latest = max(latest, late)
    see(late < LATE, f"{what}: the last of them ended after {late:.1f} s")


def interrupted(work, many):
    what, folder = f"{many} are interrupted in {work}", new_folder(work, f"interrupted{many}")
    holder = held(folder)
    processes = [begin(folder, 0, "db", "--", "true") for _ in range(many)]
    see(until(lambda: waiting(folder) == many), f"{what}: they wait")
    for process in processes:
        process.send_signal(signal.SIGINT)
    end(processes, -signal.SIGINT, what)
    lets_go(what, folder, holder)


def out_of_time(work, many):
    what, folder, seconds = f"{many} are out of time in {work}", new_folder(work, f"timed{many}"), 1
    seconds += many * max(1 / 8, usual(folder))  # each has its turn meanwhile
    holder = held(folder)
    processes = [begin("-w", seconds, "-E", TIMED_OUT, folder, 0, "db", "--", "true") for _ in range(many)]
    time.sleep(seconds)
    end(processes, TIMED_OUT, what)
    lets_go(what, folder, holder)


def alone(folder):
    """A session that has host 0 for itself, as soon as who waits is in no talk."""
    while True:
        try:
            return Session(folder, 0, library=library)
        except Refused as why:
            if why.status != HOST_IN_USE:
                raise
        time.sleep(0.01)


def number_is_away(work):
    """A session has the number for longer than the end of a wait lasts."""
    what, folder = "the number is somebody's", new_folder(work, "away")
    holder = held(folder)
    process = begin(folder, 0, "db", "--", "true")
    see(until(lambda: waiting(folder) == 1), f"{what}: it waits")
    with alone(folder):
        process.send_signal(signal.SIGTERM)
        time.sleep(6)
        see(process.poll() is None, f"{what}: it ended, and its lock is in the table")
    end([process], -signal.SIGTERM, what)
    lets_go(what, folder, holder)


for work in works:
    lasts = usual(new_folder(work, "usual"))
    for many in (2, 4, 8, 16):
        if many == 2 or many * lasts < ENDS:
            tried(interrupted, work, many)
            tried(out_of_time, work, many)
tried(number_is_away, works[0])
finish("turns", f", the latest end {latest:.2f} s after it was wanted")
