#!/usr/bin/env python3
"""gate_times.py COMMAND..: runs a command, as `rt ci` at the top, and then prints when it told what of each crate.

The table has the crates in the order in which they were proved. A time is that of the command's own line, in minutes and seconds after it began:
that the crate is proved (or kept from an earlier run), that its tests are, that its edits are begun with, and the last of its edits. `rt` prints
several lines at once, so a time is the latest at which that can have been. The lines of `./dlm` count, too.

Below the table is the line for a page's table of times: the date, the command, how many processors it might use and how many others used (0.0:
a quiet machine), wall and processor time, the memory of the largest process, by how much the free disk fell at most, and the kit. The command's
processor time and its largest process are what the system tells whoever waited for it, and the others' is the machine's own sum: no process is
looked at. `taskset -c 0,1 tests/gate_times.py rt ci` measures two processors.

The command's last line is printed once more at the end, and its status is passed on.
"""
import datetime
import os
import re
import resource
import shlex
import subprocess
import sys
import tempfile
import threading
import time

TICKS = os.sysconf("SC_CLK_TCK")
TOP = os.path.dirname(os.path.dirname(os.path.realpath(__file__)))
# What a line tells of a crate: the column, and how it begins.
TOLD = (
    ("proved", r"rt: (\w+) (?:proved$|NOT PROVED|is kept: )"),
    ("proved", r"\w+: (\w+): .*\bproved(?: before)?, \d+ left$"),
    ("tests", r"rt: (\w+): its tests are (?:proved$|NOT PROVED)"),
    ("begun", r"rt: (\w+): trying its must-fail edits"),
    ("edits", r"rt: must-fail (\w+)/"),
)


def all_seconds():
    """Returns the processor seconds that the machine has worked."""
    with open("/proc/stat", encoding="utf-8") as file:
        user, nice, system = map(int, file.readline().split()[1:4])
    return (user + nice + system) / TICKS


def free_disk():
    """Returns the free bytes where repositories and temporary files are, the least of the two."""
    return min(it.f_bavail * it.f_frsize for it in map(os.statvfs, (TOP, tempfile.gettempdir())))


class Crate:
    """What was told of one crate: by column the time of its latest line, and what that said unless the crate is proved; how many edits were refused."""

    def __init__(self):
        self.times, self.said, self.refused = {}, {}, 0

    def hear(self, column, line, after):
        self.times[column] = after
        self.said[column] = "NOT PROVED, " if "NOT PROVED" in line else "kept, " if re.search("is kept: |proved before", line) else ""
        self.refused += ": refused" in line

    def at(self, column):
        """Returns what a column shows, nothing where nothing was told."""
        if column not in self.times:
            return ""
        minutes, seconds = divmod(int(self.times[column]), 60)
        return f"{self.said[column]}{minutes}:{seconds:02}"


class Told:
    """What a command has told so far, on both of its streams."""

    def __init__(self):
        self.began, self.crates, self.lock = time.monotonic(), {}, threading.Lock()

    def hear(self, line):
        for column, begins in TOLD:
            found = re.match(begins, line)
            if found:
                with self.lock:
                    self.crates.setdefault(found[1], Crate()).hear(column, line, time.monotonic() - self.began)
                return

    def follow(self, stream, out):
        """Passes lines on until there are no more, and returns the last."""
        last = ""
        for last in stream:
            self.hear(last.rstrip("\n"))
            print(last, end="", file=out, flush=True)
        return last

    def report(self):
        if not self.crates:
            return
        print("| crate | proved | its tests | edits begun with | edits refused (how many) |\n|---|---|---|---|---|")
        for name, crate in sorted(self.crates.items(), key=lambda it: it[1].times.get("proved", float("inf"))):
            edits = f"{crate.at('edits')} ({crate.refused})" if "edits" in crate.times else ""
            print(f"| `{name}` | {crate.at('proved')} | {crate.at('tests')} | {crate.at('begun')} | {edits} |")


class Disk(threading.Thread):
    """Looks how much of the disk is free, until it is told to stop."""

    def __init__(self):
        super().__init__(daemon=True)
        self.ended = threading.Event()
        self.free = self.least = free_disk()

    def run(self):
        while not self.ended.wait(1):
            self.least = min(self.least, free_disk())

    def used(self):
        self.ended.set()
        self.join()
        return self.free - self.least


def main():
    command = sys.argv[1:]
    if not command or command[0].startswith("-"):
        sys.exit("usage: gate_times.py COMMAND..")
    told, disk, before = Told(), Disk(), all_seconds()
    disk.start()
    pipes = {"stdin": subprocess.DEVNULL, "stdout": subprocess.PIPE, "stderr": subprocess.PIPE}
    with subprocess.Popen(command, cwd=TOP, text=True, errors="replace", **pipes) as gate:
        aside = threading.Thread(target=told.follow, args=(gate.stderr, sys.stderr))
        aside.start()
        last = told.follow(gate.stdout, sys.stdout)
        aside.join()
        status = gate.wait()
    used = resource.getrusage(resource.RUSAGE_CHILDREN)
    wall, processor = int(time.monotonic() - told.began), used.ru_utime + used.ru_stime
    others = (all_seconds() - before - processor) / max(wall, 1)
    fell = disk.used()
    print()
    told.report()
    kit = subprocess.run(["rt", "version"], stdout=subprocess.PIPE, text=True, check=False).stdout.strip()
    row = [
        f"{datetime.date.today()}",
        f"`{shlex.join(command)}`",
        f"{len(os.sched_getaffinity(0))} ({max(others, 0):.1f})",
        f"{wall // 60} min {wall % 60} s",
        f"{int(processor) // 60} min {int(processor) % 60} s",
        f"{used.ru_maxrss / 1e6:.1f} GB",
        f"{fell / 1e9:.1f} GB",
        f"{kit}",
    ]
    print("\n| date | command | processors (others) | wall | processor | largest process | disk | kit |\n|---|---|---|---|---|---|---|---|")
    print(f"| {' | '.join(row)} |\nstatus {status}\n")
    print(last, end="")
    return status


if __name__ == "__main__":
    sys.exit(main())
