#!/usr/bin/env python3
"""Hosts at once on a log without an end: each host number is a loop of `dlm submit` processes, one after another, and all run at the same time. Some
of the processes are killed (`kill -9`) at random moments, and now and then a disk is away for a while. The loops rest after each burst, before an area is used
again. Then the images are read without the program. In whatever epoch, each acknowledged command stands at its place, no place has two, each reply is that of a
plain lock table after the commands before it, whatever was killed stands there as it was given or not at all, each epoch begins with what carries the plain table over, and
`dlm table` shows that table. So it does at the end without any minority of the disks.

    endless_long.py [--commands N] [--hosts N] [--disks N] [--slots N] [--kill PERCENT] [--where FOLDER] [--seed N] [--program PATH]
    endless_long.py --times [--commands N] [--locks N] [--disks N] [--where FOLDER] [--program PATH]

It ends once so many commands are acknowledged (none given: 800). `--slots` are those of an epoch, 320 if none are given. So 100,000 commands are some 300 epochs.
`--times` takes no part in that: one host submits so many commands to a folder that `dlm format` made, each by a process of its own. So many locks are carried over with
each epoch. It prints how long a process took in the first epoch and in the last whole one, by the place in the epoch."""

import argparse
import collections
import itertools
import os
import random
import re
import shutil
import statistics
import subprocess
import sys
import tempfile
import threading
import time

import endless_log
import lock_log

LOCKS_OF_A_LOOP = 4


def next_words(rng, loop, number, own):
    """What a loop submits next: by two clients of its own, of four locks of its own, on three names that all loops share. `own` has its locks, with their clients."""
    client = loop * 2 + rng.randrange(2)
    free = [lock for lock in range(1 + LOCKS_OF_A_LOOP * loop, 1 + LOCKS_OF_A_LOOP * (loop + 1)) if lock not in own]
    if own and (not free or rng.random() < 0.5):
        lock = rng.choice(sorted(own))
        word = rng.choice(["release", "release", "release", "cancel", "status", "convert"])
        words = [word, str(client if word == "status" else own[lock]), str(number), str(lock)]
        if word == "release":
            del own[lock]
        return words + [rng.choice(lock_log.MODES)] if word == "convert" else words
    lock = rng.choice(free)
    own[lock] = client
    words = ["enqueue", str(client), str(number), str(lock), rng.choice(lock_log.MODES), rng.choice(["db", "log", "x"])]
    return words + ["noqueue"] if rng.random() < 0.1 else words


class Loop:
    """A host number, and what it submits."""

    def __init__(self, run, at, host):
        self.run, self.at, self.host = run, at, host
        self.rng = random.Random(run.random.random())
        self.number, self.own, self.again = 0, {}, None

    def burst(self, processes):
        for _ in range(processes):
            words = self.again
            if not words:
                self.number += 1
                words = next_words(self.rng, self.at, self.number, self.own)
            self.again = words if self.submits(words) else None

    def submits(self, words):
        """One process. Whether the same words are to be submitted again is the result."""
        run, began, killed = self.run, time.monotonic(), False
        process = subprocess.Popen([run.given.program, "submit", run.folder_of(self.host), str(self.host), *words], stdin=subprocess.DEVNULL,
                                   stdout=subprocess.PIPE, stderr=subprocess.PIPE, text=True)
        if self.rng.random() * 100 < run.given.kill:
            try:
                process.wait(self.rng.random() * run.typical * 1.2)
            except subprocess.TimeoutExpired:
                process.kill()
                killed = True
        out, err = process.communicate()
        with run.lock:
            run.takes(time.monotonic() - began)
            return run.hears(process.returncode, out, err, words, self.host, killed, self.rng)


class Run:
    def __init__(self, given, folder):
        self.given, self.folder = given, folder
        self.random = random.Random(given.seed)
        self.loops = [Loop(self, at, host) for at, host in enumerate(self.random.sample(range(lock_log.HOSTS), given.hosts))]
        self.lock = threading.Lock()
        self.log = endless_log.Log(given.slots)
        self.acks = {}                      # by place: reply, words, host
        self.fresh = []                     # places that were acknowledged since the images were read
        self.given_words = set()            # host and words of each process
        self.tells = collections.Counter()
        self.wrong = []
        self.spans, self.typical = collections.deque(maxlen=40), 0.005
        self.away, self.absences, self.took = None, 0, 0
        self.make()

    def make(self):
        endless_log.make(self.folder, self.given.disks, self.given.slots)

    def folder_of(self, host):
        """Where a host finds the images."""
        return self.folder

    def images(self):
        """A folder whose images have what stands there."""
        return self.folder

    def takes(self, seconds):
        self.spans.append(seconds)
        self.typical = statistics.median(self.spans)

    def hears(self, status, out, err, words, host, killed, rng):
        """Counts how a process ended. Whether the same words are to be submitted again is the result."""
        self.given_words.add((host, *words))
        found = re.fullmatch(r"ack (\d+) (.*)\n", out)
        if found:
            place = int(found[1])
            if place in self.acks:
                self.wrong.append(f"place {place} was acknowledged for {self.acks[place]}, and for {host} {words}")
            self.acks[place] = found[2], words, host
            self.fresh.append(place)
            self.tells["acknowledged" + (", then killed" if status < 0 else "")] += 1
            return False
        if status == -9 and killed:
            self.tells["killed"] += 1
            return rng.random() < 0.5
        # While others come to an epoch, a row may not be shown in time: that disk fails for this attempt. So two may.
        refusal = re.fullmatch(r"dlm: (6 Outrun|7 NoMajority)( \(.*\))?\n", err)
        if refusal and (status, out) == (1, ""):
            self.tells[refusal[1]] += 1
            return True
        self.wrong.append(f"{host} {words}: status {status}, {out!r}, {err!r}")
        return False

    def bursts(self):
        began = time.monotonic()
        while len(self.acks) < self.given.commands and not self.wrong:
            # With what carries a table over these are fewer than an epoch has slots.
            threads = [threading.Thread(target=loop.burst, args=[self.given.slots // 2 // self.given.hosts]) for loop in self.loops]
            for each in threads:
                each.start()
            for each in threads:
                each.join()
            self.look()
            self.move_a_disk()
        self.bring_back()
        if not self.wrong:
            self.end()
        self.took = time.monotonic() - began

    def look(self):
        """While nobody works: the table is that of the plain one, and so is each reply."""
        status, out, err = self.ask("table")
        recovered = re.match(r"recovered (\d+)\n", out)
        if status or not recovered:
            self.wrong.append(f"dlm table: status {status}, {out!r}, {err!r}")
            return
        before = self.log.upto
        self.wrong += self.log.read(self.images(), int(recovered[1]))
        if lock_log.sorted_below(out.splitlines()) != [recovered[0].strip(), *self.log.table.text()]:
            self.wrong.append(f"dlm table: {out}\nplain table: {self.log.table.text()}")
        for place in self.fresh:
            reply, words, host = self.acks[place]
            if self.log.replies.get(place) != (host, words, reply):
                self.wrong.append(f"place {place} was acknowledged for {host} {words} with {reply}, and has {self.log.replies.get(place)}")
        self.fresh.clear()
        for place in range(before, self.log.upto):
            if place in self.log.replies and (self.log.replies[place][0], *self.log.replies[place][1]) not in self.given_words:
                self.wrong.append(f"place {place} has {self.log.replies[place]}, which nobody submitted")
        if self.random.random() < 0.5:
            # Where many were killed before their mark, each process after them would be slow.
            status, out, err = self.ask("mark")
            if status or not re.fullmatch(rf"recovered {self.log.upto}\nmarked \d+ slots\n", out):
                self.wrong.append(f"dlm mark: status {status}, {out!r}, {err!r}, {self.log.upto} places")

    def ask(self, task, folder=None):
        host = self.random.randrange(lock_log.HOSTS)
        told = subprocess.run([self.given.program, task, folder or self.folder_of(host), str(host)], capture_output=True, text=True)
        return told.returncode, told.stdout, told.stderr

    def move_a_disk(self):
        if self.away is not None:
            if self.random.random() < 0.4:
                self.bring_back()
        elif self.given.disks > 2 and self.random.random() < 0.3:
            self.away = self.random.randrange(self.given.disks)
            self.absences += 1
            self.move(f"disk{self.away}.img", "away")

    def bring_back(self):
        if self.away is not None:
            self.move("away", f"disk{self.away}.img")
            self.away = None

    def move(self, name, other):
        os.rename(f"{self.folder}/{name}", f"{self.folder}/{other}")

    def end(self):
        """The same table without any minority of the disks; and no block is damaged."""
        self.look()
        whole = self.ask("table")
        gone = (self.given.disks - 1) // 2
        for out in itertools.combinations(range(self.given.disks), gone) if gone else []:
            with tempfile.TemporaryDirectory(dir=self.given.where) as apart:
                for disk in set(range(self.given.disks)) - set(out):
                    shutil.copy(f"{self.folder}/disk{disk}.img", apart)
                told = self.ask("table", apart)
                if told != whole:
                    self.wrong.append(f"without the disks {out}: {told}, and with all {whole}")
        told = subprocess.run([self.given.program, "check", self.folder], capture_output=True, text=True)
        if told.returncode or not told.stdout.endswith("sound\n"):
            self.wrong.append(f"dlm check: {told.stdout!r} {told.stderr!r}")


def at_once(given):
    with tempfile.TemporaryDirectory(dir=given.where) as work:
        run = Run(given, os.path.join(work, "folder"))
        run.bursts()
    return tell(given, run)


def tell(given, run, ways=""):
    """Prints how a run ended. The status is the result."""
    for each in run.wrong[:6]:
        print("  " + each[:700])
    ends = ", ".join(f"{count} {name}" for name, count in sorted(run.tells.items()))
    late = len(run.log.replies) - len(run.acks)
    print(f"{ways}{given.hosts} hosts over {given.disks} disks, {given.slots} slots an epoch, seed {given.seed}: {ends}; {run.log.upto // given.slots + 1} epochs, up to"
          f" {run.log.most_carried} commands carried over; {late} places of clients by nobody who was acknowledged; a disk away {run.absences} times;"
          f" {run.took:.0f} s, {run.typical * 1000:.1f} ms a process; {len(run.wrong)} wrong")
    return 1 if run.wrong else 0


# TIMES

def spans_of(given, folder):
    """How long each process took that submitted a command, by its place."""
    spans = {}
    for number in range(1, given.commands + 1):
        words = ["enqueue", "1", str(number), str(number), "NL", "db"] if number <= given.locks else ["status", "1", str(number), "1"]
        began = time.perf_counter()
        told = subprocess.run([given.program, "submit", folder, "0", *words], stdin=subprocess.DEVNULL, capture_output=True, text=True)
        took = time.perf_counter() - began
        found = re.match(r"ack (\d+) ", told.stdout)
        if not found:
            sys.exit(f"{words}: status {told.returncode}, {told.stdout!r}, {told.stderr!r}")
        spans[int(found[1])] = took
    return spans


def times(given):
    with tempfile.TemporaryDirectory(dir=given.where) as folder:
        subprocess.run([given.program, "format", folder, str(given.disks), "7"], check=True, stdout=subprocess.DEVNULL)
        with open(f"{folder}/disk0.img", "rb") as file:
            slots = endless_log.slots_of(file.read(8))
        spans = spans_of(given, folder)
    last = max(spans) // slots - 1
    if last < 1:
        sys.exit(f"endless_long.py: for times it takes more than {2 * slots} commands")
    by_place = {epoch: [sorted(took for place, took in spans.items() if place // slots == epoch and place % slots * 8 // slots == eighth) for eighth in range(8)] for epoch in (0, last)}
    print("median of a process, ms, by eighths of an epoch")
    middles = {}
    for epoch, parts in by_place.items():
        middles[epoch] = [statistics.median(part or [float("nan")]) for part in parts]
        print(f"  epoch {epoch}: " + "  ".join(f"{middle * 1000:.1f}" for middle in middles[epoch]))
    print("  ratio: " + "  ".join(f"{new / old:.2f}" for old, new in zip(*middles.values())))
    first_of = {place // slots: took for place, took in sorted(spans.items(), reverse=True) if place >= slots}
    print(f"{len(spans)} commands, {len(first_of) + 1} epochs, {given.locks} locks: the first process of an epoch took {statistics.median(first_of.values()) * 1000:.1f} ms by the median,"
          f" {max(first_of.values()) * 1000:.1f} ms at most")
    return 0


def main():
    words = argparse.ArgumentParser()
    words.add_argument("--commands", type=int, default=800)
    words.add_argument("--hosts", type=int, default=4, choices=range(1, lock_log.HOSTS + 1))
    words.add_argument("--disks", type=int, default=3, choices=range(1, 8))
    words.add_argument("--slots", type=int, default=endless_log.FEWEST)
    words.add_argument("--kill", type=int, default=25)
    words.add_argument("--locks", type=int, default=0, choices=range(257))
    words.add_argument("--times", action="store_true")
    words.add_argument("--where", default="/dev/shm" if os.access("/dev/shm", os.W_OK) else tempfile.gettempdir())
    words.add_argument("--seed", type=int, default=random.randrange(1 << 30))
    words.add_argument("--program", default=lock_log.PROGRAM)
    given = words.parse_args()
    lock_log.see_that_it_is_built(given.program)
    return times(given) if given.times else at_once(given)


if __name__ == "__main__":
    sys.exit(main())
