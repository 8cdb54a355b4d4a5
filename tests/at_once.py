#!/usr/bin/env python3
"""Hosts at once on one folder: each host number is a loop of `dlm submit` processes, one after another, and all host numbers
run at the same time. Some of the processes are killed (`kill -9`) at random moments. At the end of each round the images are
read without the program: each acknowledged command stands at its slot, the slots are distinct, each reply is that of a plain
lock table after the commands before it, each killed or refused command stands there as it was given or not at all, every host's
`dlm table` shows that log, and so it does without any minority of the disks.

    at_once.py [--rounds N] [--seconds N] [--hosts N] [--disks N] [--slots N] [--kill PERCENT] [--where FOLDER] [--seed N]
               [--same] [--calls WORDS] [--devices PATH,PATH,..] [--program PATH]

A round ends after so many seconds, or once the log is full. The host numbers are any of the sixteen, as many as are asked for.
`--same` runs all loops under host number 0. One process at a time gets in; the others are refused, and nothing is lost.
`--calls "DLM_READ=128 DLM_GAP=50,2000"` puts tests/shim/calls.c before the C library, with these words for it; that needs `cc`.
`--devices` takes block devices, one a disk, in place of files, and writes over them; that needs root."""

import argparse
import collections
import itertools
import os
import random
import re
import shutil
import subprocess
import sys
import tempfile
import threading
import time

import lock_log


class Round:
    def __init__(self, given, folder, seed):
        self.given, self.folder = given, folder
        self.random = random.Random(seed)
        self.numbers = self.random.sample(range(lock_log.HOSTS), given.hosts)
        self.lock = threading.Lock()
        self.acks = []                      # (slot, reply, words, host)
        self.others = []                    # (host, words) of processes that were killed or refused
        self.tells = collections.Counter()
        self.wrong = []
        self.stop = False
        self.spans = []                     # how long each process took, in seconds
        self.at_work, self.most = 0, 0      # processes at once
        self.tries = []
        self.typical = 0.005               # how long a process took, lately

    def loop(self, loop):
        host = 0 if self.given.same else self.numbers[loop]
        rng = random.Random(self.random.random() + loop)
        number, own = 0, {}
        again, tries = None, 0
        while not self.stop:
            if again:
                words = again
            else:
                number += 1
                words, tries = lock_log.next_words(rng, loop, number, own), 0
            tries += 1
            command = [self.given.program, "submit", self.folder, str(host), *words]
            start = time.monotonic()
            process = subprocess.Popen(command, stdout=subprocess.PIPE, stderr=subprocess.PIPE, text=True, env=self.given.env)
            with self.lock:
                self.at_work += 1
                self.most = max(self.most, self.at_work)
            killed = False
            if rng.random() * 100 < self.given.kill:
                try:
                    process.wait(rng.random() * self.typical * 1.2)
                except subprocess.TimeoutExpired:
                    process.kill()
                    killed = True
            out, err = process.communicate()
            took = time.monotonic() - start
            with self.lock:
                self.at_work -= 1
                self.spans.append(took)
                if len(self.spans) % 20 == 0:
                    last = sorted(self.spans[-40:])
                    self.typical = last[len(last) // 2]
                again = self.told(process.returncode, out, err, words, host, killed, tries, rng)
                if err.startswith("dlm: 9 "):
                    self.stop = True

    def told(self, status, out, err, words, host, killed, tries, rng):
        """Counts how a process ended; gives the words where they are to be submitted again."""
        found = re.fullmatch(r"ack (\d+) (.*)\n", out)
        if found:
            self.acks.append((int(found[1]), found[2], words, host))
            self.tries.append(tries)
            self.tells["acknowledged" + (", then killed" if status < 0 else "")] += 1
            return None
        self.others.append((host, words))
        if status == -9 and killed:
            self.tells["killed"] += 1
            return words if rng.random() < 0.5 else None
        found = re.fullmatch(r"dlm: (6 Outrun|9 LogFull|36 HostInUse host0)\n", err)
        if found and status == 1 and not out and (self.given.same or "36" not in found[1]):
            self.tells[found[1]] += 1
            return None if found[1] == "9 LogFull" else words
        self.tells["other"] += 1
        self.wrong.append(f"{words}: status {status}, {out!r}, {err!r}")
        return None

    def run(self):
        loops = [threading.Thread(target=self.loop, args=[n]) for n in range(self.given.hosts)]
        for each in loops:
            each.start()
        deadline = time.monotonic() + self.given.seconds
        while any(each.is_alive() for each in loops):
            time.sleep(0.02)
            if time.monotonic() > deadline:
                self.stop = True
        for each in loops:
            each.join()
        self.check()

    def fail(self, text):
        self.wrong.append(text)

    def check(self):
        before, wrong = lock_log.log_of(self.folder)
        for each in wrong:
            self.fail("images as they were left: " + each)
        tables = [self.table(self.folder, host) for host in range(lock_log.HOSTS)]
        if len(set(tables)) != 1:
            self.fail("tables differ: " + repr(tables))
        log, wrong = lock_log.log_of(self.folder)
        for each in wrong:
            self.fail("images after the tables: " + each)
        if log[:len(before)] != before:
            self.fail("what is read of the log has changed")
        spelled = [lock_log.words_of(command) for command in log]
        table, replies = lock_log.Table(), []
        for host, words in spelled:
            replies.append(table.apply(host, words))
        want = [f"recovered {len(log)}", *table.text()]
        got = lock_log.sorted_below(tables[0].splitlines())
        if got != want:
            self.fail(f"dlm table: {got}\nplain table: {want}")
        slots = collections.Counter(slot for slot, *_ in self.acks)
        for slot, count in slots.items():
            if count > 1:
                self.fail(f"slot {slot} was acknowledged {count} times: " + repr([ack for ack in self.acks if ack[0] == slot]))
        for slot, reply, words, host in self.acks:
            if slot >= len(log):
                self.fail(f"slot {slot} was acknowledged for {words}, and the log has {len(log)}")
            elif spelled[slot] != (host, words):
                self.fail(f"slot {slot} was acknowledged for {host} {words}, and has {spelled[slot]}")
            elif replies[slot] != reply:
                self.fail(f"slot {slot}, {words}: replied {reply}, the plain table {replies[slot]}")
        given = {(host, *words) for host, words in self.others} | {(ack[3], *ack[2]) for ack in self.acks}
        for slot, (host, words) in enumerate(spelled):
            if (host, *words) not in given:
                self.fail(f"slot {slot} has {host} {words}, which nobody submitted")
        self.late = sum(1 for slot in range(len(log)) if slot not in slots)
        self.length = len(log)
        # Without any minority of the disks.
        gone = (self.given.disks - 1) // 2
        for out in itertools.combinations(range(self.given.disks), gone) if gone else []:
            with tempfile.TemporaryDirectory(dir=self.given.where) as apart:
                for disk in set(range(self.given.disks)) - set(out):
                    copy = f"{apart}/disk{disk}.img"
                    shutil.copy(f"{self.folder}/disk{disk}.img", copy)
                    os.truncate(copy, lock_log.length(self.given.slots))
                text = self.table(apart, self.random.randrange(8))
                if text != tables[0]:
                    self.fail(f"without the disks {out}: {text}")

    def table(self, folder, host):
        told = subprocess.run([self.given.program, "table", folder, str(host)], capture_output=True, text=True, env=self.given.env)
        return told.stdout if told.returncode == 0 else f"status {told.returncode}: {told.stderr}"


def make_folder(given, folder):
    """A folder with fresh images: files, or links to devices whose headers are put to zeros."""
    os.mkdir(folder)
    for disk, device in enumerate(given.devices):
        with open(device, "r+b") as file:
            file.write(bytes(1024))
        os.symlink(device, f"{folder}/disk{disk}.img")
    subprocess.run([given.program, "format", folder, str(given.disks), str(given.slots), "7"], check=True, stdout=subprocess.DEVNULL)


def main():
    words = argparse.ArgumentParser()
    words.add_argument("--rounds", type=int, default=3)
    words.add_argument("--seconds", type=float, default=60)
    words.add_argument("--hosts", type=int, default=8, choices=range(1, lock_log.HOSTS + 1))
    words.add_argument("--disks", type=int, default=3, choices=range(1, 8))
    words.add_argument("--slots", type=int, default=100)
    words.add_argument("--kill", type=int, default=25)
    words.add_argument("--where", default="/dev/shm" if os.access("/dev/shm", os.W_OK) else tempfile.gettempdir())
    words.add_argument("--seed", type=int, default=random.randrange(1 << 30))
    words.add_argument("--same", action="store_true")
    words.add_argument("--calls", default="")
    words.add_argument("--devices", type=lambda text: text.split(","), default=[])
    words.add_argument("--program", default=lock_log.PROGRAM)
    given = words.parse_args()
    if given.devices:
        given.disks = len(given.devices)
    lock_log.see_that_it_is_built(given.program)
    given.env = dict(os.environ)
    with tempfile.TemporaryDirectory() as built:
        if given.calls:
            shim = lock_log.built_shim(built)
            if not shim:
                print("left out: at_once.py, calls that are slowed down or parted: no C compiler (cc)")
                return 0
            given.env |= {"LD_PRELOAD": shim} | dict(word.split("=", 1) for word in given.calls.split())
        return run_rounds(given)


def run_rounds(given):
    total, spans, tries, length, late, most, bad = collections.Counter(), [], [], 0, 0, 0, 0
    for number in range(given.rounds):
        with tempfile.TemporaryDirectory(dir=given.where) as work:
            folder = os.path.join(work, "folder")
            make_folder(given, folder)
            one = Round(given, folder, given.seed + number)
            one.run()
            total += one.tells
            spans += one.spans
            tries += one.tries
            length += one.length
            late += one.late
            most = max(most, one.most)
            bad += bool(one.wrong)
            if one.wrong:
                print(f"round {number}, seed {given.seed + number}: {len(one.wrong)} wrong")
                for each in one.wrong[:6]:
                    print("  " + each[:600])
    spans.sort()
    tries.sort()
    ends = ", ".join(f"{count} {name}" for name, count in sorted(total.items()))
    print(f"{given.rounds} rounds of {given.hosts} hosts over {given.disks} disks: {sum(total.values())} processes, up to {most} at once: {ends};"
          f" {length} slots taken, {late} of them by nobody who was acknowledged; {bad} rounds with something wrong")
    if spans and tries:
        print(f"a process took {spans[len(spans) // 2] * 1000:.1f} ms by the median, {spans[-1] * 1000:.1f} ms at most;"
              f" an acknowledgement took {sum(tries) / len(tries):.2f} processes by the mean, {tries[-1]} at most")
    return 1 if bad else 0


sys.exit(main())
