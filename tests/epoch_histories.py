#!/usr/bin/env python3
"""Histories of hosts over all epochs, in process, by the proved program: `dlm run` of scripts that a seed makes, over logs of few slots an epoch. 2 to 16 hosts
go on in random order; calls fail, writes are torn, hosts stop at any call or sleep for epochs, disks crash, are away for thousands of calls and come back, are
lost for good, and all lose power. A plain lock table over one list of commands judges what each host answers and shows. Then some printed texts are made wrong,
and the judge has to see that. In the sweeps each call of a short history is once the last one before a stop. By hand; no part of the gate.

    epoch_histories.py [--program PATH] [--epochs N] [--seconds N] [--seed N] [--jobs N] [--events N] [--sweeps N] [--keep FOLDER]

Without numbers: histories of 300,000 events from seed 1 on, until 10,000 epochs are full, but for 1,800 seconds at most; and 20 sweeps."""

import argparse
import bisect
import collections
import concurrent.futures
import copy
import os
import random
import re
import subprocess
import sys
import tempfile
import time

import lock_log

LATEST = 10 ** 9
LAST_HOST = 15
# A judge that has to follow more tables than this gives up, and says so.
MOST_TABLES = 20_000


# The value of a name, which the plain table does not know: a purge makes it invalid.
VALUE = re.compile(r"(?<=\bGranted)\([0-9a-f]{32}(?: invalid)?\)|, value=[0-9a-f]{32}(?: invalid)?(?=\))| [0-9a-f]{32}(?: invalid)?$", re.MULTILINE)


class Wrong(Exception):
    pass


class TooMany(Exception):
    """Too little was acknowledged to tell which commands are in the log."""


# A HISTORY

class History:
    """A script that a seed makes."""

    def __init__(self, seed, most):
        self.rng = rng = random.Random(seed)
        self.disks = rng.choice([1, 2, 3, 3, 3, 3, 4, 5, 5, 7])
        self.hosts = rng.randrange(6, LAST_HOST + 2) if rng.random() < 0.2 else rng.randrange(2, 6)
        self.clients = rng.randrange(2, 4)
        self.slots = rng.randrange(8, 15)
        self.fails, self.stops = rng.choice([0, 0.02, 0.1]), rng.choice([0.01, 0.03, 0.12])
        self.crashes, self.aways = rng.choice([0, 0.02, 0.08]), rng.choice([0, 0.004, 0.012])
        self.longest = rng.choice([(8, 60, 400), (60, 400), (1, 8, 60), (200, 1000)])
        if self.longest[-1] < 100:
            self.stops /= 6                                             # some submissions have to come to their end
        self.marks = rng.choice([0, 0.1, 0.3])
        self.lines, self.events, self.requests = [f"cluster {self.disks} {self.slots} epochs"], 0, 0
        self.away, self.back, self.gone = set(), 0, set()
        self.sleeps = [0] * self.hosts
        self.last = {}
        self.counts = collections.Counter()
        while self.events < most:
            self.turn()
        self.end()
        self.text = "\n".join(self.lines) + "\n"

    def add(self, line, events=1):
        self.lines.append(line)
        self.events += events

    def bytes(self):
        """What a write or a crash leaves: zeros, an open gate, or anything."""
        return "".join(self.rng.choice(["00", "a5", f"{self.rng.randrange(256):02x}"]) for _ in range(self.rng.randrange(1, 6)))

    def turn(self):
        """A host has its turn: it begins a task if it is idle, and makes some calls."""
        rng = self.rng
        awake = [host for host in range(self.hosts) if self.sleeps[host] <= self.events]
        host = rng.choice(awake or range(self.hosts))
        for _ in range(rng.choice([1, 1, 2, 5])):
            self.begin(host)
            self.steps(host, 1 + rng.randrange(rng.choice(self.longest)))
            if rng.random() < self.fails:
                self.counts["calls that fail"] += 1
                self.add(f"fail {host} {self.bytes()}")
            if rng.random() < self.stops:
                self.stop(host)
            elif rng.random() < 0.4:
                self.add(f"show {host}", 0)
        self.happens()

    def begin(self, host):
        rng, tries, kind = self.rng, self.rng.randrange(1, 9), self.rng.random()
        if kind < self.marks:
            self.add(f"show {host}", 0)
            self.add(f"mark {host} {rng.randrange(self.slots)}")
        elif kind < 0.75:
            if host not in self.last or rng.random() < 0.85:
                self.last[host] = self.command(host)
            self.add(f"submit {host} {tries} {self.last[host]}")
        elif kind < 0.9:
            self.add(f"recover {host} {tries}")
        else:
            self.add(f"{rng.choice(['look', 'beat'])} {host}")

    def command(self, host):
        rng = self.rng
        self.requests += 1
        head = f"{(host + rng.randrange(2)) % self.clients} {self.requests}"
        lock, mode = rng.randrange(1, 4), rng.choice(["EX", "EX", "PR", "CW", "NL"])
        kind = rng.choice(["enqueue"] * 3 + ["release"] * 2 + ["convert", "cancel", "status"] + ["purge"] * (rng.random() < 0.3))
        if kind == "purge":
            return f"purge {head} {rng.randrange(self.hosts)}"
        words = f"{kind} {head} {lock}" + (f" {mode}" if kind in ("enqueue", "convert") else "") + (rng.choice([" a", " b"]) if kind == "enqueue" else "")
        return words + rng.choice(["", " noqueue"]) if kind in ("enqueue", "convert") else words

    def steps(self, host, times):
        """Calls of a host. A disk that is away loses power before each of them, so that none but an attach succeeds there."""
        if not self.away:
            self.add(f"step {host} {times}", times)
            return
        for _ in range(times):
            for disk in self.away:
                self.add(f"crash {disk} 00")
            self.add(f"step {host}")
        if self.back <= self.events:
            self.away = set()

    def stop(self, host):
        if self.rng.random() < 0.5:
            self.counts["stops within a call"] += 1
            self.add(f"tear {host} {self.bytes()}")
        self.counts["stops"] += 1
        self.add(f"stop {host}")

    def happens(self):
        """What befalls disks, and hosts that sleep."""
        rng = self.rng
        if rng.random() < self.crashes:
            self.counts["crashes"] += 1
            self.add(f"crash {rng.randrange(self.disks)} {self.bytes()}")
        if rng.random() < 0.004:
            self.counts["losses of power"] += 1
            for disk in range(self.disks):
                self.add(f"crash {disk} {self.bytes()}")
            for host in range(self.hosts):
                self.add(f"stop {host}")
        minority = (self.disks - 1) // 2
        if not self.away and minority and rng.random() < self.aways:
            self.away = set(rng.sample(range(self.disks), rng.randrange(1, minority + 1))) - self.gone
            self.back = self.events + rng.choice([500, 3000, 12_000])
            self.counts["times that disks are away"] += bool(self.away)
        if len(self.gone) < minority and rng.random() < 0.0002:
            disk = rng.randrange(self.disks)
            self.gone.add(disk)
            self.counts["disks lost for good"] += 1
            self.add(f"gone {disk}")
        if rng.random() < 0.02:
            self.sleeps[rng.randrange(self.hosts)] = self.events + rng.choice([500, 5000, 50_000])

    def end(self):
        """All hosts stop, and one recovers."""
        self.away = set()
        for host in range(self.hosts):
            self.add(f"stop {host}")
        self.add("recover 0 255")
        self.steps(0, 10_000)
        self.add("show 0", 0)


# WHAT WAS PRINTED

Ack = collections.namedtuple("Ack", "place event begun host words reply")
Told = collections.namedtuple("Told", "length event begun kind")        # so many places are learned, as a task tells that began then
Shown = collections.namedtuple("Shown", "length line text")             # the table after so many places, as it stands below this line


class Story:
    """What a run tells: acknowledgements, lengths, tables that are shown, and each command with when it was submitted first and given up last."""

    def __init__(self, script, printed):
        self.lines, self.at = VALUE.sub("", printed).splitlines(), 0
        self.acks, self.told, self.shown, self.refused, self.asleep = {}, [], [], 0, 0
        self.top, self.recovered = 0, []                                # the longest length so far; each recovery's line, and the top when it began
        self.submitted = {}                                             # by host and words: [first event, last event at which it ended, times, places]
        self.tasks, self.lengths = [None] * (LAST_HOST + 1), [None] * (LAST_HOST + 1)
        self.inside, self.been = [None] * (LAST_HOST + 1), [0] * (LAST_HOST + 1)
        number = 0
        (_, disks, slots, _), *rest = (line.split() for line in script.splitlines())
        self.disks, self.slots = int(disks), int(slots)
        for words in rest:
            times = int(words[2]) if words[0] == "step" and len(words) == 3 else 1
            number += self.take(number, times, words)
        if self.next():
            raise Wrong(f"left over: {self.next()}")
        for host in range(LAST_HOST + 1):
            self.give_up(host, LATEST)

    def next(self):
        """The next line that was printed, or nothing."""
        return self.lines[self.at] if self.at < len(self.lines) else ""

    def take(self, number, times, words):
        """An event, or several of one host. Tells how many."""
        kind, host = words[0], int(words[1])
        if kind in ("crash", "gone"):
            return 1
        if kind == "show":
            self.show(host)
            return 0
        if kind == "stop":
            self.give_up(host, number)
            self.lengths[host] = self.inside[host] = None
            self.been[host] = 0
        elif kind in ("submit", "recover", "look", "beat", "mark") and not self.tasks[host]:
            if kind != "mark" or self.inside[host] is not None:
                self.tasks[host] = kind, number, tuple(words[3:]) if kind == "submit" else self.top
                self.lengths[host] = None
            if kind == "submit":
                self.submitted.setdefault((host, tuple(words[3:])), [number, 0, 0, []])[2] += 1
        while (found := re.match(r"(\d+) h(\d+) (.*)", self.next())) and int(found[1]) < number + times:
            if int(found[1]) < number or int(found[2]) != host or not self.tasks[host]:
                raise Wrong(f"at event {number} of host {host}: {self.next()}")
            self.at += 1
            self.hear(host, int(found[1]), found[3])
        return times

    def give_up(self, host, event):
        task, self.tasks[host] = self.tasks[host], None
        if task and task[0] == "submit":
            given = self.submitted[host, task[2]]
            given[1] = max(given[1], event)

    def show(self, host):
        found, begin = re.fullmatch(rf"h{host} in (?:epoch (\d+)|no epoch)", self.next()), self.at + 1
        if not found:
            raise Wrong(f"host {host} is not shown")
        self.at = begin
        while self.next() and not re.match(r"\d+ h\d+ |h\d+ in ", self.next()):
            self.at += 1
        self.inside[host] = found[1] and int(found[1])
        length = self.lengths[host]
        if length is not None:
            # A look may end in the epoch before, and an acknowledgement or look may have filled the epoch.
            if self.inside[host] not in (length // self.slots, (length - 1) // self.slots):
                raise Wrong(f"host {host} has learned {length}, and is in {found[0]}")
            self.shown.append(Shown(length, begin, tuple(lock_log.sorted_below(self.lines[begin:self.at]))))

    def hear(self, host, event, text):
        """A task ended."""
        kind, begun, words = self.tasks[host]
        word, *rest = text.split(maxsplit=2)
        if word == "refused":
            if not re.fullmatch(r"(6 Outrun|7 NoMajority|30 NotLearned)", " ".join(rest)):
                raise Wrong(f"event {event}: {text}")
            self.refused += 1
            self.give_up(host, event)
        elif (kind, word) == ("submit", "ack"):
            place, given = int(rest[0]), self.submitted[host, words]
            if self.acks.setdefault(place, ack := Ack(place, event, given[0], host, words, rest[1]))[3:] != ack[3:]:
                raise Wrong(f"event {event}: place {place} is another's")
            given[1] = max(given[1], event)
            given[3].append(place)
            self.tell(host, place + 1, event, begun, "submit")
        elif (kind, word) in (("recover", "recovered"), ("look", "looked")):
            if kind == "recover":
                self.recovered.append((self.at - 1, words))
            self.tell(host, int(rest[0]), event, begun, kind)
        elif (kind, word) == ("mark", "marked"):
            if int(rest[0]) > self.disks:
                raise Wrong(f"event {event}: there are {self.disks} disks")
        elif (kind, word) == ("beat", "beaten"):
            if int(rest[0]) > LAST_HOST:
                raise Wrong(f"event {event}: no host {rest[0]}")
        else:
            raise Wrong(f"event {event}: host {host} was asked to {kind}: {text}")
        self.tasks[host] = self.inside[host] = None

    def tell(self, host, length, event, begun, kind):
        self.told.append(Told(length, event, begun, kind))
        self.lengths[host], self.top = length, max(self.top, length)
        epoch = length // self.slots
        self.asleep = max(self.asleep, epoch - self.been[host] if self.been[host] else 0)
        self.been[host] = epoch


# ONE LIST OF COMMANDS

class State:
    """A lock table after a list of commands; the first place of this epoch that is a client's; and when the youngest of the commands was submitted."""

    def __init__(self, table, first, youngest):
        self.table, self.first, self.youngest = table, first, youngest

    def key(self):
        return self.first, tuple(map(tuple, self.table.locks)), tuple(sorted(self.table.clients.items()))

    def after(self, host, words, begun):
        """What it is after this command, and the reply."""
        table = lock_log.Table()
        table.locks, table.clients = [list(lock) for lock in self.table.locks], dict(self.table.clients)
        reply = table.apply(host, words)
        return State(table, self.first, max(begun, self.youngest)), reply


class Judge:
    """Goes along the places of all epochs with each lock table that there may be, by all that was told. Where a command was never acknowledged, all that may
    stand at that place are tried."""

    def __init__(self, story):
        self.story, self.slots, self.most = story, story.slots, 1
        self.end = max((told.length for told in story.told), default=0)
        self.in_time()
        self.by_client = collections.defaultdict(list)
        for (host, words), given in story.submitted.items():
            self.by_client[int(words[1])].append((int(words[2]), host, words, given))
        for commands in self.by_client.values():
            commands.sort(key=lambda command: command[:2])
        self.numbers = {client: [command[0] for command in commands] for client, commands in self.by_client.items()}
        self.lengths = {told.length: told.kind for told in story.told}
        self.lengths.update({told.length: "recover" for told in story.told if told.kind == "recover"})
        self.pictures = collections.defaultdict(set)
        for length, _, text in story.shown:
            self.pictures[length].add(text)

    def in_time(self):
        """Whatever was told is there for all that begins later. And when was a place surely taken, and which place was at least free?"""
        told = sorted(self.story.told, key=lambda told: told.event)
        events, tops = [], []
        for each in told:
            events.append(each.event)
            tops.append(max(each.length, tops[-1] if tops else 0))
        for begun, least, what in [(ack.begun, ack.place, "acknowledged at") for ack in self.story.acks.values()] + \
                                  [(told.begun, told.length, "recovered") for told in told if told.kind == "recover"]:
            at = bisect.bisect_left(events, begun)
            if at and least < tops[at - 1]:
                raise Wrong(f"begun at event {begun}, when {tops[at - 1]} places were known, and {what} {least}")
        self.taken = [LATEST] * (self.end + 1)
        for each in told:
            self.taken[each.length - 1] = min(self.taken[each.length - 1], each.event)
        for place in range(self.end - 2, -1, -1):
            self.taken[place] = min(self.taken[place], self.taken[place + 1])
        acks = sorted(self.story.acks.values(), key=lambda ack: ack.begun)
        self.begun, self.free = [ack.begun for ack in acks], [LATEST] * (len(acks) + 1)
        for at in range(len(acks) - 1, -1, -1):
            self.free[at] = min(self.free[at + 1], acks[at].place)

    def judge(self):
        states = [State(lock_log.Table(), 0, 0)]
        for place in range(self.end):
            if place % self.slots == 0 and place:
                for state in states:
                    state.first = place + len(state.table.locks) + len(state.table.clients)
            states = self.seen(place, states)
            states = self.step(place, states)
            # Of two with one table the one of older commands leaves more open.
            states.sort(key=lambda state: -state.youngest)
            states = list({state.key(): state for state in states}.values())
            self.most = max(self.most, len(states))
            if not states:
                raise Wrong(f"place {place}: no list of commands has what was told of it")
            if len(states) > MOST_TABLES:
                raise TooMany
        if not self.seen(self.end, states):
            raise Wrong(f"place {self.end}: no list of commands has the tables that were shown at the end")

    def seen(self, length, states):
        """Those tables of which hosts may have told after so many places."""
        if length in self.lengths:
            # A full epoch ends where the next begins. Else a host knows the table only behind all that carries it over.
            begins = length % self.slots == 0
            if begins and length and self.lengths[length] == "recover":
                raise Wrong(f"recovered {length}, and no more of that epoch")
            states = [state for state in states if begins or length >= state.first]
        for text in self.pictures.get(length, ()):
            states = [state for state in states if tuple(state.table.text()) == text]
        return states

    def step(self, place, states):
        ack, after = self.story.acks.get(place), []
        for state in states:
            if place < state.first:
                after += [] if ack else [state]
            elif ack:
                then, reply = state.after(ack.host, ack.words, ack.begun)
                after += [then] if reply == ack.reply else []
            else:
                after += self.unseen(place, state)
        return after

    def unseen(self, place, state):
        """What may come of a command that nobody was told of: one that changes something, or one that comes too late."""
        after, late = [], False
        for client, commands in self.by_client.items():
            last = state.table.clients.get(client, (0, None))[0]
            at = bisect.bisect_right(self.numbers[client], last)
            late = late or at > 0
            for _, host, words, given in commands[at:]:
                if state.youngest < given[1] and self.may_stand(place, given):
                    after.append(state.after(host, words, given[0])[0])
        return after + [state] if late else after

    def may_stand(self, place, given):
        """Whether a command may stand there: it was submitted before the place was surely taken, and not given up before another was submitted that stands there
        or before."""
        first, last, times, places = given
        if first >= self.taken[place]:
            return False
        if places:
            return place < min(places) and (times > 1 or place // self.slots < min(places) // self.slots)
        return place < self.free[bisect.bisect_right(self.begun, last)]


# RUNS

def printed_by(program, word, text):
    with tempfile.NamedTemporaryFile("w", suffix=".dlm") as file:
        file.write(text)
        file.flush()
        run = subprocess.run([program, word, file.name], stdin=subprocess.DEVNULL, capture_output=True, text=True)
    if (run.returncode, run.stderr) != (0, ""):
        raise Wrong(f"status {run.returncode}: {run.stdout[:200]}{run.stderr}")
    return run.stdout


def judged(script, printed):
    """What is wrong, or None; and the judge."""
    try:
        judge = Judge(Story(script, printed))
        judge.judge()
    except Wrong as wrong:
        return str(wrong), None
    except TooMany:
        return None, None
    return None, judge


def ran(program, seed, events, keep):
    """Runs a history. Tells what was counted, what is wrong, and how many texts that were made wrong were seen, of how many."""
    history = History(seed, events)
    counts = collections.Counter(history.counts)
    printed = ""
    try:
        printed = printed_by(program, "run", history.text)
        wrong, judge = judged(history.text, printed)
    except Wrong as failed:
        wrong, judge = str(failed), None
    if keep or wrong:
        for end, text in (("dlm", history.text), ("out", printed)):
            with open(os.path.join(keep or tempfile.gettempdir(), f"history{seed}.{end}"), "w") as file:
                file.write(text)
    if judge:
        story = judge.story
        counts.update({"histories": 1, "epochs": judge.end // story.slots, "events": history.events, "acknowledged": len(story.acks), "refused": story.refused,
                       "recovered": sum(told.kind == "recover" for told in story.told), "tables compared": len(story.shown)})
        seen, made = spoiled(history, story, printed) if seed % 8 == 1 else (0, 0)
        line = f"seed {seed}: {history.hosts} hosts, {history.disks} disks, {history.slots} slots: {judge.end // story.slots} epochs, {len(story.acks)} acknowledged; " \
               f"asleep for {story.asleep} epochs at most; {judge.most} tables at once at most"
        return counts, None, seen, made, story.asleep, line
    if not wrong:
        return {"histories left out": 1}, None, 0, 0, 0, f"seed {seed}: left out, since too little was acknowledged"
    return {}, f"seed {seed}: {wrong}", 0, 0, 0, ""


SPOILS = ("a reply", "a place", "a table", "a recovery")


def spoiled(history, story, printed):
    """Makes printed texts wrong, one line in each, and counts those that the judge sees."""
    rng, lines, seen, made = random.Random(history.slots), printed.splitlines(), 0, 0
    where = {"a reply": [k for k, line in enumerate(lines) if re.search(r" ack \d+ (Granted|Released|Queued)$", line)],
             "a place": [k for k, line in enumerate(lines) if " ack " in line],
             "a table": [shown.line + 1 for shown in story.shown if lines[shown.line + 1:] and lines[shown.line + 1].startswith("  granted")],
             "a recovery": [line for line, top in story.recovered if top]}
    tops = dict(story.recovered)
    for what in SPOILS:
        for at in rng.sample(where[what], min(3, len(where[what]))):
            text, line = list(lines), lines[at]
            if what == "a reply":
                text[at] = re.sub(r"\S+$", "Cancelled", line)
            elif what == "a place":
                text[at] = re.sub(r" ack (\d+) ", lambda found: f" ack {int(found[1]) + history.slots} ", line)
            elif what == "a recovery":
                text[at] = re.sub(r"recovered \d+", f"recovered {tops[at] - 1}", line)
            else:
                text[at] = re.sub(r"granted (\d+)", lambda found: f"granted {int(found[1]) + 7}", line)
            made += 1
            seen += judged(history.text, "\n".join(text) + "\n")[0] is not None
    return seen, made


def swept(program, seed):
    """Sweeps a short history. Tells how many runs there were, and what is wrong."""
    history = History(seed, 500)
    try:
        printed = printed_by(program, "sweep", history.text)
    except Wrong as wrong:
        return 0, f"sweep of seed {seed}: {wrong}"
    found = re.fullmatch(r"(\d+) runs, \d+ recovered, 0 wrong\n", printed)
    return (int(found[1]), None) if found else (0, f"sweep of seed {seed}: {printed}")


def main():
    words = argparse.ArgumentParser()
    words.add_argument("--program", default=os.environ.get("PROGRAM", lock_log.PROGRAM))
    for name, number in (("epochs", 10_000), ("seconds", 1800), ("seed", 1), ("jobs", 2), ("events", 300_000), ("sweeps", 20)):
        words.add_argument(f"--{name}", type=int, default=number)
    words.add_argument("--keep")
    given = words.parse_args()
    lock_log.see_that_it_is_built(given.program)
    began, counts, failed, seen, made, asleep, runs = time.monotonic(), collections.Counter(), [], 0, 0, 0, 0
    with concurrent.futures.ProcessPoolExecutor(given.jobs) as pool:
        seed, waits = given.seed, set()
        while counts["epochs"] < given.epochs and time.monotonic() - began < given.seconds and len(failed) < 5:
            while len(waits) < given.jobs:
                waits.add(pool.submit(ran, given.program, seed, given.events, given.keep))
                seed += 1
            done, waits = concurrent.futures.wait(waits, return_when=concurrent.futures.FIRST_COMPLETED)
            for each in done:
                told, wrong, some, all_made, slept, line = each.result()
                counts.update(told)
                seen, made, asleep = seen + some, made + all_made, max(asleep, slept)
                failed += [wrong] if wrong else []
                print(wrong or line, flush=True)
        for each in waits:
            told, wrong, *_ = each.result()
            counts.update(told)
            failed += [wrong] if wrong else []
        for some, wrong in pool.map(swept, [given.program] * given.sweeps, range(given.seed, given.seed + given.sweeps)):
            runs += some
            failed += [wrong] if wrong else []
    print(", ".join(f"{number:,} {what}" for what, number in sorted(counts.items())) + f"; hosts slept for {asleep} epochs at most")
    print(f"{given.sweeps} histories swept, {runs:,} runs; {seen} of {made} texts that were made wrong were seen; {time.monotonic() - began:.0f} s")
    for wrong in failed:
        print(wrong)
    enough = counts["epochs"] >= given.epochs
    print(f"{counts['epochs']:,} epochs, {len(failed)} wrong" + ("" if enough else f", where {given.epochs:,} were wanted"))
    return 0 if enough and not failed and seen == made else 1


if __name__ == "__main__":
    sys.exit(main())
