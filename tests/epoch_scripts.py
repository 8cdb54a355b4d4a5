#!/usr/bin/env python3
"""Scripts over logs without an end, judged by a plain lock table over one list of commands: what each host answers and shows has to follow from one such
list. Whether a command that was never acknowledged stands in the list is tried both ways. Then it sweeps those scripts that make few calls, and counts the
runs again: four for each call, and three more for each that writes.

    epoch_scripts.py [--program PATH] [--stored] [--calls N] [SCRIPT..]

Without scripts it takes those of scripts/epochs and the example `epochs`. With --stored it judges what is stored beside each script, and runs nothing.
Swept are scripts of N calls at most (none given: 1,100). A script may not go on with a host after `tear` but by `stop`, since the judge does not know whether
the host was within a write."""

import argparse
import glob
import os
import re
import subprocess
import sys

import endless_log
import lock_log

TESTS = os.path.dirname(os.path.abspath(__file__))
LAST_HOST = 15


class Wrong(Exception):
    pass


# WHAT A SCRIPT SAYS

def said_lines(text):
    return [line.split() for line in text.splitlines() if line and not line.startswith("#")]


def events_of(text):
    """Disks, slots, and what happens: (number of the event, words); a table that is shown has the number of the next event."""
    (word, disks, slots, kind), *lines = said_lines(text)
    if (word, kind) != ("cluster", "epochs"):
        raise Wrong("the script is of another kind")
    number, events = 0, []
    for words in lines:
        times = int(words[2]) if words[0] == "step" and len(words) == 3 else 1
        events.append((number, times, words))
        number += 0 if words[0] in ("show", "blocking") else times
    return int(disks), int(slots), events


# WHAT WAS PRINTED

class Printed:
    """The lines that were printed, from the first one on."""

    def __init__(self, text):
        self.lines = text.splitlines()

    def answer(self, first, times, host):
        """The answer of a host to one of these events, with the number of the event, or None."""
        found = re.fullmatch(r"(\d+) h(\d+) (.*)", self.lines[0]) if self.lines else None
        if not found or int(found[1]) >= first + times:
            return None
        if int(found[1]) < first or int(found[2]) != host:
            raise Wrong(f"events from {first} on are not of that host: {self.lines[0]}")
        self.lines.pop(0)
        return int(found[1]), found[3]

    def shown(self, host):
        """The epoch of a host, or None, and what is told of its table: the lines up to the next that is no part of it."""
        found = re.fullmatch(rf"h{host} in (?:epoch (\d+)|no epoch)", self.lines.pop(0) if self.lines else "")
        if not found:
            raise Wrong(f"host {host} is not shown")
        below = []
        while self.lines and not re.match(r"\d+ h\d+ |h\d+ in ", self.lines[0]):
            below.append(self.lines.pop(0))
        return found[1] and int(found[1]), below


# WHAT THE HOSTS DID

class Seat:
    """A host: the words and the first event of its task, and whether it may have stopped within a write."""

    def __init__(self):
        self.task, self.began, self.torn, self.learned, self.refused = None, 0, False, False, False


class Story:
    """What a run tells: acknowledgements by place, commands that may be in the log, and what else has to follow from it."""

    def __init__(self, script, printed):
        self.disks, self.slots, events = events_of(script)
        self.printed, self.seats = Printed(printed), [Seat() for _ in range(LAST_HOST + 1)]
        self.acks = {}          # by place: event, host, words, reply
        self.open = []          # (event, host, words) of commands that were never acknowledged
        self.told = []          # (what, host, ..) in the order in which it was printed
        for number, times, words in events:
            self.take(number, times, words)
        if self.printed.lines:
            raise Wrong(f"left over: {self.printed.lines[0]}")
        self.open += [(seat.began, host, seat.task[3:]) for host, seat in enumerate(self.seats) if seat.task and seat.task[0] == "submit"]

    def take(self, number, times, words):
        kind, host = words[0], int(words[1])
        seat = self.seats[host] if host <= LAST_HOST else None
        if kind in ("crash", "gone", "start"):
            return
        if kind in ("show", "blocking"):
            self.told.append((kind, host, *self.printed.shown(host)))
            return
        if kind == "stop":
            self.give_up(host)
            self.seats[host] = Seat()
            self.told.append(("stop", host))
            return
        if kind == "tear":
            seat.torn = seat.torn or seat.task is not None
            return
        if kind in ("submit", "recover", "look", "beat", "mark") and not seat.task:
            if seat.torn:
                raise Wrong(f"event {number}: nobody knows whether host {host} runs")
            if kind != "mark" or seat.learned:
                seat.task, seat.began = words, number
        while answer := self.printed.answer(number, times, host):
            if not seat.task:
                raise Wrong(f"event {answer[0]}: host {host} has no task")
            self.hear(host, *answer)

    def give_up(self, host):
        seat = self.seats[host]
        if seat.task and seat.task[0] == "submit":
            self.open.append((seat.began, host, seat.task[3:]))

    def hear(self, host, event, text):
        """A task ended."""
        seat = self.seats[host]
        kind, (word, *rest) = seat.task[0], text.split(maxsplit=2)
        if word == "refused":
            if not re.fullmatch(r"(6 Outrun|7 NoMajority|9 LogFull|30 NotLearned)", " ".join(rest)):
                raise Wrong(f"event {event}: no such refusal: {text}")
            self.give_up(host)
            self.told.append(("refused", host))
        elif (kind, word) == ("submit", "ack"):
            place = int(rest[0])
            if place in self.acks:
                raise Wrong(f"event {event}: place {place} was acknowledged before")
            self.acks[place] = event, host, seat.task[3:], rest[1]
            self.told.append(("ack", host, place))
        elif (kind, word) in (("recover", "recovered"), ("look", "looked")):
            since = [place for place, ack in self.acks.items() if ack[0] < seat.began]
            self.told.append((word, host, int(rest[0]), max(since, default=-1) + 1 if kind == "recover" else 0))
        elif (kind, word) == ("mark", "marked"):
            if int(rest[0]) > self.disks:
                raise Wrong(f"event {event}: there are {self.disks} disks")
        elif (kind, word) == ("beat", "beaten"):
            if int(rest[0]) > LAST_HOST:
                raise Wrong(f"event {event}: no host {rest[0]}")
        else:
            raise Wrong(f"event {event}: host {host} has another task: {text}")
        seat.learned = seat.learned or word in ("ack", "recovered", "looked")
        seat.task, seat.torn = None, False


# ONE LIST OF COMMANDS

class Lists:
    """The lists of commands by which all was acknowledged as it was. Each is given with the place behind it, and with the text of the table, at each length."""

    def __init__(self, story):
        self.story, self.found = story, []
        self.extend([], story.open)

    def table_after(self, commands):
        table, replies = lock_log.Table(), []
        place, ends = 0, []
        for host, words in commands:
            ends.append((self.ready(place, table), table.text()))
            place = ends[-1][0] + 1
            replies.append(table.apply(host, words))
        ends.append((self.ready(place, table), table.text()))
        return replies, ends

    def ready(self, place, table):
        """Where the next command goes. Once an epoch is full, what carries the table over comes first in the next one."""
        slots = self.story.slots
        carried = len(endless_log.carries(table)) if place and place % slots == 0 else 0
        return place + carried if carried < slots else place

    def extend(self, commands, left):
        replies, ends = self.table_after(commands)
        place = ends[-1][0]
        ack = self.story.acks.get(place)
        if ack:
            _, host, words, reply = ack
            if self.table_after([*commands, (host, words)])[0][-1] == reply:
                self.extend([*commands, (host, words)], left)
            return
        if self.story.acks.keys() <= {place for place, _ in ends[:-1]}:
            self.found.append(ends)
        for at, (_, host, words) in enumerate(left):
            self.extend([*commands, (host, words)], left[:at] + left[at + 1:])


def follows(story, ends):
    """What does not follow from a list of commands, or None."""
    known = {}                  # by host: how many commands it has learned at least, whether these are all, and in which epoch it is
    by_place = {place: count for count, (place, _) in enumerate(ends)}
    for what, host, *rest in story.told:
        wrong = None
        if what == "stop":
            known.pop(host, None)
        elif what == "refused":
            known[host] = known[host][0] if host in known else 0, False, None
        elif what == "ack":
            known[host] = by_place[rest[0]] + 1, True, rest[0] // story.slots
        elif what in ("recovered", "looked"):
            length, least = rest
            known[host] = by_place.get(length, 0), True, length // story.slots
            wrong = f"{what} {length}, where {least} is the least" if length not in by_place or length < least else None
        else:
            wrong = shows(ends, known.get(host), what, *rest)
        if wrong:
            return f"host {host}: {wrong}"
    return None


def shows(ends, known, what, epoch, below):
    """What is wrong with what is shown of a host that knows this, or nothing."""
    if not known:
        return None if (epoch, below) == (None, ["no table"]) else "it knows nothing"
    least, exact, where = known
    if exact and epoch != where:
        return f"it is in epoch {where}, and not in epoch {epoch}"
    if below == ["no table"]:
        return "it has a table" if exact else None
    if what == "blocking":
        return None if re.fullmatch(r"no cycle|cycle( \d+)+", "\n".join(below)) else f"no verdict: {below}"
    texts = [text for _, text in ends[least:least + 1 if exact else None]]
    return None if lock_log.sorted_below(below) in texts else f"another table: {below}"


# SWEEPS

PROBED = 300                    # in scripts of so many calls at most each is tried, whether it writes


def device_calls(script, printed):
    """Each step that applies, as (number of the event, host). A host makes a call with each of its steps, from the beginning of a task to its answer."""
    answers = {int(event): int(host) for event, host in re.findall(r"^(\d+) h(\d+) ", printed, re.MULTILINE)}
    busy, learned, calls = set(), set(), []
    for number, times, (kind, host, *_) in events_of(script)[2]:
        host = int(host)
        if kind in ("submit", "recover", "look", "beat", "mark") and (kind != "mark" or host in learned):
            busy.add(host)
        elif kind in ("stop", "tear"):
            busy.discard(host)
            learned.discard(host)
        for event in range(number, number + times):
            if kind == "step" and host in busy:
                calls.append((event, host))
            if answers.get(event) == host:
                busy.discard(host)
                learned.add(host)
    return calls


def cut_before(script, event):
    """The lines of a script before this event; of a run of steps those before it."""
    number = 0
    for line in script.splitlines():
        words = line.split()
        if not words or words[0].startswith("#") or words[0] in ("cluster", "show", "blocking"):
            yield line
            continue
        times = int(words[2]) if words[0] == "step" and len(words) == 3 else 1
        if number + times > event:
            if event > number:
                yield f"step {words[1]} {event - number}"
            return
        number += times
        yield line


def writes(program, script, event, host):
    """Whether a call writes: a torn write stops its host, which then answers nothing."""
    text = "\n".join([*cut_before(script, event), f"tear {host} 00", f"step {host} 100000", ""])
    run = subprocess.run([program, "run", "/dev/stdin"], input=text, capture_output=True, text=True)
    if (run.returncode, run.stderr) != (0, ""):
        raise Wrong(f"a call cannot be torn: {run.stderr}")
    return not any(int(number) > event for number in re.findall(r"^(\d+) h", run.stdout, re.MULTILINE))


def swept(program, path, script, printed, most):
    """What is wrong with a sweep of a script, or None; and whether it was swept."""
    calls = device_calls(script, printed)
    if len(calls) > most:
        return None, False
    run = subprocess.run([program, "sweep", path], stdin=subprocess.DEVNULL, capture_output=True, text=True)
    found = re.fullmatch(r"(\d+) runs, (\d+) recovered, 0 wrong\n", run.stdout)
    if not found or (run.returncode, run.stderr) != (0, ""):
        return f"swept: {run.stdout}{run.stderr}", True
    runs, recovered = int(found[1]), int(found[2])
    if len(calls) <= PROBED:
        written = sum(writes(program, script, event, host) for event, host in calls)
    else:
        written = (runs - 4 * len(calls)) // 3
    if runs != 4 * len(calls) + 3 * written or not 0 <= written <= len(calls):
        return f"{runs} runs for {len(calls)} calls, of which {written} write", True
    kinds = {words[0] for _, _, words in events_of(script)[2]}
    answered = {1: 2 * (runs - len(calls)), 3: 2 * runs}.get(events_of(script)[0])
    if answered is not None and not kinds & {"crash", "gone", "fail"} and "refused" not in printed and recovered != answered:
        return f"{recovered} of {answered} recoveries answered", True
    return None, True


# SCRIPTS

def judged(script, printed):
    """What is wrong with what a script printed, or None."""
    try:
        story = Story(script, printed)
        lists = Lists(story).found
    except Wrong as wrong:
        return str(wrong)
    if not lists:
        return "no list of commands has these acknowledgements"
    wrong = [follows(story, ends) for ends in lists]
    return None if None in wrong else wrong[0]


def printed_by(program, path):
    run = subprocess.run([program, "run", path], stdin=subprocess.DEVNULL, capture_output=True, text=True)
    return run.stdout if (run.returncode, run.stderr) == (0, "") else f"status {run.returncode}: {run.stderr}"


def main():
    words = argparse.ArgumentParser()
    words.add_argument("--program", default=os.environ.get("PROGRAM", lock_log.PROGRAM))
    words.add_argument("--stored", action="store_true")
    words.add_argument("--calls", type=int, default=1100)
    words.add_argument("scripts", nargs="*")
    given = words.parse_args()
    scripts = given.scripts or sorted(glob.glob(f"{TESTS}/scripts/epochs/*.dlm")) + [f"{lock_log.TOP}/examples/epochs.dlm"]
    if not given.stored:
        lock_log.see_that_it_is_built(given.program)
    failed, sweeps = 0, 0
    for path in scripts:
        with open(path) as file:
            script = file.read()
        if given.stored:
            with open(path.removesuffix(".dlm") + ".out") as file:
                printed = file.read()
        else:
            printed = printed_by(given.program, path)
        wrong = judged(script, printed)
        if not wrong and not given.stored:
            wrong, was_swept = swept(given.program, path, script, printed, given.calls)
            sweeps += was_swept
        if wrong:
            print(f"{path}: {wrong}")
            failed += 1
    print(f"{len(scripts)} scripts of epochs, {sweeps} swept, {failed} wrong")
    return 1 if failed else 0


if __name__ == "__main__":
    sys.exit(main())
