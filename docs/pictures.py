#!/usr/bin/env python3
"""pictures.py: draws what hosts and disks do over time, as SVG, from a script and from what `dlm run` prints for it.

    pictures.py                draws the pictures of the pages anew from their examples
    pictures.py check          tells which of them is not as it would be drawn
    pictures.py draw SCRIPT    prints the picture of this script
    pictures.py end SCRIPT     prints a picture of its end: hosts, folder, disks, log and table

It knows submissions and recoveries, without marks. Which call a step is follows from the lines: an attempt goes through the disks three times, with three
calls to open, seven to promise and seven to vote, and leaves out a disk whose call failed. How an operation ends is printed. Where it was outrun is asked for:
the same script with fewer tries prints that as its end. The variable PROGRAM of the environment names another program than `./dlm`.
"""
import os
import re
import subprocess
import sys
import tempfile

DOCS = os.path.dirname(os.path.realpath(__file__))
# Each picture has the name of its example. Which page shows it, and whether it is of the example's end.
PICTURES = {
    "race_step_by_step": ("docs/SCRIPTS.md", False),
    "takeover": ("docs/SCRIPTS.md", False),
    "faults_of_disks_and_hosts": ("docs/SCRIPTS.md", False),
    "calls_of_an_attempt_on_three_disks": ("docs/ARCHITECTURE.md", False),
    "overview": ("README.md", True),
}
# The phases of an attempt, each with the class of its colour and the letters of its calls on a disk: attach, sync, read, write.
PHASES = (("o", "asr"), ("p", "wswswsr"), ("v", "wswswsr"))
LEFT, COLUMN, TOP, HOST_LANE, DISK_LANE = 52, 9, 30, 46, 32
STYLE = (
    "<style>text{paint-order:stroke;stroke:#fff;stroke-width:2}.o{fill:#8a94a6;stroke:#8a94a6}.p{fill:#e08a1e;stroke:#e08a1e}.v{fill:#2f9e58;stroke:#2f9e58}"
    ".x{fill:#fff;stroke:#d11}.k{fill:#fff}.i{fill:#fff;stroke:none}.l{stroke:#bbb}.h{stroke:#444;stroke-width:2}.n{fill:#777}.f{fill:#d11}"
    ".j{fill:#d11;stroke:none}.b{font-weight:bold}</style>"
)
LEGEND = ((52, "o", "opening"), (132, "p", "promise"), (212, "v", "vote"), (292, "x", "goes wrong"))


def printed(lines):
    """What `dlm run` prints for these lines."""
    program = os.environ.get("PROGRAM") or os.path.join(DOCS, "../dlm")
    with tempfile.NamedTemporaryFile("w", suffix=".dlm", encoding="ascii") as file:
        file.writelines(f"{' '.join(it)}\n" for it in lines)
        file.flush()
        return subprocess.run([program, "run", file.name], stdin=subprocess.DEVNULL, stdout=subprocess.PIPE, check=True, text=True).stdout


def answers(lines):
    """By the number of the event the host and the words of the answer."""
    found = re.finditer(r"^(\d+) h(\d+) (.*)$", printed(lines), re.MULTILINE)
    return {int(it[1]): (int(it[2]), it[3]) for it in found}


class Operation:
    """What a host is at: its attempt's phase, the disks that this still visits, and how many calls it has made on the first of these."""

    def __init__(self, outruns):
        self.outruns = outruns
        self.alive, self.left, self.phase, self.made = [], [], 0, 0

    def begin(self, disks):
        self.alive, self.left, self.phase, self.made = list(range(disks)), list(range(disks)), 0, 0

    def call(self):
        """The disk of the next call, its class and its letter."""
        of, letters = PHASES[self.phase]
        return self.left[0], of, letters[self.made]

    def hear(self, is_done):
        """The call has ended. Returns whether the attempt has."""
        self.made += 1
        if not is_done:
            self.alive.remove(self.left[0])
        if not is_done or self.made == len(PHASES[self.phase][1]):
            self.left, self.made = self.left[1:], 0
        if not self.left:
            self.left, self.phase = list(self.alive), self.phase + 1
        return self.phase == len(PHASES)


class Run:
    """A script's events, one after the other. `moments` has those that changed something: the event's number, what it was, what came of it for its host."""

    def __init__(self, text):
        self.lines = [line.split() for line in text.split("\n") if line and not line.startswith("#")]
        if self.lines[0][0] != "cluster" or any(line[0] in ("log", "beat", "mark", "look") for line in self.lines):
            sys.exit("pictures.py: draws submissions and recoveries alone, over empty disks")
        self.disks = int(self.lines[0][1])
        self.answers = answers(self.lines)
        self.hosts, self.learned, self.crashes, self.lost, self.boots = {}, {}, [0] * self.disks, set(), {}
        self.moments, self.place = [], 0
        for at, line in enumerate(self.lines):
            self.happen(at, line)

    def happen(self, at, line):
        word, *given = line
        if word in ("cluster", "show", "blocking"):
            return
        for _ in range(int(given[1]) if word == "step" and len(given) == 2 else 1):
            moment = self.event(at, word, int(given[0]))
            if moment:
                self.moments.append((self.place, *moment))
            self.place += 1

    def event(self, at, word, number):
        """What an event was and what came of it, if it applied. `number` is its host's, or its disk's."""
        if word in ("crash", "gone"):
            return self.harm(word, number)
        if word == "start":
            if number in self.hosts:
                return None
            self.hosts[number], self.learned[number] = None, 0
            return ("started", number), None
        if number not in self.hosts:
            return None
        if word == "stop":
            del self.hosts[number]
            return ("stopped", number), None
        operation = self.hosts[number]
        if word in ("submit", "recover"):
            if operation:
                return None
            operation = self.hosts[number] = Operation(self.outruns(at))
            operation.begin(self.disks)
            return ("began", number, self.lines[at][3] if word == "submit" else word), self.said(number)
        return self.called(number, operation, {"step": "done", "tear": "torn", "fail": "fails"}[word]) if operation else None

    def harm(self, word, disk):
        if disk in self.lost:
            return None
        if word == "gone":
            self.lost.add(disk)
        else:
            self.crashes[disk] += 1
        return (word, disk), None

    def called(self, host, operation, ending):
        """A host's next call, which is to end so unless its disk refuses it."""
        disk, of, letter = operation.call()
        if disk in self.lost or letter != "a" and self.boots[host, disk] != self.crashes[disk]:
            if ending != "done":
                return None
            ending = "refused"
        if ending == "torn" and letter != "w":
            return None
        if letter == "a":
            self.boots[host, disk] = self.crashes[disk]
        happened = ("called", host, disk, of, letter, ending)
        if ending == "torn":
            del self.hosts[host]
            return happened, None
        is_over = operation.hear(ending == "done")
        if self.place in self.answers:
            return happened, self.said(host)
        if self.place in operation.outruns:
            operation.begin(self.disks)
            return happened, ("outrun", "outrun")
        if is_over:
            operation.begin(self.disks)
            self.learned[host] += 1
            return happened, ("learned", f"learns {self.learned[host] - 1}")
        return happened, None

    def said(self, host):
        """The answer that this event brought, if it brought one. The host is idle then."""
        if self.place not in self.answers:
            return None
        assert self.answers[self.place][0] == host, f"the answer of event {self.place} is another host's"
        words = self.answers[self.place][1].split()
        if words[0] == "ack":
            self.learned[host] = int(words[1]) + 1
        self.hosts[host] = None
        return ("said", " ".join(words if words[0] != "refused" else words[2:]))

    def outruns(self, at):
        """The events at which the operation of this line was outrun and went on: with so many tries that is how it ends."""
        word, host, tries, *command = self.lines[at]
        found = []
        for fewer in range(1, int(tries)):
            told = answers([*self.lines[:at], [word, host, str(fewer), *command], *self.lines[at + 1 :]])
            ends = [place for place, (by, words) in sorted(told.items()) if by == int(host) and place >= self.place]
            if not ends or told[ends[0]][1] != "refused 6 Outrun":
                break
            found.append(ends[0])
        return found


class Picture:
    """Where things stand: a lane for each host and below them one for each disk, and a column for each moment."""

    def __init__(self, run):
        self.moments, self.disks = run.moments, run.disks
        self.hosts = 1 + max((it[1][1] for it in run.moments if it[1][0] == "started"), default=-1)
        self.out = []

    def column(self, number):
        return LEFT + COLUMN * number

    def host(self, number):
        return TOP + HOST_LANE * number

    def disk(self, number):
        return self.host(self.hosts) + DISK_LANE * number

    def end_of(self, begins, is_end):
        """The column from this one on whose moment is the end. If there is none, the column after the last."""
        return self.column(next((at for at, it in enumerate(self.moments) if at >= begins and is_end(it[1])), len(self.moments)))

    def svg(self):
        foot = self.disk(self.disks)
        width, height = max(self.column(len(self.moments)) + COLUMN, 640), foot + 50
        self.out = [
            f'<svg xmlns="http://www.w3.org/2000/svg" viewBox="0 0 {width} {height}" width="{width}" height="{height}" font-family="monospace" font-size="9">',
            STYLE,
            f'<rect class="k" width="{width}" height="{height}"/>',
        ]
        self.draw_lanes()
        # Calls first, so that no line crosses a word.
        for at, (_, happened, _) in enumerate(self.moments):
            if happened[0] == "called":
                self.draw_call(self.column(at), *happened[1:])
        for at, moment in enumerate(self.moments):
            self.draw_words(self.column(at), *moment)
        for x, of, word in LEGEND:
            self.out.append(f'<path class="{of}" d="M{x} {foot + 15}h7v12h-7z"/><text x="{x}" y="{foot + 24}" dx="12">{word}</text>')
        letters = "a attach, s sync, r read, w write; the numbers are the events': those that change nothing have no column"
        self.out.append(f'<text class="n" x="52" y="{foot + 38}">{letters}</text>\n</svg>\n')
        return "\n".join(self.out)

    def draw_lanes(self):
        """The lines of the hosts while they run, and of the disks until they are lost."""
        for host in range(self.hosts):
            self.out.append(f'<text x="4" y="{self.host(host) + 9}">host {host}</text>')
        for at, (_, happened, _) in enumerate(self.moments):
            if happened[0] == "started":
                host = happened[1]
                right = self.end_of(at, lambda it: it == ("stopped", host) or it[:2] == ("called", host) and it[-1] == "torn")
                self.out.append(f'<path class="h" d="M{self.column(at)} {self.host(host) + 6}H{right}"/>')
        for disk in range(self.disks):
            right = self.end_of(0, lambda it: it == ("gone", disk))
            self.out.append(f'<text x="4" y="{self.disk(disk) + 9}">disk {disk}</text>')
            self.out.append(f'<path class="l" d="M{self.column(0)} {self.disk(disk) + 6}H{right}"/>')

    def draw_call(self, x, host, disk, of, letter, ending):
        """A box on the host's lane, one with the call's letter on the disk's, and a line between the two."""
        host, disk = self.host(host), self.disk(disk)
        box, ink = (of, "i") if ending == "done" else ("x", "j")
        self.out.append(
            f'<path class="{of}" d="M{x} {host}h7v12h-7zm3 12V{disk}"/><path class="{box}" d="M{x} {disk}h7v12h-7z"/>'
            f'<text class="{ink}" x="{x}" y="{disk}" dx="1" dy="9">{letter}</text>'
        )

    def draw_words(self, x, place, happened, turn):
        """What happened, beside the lanes: beginnings, answers, stops and faults. And the numbers of events."""
        what, number = happened[:2]
        if what == "started":
            self.out.append(f'<path class="h" d="M{x} {self.host(number)}v12"/>')
        elif what == "stopped":
            self.draw_cross(x, self.host(number), "stop")
        elif what == "began":
            self.out.append(f'<text x="{x}" y="{self.host(number)}" dy="-5">{happened[2]}</text>')
        elif what == "crash":
            self.out.append(f'<path class="x" d="M{x} {self.disk(number)}m0 -3l7 6l-6 5l6 6"/>')
            self.draw_word(x, self.disk(number), "crash")
        elif what == "gone":
            self.draw_cross(x, self.disk(number), "lost")
        elif happened[-1] != "done":
            self.draw_word(x, self.disk(happened[2]), happened[-1])
            if happened[-1] == "torn":
                self.draw_cross(x, self.host(number), "stop")
        if turn:
            self.draw_turn(x, self.host(number), *turn)
        if place % 10 == 0:
            self.out.append(f'<text class="n" x="{x}" y="{self.disk(self.disks)}">{place}</text>')

    def draw_turn(self, x, y, kind, words):
        """What a host comes to, below its lane."""
        of = {"said": 'class="b" ', "learned": "", "outrun": 'class="f" '}[kind]
        stroke = f'<path class="h" d="M{x} {y}m7 0v14"/>' if kind == "said" else ""
        self.out.append(f'{stroke}<text {of}x="{x}" y="{y}" dx="8" dy="22" text-anchor="end">{words}</text>')

    def draw_cross(self, x, y, word):
        """The end of a lane."""
        self.out.append(f'<path class="x" d="M{x} {y}l8 12m0 -12l-8 12"/>')
        self.draw_word(x, y, word)

    def draw_word(self, x, y, word):
        """A word on what goes wrong, below its lane."""
        self.out.append(f'<text class="f" x="{x}" y="{y}" dy="21">{word}</text>')


class End:
    """What is there at the end of a script: its hosts, its disks, the commands that are acknowledged by their slots, and the table that it shows last."""

    def __init__(self, text):
        run = Run(text)
        self.disks, self.lost, self.running = run.disks, run.lost, set(run.hosts)
        self.hosts = [it[1][1] for it in run.moments if it[1][0] == "started"]
        self.slots, asked = {}, {}
        for line in run.lines:
            if line[0] == "submit":
                asked.setdefault(int(line[1]), []).append(self.command(line[3:]))
        for _, (host, words) in sorted(run.answers.items()):
            what, slot, *reply = words.split()
            command = asked[host].pop(0)
            if what == "ack":
                self.slots[int(slot)] = (command, " ".join(reply))
        self.table = re.split(r"^\d+ h\d+ .*\n", printed(run.lines), flags=re.MULTILINE)[-1].splitlines()

    @staticmethod
    def command(words):
        """What a client asks for, in words where it is a new lock."""
        if words[0] != "enqueue":
            return " ".join(words)
        _, client, _, lock, mode, name, *flags = words
        return f"client {client} asks for lock {lock} on {name}, {' '.join([mode, *flags])}"

    def svg(self):
        """From above: the hosts, the folder with a box for each disk, the log with a line for each slot, and the table."""
        width, log = 640, 176
        table = log + 30 + 14 * len(self.slots)
        height = table + 24 + 12 * len(self.table)
        out = [
            f'<svg xmlns="http://www.w3.org/2000/svg" viewBox="0 0 {width} {height}" width="{width}" height="{height}" font-family="monospace" font-size="10">',
            STYLE,
            f'<rect class="k" width="{width}" height="{height}"/><path class="k l" d="M110 66h520v78h-520z"/>',
        ]
        labels = ((14, "hosts"), (70, "folder"), (log, "log"), (table, "table"))
        out += [f'<text class="b" x="4" y="{y}" dy="10">{word}</text>' for y, word in labels]
        for at, host in enumerate(self.hosts):
            x, runs = self.middle(at, len(self.hosts)), host in self.running
            out.append(self.box(x, 8, f"host {host}", runs, "a process" if runs else "stopped"))
            if runs:
                out += [f'<path class="l" d="M{x} 36L{self.middle(disk, self.disks)} 96"/>' for disk in range(self.disks) if disk not in self.lost]
        out += [self.box(self.middle(disk, self.disks), 96, f"disk{disk}.img", disk not in self.lost, "lost") for disk in range(self.disks)]
        out.append('<text class="n" x="116" y="138">files or block devices; the hosts share nothing else</text>')
        out += [f'<text x="110" y="{log + 10 + 14 * slot}">slot {slot}: {command}: {reply}</text>' for slot, (command, reply) in sorted(self.slots.items())]
        out.append(f'<text class="n" x="110" y="{log - 8}">decided slot by slot, by more than half of the disks</text>')
        out += [f'<text x="110" y="{table + 10 + 12 * at}" xml:space="preserve">{line}</text>' for at, line in enumerate(self.table)]
        out.append(f'<text class="n" x="110" y="{table - 8}">what the log makes of an empty one, the same on each host</text>\n</svg>\n')
        return "\n".join(out)

    @staticmethod
    def middle(at, count):
        """Of so many boxes beside one another, where this one has its middle."""
        return 110 + 520 * (2 * at + 1) // (2 * count)

    @staticmethod
    def box(x, y, word, is_well, note):
        """A box of a host or a disk. What stopped or was lost is red."""
        of = "h" if is_well else "x"
        below = f'<text class="{"n" if is_well else "f"}" x="{x}" y="{y + 25}" text-anchor="middle">{note}</text>' if not is_well or note == "a process" else ""
        return f'<path class="k {of}" d="M{x - 55} {y}h110v28h-110z"/><text x="{x}" y="{y + 13}" text-anchor="middle">{word}</text>{below}'


def text_of(path):
    with open(path, encoding="utf-8") as file:
        return file.read()


def picture_of(path, is_of_the_end=False):
    text = text_of(path)
    return End(text).svg() if is_of_the_end else Picture(Run(text)).svg()


def main(words):
    if len(words) == 2 and words[0] in ("draw", "end"):
        print(picture_of(words[1], words[0] == "end"), end="")
        return 0
    if words not in ([], ["check"]):
        print(__doc__, file=sys.stderr)
        return 2
    wrong = 0
    for name, (page, is_of_the_end) in PICTURES.items():
        stored, drawn = f"{DOCS}/{name}.svg", picture_of(f"{DOCS}/../examples/{name}.dlm", is_of_the_end)
        if not words:
            with open(stored, "w", encoding="utf-8") as file:
                file.write(drawn)
        elif text_of(stored) != drawn:
            print(f"pictures.py: {name}.svg is not as it would be drawn now")
            wrong += 1
        if f"{os.path.relpath(stored, os.path.dirname(f'{DOCS}/../{page}'))})" not in text_of(f"{DOCS}/../{page}"):
            print(f"{page} does not show {name}.svg")
            wrong += 1
    print(f"pictures.py: {len(PICTURES)} pictures, {wrong} faults")
    return 1 if wrong else 0


if __name__ == "__main__":
    sys.exit(main(sys.argv[1:]))
