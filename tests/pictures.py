#!/usr/bin/env python3
"""pictures.py: what docs/pictures.py draws of two scripts, by the numbers of their events and by the colours of their calls.

What is expected was worked out by hand from the scripts. An event that changes nothing has no column, so each script has a list of those.
It prints each difference, and how many there were; the status is 1 where there was one. The variable PROGRAM of the environment names another program
than `./dlm`.
"""
import os
import re
import subprocess
import sys
import tempfile

TOP = os.path.dirname(os.path.dirname(os.path.realpath(__file__)))
DRAW = [os.path.join(TOP, "docs/pictures.py"), "draw"]

# The place of the first column, and how far each is from the next.
LEFT, WIDE = 52, 9

# Host 1 outruns host 0 with its promise, and gets slot 0; host 0 learns that, and takes slot 1.
RACE = """cluster 1 4
start 0
start 1
submit 0 2 enqueue 1 1 1 EX db
submit 1 2 enqueue 2 1 2 EX db
step 0 10
step 1 10
step 0 7
step 1 7
step 0 17
step 0 17
"""
RACE_CLASSES = "ooo" + "p" * 7 + "ooo" + "p" * 7 + "v" * 7 + "v" * 7 + "ooopppppppvvvvvvv" * 2
RACE_TURNS = [(30, "outrun"), (37, "ack 0 Granted"), (54, "learns 0"), (71, "ack 1 Queued")]

# A call fails, a disk crashes, a host is torn, and another disk is lost. Steps of idle hosts change nothing.
FAULTS = """cluster 3 4
start 0
start 1
submit 0 1 enqueue 1 1 1 EX db
step 0 20
fail 0 00
step 0 3
crash 0 ff
step 0 12
submit 1 1 enqueue 2 1 2 PR db
step 1 11
tear 1 a5
gone 2
gone 2
crash 2 00
start 0
stop 0
recover 0 1
start 1
recover 1 1
step 1 7
"""
# Host 0 is idle once disk 0 has refused its call; disk 2 is lost already; host 0 runs already; and then it does not run.
FAULTS_IDLE = [*range(33, 40), 54, 55, 56, 58]
# The host of a torn write stops with it.
FAULTS_WORDS = [(23, "fails"), (27, "crash"), (32, "refused"), (52, "torn"), (52, "stop"), (53, "lost"), (57, "stop"), (67, "refused")]

# On the host's line a call has the colour of its phase, also the one that failed, the torn one, and those that were refused: the first vote, the last attach.
FAULTS_CLASSES = "ooo" * 3 + "p" * 7 + "pppp" + "p" + "p" * 7 + "v" + "ooo" * 3 + "pp" + "p" + "ooo" * 2 + "o"

# What it can't draw it says.
MARKED = "cluster 1 2\nstart 0\nmark 0 0\n"


def draws(script):
    """Has the picture of a script drawn."""
    with tempfile.TemporaryDirectory(prefix="pictures-") as room:
        path = os.path.join(room, "script.dlm")
        with open(path, "w", encoding="ascii") as file:
            file.write(script)
        return subprocess.run([*DRAW, path], stdin=subprocess.DEVNULL, stdout=subprocess.PIPE, stderr=subprocess.PIPE, check=False, text=True)


def words(picture, form, idle):
    """Returns the words of that form with the numbers of their events, in the order of the picture."""
    places = [it for it in range(1000) if it not in idle]
    found = []
    for x, word in re.findall(form, picture):
        column, rest = divmod(int(x) - LEFT, WIDE)
        found.append((places[column] if rest == 0 else None, word))
    return found


def main():
    race, faults = (draws(it).stdout for it in (RACE, FAULTS))
    marked = draws(MARKED)
    turn = r'<text[^>]* x="(\d+)" y="\d+" dx="8" dy="22" text-anchor="end">([^<]*)</text>'
    wrong = r'<text class="f" x="(\d+)" y="\d+" dy="21">([^<]*)</text>'
    number = r'<text class="n" x="(\d+)" y="\d+">(\d+)</text>'
    call = r'<path class="(\w)" d="M\d+ \d+h7v12h-7zm'
    told = [
        ("race: what hosts come to", words(race, turn, []), RACE_TURNS),
        ("faults: what goes wrong", words(faults, wrong, FAULTS_IDLE), FAULTS_WORDS),
        ("race: the colours of the calls", "".join(re.findall(call, race)), RACE_CLASSES),
        ("faults: the colours of the calls", "".join(re.findall(call, faults)), FAULTS_CLASSES),
        ("marked", (marked.returncode, marked.stderr), (1, "pictures.py: draws submissions and recoveries alone, over empty disks\n")),
    ]
    for name, picture, idle in (("race", race, []), ("faults", faults, FAULTS_IDLE)):
        numbers = words(picture, number, idle)
        told.append((f"{name}: the numbers of events", numbers, [(it, str(it)) for it, _ in numbers if it % 10 == 0]))
    different = 0
    for what, got, wanted in told:
        if got != wanted:
            different += 1
            print(f"{what}: {got!r}, wanted {wanted!r}")
    print(f"pictures.py: {len(told)} looked at, {different} different")
    return 1 if different else 0


if __name__ == "__main__":
    sys.exit(main())
