#!/usr/bin/env python3
"""closed.py: each word of `dlm` where its standard input, output or error is closed, in each of the seven ways. The system gives a closed one's
number to the next file that is opened, and that must never be an image: what is printed would go into it. So each image has the header that it
has without that, and `dlm check` finds nothing. The status is 1 where a text could not be printed. The program has to be built: `./dlm` does so.

It prints each difference, and how many there were; the status is 1 where there was one.
"""
import itertools
import os
import subprocess
import sys
import tempfile

from migrate import FIRST, PROGRAM, bytes_of, make_old

HEADER = 4096
SCRIPT = "cluster 1 4\nstart 0\nsubmit 0 1 enqueue 1 1 10 EX db\nstep 0 17\n"
# The words, and whether they print something where they end well.
WORDS = {
    "format new 3 64 7": True,
    "submit images 0 enqueue 1 2 2 EX other": True,
    "table images 1": True,
    "mark images 0": True,
    "check images": True,
    "migrate old new 64": True,
    "run script": True,
    "sweep script": True,
    "race 1": True,
}
WAYS = [way for count in (1, 2, 3) for way in itertools.combinations((0, 1, 2), count)]


def run(words, closed=()):
    def close():
        for number in closed:
            os.close(number)

    return subprocess.run([PROGRAM, *words.split()], stdin=subprocess.DEVNULL, capture_output=True, check=False, preexec_fn=close)


def prepare():
    make_old("old", 3, 64, [FIRST])
    os.mkdir("new")
    os.mkdir("images")
    with open("script", "w", encoding="ascii") as file:
        file.write(SCRIPT)
    for words in ("format images 3 64 7", "submit images 0 enqueue 1 1 1 EX db"):
        run(words).check_returncode()


def headers():
    """The headers of all images, by their paths."""
    return {f"{folder}/{name}": bytes_of(f"{folder}/{name}")[:HEADER] for folder in ("images", "new") for name in sorted(os.listdir(folder)) if name.endswith(".img")}


def in_a_folder(words, closed=()):
    """The status of the words, the headers that they leave, and what `dlm check` says of each folder that has images."""
    with tempfile.TemporaryDirectory() as room:
        os.chdir(room)
        prepare()
        ended = run(words, closed)
        left = headers()
        folders = sorted({path.split("/")[0] for path in left})
        checked = {folder: run(f"check {folder}") for folder in folders}
        os.chdir("/")
        return ended.returncode, left, {folder: (it.returncode, it.stdout, it.stderr) for folder, it in checked.items()}


def main():
    tries = wrong = 0
    for words, prints in WORDS.items():
        status, left, checked = in_a_folder(words)
        if status or any(it[0] or it[2] for it in checked.values()):
            print(f"`dlm {words}`: status {status}, and the checks say {checked}")
            return 1
        for closed in WAYS:
            tries += 1
            wanted = 1 if prints and 1 in closed else 0
            found = in_a_folder(words, closed)
            if found != (wanted, left, checked):
                wrong += 1
                changed = [path for path in left if found[1].get(path) != left[path]]
                print(f"`dlm {words}` without {closed}: status {found[0]} and not {wanted}; other headers: {changed or 'none'}; checks: {found[2] if found[2] != checked else 'as they should be'}")
    print(f"closed.py: {tries} tries, {wrong} wrong")
    return 1 if wrong else 0


if __name__ == "__main__":
    sys.exit(main())
