#!/usr/bin/env python3
"""not_run.py: names each line of a fenced block of README, tutorial and operations that examples/pages.sh does not run, with what does.
The status is 1 where such a line is not in the list below, and where a line of that list is on no page any more."""

import os
import sys

TOP = os.path.dirname(os.path.dirname(os.path.realpath(__file__)))
PAGES = ("README.md", "docs/TUTORIAL.md", "docs/OPERATIONS.md")

# What a line begins with, or the language of a block of code and what its first line begins with; and what runs it.
KNOWN = {
    ("README.md", "(cd crates/dlm && rt try -- run"): "tests/readme.sh, in .ci/run",
    ("README.md", "mg create images"): "tests/release.sh, over a folder of its own",
    ("README.md", "mg lock images"): "tests/release.sh, over a folder of its own",
    ("docs/OPERATIONS.md", "ln -s /dev/disk/"): "tests/devices.sh, with loop devices",
    ("docs/OPERATIONS.md", "dlm format images 3 64 7"): "tests/devices.sh, with loop devices",
    ("docs/OPERATIONS.md", "mkdir /var/lib/dlm/shared"): "tests/machines.sh, with loop devices in the place of LUNs",
    ("docs/OPERATIONS.md", "for k in 0 1 2; do ln -s"): "tests/machines.sh, with loop devices in the place of LUNs",
    ("docs/OPERATIONS.md", "dlm-shared "): "tests/machines.sh, with loop devices in the place of LUNs",
    ("docs/OPERATIONS.md", "mkdir a b && echo"): "tests/machines.sh",
    ("docs/OPERATIONS.md", "for k in 0 1 2; do truncate"): "tests/machines.sh",
    ("docs/OPERATIONS.md", "mg-lock "): "capi/tests/mg_lock.py, over a folder of its own",
    ("docs/OPERATIONS.md", "groupadd dlm"): "tests/users.sh, with numbers in the place of a group and its users",
    ("docs/OPERATIONS.md", "mkdir /var/lib/dlm && chgrp"): "tests/users.sh, below a folder of its own",
    ("docs/OPERATIONS.md", "(umask 007; "): "tests/users.sh, below a folder of its own",
}
# Of these each line is a command; a block in another language is told once, by its first line.
SHELLS = ("", "sh", "bash")


def blocks(text):
    """The fenced blocks of a page: the number of the first line, the language, the lines."""
    fence = None
    for number, line in enumerate(text.split("\n"), 1):
        if not line.startswith("```"):
            if fence:
                fence[2].append(line)
        elif fence:
            yield fence
            fence = None
        else:
            fence = (number + 1, line[3:], [])


def not_run(text):
    """What examples/pages.sh passes over. It runs a block without a language that begins with a prompt, but for one of `rt`."""
    for first, language, lines in blocks(text):
        begins = lines[0] if lines else ""
        if language not in SHELLS:
            yield first, f"{language}: {begins}"
        elif language:
            yield from ((first + at, line) for at, line in enumerate(lines) if line.strip() and not line.startswith("#"))
        elif not begins.startswith("$ ") or begins.startswith("$ rt "):
            # What has no prompt is a drawing, or what something prints.
            yield from ((first + at, line[2:]) for at, line in enumerate(lines) if line.startswith("$ "))


def main():
    unmet, wrong = set(KNOWN), 0
    for page in PAGES:
        with open(f"{TOP}/{page}", encoding="utf-8") as it:
            text = it.read()
        for number, line in not_run(text):
            key = next((it for it in KNOWN if it[0] == page and line.startswith(it[1])), None)
            unmet.discard(key)
            wrong += key is None
            print(f"{page}:{number}: {line.strip()[:60]}: {KNOWN.get(key, 'NOTHING RUNS THIS')}")
    for page, line in sorted(unmet):
        print(f"{page}: this line is not there any more: {line}")
    print(f"not_run.py: {wrong} lines that nothing runs, {len(unmet)} that are gone")
    return 1 if wrong or unmet else 0


if __name__ == "__main__":
    sys.exit(main())
