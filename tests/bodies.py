#!/usr/bin/env python3
"""bodies.py: the wrong bodies and definitions that the checker has to refuse, by crate: crates/NAME/wrong/README.md says of each edit of must-fail/ and
wrong/ by which clause. Without a word it compares these lists with the edits that are there, and says how many there are. The status is 1 where an
edit is in no list, or a list has one that is not there. `bodies.py all` prints all lists, `bodies.py CRATE..` those of these crates."""

import os
import re
import sys

TOP = os.path.dirname(os.path.dirname(os.path.realpath(__file__)))
LIST = "wrong/README.md"


def edits(crate, part):
    folder = f"{TOP}/crates/{crate}/{part}"
    return {it[: -len(".edit")] for it in os.listdir(folder) if it.endswith(".edit")} if os.path.isdir(folder) else set()


def told(page):
    """The edits that a list names: in the column of its tables that is headed `wrong ..`, what stands first in each part, as in
    `name`; `name`, `name`: what it does; .."""
    column = None
    for line in page.split("\n"):
        cells = [it.strip() for it in re.split(r"(?<!\\)\|", line)[1:-1]] if line.startswith("| ") else []
        if not cells:
            column = column if line.startswith("|") else None
        elif column is None:
            column = next(at for at, it in enumerate(cells) if it.startswith("wrong "))
        else:
            for part in re.split(r"; |, ", cells[column]):
                if name := re.match(r"`(\w+)`", part):
                    yield name[1]


def main(words):
    crates = sorted(os.listdir(f"{TOP}/crates"))
    each = {it: (edits(it, "must-fail"), edits(it, "wrong")) for it in crates}
    count, wrong = [0, 0], 0
    for crate in crates if words in ([], ["all"]) else words:
        always, due = each[crate]
        path = f"{TOP}/crates/{crate}/{LIST}"
        page = ""
        if os.path.isfile(path):
            with open(path, encoding="utf-8") as file:
                page = file.read()
        if words:
            print(page, end="")
            continue
        count = [count[0] + len(always), count[1] + len(due)]
        named = set(re.findall(r"`(\w+)`", page))
        for it in sorted((always | due) - named):
            wrong += 1
            print(f"crates/{crate}/{LIST} lacks {it}")
        for it in sorted(set(told(page)) - always - due):
            wrong += 1
            print(f"crates/{crate}/{LIST} has {it}, which is no edit of the crate")
    if not words:
        print(f"bodies.py: {count[0]} edits for each time and {count[1]} for when they are due, {wrong} faults of the lists")
    return 1 if wrong else 0


if __name__ == "__main__":
    sys.exit(main(sys.argv[1:]))
