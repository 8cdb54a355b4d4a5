#!/usr/bin/env python3
"""definitions.py: the definitions that contracts cite, in reading order. Without a word it sees that each file of specs/ begins with a line that says
what it defines, and says how many there are; the status is 1 where one does not. `definitions.py all` prints each file with that line, crate by crate as
crates.txt has them; `definitions.py CRATE..` those of these crates."""

import itertools
import os
import re
import sys

TOP = os.path.dirname(os.path.dirname(os.path.realpath(__file__)))


def crates():
    with open(f"{TOP}/crates.txt", encoding="utf-8") as file:
        return [it[0] for line in file if (it := re.match(r"\w+", line))]


def files(crate):
    """Each file of the crate's specs/ that defines something, with what its first lines say."""
    specs = f"{TOP}/crates/{crate}/specs"
    for folder, folders, names in os.walk(specs):
        folders.sort()
        for name in sorted(it for it in names if it.endswith(".antt")):
            with open(f"{folder}/{name}", encoding="utf-8") as file:
                lines = file.read().split("\n")
            if any(it.strip() and not re.match(r"--|(pub )?(use|mod)\b", it) for it in lines):
                told = itertools.takewhile(lambda it: it.startswith("--"), lines)
                yield os.path.relpath(f"{folder}/{name}", specs)[: -len(".antt")], " ".join(it[2:].strip() for it in told)


def main(words):
    count = silent = 0
    for crate in crates() if words in ([], ["all"]) else words:
        found = list(files(crate))
        if words and found:
            print(f"# {crate}\n")
        for name, told in found:
            count += 1
            silent += not told
            if words:
                print(f"- `{name}`: {told}")
            elif not told:
                print(f"crates/{crate}/specs/{name}.antt does not say what it defines")
        if words and found:
            print()
    if not words:
        print(f"definitions.py: {count} files of specs/, {silent} of which do not say what they define")
    return 1 if silent else 0


if __name__ == "__main__":
    sys.exit(main(sys.argv[1:]))
