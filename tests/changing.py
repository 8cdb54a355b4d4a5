#!/usr/bin/env python3
"""changing.py [PAGE]: sees that each walk of docs/CHANGING.md names every file in which its model stands.

A walk with a model has a first sentence such as "`Word`, in C `MG_WORD`, is a good model". A file is named by its path, or by a folder or
a pattern that it is in. `a/{b,c}.rt` are two files. A path that begins within a crate, as `specs/Apply.antt`, is of the crate named before it, and
the target of a link is seen from docs/. The status is 1 where a walk leaves a file out, or names one that is not there."""

import fnmatch
import os
import re
import sys

TOP = os.path.dirname(os.path.dirname(os.path.realpath(__file__)))
PAGE = "docs/CHANGING.md"
LOOKED_AT = ("README.md", "capi", "completions", "crates", "docs", "examples", "man", "tests")
IN_A_CRATE = ("src", "specs", "proofs", "must-fail", "wrong", "baseline", "README.md")


def files():
    """All files of the repository that a change may touch, but for what was built."""
    for path in LOOKED_AT:
        if os.path.isfile(f"{TOP}/{path}"):
            yield path
        for at, folders, names in os.walk(f"{TOP}/{path}"):
            folders[:] = [it for it in folders if it not in ("out", "__pycache__")]
            yield from (os.path.relpath(f"{at}/{name}", TOP) for name in names)


def texts():
    """The text of each file, by its path."""
    found = {}
    for path in files():
        if path != PAGE:
            with open(f"{TOP}/{path}", encoding="utf-8", errors="replace") as it:
                found[path] = it.read()
    return found


def walks(page):
    """The name, the models and the text of each walk that has a model."""
    for section in re.split(r"^## ", page, flags=re.M)[1:]:
        name, _, text = section.partition("\n")
        begin = re.search(r"^([^.]*?) (?:is a good model|are good models)\b", text, re.M)
        if begin:
            yield name, re.findall(r"`(\w+)`", begin[1]), text


def spread(path):
    """A path with braces, as the paths that it stands for."""
    braces = re.search(r"\{([^{}]*)\}", path)
    if not braces:
        return [path]
    return [it for word in braces[1].split(",") for it in spread(path[: braces.start()] + word.strip() + path[braces.end() :])]


def named(text):
    """The files, folders and patterns that a walk names."""
    crate = ""
    for it in re.finditer(r"`([^`\s]+/[^`]*|README\.md)`|\]\(([\w./]+\.md)", text):
        for path in spread(it[1] or os.path.normpath(f"docs/{it[2]}")):
            path = path.strip()
            top = path.split("/")[0]
            if top == "crates":
                crate = "/".join(path.split("/")[:2])
                yield path
            elif it[1] and top in IN_A_CRATE and crate:
                yield f"{crate}/{path}"
            elif top in LOOKED_AT:
                yield path


def covers(name, path):
    name = name.rstrip("/")
    return path == name or path.startswith(f"{name}/") or fnmatch.fnmatchcase(path, name)


def main(page):
    with open(page, encoding="utf-8") as it:
        found = list(walks(it.read()))
    everything = texts()
    told = [f"{PAGE}: no walk has a model"] if not found else []
    for walk, models, text in found:
        names = list(named(text))
        told += [f"{walk}: {it} is not there" for it in names if not any(covers(it, path) for path in everything)]
        for model in models:
            word = re.compile(rf"(?<!\w){model}(?!\w)")
            held = sorted(path for path, it in everything.items() if word.search(it))
            told += [f"{walk}: {path} has {model} and is not named" for path in held if not any(covers(it, path) for it in names)]
            told += [f"{walk}: no file has {model}"] if not held else []
    for it in told:
        print(it)
    print(f"changing.py: {len(found)} walks, {len(told)} faults")
    return 1 if told else 0


if __name__ == "__main__":
    sys.exit(main(sys.argv[1] if len(sys.argv) > 1 else f"{TOP}/{PAGE}"))
