#!/usr/bin/env python3
"""properties.py: what each layer promises to the one above it, from the section `What is proved` of each crate's README, in the order of crates.txt.
Without a word it sees that each function, clause and definition that such a table or the one of docs/PROOFS.md names stands in the files that the row names, or
in their crate's specs, and says how many. The status is 1 where one does not, or where a law, a function of some law.rt that nobody calls, has a condition.
`properties.py all` prints the sections, `properties.py CRATE..` those of these crates."""

import os
import re
import sys

TOP = os.path.dirname(os.path.dirname(os.path.realpath(__file__)))
HEAD = "| promise | function: clauses | file of `src/` |"
PAGE = "docs/PROOFS.md"
HEAD_OF_PAGE = "| promise | function: clauses | file |"
SECTION = re.compile(r"^## (?!.*\bnot\b).*proved\b.*$", re.MULTILINE | re.IGNORECASE)


def text_of(path):
    with open(path, encoding="utf-8") as file:
        return file.read()


def crates():
    return [it[0] for line in text_of(f"{TOP}/crates.txt").split("\n") if (it := re.match(r"\w+", line))]


def section(crate):
    """What the crate's README says is proved; empty where it has no such section."""
    page = text_of(f"{TOP}/crates/{crate}/README.md")
    head = SECTION.search(page)
    if not head:
        return ""
    end = page.find("\n## ", head.end())
    return page[head.end() : end if end >= 0 else len(page)].strip()


def rows(part, head):
    """The rows of a table of promises with this head, each as its three cells."""
    _, found, table = part.partition(head)
    for line in table.split("\n")[2:] if found else []:
        if not line.startswith("|"):
            return
        yield [it.strip() for it in re.split(r"(?<!\\)\|", line)[1:-1]]


def definitions(crate):
    """The text of the crate's specs, whose records have clauses, too."""
    for folder, _, names in os.walk(f"{TOP}/crates/{crate}/specs"):
        yield from (text_of(f"{folder}/{name}") for name in sorted(names) if name.endswith(".antt"))


def files_of(own, cell):
    """The crate and the path of each file that a row names. One without a folder is of the README's crate, on the page of all crates of the one named before."""
    last = own
    for name in re.findall(r"`([\w/]+\.rt)`", cell):
        of, _, file = name.rpartition("/src/")
        last = own or of or last
        yield of or last, f"{TOP}/crates/{of or last}/src/{file or name}"


def fault_of(own, by, cell):
    """What is wrong with a row; empty where nothing is."""
    files = list(files_of(own, cell))
    if not files or not all(os.path.isfile(path) for _, path in files):
        return "there is no such file"
    named = {own} if own else {crate for crate, _ in files}
    texts = [text_of(path) for _, path in files] + [it for crate in named for it in definitions(crate)]
    found = named | set(re.findall(r"\w+", " ".join(texts)))
    lacking = [it for it in re.findall(r"\w+", " ".join(re.findall(r"`([^`]*)`", by))) if it not in found]
    return f"it has no {', '.join(lacking)}" if lacking else ""


def laws():
    """The crates and the files of the laws. What they say holds whether they are called or not, if they have no condition."""
    for crate in crates():
        for name in ("law.rt", "laws.rt"):
            if os.path.isfile(path := f"{TOP}/crates/{crate}/src/{name}"):
                yield crate, text_of(path)


def main(words):
    if words:
        for crate in crates() if words == ["all"] else words:
            if part := section(crate):
                print(f"# {crate}\n\n{part}\n")
        return 0
    tables = [(crate, rows(section(crate), HEAD)) for crate in crates()] + [("", rows(text_of(f"{TOP}/{PAGE}"), HEAD_OF_PAGE))]
    count = wrong = 0
    for own, table in tables:
        for promise, by, cell in table:
            count += 1
            if fault := fault_of(own, by, cell):
                wrong += 1
                print(f"{own or PAGE}: {cell}: {fault}: {promise[:80]}")
    for crate, text in laws():
        if re.search(r"^[^/]*\brequires\b", text, re.MULTILINE):
            wrong += 1
            print(f"{crate}: a law has a condition")
    print(f"properties.py: {count} promises by function and clause, {wrong} of them name what is not there")
    return 1 if wrong or not count else 0


if __name__ == "__main__":
    sys.exit(main(sys.argv[1:]))
