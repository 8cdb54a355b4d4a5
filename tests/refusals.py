#!/usr/bin/env python3
"""refusals.py: compares the numbers and names of the refusals, wherever they stand, with one list, and then sees that a wrong number is noticed in
each place.

The list is what the definitions and the program have: specs/ of lock_command (the lock table), of attempt (an operation of a host) and of
folders (an image), which the code is proved to follow, and the texts of the program's own faults in dlm_tasks. The status is 1 where a refusal
is missing, doubled, or has another number or name."""

import os
import re
import sys
from collections import Counter

TOP = os.path.dirname(os.path.dirname(os.path.realpath(__file__)))
SPECS = {
    "table": "crates/lock_command/specs/Refusals.antt",
    "operation": "crates/attempt/specs/Refusals.antt",
    "image": "crates/folders/specs/ImageFaults.antt",
}
PROGRAM = "crates/dlm_tasks/src/fault.rt"
THREADS = "crates/dlm/specs/RaceText.antt"
REFUSALS = "docs/REFUSALS.md"
SCRIPTS = "docs/SCRIPTS.md"
HEADER = "capi/include/midgegalena.h"
ROW = r"^\| (?P<number>\d+) \| `(?P<name>\w+)[^`]*` \|"
TEXT = r'"(?P<number>\d+) (?P<name>[A-Z]\w+)'
# What only a script can meet, and no command over a folder.
SCRIPTS_ALONE = {"NotLearned"}
# Folders and files where each number that stands before a name is looked at.
PAGES = ("README.md", "docs", "man", "capi", "completions", "examples", "tests")
CRATES = ("README.md", "baseline")


class Tree:
    """The files of the repository, one of them perhaps changed."""

    def __init__(self, path=None, text=None):
        self.changed = {path: text}

    def read(self, path):
        if path in self.changed:
            return self.changed[path]
        with open(f"{TOP}/{path}", encoding="utf-8") as it:
            return it.read()


def camel(symbol):
    """MG_NOT_A_COMMAND is NotACommand in C."""
    return "".join(word.capitalize() for word in symbol.split("_"))


def part_of(text, begin, end):
    """What stands between two marks."""
    at = text.index(begin) + len(begin) if begin else 0
    return at, text.index(end, at) if end else len(text)


class Place:
    """A file, or a part of one, that has numbers and names of refusals."""

    def __init__(self, path, pattern, has, may=(), begin="", end="", repeats=False):
        self.path, self.pattern, self.has, self.may = path, re.compile(pattern, re.M), has, may
        self.begin, self.end, self.repeats = begin, end, repeats

    def matches(self, tree):
        text = tree.read(self.path)
        at, to = part_of(text, self.begin, self.end)
        # 0 is no refusal.
        return text, [it for it in self.pattern.finditer(text, at, to) if it.groupdict().get("number") != "0"]

    def wrong(self, tree, lists):
        text, found = self.matches(tree)
        wanted = Counter(pair for kind in self.has for pair in lists[kind])
        allowed = set(wanted) | {pair for kind in self.may for pair in lists[kind]}
        numbers = {name: number for pairs in lists.values() for number, name in pairs}
        told, seen = [], Counter()
        for it in found:
            place = f"{self.path}:{text.count(chr(10), 0, it.start()) + 1}"
            words = it.groupdict()
            name = words.get("name") or camel(words["symbol"])
            number = int(words["number"]) if "number" in words else numbers.get(name, 0)
            seen[(number, name)] += 1
            if (number, name) not in allowed:
                told.append(f"{place}: {number} {name} is no refusal that belongs here")
            elif not self.repeats and seen[(number, name)] > max(wanted[(number, name)], 1):
                told.append(f"{place}: {number} {name} stands here twice")
            if "symbol" in words and camel(words["symbol"]) != name:
                told.append(f"{place}: {words['symbol']} is not {name}")
        for (number, name), times in wanted.items():
            if seen[(number, name)] < (1 if self.repeats else times):
                told.append(f"{self.path}: {number} {name} is missing")
        return told


def spec_pairs(text, path):
    """The pairs of a file of specs, and what is wrong with its two tables."""
    numbers = re.findall(r"^\w+_number (\w+) = (\d+)$", text, re.M)
    names = re.findall(r'^\w+_name (\w+) = codes "(\w+)"$', text, re.M)
    told = [f"{path}: {variant} has the name {name}" for variant, name in names if variant != name]
    if [it for it, _ in numbers] != [it for it, _ in names]:
        told.append(f"{path}: the numbers and the names are not of the same refusals")
    return [(int(number), name) for name, number in numbers], told


def lists_of(tree):
    """The list, by kind, and what is wrong with it."""
    lists, told = {}, []
    for kind, path in SPECS.items():
        lists[kind], wrong = spec_pairs(tree.read(path), path)
        told += wrong
    lists["program"] = [(int(n), name) for n, name in re.findall(r'#\[error\("(\d+) (\w+)', tree.read(PROGRAM))]
    threads = re.findall(r'^host_fault_text \w+\.\w+ = codes "(\d+) (\w+)"$', tree.read(THREADS), re.M)
    lists["threads"] = [(int(n), name) for n, name in threads]
    told += [f"{THREADS}: {n} {name} is no text of {PROGRAM}" for n, name in lists["threads"] if (n, name) not in lists["program"]]
    apart = set(lists["threads"]) - {it for it in lists["threads"] if it[1] == "NoMemory"}
    lists["own"] = [it for it in lists["program"] if it not in apart]
    lists["folder"] = [it for it in lists["operation"] if it[1] not in SCRIPTS_ALONE]
    lists["no memory"] = [it for it in lists["program"] if it[1] == "NoMemory"]
    pairs = {pair for kind in (*SPECS, "program") for pair in lists[kind]}
    device = tree.read(SCRIPTS).partition("## A device call")[2]
    pairs |= {(int(it["number"]), it["name"]) for it in re.finditer(ROW, device, re.M)}
    told += [f"the number {n} has several names" for n, times in Counter(n for n, _ in pairs).items() if times > 1]
    told += [f"{name} has several numbers" for name, times in Counter(name for _, name in pairs).items() if times > 1]
    for kind in (*SPECS, "program"):
        if not lists[kind]:
            told.append(f"no refusal is found of the kind {kind}")
        told += [f"{n} {name} is defined twice" for (n, name), times in Counter(lists[kind]).items() if times > 1]
    return lists, told


C_ENUM = Place(HEADER, r"^ +MG_(?P<symbol>[A-Z_]+) = (?P<number>\d+)", ["table", "folder", "image"], ["program"], begin="enum mg_outcome {", end="};")
C_TEXTS = Place("capi/src/midgegalena.c", r'\{MG_(?P<symbol>[A-Z_]+), "(?P<name>\w+)",', ["table", "folder", "image"], ["program"], begin="MEANINGS[] = {", end="};")
PLACES = (
    Place(REFUSALS, ROW, ["operation"], begin="## An operation of a host", end="\n## "),
    Place(REFUSALS, ROW, ["table"], begin="## The lock table", end="\n## "),
    Place(REFUSALS, ROW, ["own", "image"], begin="## The program"),
    Place(SCRIPTS, ROW, ["threads"], begin="## Host threads", end="\n## "),
    Place("man/dlm.1", r"^\.It Li (?P<number>\d+) (?P<name>\w+)", ["table", "folder", "program", "image"], begin=".Sh DIAGNOSTICS"),
    C_ENUM,
    C_TEXTS,
    Place("tests/lock_log.py", TEXT, ["table"], repeats=True),
    Place("crates/bench/baseline/scripts.rs", r'Refused\((?P<number>\d+), "(?P<name>\w+)"\)', [], ["operation"], repeats=True),
    Place("crates/bench/baseline/lock_tables.rs", r"^    (?P<name>\w+),$", ["table"], begin="pub enum Refusal {", end="}"),
    Place("crates/dlm/src/racing.rt", TEXT, ["threads"]),
    Place("capi/examples/rust/guard.rs", r"^const (?P<symbol>[A-Z_]+): c_int = (?P<number>\d+);", [], ["table"], repeats=True),
    Place("crates/c_host/src/fault.rt", r"Fault::(?P<name>NoMemory) => (?P<number>\d+)", ["no memory"]),
)
PYTHON = "capi/python/midgegalena/__init__.py"
# Pages about C, and what the names on them are taken from: headers, and the variables of mg-lock.
SYMBOLS = ("man/midgegalena.3", "man/mg_session.3", "man/mg-lock.1", "docs/LIBRARY.md")
NAMED = (HEADER, "capi/include/mg_session.h", "capi/src/mg-lock.c")


def header_and_texts(tree):
    """The header and the table of texts in C have the same refusals."""
    symbols, texts = ({it["symbol"] for it in place.matches(tree)[1]} for place in (C_ENUM, C_TEXTS))
    told = [f"{C_TEXTS.path}: MG_{it} has no text" for it in sorted(symbols - texts)]
    return told + [f"{HEADER}: MG_{it} is missing" for it in sorted(texts - symbols)]


def python_names(tree, lists):
    """The names that the binding for Python takes over from the header."""
    numbers = {name: number for pairs in lists.values() for number, name in pairs}
    told = []
    line = re.search(r"^(OK, .*) = (.*)$", tree.read(PYTHON), re.M)
    names, values = line[1].split(", "), [int(it) for it in line[2].split(", ")]
    for name, value in zip(names, values, strict=True):
        if value > 0 and numbers.get(camel(name)) != value:
            told.append(f"{PYTHON}: {name} = {value}")
    return told


def symbols_known(tree):
    """The pages about C name nothing that C does not have."""
    named = lambda path: set(re.findall(r"\bMG_[A-Z_]+", re.sub(r"^\.Dt .*", "", tree.read(path), flags=re.M)))
    known = set().union(*map(named, NAMED))
    return [f"{path}: {it} is in none of {' '.join(NAMED)}" for path in SYMBOLS for it in sorted(named(path) - known)]


def files():
    """The pages and tests in which numbers stand before names."""
    found = [f"crates/{crate}/{it}" for crate in sorted(os.listdir(f"{TOP}/crates")) for it in CRATES]
    for path in (*PAGES, *found):
        if os.path.isfile(f"{TOP}/{path}"):
            yield path
        for at, folders, names in os.walk(f"{TOP}/{path}"):
            folders[:] = sorted(it for it in folders if it != "out")
            for name in sorted(names):
                yield os.path.relpath(f"{at}/{name}", TOP)


def pairs_in_text(tree, lists, paths):
    """Each number that stands before a refusal's name is its number."""
    numbers = {name: number for pairs in lists.values() for number, name in pairs}
    pattern = re.compile(r"(?<![\w.])(\d+) (%s)\b" % "|".join(sorted(numbers)))
    told = []
    for path in paths:
        try:
            text = tree.read(path)
        except UnicodeDecodeError:
            continue
        for it in pattern.finditer(text):
            if numbers[it[2]] != int(it[1]):
                told.append(f"{path}:{text.count(chr(10), 0, it.start()) + 1}: {it[0]}, and its number is {numbers[it[2]]}")
    return told


def wrong_in(tree, paths):
    lists, told = lists_of(tree)
    for place in PLACES:
        told += place.wrong(tree, lists)
    return told + header_and_texts(tree) + python_names(tree, lists) + symbols_known(tree) + pairs_in_text(tree, lists, paths)


def changed(text, it):
    """A text with one number changed, or one name where a place has no numbers; with a refusal left out; and with one doubled."""
    group = "number" if "number" in it.groupdict() else "name"
    begin, end = it.span(group)
    other = "99" if group == "number" else "Other"
    line, after = text.rfind("\n", 0, it.start()) + 1, text.find("\n", it.end()) + 1
    yield "another " + group, text[:begin] + other + text[end:]
    if text[line:after].count(it[0]) == 1 and len(text[line:after]) < 2000:
        yield "left out", text[:line] + text[after:]
        yield "doubled", text[:after] + text[line:after] + text[after:]


def unnoticed():
    """What may be changed with nothing noticed: one refusal in each place, and in each file of the list."""
    whole, told, tried = Tree(), [], 0
    spots = []
    for place in PLACES:
        text, found = place.matches(whole)
        spots += [(place.path, text, it, place.repeats) for it in (found[0], found[-1])]
    for path, pattern in [(it, r"^\w+_number (?P<name>\w+) = (?P<number>\d+)$") for it in SPECS.values()] + [
        (PROGRAM, r'#\[error\("(?P<number>\d+) (?P<name>\w+)'),
        (THREADS, r'^host_fault_text \w+\.\w+ = codes "(?P<number>\d+) (?P<name>\w+)"$'),
        (PYTHON, r"(?P<name>NO_SUCH_LOCK) = .*, (?P<number>\d+)$"),
        ("tests/program.py", r"dlm: (?P<number>36) (?P<name>HostInUse)"),
        ("docs/OPERATIONS.md", r"`(?P<number>36) (?P<name>HostInUse)"),
    ]:
        text = whole.read(path)
        spots.append((path, text, re.search(pattern, text, re.M), True))
    for path, text, it, repeats in spots:
        for what, other in changed(text, it):
            if repeats and not what.startswith("another"):
                continue
            tried += 1
            if not wrong_in(Tree(path, other), [path]):
                told.append(f"{path}: {it[0].strip()!r}: {what} is not noticed")
    return told, tried


def main():
    told = wrong_in(Tree(), list(files()))
    tried = 0
    if not told:
        told, tried = unnoticed()
    for it in told:
        print(it)
    print(f"refusals.py: {len(told)} faults, {tried} changes tried")
    return 1 if told else 0


if __name__ == "__main__":
    sys.exit(main())
