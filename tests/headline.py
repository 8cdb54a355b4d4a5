#!/usr/bin/env python3
"""headline.py: what the headline rests on. Follows each name from `Headline`, `HeadlineOfEvents` and `HeadlineOfMigrated` through the `use` lines
of specs/, and compares the table of docs/PROOFS.md with what it finds: the files, and the round figures above the table. The status is 1 where
they differ, or where a file of the headline does not say in its first line that it is one, or another file does. `headline.py all` prints each definition
with its file and its lines."""

import glob
import os
import re
import sys

TOP = os.path.dirname(os.path.dirname(os.path.realpath(__file__)))
PAGE = "docs/PROOFS.md"
FIRST = [("world", "Headline", name) for name in ("Headline", "HeadlineOfEvents", "HeadlineOfMigrated")]

HEAD = re.compile(r"(?:abbrev |unfoldable )*(?:pub )?(?:(?:data|record) )?([\w◌]\S*)")
USE = re.compile(r"(?:pub |ghost )?use Rattle\.(\w+)\.specs\.([\w.]+?)(?:\.\{(.*)\}| as (\w+)|)$")
# A name, which may stand after that of a module, or an operator. What stands after the dot of `this.that` is a field where `this` is no module.
NAME = re.compile(r"(?:(\w+)\.)?(\w+)(?:\.\w+)*|([<>=+*&|-]+)")


class File:
    """A file of specs/: the lines of each definition without comments, what declares each name, and what the names of other files are."""

    def __init__(self, path):
        self.lines, self.within, self.names, self.modules = {}, {}, {}, {}
        with open(path, encoding="utf-8") as file:
            text = file.read()
        now = None
        for line in text.split("\n"):
            if used := USE.match(line):
                self.use(*used.groups())
            elif line.strip() and not line.lstrip().startswith("--") and not re.match(r"(pub )?(use|mod)\b|infix", line):
                if head := HEAD.match(line):
                    now = head[1]
                self.lines.setdefault(now, []).append(line)
        for name, lines in self.lines.items():
            if re.match(r"(abbrev |unfoldable )*(pub )?data ", lines[0]):
                self.within |= {case[1]: name for it in lines[1:] if (case := re.match(r"  (\w+) :", it))}

    def use(self, crate, module, names, alias):
        if alias:
            self.modules[alias] = (crate, module)
        for it in (names or "").split(","):
            name, _, own = it.strip().partition(" as ")
            self.names[own or name] = (crate, module, name)


class Specs:
    """All files of specs/, each read once."""

    def __init__(self):
        self.files = {}

    def of(self, crate, module):
        path = f"{TOP}/crates/{crate}/specs/{module.replace('.', '/')}.antt"
        if path not in self.files:
            self.files[path] = File(path) if os.path.isfile(path) else None
        return self.files[path]

    def definition(self, crate, module, name):
        """Where a name is defined, by way of the files that hand it on; None where that is in src/ or the library."""
        file = self.of(crate, module)
        if file and name in file.lines:
            return crate, module, name
        if file and name in file.within:
            return crate, module, file.within[name]
        if file and name in file.names:
            return self.definition(*file.names[name])
        return None

    def cited(self, crate, module, name):
        """The definitions that one names."""
        file = self.of(crate, module)
        for line in file.lines[name]:
            for before, it, operator in NAME.findall(line.split("--")[0]):
                if operator:
                    yield self.definition(crate, module, f"◌{operator}◌")
                elif before in file.modules:
                    yield self.definition(*file.modules[before], it)
                else:
                    yield self.definition(crate, module, before or it)


def reached(specs):
    found, left = set(FIRST), list(FIRST)
    while left:
        for it in specs.cited(*left.pop()):
            if it and it not in found:
                found.add(it)
                left.append(it)
    return found


def run_of(names, chosen):
    """Names as the page says them, those that stand in a row in the file as `first` to `last`."""
    told, at = [], 0
    while at < len(names):
        end = at
        while end < len(names) and names[end] in chosen:
            end += 1
        if end - at > 3:
            told.append(f"`{names[at]}` to `{names[end - 1]}`")
        else:
            told += [f"`{it}`" for it in names[at:end]]
        at = end + 1
    return ", ".join(told)


def table(specs, found):
    """The rows of the page, from the headline's crate down: for each crate its files, and which of their definitions count."""
    with open(f"{TOP}/crates.txt", encoding="utf-8") as file:
        crates = [it[0] for line in file if (it := re.match(r"\w+", line))]
    for crate in reversed(crates):
        parts = []
        for module in sorted({it[1] for it in found if it[0] == crate}):
            names = list(specs.of(crate, module).lines)
            counted = [it for it in names if (crate, module, it) in found]
            others = [it for it in names if it not in counted]
            if not others:
                how = ""
            elif len(others) < len(counted):
                how = f" without {run_of(names, others)}"
            else:
                how = f": {run_of(names, counted)}"
            parts.append(f"`{module.replace('.', '/')}`{how}")
        if parts:
            yield f"| `{crate}` | {'; '.join(parts)} |"


def first_lines(found):
    """The files whose first line says otherwise than what was found."""
    wanted = {f"{TOP}/crates/{crate}/specs/{module.replace('.', '/')}.antt" for crate, module, _ in found}
    for path in sorted(glob.glob(f"{TOP}/crates/*/specs/**/*.antt", recursive=True)):
        with open(path, encoding="utf-8") as file:
            if file.readline().startswith("-- Of the headline. ") != (path in wanted):
                yield f"{os.path.relpath(path, TOP)}: its first line has to {'begin' if path in wanted else 'begin otherwise than'} with `-- Of the headline. `"


def main():
    specs = Specs()
    found = reached(specs)
    sizes = {it: len(specs.of(*it[:2]).lines[it[2]]) for it in found}
    if sys.argv[1:] == ["all"]:
        for crate, module, name in sorted(found):
            print(f"{crate}/specs/{module.replace('.', '/')}.antt: {name}: {sizes[crate, module, name]}")
    wrong = list(first_lines(found))
    for line in wrong:
        print(f"headline.py: {line}")
    lines, files = sum(sizes.values()), len({it[:2] for it in found})
    figures = f"{len(found)} definitions, {lines:,} lines without comments, {files} files"
    # The page has round figures: a line more or less in a definition is no change of the page.
    wanted = [f"**Some {round(len(found), -1)} definitions, {round(lines, -2):,} lines without comments, {files} files:**", "", "| crate | files of `specs/` |", "|---|---|", *table(specs, found), ""]
    with open(f"{TOP}/{PAGE}", encoding="utf-8") as file:
        if "\n".join(wanted) in file.read():
            print(f"headline.py: {figures}, as {PAGE} says")
            return 1 if wrong else 0
    print("\n".join(wanted))
    print(f"headline.py: {PAGE} has other lines than these")
    return 1


if __name__ == "__main__":
    sys.exit(main())
