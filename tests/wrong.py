#!/usr/bin/env python3
"""wrong.py: the wrong bodies and definitions of wrong/, which `rt ci` does not try, and when they are due.

    wrong.py                what is due, and why; and whether each edit of wrong/ and of must-fail/ can still be applied
    wrong.py try CRATE..    has the checker try what is due in these crates (`all`: in each; where nothing is due, all of wrong/), and records in wrong/tried what it refused
    wrong.py note CRATE..   records the same of what `rt ci` or `rt must-fail` printed on standard input, over a copy of these very crates
    wrong.py put            puts a copy of the edits that are due into must-fail/, where `rt ci` tries them: as many crates as have 50 together
    wrong.py back           takes these copies out again

An edit is due where it, or its crate's src/, specs/ or proofs/, differs from what wrong/tried says was tried, but for lines that are comments. In turn, one crate in twelve is due
each day with all its edits, for a change of the crates below it could let a wrong body through. With WRONG=all in the environment each edit is due.

A run of the gate has a limited time. So `put` leaves out the crates that have too many edits, and says which. They stay due, and each day `put` begins with another crate.
With WRONG=all none is left out.
"""
import datetime
import hashlib
import os
import re
import shutil
import subprocess
import sys
import tempfile

TOP = os.path.dirname(os.path.dirname(os.path.realpath(__file__)))
TURNS = 12
# So many edits of wrong/ one run of the gate tries at most.
LIMIT = int(os.environ.get("WRONG_LIMIT", "50"))


def edits_of(crate, part="wrong"):
    folder = f"{TOP}/crates/{crate}/{part}"
    return sorted(it for it in os.listdir(folder) if it.endswith(".edit")) if os.path.isdir(folder) else []


def crates():
    return [it for it in sorted(os.listdir(f"{TOP}/crates")) if edits_of(it)]


def text_of(file):
    with open(file, encoding="utf-8") as it:
        return it.read()


def files_of(crate):
    """The files that decide, with an edit, whether it is refused, but for those of the crates below."""
    top = f"{TOP}/crates/{crate}"
    for part in ("src", "specs", "proofs"):
        for folder, folders, names in os.walk(f"{top}/{part}"):
            folders.sort()
            yield from (os.path.relpath(f"{folder}/{name}", top) for name in sorted(names))


def checked_text(path, text):
    """What the checker sees of a file: all lines but those that are comments, and those in which nothing stands."""
    comment = {".rt": "//", ".antt": "--"}.get(os.path.splitext(path)[1])
    return [line for line in text.split("\n") if comment is None or line.strip() and not line.lstrip().startswith(comment)]


def sums_of(crate):
    """Of each edit the sum of what decides whether it is refused."""
    below, found = hashlib.sha256(crate.encode()), {}
    for path in files_of(crate):
        below.update(repr((path, checked_text(path, text_of(f"{TOP}/crates/{crate}/{path}")))).encode())
    for edit in edits_of(crate):
        own = below.copy()
        own.update(repr((edit, text_of(f"{TOP}/crates/{crate}/wrong/{edit}"))).encode())
        found[edit] = own.hexdigest()[:32]
    return found


def record_of(crate):
    return f"{TOP}/crates/{crate}/wrong/tried"


def recorded(crate):
    """The record's lines that are still so, by edit. Each has the sum, the edit, and the kit that refused it."""
    try:
        lines = text_of(record_of(crate)).splitlines()
    except OSError:
        return {}
    sums = sums_of(crate)
    return {words[1]: line for line in lines if len(words := line.split()) > 2 and sums.get(words[1]) == words[0]}


def not_recorded(crate):
    known = recorded(crate)
    return [it for it in edits_of(crate) if it not in known]


def turns():
    """The crates of each turn, which have about as much to try: the edits of a large crate take longer."""
    much = {it: len(edits_of(it)) * sum(os.path.getsize(f"{TOP}/crates/{it}/{file}") for file in files_of(it)) for it in crates()}
    found = [[] for _ in range(TURNS)]
    for crate in sorted(much, key=lambda it: (-much[it], it)):
        min(found, key=lambda turn: sum(much[it] for it in turn)).append(crate)
    return found


def day():
    given = os.environ.get("WRONG_DAY", "")
    return int(given) if given.isdigit() else datetime.datetime.now(datetime.timezone.utc).toordinal()


def due():
    """The crates with edits that have to be tried now, which these are, and why."""
    in_turn = turns()[day() % TURNS]
    found = []
    for crate in crates():
        missing, turn = not_recorded(crate), "WRONG=all" if os.environ.get("WRONG") == "all" else "in turn" if crate in in_turn else ""
        if missing or turn:
            found.append((crate, edits_of(crate) if turn else missing, "as it is now they were not tried" if missing else turn))
    return found


def parted(found):
    """Of the crates that are due, those that one run of the gate tries, and those that stay due."""
    if os.environ.get("WRONG") == "all" or not found:
        return found, []
    first = day() % len(found)
    taken, left, room = [], [], LIMIT
    for crate, edits, why in found[first:] + found[:first]:
        fits = len(edits) <= room
        (taken if fits else left).append((crate, edits, why))
        room -= len(edits) if fits else 0
    return taken, left


def why_unfit(crate, edit):
    """Why an edit cannot be applied, if it cannot: each `old:` text has to stand once in its file, as the pairs before it left that."""
    texts, path, old, pairs = {}, None, None, 0
    for line in text_of(edit).split("\n"):
        word, _, rest = line.partition(":")
        rest = rest.removeprefix(" ")
        if word == "file":
            path = rest.strip()
            file = f"{TOP}/crates/{crate}/{path}"
            if not os.path.isfile(file):
                return f"there is no file {path}"
            texts.setdefault(path, text_of(file))
        elif word == "old":
            old = rest
        elif word == "new":
            if path is None or not old:
                return "a 'new:' line comes before a 'file:' or an 'old:' line"
            if texts[path].count(old) != 1:
                return f"its old text stands {texts[path].count(old)} times in {path}"
            texts[path], old, pairs = texts[path].replace(old, rest), None, pairs + 1
    return None if pairs else "it changes nothing"


def unfit():
    found = []
    for crate in sorted(os.listdir(f"{TOP}/crates")):
        for part in ("must-fail", "wrong"):
            for edit in edits_of(crate, part):
                why = why_unfit(crate, f"{TOP}/crates/{crate}/{part}/{edit}")
                if why:
                    found.append(f"{crate}/{part}/{edit}: {why}")
    return found


def put():
    taken, left = parted(due())
    for crate, edits, why in left:
        print(f"wrong.py: {crate}: {len(edits)} wrong bodies stay due, since no more fit in one run: {why}")
    for crate, edits, why in taken:
        os.makedirs(f"{TOP}/crates/{crate}/must-fail", exist_ok=True)
        for edit in edits:
            shutil.copyfile(f"{TOP}/crates/{crate}/wrong/{edit}", f"{TOP}/crates/{crate}/must-fail/{edit}")
        print(f"wrong.py: {crate}: {len(edits)} more wrong bodies are tried: {why}")


def back():
    """Nothing stands in both folders but what `put` put there."""
    for crate in crates():
        folder = f"{TOP}/crates/{crate}/must-fail"
        for edit in set(edits_of(crate)) & set(edits_of(crate, "must-fail")):
            os.remove(f"{folder}/{edit}")
        if os.path.isdir(folder) and not os.listdir(folder):
            os.rmdir(folder)


def with_those_below(names):
    """The lines of crates.txt for these crates and all that they stand on."""
    lines = {line.split(":")[0].split()[0]: line for line in text_of(f"{TOP}/crates.txt").split("\n") if ":" in line and not line.startswith("#")}
    found, left = {}, list(names)
    while left:
        crate = left.pop()
        if crate in lines and crate not in found:
            found[crate] = lines[crate]
            left += lines[crate].split(":")[1].split()
    return found


def copy_with(tried, to):
    """Makes a repository of these crates, with these wrong bodies in must-fail/, and of those that they stand on, which have none."""
    needed = with_those_below(tried)
    os.makedirs(f"{to}/.git")
    shutil.copy(f"{TOP}/HANDLES", to)
    with open(f"{to}/crates.txt", "w", encoding="utf-8") as it:
        it.writelines(f"{line}\n" for line in needed.values())
    for crate in needed:
        shutil.copytree(f"{TOP}/crates/{crate}", f"{to}/crates/{crate}", ignore=shutil.ignore_patterns("out", "must-fail", "wrong"))
    for crate, edits in tried.items():
        os.mkdir(f"{to}/crates/{crate}/must-fail")
        for edit in edits:
            shutil.copyfile(f"{TOP}/crates/{crate}/wrong/{edit}", f"{to}/crates/{crate}/must-fail/{edit}")


def refused_by(line):
    return re.findall(r"^rt: must-fail (\w+/\S+\.edit): refused, as it must be", line)


def attempt(names):
    """Tries what is due in these crates, or all of wrong/ where nothing is, and records what was refused. Of what was not the record goes."""
    everything = os.environ.get("WRONG") == "all"
    tried = {it: edits_of(it) if everything else not_recorded(it) or edits_of(it) for it in names}
    sums = {it: sums_of(it) for it in names}
    refused = set()
    with tempfile.TemporaryDirectory() as room:
        copy_with(tried, room)
        with subprocess.Popen(["rt", "ci"], cwd=room, stdin=subprocess.DEVNULL, stdout=subprocess.PIPE, text=True, errors="replace") as ran:
            for line in ran.stdout:
                refused.update(refused_by(line))
                if re.match(r"rt: |\d+ passed", line):
                    print(line, end="", flush=True)
    return record(tried, sums, refused)


def record(tried, sums, refused):
    """Records those of these edits that were refused, if their crates' files have these sums still. Of the others the record goes."""
    version = subprocess.run(["rt", "version"], stdout=subprocess.PIPE, text=True, check=True).stdout.strip()
    missed = False
    for crate, edits in tried.items():
        known, now = recorded(crate), sums_of(crate)
        seen = [it for it in edits if f"{crate}/{it}" in refused and now.get(it) == sums[crate][it]]
        lost = [it for it in edits if it not in seen]
        lines = {it: line for it, line in known.items() if it not in lost} | {it: f"{sums[crate][it]} {it} {version}" for it in seen}
        if lines:
            with open(record_of(crate), "w", encoding="utf-8") as it:
                it.writelines(f"{lines[edit]}\n" for edit in sorted(lines))
        elif os.path.exists(record_of(crate)):
            os.remove(record_of(crate))
        if lost:
            print(f"wrong.py: {crate}: not refused, or changed meanwhile, and so not recorded: {' '.join(lost)}")
        print(f"wrong.py: {crate}: {len(seen)} refused, and recorded")
        missed |= bool(lost)
    return 1 if missed else 0


def main():
    verb, names = (sys.argv[1:] or [""])[0], sys.argv[2:]
    if verb in ("try", "note") and names:
        names = crates() if names == ["all"] else names
        unknown = sorted(set(names) - set(crates()))
        if unknown:
            sys.exit(f"wrong.py: there is no wrong/ in {' '.join(unknown)}")
        if verb == "try":
            return attempt(names)
        refused = {it for line in sys.stdin for it in refused_by(line)}
        told = {it: [edit for edit in edits_of(it) if f"{it}/{edit}" in refused] for it in names}
        record(told, {it: sums_of(it) for it in names}, refused)
        missing = {it: not_recorded(it) for it in names}
        for crate, edits in missing.items():
            if edits:
                print(f"wrong.py: {crate}: still not recorded: {' '.join(edits)}")
        return 1 if any(missing.values()) else 0
    if verb not in ("", "put", "back") or names:
        sys.exit(__doc__)
    if verb == "back":
        back()
        return 0
    found = unfit()
    for line in found:
        print(f"wrong.py: {line}")
    if found:
        return 1
    if verb == "put":
        put()
    else:
        for crate, edits, why in due():
            print(f"{crate}: {len(edits)} are due: {why}")
    return 0


if __name__ == "__main__":
    sys.exit(main())
