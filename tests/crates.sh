#!/usr/bin/env bash
# crates.sh: says where crates.txt names for a crate a library that none of its files cites. Each such name makes a build of all that stands above it slower.
# Then it sees that docs/ARCHITECTURE.md has a link to each crate. `crates.sh all` prints what each says of itself first, in the order of crates.txt.
# Last it lists where a crate names another one of crates.txt because of one name or two: such an edge may be an accident. The list fails nothing.
# It says of each whether the crate waits for the other one because of that alone. Else the other one is below one that is named, too.
# It counts the names that the crate's files import from the other, and those that code cites by path. A module that is imported whole counts as one.
set -euo pipefail

top=$(dirname -- "$(dirname -- "$(readlink -f -- "${BASH_SOURCE[0]}")")")
cd -- "$top"

# Whether a file of a crate cites a library: in code by its path or an import, in a contract or a proof by its module.
cites() {
    local folders=() folder
    for folder in crates/"$1"/{src,specs,proofs}; do
        [[ ! -d $folder ]] || folders+=("$folder")
    done
    grep -rqE --include='*.rt' --include='*.antt' "\\b$2::|\\buse $2\\b|\\bRattle\\.$2\\." "${folders[@]}"
}

# What the lines `//!` at the head of the crate's root say.
purpose() {
    local root=crates/$1/src/lib.rt
    [[ -f $root ]] || root=crates/$1/src/main.rt
    sed -n '/^\/\/!/!q; s/^\/\/! //p' "$root" | paste -sd ' '
}

if [[ ${1-} == all ]]; then
    while read -r name _; do
        [[ -n $name && $name != '#'* ]] || continue
        echo "${name%:}: $(purpose "${name%:}")"
    done < crates.txt
    exit 0
fi

# The edges that rest on fewer than three names, each with these names.
thin() {
    python3 - << 'END'
import os
import re

with open("crates.txt", encoding="utf-8") as file:
    edges = dict((it[1], it[2].split()) for line in file if (it := re.match(r"(\w+)[^:#]*:(.*)", line)))


def items(text):
    """The items between braces, of which each may have braces of its own."""
    return [" ".join(it.split()) for it in re.split(r",(?![^{]*\})", text) if it.strip()]


def names(crate):
    """For each library what the crate's files import from it."""
    found = {}
    for part in ("src", "specs", "proofs"):
        for folder, _, files in os.walk(f"crates/{crate}/{part}"):
            for name in (it for it in files if it.endswith((".rt", ".antt"))):
                with open(f"{folder}/{name}", encoding="utf-8") as file:
                    text = file.read()
                for it in re.finditer(r"\buse Rattle\.(\w+)\.([^\s;{]*)(?:\{([^}]*)\})?", text):
                    found.setdefault(it[1], set()).update(it[2] + one for one in items(it[3] or "") or [""])
                if name.endswith(".rt"):
                    for it in re.finditer(r"\buse (\w+)::(?:\{([^;]*)\}|([^;]*));", text):
                        found.setdefault(it[1], set()).update("::" + one for one in items(it[2] or it[3]))
                    for it in re.finditer(r"(?<!use )(?<!::)\b(\w+)::(\w+)", text):
                        found.setdefault(it[1], set()).add("::" + it[2])
    return found


def is_below(library, crate):
    """Whether the library is below another one that the crate names."""
    below, left = set(), [it for it in edges[crate] if it != library]
    while left:
        it = left.pop()
        if it in edges and it not in below:
            below.add(it)
            left += edges[it]
    return library in below


few = [(crate, library, told) for crate, libraries in edges.items() for had in [names(crate)] for library in libraries
       if library in edges and len(told := had.get(library, set())) < 3]
waits = [(crate, library) for crate, library, _ in few if not is_below(library, crate)]
for crate, library, told in few:
    print(f"crates.txt: {crate} {'waits for' if (crate, library) in waits else 'names'} {library} for {', '.join(sorted(told))}")
print(f"crates.sh: {len(few)} of {sum(it in edges for its in edges.values() for it in its)} edges rest on fewer than three names, {sum(len(it[2]) == 1 for it in few)} on one; "
      f"a crate waits because of {len(waits)} of these, {sum(len(it[2]) == 1 and (it[0], it[1]) in waits for it in few)}")
END
}

status=0
while read -r name libraries; do
    [[ -n $name && $name != '#'* ]] || continue
    name=${name%:}
    if [[ -z $(purpose "$name") ]]; then
        echo "$name does not say what it is for"
        status=1
    fi
    if ! grep -qF "[\`$name\`](../crates/$name/README.md)" docs/ARCHITECTURE.md; then
        echo "docs/ARCHITECTURE.md has no link to $name"
        status=1
    fi
    libraries=${libraries#staticlib:}
    for library in $libraries; do
        if ! cites "$name" "$library"; then
            echo "crates.txt: $name names $library and cites it nowhere"
            status=1
        fi
    done
done < crates.txt

thin
exit "$status"
