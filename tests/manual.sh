#!/usr/bin/env bash
# The manual pages: no formatter that is installed has anything to say about one, and at 60 and at 80 columns no line is longer than that.
set -uo pipefail

pages=$(dirname -- "$(dirname -- "$(readlink -f -- "${BASH_SOURCE[0]}")")")/man
failed=0

# quiet NAME WORD..: the words tell nothing on standard error, and nothing on standard output that `less` was not to show.
quiet() {
    local told
    command -v "$1" >/dev/null || return
    tried+=" $1"
    if ! told=$("$@" 2>&1 >/dev/null) || [[ -n $told ]]; then
        echo "$*: $told"
        wrong=1
    fi
}

# mandoc tells what it finds on standard output.
lint() { mandoc -Tlint -Wwarning "$page" >&2; }

# fits WIDTH: a line that is longer would be cut, or broken where the page did not mean it.
fits() {
    local line told
    tried+=" $1 columns"
    if ! told=$(groff -ww -mdoc -Tutf8 -P-cbou -rLL="$1"n -rLT="$1"n "$page" 2>&1) || [[ -z $told ]]; then
        echo "$page at $1 columns: $told"
        wrong=1
    fi
    while IFS= read -r line; do
        if [[ ${#line} -gt $1 ]]; then
            echo "${page##*/}: ${#line} columns, not $1: $line"
            wrong=1
        fi
    done <<<"$told"
}

# Characters are counted, not bytes.
export LC_ALL=C.UTF-8
for page in "$pages"/*; do
    tried="" wrong=0
    # Another man than that of man-db knows no such words.
    if man --version >/dev/null 2>&1; then
        quiet man --warnings -l "$page"
        for width in 60 80; do quiet env MANWIDTH="$width" man --warnings -l "$page"; done
    fi
    quiet groff -ww -mdoc -Tutf8 -z "$page"
    if command -v mandoc >/dev/null; then quiet lint; fi
    if command -v groff >/dev/null; then
        fits 60
        fits 80
    fi
    tried=${tried// env/}
    echo "man/${page##*/}:${tried:- no formatter}, $([[ $wrong -eq 0 ]] && echo nothing to say || echo see above)"
    failed=$((failed | wrong))
done
[[ -n $tried ]] || echo "left out: manual.sh: there is no formatter of manual pages"
exit "$failed"
