#!/usr/bin/env bash
# pages.sh [PAGE..]: runs the commands of pages, which stand behind `$ ` in their blocks without a language (what goes on with
# `> ` is the same command's), and compares what they print with what stands below them. Without a page: those that have any.
# The commands of a page are run in turn in a folder of its own, which has links to the program, crates, docs, examples and tests of
# the top. For a manual page it is on the path, as a program that is installed; no other page may need that. Blocks of `rt` are left out.
# A page that takes away what an earlier run left is run twice. What a page leaves git has to pass over, since it is run in clones, of which releases are made.
set -uo pipefail

source "$(dirname -- "$(readlink -f -- "${BASH_SOURCE[0]}")")/../tests/lib.sh"
[[ $# -gt 0 ]] || set -- "$top"/{docs/TUTORIAL,docs/OPERATIONS,docs/SCRIPTS,crates/dlm/README}.md "$top/man/dlm.1"

# The first run builds the program, if it has to.
"$top/dlm" run /dev/null >/dev/null 2>&1

# The blocks of a page that begin with a prompt; those of a manual page stand between .Bd -literal and .Ed.
blocks() {
    awk '/^```/ { inside = !inside; plain = ($0 == "```"); first = 1; next }
        /^\.Bd -literal/ { inside = plain = first = 1; next }
        /^\.Ed/ { inside = 0; next }
        inside && plain { if (first) runs = /^\$ / && !/^\$ rt /; first = 0; if (runs) print }' "$1"
}

# Runs the commands that stand in such blocks, and prints them with what they print.
run_commands() {
    local line command=
    while IFS= read -r line; do
        if [[ $line == '$ '* ]]; then
            run_command
            command=${line#'$ '}
            echo "$line"
        elif [[ $line == '> '* && -n $command ]]; then
            command+=$'\n'${line#'> '}
            echo "$line"
        else
            run_command
        fi
    done
    run_command
}

run_command() {
    [[ -z $command ]] || bash -c "$command" 2>&1 </dev/null
    command=
}

# A `dlm` that this machine has on its path is not the one of the pages.
mkdir -- "$work/none"
printf '#!/bin/sh\necho "dlm: not found" >&2\nexit 127\n' >"$work/none/dlm"
chmod +x -- "$work/none/dlm"

# left_over: what is in the folder beside the links, and git does not pass over at the top. Nothing where the top is no checkout.
left_over() {
    local path name
    git -C "$top" rev-parse --git-dir >/dev/null 2>&1 || return
    for path in "$work/folder"/*; do
        name=${path##*/}
        [[ ! $name =~ ^(dlm|crates|docs|examples|tests)$ ]] || continue
        [[ -L $path || ! -d $path ]] || name+=/
        git -C "$top" check-ignore -q -- "$name" || echo "$name"
    done
}

for page in "$@"; do
    name=$(realpath --relative-to="$top" -- "$page")
    rm -rf -- "$work/folder"
    mkdir -- "$work/folder"
    # Only these: a folder `images` at the top belongs to the user, and pages damage the one that they make.
    ln -s -- "$top"/{dlm,crates,docs,examples,tests} "$work/folder"
    blocks "$page" >"$work/wanted"
    path=$work/none
    [[ $page != *.[1-8] ]] || path=$work/folder
    runs=once
    ! grep -q '^\$ rm -rf ' "$work/wanted" || runs=twice
    for run in once twice; do
        (cd -- "$work/folder" && PATH=$path:$PATH run_commands) <"$work/wanted" >"$work/printed"
        diff -u --label "$name" --label "what is printed" "$work/wanted" "$work/printed" || { failed=$((failed + 1)); continue 2; }
        [[ $run != "$runs" ]] || break
    done
    left=$(left_over)
    if [[ -z $left ]]; then
        echo "$name: $(grep -c '^\$ ' "$work/wanted") commands, as it says"
    else
        fail "$name leaves what .gitignore does not name: $left"
    fi
done
[[ $failed -eq 0 ]]
