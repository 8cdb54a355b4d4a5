#!/usr/bin/env bash
# Runs dlm, and proves and builds it first where that has to be done. The program has no help: the words --help and --version are answered here, at once.
set -euo pipefail

here=${BASH_SOURCE[0]}
[[ $here == */* ]] || here=./$here
[[ ! -L $here ]] || here=$(readlink -f -- "$here")
top=${here%/*}
source "$top/build.sh"

# What each task and each command takes is in the manual page, and what it does, in a few words, in the completion for zsh.
show_words() {
    awk -v quote="'" '
        FNR == NR {
            while (match($0, "[a-z]+:" quote "[^" quote "]*")) {
                split(substr($0, RSTART, RLENGTH), pair, ":" quote)
                told[pair[1]] = pair[2]
                $0 = substr($0, RSTART + RLENGTH)
            }
            next
        }
        /^\.Nd / { print "dlm: " substr($0, 5); print ""; before = "dlm " }
        /^\.Ss Commands$/ { print ""; print "A COMMAND is one of these:"; before = "" }
        /^\.It Cm [a-z]/ {
            words = before $3; end = ""
            for (i = 4; i <= NF; i++) {
                if ($i == "Ar" || $i == "Cm") big = $i == "Ar"
                else if ($i == "Oo" || $i == "Op") { words = words " ["; if ($i == "Op") end = "]" }
                else if ($i == "Oc") words = words "]"
                else words = words " " (big ? toupper($i) : $i)
            }
            gsub(/\[ /, "[", words)
            printf "  %-58s %s\n", words end, told[$3]
        }' "$top/completions/_dlm" "$top/man/dlm.1"
    cat << END

\`man man/dlm.1\` says more, and docs/TUTORIAL.md teaches it. The first other command proves and builds
the program, for half an hour, by the command rt of Rattle's kit. A first look needs no proof:
  $(grep -F -m 1 'rt try' "$top/README.md")
END
}

answer_words show_words "$@"
ensure_built dlm
exec "$top/crates/dlm/out/dlm" "$@"
