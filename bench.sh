#!/usr/bin/env bash
# Builds and runs the benchmarks, and the same work in plain Rust, and prints the times side by side.
# Then a script of a million events is run by `dlm` and by a plain program, which have to print the same.
set -euo pipefail

top=$(dirname -- "$(readlink -f -- "${BASH_SOURCE[0]}")")
crate=$top/crates/bench
proved=$crate/out/bench
plain=$crate/out/baseline

source "$top/build.sh"
answer_words show_head "$@"
ensure_built bench
rustc -O --edition 2024 -o "$plain" "$crate/baseline/baseline.rs"

# Both print the same lines: a name and a figure, or a name, a count and nanoseconds an operation.
proved_times=$("$proved" times)
plain_times=$("$plain")
printf '%-28s %8s %12s %12s\n' benchmark count proved plain
paste -d ' ' <(echo "$proved_times") <(echo "$plain_times") | while read -r name rest; do
    set -- $rest
    if [[ $# -eq 5 && $3 == "$name" ]]; then
        printf '%-28s %8s %12s %12s\n' "$name" "$1" "$2" "$5"
    elif [[ $# -eq 3 && $2 == "$name" ]]; then
        printf '%-28s %8s %12s %12s\n' "$name" - "$1" "$3"
    else
        echo "bench.sh: the programs printed different lines" >&2
        exit 1
    fi
done

# The processor seconds, and where GNU time is there the most memory in kilobytes, of the fastest of five runs.
best_of() {
    local out=$1 run times=() memory=-
    shift
    for run in 1 2 3 4 5; do
        TIMEFORMAT='%U %S'
        times+=("$({ time "$@" > "$out"; } 2>&1)")
    done
    if [[ -x /usr/bin/time ]]; then
        memory=$(/usr/bin/time -f %M "$@" 2>&1 > "$out")
    fi
    printf '%s\n' "${times[@]}" | sort -n | head -n 1 | awk -v memory="$memory" '{ printf "%.2f %s", $1 + $2, memory }'
}

work=$(mktemp -d)
trap 'rm -r -- "$work"' EXIT
"$crate/baseline/million.sh" > "$work/million.dlm"
rustc -O --edition 2024 -o "$crate/out/scripts" "$crate/baseline/scripts.rs"
"$top/dlm" run "$work/million.dlm" > /dev/null
proved_run=$(best_of "$work/proved" "$top/crates/dlm/out/dlm" run "$work/million.dlm")
plain_run=$(best_of "$work/plain" "$crate/out/scripts" "$work/million.dlm")
cmp -- "$work/proved" "$work/plain"
printf '\n%-28s %12s %12s\n' 'a million events' proved plain
paste -d ' ' <(tr ' ' '\n' <<< "$proved_run") <(tr ' ' '\n' <<< "$plain_run") | {
    read -r proved plain && printf '%-28s %12s %12s\n' 'processor seconds' "$proved" "$plain"
    read -r proved plain && printf '%-28s %12s %12s\n' 'most memory in KB' "$proved" "$plain"
}
