#!/usr/bin/env bash
# wrong_rule.sh [RUNS]: a sweep finds what is wrong. In a copy of the program's crates a sync makes nothing safe (simulator/wrong/sync_left_out.edit).
# `rt try` compiles the copy's dlm, of which nothing is proved, and lets it sweep scripts one after the other. Crashes then lose what was
# acknowledged, so that runs have to be wrong: as many as another program counts under that rule, and the same one first (scripts/sweep_wrong.txt:
# the script's name, what is printed and told). So it is in `epoch_simulator`, where some run of a script has to be wrong. Swept are the scripts of that list that make at most so many runs (none given: 350; 600 are all).
set -uo pipefail

source "$(dirname -- "$(readlink -f -- "${BASH_SOURCE[0]}")")/lib.sh"
source "$top/build.sh"
most=${1:-350}

copy_crates dlm "$work/copy"
edit=$top/crates/simulator/wrong/sync_left_out.edit
right=$(sed -n 's/^old: //p' "$edit")
wrong=$(sed -n 's/^new: //p' "$edit")
for crate in simulator epoch_simulator; do
    file=$work/copy/crates/$crate/$(sed -n 's/^file: //p' "$edit")
    source=$(<"$file")
    if [[ $source != *"$right"* ]]; then
        echo "the rule does not stand in $file"
        exit 1
    fi
    printf '%s\n' "${source/"$right"/"$wrong"}" > "$file"
done

# The scripts, each under its name, and of each what is wanted.
mkdir -- "$work/scripts"
declare -A wanted
while IFS=: read -r name text; do
    runs=${text%% runs,*}
    [[ $runs -le $most ]] || continue
    wanted[$name]=$text
    find "$tests/scripts" "$top/examples" -name "$name.dlm" -exec cp -t "$work/scripts" -- {} +
done < <(echo 'two_submissions: 138 runs, 276 recovered, 34 wrong dlm: 31 WrongRun 70' && cat -- "$tests/scripts/sweep_wrong.txt")
printf 'cluster 1 4\nstart 0\nsubmit 0 1 enqueue 1 1 10 EX db\nstep 0 17\nsubmit 0 1 enqueue 2 1 11 EX db\nstep 0 17\n' > "$work/scripts/two_submissions.dlm"
# One over a log without an end: some run has to be wrong.
printf 'cluster 1 8 epochs\nsubmit 0 8 enqueue 1 1 1 EX db\nstep 0 40\nsubmit 0 8 enqueue 1 2 2 EX dc\nstep 0 40\n' > "$work/scripts/epochs.dlm"

# It prints a line `== NAME.dlm`, what the sweep printed and told, and a line `case=NAME.dlm ..`.
(cd -- "$work/copy/crates/dlm" && rt try --seconds 240 --cases "$work/scripts" -- sweep {} < /dev/null) > "$work/told" 2>&1
declare -A found
while IFS= read -r line; do
    case $line in
        '== '*.dlm) name=${line#== } name=${name%.dlm} found[$name]= ;;
        case=*) name= ;;
        *) [[ -z ${name-} ]] || found[$name]+=" $line" ;;
    esac
done < "$work/told"

for name in "${!wanted[@]}"; do
    text=${wanted[$name]}
    if [[ ${found[$name]-} != "${text%"${text##*[! ]}"}" ]]; then
        fail "$name:${found[$name]-}, and not$text"
    fi
done
if [[ ! ${found[epochs]-} =~ ^\ [0-9]+\ runs,\ [0-9]+\ recovered,\ [1-9][0-9]*\ wrong\ dlm:\ 31\ WrongRun\ [0-9]+$ ]]; then
    fail "epochs:${found[epochs]-}, and not a wrong run"
fi
[[ ${#found[@]} -gt 0 ]] || cat -- "$work/told"
echo "a wrong rule is found: ${#found[@]} sweeps, $failed differ"
[[ $failed -eq 0 && ${#found[@]} -eq $((${#wanted[@]} + 1)) && ${#wanted[@]} -gt 1 ]]
