#!/usr/bin/env bash
# epochs.sh: hosts over all epochs (crate `epoch_host`) over simulated disks, in orders that numbers choose: device calls fail and tear, disks crash and are away,
# hosts are stopped at any call, or sleep. A plain table over one list of all clients' commands judges what each says. In a sweep over `epoch_simulator` one host goes
# through the end of an epoch, something happens before one of its calls, and another host recovers. The texts of tests/epochs are a crate of tests in a copy,
# which `rt try` compiles and runs; nothing is proved of them. No part of the gate: it takes some minutes.
set -uo pipefail

source "$(dirname -- "$(readlink -f -- "${BASH_SOURCE[0]}")")/lib.sh"
source "$top/build.sh"

copy_crates epoch_simulator "$work/copy"
copy=$work/copy/crates/epoch_tests
mkdir -p -- "$copy/src"
for text in "$tests"/epochs/*.txt; do
    name=${text##*/}
    cp -- "$text" "$copy/src/${name%.txt}.rt"
done
echo 'epoch_tests: disk torn_block paxos_block attempt standings lock_command lock_table host epoch_host epoch_simulator' >> "$work/copy/crates.txt"
(cd -- "$copy" && rt try --seconds 600 --test < /dev/null) > "$work/told" 2>&1
for test in histories::histories sweep::another_host_recovers_whatever_happens sweep::tasks_are_refused; do
    grep -q "^test $test \.\.\. ok\$" "$work/told" || fail "$test: $(tail -n 20 "$work/told")"
done
grep -E '^ *(epochs .* acks|sweep) ' "$work/told"
echo "epochs: $failed failed"
[[ $failed -eq 0 ]]
