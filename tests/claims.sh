#!/usr/bin/env bash
# claims.sh: claims of several processes over one log, in orders that numbers choose (tests/claims.txt), in a copy of the crate `session`. The log ends, or
# goes from epoch to epoch. Commands come into it late or never, calls fail, time is over, processes die. What each process is told is compared with the
# table. The copy has the file as a module of tests, which `rt try` compiles and runs; nothing is proved of them.
set -uo pipefail

source "$(dirname -- "$(readlink -f -- "${BASH_SOURCE[0]}")")/lib.sh"
source "$top/build.sh"

copy_crates session "$work/copy"
copy=$work/copy/crates/session
cp -- "$tests/claims.txt" "$copy/src/claims.rt"
printf '\n#[cfg(test)]\nmod claims;\n' >> "$copy/src/lib.rt"
(cd -- "$copy" && rt try --seconds 240 --test < /dev/null) > "$work/told" 2>&1
for name in nobody_believes_what_is_not_so nobody_believes_what_is_not_so_over_epochs an_old_purge_takes_nothing_away a_give_that_failed_stores_nothing \
    a_release_is_found_in_the_epoch_before; do
    if ! grep -q "^test claims::$name \.\.\. ok\$" "$work/told"; then
        fail "$name: $(<"$work/told")"
    fi
done
echo "claims: $failed failed"
[[ $failed -eq 0 ]]
