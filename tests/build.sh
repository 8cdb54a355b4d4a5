#!/usr/bin/env bash
# When `./dlm` builds, and what it says: in a folder of its own, with a program in the place of `rt` that builds in no time.
set -uo pipefail

source "$(dirname -- "$(readlink -f -- "${BASH_SOURCE[0]}")")/lib.sh"
mkdir -p -- "$work/bin" "$work/crates/"{dlm,disk,beats,inspect,bench}/src "$work/crates/disk/"{specs,must-fail,wrong}
echo none > "$work/HANDLES"
cp -- "$top/dlm" "$top/build.sh" "$work"
printf '# bytes: a heading\ninspect:\ndisk: thiserror\nbeats: disk\nbench: disk\ndlm: inspect beats thiserror\n' > "$work/crates.txt"
touch -- "$work/crates/dlm/src/main.rt" "$work/crates/disk/src/lib.rt" "$work/crates/disk/src/more.rt"

# Until the clock of files has gone on, as seldom as it may do so: what is written from then on is newer than what was written before.
cat > "$work/bin/tick" <<END
#!/usr/bin/env bash
touch -- "$work/ticked"
until touch -- "$work/ticks" && [[ -n \$(find "$work/ticks" -newer "$work/ticked") ]]; do sleep 0.005; done
END
chmod +x -- "$work/bin/tick"

# It proves the crates of the folder that it is run in, of which one was proved before. It fails where there is a file `broken`, and edits a source
# in the midst of a build where there is a file `late`.
cat > "$work/bin/rt" <<END
#!/usr/bin/env bash
[[ \$1 == ci && \$(<HANDLES) == none && ! -e crates/bench && ! -e crates/disk/must-fail && ! -e crates/disk/wrong ]] || exit 1
while read -r line; do
    crate=\${line%%:*}
    [[ \$crate != disk ]] || { echo "rt: disk is kept: an earlier run proved it"; continue; }
    [[ ! -e "$work/broken" ]] || { echo "rt: \$crate NOT PROVED"; exit 1; }
    echo "== \$crate"
    echo "logic=proved functions=7 and more"
    echo "rt: \$crate proved"
done < crates.txt
[[ ! -e "$work/late" ]] || { rm "$work/late" && "$work/bin/tick" && echo late >> "$work/crates/dlm/src/main.rt"; }
mkdir -p crates/dlm/out && printf '#!/usr/bin/env bash\necho ran "\$@"\n' > crates/dlm/out/dlm && chmod +x crates/dlm/out/dlm
echo "4 passed, 0 failed"
END
chmod +x -- "$work/bin/rt"
PATH=$work/bin:$PATH
told='dlm: beats: 7 functions proved, crates left: 1
dlm: disk: proved before, crates left: 2
dlm: dlm: 7 functions proved, crates left: 0
dlm: inspect: 7 functions proved, crates left: 3'

# expect NAME BUILDS: `dlm` has to build or not, and then to run.
expect() {
    local written said=
    written=$("$work/dlm" a b 2> "$work/said")
    [[ $2 = no ]] || said=$told
    if [[ $written != 'ran a b' || $(sed 1d "$work/said" | sort) != "$said" ]]; then
        echo "$1: written: $written, said: $(cat -- "$work/said")"
        failed=$((failed + 1))
    fi
    tick
}

# As `cp -r` leaves it, where the program is copied first, and a while before the rest.
all_newer() { tick; find "$work/crates/"*/{src,specs} "$work/crates.txt" -exec touch {} + 2> /dev/null; tick; }

expect "no program" yes
expect "nothing changed" no
echo more >> "$work/crates/disk/src/lib.rt"
expect "code changed" yes
all_newer
expect "a copied clone, in which all files are newer" no
expect "the same, once more" no
echo >> "$work/crates/dlm/out/dlm"
all_newer
expect "a copied clone with another program" yes
all_newer
echo more >> "$work/crates/disk/src/lib.rt"
expect "a copied clone in which code changed" yes
touch -- "$work/crates/disk/specs/Disk.antt"
expect "a contract was added" yes
rm -- "$work/crates/disk/src/more.rt"
expect "a file was deleted" yes
touch -- "$work/crates/bench/src/main.rt"
expect "another program's code changed" no
sed -i 's/^dlm: .*/& clap/' "$work/crates.txt"
expect "what the program stands on changed" yes
echo other >> "$work/crates/dlm/src/main.rt"
touch -- "$work/late"
expect "an edit during the build" yes
expect "after an edit during the build" yes
expect "nothing changed again" no

touch -- "$work/broken"
echo broken >> "$work/crates/dlm/src/main.rt"
for ending in open closed; do
    if [[ $ending = open ]]; then
        "$work/dlm" a 2> "$work/said"
    else
        "$work/dlm" a 2>&-
    fi
    ended=$?
    if [[ $ended -ne 125 || ( $ending = open && $(<"$work/said") != *'dlm: inspect NOT PROVED'* ) ]]; then
        echo "a failed build, standard error $ending: status $ended"
        failed=$((failed + 1))
    fi
done

# What stands in the program's place and was not proved is told apart; another build puts that right.
rm -- "$work/broken"
expect "a failed build goes on" yes
source "$work/build.sh"
top=$work
is_proved dlm || { echo "what was built does not count as proved"; failed=$((failed + 1)); }
printf '#!/usr/bin/env bash\necho ran "$@"\n#\n' > "$work/crates/dlm/out/dlm"
is_proved dlm && { echo "what was not built counts as proved"; failed=$((failed + 1)); }
rm -- "$work/crates/dlm/out/dlm"
expect "the program was taken away" yes
is_proved dlm || { echo "what was built again does not count as proved"; failed=$((failed + 1)); }
echo "$failed of 21 builds are not as they have to be"
[[ $failed -eq 0 ]]
