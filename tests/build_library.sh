#!/usr/bin/env bash
# When capi/build.sh proves, when it compiles alone, and what counts as made by it: in a folder of its own, with programs in the place of `rt`, compiler and linker
# that make files in no time.
set -uo pipefail

source "$(dirname -- "$(readlink -f -- "${BASH_SOURCE[0]}")")/lib.sh"
mkdir -p -- "$work/stand_ins/"{bin,c} "$work/capi/"{src,include,examples/dlm-mount} "$work/crates/"{dlm_c,torn_block}/src "$work/crates/disk/"{src,proofs}
cp -- "$top/build.sh" "$work"
cp -- "$top/capi/"{build.sh,midgegalena.pc.in} "$work/capi"
printf 'torn_block: disk thiserror\ndlm_c staticlib: disk torn_block\ndisk: thiserror\nbench: torn_block\n' > "$work/crates.txt"
echo 1.7 > "$work/VERSION"
printf '#define MG_VERSION_MAJOR 1\n#define MG_VERSION_MINOR 7\n' > "$work/capi/include/midgegalena.h"
touch -- "$work/HANDLES" "$work/crates/"{dlm_c,disk}/src/lib.rt "$work/capi/src/mg-lock.c" "$work/stand_ins/c/"{libos_c,liblibc_c}.a

# Until the clock of files has gone on, as seldom as it may do so: what is written from then on is newer than what was written before.
cat > "$work/stand_ins/bin/tick" << END
#!/usr/bin/env bash
touch -- "$work/ticked"
until touch -- "$work/ticks" && [[ -n \$(find "$work/ticks" -newer "$work/ticked") ]]; do sleep 0.005; done
END

# `rt check` says in which crate it is run, and fails where there is a file `unproved`. `rt lib` makes the archive of the crate that it is run in, says so, and
# fails where there is a file `broken`; it edits a source in the midst where there is `late`. `rt ci` makes the program of crates/mg, and says so.
cat > "$work/stand_ins/bin/rt" << END
#!/usr/bin/env bash
[[ \$1 != check ]] || { echo "\${PWD##*/}" >> "$work/calls"; [[ ! -e "$work/unproved" ]]; exit; }
[[ \$1 != ci ]] || { echo ci >> "$work/calls"; [[ ! -e "$work/broken" ]] || exit 1; mkdir -p crates/mg/out && date +%N > crates/mg/out/mg && chmod +x crates/mg/out/mg; exit; }
[[ \$1 == lib && \${PWD##*/} == dlm_c && ! -e "$work/broken" ]] || exit 1
echo rt >> "$work/calls"
mkdir -p out && date +%N > out/libdlm_c.a
[[ ! -e "$work/late" ]] || { rm "$work/late" && "$work/stand_ins/bin/tick" && echo late >> src/lib.rt; }
END
# The others write what their word -o, or the archive's name, says.
for name in cc ld ar objcopy; do
    cat > "$work/stand_ins/bin/$name" << END
#!/usr/bin/env bash
[[ $name != ar ]] || { echo made > "\$2"; exit; }
[[ $name != cc || "\$*" != *' -shared'* && "\$1" != -shared ]] || echo cc >> "$work/calls"
while [[ \$# -gt 0 && \$1 != -o ]]; do shift; done
[[ \$# -eq 0 ]] || echo "made \$2" > "\$2"
END
done
chmod +x -- "$work/stand_ins/bin/"*
path=$PATH
export PATH=$work/stand_ins/bin:$PATH

# expect NAME CALLS: what a build calls, of `rt` and the linking of the shared object.
expect() {
    local called
    tick
    : > "$work/calls"
    "$work/capi/build.sh" "$work/usr" 2> "$work/said" || fail "$1: status $?: $(<"$work/said")"
    called=$(paste -sd ' ' "$work/calls")
    [[ $called == "$2" ]] || fail "$1: calls ${called:-nothing}, and had to call ${2:-nothing}"
    (cd -- "$work/capi/out" && sha256sum --status -c made) || fail "$1: the sums are of other files"
    grep -qx "prefix=$work/usr" "$work/capi/out/midgegalena.pc" && grep -qx 'Version: 1.7' "$work/capi/out/midgegalena.pc" || fail "$1: midgegalena.pc"
}

expect "nothing is there" 'disk torn_block rt cc'
expect "nothing changed" ''
touch -- "$work/capi/src/mg-lock.c"
expect "C changed" cc
touch -- "$work/capi/examples/dlm-mount/dlm-mount.c"
expect "dlm-mount changed" cc
touch -- "$work/crates/disk/proofs/Disk.antt"
expect "a proof changed" ''
echo more >> "$work/crates/disk/src/lib.rt"
expect "a crate below changed" 'disk torn_block rt cc'
touch -- "$work/crates/"{dlm_c,disk}/src/lib.rt
expect "a copied clone, in which code is newer" cc
echo other > "$work/crates/dlm_c/out/libdlm_c.a"
expect "another archive in the proved one's place" 'disk torn_block rt cc'
rm -- "$work/crates/dlm_c/out/proved"
expect "nothing tells what was proved" 'disk torn_block rt cc'
touch -- "$work/late"
echo more >> "$work/crates/dlm_c/src/lib.rt"
expect "an edit during the proof" 'disk torn_block rt cc'
touch -- "$work/capi/src/mg-lock.c"
expect "after an edit during the proof" 'disk torn_block rt cc'
rm -- "$work/capi/out/mg-lock"
expect "a program was taken away" cc

# With crates/mg there is mg-folder, which is its program.
[[ ! -e $work/capi/out/mg-folder ]] || fail "mg-folder without crates/mg"
mkdir -p -- "$work/crates/mg/src"
touch -- "$work/crates/mg/src/main.rt"
echo 'mg: disk' >> "$work/crates.txt"
expect "crates/mg is there" 'ci cc'
cmp -- "$work/crates/mg/out/mg" "$work/capi/out/mg-folder" || fail "mg-folder is not the program of crates/mg"
expect "nothing changed since" ''
touch -- "$work/capi/src/mg.c"
expect "the front changed" cc
echo more >> "$work/crates/mg/src/main.rt"
expect "crates/mg changed" 'ci cc'
echo other > "$work/capi/out/mg-folder"
expect "another mg-folder" cc
cmp -- "$work/crates/mg/out/mg" "$work/capi/out/mg-folder" || fail "another mg-folder stays"
(top=$work && source "$work/build.sh" && is_proved mg) || fail "it is not known that mg-folder was proved"
touch -- "$work/broken"
rm -- "$work/crates/mg/out/mg"
"$work/capi/build.sh" 2> "$work/said"
[[ $? -eq 125 && $(<"$work/said") == *'mg: not built: '*'/crates/mg/out/build.log says why' ]] || fail "crates/mg is not proved: $(<"$work/said")"
rm -- "$work/broken"

# failing NAME TEXT: the build ends with 125, and says this.
failing() {
    "$work/capi/build.sh" 2> "$work/said"
    [[ $? -eq 125 ]] || fail "$1: no status 125"
    [[ $(<"$work/said") =~ $2 ]] || fail "$1: says $(<"$work/said")"
}

echo 1.8 > "$work/VERSION"
failing "VERSION alone was changed" "VERSION is 1.8, and the header's numbers are 1.7"
echo 1.7 > "$work/VERSION"
touch -- "$work/broken"
echo more >> "$work/crates/dlm_c/src/lib.rt"
failing "it is not proved" 'not built: .*/build.log says why'
rm -- "$work/broken"
touch -- "$work/unproved"
: > "$work/calls"
failing "a crate below is not proved" 'not built: .*/build.log says why'
[[ $(<"$work/calls") == disk ]] || fail "a crate below is not proved: calls $(paste -sd ' ' "$work/calls")"
mkdir -- "$work/tools"
for tool in bash dirname readlink sed paste find mkdir touch sha256sum; do
    ln -s -- "$(type -P "$tool")" "$work/tools/$tool"
done
PATH=$work/tools
failing "no rt" "there has to be Rattle's command rt on the path"
PATH=$path

[[ $failed -eq 0 ]] && echo "build_library.sh: proves where it has to, and no more"
exit $((failed > 0))
