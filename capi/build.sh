#!/usr/bin/env bash
# Makes libmidgegalena.a, libmidgegalena.so.VERSION, mg, mg-lock, dlm-shared, dlm-mount and midgegalena.pc in capi/out, where they are not newer than all that
# they are made of. Proves crates/dlm_c, and what stands below it, first, unless what was proved here is still there and newest. So also crates/mg, where there is
# one: that program is mg-folder.
# In capi/out/made are the sums of what it made, by which release.sh knows these files.
#   capi/build.sh [PREFIX]     where they will be installed, /usr/local if it is left out
set -euo pipefail
here=$(cd -- "$(dirname -- "$(readlink -f -- "${BASH_SOURCE[0]}")")" && pwd)
top=$(dirname -- "$here")
prefix=${1:-/usr/local}
out=$here/out
version=$(<"$top/VERSION")
# What a program is linked with. Below 1.0 each minor number may change it.
[[ $version =~ ^0\.[0-9]+|^[0-9]+ ]]
abi=${BASH_REMATCH[0]}
cc=${CC:-cc}
made=(libmidgegalena.a "libmidgegalena.so.$version" mg mg-lock dlm-shared dlm-mount)
[[ ! -d $top/crates/mg ]] || made+=(mg-folder)
source "$top/build.sh"
answer_words show_head "$@"

fail() {
    echo "capi/build.sh: $1" >&2
    exit 125
}

# The number of VERSION is the library's own, too: programs are compiled with it.
in_header=$(sed -n 's/^#define MG_VERSION_M[AI][JN]OR //p' "$here/include/midgegalena.h" | paste -sd .)
[[ $in_header == "$version" ]] || fail "VERSION is $version, and the header's numbers are $in_header"

write_pc() {
    sed -e "s|@prefix@|$prefix|" -e "s|@version@|$version|" "$here/midgegalena.pc.in" > "$out/midgegalena.pc"
}

# What stands in proofs/ changes nothing that runs.
is_made() {
    local sources newer file
    is_proved dlm_c libdlm_c.a || return 1
    for file in "${made[@]}" made; do
        [[ -f $out/$file ]] || return 1
    done
    find_sources dlm_c
    newer=$(find "${sources[@]}" "$here"/{include,src,examples/dlm-mount} "$here/build.sh" "$top/VERSION" -newer "$out/libmidgegalena.a" -print -quit) && [[ -z $newer ]] || return 1
    [[ ! -d $top/crates/mg ]] || { is_newest "$top/crates/mg/out/mg" mg && cmp -s -- "$top/crates/mg/out/mg" "$out/mg-folder"; }
}

# The archive gets the time at which its proof began.
prove() {
    local crate=$top/crates/dlm_c made_of
    ! is_newest_file "$crate/out/libdlm_c.a" dlm_c || ! is_proved dlm_c libdlm_c.a || return 0
    echo "capi/build.sh: proving and building crates/dlm_c, which takes half an hour or more where nothing was proved before" >&2
    touch -- "$out/began"
    made_of=$(sum_of_sources dlm_c)
    : > "$out/build.log"
    copies=$(mktemp -d)
    trap 'rm -rf -- "$copies"' EXIT
    check_below dlm_c "$copies" "$out/build.log" && (cd -- "$crate" && rt lib < /dev/null) >> "$out/build.log" 2>&1 || fail "not built: $out/build.log says why"
    rm -rf -- "$copies"
    trap - EXIT
    touch -r "$out/began" -- "$crate/out/libdlm_c.a"
    note_proved dlm_c libdlm_c.a "$made_of"
}

# The program of crates/mg, as ./dlm proves and builds its own.
prove_folder() {
    ensure_built mg
    cp -- "$top/crates/mg/out/mg" "$out/mg-folder.new" && mv -- "$out/mg-folder.new" "$out/mg-folder"
}

mkdir -p -- "$out"
if is_made; then
    write_pc
    exit
fi
command -v rt > /dev/null || fail "to prove and build the library there has to be Rattle's command rt on the path"
# The kit's C code: its heap, its errno.
kit=$(dirname -- "$(dirname -- "$(readlink -f -- "$(command -v rt)")")")/c
prove
[[ ! -d $top/crates/mg ]] || prove_folder
for part in midgegalena format mg_session device; do
    "$cc" -std=c99 -O2 -fPIC -Wall -Wextra -pedantic ${CFLAGS:-} -I "$here/include" -c "$here/src/$part.c" -o "$out/$part.o"
done
# One object, of which nothing but mg_* is seen, so that another library of the kit's in the same program does no harm.
ld -r -o "$out/whole.o" "$out/"{midgegalena,format,mg_session,device}.o "$top/crates/dlm_c/out/libdlm_c.a" "$kit/libos_c.a" "$kit/liblibc_c.a"
objcopy --wildcard --keep-global-symbol='mg_*' "$out/whole.o"
# The same of the calls on devices alone, for dlm-shared, dlm-mount and their test.
ld -r -o "$out/devices.o" "$out/device.o" "$top/crates/dlm_c/out/libdlm_c.a" "$kit/libos_c.a" "$kit/liblibc_c.a"
objcopy --wildcard --keep-global-symbol='device_*' --keep-global-symbol='dlm_c_device*' --keep-global-symbol=sync_data "$out/devices.o"
rm -f -- "$out"/libmidgegalena.*
ar rcs "$out/libmidgegalena.a" "$out/whole.o"
"$cc" -shared -Wl,-soname,"libmidgegalena.so.$abi" -Wl,-z,defs,-z,relro,-z,now ${CFLAGS:-} -o "$out/libmidgegalena.so.$version" "$out/whole.o"
"$cc" -std=c99 -O2 -Wall -Wextra -pedantic ${CFLAGS:-} -I "$here/include" "$here/src/"{mg-lock,status,looked,since,probe}.c "$out/libmidgegalena.a" -o "$out/mg-lock"
"$cc" -std=c99 -O2 -Wall -Wextra -pedantic ${CFLAGS:-} -I "$here/include" "$here/src/"{mg,mg_host}.c "$out/libmidgegalena.a" -o "$out/mg"
"$cc" -std=c99 -O2 -Wall -Wextra -pedantic ${CFLAGS:-} -I "$here/include" "$here/src/dlm-shared.c" "$out/devices.o" "$out/libmidgegalena.a" -o "$out/dlm-shared"
"$cc" -std=gnu11 -O2 -Wall -Wextra ${CFLAGS:-} -I "$here/include" -I "$here/src" "$here/examples/dlm-mount/dlm-mount.c" "$out/devices.o" -o "$out/dlm-mount"
[[ $abi == "$version" ]] || ln -sf "libmidgegalena.so.$version" "$out/libmidgegalena.so.$abi"
ln -sf "libmidgegalena.so.$abi" "$out/libmidgegalena.so"
write_pc
(cd -- "$out" && sha256sum -- "${made[@]}" > made)
