#!/usr/bin/env bash
# install.sh: puts programs, library, manual pages and completions in place, below PREFIX (none given: /usr/local), with DESTDIR in front of it
# where one is given, as for a package. install.sh uninstall: takes out what is there of them, and the folders that are empty then, but not the first ones
# of /usr and /usr/local, as bin. Both print the files.
# In a checkout the program is built first, if it has to be. The library for C, with the programs over it, goes with it where it is built
# (capi/build.sh); else that is said on standard error. capi/install.sh asks for that part alone: install.sh install library.
# In an archive of release.sh all is there; its pages, what they name, and BUILT go to share/doc/midgegalena.
set -euo pipefail

top=$(dirname -- "$(readlink -f -- "${BASH_SOURCE[0]}")")
prefix=${PREFIX:-/usr/local}
root=${DESTDIR-}$prefix
doc=share/doc/midgegalena
version=$(<"$top/VERSION")
# What a program is linked with. Below 1.0 each minor number may change it.
[[ $version =~ ^0\.[0-9]+|^[0-9]+ ]]
abi=${BASH_REMATCH[0]}
is_archive=1 dlm=bin/dlm headers=include libraries=lib programs=bin folder=libexec/midgegalena/mg-folder
if [[ ! -f $top/BUILT ]]; then
    is_archive=0 dlm=crates/dlm/out/dlm headers=capi/include libraries=capi/out programs=capi/out folder=capi/out/mg-folder
fi

# Calls its first word with each file: from, to, mode. Of a link the second word is what it leads to, and the mode is `link`.
each_of_program() {
    "$1" "$dlm" bin/dlm 755
    "$1" man/dlm.1 share/man/man1/dlm.1 644
    completions_of "$1" dlm
}

each_of_library() {
    local name
    "$1" "$headers/midgegalena.h" include/midgegalena.h 644
    "$1" "$headers/mg_session.h" include/mg_session.h 644
    "$1" "$libraries/libmidgegalena.a" lib/libmidgegalena.a 644
    "$1" "$libraries/libmidgegalena.so.$version" "lib/libmidgegalena.so.$version" 644
    [[ $abi == "$version" ]] || "$1" "libmidgegalena.so.$version" "lib/libmidgegalena.so.$abi" link
    "$1" "libmidgegalena.so.$abi" lib/libmidgegalena.so link
    "$1" "$libraries/midgegalena.pc" lib/pkgconfig/midgegalena.pc 644
    for name in mg mg-lock dlm-shared dlm-mount; do
        "$1" "$programs/$name" "bin/$name" 755
    done
    # To be taken out it need not be here.
    [[ $1 == put && ! -f $top/$folder ]] || "$1" "$folder" libexec/midgegalena/mg-folder 755
    for name in midgegalena.3 mg_session.3 mg.1 mg-lock.1 dlm-shared.1 dlm-mount.8; do
        "$1" "man/$name" "share/man/man${name##*.}/$name" 644
    done
    completions_of "$1" mg
    completions_of "$1" mg-lock
    completions_of "$1" dlm-shared
}

completions_of() {
    "$1" "completions/$2.bash" "share/bash-completion/completions/$2" 644
    "$1" "completions/_$2" "share/zsh/site-functions/_$2" 644
    "$1" "completions/$2.fish" "share/fish/vendor_completions.d/$2.fish" 644
}

each_of_pages() {
    local page mode
    shopt -s globstar
    cd -- "$top"
    for page in README.md CHANGES.md VERSION BUILT {bench,capi,crates,docs,examples,man,tests}/**; do
        mode=644
        [[ ! -x $page ]] || mode=755
        [[ -d $page ]] || "$1" "$page" "$doc/$page" "$mode"
    done
}

put() {
    if [[ $3 == link ]]; then
        mkdir -p -- "$(dirname -- "$root/$2")"
        ln -sfn -- "$1" "$root/$2"
    else
        install -D -m "$3" -- "$top/$1" "$root/$2"
    fi
    # What a compiler is told of is where the library is now.
    [[ $2 != *.pc ]] || write_pc "$top/$1" > "$root/$2"
    echo "$root/$2"
}

write_pc() {
    local line
    while IFS= read -r line; do
        [[ $line != prefix=* ]] || line=prefix=$prefix
        printf '%s\n' "$line"
    done < "$1"
}

# Folders are left where something else is in them.
take_out() {
    local folder=$2
    if [[ -e $root/$2 || -L $root/$2 ]]; then
        rm -- "$root/$2"
        echo "$root/$2"
    fi
    while [[ $folder == */* ]]; do
        folder=${folder%/*}
        [[ $folder == */* || ! $prefix =~ ^/usr(/local)?/?$ ]] || break
        [[ ! -d $root/$folder ]] || rmdir -- "$root/$folder" 2> /dev/null || break
    done
}

# Once the program is built it refuses an empty script. All else that it says, progress or why it cannot be built, is passed on.
build() {
    [[ $is_archive -eq 0 ]] || return 0
    "$top/dlm" run /dev/null 2>&1 >/dev/null | sed '/^dlm: 23 BadLine 1$/d' >&2
    [[ ${PIPESTATUS[0]} -eq 1 ]]
}

install_library() {
    if [[ $is_archive -eq 0 && ! -f $top/capi/out/made ]]; then
        echo "install.sh: without the library for C, mg, mg-lock, dlm-shared and dlm-mount, which capi/build.sh builds" >&2
        return
    fi
    [[ $is_archive -eq 1 ]] || "$top/capi/build.sh" "$prefix"
    each_of_library put
}

case "${*:-install}" in
    install)
        if ! build; then
            echo "install.sh: ./dlm could not be built" >&2
            exit 1
        fi
        each_of_program put
        install_library
        [[ $is_archive -eq 0 ]] || each_of_pages put
        ;;
    'install library')
        each_of_library put
        ;;
    uninstall)
        each_of_program take_out
        each_of_library take_out
        [[ $is_archive -eq 0 ]] || each_of_pages take_out
        ;;
    'uninstall library')
        each_of_library take_out
        ;;
    -h | --help | help)
        sed -n '2,/^[^#]/s/^# \{0,1\}//p' -- "${BASH_SOURCE[0]}"
        ;;
    --version)
        echo "midgegalena $version"
        ;;
    *)
        echo "usage: [PREFIX=..] [DESTDIR=..] install.sh [uninstall]" >&2
        exit 2
        ;;
esac
