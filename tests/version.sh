#!/usr/bin/env bash
# version.sh: the number of VERSION is the one of the header, the package for Python, the manual pages' footers, CHANGES.md and the library's own test; and, where the
# library is built, of midgegalena.pc, the shared object, mg, mg-lock, dlm-shared and dlm-mount. And the help of mg-lock has each option of its own and each word of dlm.
# So has that of ./dlm in a clone. It and the other scripts answer --help and --version at once, and prove nothing.
set -uo pipefail

source "$(dirname -- "$(readlink -f -- "${BASH_SOURCE[0]}")")/lib.sh"
cd -- "$top" || exit 1
version=$(<VERSION)
compared=0

# same WHAT TEXT: it is the number.
same() {
    compared=$((compared + 1))
    [[ $2 == "$version" ]] || fail "$1 has ${2:-no number}, and VERSION $version"
}

[[ $version =~ ^[0-9]+\.[0-9]+$ ]] || fail "VERSION is no number: $version"
same "the header" "$(sed -n 's/^#define MG_VERSION_M[AI][JN]OR //p' capi/include/midgegalena.h | paste -sd .)"
same "the header's comment" "$(sed -n 's/^\/\* "\(.*\)", of the library that is linked\. \*\/$/\1/p' capi/include/midgegalena.h)"
same "pyproject.toml" "$(sed -n 's/^version = "\(.*\)"$/\1/p' capi/python/pyproject.toml)"
same "capi/tests/calls.c" "$(sed -n 's/.*IS_TEXT(mg_version(), "\(.*\)");/\1/p' capi/tests/calls.c)"
same "CHANGES.md" "$(sed -n 's/^## \([0-9][0-9.]*\).*/\1/p' CHANGES.md | head -n 1)"
for page in man/*; do
    same "$page" "$(sed -n 's/^\.Os Midgegalena //p' "$page")"
done

# What a page says is a word of dlm is in the help: the words after .Nm in the synopsis, and the commands.
words_of_dlm() {
    sed -n '/^\.Sh SYNOPSIS$/,/^\.Sh DESCRIPTION$/s/^\.Cm //p' man/dlm.1
    sed -n '/^\.Ss Commands$/,/^\.El$/s/^\.It Cm \([a-z]*\) .*/\1/p' man/dlm.1
}

# has_words COMMAND FILE: the help in the file has each word of dlm.
has_words() {
    local word
    for word in $(words_of_dlm); do
        compared=$((compared + 1))
        grep -qE "^ +(dlm )?$word [A-Z]" "$2" || fail "$1 --help says nothing of $word, a word of dlm"
    done
    [[ $(awk 'length > 120' "$2") == "" ]] || fail "a line of $1 --help is longer than 120 columns"
}

# A clone in which nothing is built, and an rt that leaves a trace.
mkdir -p -- "$work/bin" "$work/clone/"{capi,man,completions}
printf '#!/bin/sh\necho "$@" >> "%s"\n' "$work/ran" > "$work/bin/rt"
chmod +x -- "$work/bin/rt"
scripts=(dlm release.sh bench.sh install.sh debian.sh capi/build.sh capi/install.sh)
for file in "${scripts[@]}" build.sh VERSION README.md man/dlm.1 completions/_dlm; do cp -- "$file" "$work/clone/$file"; done
for script in "${scripts[@]}"; do
    same "$script --version" "$(PATH=$work/bin:$PATH "$work/clone/$script" --version | sed -n 's/^midgegalena //p')"
    for word in -h help --help; do
        PATH=$work/bin:$PATH "$work/clone/$script" "$word" > "$work/help" 2> "$work/said" || fail "$script $word ends with $?"
        [[ -s $work/help && ! -s $work/said ]] || fail "$script $word says: $(<"$work/said")"
    done
    [[ $script != dlm ]] || cp -- "$work/help" "$work/help of dlm"
done
[[ ! -e $work/ran ]] || fail "rt was run for words: $(<"$work/ran")"
has_words ./dlm "$work/help of dlm"
# Each has what it does, too, in the columns behind.
[[ -z $(grep '^  [a-z]' "$work/help of dlm" | grep -v '  [a-z][a-z ,]*$') ]] || fail "./dlm --help does not say what each word does"
grep -q '^  (cd crates/dlm && rt try ' "$work/help of dlm" || fail "./dlm --help has no first look"

# The library that the Python package loads is that of this version: below 1.0 each minor number has a library of its own.
same "capi/python" "$(sed -n 's/.*"libmidgegalena\.so\.\([0-9.]*\)".*/\1/p' capi/python/midgegalena/__init__.py)"

built=capi/out
if [[ -x $built/mg && -x $built/mg-lock && -x $built/dlm-shared && -x $built/dlm-mount ]]; then
    for name in mg mg-lock dlm-shared dlm-mount; do
        for option in -V --version; do
            same "$name $option" "$("$built/$name" "$option" | sed -n "s/^$name of midgegalena //p")"
        done
        for option in -h --help; do
            "$built/$name" "$option" 2> /dev/null | grep -q "^usage: $name " || fail "$name $option shows no usage"
        done
    done
    same "midgegalena.pc" "$(sed -n 's/^Version: //p' "$built/midgegalena.pc")"
    same "libmidgegalena.so" "$(basename -- "$(readlink -f -- "$built/libmidgegalena.so")" | sed -n 's/^libmidgegalena\.so\.//p')"
    "$built/mg-lock" --help > "$work/help"
    has_words mg-lock "$work/help"
    # shellcheck disable=SC2013
    for option in $(sed -n '/OPTIONS\[\]/,/;$/p' capi/src/mg-lock.c | grep -o '{"[a-z-]*"' | tr -d '{"'); do
        compared=$((compared + 1))
        grep -qwe "--$option" "$work/help" || fail "mg-lock --help says nothing of --$option"
        grep -qE -- "^\.(It|Op)? ?.*Fl .*-$option|^\.Fl -$option" man/mg-lock.1 || fail "man/mg-lock.1 says nothing of --$option"
    done
else
    echo "left out: version.sh, what mg, mg-lock, dlm-shared, dlm-mount and midgegalena.pc show: the library for C is not built"
fi

[[ $failed -eq 0 ]] && echo "version.sh: $version, $compared compared"
exit $((failed > 0))
