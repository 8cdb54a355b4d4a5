#!/usr/bin/env bash
# install.sh into a folder and out of it again: the program runs there, the page is found by man, and nothing is left behind, but what was there before.
set -uo pipefail

source "$(dirname -- "$(readlink -f -- "${BASH_SOURCE[0]}")")/lib.sh"
# With the library for C there are 25 more, one of them a link (two from version 1 on), and mg-folder where it is built. Without the library that is said.
files=5 says='without the library for C'
[[ ! -f $top/capi/out/made ]] || files=30 says=
[[ ! -f $top/capi/out/mg-folder ]] || files=$((files + 1))

for prefix in /usr/local '/opt/lock manager'; do
    DESTDIR=$work/root PREFIX=$prefix "$top/install.sh" >"$work/told" 2>"$work/said" || fail "ends with $?"
    place=$work/root$prefix
    diff <(LC_ALL=C sort "$work/told") <(find "$work/root" ! -type d | LC_ALL=C sort) || fail "tells of other files than it puts there"
    [[ $(<"$work/said") == *"$says"* && (-n $says || ! -s $work/said) ]] || fail "says: $(<"$work/said")"
    [[ $(find "$work/root" ! -type d | wc -l) -eq $files ]] || fail "puts $(find "$work/root" ! -type d | wc -l) files"
    [[ $("$place/bin/dlm" run "$top/examples/first_reply.dlm") == "18 h0 ack 0 Granted" ]] || fail "the program does not run"
    if command -v man >/dev/null; then
        man -M "$place/share/man" dlm 2>"$work/said" | grep -q 'locks for hosts that share disks' || fail "man finds no page: $(<"$work/said")"
    fi
    (
        # shellcheck source=/dev/null
        source "$place/share/bash-completion/completions/dlm"
        complete -p dlm >/dev/null
    ) || fail "the completion is none"
    # Somebody else's file stays, with its folder. Of /usr/local the first folders stay, too.
    mkdir -p -- "$place/share/other" && : >"$place/share/other/file"
    left=$'share\nshare/other\nshare/other/file'
    [[ $prefix != /usr/local ]] || left=$'bin\n'$left
    folders=$'bin\ninclude\nlib\n'
    [[ ! -f $top/capi/out/mg-folder ]] || folders+=$'libexec\n'
    [[ $prefix != /usr/local || -n $says ]] || left=$folders${left#*$'\n'}
    if [[ -z $says ]]; then
        [[ $("$place/bin/mg" --version) == "mg of midgegalena "* ]] || fail "mg does not run"
    fi
    DESTDIR=$work/root PREFIX=$prefix "$top/install.sh" uninstall >"$work/taken" || fail "uninstall ends with $?"
    diff <(LC_ALL=C sort "$work/told") <(LC_ALL=C sort "$work/taken") || fail "uninstall tells of other files than were there"
    [[ $(cd -- "$place" && find * | LC_ALL=C sort) == "$left" ]] || fail "leaves behind: $(cd -- "$place" && find *)"
    DESTDIR=$work/root PREFIX=$prefix "$top/install.sh" uninstall >"$work/taken" || fail "a second uninstall ends with $?"
    [[ ! -s $work/taken ]] || fail "a second uninstall tells of files: $(<"$work/taken")"
    rm -r -- "$work/root"
done
for words in what "install what" "uninstall what"; do
    # shellcheck disable=SC2086
    DESTDIR=$work/root "$top/install.sh" $words 2>/dev/null
    [[ $? -eq 2 ]] || fail "takes any word: $words"
done

[[ $failed -eq 0 ]] && echo "install.sh: in and out, by two prefixes"
exit $((failed > 0))
