#!/usr/bin/env bash
# release.sh twice on one commit: the same archive and the same Debian package. The archive has all, installs and runs where there is no `rt`, a program is compiled
# with its library, and it goes out again. Each link of its pages leads somewhere, also once it is installed. The package has no error that lintian knows; it is
# installed into a copy of this system that goes when the test ends, and removed. usr/ and from_c/, which README's commands make, are no reason to refuse. Changes that
# are not committed are one, and so is each file that was not proved and built here.
set -uo pipefail

source "$(dirname -- "$(readlink -f -- "${BASH_SOURCE[0]}")")/lib.sh"
if ! command -v cc > /dev/null; then
    echo "left out: release.sh, an archive with the library for C: no C compiler (cc)"
    exit 0
fi
if [[ -n $(git -C "$top" status --porcelain) ]]; then
    echo "left out: release.sh, an archive of a commit: there are changes that are not committed"
    exit 0
fi

# What this test puts into the checkout, and what it takes the place of, goes back when it ends.
added=() moved=()
finish() {
    local file
    for file in "${moved[@]}"; do
        [[ ! -e $work/kept/$file ]] || mv -f -- "$work/kept/$file" "$top/$file"
    done
    for file in "${added[@]}"; do
        rm -rf -- "${top:?}/$file"
    done
    rm -rf -- "$work"
}
trap finish EXIT
trap 'exit 1' INT TERM

for folder in usr from_c; do
    [[ -e $top/$folder ]] && continue
    added+=("$folder")
    mkdir -- "$top/$folder"
    echo made > "$top/$folder/by README"
done
first=$("$top/release.sh" "$work/first" 2> "$work/said") || { cat -- "$work/said"; exit 1; }
second=$("$top/release.sh" "$work/second" 2> "$work/said") || { cat -- "$work/said"; exit 1; }
mapfile -t firsts <<< "$first"
mapfile -t seconds <<< "$second"
archive=${firsts[0]} package=${firsts[1]-}
cmp -- "$archive" "${seconds[0]}" || fail "two runs make different archives"
version=$(<"$top/VERSION")

mkdir -- "$work/away"
tar -C "$work/away" -xzf "$archive"
cd -- "$work/away/"* || exit 1
sha256sum -c --quiet SHA256SUMS || fail "the checksums are wrong"
[[ $(wc -l < SHA256SUMS) -eq $(($(find . -type f | wc -l) - 1)) ]] || fail "a file has no checksum"
for line in "version $version" "commit $(git -C "$top" rev-parse HEAD)" "dlm: proved"; do
    grep -qx "$line" BUILT || fail "BUILT does not say: $line"
done
grep -q '^proved with .* logic [0-9a-f]*$' BUILT || fail "BUILT names no logic of the kit"
grep -q '^libmidgegalena, .* no proof covers their C' BUILT || fail "BUILT does not say what is not proved"
# All that is named here, and each page that the repository has, but for those of whoever changes it.
of_changes=(CONTRIBUTING.md docs/{CHANGING,DECISIONS,GATE}.md {tests,capi/tests}/README.md)
wanted=(bin/{dlm,mg,mg-lock,dlm-shared,dlm-mount} lib/{libmidgegalena.a,"libmidgegalena.so.$version",midgegalena.pc} VERSION install.sh examples/crontab)
mapfile -t -O "${#wanted[@]}" wanted < <(git -C "$top" ls-files '*.md' 'docs/*.svg' man completions capi/examples capi/python 'examples/*.dlm' examples/{systemd,prometheus} "${of_changes[@]/#/:!}")
[[ ! -d $top/crates/mg ]] || wanted+=(libexec/midgegalena/mg-folder)
for file in "${wanted[@]}" include/{midgegalena,mg_session}.h; do
    [[ -f $file ]] || fail "the archive has no $file"
done
for file in "${of_changes[@]}"; do
    [[ -f $top/$file ]] || fail "there is no $file"
    [[ ! -e $file ]] || fail "the archive has $file, which is for whoever changes the code"
done
[[ -z $(find . -name '*.rt' -o -name '*.antt' -o -name '__pycache__' -o -name '*.o') ]] || fail "the archive has sources of crates, or what a build left"

# links FOLDER WHAT: each link of its pages leads somewhere in it.
links() {
    "$tests/links.py" "$1" > "$work/told" || fail "$2: $(<"$work/told")"
}
links . "the archive"
cp -r -- . "$work/lacking"
rm -- "$work/lacking/capi/README.md"
"$tests/links.py" "$work/lacking" > "$work/told" && fail "a page that is not there is not missed"
cited=$(sed -n 's/.* no proof covers their C (\(.*\), \(.*\))$/\1:## \2/p' BUILT)
grep -qx -- "${cited#*:}" "${cited%%:*}" || fail "BUILT cites what is not there: $cited"

# A path on which there is no rt: the tools that install.sh takes, and no others.
mkdir -- "$work/tools"
for tool in bash dirname readlink install ln mkdir rm rmdir; do
    ln -s -- "$(command -v "$tool")" "$work/tools/$tool"
done
PATH=$work/tools DESTDIR=$work/root ./install.sh > "$work/told" 2> "$work/said" || fail "install.sh ends with $?"
[[ ! -s $work/said ]] || fail "install.sh says: $(<"$work/said")"
diff <(LC_ALL=C sort "$work/told") <(find "$work/root" ! -type d | LC_ALL=C sort) || fail "tells of other files than it puts there"
usr=$work/root/usr/local
cmp -- bin/dlm "$top/crates/dlm/out/dlm" || fail "the program is another"
if [[ -d $top/crates/mg ]]; then
    cmp -- libexec/midgegalena/mg-folder "$top/crates/mg/out/mg" || fail "mg-folder is another"
    grep -qx 'mg-folder: proved' BUILT || fail "BUILT does not say: mg-folder: proved"
fi
[[ $("$usr/bin/dlm" run "$top/examples/first_reply.dlm") == "18 h0 ack 0 Granted" ]] || fail "the program does not run"
for name in mg mg-lock dlm-shared dlm-mount; do
    [[ $("$usr/bin/$name" --version) == "$name of midgegalena $version" ]] || fail "$name shows another version"
done
cmp -- BUILT "$usr/share/doc/midgegalena/BUILT" || fail "BUILT is not installed"
links "$usr/share/doc/midgegalena" "what is installed"
echo kept > "$usr/share/doc/midgegalena/somebody else's"
PATH=$work/tools DESTDIR=$work/root ./install.sh uninstall > /dev/null || fail "uninstall ends with $?"
[[ $(find "$work/root" ! -type d -printf '%f\n') == "somebody else's" ]] || fail "leaves files behind, or takes somebody else's"
rm -- "$usr/share/doc/midgegalena/somebody else's"
PATH=$work/tools DESTDIR=$work/root ./install.sh uninstall > /dev/null || fail "a second uninstall ends with $?"
[[ ! -e $usr/share/doc/midgegalena ]] || fail "leaves folders behind"

# An example is compiled with what is installed, by the archive and by the shared object, and mg-lock runs a command.
PATH=$work/tools PREFIX=$work/prefix ./install.sh > /dev/null || fail "install.sh below a prefix ends with $?"
examples=$work/prefix/share/doc/midgegalena/capi/examples
mkdir -- "$work/one" "$work/other"
: > "$work/told"
cc "$examples/c/failover.c" -I"$work/prefix/include" "$work/prefix/lib/libmidgegalena.a" -o "$work/failover" && "$work/failover" "$work/one" > "$work/told" 2>&1
diff -- "$work/told" "$examples/c/failover.out" || fail "failover.c over the archive does not print failover.out"
if command -v pkg-config > /dev/null; then
    export PKG_CONFIG_PATH=$work/prefix/lib/pkgconfig
    [[ $(pkg-config --modversion midgegalena) == "$version" ]] || fail "pkg-config shows another version"
    : > "$work/told"
    # shellcheck disable=SC2046
    cc "$examples/c/failover.c" $(pkg-config --cflags --libs midgegalena) -o "$work/shared" && LD_LIBRARY_PATH=$work/prefix/lib "$work/shared" "$work/other" > "$work/told" 2>&1
    diff -- "$work/told" "$examples/c/failover.out" || fail "failover.c over the shared object does not print failover.out"
else
    echo "left out: release.sh, pkg-config: it is not installed"
fi
mkdir -- "$work/locks" && "$work/prefix/bin/dlm" format "$work/locks" 3 64 7 > /dev/null
[[ $("$work/prefix/bin/mg-lock" "$work/locks" 0 db -- echo held) == held ]] || fail "mg-lock runs no command"
"$work/prefix/bin/mg" create "$work/people" > /dev/null || fail "mg makes no folder"
[[ $("$work/prefix/bin/mg" lock "$work/people" db -- echo held) == held ]] || fail "mg runs no command"

# The Debian package.
if [[ -z $package ]]; then
    echo "left out: release.sh, the Debian package: no dpkg-deb"
else
    cmp -- "$package" "${seconds[1]}" || fail "two runs make different packages"
    mkdir -- "$work/unpacked" "$work/control"
    dpkg-deb -x "$package" "$work/unpacked"
    dpkg-deb -e "$package" "$work/control"
    [[ $(cd -- "$work/control" && echo *) == 'control md5sums shlibs triggers' ]] || fail "the package has scripts: $(ls "$work/control")"
    cmp -- "$work/unpacked/usr/bin/dlm" bin/dlm || fail "the package's dlm is not the one that was proved"
    [[ ! -d $top/crates/mg ]] || cmp -- "$work/unpacked/usr/libexec/midgegalena/mg-folder" libexec/midgegalena/mg-folder || fail "the package's mg-folder is not the one that was proved"
    links "$work/unpacked/usr/share/doc/midgegalena" "the package"
    # Of the archive each file is there; Debian's own are left aside. Manual pages are compressed.
    diff <(PATH=$work/tools PREFIX=/usr DESTDIR=$work/as_package ./install.sh > /dev/null; cd -- "$work/as_package" && find . ! -type d -print | sed 's|\(/share/man/.*\)|\1.gz|' | LC_ALL=C sort) \
        <(cd -- "$work/unpacked" && find . ! -type d ! -name copyright ! -name 'changelog*' ! -path '*/lintian/*' | LC_ALL=C sort) || fail "the package has other files than the archive installs"
    if command -v lintian > /dev/null; then
        lintian --allow-root --fail-on error "$package" > "$work/told" 2>&1 || { fail "lintian finds errors"; grep '^E:' "$work/told"; }
    else
        echo "left out: release.sh, lintian: it is not installed"
    fi

    # What was changed in an archive is not packed.
    cp -r -- "$work/away" "$work/changed"
    echo more >> "$(echo "$work/changed/"*/README.md)"
    tar -C "$work/changed" -czf "$work/changed.tar.gz" "$(basename -- "$PWD")"
    "$top/debian.sh" "$work/changed.tar.gz" "$work/changed" > "$work/told" 2>&1 && fail "debian.sh packs a damaged archive"
    grep -qx 'debian.sh: the archive is damaged' "$work/told" || fail "debian.sh does not say that the archive is damaged: $(<"$work/told")"

    # Below a folder, with a database of its own in which there is a C library.
    mkdir -p -- "$work/below/var/lib/dpkg/"{info,updates,triggers}
    printf 'Package: libc6\nStatus: install ok installed\nArchitecture: %s\nVersion: 99\nMaintainer: nobody\nDescription: none\n' \
        "$(dpkg --print-architecture)" > "$work/below/var/lib/dpkg/status"
    as_root=(env)
    [[ $(id -u) -eq 0 ]] || as_root=(fakeroot)
    if command -v "${as_root[0]}" > /dev/null; then
        below() { "${as_root[@]}" dpkg --root="$work/below" --force-not-root --path-include='/usr/share/*' "$@" > "$work/told" 2>&1 || fail "dpkg $1 of the package: $(<"$work/told")"; }
        below -i "$package"
        diff <(cd -- "$work/below" && find . ! -type d ! -path './var/*' | LC_ALL=C sort) <(cd -- "$work/unpacked" && find . ! -type d | LC_ALL=C sort) || fail "dpkg -i puts other files"
        below -P midgegalena
        [[ -z $(find "$work/below" ! -type d ! -path '*/var/*'; find "$work/below" -name '*midgegalena*') ]] || fail "dpkg -P leaves something"
    else
        echo "left out: release.sh, the package below a folder: no root, and no fakeroot"
    fi

    # A copy of this system, in memory: its changes are seen by nobody else, and go with it. Status 77: there is none.
    cat > "$work/in_a_copy.sh" << 'END'
set -e
work=$1 package=$2 version=$3 script=$4
{ mount -t tmpfs none "$work/copy" && mkdir -- "$work/copy/"{above,scratch,root} &&
    mount -t overlay overlay -o "lowerdir=/,upperdir=$work/copy/above,workdir=$work/copy/scratch" "$work/copy/root" &&
    mount --rbind /dev "$work/copy/root/dev"; } 2> "$work/said" || exit 77
root=$work/copy/root
cp -- "$package" "$root/package.deb"
cp -- "$script" "$root/script.dlm"
within() { chroot "$root" "$@"; }
within dpkg --path-include='/usr/share/*' -i /package.deb
[[ $(within dpkg-query -W -f '${Status}' midgegalena) == 'install ok installed' ]]
[[ $(within mg-lock --version) == "mg-lock of midgegalena $version" ]]
[[ $(within mg --version) == "mg of midgegalena $version" ]]
[[ $(within dlm run /script.dlm) == '18 h0 ack 0 Granted' ]]
within ldconfig -p | grep -q "libmidgegalena\.so\.$version "
within dpkg -V midgegalena
within dpkg -P midgegalena
within dpkg-query -W midgegalena 2> "$work/said" && exit 1
within ldconfig -p > "$work/said"
grep libmidgegalena "$work/said" && exit 1
[[ -z $(find "$work/copy/above/usr" -name '*midgegalena*' ! -type c; find "$work/copy/above/usr" \( -name 'mg-*' -o -name mg -o -name 'mg.*' -o -name _mg -o -name 'dlm*' -o -name mg_session.h \) ! -type c) ]]
echo "in and out"
END
    mkdir -- "$work/copy"
    if [[ $(id -u) -ne 0 ]]; then
        echo "left out: release.sh, the package in a copy of this system: no root"
    else
        unshare --mount bash "$work/in_a_copy.sh" "$work" "$package" "$version" "$top/examples/first_reply.dlm" > "$work/told" 2>&1
        ended=$?
        if [[ $ended -eq 77 ]]; then
            echo "left out: release.sh, the package in a copy of this system: no overlay here"
        elif [[ $ended -ne 0 || $(tail -n 1 "$work/told") != "in and out" ]]; then
            fail "the package does not go in and out: $(<"$work/told")"
        fi
    fi
fi
cd -- "$top" || exit 1

# refuses WHY TEXT: release.sh makes nothing, and says this.
refuses() {
    "$top/release.sh" "$work/third" > "$work/told" 2> "$work/said" && fail "packs $1"
    grep -q "$2" "$work/said" || fail "does not say of $1: $2, but: $(<"$work/said")"
    [[ ! -s $work/told && -z $(find "$work/third" -type f 2> /dev/null) ]] || fail "makes something of $1"
}

# What stands in a file's place and was not proved and built here is not packed. (Another libdlm_c.a has capi/build.sh prove: tests/build_library.sh.)
mkdir -p -- "$work/kept/"{crates/{dlm,mg}/out,capi/out}
replaced() {
    moved+=("$1")
    cp -p -- "$top/$1" "$work/kept/$1"
    cp -- "$(type -P true)" "$top/$1.new" && mv -- "$top/$1.new" "$top/$1"
    refuses "$2" "$3"
    mv -- "$work/kept/$1" "$top/$1"
}
replaced crates/dlm/out/dlm "a program that was not proved" 'crates/dlm/out/dlm is not what a build here has proved'
[[ ! -d $top/crates/mg ]] || replaced crates/mg/out/mg "an mg-folder that was not proved" 'crates/mg/out/mg is not what a build here has proved'
replaced capi/out/mg-lock "a program in C that was not built here" 'what is in capi/out is not what capi/build.sh has made'
added+=(not_committed)
echo > "$top/not_committed"
refuses "what is not committed" 'not_committed'

[[ $failed -eq 0 ]] && echo "release.sh: one archive and one package, in and out without rt"
exit $((failed > 0))
