#!/usr/bin/env bash
# release.sh [FOLDER]: makes an archive that installs on another machine without Rattle's kit, and a Debian package of it, and prints their paths.
# In it: dlm, mg, mg-lock, dlm-shared, dlm-mount, the library for C with its examples and its package for Python, manual pages, completions, the pages of the repository
# for whoever uses or doubts it and what their links lead to, install.sh, SHA256SUMS, and BUILT: version, commit, what was proved with which line of `rt version`, and what was not proved.
# A link that leads nowhere in it is refused.
# What is not proved here is not packed: ./dlm and capi/build.sh prove and build, and are run first where something is missing.
# Two runs on one commit make the same archive and the same package, byte for byte. Without FOLDER they go into release/.
set -euo pipefail

top=$(dirname -- "$(readlink -f -- "${BASH_SOURCE[0]}")")
into=${1-$top/release}

fail() {
    echo "release.sh: $1" >&2
    exit 1
}

source "$top/build.sh"
answer_words show_head "$@"
[[ $# -le 1 ]] || { echo "usage: release.sh [FOLDER]" >&2; exit 2; }
commit=$(git -C "$top" rev-parse HEAD) || fail "this is no checkout of the repository"
changes=$(git -C "$top" status --porcelain)
[[ -z $changes ]] || fail "there are changes that are not committed:"$'\n'"$changes"
version=$(<"$top/VERSION")
made=$top/capi/out

ensure_built dlm
is_proved dlm || fail "crates/dlm/out/dlm is not what a build here has proved: take it away, and ./dlm proves and builds it"
if [[ -d $top/crates/mg ]]; then
    ensure_built mg
    is_proved mg || fail "crates/mg/out/mg is not what a build here has proved: take it away, and capi/build.sh proves and builds it"
fi
"$top/capi/build.sh" || fail "the library for C could not be built, and nothing is released without it"
is_proved dlm_c libdlm_c.a || fail "crates/dlm_c/out/libdlm_c.a is not what a build here has proved"
(cd -- "$made" && sha256sum --status -c made) || fail "what is in capi/out is not what capi/build.sh has made: take it away, and capi/build.sh makes it"

name=midgegalena-$version-${commit:0:12}-$(uname -s | tr '[:upper:]' '[:lower:]')-$(uname -m)
time=$(git -C "$top" log -1 --format=%ct)
work=$(mktemp -d)
trap 'rm -r -- "$work"' EXIT
whole=$work/$name
mkdir -p -- "$whole/"{bin,lib,include} "$into"
cp -- "$top/crates/dlm/out/dlm" "$made/"{mg,mg-lock,dlm-shared,dlm-mount} "$whole/bin"
with_folder= programs=("$whole/bin/"*)
if [[ -d $top/crates/mg ]]; then
    install -D -- "$made/mg-folder" "$whole/libexec/midgegalena/mg-folder"
    with_folder=$'\nmg-folder: proved' programs+=("$whole/libexec/midgegalena/mg-folder")
fi
cp -- "$made/"{libmidgegalena.a,"libmidgegalena.so.$version",midgegalena.pc} "$whole/lib"
cp -- "$top/capi/include/"*.h "$whole/include"
cp -- "$top/"{VERSION,install.sh} "$whole"
# What git knows of these: no output of a build and no cache is among it. Pages for whoever changes the code stay in the clone.
of_changes=(CONTRIBUTING.md docs/{CHANGING,DECISIONS,GATE}.md {tests,capi/tests}/README.md)
git -C "$top" ls-files -z '*.md' 'docs/*.svg' man completions 'examples/*.dlm' 'examples/*.out' 'examples/*.err' examples/{crontab,systemd,prometheus} capi/{examples,include,python} capi/src/mg-lock.c "${of_changes[@]/#/:!}" |
    tar -C "$top" --null --files-from=- -cf - | tar -C "$whole" -xf -
"$top/tests/links.py" "$whole" > "$work/links" || fail "a link of a page leads nowhere in what was packed:"$'\n'"$(<"$work/links")"

# The version of the C library that the programs ask for.
glibc=$(objdump -T "${programs[@]}" "$whole/lib/"*.so.* | sed -n 's/.*GLIBC_\([0-9.]*\).*/\1/p' | sort -uV | tail -n 1)
cat > "$whole/BUILT" << END
version $version
commit $commit
proved with $(rt version)
dlm: proved$with_folder
libmidgegalena, mg, mg-lock, dlm-shared, dlm-mount: proved is crates/dlm_c, with all below it; no proof covers their C (capi/README.md, What is trusted)
runs on $(uname -s) $(uname -m), with the GNU C library $glibc or a later one
END
(cd -- "$whole" && find . -type f -printf '%P\0' | LC_ALL=C sort -z | xargs -0 sha256sum) > "$work/sums"
mv -- "$work/sums" "$whole/SHA256SUMS"
chmod -R u=rwX,go=rX -- "$whole"

# The commit's time stands for each file's, so that the archive depends on the commit alone.
tar -C "$work" --sort=name --mtime="@$time" --owner=0 --group=0 --numeric-owner -cf - "$name" | gzip -n > "$work/$name.tar.gz"
mv -- "$work/$name.tar.gz" "$into/$name.tar.gz"
echo "$into/$name.tar.gz"
if command -v dpkg-deb > /dev/null; then
    "$top/debian.sh" "$into/$name.tar.gz" "$into"
else
    echo "release.sh: without the Debian package, since there is no dpkg-deb" >&2
fi
