#!/usr/bin/env bash
# debian.sh ARCHIVE [FOLDER]: makes of an archive of release.sh a Debian package, and prints its path. Without FOLDER it goes beside the archive.
# It needs dpkg-deb and the GNU binutils, and neither Rattle's kit nor a checkout beside itself. One archive makes one package, byte for byte.
# In it are the archive's files, as install.sh puts them below /usr. It starts nothing, and has no scripts: a trigger has ldconfig run.
# The address none.invalid is nobody's, by its name: the field wants one, and none is given.
set -euo pipefail

case "$*" in
    -h | --help | help)
        sed -n '2,/^[^#]/s/^# \{0,1\}//p' -- "${BASH_SOURCE[0]}"
        exit
        ;;
    --version)
        echo "midgegalena $(<"$(dirname -- "$(readlink -f -- "${BASH_SOURCE[0]}")")/VERSION")"
        exit
        ;;
esac
[[ $# -eq 1 || $# -eq 2 ]] || { echo "usage: debian.sh ARCHIVE [FOLDER]" >&2; exit 2; }
into=${2-$(dirname -- "$1")}
work=$(mktemp -d)
trap 'rm -r -- "$work"' EXIT
mkdir -- "$work/archive" "$work/package" "$work/package/DEBIAN"
tar -C "$work/archive" --strip-components=1 -xzf "$1"
archive=$work/archive
package=$work/package
doc=$package/usr/share/doc/midgegalena

fail() {
    echo "debian.sh: $1" >&2
    exit 1
}

(cd -- "$archive" && sha256sum --quiet -c SHA256SUMS) || fail "the archive is damaged"
# The time of the commit, as all files of the archive have it. It is part of the version, so that a later commit is a later package.
SOURCE_DATE_EPOCH=$(stat -c %Y -- "$archive/BUILT")
export SOURCE_DATE_EPOCH
version=$(<"$archive/VERSION")
full=$version+$(date -u -d "@$SOURCE_DATE_EPOCH" +%Y%m%d%H%M%S)-1
runs=$(sed -n 's/^runs on //p' "$archive/BUILT")
case $runs in
    'Linux x86_64,'*) architecture=amd64 ;;
    'Linux aarch64,'*) architecture=arm64 ;;
    *) fail "no name in Debian is known here for: $runs" ;;
esac
glibc=$(sed -n 's/.*GNU C library \([0-9.]*\) .*/\1/p' <<< "$runs")

DESTDIR=$package PREFIX=/usr "$archive/install.sh" > /dev/null

# What Debian wants otherwise: programs without symbols, but for those that stay byte for byte what was proved and built; compressed manual pages; a page on
# rights; and the changes, of the package and of what is in it.
strip --strip-unneeded -- "$package/usr/bin/"{mg,mg-lock,dlm-shared,dlm-mount} "$package/usr/lib/libmidgegalena.so.$version"
overrides=
for proved in usr/bin/dlm usr/libexec/midgegalena/mg-folder; do
    [[ -f $package/$proved ]] && readelf -S "$package/$proved" | grep -q ' \.symtab ' || continue
    overrides+=$'# It is byte for byte what was proved and built.\n'"midgegalena: unstripped-binary-or-object [$proved]"$'\n'
done
if [[ -n $overrides ]]; then
    mkdir -p -- "$package/usr/share/lintian/overrides"
    printf '%s' "$overrides" > "$package/usr/share/lintian/overrides/midgegalena"
fi
find "$package/usr/share/man" -type f -exec gzip -9n -- {} +
gzip -9nc -- "$doc/CHANGES.md" > "$doc/changelog.gz"
gzip -9n > "$doc/changelog.Debian.gz" << END
midgegalena ($full) unstable; urgency=medium

  * Made of the release archive by debian.sh. The changes are in changelog.gz.

 -- none given <nobody@none.invalid>  $(date -u -d "@$SOURCE_DATE_EPOCH" -R)
END
cat > "$doc/copyright" << END
Midgegalena. The rights are its owner's. No licence is given yet: ask
whoever gave you this what you may do with it.
END

# A hint for programs that are packaged with this library, by the name that they are linked with.
[[ $version =~ ^0\.[0-9]+|^[0-9]+ ]]
echo "libmidgegalena ${BASH_REMATCH[0]} midgegalena (>= $version)" > "$package/DEBIAN/shlibs"
echo "activate-noawait ldconfig" > "$package/DEBIAN/triggers"
# Debian's package mg is an editor, with a program and a manual page of that name.
cat > "$package/DEBIAN/control" << END
Package: midgegalena
Version: $full
Architecture: $architecture
Maintainer: none given <nobody@none.invalid>
Section: admin
Priority: optional
Depends: libc6 (>= $glibc)
Conflicts: mg
Suggests: python3
Installed-Size: $(find "$package/usr" -type f -printf '%s\n' | awk '{ sum += int(($1 + 1023) / 1024) } END { print sum }')
Description: lock manager for hosts that share disks and nothing else
 Programs take locks on names, in six modes. The locks are kept in images on one
 to seven disks, with no network, no clock and no daemon. mg lock runs a command
 under a lock; the library libmidgegalena is for programs.
 .
 The log and the lock table are proved. docs in /usr/share/doc/midgegalena say
 what that covers, and BUILT there says of which commit this was made.
END
(cd -- "$package" && find usr -type f -printf '%p\0' | LC_ALL=C sort -z | xargs -0 md5sum) > "$package/DEBIAN/md5sums"
chmod -R u=rwX,go=rX -- "$package"
find "$package" -exec touch -h -d "@$SOURCE_DATE_EPOCH" -- {} +

name=midgegalena_${full}_$architecture.deb
dpkg-deb --root-owner-group -Zgzip --build "$package" "$work/$name" > /dev/null
mkdir -p -- "$into"
mv -- "$work/$name" "$into/$name"
echo "$into/$name"
