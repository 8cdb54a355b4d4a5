#!/usr/bin/env bash
# Builds session.c for peers.py, as bench/peers/out/session.
#   bench/peers/build.sh [--install] [CHECKOUT]
# CHECKOUT: where capi/build.sh has left the library; this one if it is left out. Where a Debian package is missing it says which, and stops.
# --install: installs the missing packages first, by apt-get. That is all that it ever installs.
set -euo pipefail
here=$(cd -- "$(dirname -- "$(readlink -f -- "${BASH_SOURCE[0]}")")" && pwd)
packages=(gcc libc6-dev libsanlock-dev libpq-dev sanlock etcd-server etcd-client redis-server redis-tools postgresql util-linux)

stop() {
    echo "bench/peers/build.sh: $1" >&2
    exit 1
}

installs=no
if [[ ${1-} == --install ]]; then
    installs=yes
    shift
fi
[[ $# -le 1 && ${1-} != -* ]] || stop "the words are [--install] [CHECKOUT]"
checkout=${1:-$(dirname -- "$(dirname -- "$here")")}
library=$checkout/capi/out/libmidgegalena.a

command -v dpkg-query > /dev/null || stop "this is no Debian system: there is no dpkg-query"
missing=()
for package in "${packages[@]}"; do
    [[ $(dpkg-query -W -f '${db:Status-Status}' "$package" 2> /dev/null) == installed ]] || missing+=("$package")
done
if [[ ${#missing[@]} -gt 0 && $installs == yes ]]; then
    apt-get install --no-install-recommends "${missing[@]}"
elif [[ ${#missing[@]} -gt 0 ]]; then
    stop "missing: ${missing[*]} (with --install they are installed by apt-get)"
fi
[[ -f $library ]] || stop "there is no capi/out/libmidgegalena.a in $checkout: run its capi/build.sh first"

mkdir -p -- "$here/out"
gcc -std=gnu11 -O2 -Wall -Wextra -I "$checkout/capi/include" -I "$(pg_config --includedir)" "$here/session.c" "$library" -o "$here/out/session" -lsanlock_client -lpq
