#!/usr/bin/env bash
# Puts headers, libraries, midgegalena.pc, mg, mg-lock, dlm-shared, dlm-mount, their completions and the manual pages in place, below PREFIX (none given: /usr/local),
# with DESTDIR in front of it where one is given. `capi/install.sh uninstall` takes them out. Both print the files. What is missing is built first.
# Which files these are stands in the root's install.sh.
set -euo pipefail
here=$(cd -- "$(dirname -- "$(readlink -f -- "${BASH_SOURCE[0]}")")" && pwd)

case ${1-install} in
    install) "$here/build.sh" "${PREFIX:-/usr/local}" ;;
    uninstall) ;;
    -h | --help | help)
        sed -n '2,/^[^#]/s/^# \{0,1\}//p' -- "${BASH_SOURCE[0]}"
        exit
        ;;
    --version) exec "$here/../install.sh" --version ;;
    *)
        echo "usage: [PREFIX=..] [DESTDIR=..] capi/install.sh [uninstall]" >&2
        exit 2
        ;;
esac
exec "$here/../install.sh" "${1-install}" library
