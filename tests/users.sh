#!/usr/bin/env bash
# users.sh: several users of one folder, as docs/OPERATIONS.md says: a group, the bit 2000 and a umask. Runs the page's own lines below a folder of its own, by
# numbers that stand for a group and its users. Two users of the group take turns; who is not in it can do nothing; who may read a host's lock can
# block that host. It needs root and setpriv, and says so where it cannot.
set -uo pipefail

source "$(dirname -- "$(readlink -f -- "${BASH_SOURCE[0]}")")/lib.sh"
need_program
if [[ $(id -u) -ne 0 ]] || ! command -v setpriv > /dev/null; then
    echo "left out: users.sh, several users of a folder: no root, or no setpriv"
    exit 0
fi
group=20100
chmod 711 -- "$work"
install -m 755 -- "$program" "$work/dlm"

# as USER GROUP WORD..: runs the words as this user, with the page's umask.
as() {
    local user=$1 of=$2
    shift 2
    (cd / && umask 007 && exec setpriv --reuid "$user" --regid "$user" --groups "$of" -- env PATH="$work:$PATH" "$@")
}

if ! as 20001 "$group" test -x "$work"; then
    echo "left out: users.sh, several users of a folder: nobody but root gets to $work"
    exit 0
fi

# The page's lines, after that which makes the group.
awk '/^groupadd dlm / { inside = 1; next } /^```/ { inside = 0 } inside' "$top/docs/OPERATIONS.md" |
    sed "s|/var/lib/dlm|$work/dlm.d|g; s|chgrp dlm |chgrp $group |" > "$work/words"
[[ $(wc -l < "$work/words") -eq 2 ]] || fail "the page has other lines: $(< "$work/words")"
expect "the page's lines" 0 "formatted 3 disks, 1024 slots an epoch" env PATH="$work:$PATH" bash -e "$work/words"

folder=$work/dlm.d/images
expect "images are the group's" 0 "$group 660" stat -L -c '%g %a' -- "$folder/disk0.img"
expect "one user" 0 "ack 0 Granted" as 20001 "$group" dlm submit "$folder" 0 enqueue 1 1 1 EX db
expect "the other one, under the same number" 0 "ack 1 Queued" as 20002 "$group" dlm submit "$folder" 0 enqueue 2 1 2 EX db
expect "under another number" 0 "ack 2 Released" as 20002 "$group" dlm submit "$folder" 1 release 1 2 1
expect "and the first one there" 0 $'recovered 3\ndb\n  granted 2 2 0 EX' as 20001 "$group" dlm table "$folder" 1
expect "nobody of the group" 1 "dlm: 26 Unreadable disk0" as 20003 20003 dlm table "$folder" 2

# Images and a folder that others may read: they cannot work, but whoever may read a lock can keep its host from working.
chmod 2775 -- "$work/dlm.d" "$work/dlm.d/images"
chmod 664 -- "$folder"/disk*.img
expect "who may only read" 1 "dlm: 26 Unreadable disk0" as 20003 20003 dlm table "$folder" 2
chmod 664 -- "$folder/host1.lock"
coproc reader { as 20003 20003 flock "$folder/host1.lock" sh -c 'echo locked; read -r _'; }
read -r -t 60 -u "${reader[0]}" _ || fail "a reader gets no lock"
expect "a reader blocks a host" 1 "dlm: 36 HostInUse host1" as 20001 "$group" dlm table "$folder" 1
echo >&"${reader[1]}"
wait

# Images that all may write, in a folder where only the group may make files.
chmod 666 -- "$folder"/disk*.img
expect "who may make no lock" 1 "dlm: 37 NoLock host7" as 20003 20003 dlm table "$folder" 7
(umask 077 && : > "$folder/host5.lock")
expect "who may not read a lock" 1 "dlm: 37 NoLock host5" as 20001 "$group" dlm table "$folder" 5

[[ $failed -eq 0 ]] && echo "users.sh: a group shares a folder, and nobody else"
exit $((failed > 0))
