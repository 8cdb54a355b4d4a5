#!/usr/bin/env bash
# Builds the library, and tries it from C, C++, Python, Rust and Go: the header alone, each call, each bad argument, each refused allocation, a host
# that dies, several at once, and the same folder by the program dlm. Under valgrind, and with the sanitizers of gcc, where they are there.
# Where there is no C compiler it says so, and ends well.
set -euo pipefail
source "$(dirname -- "$(readlink -f -- "${BASH_SOURCE[0]}")")/../tests/lib.sh"
here=$top/capi
if ! command -v cc > /dev/null; then
    echo "left out: capi/check.sh, the library for C: no C compiler (cc)"
    exit 0
fi
export PREFIX=$work/usr
"$here/install.sh" > "$work/installed.txt"
export PKG_CONFIG_PATH=$PREFIX/lib/pkgconfig LD_LIBRARY_PATH=$PREFIX/lib
strict="-Wall -Wextra -pedantic -Werror"
flags="-I $PREFIX/include -L $PREFIX/lib -lmidgegalena"
passed=0
tried() { # NAME COMMAND..: passes where the command does
    local name=$1
    shift
    if "$@" > "$work/out.txt" 2>&1; then
        passed=$((passed + 1))
    else
        failed=$((failed + 1))
        echo "failed: $name"
        sed 's/^/    /' "$work/out.txt"
    fi
}
left_out() { echo "left out: $1"; }
folder() { rm -rf -- "$work/images" && mkdir -- "$work/images"; }

# The header alone, in each language that it is for.
echo '#include <mg_session.h>' > "$work/alone.c"
for standard in c99 c11 c17; do tried "header as $standard" cc -std=$standard $strict -I "$PREFIX/include" -fsyntax-only "$work/alone.c"; done
if command -v c++ > /dev/null; then
    cp -- "$work/alone.c" "$work/alone.cpp"
    for standard in c++11 c++17; do tried "header as $standard" c++ -std=$standard $strict -I "$PREFIX/include" -fsyntax-only "$work/alone.cpp"; done
fi
if command -v pkg-config > /dev/null; then
    tried "pkg-config" bash -c 'pkg-config --cflags --libs midgegalena | grep -q -- "-lmidgegalena"'
fi

# Each call: against the archive, against the shared library, and from C++.
common="-D_DEFAULT_SOURCE $strict -g -I $PREFIX/include"
tried "calls, archive" cc -std=c99 $common "$here/tests/calls.c" "$PREFIX/lib/libmidgegalena.a" -o "$work/calls"
tried "calls, shared" cc -std=c99 $common "$here/tests/calls.c" $flags -o "$work/calls_shared"
programs=(calls calls_shared)
if command -v c++ > /dev/null; then
    tried "calls, C++" c++ -x c++ -std=c++17 $common "$here/tests/calls.c" $flags -o "$work/calls_cpp"
    programs+=(calls_cpp)
fi
for program in "${programs[@]}"; do folder; tried "$program" "$work/$program" "$work/images"; done

# The folder is the program's, too; and a host that the library has is not the program's.
dlm=$top/crates/dlm/out/dlm
if [[ -x $dlm ]]; then
    tried "dlm reads it" bash -c '"$1" table "$2" 3 | cmp - <(printf "recovered 18\nempty\n")' _ "$dlm" "$work/images"
    tried "dlm check" bash -c '"$1" check "$2" | cmp - <(echo sound)' _ "$dlm" "$work/images"
else
    left_out "dlm on the same folder: the program is not built"
fi

# Each allocation is refused in turn.
tried "refused memory, built" cc -std=c99 $common -Wl,--wrap=malloc,--wrap=calloc,--wrap=realloc,--wrap=posix_memalign "$here/tests/refused_memory.c" "$PREFIX/lib/libmidgegalena.a" -o "$work/refused_memory"
folder
tried "refused memory" "$work/refused_memory" "$work/images"

# The value of a name, from host to host.
tried "values, built" cc -std=c99 $common "$here/tests/values.c" $flags -o "$work/values"
folder
tried "values" "$work/values" "$work/images"

# Clients that are forgotten.
tried "forgotten, built" cc -std=c99 $common "$here/tests/forgotten.c" $flags -o "$work/forgotten"
folder
tried "forgotten" "$work/forgotten" "$work/images"

# Sessions.
tried "sessions, built" cc -std=c99 $common "$here/tests/sessions.c" $flags -o "$work/sessions"
folder
tried "sessions" "$work/sessions" "$work/images"

# Signs of life that are removed, or links, at a bad moment.
tried "files of signs, built" cc -std=c99 $common -Wl,--wrap=flock "$here/tests/sign_files.c" "$PREFIX/lib/libmidgegalena.a" -o "$work/sign_files"
folder
tried "files of signs" "$work/sign_files" "$work/images"

# Commands that return before they are marked.
tried "late, built" cc -std=c99 $common "$here/tests/late.c" $flags -o "$work/late"
folder
tried "late" "$work/late" "$work/images"

# Images that are missing, short, of another folder or layout, or unformatted.
tried "images, built" cc -std=c99 $common "$here/tests/images.c" $flags -o "$work/images_test"
folder
tried "images" "$work/images_test" "$work/images" "$dlm"

# A log without an end: hosts go through epochs, in memory where there is room, since that takes thousands of commands; dlm-shared refuses it.
tried "endless, built" cc -std=c99 $common "$here/tests/endless.c" $flags -o "$work/endless"
folder
memory=$(mktemp -d -p /dev/shm 2> /dev/null) && trap 'rm -rf -- "$work" "$memory"' EXIT || memory=$work/images
tried "endless" "$work/endless" "$memory" "$dlm"
says_endless() { { "$@" 2>&1 || true; } | grep -q ' 25 WrongHeader disk0 (an image for the processes of one machine alone: '; }
tried "refused: dlm-shared" says_endless "$PREFIX/bin/dlm-shared" table "$memory/epochs" 0
# A lost image is replaced there: by the test, and by dlm.
tried "replaced, built" cc -std=c99 $common -Wl,--wrap=flock "$here/tests/replaced.c" "$PREFIX/lib/libmidgegalena.a" -o "$work/replaced"
mkdir -- "$memory/replaced" "$memory/replaced_by_dlm"
tried "replaced" "$work/replaced" "$memory/replaced"
[[ ! -x $dlm ]] || tried "replaced by dlm" "$work/replaced" "$memory/replaced_by_dlm" "$dlm"
rm -rf -- "$memory"
endless_test() { # PROGRAM [WORD..]: builds it so that the logs of its folders have no end
    local source=$here/tests/$1.c
    [[ $1 != failover ]] || source=$here/examples/c/failover.c
    tried "$1 over a log without an end, built" cc -std=c99 $common -include "$here/tests/over_endless.h" "$source" "${@:2}" -o "$work/endless_$1"
}
for program in values forgotten contend failover sessions late; do
    # shellcheck disable=SC2086
    endless_test "$program" $flags
    folder
    given=("$work/images")
    [[ $program != contend ]] || given+=(4 40)
    tried "$program over a log without an end" "$work/endless_$program" "${given[@]}"
done

# Standard input, output and error are closed, in each of seven ways: no image's header changes.
tried "closed, built" cc -std=c99 $common "$here/tests/closed.c" $flags -o "$work/closed"
tried "format, built" cc -std=c99 $common -x c - $flags -o "$work/format" << 'END'
#include <midgegalena.h>
#include <stdlib.h>
int main(int argc, char **argv) { return argc == 3 && mg_format(argv[1], 3, (unsigned)atoi(argv[2]), 7, NULL) == MG_OK ? 0 : 1; }
END
# The images are those of dlm format, and a loss of power within it leaves no set of fewer.
tried "as_dlm, built" cc -std=c99 $common "$here/tests/as_dlm.c" $flags -o "$work/as_dlm"
if [[ -x $dlm ]]; then
    folder
    mkdir -- "$work/images/"{dlm,mg}
    tried "the images of dlm format" bash -c '"$1" format "$3/dlm" 3 64 7 && DLM=/nowhere "$2" format "$3/mg" 3 64 7 && diff -r "$3/dlm" "$3/mg"' _ "$dlm" "$work/as_dlm" "$work/images"
    if command -v python3 > /dev/null; then
        tried "losses of power within mg_format" env DLM="$dlm" PYTHONDONTWRITEBYTECODE=1 "$top/tests/power_loss.py" --program "$work/as_dlm" --format --steps 0 --states 2
    fi
fi
headers() { for disk in 0 1 2; do head -c 4096 -- "$work/images/disk$disk.img"; done | sha256sum; }
folder
tried "format" "$work/format" "$work/images" 64
wanted=$(headers)
for set in 1 2 3 4 5 6 7; do
    tried "closed $set" "$work/closed" "$work/images" "$set"
    tried "headers after closed $set" test "$(headers)" = "$wanted"
done

# Devices that several machines use: bytes, calls that fail, host numbers; and the same tests over such images, in files. tests/machines.sh has devices.
tried "formats, built" cc -std=c99 $common -Wl,--wrap=open,--wrap=pread,--wrap=pwrite,--wrap=fdatasync,--wrap=fsync "$here/tests/formats.c" "$PREFIX/lib/libmidgegalena.a" -o "$work/formats"
folder
tried "formats for one machine" "$work/formats" alone "$work/images"
device_calls=(-std=c99 $common -Wl,--wrap=pread,--wrap=pwrite,--wrap=fdatasync "$here/tests/devices.c")
tried "devices, built" cc "${device_calls[@]}" "$here/out/devices.o" -o "$work/devices"
tried "shared, built" cc -std=c99 $common "$here/tests/shared.c" $flags -o "$work/shared"
for program in calls values forgotten sessions contend failover; do
    source=$here/tests/$program.c
    [[ $program != failover ]] || source=$here/examples/c/failover.c
    tried "$program over shared devices, built" cc -std=c99 $common -include "$here/tests/over_shared.h" "$source" $flags -o "$work/shared_$program"
done
folder
"$work/shared" "$work/images" > "$work/said.txt" 2>&1 && is_direct=0 || is_direct=$?
if [[ $is_direct -eq 3 ]]; then
    left_out "shared devices in files: the file system of $work takes no O_DIRECT"
else
    tried "shared" bash -c 'cat -- "$1"; exit "$2"' _ "$work/said.txt" "$is_direct"
    folder
    tried "formats for several machines" "$work/formats" shared "$work/images"
    folder
    for k in 0 1 2; do truncate -s 128K -- "$work/images/$k"; done
    truncate -s 40K -- "$work/images/3"
    tried "devices" "$work/devices" "$work/images/"{0,1,2,3}
    for program in calls values forgotten sessions contend failover; do
        folder
        given=("$work/images")
        [[ $program != contend ]] || given+=(4 20)
        tried "$program over shared devices" "$work/shared_$program" "${given[@]}"
    done
    # A log without an end over such devices. SHARED_EPOCHS: how many epochs two machines go through.
    for program in values sessions contend failover; do
        source=$here/tests/$program.c
        [[ $program != failover ]] || source=$here/examples/c/failover.c
        tried "$program over shared devices without an end, built" cc -std=c99 $common -include "$here/tests/over_shared_endless.h" "$source" $flags -o "$work/shared_endless_$program"
        folder
        given=("$work/images")
        [[ $program != contend ]] || given+=(4 20)
        tried "$program over shared devices without an end" "$work/shared_endless_$program" "${given[@]}"
    done
    tried "shared_epochs, built" cc -std=c99 $common "$here/tests/shared_epochs.c" $flags -o "$work/shared_epochs"
    folder
    memory=$(mktemp -d -p /dev/shm 2> /dev/null) && trap 'rm -rf -- "$work" "$memory"' EXIT || memory=$work/images
    tried "shared_epochs" "$work/shared_epochs" "$memory" "${SHARED_EPOCHS:-20}"
    rm -rf -- "$memory"
    if command -v python3 > /dev/null; then
        tried "machines_endless" python3 -B "$top/tests/machines_endless.py" --program "$PREFIX/bin/dlm-shared" --commands "${MACHINES_ENDLESS:-700}"
    fi
fi
if [[ $is_direct -ne 3 ]]; then
    # Each line of words, and what dlm-shared prints for it.
    shared_words() (
        cd -- "$work"
        while IFS= read -r words; do
            echo "\$ $words"
            # shellcheck disable=SC2086
            "$PREFIX/bin/dlm-shared" $words 2>&1 || echo "status $?"
        done
    )
    folder
    mkdir -- "$work/images/copy" "$work/images/endless"
    cat > "$work/wanted.txt" << 'END'
$ format images 3 12 7 4 512
dlm: 26 Unreadable disk0 (disk0.img is not there: a link to a block device is wanted, unless files are asked for)
status 1
$ format images 0 12 7 4 512 files
dlm-shared: DISKS is 0: 1 to 7
status 2
$ format images 18446744073709551619 12 7 4 512 files
dlm-shared: DISKS is 18446744073709551619: 1 to 7
status 2
$ format images 3 4097 7 4 512
dlm-shared: SLOTS is 4097: 1 to 4096, or - for a log without an end
status 2
$ format images 3 12 -1
dlm-shared: CLUSTER is -1: 0 to 18446744073709551615
status 2
$ format images 3 nodsync
dlm-shared: CLUSTER is missing: 0 to 18446744073709551615
status 2
$ format images 3 12 7 0
dlm-shared: HOSTS is 0: 1 to 16
status 2
$ format images 3 12 7 4 1536 files
dlm-shared: SECTOR is 1536: 512, 1024, 2048 or 4096
status 2
$ format images 3 12 7 4 512 file
dlm-shared: file is a word too many: see dlm-shared --help
status 2
$ make images
dlm-shared: WORD is make: format, submit, table, mark, check, export or take
status 2
$ take
dlm-shared: FOLDER is missing: a folder with links disk0.img to disk6.img
status 2
$ take images
dlm-shared: HOST is missing: 0 to 15
status 2
$ export images
dlm-shared: INTO is missing: a folder that has no images
status 2
$ format images 3 12 7 4 512 files
formatted 3 disks, 12 slots
$ format images 3 12 7 4 512 files
dlm: 29 AlreadyThere disk0 (disk0.img is formatted)
status 1
$ format images 2 12 7 4 512 files
dlm: 29 AlreadyThere disk0 (disk0.img is a file that is there)
status 1
$ submit images 0 enqueue 1 1 1 EX db
ack 0 Granted
$ submit images 1 enqueue 2 1 2 NL db
ack 1 Granted
$ submit images 2 enqueue 3 1 3 PR db
ack 2 Queued
$ submit images 3 enqueue 3 2 4 PR db noqueue
ack 3 16 NotQueued
$ submit images 0 convert 1 2 1 PW value 000102030405060708090a0b0c0d0e0f
ack 4 Granted(000102030405060708090a0b0c0d0e0f)
$ submit images 1 status 2 2 3
ack 5 State(held=-, wanted=PR)
$ submit images 2 cancel 3 3 3
ack 6 Cancelled
$ submit images 1 purge 2 3 3
ack 7 Purged(0)
$ table images 3
recovered 8
db 000102030405060708090a0b0c0d0e0f
  granted 1 1 0 PW
  granted 2 2 1 NL
$ submit images 0 release 1 3 1
ack 8 Released
$ mark images 1
recovered 9
marked 0 slots
$ submit images 0
dlm-shared: COMMAND is missing: enqueue, convert, release, cancel, status, purge or forget
status 2
$ submit images 0 take 1 4 1
dlm-shared: COMMAND is take: enqueue, convert, release, cancel, status, purge or forget
status 2
$ submit images 0 release 256 4 1
dlm-shared: CLIENT is 256: 0 to 255
status 2
$ submit images 0 release 1 0 1
dlm-shared: REQUEST is 0: 1 to 4611686018427387904
status 2
$ submit images 0 release 1 4 0
dlm-shared: LOCK is 0: 1 to 65535
status 2
$ submit images 0 purge 1 4 16
dlm-shared: HOST is 16: 0 to 15
status 2
$ submit images 0 forget 1 4
dlm-shared: FORGOTTEN is missing: 0 to 255
status 2
$ submit images 0 convert 1 4 1 ex
dlm-shared: MODE is ex: NL, CR, CW, PR, PW or EX
status 2
$ submit images 0 enqueue 1 4 9 EX sixteen-bytes-ab
dlm-shared: NAME is sixteen-bytes-ab: 1 to 15 bytes from 0x21 to 0x7E
status 2
$ submit images 0 convert 1 4 1 EX noqueue value
dlm-shared: VALUE is missing: 32 digits of 0 to 9 and a to f
status 2
$ submit images 0 release 1 4 1 noqueue
dlm-shared: noqueue is a word too many: see dlm-shared --help
status 2
$ submit images 4 release 1 4 1
dlm-shared: disk0.img has host numbers from 0 to 3, and 4 was given
status 2
$ submit images 16 release 1 4 1
dlm-shared: HOST is 16: 0 to 15
status 2
$ table images 00
dlm-shared: HOST is 00: 0 to 15
status 2
$ export images images/copy
exported 3 images
$ table images/copy 0
dlm: 25 WrongHeader disk0 (an image for the processes of one machine alone: dlm and mg-lock work on it)
status 1
$ renew images 0 images/copy 3 12 8
dlm-shared: renew: a log on shared devices is not renewed: nothing puts a table onto such devices. One without an end needs no renewal
status 2
$ replace images 0
dlm-shared: replace: the header of a shared device has no first epoch: a lost one stays lost
status 2
$ format images/endless 3 - 7 17 512 files
dlm-shared: HOSTS is 17: 1 to 16
status 2
$ format images/endless 3 - 7 4 512 files
formatted 3 disks, 1024 slots an epoch
$ format images/endless 3 - 7 4 512 files
dlm: 29 AlreadyThere disk0 (disk0.img is formatted)
status 1
$ submit images/endless 0 enqueue 1 1 1 EX db
ack 0 Granted
$ table images/endless 1
recovered 1
db
  granted 1 1 0 EX
END
    sed -n 's/^\$ //p' "$work/wanted.txt" > "$work/words.txt"
    shared_words < "$work/words.txt" > "$work/said.txt"
    tried "what dlm-shared says" diff "$work/wanted.txt" "$work/said.txt"
    if [[ -x $dlm ]]; then
        tried "dlm check of what dlm-shared copied" bash -c '"$1" check "$2" | cmp - <(echo sound)' _ "$dlm" "$work/images/copy"
        tried "dlm-shared check" bash -c 'PATH=$(dirname -- "$1"):$PATH "$2" check "$3" | cmp - <(echo sound)' _ "$dlm" "$PREFIX/bin/dlm-shared" "$work/images"
    fi
    # Its copies are in the folder, nobody else may read them, and they go, also where it is ended. Here another program stands for dlm.
    mkdir -- "$work/stands"
    cat > "$work/stands/dlm" << 'END'
#!/usr/bin/env bash
stat -c '%a' "$2" "$2"/* | sort | uniq -c | tr -s ' '
dirname -- "$(readlink -f -- "$2")"
[[ -z ${SLEEPS-} ]] || exec sleep "$SLEEPS"
exit 3
END
    chmod +x -- "$work/stands/dlm"
    checks() { PATH=$work/stands:$PATH "$PREFIX/bin/dlm-shared" check "$work/images"; }
    is_clean() { [[ -z $(find "$work/images" -name 'check*') ]]; }
    tried "dlm-shared check: its copies" diff <(checks || echo "status $?") <(printf ' 3 600\n 1 700\n%s\nstatus 3\n' "$(readlink -f -- "$work/images")")
    tried "dlm-shared check: they go" is_clean
    for signal in INT TERM; do
        PATH=$work/stands:$PATH SLEEPS=60 setsid python3 -c 'import os, signal, sys; signal.signal(signal.SIGINT, signal.SIG_DFL); os.execvp(sys.argv[1], sys.argv[1:])' \
            "$PREFIX/bin/dlm-shared" check "$work/images" > "$work/said.txt" &
        checker=$!
        for _ in {1..6000}; do
            ! grep -q images "$work/said.txt" || break
            sleep 0.02
        done
        kill -s "$signal" "$checker"
        ended=0
        wait "$checker" 2> /dev/null || ended=$?
        tried "dlm-shared check: $signal" test "$ended" -eq $((128 + $(kill -l "$signal")))
        tried "dlm-shared check: no copies after $signal" is_clean
    done
fi
source=$here/examples/dlm-mount
tried "dlm-mount, built" cc -std=gnu11 -O2 -Wall -Wextra -Werror -I "$here/include" -I "$here/src" "$source/dlm-mount.c" "$here/out/devices.o" -o "$work/dlm-mount"

# A host dies before it has marked its release: a wait ends all the same.
if command -v rt > /dev/null; then
    kit=$(dirname -- "$(dirname -- "$(readlink -f -- "$(command -v rt)")")")/c
    tried "unmarked, built" cc -std=c99 $common "$here/tests/unmarked.c" "$here/src/"{format,mg_session,device}.c "$top/crates/dlm_c/out/libdlm_c.a" "$kit/libos_c.a" "$kit/liblibc_c.a" -o "$work/unmarked"
    folder
    tried "unmarked" "$work/unmarked" "$work/images"
fi

# The programs of the pages: twice, after a run that left its lock, and with a full log.
# The first two blocks of LIBRARY.md are of sessions, the next two of the seven commands; the second of each stands in the first.
awk -v to="$work" '/^```c$/ { block++; inside = 1; next } /^```$/ { inside = 0 } inside { print > (to "/block" block ".c") }' "$top/docs/LIBRARY.md"
cp -- "$work/block1.c" "$work/session.c"
sed -e '/mg_give(session, db.lock, NULL);$/ { r '"$work/block2.c" -e 'd; }' "$work/session.c" > "$work/session_value.c"
cp -- "$work/block3.c" "$work/page.c"
cp -- "$work/block4.c" "$work/value.part"
sed -e '/^        puts("db is ours");$/ { r '"$work/value.part" -e 'N; d; }' "$work/page.c" > "$work/page_value.c"
sed -n '/^\.Sh EXAMPLES$/,/^\.Ed$/ { /^\./!p }' "$top/man/midgegalena.3" | sed 's/\\e/\\/g' > "$work/manual.c"
cat > "$work/leaves.c" << 'END'
#include <midgegalena.h>
int main(void) {
    struct mg_host *host;
    struct mg_answer answer;
    return mg_open("images", 0, &host, NULL) != MG_OK || mg_enqueue(host, 1, 1, 1, MG_EX, "db", 0, &answer) != MG_OK;
}
END
cat > "$work/leaves_session.c" << 'END'
#include <mg_session.h>
#include <unistd.h>
int main(void) {
    struct mg_session *session;
    struct mg_held db;
    _exit(mg_begin("images", 0, 0, &session, NULL) != MG_OK || mg_take(session, "db", MG_EX, 0, &db) != MG_OK);
}
END
tried "leaves_session, built" cc -std=c99 $common "$work/leaves_session.c" $flags -o "$work/leaves_session"
tried "leaves, built" cc -std=c99 $common "$work/leaves.c" $flags -o "$work/leaves"
in_folder() { (cd -- "$work" && "$@"); }
for page in session session_value page page_value manual; do
    leaves=./leaves
    [[ $page != session* ]] || leaves=./leaves_session
    tried "$page, built" cc -std=c99 $common "$work/$page.c" $flags -o "$work/$page"
    folder
    in_folder ./format images 64
    for run in first second; do
        tried "$page, $run run" in_folder "./$page"
        cp -- "$work/out.txt" "$work/said.txt"
        [[ $page == page_value ]] || tried "$page, $run run has the lock" grep -qx 'db is ours' "$work/said.txt"
    done
    folder
    in_folder ./format images 64
    tried "$page after one that was killed" in_folder bash -c "$leaves"' && ./"$1"' _ "$page"
    folder
    in_folder ./format images 1
    tried "$page, full log" in_folder bash -c "$leaves"' && ! ./"$1"' _ "$page"
    cp -- "$work/out.txt" "$work/said.txt"
    tried "$page, full log: it says so" grep -q '^all slots of the log are taken; ' "$work/said.txt"
    tried "$page, full log: no lock" bash -c '! grep -q "db is ours" "$1"' _ "$work/said.txt"
done

# The first program of LIBRARY.md by four processes that are killed and started again at random, each under a host number of its own; and
# with MG_SHARE, all under one. RESTARTED: so many seconds each.
sed -e 's/^enum { HOST = 0 };$/#include "turn.h"/' -e 's/puts("db is ours");/turn(db.slot);/' "$work/session.c" > "$work/turns.c"
sed 's/HOST, 0, &session/HOST, MG_SHARE, \&session/' "$work/turns.c" > "$work/turns_shared.c"
tried "restarted, built" cc -std=c99 $common "$here/tests/restarted.c" $flags -o "$work/restarted"
for given in "turns 4" "turns_shared 1"; do
    program=${given% *}
    tried "$program, built" cc -std=c99 $common -I "$here/tests" "$work/$program.c" $flags -o "$work/$program"
    folder
    in_folder ./format images 4096
    tried "$program" in_folder ./restarted "${RESTARTED:-3}" "${given#* }" "./$program"
    tail -n 1 "$work/out.txt" >> "$work/restarted.txt"
done

# The program mg-lock. MG_LOCK: turns of each of eight processes.
if command -v python3 > /dev/null && [[ -x $dlm ]]; then
    mkdir -- "$work/mg-lock" "$work/mg-lock-endless"
    tried "answers, built" cc -std=c99 $common -Wl,--wrap=mg_take,--wrap=mg_give,--wrap=fdatasync,--wrap=clock_gettime "$here/src/"{mg-lock,status,looked,since,probe}.c "$here/tests/answers.c" "$PREFIX/lib/libmidgegalena.a" -o "$work/answers"
    tried "mg-lock" env PYTHONDONTWRITEBYTECODE=1 python3 "$here/tests/mg_lock.py" "$PREFIX/bin/mg-lock" "$dlm" "$work/mg-lock" "${MG_LOCK:-3}" \
        "$PREFIX/lib/libmidgegalena.so" "$work/answers"
    tail -n 1 "$work/out.txt" >> "$work/restarted.txt"
    tried "mg-lock over a log without an end" env PYTHONDONTWRITEBYTECODE=1 python3 "$here/tests/mg_lock.py" --endless "$PREFIX/bin/mg-lock" "$dlm" "$work/mg-lock-endless" "${MG_LOCK:-3}" \
        "$PREFIX/lib/libmidgegalena.so" "$work/answers"
    tail -n 1 "$work/out.txt" >> "$work/restarted.txt"
    mkdir -- "$work/signals" "$work/signals-endless"
    tried "signals over a log without an end" env PYTHONDONTWRITEBYTECODE=1 python3 "$here/tests/signals.py" --endless "$PREFIX/bin/mg-lock" "$dlm" "$work/signals-endless" "$work/answers"
    tried "signals" env PYTHONDONTWRITEBYTECODE=1 python3 "$here/tests/signals.py" "$PREFIX/bin/mg-lock" "$dlm" "$work/signals" "$work/answers"
    tail -n 1 "$work/out.txt" >> "$work/restarted.txt"
else
    left_out "mg-lock: there is no Python, or dlm is not built"
fi

# The front mg.
if command -v python3 > /dev/null && [[ -x $dlm ]]; then
    mkdir -- "$work/mg"
    tried "mg" env PYTHONDONTWRITEBYTECODE=1 python3 "$here/tests/mg.py" "$PREFIX/bin/mg" "$dlm" "$work/mg"
    tail -n 1 "$work/out.txt" >> "$work/restarted.txt"
fi

# mg-lock --status.
if command -v python3 > /dev/null && [[ -x $dlm ]]; then
    mkdir -- "$work/status" "$work/status-endless"
    tried "status over a log without an end" env PYTHONDONTWRITEBYTECODE=1 python3 "$here/tests/status.py" --endless "$PREFIX/bin/mg-lock" "$dlm" "$work/status-endless"
    tried "status" env PYTHONDONTWRITEBYTECODE=1 python3 "$here/tests/status.py" "$PREFIX/bin/mg-lock" "$dlm" "$work/status"
    tail -n 1 "$work/out.txt" >> "$work/restarted.txt"
fi

# Many that wait under one host number end at once: on the file system of this folder, and in memory.
if command -v python3 > /dev/null; then
    mkdir -- "$work/at_once"
    works=("$work/at_once")
    if memory=$(mktemp -d -p /dev/shm 2> /dev/null); then
        trap 'rm -rf -- "$work" "$memory"' EXIT
        works+=("$memory")
    fi
    # Over a log without an end some looks and each end of a wait need the number, so on a slow disk not each has its turn in this time.
    mkdir -- "${works[-1]}/endless"
    tried "turns over a log without an end" env PYTHONDONTWRITEBYTECODE=1 python3 "$here/tests/turns.py" --endless "$PREFIX/bin/mg-lock" "$PREFIX/lib/libmidgegalena.so" "${works[-1]}/endless"
    tried "turns" env PYTHONDONTWRITEBYTECODE=1 python3 "$here/tests/turns.py" "$PREFIX/bin/mg-lock" "$PREFIX/lib/libmidgegalena.so" "${works[@]}"
    tail -n 1 "$work/out.txt" >> "$work/restarted.txt"
fi

# Signs of life that cannot be opened, or looked at.
tried "signs, built" cc -std=c99 $common -Wl,--wrap=open,--wrap=stat "$here/tests/signs.c" "$PREFIX/lib/libmidgegalena.a" -o "$work/signs"
folder
tried "signs" "$work/signs" "$work/images"

# Device calls that fail, and processes that die, in the midst of a take or a give; how long calls last, and how late a take comes back.
faults=(-Wl,--wrap=open,--wrap=pread,--wrap=pwrite,--wrap=fdatasync,--wrap=nanosleep,--wrap=clock_gettime)
fails_by=("${faults[@]}" "$here/tests/device_faults.c" "$PREFIX/lib/libmidgegalena.a")
for program in doubt in_time over; do
    tried "$program, built" cc -std=c99 $common "$here/tests/$program.c" "${fails_by[@]}" -o "$work/$program"
    folder
    tried "$program" "$work/$program" "$work/images"
    endless_test "$program" "${fails_by[@]}"
    folder
    tried "$program over a log without an end" "$work/endless_$program" "$work/images"
done

# Sessions go through ends of epochs. THROUGH_EPOCHS: takes of each of six processes.
tried "through_epochs, built" cc -std=c99 $common "$here/tests/through_epochs.c" "${fails_by[@]}" -o "$work/through_epochs"
folder
memory=$(mktemp -d -p /dev/shm 2> /dev/null) && trap 'rm -rf -- "$work" "$memory"' EXIT || memory=$work/images
tried "through_epochs" "$work/through_epochs" "$memory" "${THROUGH_EPOCHS:-60}"
rm -rf -- "$memory"
if [[ $is_direct -ne 3 ]]; then
    tried "through_epochs over shared devices, built" cc -std=c99 $common -DSHARED_DEVICES "$here/tests/through_epochs.c" "${fails_by[@]}" -o "$work/through_shared"
    folder
    memory=$(mktemp -d -p /dev/shm 2> /dev/null) && trap 'rm -rf -- "$work" "$memory"' EXIT || memory=$work/images
    tried "through_epochs over shared devices" "$work/through_shared" "$memory" "${THROUGH_EPOCHS:-60}"
    rm -rf -- "$memory"
fi

# What is left of a wait or a program that gives up is said, and released.
if command -v python3 > /dev/null && [[ -x $dlm ]]; then
    folder
    tried "gives up" env PYTHONDONTWRITEBYTECODE=1 python3 "$here/tests/gives_up.py" "$PREFIX/bin/mg-lock" "$dlm" "$PREFIX/lib/libmidgegalena.so" "$work/images"
else
    left_out "gives up: there is no Python, or dlm is not built"
fi

# A host dies, and the other goes on.
tried "failover, built" cc -std=c99 $common "$here/examples/c/failover.c" $flags -o "$work/failover"
folder
tried "failover" "$work/failover" "$work/images"
cp -- "$work/out.txt" "$work/said.txt"
tried "what failover says" diff "$work/said.txt" "$here/examples/c/failover.out"

# From Python, by the package as pip installs it.
if command -v python3 > /dev/null; then
    package=$here/python
    if python3 -m pip --version > /dev/null 2>&1; then
        tried "python, installed" env PYTHONDONTWRITEBYTECODE=1 python3 -m pip install -q --root-user-action=ignore --no-build-isolation --no-index --no-compile \
            --target "$work/python" "$here/python"
        package=$work/python
        tried "python, from this folder" env PYTHONDONTWRITEBYTECODE=1 bash -c 'python3 -m pip install -q --root-user-action=ignore --no-build-isolation --no-index \
            --prefix "$1/editable" --editable "$2" && python3 -c "import site, sys; site.addsitedir(sys.argv[1]); import midgegalena
assert midgegalena.__file__.startswith(sys.argv[2])" "$(find "$1/editable" -name midgegalena.pth -printf %h)" "$2"' _ "$work" "$here/python"
        tried "python, from its archive" env PYTHONDONTWRITEBYTECODE=1 bash -c 'cd -- "$2" && python3 -c "import sys, wheel_of; wheel_of.build_sdist(sys.argv[1])" "$1" &&
            python3 -m pip install -q --root-user-action=ignore --no-build-isolation --no-index --no-compile --target "$1/unpacked" "$1"/midgegalena-*.tar.gz &&
            diff -r "$1/python/midgegalena" "$1/unpacked/midgegalena"' _ "$work" "$here/python"
        tried "python, what is installed" test -f "$package/midgegalena/py.typed" -a -f "$package/midgegalena/__init__.py" -a ! -e "$here/python/build"
    else
        left_out "the package for Python as pip installs it: there is no pip"
    fi
    tried "python, the library's version" grep -qx "version = \"$(sed -n 's/^Version: //p' "$PREFIX/lib/pkgconfig/midgegalena.pc")\"" "$here/python/pyproject.toml"
    if command -v mypy > /dev/null; then
        tried "python, types" env MYPYPATH="$here/python" mypy --strict --cache-dir "$work/mypy" "$here/python/midgegalena" "$here/examples/python/jobs.py"
    else
        left_out "types of the package for Python: there is no mypy"
    fi
    folder
    tried "python" env PYTHONDONTWRITEBYTECODE=1 PYTHONPATH="$package" python3 "$here/examples/python/turns.py" "$PREFIX/lib/libmidgegalena.so" "$work/images"
    cp -- "$work/out.txt" "$work/said.txt"
    tried "what python says" diff "$work/said.txt" "$here/examples/python/turns.out"
    folder
    tried "python, killed" env PYTHONDONTWRITEBYTECODE=1 python3 "$here/tests/killed.py" "$PREFIX/lib/libmidgegalena.so" "$work/images"
    folder
    tried "python, package" env PYTHONDONTWRITEBYTECODE=1 python3 "$here/tests/python.py" "$PREFIX/lib/libmidgegalena.so" "$work/images"
    folder
    tried "python, jobs" env PYTHONDONTWRITEBYTECODE=1 PYTHONPATH="$package" python3 "$here/tests/jobs.py" "$PREFIX/lib/libmidgegalena.so" "$work/images" "${JOBS:-60}"
    tail -n 1 "$work/out.txt" >> "$work/restarted.txt"
else
    left_out "Python: there is none"
fi

# From Rust and Go: run twice, left early, killed, refused, purged, and with a full log.
says() { echo "# $1"; }
shows() { # COMMAND..: prints the command, what it prints, and its status unless that is 0
    echo "\$ $*"
    "$@" || echo "status $?"
}
formats() { folder && ./format images "$1"; }
holds() { # guard has db, as $holder, until descriptor 3 is closed
    rm -f in held.txt
    mkfifo in
    echo '$ ./guard images 0 &'
    ./guard images 0 < in > held.txt 2>&1 &
    holder=$!
    exec 3> in
    for _ in {1..6000}; do
        [[ ! -s held.txt ]] || break
        sleep 0.02
    done
    cat held.txt
}
guards() {
    says "twice"
    formats 64
    for _ in 1 2; do shows ./guard images 0 < /dev/null; done
    says "its input is a folder, so it returns early"
    shows ./guard images 0 < .
    shows ./guard images 1 < /dev/null
    says "while it has db, and killed then"
    holds
    for host in 0 1; do shows ./guard images $host < /dev/null; done
    kill -KILL "$holder"
    wait "$holder" 2> /dev/null
    exec 3>&-
    says "killed"
    for host in 1 0 1; do shows ./guard images $host < /dev/null; done
    says "purged while it has db"
    holds
    shows ./purges
    exec 3>&-
    wait "$holder" || echo "status $?"
    tail -n +2 held.txt
    says "the log is full once it has db, and from the beginning"
    formats 1
    for _ in 1 2; do shows ./guard images 0 < /dev/null; done
    says "the log is full when it returns early"
    formats 1
    shows ./guard images 0 < .
    says "with looks at most 50 ms apart, and 0"
    formats 64
    for interval in 50 0; do shows ./guard images 0 $interval < /dev/null; done
}
tried "purges, built" cc -std=c99 $common -x c - $flags -o "$work/purges" << 'END'
#include <midgegalena.h>
int main(void) {
    struct mg_host *host;
    struct mg_answer answer;
    return mg_open("images", 1, &host, NULL) != MG_OK || mg_purge(host, 1, 1, 0, &answer) != MG_OK || answer.purged != 1;
}
END
if command -v rustc > /dev/null && rustc --version > /dev/null 2>&1; then
    tried "rust, built" rustc --edition 2021 -D warnings -L "$PREFIX/lib" "$here/examples/rust/guard.rs" -o "$work/guard"
    tried "rust" in_folder guards
    cp -- "$work/out.txt" "$work/said.txt"
    tried "what rust says" diff "$work/said.txt" "$here/examples/rust/guard.out"
else
    left_out "Rust: there is no compiler"
fi
in_go() { (cd -- "$here/examples/go" && GOCACHE=$work/go GOPROXY=off GOFLAGS=-buildvcs=false go "$@"); }
if command -v go > /dev/null && command -v pkg-config > /dev/null; then
    tried "go, vet" in_go vet
    tried "go, built" in_go build -o "$work/guard"
    tried "go" in_folder guards
    cp -- "$work/out.txt" "$work/said.txt"
    tried "what go says" diff "$work/said.txt" "$here/examples/go/guard.out"
else
    left_out "Go: there is no compiler, or no pkg-config"
fi

# Eight hosts at once count under one lock. CONTEND: rounds of each host, up to 250 a folder, and folders; "250 25" are 100,000 commands.
tried "contend, built" cc -std=c99 $common "$here/tests/contend.c" $flags -o "$work/contend"
folder
tried "contend" "$work/contend" "$work/images" 8 ${CONTEND:-20}
cp -- "$work/out.txt" "$work/contended.txt"

# The numbers and names are those of the printed text.
cat > "$work/names.c" << 'END'
#include <midgegalena.h>
#include <stdio.h>
int main(void) {
    for (int status = 1; status < 100; status++)
        if (mg_name(status)[0])
            printf("%d %s\n", status, mg_name(status));
    return 0;
}
END
tried "names, built" cc -std=c99 $common "$work/names.c" $flags -o "$work/names"
"$work/names" > "$work/names.txt"
sed -n 's/^| \([0-9]*\) | `\([A-Za-z]*\).*/\1 \2/p' "$top/docs/REFUSALS.md" | sort -nu > "$work/refusals.txt"
tried "names are those of docs/REFUSALS.md" bash -c '! grep -vxFf "$2" "$1"' _ "$work/names.txt" "$work/refusals.txt"

# Nothing but mg_* is exported, and a manual page names each call.
tried "exports" bash -c '! nm -D --defined-only "$1" | grep -v " T mg_"' _ "$PREFIX/lib/libmidgegalena.so"
tried "manual page" bash -c 'for call in $(nm -D --defined-only "$1" | sed -n "s/.* T //p"); do grep -q "^\.Fn $call\|^\.Fo $call" "$2" "$3" || { echo "$call"; exit 1; }; done' _ "$PREFIX/lib/libmidgegalena.so" "$top/man/midgegalena.3" "$top/man/mg_session.3"

# One number for all, and a help that is whole.
tried "one version, and the help" "$top/tests/version.sh"

# No formatter has anything to say about the manual pages.
if command -v groff > /dev/null; then
    for page in midgegalena.3 mg_session.3 mg.1 mg-lock.1 dlm-shared.1 dlm-mount.8; do tried "man/$page" bash -c '! groff -ww -mdoc -Tutf8 -z "$1" 2>&1 | grep .' _ "$top/man/$page"; done
else
    left_out "manual pages: there is no groff"
fi

# How much C no proof covers: the lines that are neither blank nor comment. Two pages say it in round figures, so that a line more changes none of them.
lines=0
for part in midgegalena format mg_session device; do lines=$((lines + $(awk -f "$here/tests/lines.awk" "$here/src/$part.c"))); done
printf -v round '%d,%03d' $(((lines + 50) / 100 / 10)) $(((lines + 50) / 100 % 10 * 100))
for page in README.md capi/README.md; do tried "lines of C in $page" grep -q "some $round lines of C" "$top/$page"; done

# Memory.
if command -v valgrind > /dev/null; then
    for program in calls values forgotten refused_memory images_test failover contend shared_calls shared_contend; do
        [[ $program != shared_* || $is_direct -ne 3 ]] || continue
        folder
        given=("$work/images")
        [[ $program != *contend ]] || given+=(3 5)
        tried "valgrind $program" valgrind -q --leak-check=full --errors-for-leak-kinds=all --error-exitcode=9 "$work/$program" "${given[@]}"
    done
else
    left_out "valgrind: there is none"
fi
if echo 'int main(void) { return 0; }' | cc -x c -fsanitize=address,undefined - -o "$work/sanitizer" 2> "$work/out.txt" && command -v rt > /dev/null; then
    kit=$(dirname -- "$(dirname -- "$(readlink -f -- "$(command -v rt)")")")/c
    for program in calls values forgotten images contend; do
        tried "sanitized $program, built" cc -std=c99 $common -fsanitize=address,undefined -fno-sanitize-recover=all "$here/tests/$program.c" \
            "$here/src/"{midgegalena,format,device}.c "$top/crates/dlm_c/out/libdlm_c.a" "$kit/libos_c.a" "$kit/liblibc_c.a" -o "$work/sanitized_$program"
        folder
        given=("$work/images")
        [[ $program != contend ]] || given+=(3 5)
        tried "sanitized $program" "$work/sanitized_$program" "${given[@]}"
    done
    tried "sanitized contend over a log without an end, compiled" cc -std=c99 $common -fsanitize=address,undefined -fno-sanitize-recover=all \
        -include "$here/tests/over_endless.h" -c "$here/tests/contend.c" -o "$work/sanitized_endless.o"
    tried "sanitized contend over a log without an end, built" cc -std=c99 $common -fsanitize=address,undefined -fno-sanitize-recover=all "$work/sanitized_endless.o" \
        "$here/src/"{midgegalena,format,device}.c "$top/crates/dlm_c/out/libdlm_c.a" "$kit/libos_c.a" "$kit/liblibc_c.a" -o "$work/sanitized_endless"
    folder
    tried "sanitized contend over a log without an end" "$work/sanitized_endless" "$work/images" 3 5
else
    left_out "gcc's sanitizers: they are not there"
fi

# The same of the calls on shared devices.
if [[ -f $work/sanitizer && $is_direct -ne 3 ]]; then
    tried "sanitized devices, built" cc -fsanitize=address,undefined -fno-sanitize-recover=all "${device_calls[@]}" "$here/src/device.c" \
        "$top/crates/dlm_c/out/libdlm_c.a" "$kit/libos_c.a" "$kit/liblibc_c.a" -o "$work/sanitized_devices"
    folder
    for k in 0 1 2; do truncate -s 128K -- "$work/images/$k"; done
    tried "sanitized devices" "$work/sanitized_devices" "$work/images/"{0,1,2}
fi

# The same of sessions, and of mg-lock.
if command -v valgrind > /dev/null; then
    checks_memory=(valgrind -q --leak-check=full --errors-for-leak-kinds=all --error-exitcode=9)
    folder
    tried "valgrind sessions" "${checks_memory[@]}" "$work/sessions" "$work/images"
    folder
    tried "valgrind late" "${checks_memory[@]}" "$work/late" "$work/images"
    folder
    tried "valgrind sessions over a log without an end" "${checks_memory[@]}" "$work/endless_sessions" "$work/images"
    folder
    tried "valgrind signs" "${checks_memory[@]}" --child-silent-after-fork=yes "$work/signs" "$work/images"
    folder
    in_folder ./format images 64
    for option in -n "-w 1" --recover; do
        given=(images 0 db true)
        [[ $option != --recover ]] || given=(images 0)
        # shellcheck disable=SC2086
        tried "valgrind mg-lock $option" in_folder "${checks_memory[@]}" "$PREFIX/bin/mg-lock" $option "${given[@]}"
    done
    for option in "" --json --prometheus; do
        # shellcheck disable=SC2086
        tried "valgrind mg-lock --status $option" in_folder "$PREFIX/bin/mg-lock" -w 1 images 0 db -- "${checks_memory[@]}" "$PREFIX/bin/mg-lock" --status $option images
    done
fi
if [[ -f $work/sanitizer ]] && command -v rt > /dev/null; then
    sanitized=(-std=c99 $common -fsanitize=address,undefined -fno-sanitize-recover=all "$here/src/"{midgegalena,format,mg_session,device}.c)
    proved=("$top/crates/dlm_c/out/libdlm_c.a" "$kit/libos_c.a" "$kit/liblibc_c.a")
    tried "sanitized sessions, built" cc "${sanitized[@]}" "$here/tests/sessions.c" "${proved[@]}" -o "$work/sanitized_sessions"
    tried "sanitized late, built" cc "${sanitized[@]}" "$here/tests/late.c" "${proved[@]}" -o "$work/sanitized_late"
    folder
    tried "sanitized late" "$work/sanitized_late" "$work/images"
    folder
    tried "sanitized sessions" "$work/sanitized_sessions" "$work/images"
    tried "sanitized sessions over a log without an end, compiled" cc -std=c99 $common -fsanitize=address,undefined -fno-sanitize-recover=all \
        -include "$here/tests/over_endless.h" -c "$here/tests/sessions.c" -o "$work/sanitized_endless_sessions.o"
    tried "sanitized sessions over a log without an end, built" cc "${sanitized[@]}" "$work/sanitized_endless_sessions.o" "${proved[@]}" -o "$work/sanitized_endless_sessions"
    folder
    tried "sanitized sessions over a log without an end" "$work/sanitized_endless_sessions" "$work/images"
    tried "sanitized mg-lock, built" cc "${sanitized[@]}" "$here/src/"{mg-lock,status,looked,since,probe}.c "${proved[@]}" -o "$work/sanitized_mg-lock"
    folder
    in_folder ./format images 64
    tried "sanitized mg-lock" in_folder ./sanitized_mg-lock -w 1 images 0 db -- bash -c '! ./sanitized_mg-lock -n images 0 db true && ./sanitized_mg-lock -r images 0 && ./sanitized_mg-lock --status images && ./sanitized_mg-lock --status --json images && ./sanitized_mg-lock --status --prometheus images'
fi

# What is put in place is taken out again.
tried "uninstall" bash -c '"$1" uninstall && [[ -z $(find "$2" ! -type d) ]]' _ "$here/install.sh" "$PREFIX"
tail -n 1 "$work/contended.txt"
cat -- "$work/restarted.txt"
echo "capi/check.sh: $passed passed, $failed failed"
[[ $failed = 0 ]]
