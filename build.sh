# To be sourced with `top` set to the root, as `dlm`, `bench.sh`, `release.sh` and `capi/build.sh` do: builds a program where it is missing, or where its code or contracts
# changed since its last build began.

# Sets `below` to the libraries of the repository that a crate stands on, lowest first: crates.txt names for each crate those that its own files cite.
find_below() {
    local name libraries
    local -A named=()
    while read -r name libraries; do
        [[ $name != [a-z]* ]] || named[${name%:}]=$libraries
    done < "$top/crates.txt"
    below=()
    add_below "$1"
}

add_below() {
    local library
    for library in ${named[$1]-}; do
        [[ -n ${named[$library]+listed} && " ${below[*]-} " != *" $library "* ]] || continue
        add_below "$library"
        below+=("$library")
    done
}

# Sets `sources` to the folders of the code and the contracts of a crate and those that it stands on. What stands in proofs/ changes nothing that runs.
find_sources() {
    local below crate folder
    find_below "$1"
    sources=("$top/crates.txt")
    for crate in "$1" "${below[@]}"; do
        for folder in "$top/crates/$crate/"{src,specs}; do
            [[ ! -d $folder ]] || sources+=("$folder")
        done
    done
}

# Prints what crates.txt has of a crate and those that it stands on, to which `below` is set.
lines_of() {
    local line name
    while read -r line; do
        name=${line%%[: ]*}
        [[ -z $name || " ${below[*]-} $1 " != *" $name "* ]] || echo "$line"
    done < "$top/crates.txt"
}

# Prints the sum of all that find_sources finds of a crate: of what stands there, and not of times.
sum_of_sources() {
    local sources below
    find_sources "$1"
    find_below "$1"
    sources=("${sources[@]:1}")
    (cd -- "$top" && lines_of "$1" && find "${sources[@]#"$top/"}" -type f -print0 | LC_ALL=C sort -z | xargs -0 sha256sum) | sha256sum
}

# is_newest FILE CRATE: whether there is such a program, and it is newer than the code and the contracts of the crate and of those that it stands on.
# A file that was deleted is noticed by the time of its folder. Times tell nothing in a copied clone: there the program is the one that was proved, and the
# sum of what it was made of is that of what is there. Then it gets the time at which this was looked at.
is_newest() {
    [[ -x $1 ]] && is_newest_file "$1" "$2"
}

# The same of a file that is no program.
is_newest_file() {
    local sources newer began made_of=$top/crates/$2/out/made_of
    [[ -f $1 ]] || return 1
    find_sources "$2"
    newer=$(find "${sources[@]}" -newer "$1" -print -quit) || return 1
    [[ -n $newer ]] || return 0
    [[ -f $made_of ]] || return 1
    began=$(date +%s.%N)
    is_proved "$2" "${1##*/}" && [[ $(sum_of_sources "$2") == "$(<"$made_of")" ]] || return 1
    touch -d "@$began" -- "$1" 2> /dev/null || true
}

# answer_words COMMAND [WORD..]: where the one word asks for help, runs the command, and where it asks for the version prints that. Then it ends.
answer_words() {
    [[ $# -eq 2 ]] || return 0
    case $2 in
        -h | --help | help) "$1" ;;
        --version) echo "midgegalena $(<"$top/VERSION")" ;;
        *) return 0 ;;
    esac
    exit 0
}

# What a script says of itself is its head.
show_head() {
    sed -n '2,/^[^#]/s/^# \{0,1\}//p' -- "${BASH_SOURCE[-1]}"
}

# Standard error may be closed.
say() {
    echo "$1: $2" >&2 || true
}

# copy_crates CRATE FOLDER: makes of the folder a repository that holds the crate and those that it stands on, without wrong bodies. Sets `below`.
copy_crates() {
    local name
    find_below "$1"
    mkdir -p -- "$2/.git"
    cp -- "$top/HANDLES" "$2"
    for name in "${below[@]}" "$1"; do
        tar -C "$top" --exclude=out --exclude=must-fail --exclude=wrong -cf - "crates/$name" | tar -C "$2" -xf -
    done
    lines_of "$1" > "$2/crates.txt"
}

# show_progress PROGRAM LOG CRATES: a line for each crate that is proved, or was on this machine before, and how many crates are left; all that `rt` prints goes
# into the log.
show_progress() {
    local line functions='' left=$3
    while IFS= read -r line; do
        printf '%s\n' "$line" >&3
        case $line in
            'logic=proved functions='*) line=${line#*functions=} functions="${line%% *} functions" ;;
            'rt: '*' proved') line=${line#rt: } left=$((left - 1)) && say "$1" "${line% proved}: $functions proved, crates left: $left" ;;
            'rt: '*' NOT PROVED'*) say "$1" "${line#rt: }" ;;
            'rt: '*' is kept: '*) line=${line#rt: } left=$((left - 1)) && say "$1" "${line%% is kept: *}: proved before, crates left: $left" ;;
        esac
    done 3> "$2"
}

# The gate's command in a copy of the program's crates proves them side by side, each as soon as those below it are proved, builds the program, and
# runs it once. What it has proved `rt` keeps beside the kit, also where it is ended in the middle. The program gets the time at which that began.
build() {
    local crate=$1 copy below made_of out=$top/crates/$1/out ended=0
    mkdir -p -- "$out"
    copy=$(mktemp -d)
    trap 'rm -rf -- "$copy"' EXIT
    touch -- "$copy/began"
    copy_crates "$crate" "$copy/repository"
    made_of=$(top=$copy/repository && sum_of_sources "$crate")
    (cd -- "$copy/repository" && rt ci < /dev/null 2>&1) | show_progress "$crate" "$out/build.log" $((${#below[@]} + 1)) || ended=1
    if [[ $ended -eq 0 ]]; then
        touch -r "$copy/began" -- "$copy/repository/crates/$crate/out/$crate"
        cp -p -- "$copy/repository/crates/$crate/out/$crate" "$out/$crate.$$" && mv -- "$out/$crate.$$" "$out/$crate"
        note_proved "$crate" "$crate" "$made_of"
    fi
    rm -rf -- "$copy"
    trap - EXIT
    return $ended
}

# check_below CRATE FOLDER LOG: proves the libraries that a crate stands on, each as soon as those below it are proved. In one checkout two checks that share a library
# wait for one another. So each is run in one of several copies of the crates, which are made in the folder: one more than half the processors, since a check uses more
# than one. A check begins with what those in the other copies kept, and so does `rt lib`, as long as the copies are there. All that `rt` prints goes into the log.
check_below() {
    local name library copy pid status failed=0 below
    local -A named=() proved=() running=() place=()
    local -a free=()
    while read -r name library; do
        [[ $name != [a-z]* ]] || named[${name%:}]=$library
    done < "$top/crates.txt"
    find_below "$1"
    for ((copy = 1; copy <= $(nproc) / 2 + 1; copy++)); do
        copy_crates "$1" "$2/$copy"
        free+=("$2/$copy")
    done
    while true; do
        for name in "${below[@]}"; do
            [[ $failed -eq 0 && -z ${proved[$name]-} && " ${running[*]-} " != *" $name "* ]] || continue
            [[ ${#free[@]} -gt 0 ]] || break
            for library in ${named[$name]}; do
                [[ -z ${named[$library]+listed} || -n ${proved[$library]-} ]] || continue 2
            done
            copy=${free[-1]}
            unset 'free[-1]'
            (cd -- "$copy/crates/$name" && rt check < /dev/null) >> "$3" 2>&1 &
            running[$!]=$name
            place[$!]=$copy
        done
        [[ ${#running[@]} -gt 0 ]] || return "$failed"
        status=0
        wait -n -p pid "${!running[@]}" || status=$?
        if [[ $status -eq 0 ]]; then
            proved[${running[$pid]}]=1
        else
            failed=1
        fi
        free+=("${place[$pid]}")
        unset "running[$pid]" "place[$pid]"
    done
}

# note_proved CRATE [FILE [SUM]]: what is proved, the program or this file, has its sum beside it, and that of what it was made of, which is what is there now
# if none is given. They are written by those alone that have just proved it.
note_proved() {
    local out=$top/crates/$1/out
    sha256sum < "$out/${2-$1}" > "$out/proved"
    echo "${3-$(sum_of_sources "$1")}" > "$out/made_of"
}

# is_proved CRATE [FILE]
is_proved() {
    local out=$top/crates/$1/out
    [[ -f $out/proved && -f $out/${2-$1} && $(sha256sum < "$out/${2-$1}") == "$(<"$out/proved")" ]]
}

# ensure_built CRATE: ends with status 125 where that cannot be done.
ensure_built() {
    if is_newest "$top/crates/$1/out/$1" "$1"; then
        return
    fi
    if ! command -v rt > /dev/null; then
        say "$1" "to prove and build it there has to be Rattle's command rt on the path"
        exit 125
    fi
    say "$1" "proving and building it, which takes half an hour where nothing was proved before"
    if ! build "$1"; then
        say "$1" "not built: $top/crates/$1/out/build.log says why"
        exit 125
    fi
}
