# To be sourced by the tests: what they begin with.
#   top, tests   the root, and its folder tests/
#   program      the program `dlm`; the variable PROGRAM of the environment names another one
#   work         a folder of the test, which goes when the test ends; it is made in `work_in`, if the test sets that first
#   failed       how many failures there were, none so far

top=$(dirname -- "$(dirname -- "$(readlink -f -- "${BASH_SOURCE[0]}")")")
tests=$top/tests
program=${PROGRAM:-$top/crates/dlm/out/dlm}
work=$(mktemp -d -p "${work_in:-${TMPDIR:-/tmp}}")
trap 'rm -rf -- "$work"' EXIT
failed=0

# Has the program built, if it has to be. One that PROGRAM names is taken as it is.
need_program() {
    if [[ -z ${PROGRAM-} ]]; then
        "$top/dlm" run /dev/null > "$work/built" 2>&1
        [[ $? -ne 125 ]] || cat -- "$work/built"
    fi
    if [[ ! -x $program ]]; then
        echo "dlm is not built"
        exit 1
    fi
}

# fail TEXT: says so, under the name of the test.
fail() {
    echo "${0##*/}: $1"
    failed=$((failed + 1))
}

# expect NAME STATUS TEXT WORD..: runs the words, and compares their status and all that they write.
expect() {
    local name=$1 status=$2 text=$3 written ended
    shift 3
    written=$("$@" 2>&1)
    ended=$?
    if [[ $ended -ne $status || $written != "$text" ]]; then
        echo "$name: status $ended (wanted $status), written: $written (wanted: $text)"
        failed=$((failed + 1))
    fi
}
