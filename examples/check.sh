#!/usr/bin/env bash
# Runs each example and compares what it prints, what it tells on standard error, and its status; looks that each says what it shows,
# and that README.md has it; runs the commands of the pages; and tests the manual page, the completions, install.sh and the pictures.
set -uo pipefail

examples=$(dirname -- "$(readlink -f -- "${BASH_SOURCE[0]}")")
tests=$examples/../tests
failed=0

# Each example begins with a comment, and README.md names it.
listed() {
    local script name wrong=0
    for script in "$examples"/*.dlm; do
        name=$(basename -- "$script" .dlm)
        [[ $(head -c 2 -- "$script") == '# ' ]] || { echo "$name does not say what it shows"; wrong=1; }
        grep -qF -- "- \`$name\`: " "$examples/README.md" || { echo "$name is not in examples/README.md"; wrong=1; }
    done
    return "$wrong"
}

"$tests/check.sh" "$examples" || failed=1
listed || failed=1
"$examples/pages.sh" || failed=1
"$tests/manual.sh" || failed=1
"$tests/completions.sh" || failed=1
"$tests/install.sh" || failed=1
"$examples/../docs/pictures.py" check || failed=1
exit "$failed"
