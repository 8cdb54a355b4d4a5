#!/usr/bin/env bash
# When the wrong bodies of wrong/ are due, and what is recorded of them: in a folder of its own, with a program in the place of `rt` that refuses
# each edit, but for those that the file `let_through` names.
set -uo pipefail

source "$(dirname -- "$(readlink -f -- "${BASH_SOURCE[0]}")")/lib.sh"
mkdir -p -- "$work/bin" "$work/tests"
cp -- "$tests/wrong.py" "$work/tests"
echo 'Handles allowed: none.' > "$work/HANDLES"
echo 'a: b' > "$work/crates.txt"
for crate in b c d e f g h i; do
    echo "$crate:" >> "$work/crates.txt"
done
for crate in a b c d e f g h i; do
    mkdir -p -- "$work/crates/$crate/"{src,specs,proofs,wrong,must-fail}
    echo 'one two' | tee -- "$work/crates/$crate/"{src/lib.rt,specs/Lib.antt,proofs/Lib.antt} > /dev/null
    printf 'file: src/lib.rt\nold: one\nnew: 1\n' | tee -- "$work/crates/$crate/wrong/"{first,second}.edit > "$work/crates/$crate/must-fail/main.edit"
done
cat > "$work/bin/rt" << 'END'
#!/usr/bin/env bash
[[ $1 != version ]] || { echo a kit; exit; }
[[ $# -eq 1 && $1 == ci ]] || exit 2
while IFS=: read -r crate _; do
    for edit in "crates/$crate/must-fail/"*.edit; do
        [[ -e $edit ]] || continue
        name=$crate/${edit##*/}
        if grep -qx -- "$name" "$LET_THROUGH"; then
            echo "rt: must-fail $name: NOT REFUSED: the crate is still proved with this edit"
        else
            echo "rt: must-fail $name: refused, as it must be"
        fi
    done
done < crates.txt
echo "3 passed, 0 failed"
END
chmod +x -- "$work/bin/rt"
export PATH=$work/bin:$PATH LET_THROUGH=$work/let_through WRONG_DAY=0
: > "$LET_THROUGH"
wrong=$work/tests/wrong.py
tried=0

# expect WHAT CRATE..: these crates are due, not counting those that are in turn.
expect() {
    local what=$1 found
    shift
    tried=$((tried + 1))
    found=$("$wrong" | sed -n '/: in turn$/!s/:.*//p' | tr '\n' ' ')
    if [[ $found != "$*${*:+ }" ]]; then
        echo "$what: due are: $found"
        failed=$((failed + 1))
    fi
}

# ends STATUS WHAT COMMAND..
ends() {
    local status=$1 what=$2
    shift 2
    tried=$((tried + 1))
    "$@" > "$work/told" 2>&1
    if [[ $? -ne $status ]]; then
        echo "$what: status is not $status:"
        cat -- "$work/told"
        failed=$((failed + 1))
    fi
}

expect "nothing was tried" a b c d e f g h i
ends 0 "each is refused" "$wrong" try all
expect "all were tried"
for part in src/lib.rt specs/Lib.antt proofs/Lib.antt; do
    echo 'one three' > "$work/crates/b/$part"
    expect "$part changed" b
    echo 'one two' > "$work/crates/b/$part"
    expect "$part is as it was"
done
# A comment is nothing that the checker sees; what looks like one of the other kind of file is none.
printf '// a comment\n\none two\n    /// another\n' > "$work/crates/b/src/lib.rt"
printf -- '-- a comment\none two\n' | tee -- "$work/crates/b/specs/Lib.antt" > "$work/crates/b/proofs/Lib.antt"
expect "comments were added"
printf -- '-- a comment\none two\n' > "$work/crates/b/src/lib.rt"
expect "a line that is no comment in code" b
printf '// a comment\none two\n' > "$work/crates/b/specs/Lib.antt"
echo 'one two' > "$work/crates/b/src/lib.rt"
expect "a line that is no comment in a definition" b
echo 'one two' | tee -- "$work/crates/b/"{specs,proofs}/Lib.antt > /dev/null
expect "without comments it is as it was"
echo 'one two' > "$work/crates/b/src/more.rt"
expect "a file was added" b
rm -- "$work/crates/b/src/more.rt"
mv -- "$work/crates/b/specs/Lib.antt" "$work/crates/b/specs/Other.antt"
expect "a file was renamed" b
mv -- "$work/crates/b/specs/Other.antt" "$work/crates/b/specs/Lib.antt"
sed -i 's/new: 1/new: 2/' "$work/crates/b/wrong/first.edit"
expect "a wrong body changed" b
ends 0 "that one alone is due" grep -q '^b: 1 are due' <("$wrong")
sed -i 's/new: 2/new: 1/' "$work/crates/b/wrong/first.edit"
mv -- "$work/crates/b/wrong/second.edit" "$work/"
expect "a wrong body was left out"
mv -- "$work/second.edit" "$work/crates/b/wrong/"
cp -- "$work/crates/b/wrong/"{first,third}.edit
expect "a wrong body was added" b
ends 0 "that one alone is tried" "$wrong" try b
ends 0 "and no other" test "$(grep -c ': refused, as it must be' "$work/told")" -eq 1
expect "what was tried before is still recorded"
rm -- "$work/crates/b/wrong/third.edit"
mv -- "$work/crates/c/wrong/tried" "$work/"
expect "a record is gone" c
sed 's/^./x/' "$work/tried" > "$work/crates/c/wrong/tried"
expect "a record was changed" c
cp -- "$work/crates/d/wrong/tried" "$work/crates/c/wrong/tried"
expect "a record of another crate, all of whose files are alike" c

echo d/second.edit > "$LET_THROUGH"
ends 1 "one is let through" "$wrong" try c d
expect "one was let through, and has no record" d
ends 0 "the other one has" grep -q '^d: 1 are due' <("$wrong")
: > "$LET_THROUGH"
ends 0 "it is refused again" "$wrong" try d
expect "all were tried again"

# What a run of the kit printed is recorded, of one edit or of both.
rm -- "$work/crates/e/wrong/tried"
printf 'rt: must-fail e/%s.edit: refused, as it must be: a reason\n' first second > "$work/told_by_rt"
ends 1 "one of two was printed" "$wrong" note e < <(head -n 1 "$work/told_by_rt")
expect "one of two is not enough" e
ends 0 "the other one was printed" "$wrong" note e < <(tail -n 1 "$work/told_by_rt")
expect "what was printed is recorded"

# Each crate is in turn on one of twelve days.
days=$(for WRONG_DAY in {0..11}; do "$wrong"; done | sed -n 's/: .*: in turn$//p' | sort | tr '\n' ' ')
ends 0 "each is in turn once: $days" test "$days" = "a b c d e f g h i "
tried=$((tried + 1))
[[ $(WRONG=all "$wrong" | grep -c ': WRONG=all$') -eq 9 ]] || { echo "WRONG=all leaves a crate out"; failed=$((failed + 1)); }

echo 'one three' > "$work/crates/b/src/lib.rt"
find "$work/crates" | sort > "$work/before"
ends 0 "what is due is put into must-fail/" "$wrong" put
[[ $(cd -- "$work/crates/b/must-fail" && echo *) == "first.edit main.edit second.edit" ]] || { echo "b's wrong bodies are not put"; failed=$((failed + 1)); }
ends 0 "and taken out again" "$wrong" back
ends 0 "nothing else is changed" cmp -- "$work/before" <(find "$work/crates" | sort)

# Two crates of four edits fit in a run that has room for five, and each day another is the first.
echo 'one three' | tee -- "$work/crates/"{c,d}/src/lib.rt > /dev/null
for day in 12 13 14; do
    WRONG_LIMIT=5 WRONG_DAY=$day ends 0 "as many are put as fit" "$wrong" put
    grep -o '^wrong.py: .: 2 more' "$work/told" >> "$work/fitted"
    ends 0 "the others stay due" test "$(grep -c 'wrong bodies stay due' "$work/told")" -ge 1
    ends 0 "and taken out again" "$wrong" back
done
for crate in b c d; do
    ends 0 "$crate is put within three days" grep -q "^wrong.py: $crate: 2 more" "$work/fitted"
done
WRONG=all WRONG_LIMIT=5 ends 0 "WRONG=all leaves none out" "$wrong" put
ends 0 "each crate is put" test "$(grep -c ' more wrong bodies' "$work/told")" -eq 9
ends 0 "and taken out again" "$wrong" back
echo 'one two' | tee -- "$work/crates/"{c,d}/src/lib.rt > /dev/null

echo 'one and one' > "$work/crates/b/src/lib.rt"
ends 1 "an edit whose old text stands twice" "$wrong" put
ends 0 "nothing was put" cmp -- "$work/before" <(find "$work/crates" | sort)
echo "wrong.py: $tried tries, $failed wrong"
[[ $failed -eq 0 ]]
