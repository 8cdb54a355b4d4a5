#!/usr/bin/env bash
# examples/pages.sh runs the commands of a page in a folder of its own: what a user keeps at the top under the same name stays as it is. And each page has folders of its own names.
# Of the units and the crontab in examples/ it is seen that nothing takes a lock before what a machine left is released. README's modes are those of the definition.
set -uo pipefail

source "$(dirname -- "$(readlink -f -- "${BASH_SOURCE[0]}")")/lib.sh"

# A top with a program that does nothing, a user's images, and a page that makes and damages some of its own.
mkdir -p -- "$work"/{crates,docs,examples,tests,images}
cp -- "$top/examples/pages.sh" "$work/examples"
cp -- "$tests/lib.sh" "$work/tests"
printf '#!/usr/bin/env bash\n' > "$work/dlm"
chmod +x -- "$work/dlm"
echo kept > "$work/images/disk1.img"
cat > "$work/page.md" << 'END'
```
$ mkdir -p images && echo zeros > images/disk1.img
$ cat images/disk1.img
zeros
```
END
told=$("$work/examples/pages.sh" "$work/page.md" 2>&1) || fail "the page was not run: $told"
[[ $told == 'page.md: 2 commands, as it says' ]] || fail "told: $told"
[[ $(<"$work/images/disk1.img") == kept ]] || fail "a page changed the user's images"

# A page that prints something else is told.
sed 's/^zeros$/ones/' "$work/page.md" > "$work/wrong.md"
"$work/examples/pages.sh" "$work/wrong.md" > "$work/told" && fail "a wrong page passed"

# So is one that takes away what an earlier run left, and cannot be run again all the same.
printf '```\n$ rm -rf one && mkdir one\n$ mkdir two\n```\n' > "$work/once.md"
"$work/examples/pages.sh" "$work/once.md" > "$work/told" && fail "a page that cannot be run again passed"
sed -i 's/mkdir two/mkdir one\/two/' "$work/once.md"
"$work/examples/pages.sh" "$work/once.md" > "$work/told" || fail "a page that can be run again did not pass: $(<"$work/told")"

twice=$(cd -- "$top" && grep -oE '^\$ .*mkdir [a-z_-]+' README.md docs/*.md crates/dlm/README.md man/dlm.1 | sed 's/^\(.*\):.* /\1 /' | sort -u | cut -d ' ' -f 2 | sort | uniq -d)
[[ -z $twice ]] || fail "folders of two pages: $twice"

# unordered FILE..: what takes locks and does not wait, what releases them more than once, and whether there are both. Each unit begins with its name.
unordered() {
    awk 'function judge() {
            if (takes && waits < 2) print name " takes locks before they are released"
            if (releases && (!once || name != "dlm-recover.service")) print name " releases locks at each start"
            services += takes; recoveries += releases
        }
        FNR == 1 { judge(); takes = releases = waits = once = 0; name = $2; inside = FILENAME !~ /crontab$/ }
        inside && /^ExecStart=.*mg-lock --recover / { releases = 1 }
        inside && /^ExecStart=.*mg-lock / && !/ --recover / { takes = 1 }
        inside && /^(Requires|After)=dlm-recover\.service$/ { waits++ }
        inside && /^RemainAfterExit=yes$/ { once = 1 }
        /^[0-9*\/]+ [0-9*]+ [0-9*]+ [0-9*]+ [0-9*]+ .*mg-lock / { jobs++ }
        /^[0-9*\/]+ [0-9*]+ [0-9*]+ [0-9*]+ [0-9*]+ .*mg-lock / && !/ \[ -e \/run\/dlm-recovered \] && mg-lock / { print "cron takes locks before they are released: " $0 }
        /^@reboot .*mg-lock --recover --all .*; touch \/run\/dlm-recovered$/ { starts++ }
        END { judge(); if (!services || recoveries != 1 || !jobs || starts != 1) print "there are " services + 0 " services, " recoveries + 0 " recoveries, " jobs + 0 " jobs, " starts + 0 " starts" }' "$@"
}
told=$(unordered "$top/examples/systemd/"* "$top/examples/crontab")
[[ -z $told ]] || fail "units and crontab: $told"

# The table of modes in README: which others may have beside each.
pairs=$(sed -n 's/^is_conflicting_pair \([A-Z][a-zA-Z]*\) \([A-Z][a-zA-Z]*\) = true$/\1 \2/p' "$top/crates/lock_command/specs/Mode.antt" |
    sed 's/ConcurrentRead/CR/g; s/ConcurrentWrite/CW/g; s/ProtectedRead/PR/g; s/ProtectedWrite/PW/g; s/Exclusive/EX/g; s/Null/NL/g')
modes=(NL CR CW PR PW EX)
for mode in "${modes[@]}"; do
    beside=() against=()
    for other in "${modes[@]}"; do
        if grep -qxe "$mode $other" -e "$other $mode" <<< "$pairs"; then against+=("$other"); else beside+=("$other"); fi
    done
    case ${#against[@]} in
        0) text='every mode' ;;
        1) text="all but \`${against[0]}\`" ;;
        *) text=$(printf ', `%s`' "${beside[@]}") && text=${text#, } ;;
    esac
    grep -qE "^\| \`$mode\`, [^|]* \| $text \|\$" "$top/README.md" || fail "README does not say that beside $mode others may have: $text"
done

[[ $failed -eq 0 ]] && echo "pages.sh: each page keeps to its own folder"
exit $((failed > 0))
