#!/usr/bin/env bash
# The completions: lines are typed into an interactive bash, which has read those of completions/ for it, and then the key that puts in all
# that could stand here (M-*); what the line has come to is compared. fish is asked, and lines are typed into an interactive zsh, where they are installed: what it
# offers is compared, and what it says of a number that it cannot offer.
set -uo pipefail

source "$(dirname -- "$(readlink -f -- "${BASH_SOURCE[0]}")")/lib.sh"
mkdir -- "$work/images" "$work/more images"
: >"$work/one.dlm"
# A program that shows its words.
printf '#!/usr/bin/env bash\nprintf "line:"; printf " <%%s>" "$@"; echo\n' >"$work/dlm"
chmod +x "$work/dlm"
cp -- "$work/dlm" "$work/mg-lock"
cp -- "$work/dlm" "$work/dlm-shared"
cp -- "$work/dlm" "$work/mg"
cd -- "$work" || exit 1
tried=0

# The words of the line that bash makes of what is typed.
completed() {
    {
        printf 'source "%s"\n' "$top/completions/"{dlm,mg-lock,dlm-shared,mg}.bash
        printf '%s\e*\n' "$1"
    } | PATH=$work:$PATH INPUTRC=/dev/null PS1='' bash --norc --noprofile -i 2>/dev/null | grep '^line:' | cut -c 7-
}

# expect TYPED WORDS: what is typed comes to these words.
expect() {
    local words
    words=$(completed "$1")
    tried=$((tried + 1))
    if [[ $words != "$2" ]]; then
        echo "bash: '$1' comes to $words, not $2"
        failed=$((failed + 1))
    fi
}

expect 'dlm ' '<check> <fill> <format> <mark> <migrate> <race> <renew> <replace> <run> <submit> <sweep> <table>'
expect 'dlm f' '<fill> <format>'
expect 'dlm race ' '<race> <1> <2> <3> <4> <5> <6> <7> <8> <9> <10> <11> <12> <13> <14> <15> <16>'
expect 'dlm-shared ' '<check> <export> <format> <mark> <submit> <table> <take>'
expect 'dlm-shared take im' '<take> <images>'
expect 'dlm-shared take images ' '<take> <images> <0> <1> <2> <3> <4> <5> <6> <7> <8> <9> <10> <11> <12> <13> <14> <15>'
expect 'dlm-shared export images ' '<export> <images> <images> <more images>'
expect 'dlm-shared format images 3 64 7 4 ' '<format> <images> <3> <64> <7> <4> <512> <1024> <2048> <4096> <nodsync> <files>'
expect 'dlm-shared format images 3 64 7 4 512 ' '<format> <images> <3> <64> <7> <4> <512> <files> <nodsync>'
expect 'dlm-shared submit images 0 convert 1 2 1 P' '<submit> <images> <0> <convert> <1> <2> <1> <PR> <PW>'
expect 'dlm run o' '<run> <one.dlm>'
expect 'dlm sweep o' '<sweep> <one.dlm>'
expect 'dlm table ' '<table> <images> <more images>'
expect 'dlm check im' '<check> <images>'
expect 'dlm format im' '<format> <images>'
expect 'dlm format images ' '<format> <images> <1> <2> <3> <4> <5> <6> <7>'
expect 'dlm table images ' '<table> <images> <0> <1> <2> <3> <4> <5> <6> <7> <8> <9> <10> <11> <12> <13> <14> <15>'
expect 'dlm migrate images ' '<migrate> <images> <images> <more images>'
expect 'dlm renew images 1 ' '<renew> <images> <1> <images> <more images>'
expect 'dlm renew images 1 images ' '<renew> <images> <1> <images> <1> <2> <3> <4> <5> <6> <7>'
expect 'dlm mark images ' '<mark> <images> <0> <1> <2> <3> <4> <5> <6> <7> <8> <9> <10> <11> <12> <13> <14> <15>'
expect 'dlm submit images 0 ' '<submit> <images> <0> <cancel> <convert> <enqueue> <forget> <purge> <release> <status>'
expect 'dlm submit images 0 c' '<submit> <images> <0> <cancel> <convert>'
expect 'dlm submit images 0 enqueue 1 1 1 ' '<submit> <images> <0> <enqueue> <1> <1> <1> <CR> <CW> <EX> <NL> <PR> <PW>'
expect 'dlm submit images 0 enqueue 1 1 1 EX db n' '<submit> <images> <0> <enqueue> <1> <1> <1> <EX> <db> <noqueue>'
expect 'dlm submit images 0 convert 1 2 1 P' '<submit> <images> <0> <convert> <1> <2> <1> <PR> <PW>'
expect 'dlm submit images 0 convert 1 2 1 PW ' '<submit> <images> <0> <convert> <1> <2> <1> <PW> <noqueue> <value>'
expect 'dlm submit images 0 convert 1 2 1 PW noqueue ' '<submit> <images> <0> <convert> <1> <2> <1> <PW> <noqueue> <value>'
expect 'dlm submit images 0 convert 1 2 1 PW value ' '<submit> <images> <0> <convert> <1> <2> <1> <PW> <value>'
expect 'dlm submit images 0 convert 1 2 1 PW noqueue value ' '<submit> <images> <0> <convert> <1> <2> <1> <PW> <noqueue> <value>'
expect 'dlm submit images 0 release 1 2 7 value ' '<submit> <images> <0> <release> <1> <2> <7> <value>'
expect 'dlm-shared submit images 0 convert 1 2 1 PW value ' '<submit> <images> <0> <convert> <1> <2> <1> <PW> <value>'
expect 'dlm-shared --v' '<--version>'
expect 'dlm submit images 0 release 1 2 7 ' '<submit> <images> <0> <release> <1> <2> <7> <value>'
expect 'dlm submit images 0 purge 1 2 ' '<submit> <images> <0> <purge> <1> <2> <0> <1> <2> <3> <4> <5> <6> <7> <8> <9> <10> <11> <12> <13> <14> <15>'
expect 'dlm submit images 0 release 1 2 7' '<submit> <images> <0> <release> <1> <2> <7>'
expect './dlm fo' '<format>'
expect 'mg-lock --no' '<--nonblock>'
expect 'mg-lock -m P' '<-m> <PR> <PW>'
expect 'mg-lock ' '<images> <more images>'
expect 'mg-lock -n -w 3 im' '<-n> <-w> <3> <images>'
expect 'mg-lock -s images ' '<-s> <images> <0> <1> <2> <3> <4> <5> <6> <7> <8> <9> <10> <11> <12> <13> <14> <15>'
expect 'mg-lock images 0 ' '<images> <0>'
expect 'mg-lock images 0 db -- one' '<images> <0> <db> <--> <one.dlm>'
expect 'mg-lock --st' '<--status>'
expect 'mg-lock --status --json im' '<--status> <--json> <images>'
expect 'mg-lock --status --p' '<--status> <--prometheus>'
expect 'mg-lock --status images ' '<--status> <images>'
expect 'mg s' '<status> <submit> <sweep>'
expect 'mg help m' '<help> <mark> <migrate>'
expect 'mg create im' '<create> <images>'
expect 'mg create images --' '<create> <images> <--cluster> <--disks> <--help> <--json> <--slots>'
expect 'mg create images --disks ' '<create> <images> <--disks> <1> <2> <3> <4> <5> <6> <7>'
expect 'mg create images --cluster ' '<create> <images> <--cluster>'
expect 'mg run o' '<run> <one.dlm>'
expect 'mg table ' '<table> <images> <more images>'
expect 'mg table --host ' '<table> <--host> <0> <1> <2> <3> <4> <5> <6> <7> <8> <9> <10> <11> <12> <13> <14> <15>'
expect 'mg table --host 3 im' '<table> <--host> <3> <images>'
expect 'mg table images --h' '<table> <images> <--help> <--host>'
expect 'mg table images ' '<table> <images>'
expect 'mg submit images f' '<submit> <images> <forget>'
expect 'mg submit images c' '<submit> <images> <cancel> <convert>'
expect 'mg submit images --host 3 p' '<submit> <images> <--host> <3> <purge>'
expect 'mg submit --host 3 images enqueue 1 1 1 P' '<submit> <--host> <3> <images> <enqueue> <1> <1> <1> <PR> <PW>'
expect 'mg lock images ' '<lock> <images>'
expect 'mg lock images db --mode P' '<lock> <images> <db> <--mode> <PR> <PW>'
expect 'mg lock images db -w 3 --no' '<lock> <images> <db> <-w> <3> <--nonblock>'
expect 'mg lock images db -- one' '<lock> <images> <db> <--> <one.dlm>'
expect 'mg lock images db --host 2 -- ls --mode one' '<lock> <images> <db> <--host> <2> <--> <ls> <--mode> <one.dlm>'
expect 'mg replace im' '<replace> <images>'
expect 'mg replace images ' '<replace> <images> <0> <1> <2> <3> <4> <5> <6>'
expect 'mg status images --p' '<status> <images> <--prometheus>'

# asked TYPED WORDS: fish offers these words.
asked() {
    local words
    words=$(fish --no-config -c "source '$top/completions/dlm.fish'; source '$top/completions/mg-lock.fish'; source '$top/completions/dlm-shared.fish'; complete -C '$1'" 2>&1 | cut -f 1 | LC_ALL=C sort | tr '\n' ' ')
    tried=$((tried + 1))
    if [[ $words != "${2:+$2 }" ]]; then
        echo "fish: '$1' offers $words, not $2"
        failed=$((failed + 1))
    fi
}

if command -v fish >/dev/null; then
    asked 'dlm ' 'check fill format mark migrate race renew replace run submit sweep table'
    asked 'dlm table ' 'images/ more images/'
    asked 'dlm submit images 0 ' 'cancel convert enqueue forget purge release status'
    asked 'dlm submit images 0 enqueue 1 1 1 ' 'CR CW EX NL PR PW'
    asked 'dlm submit images 0 convert 1 2 1 PW ' 'noqueue value'
    asked 'dlm-shared take images ' '0 1 10 11 12 13 14 15 2 3 4 5 6 7 8 9'
    asked 'mg-lock -s ' 'images/ more images/'
    asked 'mg-lock -s images ' '0 1 10 11 12 13 14 15 2 3 4 5 6 7 8 9'
    asked 'dlm submit images 0 convert 1 2 1 PW value ' ''
    asked 'dlm submit images 0 convert 1 2 1 PW noqueue ' value
    asked 'dlm submit images 0 purge 1 2 ' '0 1 10 11 12 13 14 15 2 3 4 5 6 7 8 9'
fi
# shown TYPED TEXT: zsh shows this below the line when the key of completion is pressed. Several are typed into one shell, by zsh's own terminal.
shown_lines=() shown_texts=()
shown() {
    shown_lines+=("$1")
    shown_texts+=("$2")
}

if command -v zsh >/dev/null; then
    for file in _dlm _mg-lock _dlm-shared _mg; do
        tried=$((tried + 1))
        zsh -n "$top/completions/$file" || failed=$((failed + 1))
    done
    hosts='0 1 2 3 4 5 6 7 8 9 10 11 12 13 14 15'
    shown 'dlm format images 3 ' 'slots, 1 to 4096; or cluster, for a log without an end'
    shown 'dlm format images 3 64 ' 'cluster, any number, another one for each folder'
    shown 'dlm submit images ' "host, 0 to 15 $hosts"
    shown 'dlm submit images 0 enqueue ' 'client, 0 to 239; then request, lock or host'
    shown 'dlm submit images 0 enqueue 1 ' 'request, above the last one of this client; then lock or host'
    shown 'dlm submit images 0 enqueue 1 2 ' 'lock, 1 to 1535, one that is in no table; then mode, name'
    shown 'dlm submit images 0 enqueue 1 2 3 EX ' 'name, 1 to 15 bytes without blanks'
    shown 'dlm submit images 0 convert 1 2 ' 'lock, 1 to 1535; then mode'
    shown 'dlm submit images 0 convert 1 2 3 PW ' 'noqueue value'
    shown 'dlm submit images 0 convert 1 2 3 PW value ' 'value, 32 digits 0 to 9 and a to f'
    shown 'dlm submit images 0 release 1 2 ' 'lock, 1 to 1535'
    shown 'dlm submit images 0 release 1 2 3 value ' 'value, 32 digits 0 to 9 and a to f'
    shown 'dlm submit images 0 purge 1 2 ' "host, 0 to 15, all locks of which end $hosts"
    shown 'dlm renew images 0 images 3 64 8 ' 'client that is left out'
    shown 'dlm-shared submit images 0 enqueue ' 'client, 0 to 239; then request, lock or host'
    shown 'dlm-shared take images ' "host, 0 to 15 $hosts"
    TERM=xterm timeout 600 zsh -f -s "$top/completions" "${shown_lines[@]}" >"$work/shown" <<'END'
zmodload zsh/zpty || exit
# Reads until the shell has printed a word, and keeps all before it.
read_until() {
    local text
    all=
    until [[ $all == *$1* ]]; do zpty -r -t shell text && all+=$text || sleep 0.02; done
}
zpty shell zsh -f -i
zpty -w shell "PS1='> '; fpath=($1 \$fpath); autoload -U compinit; compinit -D -u; print be''gun"
shift
read_until begun
for line; do
    # The line is taken back (^U) before the next one is typed.
    zpty -w -n shell "$line"$'\t\025'
    zpty -w shell "print ty''ped"
    read_until typed
    # What comes after the first clearing of what is below the line, without the terminal's words.
    all=${${all#*$'\e[J'}#*$'\e[J'}
    all=${all%%$'\e[A'*}
    setopt extendedglob
    all=${all//$'\e'\[[0-9;?]#[a-zA-Z]/}
    print -r -- ${=${all//[$'\r\n']/ }}
done
END
    for ((i = 0; i < ${#shown_lines[@]}; i++)); do
        tried=$((tried + 1))
        told=$(sed -n "$((i + 1))p" "$work/shown")
        if [[ $told != "${shown_texts[i]}" ]]; then
            echo "zsh: '${shown_lines[i]}' shows $told, not ${shown_texts[i]}"
            failed=$((failed + 1))
        fi
    done
fi

command -v fish >/dev/null || echo "left out: completions.sh, fish: it is not installed"
command -v zsh >/dev/null || echo "left out: completions.sh, zsh: it is not installed"
echo "completions: $tried tried, $failed differ"
[[ $failed -eq 0 ]]
