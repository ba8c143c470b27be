#!/bin/sh
# Has `mcslab` read what nobody should give it: inputs without an end, with too little memory, and
# bytes that a terminal obeys; then changed inputs by tests/hostile.py, COUNT for each command. Run
# it after rt ci, which leaves the program, or with another program:
#
#     sh tests/hostile.sh [PROGRAM [COUNT]]
#
# A call has HOSTILE_SECONDS (20) and HOSTILE_MEMORY kilobytes (2000000).
set -eu
cd "$(dirname "$0")/.."
program=${1:-$PWD/crates/mcslab/out/mcslab}
count=${2:-20000}
[ -x "$program" ] || { echo "hostile.sh: run rt ci first, which leaves $program"; exit 1; }
work=$(mktemp -d)
trap 'rm -rf "$work"' EXIT
tried=0

# Compares the status of a call and what it tells; the standard input is that of the caller.
ends() {
    wanted=$1 text=$2 status=0
    shift 2
    (ulimit -v "${HOSTILE_MEMORY:-2000000}"; exec timeout "${HOSTILE_SECONDS:-20}" "$program" "$@") >"$work/out" 2>"$work/told" || status=$?
    [ $status -eq "$wanted" ] || { echo "hostile.sh: $*: status $status, not $wanted"; cat "$work/told"; exit 1; }
    [ -z "$text" ] || grep -qF -e "$text" "$work/told" || { echo "hostile.sh: $*: no \"$text\" in"; cat "$work/told"; exit 1; }
    tried=$((tried + 1))
}

# Without an end: a line, or lines.
script=examples/first-run.mcs
yes | head -n 900002 >"$work/lines.plan"
yes '# a remark' | head -n 2000002 >"$work/lines.mcs"
yes '+ joins t1 e1.send' | head -n 2000002 >"$work/trace"
for command in compile 'check --plan' 'why --plan' 'state --plan' 'json --plan' 'draw --plan' 'explore --plan' 'graph --plan' 'walk --plan'; do
    # shellcheck disable=SC2086
    ends 2 'mcslab: line 1: more than 4000 bytes in a line' $command </dev/zero
    # shellcheck disable=SC2086
    ends 2 'more than 900000 lines' $command <"$work/lines.plan"
done
for command in check why state json draw explore graph walk; do
    ends 2 'mcslab: line 1: fault 7: the line is too long' $command </dev/zero
    ends 2 'mcslab: line 2000001: fault 9: too many lines' $command <"$work/lines.mcs"
done
ends 2 '/dev/zero:1: fault 7: the line is too long' names /dev/zero </dev/null
ends 2 'mcslab: line 1: fault 7: the line is too long' names $script </dev/zero
ends 2 'mcslab: line 2000001: fault 9: too many lines' names $script <"$work/trace"
ends 2 'mcslab: line 2000001: fault 9: too many lines' names - <"$work/lines.mcs"
printf '#@ t1\n' >"$work/given"
ends 2 "$work/given:1: no question and no name has this form" names "$work/given" </dev/null
printf '#@ t1000 beyond\n' >"$work/given"
ends 2 "$work/given:1: no question and no name has this form" names "$work/given" </dev/null
yes | timeout 20 "$program" compile >/dev/null 2>&1 || [ $? -eq 2 ] || { echo "hostile.sh: compile reads lines without an end"; exit 1; }
rm "$work/lines.plan" "$work/lines.mcs" "$work/trace" "$work/given"

# As many names as steps: what a name is found by does not grow with them.
{
    printf 'cores 1\ncnode 5\ncontext 0\nthread 10 255 c1 59 0 stop -\n'
    seq 200000 | sed 's/.*/#@ t1 name&/'
    yes '0 t1 signal 1' | head -n 200000
} >"$work/names.mcs"
ends 0 '' why "$work/names.mcs"
# One name, given again and again and asked as often: what it refers to is not searched.
for names in 'a a' 'a b'; do
    # shellcheck disable=SC2086
    {
        printf 'cores 1\ncnode 5\nendpoint\ncontext 0\nthread 10 255 c1 59 0 run s1\n'
        printf '#@ e1 %s\n#@ e1 %s\n' $(yes $names | head -n 16000)
        echo 'user t1 nbsend 1 1'
        yes "#! never + closed ${names#* }" | head -n 32000
    } >"$work/names.mcs"
    HOSTILE_SECONDS=5 ends 0 '' explore "$work/names.mcs"
done
rm "$work/names.mcs"

# A search without an end, with little memory: the report comes with what was found.
{
    printf 'cores 8\ncnode 6\nnotification\n'
    seq 0 7 | sed 's/.*/context &/'
    seq 8 | sed 's/.*/thread 20 255 c1 58 0 run s&/'
    printf 'slot c1 1 n1 rw 1\n'
    for user in 1 2 3 4 5 6 7 8; do yes "user t$user signal 1" | head -n 12; done
} >"$work/search.mcs"
HOSTILE_MEMORY=150000 HOSTILE_SECONDS=120 ends 3 '' explore "$work/search.mcs"
grep -q '^stopped for lack of memory at ' "$work/out" || { echo "hostile.sh: no report for lack of memory"; exit 1; }
grep -q '^stopped: no deadlock so far' "$work/out" || { echo "hostile.sh: no verdict for lack of memory"; exit 1; }
rm "$work/search.mcs"

# Bytes that a terminal obeys, in a word, in a name and in the name of a file: told, and not
# written.
odd=$(printf 'a\033[31m\007\342\200\256b')
printf 'endpoint ep\nthread a prio 1\na has ep\n\na: %s ep 1\n' "$odd" >"$work/entry.plan"
printf 'endpoint %s\n' "$odd" >"$work/name.plan"
printf 'endpoint ep\nthread a prio 1\na has ep\n\na: nbsend ep 1\n? %s\n' "$odd" >"$work/wanted.plan"
printf 'cores 1\n0 t1 %s 1\n' "$odd" >"$work/step.mcs"
printf 'cores 1\n#? %s\n' "$odd" >"$work/question.mcs"
printf 'cores 1\n#@ t1 %s\n' "$odd" >"$work/given.mcs"
printf 'cores 1\n#! %s\n' "$odd" >"$work/asked.mcs"
printf 'cores 1\n0 t1 send\000 1\n' >"$work/nul.mcs"
printf 'cores 1\n0 t1 send  %s\n' "$odd" >"$work/blanks.mcs"
cp examples/refused.mcs "$work/$odd.mcs"
printf 'x\n' >"$work/$odd.plan"
for file in "$work"/*.plan "$work"/*.mcs; do
    for command in check why state json draw explore graph walk compile names; do
        timeout "${HOSTILE_SECONDS:-20}" "$program" $command "$file" >"$work/out" 2>"$work/told" </dev/null || true
        [ $command != check ] && [ $command != why ] || cat "$work/out" >>"$work/told"
        if LC_ALL=C tr -d '\n' <"$work/told" | LC_ALL=C grep -q "[[:cntrl:]]\|$(printf '\342\200\256')"; then
            echo "hostile.sh: $command writes a byte that a terminal obeys:"
            cat -v "$work/told"
            exit 1
        fi
        tried=$((tried + 1))
    done
done
echo "hostile: $tried calls end as wanted"

python3 tests/hostile.py "$program" "$count"
