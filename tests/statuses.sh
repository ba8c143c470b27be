#!/bin/sh
# Has `mcslab` end in each way that can be brought about from outside, and compares the exit status
# and what goes to standard error; each status stands in the table of `mcslab --help`. `check`
# writes each verdict before it waits for more of a pipe. Run it after rt ci, which leaves the
# program, or with another program: sh tests/statuses.sh PROGRAM
set -eu
cd "$(dirname "$0")/.."
program=${1:-$PWD/crates/mcslab/out/mcslab}
[ -x "$program" ] || { echo "statuses.sh: run rt ci first, which leaves $program"; exit 1; }
work=$(mktemp -d)
trap 'rm -rf "$work"' EXIT
"$program" --help >"$work/help"
tried=0

# Compares the status and the standard error of a call with those that are wanted; the standard
# input is that of the caller.
ends() {
    wanted=$1 text=$2 status=0
    shift 2
    "$program" "$@" >"$work/out" 2>"$work/told" || status=$?
    [ $status -eq "$wanted" ] || { echo "statuses.sh: $*: status $status, not $wanted"; cat "$work/told"; exit 1; }
    grep -q "^ *$wanted  " "$work/help" || { echo "statuses.sh: --help does not have $wanted"; exit 1; }
    [ -z "$text" ] || grep -qF -e "$text" "$work/told" || { echo "statuses.sh: $*: no \"$text\" in"; cat "$work/told"; exit 1; }
    tried=$((tried + 1))
}

# Compares the last line that the call before wrote.
bails() {
    [ "$(tail -n 1 "$work/out")" = "Bail out! $1" ] || { echo "statuses.sh: no Bail out! $1 in"; cat "$work/out"; exit 1; }
}

script=tests/lab/deadlock.mcs
printf 'cores 1\n= done\n' >"$work/unmet.mcs"
printf 'cores 1\nendpiont\n' >"$work/refused.mcs"
: >"$work/closed.mcs"
ends 0 '' check tests/lab/trace.mcs
ends 1 '' check "$work/unmet.mcs"
ends 1 '' state --stuck $script
ends 2 "$work/refused.mcs:2: fault 2: no form fits" check "$work/refused.mcs"
bails 'line 2: no form fits'
ends 2 'tests/lab/no-question.mcs:2: no question' check tests/lab/no-question.mcs
ends 2 'mcslab: line 2: fault 2: no form fits' check <"$work/refused.mcs"
ends 2 'mcslab: line 2: fault 2: no form fits' check - <"$work/refused.mcs"
for command in check why state json draw explore graph walk compile; do
    ends 8 'read fault' $command <"$work"
done
ends 8 'read fault' check <"$work"
bails 'read fault'
status=0
"$program" check tests/lab/trace.mcs 2>"$work/told" >/dev/full || status=$?
[ $status -eq 4 ] && grep -q 'write fault' "$work/told" || { echo "statuses.sh: no write fault, but status $status"; exit 1; }
ends 3 '' explore --states 2 examples/explore/mutex.mcs
ends 0 '' graph examples/explore/mutex.mcs
ends 0 '' graph --dot examples/explore/mutex.mcs
ends 3 '' graph --states 2 examples/explore/mutex.mcs
ends 2 "$work/refused.mcs:2: fault 2: no form fits" graph "$work/refused.mcs"
ends 0 '' walk --seed 7 --turns 5 examples/explore/mutex.mcs
ends 2 "$work/refused.mcs:2: fault 2: no form fits" walk "$work/refused.mcs"
ends 64 '-1' walk --seed=-1 examples/explore/mutex.mcs
ends 1 '' walk --runs 100 examples/explore/dining.mcs
ends 3 '' walk --runs 100 --turns 50 examples/explore/mutex.mcs
ends 64 '0' walk --runs 0 examples/explore/mutex.mcs
ends 0 '' explore examples/programs/passive.plan
for command in check why state json draw explore graph walk compile names; do
    ends 64 'No such file' $command "$work/none" </dev/null
    ends 64 'Is a directory' $command "$work" </dev/null
done
if [ "$(id -u)" -ne 0 ]; then
    chmod 0 "$work/closed.mcs"
    for command in check why state json draw explore graph walk compile names; do
        ends 64 'Permission denied' $command "$work/closed.mcs" </dev/null
    done
fi
ends 64 '--wrong' check --wrong
ends 64 'were not provided' state --json-strings $script
ends 64 'were not provided' explore --json-strings examples/explore/mutex.mcs
ends 64 "'--json-strings'" why --json-strings $script
ends 0 '' json --json-strings $script
ends 0 '' state --json --json-strings $script
ends 0 '' explore --json-strings --json examples/explore/mutex.mcs
ends 64 '0' state --at 0 $script
ends 64 'there is no line 35 in the script, which has 34' state --at 35 $script
ends 0 '' state --at 34 $script
ends 64 '0' draw --from 0 $script
ends 64 '0' draw --to 0 $script
ends 64 'mcslab: --from 3 is behind --to 2' draw --from 3 --to 2 $script
ends 64 'there is no line 99 in the script, which has 34' draw --from 99 $script
ends 64 'there is no line 99 in the script, which has 34' draw --to 99 $script
ends 64 'mcslab: no step in these lines took effect' draw --from 1 --to 2 $script
ends 0 '' draw --from 24 --to 24 $script
ends 64 'mcslab: no step in these lines took effect' draw --from 31 --to 34 $script
ends 64 'mcslab: --threads: there is no thread "nobody"; there are ' draw --threads t1,nobody $script
ends 64 'mcslab: --threads: there is no thread "\x1b"' draw --threads "$(printf '\033')" $script
ends 64 'mcslab: --threads: there is no thread ""' draw --threads t1, $script
ends 64 'mcslab: --threads: there is no thread "e1"' draw --threads e1 $script
ends 0 '' draw --threads t2,t1,t2 $script
for command in check why state json draw; do
    ends 8 'read fault' $command --plan <"$work"
    ends 64 'No such file' $command "$work/none.plan" </dev/null
    ends 64 'Is a directory' $command --plan "$work" </dev/null
done
plan=examples/gallery/passive-server.plan
count=$(wc -l <"$plan")
ends 0 '' check $plan
ends 0 '' check --plan <$plan
ends 0 '' state --at "$count" $plan
ends 64 "there is no line $((count + 1)) in the plan, which has $count" state --at $((count + 1)) $plan
ends 64 "there is no line $((count + 1)) in the plan, which has $count" draw --to $((count + 1)) $plan
echo "statuses: $tried calls end as wanted"

# A verdict is there while the rest of the script is not written yet.
mkfifo "$work/in" "$work/verdicts"
"$program" check <"$work/in" >"$work/verdicts" &
exec 3>"$work/in" 4<"$work/verdicts"
printf 'cores 1\n= done\n' >&3
timeout 20 head -n 1 <&4 | grep -q '^not ok 1 - line 2: = done$' || { echo "statuses.sh: no verdict while the pipe is open"; exit 1; }
exec 3>&- 4<&-
wait $! || true
echo "check: a verdict before the end of its input"
