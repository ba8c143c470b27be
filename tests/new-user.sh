#!/bin/sh
# Does what a new user does first, in a fresh folder with nothing but `mcslab`: init, check, draw,
# why, state, explore, walk, all on plans. Each message names the plan's own line. Run it after rt
# ci, which leaves the program, or: sh tests/new-user.sh PROGRAM
set -eu
here=$(cd "$(dirname "$0")/.." && pwd)
program=${1:-$here/crates/mcslab/out/mcslab}
[ -x "$program" ] || { echo "new-user.sh: run rt ci first, which leaves $program"; exit 1; }
work=$(mktemp -d)
trap 'rm -rf "$work"' EXIT
cd "$work"

# Fails with what was wanted.
fails() {
    echo "new-user.sh: $1"
    exit 1
}

# Compares the exit status of a call with the one that is wanted.
ends() {
    wanted=$1 status=0
    shift
    "$program" "$@" >out 2>told || status=$?
    [ $status -eq "$wanted" ] || { cat out told; fails "$*: status $status, not $wanted"; }
}

ends 0 init first
[ -f first.plan ] && [ -f first-users.plan ] || fails "init wrote no plans"
cp first.plan kept.plan
echo '# mine' >first-users.plan
ends 64 init first
cmp -s first.plan kept.plan && grep -q mine first-users.plan || fails "init overwrote a file"
ends 0 init --force first.plan
grep -q mine first-users.plan && fails "init --force overwrote nothing"

ends 0 check first.plan
grep '^ok' out | while read -r _ _ _ _ line _; do
    sed -n "${line%:}p" first.plan | grep -q '^?' || fails "line $line of the plan expects nothing"
done
grep -q "^1\\.\\.$(grep -c '^?' first.plan)\$" out || fails "not each line is checked"
grep -q '^ok 1 - line [0-9]*: fs got 42 1 0x1000$' out || fails "a verdict is not the plan's line"
ends 0 draw first.plan
grep -q '<title>A client and a passive file server</title>' out || fails "no picture"
ends 0 draw --threads client first.plan
[ "$(grep -c '<rect class="head"' out)" -eq 1 ] || fails "--threads client: not one lane"
ends 0 draw --format html first.plan
grep -q '<html' out || fails "no page"
ends 0 why first.plan
ends 0 state first.plan
ends 0 state --stuck first.plan
call=$(grep -n '^client: call' first.plan | cut -d: -f1)
ends 0 state --at "$call" first.plan
grep -q '^  client (priority 10): waits for the answer that fs.reply owes' out || fails "no state behind line $call"
ends 0 draw --from "$call" --to "$call" first.plan

# An expectation that does not hold, and a word that is wrong, are told by the plan's line.
sed 's/^? client answered 0 512/? client answered 0 513/' first.plan >wrong.plan
line=$(grep -n '513' wrong.plan | cut -d: -f1)
ends 1 check wrong.plan
grep -q "^not ok .* - line $line: " out || fails "no line $line in the verdict"
step=$(grep -n '^fs: replyrecv' wrong.plan | cut -d: -f1)
grep -q "^  line: $step\$" out || fails "no line $step in the verdict"
grep -q "^  wanted: 'client answered 0 513'\$" out || fails "no names in what is wanted"
grep -q "^  behind: 'fs: replyrecv fs.ep fs.reply 0 512'\$" out || fails "no names in the step"
sed 's/^client: call/client: cal/' first.plan >wrong.plan
ends 2 check wrong.plan
grep -q "^wrong.plan:$call: " told || fails "no wrong.plan:$call:"
grep -q "^Bail out! line $call: " out || fails "no Bail out!"

ends 0 explore first-users.plan
grep -q '^no deadlock; 2 of 2 questions hold' out || fails "explore: $(tail -n 1 out)"
grep -q '^anna 1: call fs.ep 1 3 -> ' out || fails "explore: no names"
for line in $(grep -n '^#!' first-users.plan | cut -d: -f1); do
    grep -q "question at line $line\\b" out || fails "no question at line $line"
done
ends 0 explore --json --scripts found first-users.plan
ends 0 walk first-users.plan
cp out walked.mcs
ends 0 check walked.mcs
ends 2 check first-users.plan
ends 2 explore first.plan
echo "new-user: init, check, draw, why, state, explore and walk on plans, as wanted"
