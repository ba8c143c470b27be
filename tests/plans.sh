#!/bin/sh
# Has `mcslab` compile each plan of the gallery, and compares the script, the map and a trace with
# names with what is kept; checks and draws each plan as it is; tells a fault by its line and
# status; then changes a byte of each plan 1,000 times. Run it after rt ci, which leaves the
# programs.
set -eu
cd "$(dirname "$0")/.."
program=crates/mcslab/out/mcslab
examples=$PWD/crates/mcs_test_examples/out/mcs_test_examples
data=crates/mcs_test_examples/data
for needed in "$program" "$examples"; do
    [ -x "$needed" ] || { echo "plans.sh: run rt ci first, which leaves $needed"; exit 1; }
done
work=$(mktemp -d)
trap 'rm -r "$work"' EXIT
tried=0
for plan in "$data"/gallery/*.plan "$data"/plans/*.plan; do
    kept=${plan%.plan}.mcs
    [ -f "$kept" ] || continue
    "$program" compile "$plan" | cmp - "$kept" || { echo "plans.sh: $plan"; exit 1; }
    "$program" compile <"$plan" | cmp - "$kept" || { echo "plans.sh: $plan"; exit 1; }
    "$program" check "$kept" >"$work/verdicts" || { echo "plans.sh: $kept"; cat "$work/verdicts"; exit 1; }
    # with the plan itself each verdict is that of its own line, and the picture has the same
    # arrows, and the plan's lines
    "$program" check "$plan" >"$work/verdicts" || { echo "plans.sh: $plan"; cat "$work/verdicts"; exit 1; }
    sed -n 's/^ok [0-9]* - line \([0-9]*\): .*/\1/p' "$work/verdicts" >"$work/lines"
    grep -n '^[[:space:]]*?' "$plan" | cut -d: -f1 | cmp - "$work/lines" || { echo "plans.sh: lines of $plan"; exit 1; }
    "$program" draw --format mermaid "$kept" | grep -v ': .* = refused\| skipped' >"$work/picture"
    "$program" draw --format mermaid --plan <"$plan" | grep -v ': .* = refused\| skipped' | cmp - "$work/picture" ||
        { echo "plans.sh: picture of $plan"; exit 1; }
    "$program" draw "$plan" | sed -n 's/^<text class="number" x="100" y="[0-9]*">\([0-9]*\)<.*/\1/p' >"$work/lines"
    grep -nE '^ *[A-Za-z0-9._-]+( on core [0-9]+)? *:|^thread .*passive' "$plan" | cut -d: -f1 >"$work/steps"
    [ -s "$work/lines" ] || { echo "plans.sh: no lines of $plan in its picture"; exit 1; }
    sort -u "$work/lines" | while read -r line; do
        grep -qx "$line" "$work/steps" || { echo "plans.sh: $plan has no step in line $line"; exit 1; }
    done
    tried=$((tried + 1))
done
"$program" compile --map "$data/gallery/own-spaces.plan" | cmp - "$data/gallery/own-spaces.map"
echo '+ joins t3 e1.recv r1' | "$program" names "$data/gallery/own-spaces.mcs" >"$work/named"
echo '+ joins server srv.recv srv.reply' | cmp - "$work/named"
status=0
printf 'endpoint ep\nthread a prio 256\n' | "$program" compile 2>"$work/told" || status=$?
[ $status -eq 2 ] && echo 'mcslab: line 2: "256" is not a priority, 0 to 255' | cmp - "$work/told"
status=0
"$program" compile "$work/none.plan" 2>"$work/told" || status=$?
[ $status -eq 64 ]
status=0
"$program" names <"$work/named" 2>"$work/told" || status=$?
[ $status -eq 64 ]
echo "plans: $tried scripts, a map, names and statuses as wanted"
cd "$data" && "$examples" 1000
