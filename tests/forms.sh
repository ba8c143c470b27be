#!/bin/sh
# Compares docs/FORMS.md with the program: each example of a step is read, alone behind the boot of
# the first example, as a step of that very spelling. Run it after rt ci, which leaves the program.
set -eu
cd "$(dirname "$0")/.."
program=crates/mcssim/out/mcssim
[ -x $program ] || { echo "forms.sh: run rt ci first, which leaves $program"; exit 1; }
work=$(mktemp -d)
trap 'rm -r "$work"' EXIT
grep -v '^#' examples/first-run.mcs | grep -v '^0 ' | grep . >"$work/boot"
sed -n '/^## Steps/,/^## Answers/p' docs/FORMS.md | grep '^| [A-Z]' >"$work/rows"
tried=0
while IFS='|' read -r _ _ _ example _; do
    step="0 t1 $(echo "$example" | tr -d '`' | sed 's/^ *//; s/ *$//')"
    { cat "$work/boot"; echo "$step"; } >"$work/script"
    status=0
    $program replay <"$work/script" >"$work/trace" 2>"$work/fault" || status=$?
    [ $status -eq 0 ] && grep -qxF "$step" "$work/trace" || { echo "not read: $step"; cat "$work/fault"; exit 1; }
    tried=$((tried + 1))
done <"$work/rows"
echo "docs/FORMS.md: $tried examples of steps, each read as it is spelled"
