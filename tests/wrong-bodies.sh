#!/bin/sh
# Tries the edits of crates/NAME/wrong-bodies/, which have the form of must-fail edits and are
# refused like these, but are too many for the gate: `rt must-fail` is asked for them in a copy of
# the tree, over what earlier checks left in the folders out/. What was tried before on this
# machine, with nothing changed that it stands on, is told and not tried again. Give names of crates
# to try those alone.
set -eu
cd "$(dirname "$0")/.."
copy=$(mktemp -d)
trap 'rm -rf "$copy"' EXIT
cp -R crates crates.txt HANDLES "$copy"
cd "$copy"
rm -rf crates/*/must-fail
for folder in crates/*/wrong-bodies; do
    mv "$folder" "${folder%/wrong-bodies}/must-fail"
done
status=0
rt must-fail "$@" >log 2>&1 || status=$?
grep -v ': refused, as it must be' log || true
echo "$(grep -c ': refused, as it must be' log) wrong bodies refused"
exit $status
