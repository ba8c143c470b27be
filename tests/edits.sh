#!/bin/sh
# Prints the numbers of docs/WRONG_BODIES.md: the edits and controls of the gate (must-fail/) and
# outside of it (wrong-bodies/), in how many crates they stand, and the edits of each crate in both,
# lowest first.
set -eu
cd "$(dirname "$0")/.."

# How many files of a kind stand in the folders of a name, of all crates or of one.
count() {
    find crates/${3:-*}/"$1" -name "*$2" 2>/dev/null | wc -l
}

for folder in must-fail wrong-bodies; do
    crates=$(find crates/*/$folder -name '*.edit' | cut -d/ -f2 | sort -u | wc -l)
    echo "$folder: $(count $folder .edit) edits, $(count $folder .control.md) controls, $crates crates"
done
for crate in $(sed -n 's/^\([a-z_]*\):.*/\1/p' crates.txt); do
    echo "$crate $(count must-fail .edit "$crate") $(count wrong-bodies .edit "$crate")"
done | awk '$2 + $3 { printf "%s`%s` %d, %d", between, $1, $2, $3; between = "; " } END { print "" }' | fold -s -w 100
