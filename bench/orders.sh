#!/bin/sh
# sh bench/orders.sh FOLDER [RUNS]: with the programs mcssim and mcslab of a folder, runs each script of users of
# crates/mcs_test_examples/data/explore so often (1,000 times) on real threads. Each answer of each run has to be one that
# `mcslab explore` tells of that entry's text and thread, and where users wait in the end has to be an end that it tells
# (not where a user goes on again and again, which `mcssim run` does not). It gives an entry again that was answered, so
# scripts in which no user does are left out.
programs=$1
runs=${2:-1000}
room=$(mktemp -d)
failed=0
for script in "$(dirname "$0")"/../crates/mcs_test_examples/data/explore/*.mcs; do
    grep -q '^#! resumed' "$script" && continue
    "$programs/mcslab" explore "$script" > "$room/told"
    done=0
    while [ "$done" -lt "$runs" ]; do
        done=$((done + 1))
        "$programs/mcssim" run < "$script" > "$room/trace" || { echo "$script: run $done ended early"; failed=1; break; }
        awk '
            NR == FNR {
                if (match($0, /^t[0-9]+/) && (at = index($0, " -> "))) {
                    thread = substr($0, 1, RLENGTH)
                    text = substr($0, 1, at - 1)
                    sub(/^t[0-9]+( \([^)]*\))? [0-9]+: /, "", text)
                    count = split(substr($0, at + 4), answers, / \| /)
                    for (i = 1; i <= count; i++) told[thread, text, answers[i]] = 1
                }
                next
            }
            /^[0-9]+ t/ { thread = $2; text = $0; sub(/^[0-9]+ t[0-9]+ /, "", text); next }
            /^= / && $0 != "= waits" {
                if (!((thread, text, substr($0, 3)) in told)) { print thread " " text " -> " substr($0, 3) " is not told"; bad = 1 }
            }
            END { exit bad }
        ' "$room/told" "$room/trace" || { echo "$script: run $done"; failed=1; break; }
        grep -q "^#! again" "$script" && continue
        "$programs/mcslab" state "$room/trace" > "$room/state"
        awk '
            # "t1 e4.recv " for each user that waits in a queue, by the words behind its name
            function waiting(line) { return match(line, /waits in [a-z0-9.]+/) ? thread " " substr(line, RSTART + 9, RLENGTH - 9) " " : "" }
            { thread = $1 }
            NR == FNR && /^end / { ends++ }
            NR == FNR && /^  t/ { told[ends] = told[ends] waiting($0) }
            NR == FNR && /^t[0-9]/ { users[thread] = 1 }
            NR != FNR && /^  t/ && thread in users { stands = stands waiting($0) }
            END {
                for (i = 1; i <= ends; i++) if (told[i] == stands) exit 0
                print "no end is told where " stands "waits"
                exit 1
            }
        ' "$room/told" "$room/state" || { echo "$script: run $done"; failed=1; break; }
    done
    echo "$(basename "$script"): $done runs"
done
rm -r "$room"
exit $failed
