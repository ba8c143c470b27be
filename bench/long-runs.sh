#!/bin/sh
# How long mcssim takes for long scripts, and how much memory: for each number of steps the seconds, the peak of memory in bytes, the
# bytes of memory for each line of the book, and the bytes written. Usage: long-runs.sh messages|entries|long-calls [STEPS..]
# The peak of a process begins with that of the one which starts it, here of python3, so a smaller one is told as less than that (<).
# `messages` are sends and receives in turn; `entries` are rounds of all 25 entries, with objects made and deleted in each
# (bench/all-entries.txt); `long-calls` are calls of 64 words, each received and then answered with 64 words. It takes the program
# that `rt ci` leaves in out/, or proves and builds it where it is not there, and measures with python3.
set -eu
cd "$(dirname "$0")/.."
kind=${1:-messages}
[ $# -eq 0 ] || shift
work=$(mktemp -d)
trap 'rm -rf "$work"' EXIT
case $kind in
messages) printf '%s\n' '0 t1 send 1 7 5 6' '0 t2 recv 2 8' >"$work/round" ;;
entries) cp bench/all-entries.txt "$work/round" ;;
long-calls)
    words=$(seq -s ' ' 1 64)
    printf '%s\n' "0 t1 call 2 1 $words" '0 t2 recv 2 8' "0 t2 send 8 2 $words" >"$work/round"
    ;;
*) echo "long-runs.sh: messages, entries or long-calls"; exit 1 ;;
esac

[ -x crates/mcssim/out/mcssim ] || (cd crates/mcssim && rt run -- replay) <crates/mcssim/stdin >"$work/built" 2>&1 || { cat "$work/built"; exit 1; }

echo "steps seconds peak-bytes bytes-a-line written-bytes"
for steps in ${*:-10000 100000 999000}; do
    {
        sed '/^0 /d' crates/mcssim/stdin
        awk -v steps="$steps" '{ round[NR] = $0 } END { for (i = 0; i < steps; i++) print round[i % NR + 1] }' "$work/round"
    } >"$work/script"
    python3 - "$work/script" "$work/trace" "$steps" <<'P'
import resource, subprocess, sys, time

script, trace, steps = sys.argv[1], sys.argv[2], int(sys.argv[3])
floor = resource.getrusage(resource.RUSAGE_SELF).ru_maxrss * 1024
began = time.monotonic()
with open(script) as given, open(trace, "w") as written:
    subprocess.run(["crates/mcssim/out/mcssim", "replay"], stdin=given, stdout=written, check=True)
seconds = time.monotonic() - began
peak = resource.getrusage(resource.RUSAGE_CHILDREN).ru_maxrss * 1024
with open(trace, "rb") as written:
    text = written.read()
assert text.count(b"\n= ") == steps, "each step has its line"
less = "" if peak > floor + (1 << 19) else "<"
print(steps, f"{seconds:.2f}", f"{less}{peak}", f"{less}{peak // steps}", len(text))
P
done
