#!/bin/sh
# Runs users on machines again and again, and measures how many entries a second the cores let in.
#
# usage: bench/runs.sh PROGRAM [RUNS]     1,000 runs where no number is said
#
# Each run has 32 users on 8 cores that call and reply, send and receive, signal and wait, suspend and resume, make and delete. It
# has to end with status 0, and its trace, replayed, has to give the same bytes. Then longer runs of the same users on 1, 2, 4,
# 8 and 16 cores are timed: a host thread for each core enters the one kernel under its lock.
set -eu
program=$1
runs=${2:-1000}
work=$(mktemp -d)
trap 'rm -rf "$work"' EXIT

# A script of 32 users on so many cores, who take their turns so often.
script() {
    awk -v cores="$1" -v rounds="$2" '
    function user(thread, entry) { print "user t" thread, entry }
    BEGIN {
        print "cores " cores
        print "cnode 8"
        for (i = 1; i <= 4; i++) print "endpoint"
        for (i = 1; i <= 4; i++) print "notification"
        for (i = 1; i <= 6; i++) print "reply"
        for (i = 1; i <= 32; i++) print "context " (i - 1) % cores
        for (i = 1; i <= 32; i++) print "thread " 10 + 10 * (i % 4) " 255 c1 56 0 run s" i
        print "slot c1 1 e1 wg 1"
        print "slot c1 2 e2 wg 2"
        for (i = 1; i <= 4; i++) print "slot c1 " 2 + i " e" i " rwgp 0"
        print "slot c1 7 e3 w 3"
        print "slot c1 8 e4 w 4"
        for (i = 1; i <= 4; i++) print "slot c1 " 8 + i " n" i " w " 2 ^ i
        for (i = 1; i <= 4; i++) print "slot c1 " 12 + i " n" i " rw 0"
        for (i = 1; i <= 6; i++) print "slot c1 " 20 + i " r" i
        for (i = 1; i <= 32; i++) print "slot c1 " 32 + i " t" i
        for (i = 1; i <= 2; i++) {
            user(i, "recv " 2 + i " " 20 + i)
            for (k = 1; k <= 4 * rounds; k++) user(i, "replyrecv " 2 + i " " 20 + i " " k)
        }
        for (k = 1; k <= rounds; k++) {
            for (i = 3; i <= 10; i++) user(i, "call " 1 + i % 2 " " k " " i)
            for (i = 11; i <= 14; i++) user(i, (i % 2 ? "send " : "nbsend ") 7 + k % 2 " " k " " i)
            for (i = 15; i <= 18; i++) user(i, (i % 2 ? "recv " : "nbrecv ") 5 + k % 2 " " 8 + i)
            for (i = 19; i <= 22; i++) user(i, "signal " i - 10)
            for (i = 23; i <= 26; i++) user(i, (i % 2 ? "wait " : "nbwait ") i - 10)
            for (i = 27; i <= 28; i++) {
                user(i, "suspend " 8 + i + k % 8)
                user(i, "resume " 8 + i + k % 8)
            }
            for (i = 29; i <= 32; i++) {
                user(i, "make endpoint " 80 + i " 64")
                user(i, "mint " 80 + i " 64 " 120 + i " 64 rw " k)
                user(i, "nbsend " 120 + i " 1")
                user(i, "delete " 80 + i " 64")
                user(i, "delete " 120 + i " 64")
            }
        }
    }'
}

entries() {
    grep -c '^= ' "$1"
}

script 8 12 >"$work/script"
failed=0
let_in=0
for i in $(seq "$runs"); do
    if "$program" run <"$work/script" >"$work/trace" &&
        "$program" replay <"$work/trace" >"$work/again" &&
        cmp -s "$work/trace" "$work/again"; then
        let_in=$((let_in + $(entries "$work/trace")))
    else
        failed=$((failed + 1))
        cp "$work/trace" "runs-failed.trace"
    fi
done
echo "8 cores: $runs runs of $((let_in / runs)) entries each, $failed failed"

for cores in 1 2 4 8 16; do
    script "$cores" 2500 >"$work/script"
    best=0
    for i in 1 2 3; do
        began=$(date +%s%N)
        "$program" run <"$work/script" >"$work/trace"
        ended=$(date +%s%N)
        rate=$(($(entries "$work/trace") * 1000 / ((ended - began) / 1000000)))
        [ "$rate" -gt "$best" ] && best=$rate
    done
    "$program" replay <"$work/trace" | cmp - "$work/trace"
    echo "$cores cores: $(entries "$work/trace") entries in the last of 3 runs, at best $best a second"
done
[ "$failed" -eq 0 ]
