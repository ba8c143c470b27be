#!/bin/sh
# The library for C, seL4's calls over it, and its calls from Rust: builds crates/mcs_c, compiles
# ports/ and runs its tests.
#   sh tests/c.sh
# Needs a C compiler (CC, or gcc, or clang). The last line is 'N passed, M failed', and what was
# skipped. These are taken where they are set:
#   LIBMCS  the archive of mcs_c, in the place of what `rt lib` builds (proved, which may take long)
#   MCSSIM  the simulator, else crates/mcssim/out/mcssim; without it no trace is compared
#   MCSLAB  the checker, else crates/mcslab/out/mcslab; without it scripts of plans alone are
#           compared
#   KIT     the kit's folder, else the one that `rt` is in
#   STEPS   how many steps the script has by which the speed is measured (900000)
set -u
cd "$(dirname "$0")/.." || exit 1
top=$PWD
passed=0
failed=0
skipped=
fail() {
    echo "FAILED: $*"
    failed=$((failed + 1))
}
pass() {
    passed=$((passed + 1))
}
skip() {
    echo "skipped: $*"
    skipped="$skipped${skipped:+; }$*"
}
# holds WHAT COMMAND..: counts whether a command succeeds
holds() {
    what=$1
    shift
    if "$@"; then
        pass
    else
        fail "$what"
    fi
}
# summary: the last line, with what was skipped; the status
summary() {
    echo "$passed passed, $failed failed${skipped:+, skipped: $skipped}"
    [ $failed = 0 ]
}

CC=${CC:-$(command -v gcc || command -v clang || true)}
if [ -z "$CC" ]; then
    skip "all tests of C, without a C compiler"
    summary
    exit
fi
KIT=${KIT:-$(dirname "$(dirname "$(readlink -f "$(command -v rt)")")")}
HEAP=$KIT/c/liblibc_c.a
LIBMCS=${LIBMCS:-$top/crates/mcs_c/out/libmcs_c.a}
if [ ! -f "$LIBMCS" ]; then
    (cd crates/mcs_c && rt lib) || exit 1
fi
MCSSIM=${MCSSIM:-$top/crates/mcssim/out/mcssim}
[ -x "$MCSSIM" ] || skip "comparing with mcssim, which is not at $MCSSIM"
MCSLAB=${MCSLAB:-$top/crates/mcslab/out/mcslab}
[ -x "$MCSLAB" ] || skip "comparing with mcslab, which is not at $MCSLAB"
data=$top/crates/mcs_test_examples/data

room=$(mktemp -d)
trap 'rm -rf "$room"' EXIT
strict="-std=c11 -Wall -Wextra -Werror -I$top/ports/c -I$top/ports/sel4sim"

# make NAME FLAGS: all programs of ports/, in a folder of that name
make() {
    to=$room/$1
    flags="$strict $2"
    mkdir -p "$to"
    examples=$top/ports/sel4sim/examples
    layer="$top/ports/sel4sim/sel4sim.c $LIBMCS $HEAP"
    $CC $flags -o "$to/tool" ports/c/tool.c "$LIBMCS" "$HEAP" &&
        $CC $flags -o "$to/calls" -Wl,--wrap=malloc -Wl,--wrap=realloc ports/c/calls.c "$LIBMCS" "$HEAP" &&
        $CC $flags -o "$to/entries" -Wl,--wrap=malloc -Wl,--wrap=realloc ports/c/entries.c "$LIBMCS" "$HEAP" &&
        $CC $flags -o "$to/ten_lines" "$examples/ten_lines.c" $layer &&
        $CC $flags -o "$to/overrun" "$examples/overrun.c" $layer &&
        $CC $flags -o "$to/layer" "$examples/layer.c" $layer &&
        $CC $flags -o "$to/files" "$examples/files.c" $layer &&
        $CC $flags -DMENDED -o "$to/mended" "$examples/files.c" $layer || return 1
    for pd in counter asker watcher; do
        $CC $flags "-DMICROKIT_PD=$pd" -c -o "$to/$pd.o" "$examples/$pd.c" || return 1
    done
    $CC $flags -o "$to/microkit" "$examples/microkit_system.c" ports/sel4sim/microkit_sim.c "$to"/*.o $layer
}

# replayed FILE: the simulator and the library give the same bytes and status, and so do single
# steps
replayed() {
    "$MCSSIM" replay <"$1" >"$room/want" 2>"$room/want.err"
    want=$?
    for how in replay steps; do
        "$room/plain/tool" $how <"$1" >"$room/got" 2>"$room/got.err"
        got=$?
        cmp -s "$room/want" "$room/got" && [ $want = $got ] && cmp -s "$room/want.err" "$room/got.err" && pass ||
            fail "$1 $how: the library gives another trace, status or fault ($got, not $want)"
    done
}

# done_so COMMAND FILE: mcslab and the library give the same text and status; where a line is
# refused, each says which
done_so() {
    "$MCSLAB" "$1" "$2" >"$room/want" 2>"$room/want.err"
    want=$?
    "$room/plain/tool" "$1" <"$2" >"$room/got" 2>"$room/got.err"
    got=$?
    cmp -s "$room/want" "$room/got" && [ $want = $got ] && pass || fail "$1 $2: the library gives another text or status ($got, not $want)"
    [ "$want" != 2 ] || [ "$1" = check ] || [ "$(line_in "$room/want.err")" = "$(line_in "$room/got.err")" ] ||
        fail "$1 $2: the library refuses another line"
}

# shown_so FILE: mcslab and the library explain, show and draw a script alike
shown_so() {
    for how in "why" "state --json" "draw"; do
        "$MCSLAB" $how "$1" >"$room/want" 2>/dev/null
        want=$?
        "$room/plain/tool" ${how%% *} <"$1" >"$room/got" 2>/dev/null
        got=$?
        cmp -s "$room/want" "$room/got" && [ $want = $got ] && pass || fail "$how $1: the library gives another text or status ($got, not $want)"
    done
}

# told_so FILE: mcslab and the library check, explain, show, draw and explore a plan alike, in its
# own words
told_so() {
    for how in check why "state --json" "state --json --at 9" draw explore; do
        "$MCSLAB" $how "$1" >"$room/want" 2>"$room/want.err"
        want=$?
        # mcslab tells of a line beyond the end
        [ $want != 64 ] || continue
        "$room/plain/tool" ${how%% *}_plan "$(number_for "$how")" <"$1" >"$room/got" 2>"$room/got.err"
        got=$?
        cmp -s "$room/want" "$room/got" && [ $want = $got ] && pass || fail "$how $1: the library gives another text or status ($got, not $want)"
        [ "$want" != 2 ] || [ "$how" != explore ] || [ "$(line_in "$room/want.err")" = "$(line_in "$room/got.err")" ] ||
            fail "$how $1: the library refuses another line"
    done
}

# number_for COMMAND: the number that the tool is given for a command of mcslab
number_for() {
    case $1 in
    state*at*) echo "${1##* }" ;;
    state*) echo 0 ;;
    *) echo 1000000 ;;
    esac
}

# line_in FILE: the number of the line that a fault names
line_in() {
    sed -n '1s/^\(mcslab: \)\{0,1\}line \([0-9]*\): .*/\2/p; 1s/^[^ ]*:\([0-9]*\): .*/\1/p' "$1"
}

# given_back FILE: mcssim gives a trace back byte for byte
given_back() {
    "$MCSSIM" replay <"$1" | cmp -s - "$1"
}

# back FILE: the same, where mcssim is there
back() {
    [ ! -x "$MCSSIM" ] || holds "$1: mcssim does not give the trace back" given_back "$1"
}

# run NAME TOOL..: the tests of one folder of programs, each under a tool, if one is named
run() {
    by=$1
    to=$room/$1
    shift
    # each order is a process of its own, and each step a replay: but in the plain programs, a few
    few="explore 3"
    scripts=$data/first-run.mcs
    if [ "$by" = plain ]; then
        few=
        scripts=$(find "$data" -name '*.mcs' -not -path '*/faults/*' | sort)
    fi
    holds "$by: the calls of mcs.h" "$@" "$to/calls"
    holds "$by: entries as structs" "$@" "$to/entries" $scripts
    holds "$by: the layer" "$@" "$to/layer"
    holds "$by: the test in ten lines" "$@" "$to/ten_lines"
    holds "$by: Microkit's handlers" "$@" "$to/microkit"
    holds "$by: the mended server" "$@" "$to/mended" $few
    holds "$by: the seeds find the deadlock" fails "$@" "$to/files" "$room/stuck.mcs"
    back "$room/stuck.mcs"
    [ $# = 0 ] || return 0
    holds "$by: the search finds the deadlock" fails "$to/files" explore 100 "$room/order.mcs"
    back "$room/order.mcs"
}

# fails COMMAND..: a command does not succeed
fails() {
    ! "$@"
}

# finds WORDS: what a tool wrote names a write behind a block, as the program that has one was run
# by it
finds() {
    grep -q "$1" "$room/overrun.err" && pass || fail "a write behind a block is not found: $1"
}

make plain -O2 || exit 1
run plain
if echo 'int main(void) { return 0; }' | $CC -fsanitize=address,undefined -x c -o "$room/probe" - 2>"$room/probe.err" && "$room/probe"; then
    if make checked "-O1 -g -fsanitize=address,undefined -fno-sanitize-recover=all"; then
        # each program is told that the sanitizer knows little of swapcontext, though it is told of
        # each stack
        run checked 2>"$room/checked.err"
        grep -v 'makecontext/swapcontext' "$room/checked.err" >&2
        grep -q 'ERROR: \|runtime error: ' "$room/checked.err" && fail "a sanitizer finds an error"
        "$room/checked/overrun" 2>"$room/overrun.err" && fail "a write behind a block ends well"
        finds 'heap-buffer-overflow\|insufficient space'
    else
        fail "with sanitizers"
    fi
else
    skip "the sanitizers, which $CC does not have"
fi
if ! command -v valgrind >/dev/null; then
    skip "valgrind, which is not there"
elif ! echo '#include <valgrind/valgrind.h>' | $CC -E - >/dev/null 2>&1; then
    skip "valgrind, whose header valgrind/valgrind.h is not there"
elif make watched "-O1 -g -DSEL4SIM_VALGRIND"; then
    run watched valgrind -q --error-exitcode=9 --leak-check=full "--log-file=$room/memcheck.%p"
    cat "$room"/memcheck.* >"$room/memcheck"
    if [ -s "$room/memcheck" ]; then
        cat "$room/memcheck"
        fail "valgrind finds an error"
    fi
    valgrind -q --error-exitcode=9 "$room/watched/overrun" 2>"$room/overrun.err" && fail "a write behind a block ends well"
    finds 'Invalid write'
else
    fail "for valgrind"
fi

echo '#include <sel4/sel4.h>
void seL4_Yield(void);
int main(void) { seL4_Yield(); return 0; }' >"$room/yield.c"
if $CC $strict -o "$room/yield" "$room/yield.c" ports/sel4sim/sel4sim.c "$LIBMCS" "$HEAP" 2>"$room/yield.err"; then
    fail "a call that is not simulated links"
else
    grep -q 'seL4_Yield' "$room/yield.err" && pass || fail "the linker does not name what is not simulated"
fi

if [ -x "$MCSSIM" ]; then
    count=0
    for file in $(find "$data" -name '*.mcs' -not -path '*/faults/*' | sort); do
        replayed "$file"
        count=$((count + 1))
    done
    echo "$count scripts: compared with mcssim, whole and step by step"
fi

count=0
for plan in "$data"/gallery/*.plan "$data"/plans/*.plan "$data"/microkit/*.plan; do
    [ -f "${plan%.plan}.mcs" ] || continue
    "$room/plain/tool" compile <"$plan" | cmp -s - "${plan%.plan}.mcs" && pass || fail "compile $plan: another script than the one beside it"
    count=$((count + 1))
done
echo "$count plans: compared with their scripts"
if [ -x "$MCSLAB" ]; then
    count=0
    for file in $(find "$data" tests/lab -name '*.mcs' | sort); do
        done_so check "$file"
        done_so explore "$file"
        shown_so "$file"
        count=$((count + 1))
    done
    for plan in $(find "$data" -name '*.plan' | sort); do
        done_so compile "$plan"
        told_so "$plan"
        count=$((count + 1))
    done
    echo "$count scripts and plans: compared with mcslab"
fi

if command -v cargo >/dev/null; then
    archive=$(readlink -f "$LIBMCS")
    (cd ports/rust && CARGO_TARGET_DIR=$room/rust LIBMCS=$archive LIBHEAP=$HEAP cargo test --offline --quiet) >"$room/rust.out" 2>&1 && pass || {
        cat "$room/rust.out"
        fail "the calls from Rust"
    }
else
    skip "the calls from Rust: there is no cargo"
fi

# Speed: the same script by both, in one run.
steps=${STEPS:-900000}
{
    printf 'cores 1\ncnode 1\ncnode 2\nendpoint\nreply\ncontext 0\ncontext 0\n'
    printf 'thread 10 255 c1 63 0 run s1\nthread 20 255 c2 62 0 run s2\nslot c1 1 e1 wp 42\nslot c2 1 e1 r 0\nslot c2 2 r1\n0 t2 recv 1 2\n'
    awk -v n="$steps" 'BEGIN { for (i = 0; i < n / 2; i++) print "0 t1 call 1 7 5 6\n0 t2 replyrecv 1 2 7 5" }'
} >"$room/long.mcs"
seconds() {
    python3 -c 'import os,subprocess,sys
subprocess.run(sys.argv[2:], stdin=open(sys.argv[1]), stdout=subprocess.DEVNULL, check=True)
t = os.times()
print(f"{t.children_user + t.children_system:.2f}")' "$@"
}
report() {
    [ -n "$2" ] && awk -v n="$steps" -v s="$2" -v what="$1" 'BEGIN { printf "%s: %d steps in %s s of a processor, %.0f steps a second\n", what, n, s, n / (s > 0 ? s : 0.01) }'
}
report "the library" "$(seconds "$room/long.mcs" "$room/plain/tool" replay)"
[ -x "$MCSSIM" ] && report "mcssim replay" "$(seconds "$room/long.mcs" "$MCSSIM" replay)"

summary
