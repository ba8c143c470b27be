#!/bin/sh
# Refuses each allocation in turn, and each thread: crates/mcs_test_examples, with no file named,
# gives each call once more that memory was refused to, and writes the same traces; mcssim replay
# ends with status 6 and a beginning of the trace, or with status 0 and all of it, which is counted;
# mcssim run ends with status 6 or 7 and nothing written, or with status 0 and a trace that gives
# itself again; where a thread is refused it ends with status 7 and nothing written. Each does so
# for short messages and for messages of more than four words, which take memory of their own. Run
# it after `rt ci`, which leaves the programs in the folders out/; it proves and builds one that is
# not there. It needs a C compiler, for the library below.
set -eu
cd "$(dirname "$0")/.."
work=$(mktemp -d)
trap 'rm -rf "$work"' EXIT

# The allocator of the program under test: the allocation of the number in REFUSED is refused, and
# the file in COUNTED is made where it came to that; and so for the thread of the number in
# REFUSED_THREAD.
cat >"$work/refuse.c" <<'C'
#define _GNU_SOURCE
#include <dlfcn.h>
#include <errno.h>
#include <fcntl.h>
#include <pthread.h>
#include <stdlib.h>
#include <unistd.h>

static int is_counted(long *made, const char *wanted) {
    if (!wanted || __atomic_add_fetch(made, 1, __ATOMIC_SEQ_CST) != atol(wanted)) return 0;
    close(open(getenv("COUNTED"), O_CREAT | O_WRONLY, 0600));
    return 1;
}

static int is_refused(void) {
    static long made;
    return is_counted(&made, getenv("REFUSED"));
}

int pthread_create(pthread_t *thread, const pthread_attr_t *attr, void *(*run)(void *), void *with) {
    static int (*real)(pthread_t *, const pthread_attr_t *, void *(*)(void *), void *);
    static long made;
    if (!real) real = dlsym(RTLD_NEXT, "pthread_create");
    return is_counted(&made, getenv("REFUSED_THREAD")) ? EAGAIN : real(thread, attr, run, with);
}

void *malloc(size_t size) {
    static void *(*real)(size_t);
    if (!real) real = dlsym(RTLD_NEXT, "malloc");
    return is_refused() ? NULL : real(size);
}

void *realloc(void *block, size_t size) {
    static void *(*real)(void *, size_t);
    if (!real) real = dlsym(RTLD_NEXT, "realloc");
    return is_refused() ? NULL : real(block, size);
}
C
cc -shared -fPIC -o "$work/refuse.so" "$work/refuse.c"

# Proves and builds a program that is not there yet.
build() {
    [ -x "crates/$1/out/$1" ] && return
    (cd "crates/$1" && shift && rt run -- "$@") <crates/mcssim/stdin >"$work/built" 2>&1 || { cat "$work/built"; exit 1; }
}
build mcs_test_examples
build mcssim replay

# Runs a program on $input with the allocation (REFUSED) or the thread (REFUSED_THREAD) of this
# number refused: its output is in $work/out, its status in $status. It fails where the program made
# fewer of them.
refuse() {
    refuse_any REFUSED "$@"
}
refuse_any() {
    kind=$1
    number=$2
    shift 2
    rm -f "$work/counted"
    status=0
    env "$kind=$number" COUNTED=$work/counted LD_PRELOAD=$work/refuse.so "$@" >"$work/out" 2>"$work/err" <"$input" || status=$?
    [ -e "$work/counted" ]
}

# Tries mcs_test_examples on a script.
scripts() {
    input=$1
    number=1
    crates/mcs_test_examples/out/mcs_test_examples <"$input" >"$work/plain"
    while refuse $number crates/mcs_test_examples/out/mcs_test_examples; do
        cmp "$work/out" "$work/plain"
        number=$((number + 1))
    done
    echo "mcs_test_examples, $input: $((number - 1)) allocations, each refused in turn, and each call given again"
    [ $number -gt 1 ]
}

# Tries mcssim replay on a script.
replays() {
    input=$1
    survived=0
    number=1
    crates/mcssim/out/mcssim replay <"$input" >"$work/plain"
    while refuse $number crates/mcssim/out/mcssim replay; do
        # status 0 is taken with the whole trace alone, and counted: why the program can do without
        # is not known here
        [ $status -ne 0 ] || survived=$((survived + 1))
        [ $status -eq 0 ] || head -c "$(wc -c <"$work/out")" "$work/plain" >"$work/wanted"
        [ $status -ne 0 ] || cp "$work/plain" "$work/wanted"
        cmp "$work/wanted" "$work/out"
        [ $status -eq 0 ] || [ $status -eq 6 ] || { echo "allocation $number: status $status"; exit 1; }
        number=$((number + 1))
    done
    echo "mcssim replay, $input: $((number - 1)) allocations, each refused in turn; $survived left the whole trace with status 0, the others status 6"
    [ $number -gt 1 ]
}

# Tries mcssim run on a script of users, who enter seven times.
runs() {
    input=$1
    survived=0
    number=1
    while refuse $number crates/mcssim/out/mcssim run; do
        case $status in
        0)
            survived=$((survived + 1))
            [ "$(grep -c '^= ' "$work/out")" -eq 7 ]
            crates/mcssim/out/mcssim replay <"$work/out" | cmp - "$work/out"
            ;;
        6 | 7) [ ! -s "$work/out" ] ;;
        *) echo "allocation $number: status $status" && exit 1 ;;
        esac
        number=$((number + 1))
    done
    echo "mcssim run, $(basename "$input"): about $((number - 1)) allocations, each refused in turn; $survived left a whole trace with status 0, the others nothing"
    [ $number -gt 1 ]
}

# Tries mcssim run where the system gives one thread less.
threads() {
    input=$1
    number=1
    printf '%s\n' 'mcssim: run failed' 'mcssim: run failed: a host thread did not start' >"$work/wanted"
    while refuse_any REFUSED_THREAD $number crates/mcssim/out/mcssim run --explain; do
        [ $status -eq 7 ] || { echo "thread $number: status $status"; exit 1; }
        [ ! -s "$work/out" ]
        cmp "$work/wanted" "$work/err"
        number=$((number + 1))
    done
    echo "mcssim run, $(basename "$input"): $((number - 1)) threads, each refused in turn; nothing was written"
    [ $number -gt 1 ]
}

crates/mcssim/out/mcssim replay <crates/mcssim/stdin | cmp - crates/mcssim/stdout
sed '/^user .* \(call\|replyrecv\) /s/$/ 1 2 3 4 5 6 7/' examples/two-cores.mcs >"$work/long-users"
for script in crates/mcssim/stdin $(grep -L '^user ' examples/*.mcs); do
    scripts "$script"
    replays "$script"
done
runs examples/two-cores.mcs
runs "$work/long-users"
threads examples/two-cores.mcs
