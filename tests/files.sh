#!/bin/sh
# Has `mcssim replay` and `mcssim run` read a file, `-` and the standard input, and compares what
# they write, their exit statuses and what goes to standard error, with --explain and without. Run
# it after rt ci, which leaves the program, or with another one in $MCSSIM.
set -eu
cd "$(dirname "$0")/.."
program=${MCSSIM:-$PWD/crates/mcssim/out/mcssim}
[ -x "$program" ] || { echo "files.sh: run rt ci first, which leaves $program"; exit 1; }
work=$(mktemp -d)
trap 'rm -rf "$work"' EXIT
tried=0

# Fails with what was wanted.
fails() {
    echo "files.sh: $1"
    exit 1
}

# Compares a call with the status, the standard output and the standard error that are wanted: the
# last two are files.
ends() {
    wanted=$1 out=$2 told=$3 status=0
    shift 3
    "$program" "$@" >"$work/out" 2>"$work/told" || status=$?
    [ $status -eq "$wanted" ] || fails "$*: status $status, not $wanted"
    cmp -s "$work/out" "$out" || fails "$*: standard output is not $out"
    cmp -s "$work/told" "$told" || { cat "$work/told"; fails "$*: standard error is not $told"; }
    tried=$((tried + 1))
}

# Compares a call that is refused with its status, and with a text of standard error; it writes
# nothing.
refuses() {
    wanted=$1 text=$2 status=0
    shift 2
    "$program" "$@" >"$work/out" 2>"$work/told" || status=$?
    [ $status -eq "$wanted" ] || fails "$*: status $status, not $wanted"
    [ ! -s "$work/out" ] || fails "$*: something is written"
    grep -qF -e "$text" "$work/told" || { cat "$work/told"; fails "$*: no \"$text\""; }
    tried=$((tried + 1))
}

none=/dev/null
script=examples/first-run.mcs
users=examples/two-cores.mcs
printf 'cores 1\nendpiont\n' >"$work/-hyphen.mcs"
printf 'mcssim: line 2: fault 2\n' >"$work/fixed"
printf 'mcssim: line 2: fault 2\nmcssim: line 2: fault 2: no form fits\n' >"$work/explained"

# The same script writes the same trace however it is named.
"$program" replay <$script >"$work/trace"
[ -s "$work/trace" ] || fails 'no trace'
ends 0 "$work/trace" $none replay $script
ends 0 "$work/trace" $none replay -- $script
ends 0 "$work/trace" $none replay --explain $script
ends 0 "$work/trace" $none replay $script --explain
ends 0 "$work/trace" $none replay --explain <$script
ends 0 "$work/trace" $none replay - <$script
ends 0 "$work/trace" $none replay -- - <$script

# A file is read, and not the standard input.
ends 0 "$work/trace" $none replay $script <$users

# A run writes a log that replays as itself, of a file and of the standard input.
for call in "run $users" "run --cores 2 $users" "run $users --cores=2 --explain" 'run -' 'run --cores 2'; do
    # shellcheck disable=SC2086
    "$program" $call <$users >"$work/log" 2>"$work/told" || fails "$call: status $?"
    [ ! -s "$work/told" ] || fails "$call: standard error is not empty"
    ends 0 "$work/log" $none replay "$work/log"
done

# A fault is told in its fixed line, and in words behind it where that is asked for.
(
    cd "$work"
    status=0
    "$program" replay -- -hyphen.mcs >out 2>told || status=$?
    [ $status -eq 2 ] && [ ! -s out ] && cmp -s told fixed
) || fails 'replay -- -hyphen.mcs: not the fault of its line 2'
for command in replay run; do
    ends 2 $none "$work/fixed" $command "$work/-hyphen.mcs"
    ends 2 $none "$work/fixed" $command <"$work/-hyphen.mcs"
    ends 2 $none "$work/explained" $command --explain "$work/-hyphen.mcs"
    ends 2 $none "$work/explained" $command "$work/-hyphen.mcs" --explain
    ends 2 $none "$work/explained" $command --explain - <"$work/-hyphen.mcs"
done

# A file that can't be opened is told in the system's words, and nothing is written.
for command in replay run 'replay --explain'; do
    # shellcheck disable=SC2086
    {
        refuses 3 "mcssim: $work/none.mcs: No such file" $command "$work/none.mcs"
        refuses 3 "mcssim: $work: Is a directory" $command "$work"
        refuses 3 'mcssim: : No such file' $command ''
        refuses 3 'mcssim: read fault' $command <"$work"
    }
done
printf 'mcssim: read fault\nmcssim: read fault: the script could not be read to its end\n' >"$work/unread"
ends 3 $none "$work/unread" replay --explain <"$work"
refuses 3 'mcssim: a\nb: No such file' replay "$(printf 'a\nb')"
if [ "$(id -u)" -ne 0 ]; then
    : >"$work/closed.mcs"
    chmod 0 "$work/closed.mcs"
    refuses 3 'Permission denied' replay "$work/closed.mcs"
fi

# What is said twice, and what is no option, is refused.
refuses 1 "unexpected argument 'b.mcs' found" replay $script b.mcs
refuses 1 "unexpected argument '-' found" replay - - <$script
refuses 1 '--explain' replay --explain --explain $script
refuses 1 "unexpected argument '--cores' found" replay --cores 2 $script
"$program" replay --help | grep -q '\[FILE\]' || fails 'replay --help does not name [FILE]'
"$program" run --help | grep -q -e '--explain' || fails 'run --help does not name --explain'
echo "files: $tried calls end as wanted"
