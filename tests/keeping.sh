#!/bin/sh
# Tests what `mcslab explore` does with a folder of scripts, and that it stops by the clock.
#
#     sh tests/keeping.sh MCSLAB
set -eu
lab=$1
here=$(cd "$(dirname "$0")/.." && pwd)
folder=$(mktemp -d)
trap 'rm -rf "$folder"' EXIT
failed=0

# Fails with what was wanted where a status is another one.
wanted() {
    if [ "$2" -ne "$3" ]; then
        echo "keeping: $1: status $3, wanted $2"
        failed=1
    fi
}

# Runs a search, and prints its status; what it writes goes to out and err.
status_of() {
    status=0
    "$lab" explore "$@" >"$folder/out" 2>"$folder/err" || status=$?
    echo "$status"
}

# Fails where a command does.
holds() {
    if ! eval "$2"; then
        echo "keeping: $1"
        failed=1
    fi
}

deadlock=$here/examples/explore/dining.mcs
small=$here/examples/explore/dining-mended.mcs
kept=$folder/kept

wanted "a search that fails" 1 "$(status_of --scripts "$kept" "$deadlock")"
holds "no script was kept" "[ -f $kept/end1.mcs ]"
holds "a script does not say whose it is" "head -1 $kept/end1.mcs | grep -q '^# by mcslab explore$'"
before=$(ls "$kept" | wc -l)
echo mine >"$kept/notes.txt"
echo mine >"$kept/end99.mcs"
wanted "a smaller search" 0 "$(status_of --scripts "$kept" "$small")"
holds "scripts of the older search are left" "[ $(ls "$kept" | wc -l) -lt $((before + 2)) ]"
holds "a file of mine is gone" "[ -f $kept/notes.txt ] && grep -q mine $kept/end99.mcs"

echo mine >"$kept/end1.mcs"
wanted "a file in the way" 4 "$(status_of --scripts "$kept" "$small")"
holds "a file of mine was overwritten" "grep -q '^mine$' $kept/end1.mcs"
holds "the report is lost" "grep -q '^no deadlock' $folder/out"
holds "the file is not named" "grep -q 'end1.mcs is not a script of mcslab' $folder/err"
wanted "a file in the way, forced" 0 "$(status_of --scripts "$kept" --force "$small")"
holds "a file is not overwritten" "head -1 $kept/end1.mcs | grep -q '^# by mcslab explore$'"

# A script that may not be written ends the program by a signal: the report stands by then, of a
# plan, too.
for file in "$deadlock" "$here/examples/explore/disk-log.plan"; do
    # shellcheck disable=SC3045
    (ulimit -f 0 && "$lab" explore --scripts "$folder/full" "$file") 2>/dev/null | cat >"$folder/out" || true
    holds "the report of $file is lost with its scripts" "grep -q '^end 1: deadlock' $folder/out && tail -n 1 $folder/out | grep -q deadlock"
done

wanted "an empty folder name" 64 "$(status_of --scripts '' "$small")"
wanted "a folder below a file" 64 "$(status_of --scripts "$kept/notes.txt/below" "$small")"

# Numbers of messages are told apart, so this search has no end.
cat >"$folder/endless.mcs" <<'END'
cores 2
cnode 6
endpoint
reply
context 0
context 1
thread 20 255 c1 58 0 run s1
thread 20 255 c1 58 0 run s2
slot c1 1 e1 w 0
slot c1 3 e1 r 0
slot c1 4 r1
user t1 send 1 7
user t2 recv 3 4
#! again t1 1
#! again t2 1
#! never + took m4000000000 t2
END
began=$(date +%s)
wanted "a search that has no end" 3 "$(status_of --states 1000000000 --seconds 2 "$folder/endless.mcs")"
took=$(($(date +%s) - began))
holds "it took $took seconds" "[ $took -ge 2 ] && [ $took -le 6 ]"
holds "it does not say that the clock stopped it" "grep -q '^stopped by the clock at ' $folder/out"
wanted "a search in 40 MB" 3 "$(status_of --states 1000000000 --seconds 60 --memory 40 "$folder/endless.mcs")"
holds "it does not say that the limit stopped it" "grep -q '^stopped by the memory limit at ' $folder/out"
wanted "a limit that a search does not reach" 1 "$(status_of --memory 1000 "$small")"

[ "$failed" -eq 0 ] && echo "keeping: all as wanted"
exit "$failed"
