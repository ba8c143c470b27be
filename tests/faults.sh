#!/bin/sh
# Compares the messages of `mcslab` about faults, and its statuses, with tests/faults/table.txt:
# first those that crates/mcs_test_examples writes, whose stdout rt ci compares, and then those of
# the program itself, which does each call of the table on the files of examples/faults. Run it
# after rt ci, which leaves the program, or with another program: sh tests/faults.sh PROGRAM. With
# --stdout it does only the first, for which nothing has to be built.
set -eu
cd "$(dirname "$0")/.."
table=$PWD/tests/faults/table.txt
kept=$PWD/crates/mcs_test_examples/stdout

# Prints each call of the stdout that the table has not, or with another text or status.
awk '
    /^\$ mcslab / { call = $0; text = ""; next }
    call == "" { next }
    { text = text $0 "\n" }
    !/^status / { next }
    FILENAME == ARGV[1] { wanted[call] = text; calls++ }
    FILENAME != ARGV[1] && wanted[call] == text { told++ }
    FILENAME != ARGV[1] && wanted[call] != text { others++; print call; printf "%s", text }
    { call = "" }
    END {
        print "faults: " told + 0 " of " calls + 0 " calls in the stdout of mcs_test_examples"
        exit others > 0 || told == 0
    }
' "$table" "$kept" || { echo "faults.sh: another text than tests/faults/table.txt"; exit 1; }
[ "${1:-}" != --stdout ] || exit 0

program=${1:-$PWD/crates/mcslab/out/mcslab}
[ -x "$program" ] || { echo "faults.sh: run rt ci first, which leaves $program"; exit 1; }
made=$(mktemp)
trap 'rm -f "$made"' EXIT
cd crates/mcs_test_examples/data/faults

# Writes the table anew, by its calls and comments.
table() {
    while IFS= read -r line; do
        case $line in
        '$ mcslab '*) ;;
        '' | '#'*)
            echo "$line"
            continue
            ;;
        *) continue ;;
        esac
        echo "$line"
        status=0
        eval "\"\$program\" ${line#\$ mcslab }" </dev/null 2>&1 >/dev/null || status=$?
        echo "status $status"
    done <"$table"
}

table >"$made"
diff "$table" "$made" || { echo "faults.sh: another text than tests/faults/table.txt"; exit 1; }
echo "faults: $(grep -c '^\$' "$table") calls, each told as wanted"
