#!/bin/sh
# Compares what `mcslab` tells of each script of tests/lab with what stands beside it, and has
# Debian's `prove` read the verdicts on examples/. Run it after rt ci, which leaves the program, or
# with another program: sh tests/lab.sh PROGRAM
set -eu
cd "$(dirname "$0")/.."
program=${1:-crates/mcslab/out/mcslab}
[ -x "$program" ] || { echo "lab.sh: run rt ci first, which leaves $program"; exit 1; }
tried=0
for wanted in tests/lab/*.check tests/lab/*.why tests/lab/*.json tests/lab/*.json-* tests/lab/*.state tests/lab/*.state-*; do
    # .state-json is what `state --json` tells, and with -strings behind it with --json-strings, too
    kind=${wanted##*.}
    command=$(echo "${kind%-strings}" | sed 's/-/ --/')
    [ "$kind" = "${kind%-strings}" ] || command="$command --json-strings"
    # shellcheck disable=SC2086
    "$program" $command "${wanted%.*}.mcs" 2>&1 | cmp - "$wanted" || { echo "lab.sh: $wanted"; exit 1; }
    tried=$((tried + 1))
done
echo "tests/lab: $tried texts, each as wanted"
if command -v prove >/dev/null; then
    grep -L '^user ' examples/*.mcs | xargs prove -e "$program check"
else
    echo "lab.sh: no prove here, which comes with perl"
fi
