#!/bin/sh
# Tries the controls of edits, in must-fail/ and in wrong-bodies/: NAME.control.md stands beside
# NAME.edit, has the shape of that edit and keeps the meaning, so its crate must still be proved.
# That shows that the edit is refused for what it says, and not for how it is written. Each control
# is applied to a copy of the tree, over what earlier checks left in the folders out/. Give names of
# crates to try those alone.
set -eu
cd "$(dirname "$0")/.."
copy=$(mktemp -d)
trap 'rm -rf "$copy"' EXIT
cp -R crates crates.txt HANDLES "$copy"

# Applies a control to the crate of the copy: each text stands once in its file.
apply() {
    awk -v folder="$2/" '
        function replaced(   text, line, at) {
            while ((getline line <path) > 0) text = text line "\n"
            close(path)
            at = index(text, old)
            if (!at || index(substr(text, at + 1), old)) exit 1
            printf "%s%s%s", substr(text, 1, at - 1), new, substr(text, at + length(old)) >path
            close(path)
        }
        /^file: / { path = folder substr($0, 7) }
        /^old: / { old = substr($0, 6) }
        /^new: / { new = substr($0, 6); replaced() }
    ' "$1"
}

tried=0
refused=0
for control in crates/*/must-fail/*.control.md crates/*/wrong-bodies/*.control.md; do
    folder=${control%/*/*}
    crate=${folder#crates/}
    case " ${*:-$crate} " in *" $crate "*) ;; *) continue ;; esac
    name=$(basename "$control" .control.md)
    [ -f "${control%.control.md}.edit" ] || { echo "$control: there is no such edit"; exit 1; }
    apply "$control" "$copy/$folder" || { echo "$control: it cannot be applied"; exit 1; }
    tried=$((tried + 1))
    if (cd "$copy/$folder" && rt check) >"$copy/log" 2>&1; then
        echo "accepted: $crate/$name"
    else
        echo "REFUSED: $crate/$name"
        grep -E ': (no proof: |it is not proved )' "$copy/log" | head -3 || true
        refused=$((refused + 1))
    fi
    for part in "$folder/src" "$folder/specs"; do
        if [ -d "$part" ]; then cp -R "$part" "$copy/$folder/"; fi
    done
done
echo "$tried controls, $refused refused"
[ $refused -eq 0 ]
