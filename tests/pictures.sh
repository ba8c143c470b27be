#!/bin/sh
# Draws each script of steps of the gallery and of examples/ with PROGRAM (a built mcslab): each SVG
# must be accepted by xmllint and become a PNG, each page is stepped through in Chromium, and two of
# them are looked at in several widths, light and dark (page.py). The pictures that are kept are
# written anew with --keep. Packages: libxml2-utils, librsvg2-bin, chromium, nodejs, python3.
#
#     tests/pictures.sh PROGRAM FOLDER [--keep]
set -eu
program=$1 folder=$2 keep=${3:-}
tests=$(dirname "$0")
data=$tests/../crates/mcs_test_examples/data/gallery
mkdir -p "$folder"
for script in "$data"/*.mcs "$tests"/../examples/*.mcs; do
    grep -q '^user ' "$script" && continue
    name=$(basename "$script" .mcs)
    "$program" draw "$script" > "$folder/$name.svg"
    xmllint --noout "$folder/$name.svg"
    rsvg-convert "$folder/$name.svg" -o "$folder/$name.png"
    "$program" draw --format mermaid "$script" > "$folder/$name.mmd"
    "$program" draw --format html "$script" > "$folder/$name.html"
    node --experimental-websocket "$tests/step-through.mjs" "$folder/$name.html"
done

# some lanes alone: lines that reach none of them have no row
"$program" draw --format html --threads files,reader "$data/passive-server.mcs" > "$folder/lanes.html"
node --experimental-websocket "$tests/step-through.mjs" "$folder/lanes.html"

# a page with four lanes, and one with fourteen
{
    printf '# Fourteen threads signal, one after the other.\ncores 1\ncnode 4\nnotification\n'
    seq 14 | sed 's/.*/context 0/'
    seq -f 'thread 10 255 c1 60 0 run s%g' 14
    printf 'slot c1 1 n1 w 1\n'
    seq -f '0 t%g signal 1' 14
} > "$folder/fourteen.mcs"
"$program" draw --format html "$folder/fourteen.mcs" > "$folder/fourteen.html"
python3 "$tests/page.py" "$folder/passive-server.html" "$folder/fourteen.html"

if [ "$keep" = --keep ]; then
    for kept in "$data"/*.svg "$data"/*.mmd "$data"/*.html "$tests"/../examples/*.svg; do
        cp "$folder/$(basename "$kept")" "$kept"
    done
    "$program" draw "$data/../explore/disk-log-end.mcs" > "$data/../explore/disk-log.svg"
fi
