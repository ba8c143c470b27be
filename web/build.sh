#!/bin/sh
# sh web/build.sh: writes web/playground.html, one file with the module in it. The module is made of
# the LLVM module that rattle makes of crates/mcs_c once it is proved, so that the libraries below it
# have to be there, as `rt lib` in crates/mcs_c or `rt ci` leaves them in crates/*/out.
#   KIT     the kit's folder, else the one that `rt` is in
#   LIBS    a folder with the libraries, as NAME.rlib, in place of crates/*/out
#   MODULE  a module that was made before: nothing is proved or compiled
#   KEEP    a file to which the module is copied
#   FLAGS   more flags of `rattle build`, as --incremental DIR
set -eu
cd "$(dirname "$0")"
here=$PWD
top=$(cd .. && pwd)
KIT=${KIT:-$(dirname "$(dirname "$(readlink -f "$(command -v rt)")")")}
room=$(mktemp -d)
trap 'rm -rf "$room"' EXIT

if [ -z "${MODULE:-}" ]; then
    if [ -z "${LIBS:-}" ]; then
        LIBS=$room/libs
        mkdir "$LIBS"
        for library in "$top"/crates/*/out/rlib/*.rlib; do
            ln -s "$library" "$LIBS/"
        done
    fi
    # a toolchain whose clang keeps the module that it is given, and compiles nothing: nobody needs
    # the static library
    mkdir -p "$room/tool/bin"
    for tool in "$KIT"/toolchain/bin/*; do
        ln -s "$tool" "$room/tool/bin/"
    done
    ln -s "$KIT/toolchain/lib" "$room/tool/lib"
    rm "$room/tool/bin/clang"
    cat >"$room/tool/bin/clang" <<END
#!/bin/sh
before=
for word in "\$@"; do
    case "\$word" in
    *.bc) cp "\$word" '$room/module.bc' ;;
    esac
    [ "\$before" != -o ] || : >"\$word"
    before=\$word
done
END
    chmod +x "$room/tool/bin/clang"

    libraries=
    for name in $(sed -n 's/^mcs_c staticlib: //p' "$top/crates.txt"); do
        libraries="$libraries --extern $name=$LIBS/$name.rlib"
    done
    (
        cd "$top/crates/mcs_c"
        "$KIT/bin/rattle" build --crate-name mcs_c src/lib.rt --crate-type staticlib \
            --extern "std=$KIT/rlibs/std.rlib" -L "dependency=$KIT/rlibs" $libraries -L "dependency=$LIBS" \
            --antt-project "$KIT/rattle/logic/antt-project.json" --logic-built "$KIT/logic_built" \
            --links mcs_c= ${FLAGS:-} --toolchain "$room/tool" -o "$room/libmcs_c.a"
    ) >"$room/build.log" 2>&1 || {
        cat "$room/build.log"
        exit 1
    }
    grep '^logic=' "$room/build.log"
    MODULE=$room/mcs_c.wasm
    CLANG=$KIT/toolchain/bin/clang sh to_wasm.sh "$room/module.bc" "$MODULE" \
        mcs_replay mcs_check mcs_compile mcs_why mcs_state mcs_draw mcs_search \
        mcs_check_plan mcs_why_plan mcs_draw_plan mcs_search_plan
fi
[ -z "${KEEP:-}" ] || cp "$MODULE" "$KEEP"
python3 page.py "$MODULE" "$here/playground.html"
wc -c "$MODULE" playground.html | head -2
