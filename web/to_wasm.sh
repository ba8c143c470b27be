#!/bin/sh
# sh to_wasm.sh MODULE.bc OUT.wasm EXPORT..: compiles an LLVM module that rattle made for x86-64 as
# a module of WebAssembly with a memory of 64 bits. Both have pointers and numbers of the same sizes,
# so that only the layout and the target are named anew; that this keeps each text is tested
# (test.mjs), not proved.
#   CLANG   the clang of the kit ($KIT/toolchain/bin/clang)
#   LEVEL   how much clang optimises (3)
set -eu
here=$(cd "$(dirname "$0")" && pwd)
module=$1
out=$2
shift 2
room=$(mktemp -d)
trap 'rm -rf "$room"' EXIT

"$CLANG" --target=x86_64-unknown-linux-gnu -S -emit-llvm -x ir "$module" -Xclang -disable-llvm-passes -O3 -o "$room/x64.ll"
sed 's/^target datalayout = .*/target datalayout = "e-m:e-p:64:64-p10:8:8-p20:8:8-i64:64-i128:128-n32:64-S128-ni:1:10:20"/
s/^target triple = .*/target triple = "wasm64-unknown-unknown"/
s/ "probe-stack"="inline-asm"//; s/ "stack-probe-size"="[0-9]*"//; s/ "target-cpu"="[^"]*"//; s/ "tune-cpu"="[^"]*"//; s/ "target-features"="[^"]*"//' "$room/x64.ll" >"$room/wasm.ll"
flags="--target=wasm64-unknown-unknown -mbulk-memory -O${LEVEL:-3} -ffreestanding -fno-builtin"
"$CLANG" $flags -ffunction-sections -fdata-sections -c -x ir "$room/wasm.ll" -o "$room/module.o"
"$CLANG" $flags -std=c11 -Wall -Wextra -Wno-incompatible-library-redeclaration -c "$here/heap.c" -o "$room/heap.o"

exports=
for name in mcs_take mcs_give_back "$@"; do
    exports="$exports --export=$name"
done
# the toolchain's clang is each of its tools, by the name that it is called
ln -s "$CLANG" "$room/wasm-ld"
"$room/wasm-ld" -mwasm64 --no-entry --gc-sections --strip-all --stack-first -z stack-size=8388608 $exports \
    "$room/module.o" "$room/heap.o" -o "$out"
