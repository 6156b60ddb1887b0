#!/usr/bin/env bash
# A program's LLVM bitcode, as rattle hands it to clang for x86-64 -> WebAssembly with a 64-bit memory: wasm.sh PROGRAM.bc PROGRAM.wasm
#
# The module's target is rewritten, clang compiles it again, and host.c takes the place of the C library. The kit does not vouch for this way.
# A program that calls a function which host.c lacks is not linked. A program that is newer than all of these is kept.
set -euo pipefail
here=$(cd "$(dirname "$0")" && pwd)
clang=$(dirname "$(rt doc)")/toolchain/bin/clang
bitcode=$1
program=$2
if [ "$program" -nt "$bitcode" ] && [ "$program" -nt "$here/host.c" ] && [ "$program" -nt "$here/wasm.sh" ]; then exit; fi
work=$(mktemp -d)
trap 'rm -rf "$work"' EXIT
ln -s "$clang" "$work/wasm-ld"
target=(--target=wasm64-unknown-unknown -mbulk-memory)

"$clang" -w -x ir "$bitcode" -S -emit-llvm -o "$work/native.ll" -O0 -Xclang -disable-llvm-passes
layout=$(echo 'int f;' | "$clang" "${target[@]}" -x c - -S -emit-llvm -o - | grep '^target datalayout')
sed -e "s/^target datalayout.*/${layout//\//\\/}/" -e 's/^target triple.*/target triple = "wasm64-unknown-unknown"/' \
    -e 's/^define i32 @main()/define i32 @page_main()/' \
    -e 's/"target-cpu"="[^"]*"//; s/"target-features"="[^"]*"//; s/"probe-stack"="[^"]*"//; s/"stack-probe-size"="[^"]*"//' \
    "$work/native.ll" > "$work/wasm.ll"
grep -q '^define i32 @page_main()' "$work/wasm.ll" || { echo "$bitcode has no main" >&2; exit 1; }
"$clang" "${target[@]}" -O2 -w -ffunction-sections -fdata-sections -c -x ir "$work/wasm.ll" -o "$work/program.o"
"$clang" "${target[@]}" -O2 -Wall -ffreestanding -nostdlib -c "$here/host.c" -o "$work/host.o"
exports=()
for name in page_main page_take page_argument page_input page_output page_output_size page_output_most; do exports+=("--export=$name"); done
"$work/wasm-ld" -mwasm64 --no-entry --stack-first -z stack-size=4194304 --gc-sections --strip-all "${exports[@]}" \
    -o "$program" "$work/program.o" "$work/host.o"
