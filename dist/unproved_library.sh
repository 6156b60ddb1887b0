#!/usr/bin/env bash
# build/unproved/libomf.a and libomf.so: the library for C, built without proofs, with run-time checks in their place. It is for a look: what is
# installed is proved.
#
# A program that makes each call is built by `rt try`, whose bitcode is kept (page/kit.sh). Its functions get names that C can call, and a shim
# in C has the calls of include/omf.h. SANITIZE=1 makes build/sanitized/libomf.a, with AddressSanitizer and counters for libFuzzer in all
# of it, and UndefinedBehaviorSanitizer in the shim; CC must be a clang then. LEVEL is the level of optimization (1).
set -euo pipefail
cd "$(dirname "$0")/.."
. page/kit.sh
to=build/unproved
work=$(mktemp -d)
trap 'rm -rf "$work"' EXIT
mkdir -p "$to/page" "$work/tree/crates/omf_calls/src"
kept=$PWD/$to/page/omf_calls.bc
clang=$(dirname "$(rt doc)")/toolchain/bin/clang

if ! [ -s "$kept" ] || [ -n "$(find crates crates.txt -newer "$kept" \( -name '*.rt' -o -name crates.txt \) -print -quit)" ]; then
    echo "building the library without its proofs: some minutes, once" >&2
    tar --exclude=out -cf - crates | tar -xf - -C "$work/tree"
    uses=$(sed -n 's/^omf_c staticlib: //p' crates.txt)
    sed 's/^omf_c staticlib:/omf_c:/' crates.txt > "$work/tree/crates.txt"
    echo "omf_calls: omf_c $uses" >> "$work/tree/crates.txt"
    dist/unproved_library.py calls > "$work/tree/crates/omf_calls/src/main.rt"
    keeping=$(kept_kit "$work" "$kept")
    rm -f "$kept"
    (cd "$work/tree/crates/omf_calls" && TMPDIR=$work "$keeping/bin/rt" try < /dev/null) > "$work/log" 2>&1 || true
    test -s "$kept" || { cat "$work/log" >&2; echo "the library was not built" >&2; exit 1; }
fi

# The calls become functions that are visible, the program's main goes.
dist/unproved_library.py names | sed -E 's|^(\S+) (\S+)$|s/^define internal (.*)@"\1"\\(/define \\1@\2(/; s/@"\1"\\(/@\2(/g|' > "$work/names"
"$clang" -w -x ir "$kept" -S -emit-llvm -o - -O0 -Xclang -disable-llvm-passes \
    | sed -E -f "$work/names" -e 's/^define i32 @main\(\)/define internal i32 @"no main"()/' > "$work/library.ll"
"$clang" -w "-O${LEVEL:-1}" -fPIC -ffunction-sections -fdata-sections ${SANITIZE:+-fsanitize=address -fsanitize-coverage=inline-8bit-counters,pc-table} -c -x ir "$work/library.ll" -o "$work/library.o"
dist/unproved_library.py shim > "$work/shim.c"
cc=${CC:-cc}
"$cc" -O1 -fPIC ${SANITIZE:+-fsanitize=address,undefined -fno-sanitize-recover=all} -Iinclude -c "$work/shim.c" -o "$work/shim.o"
[ -z "${SANITIZE:-}" ] || to=build/sanitized
mkdir -p "$to"
(cd "$work" && ar x "$(dirname "$(rt doc)")/c/liblibc_c.a")
rm -f "$to/libomf.a"
ar rcs "$to/libomf.a" "$work"/*.o
[ -n "${SANITIZE:-}" ] || "$cc" -shared -Wl,-soname,libomf.so -o "$to/libomf.so" "$work"/*.o
echo "$to/libomf.a$([ -n "${SANITIZE:-}" ] || echo " and $to/libomf.so"), built without proofs"
