#!/usr/bin/env bash
# Keeps the LLVM bitcode of a program that rattle hands to clang: bitcode.sh CRATE FILE.bc
#
# The crate is proved by `rt run` before; this build goes over the work that was kept. With UNPROVED=1 the program is built by `rt try` instead,
# without proofs and with run-time checks; a file that is newer than the sources is kept as it is.
set -euo pipefail
cd "$(dirname "$0")/.."
. page/kit.sh
crate=$1
kept=$(realpath -m "$2")
work=$(mktemp -d)
trap 'rm -rf "$work"' EXIT
mkdir -p "$(dirname "$kept")"
kit=$(dirname "$(rt doc)")

unproved() {
    if [ -s "$kept" ] && [ -z "$(find crates crates.txt -newer "$kept" \( -name '*.rt' -o -name crates.txt \) -print -quit)" ]; then return; fi
    echo "building $crate without its proofs: some minutes, once" >&2
    rm -f "$kept"
    (cd "crates/$crate" && TMPDIR=$work "$keeping/bin/rt" try < /dev/null) > "$work/log" 2>&1 || true
    test -s "$kept" || { cat "$work/log" >&2; exit 1; }
}

proved() {
    local words library folder
    words=(--crate-name "$crate" src/main.rt --extern "std=$kit/rlibs/std.rlib" -L "dependency=$kit/rlibs")
    for library in $(sed -n "s/^$crate: *//p" crates.txt); do
        if [ -d "crates/$library" ]; then
            words+=(--extern "$library=$PWD/crates/$library/out/rlib/$library.rlib")
        else
            words+=(--extern "$library=$kit/rlibs/$library.rlib")
        fi
    done
    for folder in "$PWD"/crates/*/out/rlib; do words+=(-L "dependency=$folder"); done
    words+=(--antt-project "$kit/rattle/logic/antt-project.json" --logic-built "$kit/logic_built" --jobs 2)
    words+=(--toolchain "$keeping/toolchain" --backend llvm --incremental out/incremental)
    rm -f "$kept"
    (cd "crates/$crate" && "$kit/bin/rattle" build "${words[@]}" -o "$work/program.o") > "$work/log" 2>&1 || { cat "$work/log" >&2; exit 1; }
    grep -q '^logic=proved' "$work/log" || { cat "$work/log" >&2; echo "$crate is not proved" >&2; exit 1; }
}

keeping=$(kept_kit "$work" "$kept")
if [ "${UNPROVED:-}" = 1 ]; then unproved; else proved; fi
test -s "$kept" || { echo "no bitcode of $crate was kept" >&2; exit 1; }
