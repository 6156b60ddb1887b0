#!/usr/bin/env bash
# build/omf.html: the page, from the proved programs: build.sh. They are proved and built before (make page does it). With UNPROVED=1 it is
# build/unproved/omf.html, from programs that are built without proofs.
set -euo pipefail
here=$(cd "$(dirname "$0")" && pwd)
build=$here/../build
how=proved
if [ "${UNPROVED:-}" = 1 ]; then
    build=$build/unproved
    how=unproved
fi
mkdir -p "$build/page"
for program in omf omf_dump omf_place omf_lib; do
    "$here/bitcode.sh" "$program" "$build/page/$program.bc"
    "$here/wasm.sh" "$build/page/$program.bc" "$build/page/$program.wasm"
done
"$here/build.py" "$build/page" "$(realpath --relative-to=. "$build/omf.html")" "$how"
