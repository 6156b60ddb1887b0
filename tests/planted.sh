#!/usr/bin/env bash
# Tries the wrong bodies in tests/planted/CRATE/*.edit: the prover must refuse each. They have the form of crates/CRATE/must-fail/*.edit, but are
# not in the gate, since the edits of a crate cost one more proof of it. So run it after a change of one of these crates. It works on a copy of the
# repository; with names, it tries the edits of these crates alone.
#
#     tests/planted.sh [CRATE ..]
set -euo pipefail
cd "$(dirname "$0")/.."
room=$(mktemp -d)
trap 'rm -rf "$room"' EXIT
git ls-files -z crates crates.txt HANDLES tests/planted | tar --null -T - -cf - | tar -xf - -C "$room"
cd "$room"
rm -rf crates/*/must-fail
names=("$@")
[ ${#names[@]} -gt 0 ] || mapfile -t names < <(ls tests/planted)
for name in "${names[@]}"; do
    mkdir "crates/$name/must-fail"
    cp "tests/planted/$name"/*.edit "crates/$name/must-fail/"
done
git init -q .
rt must-fail "${names[@]}"
