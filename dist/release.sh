#!/usr/bin/env bash
# The release in dist/: release.sh make | compare. `make dist` made the package in build/ and the page before, from the proved programs.
#
# All of a release: `mkdir -p build; .ci/run | tee build/gate.log`, `dist/gate.sh build/gate.log`, `make dist`, `dist/release.sh make`, `make release`, and the commit
# of dist/ and README.md. A change of a source (dist/sources.py --list) after `make dist` needs it anew.
#
# make      copies both to dist/, and writes their SHA-256 and how to unpack them into README.md, in the place of its paragraph "Without the kit".
# compare   packs anew what `make build library page` left, and compares the bytes with those in dist/; names each file of the package that differs.
#           Where there is no release in dist/, nothing is compared.
set -euo pipefail
cd "$(dirname "$0")/.."
name=omf-$(cat VERSION)-x86_64-linux
tar=$name.tar.xz
programs=()
for it in omf omf_place omf_link omf_dump omf_lib omf_find; do
    variable=${it^^}
    programs+=("${it//_/-}=${!variable:-crates/$it/out/$it}")
done
page=${PAGE:-build/omf.html}

make_release() {
    grep -q 'The programs were proved before\.' "$page" || { echo "$page is not of proved programs" >&2; exit 1; }
    ! tar -xOf "build/$tar" "$name/GATE" | grep -q '^no run' || { echo "build/$tar names no run of the gate: dist/gate.sh LOG, make dist" >&2; exit 1; }
    cp "build/$tar" "$page" dist/
    (cd dist && sha256sum "$tar" omf.html) | sed 's|  |  dist/|' | dist/release.py "$name"
}

compare() {
    [ -f "dist/$tar" ] || { echo "skipped: there is no release in dist/"; exit 0; }
    work=$(mktemp -d)
    trap 'rm -rf "$work"' EXIT
    LIBRARIES=$(dirname "${LIBOMF:-build/libomf.so}") PAGE=$page TO=$work dist/pack.sh "${programs[@]}" > /dev/null
    if ! cmp "dist/$tar" "$work/$tar"; then
        mkdir "$work/release" "$work/anew"
        tar -C "$work/release" -xf "dist/$tar"
        tar -C "$work/anew" -xf "$work/$tar"
        (cd "$work" && diff -rq release anew) || true
        exit 1
    fi
    cmp dist/omf.html "$page"
    echo "2 files of dist/ are the same, made anew"
}

case ${1:-} in
make) make_release ;;
compare) compare ;;
*)
    echo "usage: release.sh make | compare" >&2
    exit 2
    ;;
esac
