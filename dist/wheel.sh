#!/usr/bin/env bash
# Packs the Python package and a shared library into a wheel in build/, with nothing but the standard library: wheel.sh LIBRARY. TO names another folder.
set -euo pipefail
cd "$(dirname "$0")/.."
library=$(realpath "${1:?usage: wheel.sh LIBRARY}")
work=$(mktemp -d)
trap 'rm -rf "$work"' EXIT
cp -r python/. "$work/"
cp "$library" "$work/omf/libomf.so"
to=$(realpath -m "${TO:-build}")
mkdir -p "$to"
cd "$work"
echo "${TO:-build}/$(PYTHONPATH=build_backend python3 -B -c 'import sys, wheel_of; print(wheel_of.build_wheel(sys.argv[1]))' "$to")"
