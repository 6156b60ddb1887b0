#!/usr/bin/env bash
# Measures the program on large modules: measure.sh [--instructions] [FOLDER]. OMF names the program (omf, if it is not set); OMF_BEFORE names an
# older one that is measured beside it. The modules are written to FOLDER, or to one that is removed again.
#
# It prints a table with a row for each module. Each number is processor time on one core, the least of RUNS runs (5), as a ratio to `sha256sum` of
# the same bytes in the same run, so that it depends little on the machine. The peak of memory is the program's own, in megabytes. Beside `check` are
# two programs without a proof: plain/check.rs, in plain Rust (where rustc is installed), and plain/fast.c, in C with AVX2 (where the machine has
# AVX2 and there is a C compiler). Both must print what `omf check` prints. Where rabin2 or objconv are installed, their times follow on standard
# error. With --instructions a second table has the instructions that these three take, counted by callgrind: minutes, but the same on any day.
set -euo pipefail
here=$(cd "$(dirname "$0")" && pwd)
omf=${OMF:-omf}
before=${OMF_BEFORE:-}
instructions=
if [ "${1:-}" = --instructions ]; then
    command -v valgrind > /dev/null || { echo "--instructions needs valgrind" >&2; exit 1; }
    instructions=1
    shift
fi
work=$(mktemp -d)
trap 'rm -rf "$work"' EXIT
folder=${1:-$work/modules}
mkdir -p "$folder"
cc -O1 -o "$work/launch" "$here/launch.c"
plain=
if command -v rustc > /dev/null; then
    plain=$work/plain
    rustc -O -o "$plain" "$here/plain/check.rs"
fi
fast=
if grep -q -w avx2 /proc/cpuinfo; then
    fast=$work/fast
    cc -std=gnu11 -O2 -fno-tree-slp-vectorize -mavx2 -o "$fast" "$here/plain/fast.c"
fi
python3 "$here/make_modules.py" "$folder"
OMF="$omf" OMF_BEFORE="$before" PLAIN="$plain" FAST="$fast" LAUNCH="$work/launch" RUNS="${RUNS:-5}" INSTRUCTIONS="$instructions" \
    python3 "$here/measure.py" "$folder"
