#!/usr/bin/env bash
# Writes dist/GATE, which the package has: gate.sh LOG, a log of `.ci/run` over the sources as they are.
set -euo pipefail
log=$(realpath "${1:?usage: gate.sh LOG}")
cd "$(dirname "$0")/.."
last=$(tail -n 1 "$log")
[[ $last =~ ^[0-9]+\ passed,\ 0\ failed && $last != *'not the gate'* ]] || { echo "the last line of $log is not of a run that passed: $last" >&2; exit 1; }
printf 'sources %s\n%s\n%s\n' "$(dist/sources.py)" "$(rt version | head -n 1)" "$last" > dist/GATE
cat dist/GATE
