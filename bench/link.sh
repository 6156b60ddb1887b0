#!/usr/bin/env bash
# Measures omf-link on the modules of a large program: link.sh [COUNT] (1,000 modules of 10 KB). OMF and OMF_LINK name the programs
# (omf and omf-link, if they are not set).
#
# Each number is processor time on one core in milliseconds, the least of RUNS runs (5), and the peak of memory in megabytes.
# `check` is the time of one `omf check` for each module, less that of as many for a module of a few bytes: what is left is checking,
# without starting a program so often. `image of files` reads each module from a file of its own; the others read all from the standard input.
# The last line has the goals: `image` in at most 2.5 times `check`, with a peak of at most the modules, their memory and 8 MB.
set -euo pipefail
here=$(cd "$(dirname "$0")" && pwd)
omf=${OMF:-omf}
link=${OMF_LINK:-omf-link}
count=${1:-1000}
work=$(mktemp -d)
trap 'rm -rf "$work"' EXIT
cc -O1 -o "$work/launch" "$here/launch.c"
python3 -B "$here/link_modules.py" "$work" "$count"
printf '\x80\x03\x00\x01A\x3B\x8A\x02\x00\x00\x74' >"$work/small.omf"

# least FILE COMMAND..: the least time of the runs with FILE as input, and the peak.
least() {
    local source=$1 run
    shift
    for ((run = 0; run < ${RUNS:-5}; run++)); do
        taskset -c 0 "$work/launch" "$@" <"$source" 2>&1 >/dev/null | tail -1
    done | sort -n | head -1 | awk '{ printf "%.1f %.1f\n", $1, $2 / 1024 }'
}

# checks FILE: as many runs of `omf check` over a module.
checks() {
    least /dev/null sh -c 'n=0; while [ $n -lt "$1" ]; do "$2" check <"$3"; n=$((n + 1)); done' sh "$count" "$omf" "$1"
}

"$link" draft --flat 8 <"$work/modules.omf" >"$work/text"
cat "$work/modules.omf" "$work/text" >"$work/both"
echo "$count modules, $(stat -c %s "$work/modules.omf") bytes, and $(stat -c %s "$work/text") bytes of text; ms and MB:"
sha=$(least "$work/modules.omf" sha256sum)
echo "sha256sum $sha"
one=$(checks "$work/one.omf")
small=$(checks "$work/small.omf")
check=$(echo "$one $small" | awk '{ printf "%.1f", $1 - $3 }')
echo "check $check"
# shown NAME FOUND: the line of a job.
shown() {
    echo "$1 $2: $(echo "$2 $check" | awk '{ printf "%.1f", $1 / $3 }') times check"
}

for job in 'draft --flat 8' map image; do
    # shellcheck disable=SC2086
    shown "${job%% *}" "$(least "$work/both" "$link" $job)"
done
files=()
for ((number = 0; number < count; number++)); do
    files+=("$work/files/$number.obj")
done
shown 'image of files' "$(least /dev/null "$link" image -t "$work/text" "${files[@]}")"
modules=$(stat -c %s "$work/modules.omf")
echo "goals of image: $(echo "$check" | awk '{ printf "%.1f", 2.5 * $1 }') ms, $(echo "$modules $count" | awk '{ printf "%.1f", ($1 + 8000 * $2) / 1048576 + 8 }') MB"
