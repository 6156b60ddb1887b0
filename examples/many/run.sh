#!/usr/bin/env bash
# Judges every module below a folder over all cores: run.sh FOLDER OUT
#
# OUT/names has the modules, OUT/log a line for each batch of 50, OUT/results the lines of judge.sh. If it is stopped, the same
# command goes on with the batches that are not done, and with those in which a module could not be judged. A new OUT begins anew.
# OMF names the program, LIMITS the arguments of `ulimit` for each of its runs. HOSTS, a file of GNU parallel's `--sshloginfile`, names
# hosts that work too: each needs the program, this folder and the modules under the same paths. A batch that fails on one is tried on
# another, three times in all. Without GNU parallel (Debian's package parallel) xargs runs the batches, on this host alone and without OUT/log.
# The status is 0 if all were judged, 1 if some are still to come or could not be judged, and 2 if nothing was.
set -euo pipefail
here=$(cd "$(dirname "$0")" && pwd)
folder=${1:?usage: run.sh FOLDER OUT} out=${2:?usage: run.sh FOLDER OUT}
export OMF=${OMF:-omf} LIMITS=${LIMITS:-}
command -v "$OMF" > /dev/null || { echo "$OMF is not installed; OMF names the program" >&2; exit 2; }
mkdir -p "$out"
if [ ! -e "$out/names" ]; then
    find "$(realpath "$folder")" -type f \( -iname '*.obj' -o -iname '*.o' -o -iname '*.omf' -o -iname '*.t' \) | sort > "$out/new"
    mv "$out/new" "$out/names"
fi
touch "$out/results"

# left: the modules that have no line with a verdict yet.
left() {
    awk -F '\t' 'FILENAME == ARGV[1] { if ($1 <= 1) judged[$3] = 1; next } !($0 in judged)' "$out/results" "$out/names"
}

if command -v parallel > /dev/null; then
    hosts=()
    [ -z "${HOSTS:-}" ] || hosts=(--sshloginfile "$HOSTS" --retries 3 --env OMF --env LIMITS ${SSH:+--ssh "$SSH"})
    parallel "${hosts[@]}" --arg-file "$out/names" --max-args 50 --joblog "$out/log" --resume-failed \
        "$here/judge.sh" {} >> "$out/results" || echo "not every batch was done; the same command goes on"
elif [ -n "${HOSTS:-}" ]; then
    echo "HOSTS needs GNU parallel, which is not installed" >&2
    exit 2
else
    left > "$out/left"
    xargs -r -d '\n' -a "$out/left" -n 50 -P "$(nproc)" "$here/judge.sh" >> "$out/results" || echo "not every batch was done; the same command goes on"
fi
"$here/summary.sh" "$out"
[ -s "$out/results" ] || exit 2
[ -z "$(left)" ] || exit 1
