#!/usr/bin/env bash
# What a run of run.sh found: summary.sh OUT   Modules that OUT/names has and OUT/results has not are still to come.
set -euo pipefail
results=${1:?usage: summary.sh OUT}/results
# A module that was judged again counts by its last line.
tac "$results" | awk -F '\t' -v names="$(wc -l < "$1/names")" '
    seen[$3]++ { next }
    { lines++ }
    $1 == 0 { accepted++; if ($2 != "-" && !keys[$2]++) distinct++; next }
    $1 == 1 { refused++; split($4, words, " "); reasons[words[2] " " words[3]]++; next }
    { unjudged++ }
    END {
        printf "%d accepted, %d refused, %d not judged\n", accepted, refused, unjudged
        if (names > lines) printf "%d still to come\n", names - lines
        if (distinct) printf "%d different keys\n", distinct
        for (reason in reasons) printf "%6d  refused %s\n", reasons[reason], reason | "sort -rn"
    }'
