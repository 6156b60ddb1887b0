#!/usr/bin/env bash
# Judges modules: judge.sh MODULE ..   OMF names the program, and LIMITS gives the arguments of `ulimit` for each run of it.
#
# A line for each: its status, its key, its name and its verdict, with tabs between. The key of an accepted module is the SHA-256
# of its canonical bytes: two modules have one key if they differ only in encoding. It is `-` if the module is refused.
# The status of the script is 3 where a module could not be judged (memory, reading, writing, a limit), so that it is tried again.
set -uo pipefail
omf=${OMF:-omf}
ended=0
limited() {
    [ -z "${LIMITS:-}" ] || ulimit $LIMITS
    exec "$omf" "$1"
}
for module in "$@"; do
    key=-
    verdict=$(limited check < "$module")
    status=$?
    if [ $status -eq 0 ]; then
        hash=$(limited canon < "$module" | sha256sum)
        status=$?
        [ $status -ne 0 ] || key=${hash%% *}
    fi
    [ $status -le 1 ] || ended=3
    printf '%d\t%s\t%s\t%s\n' $status "$key" "$module" "$verdict"
done
exit $ended
