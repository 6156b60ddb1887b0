#!/usr/bin/env bash
# Runs the commands that pages show, and compares what they print: shown.sh [PAGE ..]   (docs/REASONS.md)
#
# A command is a line `$ ..` in a block ```console of the page; the lines after it, up to the next command or the end of the
# block, are what it must print. Bytes that the block shows before its first command must be in the file that the command reads.
# OMF, OMF_PLACE, OMF_LINK, OMF_DUMP, OMF_LIB and OMF_FIND name the programs (omf, omf-place, omf-link, omf-dump, omf-lib and omf-find, if not set), and LIBOMF
# the shared library (build/libomf.so). Where there is no omf, or OMF is empty, `rt try` runs it from its sources, without any proof; commands
# that need the system's own files or another program are then left out. So are commands whose tools are not installed, and those on files
# that are not part of the repository. Each of these is named in a line `not run: ..`; the last line shows how many they are. The status is 0 where
# some command was run, and each printed what is shown.
set -euo pipefail
cd "$(dirname "$0")/.."
omf=${OMF-omf}
library=$(realpath -m "${LIBOMF:-build/libomf.so}")
work=$(mktemp -d)
# A page compiles a program `show`.
made=$([ -e show ] || echo show)
trap 'rm -rf "$work" ${made:+"$made"}' EXIT
mkdir "$work/bin" "$work/cases"
[ $# -gt 0 ] || set -- docs/REASONS.md

# In $work: N.command and N.said for the N-th command, and N.bytes where bytes are shown before it.
awk -v work="$work" '
    /^```console$/ { inside = "console"; begins = 1; bytes = ""; next }
    /^```$/ { if (inside == "console" && number) { close(command); close(said) } inside = ""; next }
    inside == "console" && /^\$ / {
        number++; begins = 0; command = work "/" number ".command"; said = work "/" number ".said"
        print substr($0, 3) > command; printf "" > said
        if (bytes != "") { print bytes > (work "/" number ".bytes"); close(work "/" number ".bytes"); bytes = "" }
        next
    }
    inside == "console" && begins { line = $0; sub(/ *;.*/, "", line); if (line ~ /^([0-9A-F][0-9A-F] )*[0-9A-F][0-9A-F]$/) bytes = bytes line " "; next }
    inside == "console" && number { print > said }
' "$@"

# Whether a command names a tool that is not installed, what such a tool would have made, or files that are not part of the repository.
lacks_tool() {
    grep -q 'nasm\|/tmp/\(lamp\|far\)\.obj' <<< "$1" && ! command -v nasm > /dev/null && return
    grep -q 'parallel\|/tmp/exe-out\|/tmp/fields' <<< "$1" && ! command -v parallel > /dev/null && return
    grep -q 'omf-place' <<< "$1" && ! command -v omf-place > /dev/null && return
    grep -q 'omf-link\|examples/link/run\|examples/pair/run' <<< "$1" && ! command -v omf-link > /dev/null && return
    grep -q 'sqlite3' <<< "$1" && ! command -v sqlite3 > /dev/null && return
    grep -q 'omf-dump' <<< "$1" && ! command -v omf-dump > /dev/null && return
    grep -q 'omf-lib' <<< "$1" && ! command -v omf-lib > /dev/null && return
    grep -q 'omf-find\|examples/find/run' <<< "$1" && ! command -v omf-find > /dev/null && return
    grep -q '/srv/\|FOLDER\|< slow' <<< "$1" && return
    grep -q 'pkg-config\|\./show' <<< "$1" && ! pkg-config --exists omf 2> /dev/null && return
    grep -q 'build/libomf' <<< "$1" && ! [ -e "$library" ] && return
    grep -q '^xxd' <<< "$1" && ! command -v xxd > /dev/null
}

# link_program NAME GIVEN: the program that the pages call by this name.
link_program() {
    local found
    found=$(command -v "$2") && ln -sf "$(realpath "$found")" "$work/bin/$1"
}

# What `make install` puts under a PREFIX for C, of the library that LIBOMF names.
install_library() {
    mkdir -p "$work/include" "$work/lib/pkgconfig"
    cp include/omf.h "$work/include"
    ln -s "$library" "$work/lib/libomf.so"
    sed "s|@PREFIX@|$work|" include/omf.pc.in > "$work/lib/pkgconfig/omf.pc"
    export PKG_CONFIG_PATH=$work/lib/pkgconfig LD_LIBRARY_PATH=$work/lib
}

# leave_out: counts and names a command that is not run.
leave_out() {
    left_out=$((left_out + 1))
    echo "not run: $(cat "$work/$number.command")"
}

commands=$(find "$work" -maxdepth 1 -name '*.command' | wc -l)
failed=0 left_out=0
link_program omf-place "${OMF_PLACE:-omf-place}" || true
link_program omf-link "${OMF_LINK:-omf-link}" || true
link_program omf-dump "${OMF_DUMP:-omf-dump}" || true
link_program omf-lib "${OMF_LIB:-omf-lib}" || true
link_program omf-find "${OMF_FIND:-omf-find}" || true
[ -z "${LIBOMF:-}" ] || ! [ -e "$library" ] || install_library
if link_program omf "$omf"; then
    collects=no
else
    # A program that keeps its words and its input as a case for `rt try`.
    collects=yes
    printf '#!/bin/sh\ncat > "%s/cases/$CASE"; printf "%%s\\n" "$@" > "%s/cases/$CASE.args"\n' "$work" "$work" > "$work/bin/omf"
    chmod +x "$work/bin/omf"
fi
PATH=$work/bin:$PATH
# The examples' scripts find the programs on the path.
unset OMF OMF_PLACE OMF_LINK LINK

for number in $(seq "$commands"); do
    command=$(sed "s|build/libomf\\.so|$library|" "$work/$number.command")
    if [ -e "$work/$number.bytes" ]; then
        file=$(grep -o "examples/[^ ;|]*\.omf" <<< "$command" | head -1 || true)
        shown=$(tr -d '\n' < "$work/$number.bytes")
        if [ -z "$file" ] || [[ "$(od -A n -v -t x1 "$file" | tr -d '\n' | tr a-f A-F) " != *" $shown"* ]]; then
            echo "the bytes shown are not in $file: $shown"
            failed=$((failed + 1))
        fi
    fi
    if lacks_tool "$(cat "$work/$number.command")"; then
        leave_out
        continue
    elif [ $collects = no ]; then
        bash -c "$command" > "$work/got" 2>&1 || true
    elif grep -q '/dev/full\|< examples$\|check examples/\|omf-\|libomf\|\./list\|run\.sh' <<< "$command"; then
        leave_out
        continue
    elif grep -q omf <<< "$command" && ! grep -q '^cat [^|]*$' <<< "$command"; then
        CASE=$number bash -c "$command" > /dev/null
        cp "$work/$number.said" "$work/cases/$number.stdout"
        continue
    else
        bash -c "$command" > "$work/got" 2>&1 || true
    fi
    if head -n 1 "$work/got" | grep -q '^skipped: '; then
        leave_out
    elif ! cmp -s "$work/got" "$work/$number.said"; then
        echo "not as shown: $command"
        diff "$work/$number.said" "$work/got" || true
        failed=$((failed + 1))
    fi
done

if [ $collects = yes ]; then
    (cd crates/omf && rt try --cases "$work/cases") > "$work/tried" 2>&1 || { grep -v " output=expected " "$work/tried"; failed=$((failed + 1)); }
    echo "run by rt try"
fi
if [ "$commands" -eq $left_out ]; then
    echo "no command was run"
    failed=$((failed + 1))
fi
echo "$commands commands, $failed failed, $left_out left out"
exit $((failed > 0))
