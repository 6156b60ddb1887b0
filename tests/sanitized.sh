#!/usr/bin/env bash
# Runs the code, built without proofs, under AddressSanitizer, and what is in C also under UndefinedBehaviorSanitizer: sanitized.sh SECONDS [FOLDER..]
#
# The library for C: tests/c/tables.c and calls.c, which make each call and refuse each allocation in turn, the examples in C over examples/ and the
# folders, and the targets check, canon, reloc, members, link, program and shown of tests/fuzz, SECONDS of processor time each. CORPUS is the WORK
# of an earlier run of tests/fuzz/run.sh, whose inputs go first. The programs: each over the same files, and tests/fuzz/programs.py for SECONDS a target.
# Rattle's code has its own run-time checks of indices, divisions and overflows where UndefinedBehaviorSanitizer, which is for C, has none.
# The first run builds all: minutes. PART=library or programs runs this alone. A report is in build/sanitized/report.PID; the status is 0 where there is none.
set -uo pipefail
seconds=${1:?usage: sanitized.sh SECONDS [FOLDER..]}
shift
cd "$(dirname "$0")/.."
kit=$(dirname "$(rt doc)")
clang=${CLANG:-clang}
to=$PWD/build/sanitized
both=(-fsanitize=address,undefined -fno-sanitize-recover=all)
part=${PART:-library programs}
mkdir -p "$to"
rm -f "$to"/report.*
export ASAN_OPTIONS=exitcode=99:allocator_may_return_null=1:log_path=$to/report UBSAN_OPTIONS=print_stacktrace=1
failed=0

fail() {
    echo "FAILED: $1"
    failed=$((failed + 1))
}

files=()
while IFS= read -r -d '' file; do files+=("$file"); done < <(find examples "$@" -type f \( -iname '*.obj' -o -iname '*.o' -o -iname '*.omf' -o -iname '*.t' -o -iname '*.lib' \) -print0 | sort -z)

# quietly NAME COMMAND..: the status is neither the one of a report nor a signal.
quietly() {
    local name=$1 status=0
    shift
    "$@" > "$to/output" 2>&1 || status=$?
    [ $status -lt 99 ] || fail "$name: status $status: $(head -c 300 "$to/output")"
}

library() {
    SANITIZE=1 CC=$clang dist/unproved_library.sh || { fail "the library is not built"; return; }
    local one runs=0 size
    for one in tables calls; do
        "$clang" -std=c11 -O1 -g "${both[@]}" -Iinclude "tests/c/$one.c" -Wl,--wrap=malloc,--wrap=realloc "$to/libomf.a" -o "$to/$one" \
            && echo "library: $("$to/$one")" || fail "tests/c/$one.c"
    done
    for one in show list; do "$clang" -std=c11 -O1 -g "${both[@]}" -Iinclude "examples/c/$one.c" "$to/libomf.a" -o "$to/$one" || fail "examples/c/$one.c"; done
    for one in "${files[@]}"; do
        size=${one%.*}.place
        [ -f "$size" ] || size=examples/first.place
        # They leave their tables to the end of the process.
        ASAN_OPTIONS=$ASAN_OPTIONS:detect_leaks=0 quietly "list of $one" "$to/list" "$one"
        ASAN_OPTIONS=$ASAN_OPTIONS:detect_leaks=0 quietly "show of $one" "$to/show" "$one" "$size"
        runs=$((runs + 2))
    done
    echo "library: $runs runs of the examples in C"
    for one in check canon reloc members link program shown; do
        mkdir -p "$to/fuzz/$one"
        [ -z "${CORPUS:-}" ] || cp -rn "$CORPUS/$one/." "$to/fuzz/$one/" 2> /dev/null
    done
    UNPROVED=1 page/bitcode.sh omf_dump build/unproved/page/omf_dump.bc || fail "omf_dump is not built"
    SANITIZE=1 UNPROVED=1 LIBRARY=$to/libomf.a PROGRAM=build/unproved/page/omf_dump.bc WORK=$to/fuzz CLANG=$clang TIMEOUT=${TIMEOUT:-120} \
        tests/fuzz/run.sh "$seconds" check canon reloc members link program shown || fail "tests/fuzz/run.sh"
}

programs() {
    local one runs=0 name ASAN_OPTIONS=$ASAN_OPTIONS:detect_leaks=0 # a program ends with what it holds
    export ASAN_OPTIONS
    for one in omf omf_place omf_link omf_dump omf_lib omf_find; do
        UNPROVED=1 page/bitcode.sh $one build/unproved/page/$one.bc || { fail "$one is not built"; return; }
        [ "$to/$one" -nt build/unproved/page/$one.bc ] || {
            "$kit/toolchain/bin/clang" -w -O1 -fsanitize=address -c -x ir build/unproved/page/$one.bc -o "$to/$one.o" \
                && "$clang" "${both[@]}" "$to/$one.o" "$kit/c/libos_c.a" "$kit/c/liblibc_c.a" -o "$to/$one" || { fail "$one is not linked"; return; }
        }
        name=${one^^}
        export "$name=$to/$one"
    done
    for one in "${files[@]}"; do
        for name in check list canon reloc; do quietly "omf $name < $one" "$OMF" $name < "$one"; done
        quietly "omf-place $one" "$OMF_PLACE" "$one"
        quietly "omf-dump $one" "$OMF_DUMP" "$one"
        quietly "omf-dump --json $one" "$OMF_DUMP" --json "$one"
        quietly "omf-lib check $one" "$OMF_LIB" check "$one"
        quietly "omf-link exe $one" "$OMF_LINK" exe -o "$to/made" "$one"
        quietly "omf-link map $one" "$OMF_LINK" map "$one"
        quietly "omf-find $one" "$OMF_FIND" --base 0 "$one" "$one"
        runs=$((runs + 11))
    done
    echo "programs: $runs runs over ${#files[@]} files"
    [ "$seconds" = 0 ] || tests/fuzz/run.sh "$seconds" dump library exe com placement linktext find lower || fail "tests/fuzz/programs.py"
}

for one in $part; do $one; done
for one in "$to"/report.*; do [ ! -e "$one" ] || fail "$one: $(grep -m 1 ERROR "$one")"; done
echo "$failed failed under the sanitizers"
exit $((failed > 0))
