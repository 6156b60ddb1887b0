#!/usr/bin/env bash
# Tries the C library: run.sh [FOLDER..]. LIBRARY names the archive (libomf.a), OMF the program (omf), OMF_DUMP the program omf-dump.
#
# calls.sh builds tables.c and calls.c by each compiler and runs them. Then calls.c of gcc and of clang checks, lists, makes canonical and
# relocates every module of examples/ and of the folders, and what it prints is compared with what the program prints. The
# same is done once under valgrind, and by the Python package over a shared library. The examples show.c and show.py are compared with
# `omf-dump --json` and `omf reloc`, on each module whose placement reaches; link.c and link.py with `omf-link bin` (OMF_LINK). A tool that is missing is
# named and passed over.
set -uo pipefail
here=$(cd "$(dirname "$0")" && pwd)
library=${LIBRARY:-libomf.a}
omf=${OMF:-omf}
command -v "$omf" > /dev/null || { echo "there is no program $omf: OMF names it"; exit 2; }
[ -f "$library" ] || { echo "there is no archive $library: LIBRARY names it"; exit 2; }
work=$(mktemp -d)
trap 'rm -rf "$work"' EXIT
failures=0

fail() {
    echo "$1"
    failures=$((failures + 1))
}

# The modules, under short names; each with a placement: its own, or else one that lays everything at 10000H.
count=0
while IFS= read -r -d '' module; do
    count=$((count + 1))
    copy=$work/m$(printf '%04d' "$count")
    cp "$module" "$copy"
    if [ -f "${module%.*}.place" ]; then
        cp "${module%.*}.place" "$copy.place"
    else
        "$omf" list < "$module" \
            | awk '$1 == "S" { print "S 10000 10000 1000" } $1 == "G" { print "G 10000 1000" } $1 == "E" { print "E 10100 10000 1000" }' > "$copy.place"
    fi
done < <(find "$here/../../examples" "$@" -type f \( -iname '*.obj' -o -iname '*.o' -o -iname '*.omf' -o -iname '*.t' \) -print0 | sort -z)
modules=("$work"/m[0-9][0-9][0-9][0-9])

# What the program prints of each.
jobs=(check list reloc)
if "$omf" canon < "$here/../../examples/first.omf" > /dev/null; then
    jobs+=(canon)
else
    echo "the program has no word canon: canonical bytes are not compared with it"
fi
for job in "${jobs[@]}"; do
    for module in "${modules[@]}"; do
        echo "== $module"
        if [ "$job" = reloc ]; then
            # What follows the module's end is no placement: the module alone is given to the program.
            size=$("$omf" check < "$module" | sed -n 's/^OK .* records, \(.*\) bytes$/\1/p')
            head -c "${size:-$(stat -c %s "$module")}" "$module" | cat - "$module.place" | "$omf" reloc
        else
            "$omf" "$job" < "$module"
        fi
    done > "$work/$job.wanted"
done

compare() { # compare NAME COMMAND..: what the command prints for each job is what the program prints
    local name=$1
    shift
    for job in "${jobs[@]}"; do
        "$@" "$job" "${modules[@]}" > "$work/$job.is" || fail "$name: $job fails"
        cmp -s "$work/$job.is" "$work/$job.wanted" || fail "$name: $job differs: $(diff -a "$work/$job.is" "$work/$job.wanted" | head -3)"
    done
}

LIBRARY=$library "$here/calls.sh" "$work" || fail "a call answers otherwise, or is not built"
version=$(cat "$here/../../VERSION")
grep -q "^#define OMF_VERSION \"$version\"$" "$here/../../include/omf.h" || fail "the header's version is not that of the file VERSION"

for compiler in gcc clang; do
    [ -x "$work/calls-$compiler" ] || continue
    compare "$compiler" "$work/calls-$compiler"
    echo "$compiler: ${jobs[*]} as the program, on $count modules"
done

if ! command -v valgrind > /dev/null; then
    echo "valgrind is missing: passed over"
elif [ -x "$work/calls-gcc" ]; then
    valgrind=(valgrind -q --error-exitcode=9 --leak-check=full)
    said=$("${valgrind[@]}" "$work/tables-gcc") || fail "valgrind finds an error in the tables"
    echo "valgrind: $said"
    said=$("${valgrind[@]}" "$work/calls-gcc") || fail "valgrind finds an error"
    echo "valgrind: $said"
    compare valgrind "${valgrind[@]}" "$work/calls-gcc"
    echo "valgrind: ${jobs[*]} as the program, on $count modules"
fi
if ! command -v python3 > /dev/null || ! command -v gcc > /dev/null; then
    echo "python3 or gcc is missing: passed over"
else
    gcc -shared -o "$work/libomf.so" -Wl,--whole-archive "$library" -Wl,--no-whole-archive || fail "no shared library is made"
    export LIBOMF=$work/libomf.so
    by_python() { # by_python JOB MODULE..: the Python package; each module's placement is in the file of its name with .place at its end
        python3 "$here/../../python/tests/as_program.py" "$@"
    }
    said=$(python3 -m unittest discover -s "$here/../../python/tests" 2>&1 | tail -1)
    [ "$said" = OK ] || fail "the tests of the Python package: $said"
    compare python by_python
    echo "python: ${jobs[*]} as the program, on $count modules"
    reached=()
    for module in "${modules[@]}"; do
        size=$("$omf" check < "$module" | sed -n 's/^OK .* records, \(.*\) bytes$/\1/p')
        if [ -n "$size" ] && head -c "$size" "$module" | cat - "$module.place" | "$omf" reloc > /dev/null 2>&1; then
            reached+=("$module")
        fi
    done
    if command -v "${OMF_DUMP:-omf-dump}" > /dev/null; then
        gcc -std=c11 -Wall -Wextra -Werror -I"$here/../../include" "$here/../../examples/c/show.c" "$library" -o "$work/show" || fail "show.c is not built"
        "$here/agree.py" "$work/show" "$omf" "${OMF_DUMP:-omf-dump}" "${reached[@]}" || fail "the examples differ from the programs"
    else
        echo "there is no omf-dump: the examples are passed over"
    fi
    if command -v "${OMF_LINK:-omf-link}" > /dev/null; then
        gcc -std=c11 -Wall -Wextra -Werror -I"$here/../../include" "$here/../../examples/c/link.c" "$library" -o "$work/link" || fail "link.c is not built"
        "$here/linked.py" "$work/link" "${OMF_LINK:-omf-link}" || fail "the linkers differ from omf-link"
        conformance=$here/../../conformance
        "$conformance/run.py" --cases "$conformance/programs" "omf-link=$conformance/adapters/program.py python3 $here/../../python/tests/as_linker.py {args} -o {exe} {files}" \
            || fail "omf_exe differs from the cases of conformance/programs"
    else
        echo "there is no omf-link: the linkers are passed over"
    fi
fi
exit $((failures > 0))
