#!/usr/bin/env bash
# Makes every call of the C library from C and C++: calls.sh [FOLDER]. LIBRARY has the archives (libomf.a), with spaces between them. The
# programs stay in FOLDER, if one is given.
#
# tables.c makes each call that hands out a table or an image; it is built by two C compilers and two of C++. calls.c goes through every
# other call and every status; it is built by gcc and by clang. Each refuses every allocation in turn. changes.c cuts and changes modules. A compiler
# that is missing is named and passed over.
set -uo pipefail
here=$(cd "$(dirname "$0")" && pwd)
read -ra libraries <<< "${LIBRARY:-libomf.a}"
if [ $# -gt 0 ]; then
    work=$1
else
    work=$(mktemp -d)
    trap 'rm -rf "$work"' EXIT
fi
failures=0

# tried SOURCE COMPILER WORD..: builds a source by a compiler with these words, and runs it.
tried() {
    local source=$1 compiler=$2 wrapped=(-Wl,--wrap=malloc,--wrap=realloc)
    shift 2
    [ "$source" != changes ] || wrapped=()
    if ! command -v "$compiler" > /dev/null; then
        echo "$compiler is missing: passed over"
        return
    fi
    "$compiler" "$@" -Wall -Wextra -Werror -O1 -g -I"$here/../../include" -c "$here/$source.c" -o "$work/$source.o" \
        && "$compiler" "$work/$source.o" "${wrapped[@]}" "${libraries[@]}" -o "$work/$source-$compiler" \
        && echo "$compiler: $("$work/$source-$compiler")" || {
        echo "$compiler: $source.c is not built, or a call answers otherwise"
        failures=1
    }
}

for compiler in gcc clang; do
    tried tables $compiler -std=c11
    tried calls $compiler -std=c11
    tried changes $compiler -std=c11
done
for compiler in g++ clang++; do
    tried tables $compiler -x c++
done
exit $failures
