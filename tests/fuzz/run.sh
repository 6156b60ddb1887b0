#!/usr/bin/env bash
# Fuzzes the library for C and the programs: run.sh SECONDS [TARGET..]. The targets are check, canon, reloc, members, link and program of the
# library (all six); shown, which is omf-dump as a function beside the library; and dump, library, exe, com, placement, linktext, find and lower of the
# programs, which tests/fuzz/programs.py runs: they need neither the library nor clang. SECONDS is for each target: of the clock for those of
# programs.py, and of processor time for the others, so that other work that goes first does not shorten a run.
#
# `rt lib` builds the library, and for shown `rt run` builds omf-dump, which takes a proof where there is none yet; on the way the bitcode that is handed
# to the kit's clang is kept, and compiled a second time with counters of what is reached. So what runs is the proved code, built by a way that the kit
# does not vouch for. libFuzzer changes inputs, keeps those that reach something new in WORK/TARGET (WORK is a new folder if it is not set), and
# stops where a promise does not hold, with that input in WORK. It needs a clang with libFuzzer: CLANG (clang).
# UNPROVED=1 builds both without a proof, with run-time checks, by `rt try`, and compiles them at -O1: for a look, or where proofs take the machine.
# SANITIZE=1, with UNPROVED=1 or the LIBRARY of tests/sanitized.sh, adds AddressSanitizer to this code, and to the targets, which are C, also UndefinedBehaviorSanitizer.
# LIBRARY names a library that is built already, as `make library` leaves it in crates/omf_c/out/libomf_c.a, or an object with its calls: it runs as it
# is, so that without counters libFuzzer goes by what its answers lead to in the targets alone. PROGRAM is bitcode of omf-dump, for shown.
# SEEDS is a folder of more modules to begin with (*.omf, *.obj, *.o), which are taken as they are.
# SEED is the seed of libFuzzer's random numbers. An input at which a promise does not hold is made smaller for SMALLER seconds (30).
# TIMEOUT is the seconds of the clock that one input may take (20); where other work goes first it must be longer.
# The status is 0 where every promise held.
set -euo pipefail
seconds=${1:?seconds for each target}
shift
root=$(cd "$(dirname "$0")/../.." && pwd)
clang=${CLANG:-clang}
work=${WORK:-$(mktemp -d)}
mkdir -p "$work"
work=$(cd "$work" && pwd)
failed=0
[ $# -gt 0 ] || set -- check canon reloc members link program
calls=()
for one in "$@"; do
    case $one in
    check | canon | reloc | members | link | program | shown) calls+=("$one") ;;
    dump | library | exe | com | placement | linktext | find | lower) "$root/tests/fuzz/programs.py" "$seconds" "$one" ${SEEDS:+--seeds "$SEEDS"} --keep "$work" || failed=1 ;;
    *)
        echo "no target $one" >&2
        exit 2
        ;;
    esac
done
[ ${#calls[@]} -gt 0 ] || exit $failed
kit=$(dirname "$(rt doc)")

# The kit as it is, but for a clang that keeps what it is given.
make_kit() {
    rm -rf "$work/kit"
    mkdir -p "$work/kit/bin" "$work/kit/toolchain/bin"
    ln -s "$kit"/* "$work/kit" 2> /dev/null || true
    ln -s "$kit"/bin/* "$work/kit/bin" 2> /dev/null || true
    rm "$work/kit/bin/rt" "$work/kit/bin/rtlib.py"
    cp "$kit/bin/rt" "$kit/bin/rtlib.py" "$work/kit/bin"
    ln -s "$kit/toolchain/lib" "$work/kit/toolchain/lib"
    ln -s "$kit"/toolchain/bin/* "$work/kit/toolchain/bin"
}

# The clang that keeps bitcode in a file: the largest, since a small one may be given before. It has the name in it, since `rt try` hands on no variables.
make_clang() {
    rm "$work/kit/toolchain/bin/clang"
    cat > "$work/kit/toolchain/bin/clang" << WRAPPER
#!/usr/bin/env bash
for word in "\$@"; do
    case "\$word" in *.bc) [ "\$(stat -c %s "\$word")" -lt "\$(stat -c %s "$1" 2> /dev/null || echo 0)" ] || cp "\$word" "$1" ;; esac
done
exec "$kit/toolchain/bin/clang" "\$@"
WRAPPER
    chmod +x "$work/kit/toolchain/bin/clang"
}

# keep FOLDER WORD..: the bitcode of the crate in that folder, which `rt WORD..` hands to clang, in WORK/CRATE.bc.
keep() {
    local folder=$1 crate=${1##*/}
    shift
    [ ! -f "$work/$crate.bc" ] || return 0
    [ -d "$work/kit" ] || make_kit
    make_clang "$work/$crate.bc"
    [ "$1" = try ] || rm -f "$folder/out/lib$crate.a" "$folder/out/$crate"
    (cd "$folder" && "$work/kit/bin/rt" "$@" < /dev/null) > "$work/$crate.log" 2>&1 || true
    [ -f "$work/$crate.bc" ] || {
        cat "$work/$crate.log"
        exit 1
    }
}

# The library as the program of its tests has it, in WORK/omf_c.ll: in a copy, where a further test has the calls that the others lack.
keep_unproved() {
    [ ! -f "$work/omf_c.ll" ] || return 0
    mkdir -p "$work/copy"
    tar -C "$root" --exclude=out -cf - crates crates.txt HANDLES | tar -C "$work/copy" -xf -
    "$root/tests/fuzz/exported.py" test >> "$work/copy/crates/omf_c/src/tests.rt"
    keep "$work/copy/crates/omf_c" try --test
    "$kit/toolchain/bin/clang" -w -S -emit-llvm -x ir "$work/omf_c.bc" -O0 -Xclang -disable-llvm-passes -o - | "$root/tests/fuzz/exported.py" names > "$work/omf_c.ll"
}

level=2
[ -z "${UNPROVED:-}" ] || level=1
[ -z "${SANITIZE:-}" ] || [ -n "${UNPROVED:-}${LIBRARY:-}" ] || { echo "SANITIZE needs UNPROVED=1: proved code is not marked for a sanitizer" >&2; exit 2; }
cover() { # cover BITCODE OBJECT: with counters of what is reached
    "$kit/toolchain/bin/clang" -w -c -x ir "$1" "-O$level" -fPIE -fsanitize-coverage=inline-8bit-counters,pc-table ${SANITIZE:+-fsanitize=address} -o "$2"
}

code=${LIBRARY:-$work/covered.o}
if [ -z "${LIBRARY:-}" ] && [ -n "${UNPROVED:-}" ]; then
    keep_unproved
    cover "$work/omf_c.ll" "$code"
elif [ -z "${LIBRARY:-}" ]; then
    keep "$root/crates/omf_c" lib --backend llvm
    cover "$work/omf_c.bc" "$code"
fi

# The first inputs: the examples and local.omf, which has every local record, each with its placement after it.
mkdir -p "$work/seeds"
for module in "$root"/examples/*.omf "$root"/examples/*/*.omf "$root"/tests/fuzz/*.omf; do
    name=$(basename "$(dirname "$module")")-$(basename "$module")
    cat "$module" > "$work/seeds/$name"
    if [ -f "${module%.*}.place" ]; then
        cat "${module%.*}.place" >> "$work/seeds/$name"
    fi
done

if [ -n "${SEEDS:-}" ]; then
    find "$SEEDS" -type f \( -iname '*.omf' -o -iname '*.obj' -o -iname '*.o' \) -size -5k | while read -r module; do
        cp "$module" "$work/seeds/more-$(sha256sum < "$module" | head -c 16)"
    done
fi

"$root/tests/fuzz/seeds.py" "$work/seeds-of" ${SEEDS:+"$SEEDS"}

# make_smaller TARGET: the newest input that failed, made smaller, in WORK/TARGET-small.
make_smaller() {
    local found
    found=$(find "$work" -maxdepth 1 -name "$1-crash-*" -printf '%T@ %p\n' | sort -n | tail -1 | cut -d' ' -f2-)
    [ -n "$found" ] || return 0
    "$work/fuzz-$1" -minimize_crash=1 -max_total_time="${SMALLER:-30}" -exact_artifact_path="$work/$1-small" "$found" > "$work/$1-small.log" 2>&1 || true
    [ ! -f "$work/$1-small" ] || echo "$1: seed ${SEED:-of the clock}: $found, smaller $work/$1-small ($(stat -c %s "$work/$1-small") bytes)"
}

for one in "${calls[@]}"; do
    with=("$code") wrapped=malloc,--wrap=realloc folders=("$work/$one" "$work/seeds")
    case $one in
    members | link | program) folders+=("$work/seeds-of/$one") ;;
    shown)
        if [ -z "${PROGRAM:-}" ] && [ -n "${UNPROVED:-}" ]; then
            keep "$root/crates/omf_dump" try
        elif [ -z "${PROGRAM:-}" ] && [ ! -f "$work/omf_dump.bc" ] && [ -d "$root/crates/omf_dump/out/incremental" ]; then
            "$root/page/bitcode.sh" omf_dump "$work/omf_dump.bc" # goes over the proof that is there, and leaves the program in its place
        elif [ -z "${PROGRAM:-}" ]; then
            keep "$root/crates/omf_dump" run --backend llvm
        fi
        cover "${PROGRAM:-$work/omf_dump.bc}" "$work/shown.o"
        (exec -a llvm-objcopy "$kit/toolchain/bin/clang" --redefine-sym main=omf_dump_main "$work/shown.o")
        with+=("$work/shown.o") wrapped+=,--wrap=read,--wrap=write,--wrap=rattle_arg
        folders+=("$work/seeds-of/members" "$work/seeds-of/program")
        ;;
    esac
    "$clang" -O1 -g -Wall -Wextra -I"$root/include" "-fsanitize=fuzzer${SANITIZE:+,address,undefined}" -fno-sanitize-recover=all "-Wl,--wrap=$wrapped" \
        "$root/tests/fuzz/$one.c" "$root/tests/fuzz/mutate.c" "${with[@]}" "$kit/c/libos_c.a" "$kit/c/liblibc_c.a" -o "$work/fuzz-$one"
    mkdir -p "$work/$one"
    if ! "$root/tests/fuzz/processor.py" "$seconds" "$work/fuzz-$one" -max_len=4096 -timeout="${TIMEOUT:-20}" -artifact_prefix="$work/$one-" \
        -print_final_stats=1 ${SEED:+"-seed=$SEED"} "${folders[@]}" > "$work/$one.log" 2>&1; then
        failed=1
        make_smaller "$one"
    fi
    grep -E 'not so|ERROR|SUMMARY|stat::number_of_executed_units|stat::processor_seconds' "$work/$one.log" | sed "s/^/$one: /" || true
    grep -oE 'cov: [0-9]+ ft: [0-9]+' "$work/$one.log" | tail -1 | sed "s/^/$one: /" || true
done
exit $failed
