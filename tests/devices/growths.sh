#!/usr/bin/env bash
# Refuses exactly one growth, each in turn, until a run meets none: of the tests that hold whichever growth is refused, and of the programs. Of `omf` it then
# refuses that growth and all after it.
#
# usage: tests/devices/growths.sh [--all]
#   It takes the programs that `rt ci` or `rt test` left in the crates: those of the tests, omf, omf-link, omf-place, omf-dump, omf-lib and
#   omf-find. OMF, OMF_LINK, OMF_PLACE, OMF_DUMP, OMF_LIB and OMF_FIND name other ones. What is not there is skipped, or with --all is a failure.
#
# It needs a C compiler; without one it tries nothing. After LIMIT seconds (120) it begins no other run, and prints what was not tried.
# Its status is 0 where every run passed, and some growth was refused.
set -uo pipefail
root=$(cd "$(dirname "$0")/../.." && pwd)
needed=${1:-}
limit=${LIMIT:-120}
omf=${OMF:-$root/crates/omf/out/omf}
link=${OMF_LINK:-$root/crates/omf_link/out/omf_link}
place=${OMF_PLACE:-$root/crates/omf_place/out/omf_place}
dump=${OMF_DUMP:-$root/crates/omf_dump/out/omf_dump}
lib=${OMF_LIB:-$root/crates/omf_lib/out/omf_lib}
find=${OMF_FIND:-$root/crates/omf_find/out/omf_find}
work=$(mktemp -d)
trap 'rm -rf "$work"' EXIT
failed=0 running=()

if ! command -v cc > /dev/null; then
    echo "growths: skipped, there is no C compiler"
    exit 0
fi
cc -O1 -shared -fPIC -o "$work/refuse_growth.so" "$root/tests/devices/refuse_growth.c" || exit 1

# fails TEXT: prints what failed.
fails() {
    echo "FAILED: $1"
    failed=1
}

# skips TEXT: prints what is not there.
skips() {
    if [ "$needed" = --all ]; then
        fails "$1: it is not there"
    else
        echo "skipped: $1"
    fi
}

# counts NAME NUMBER: prints how many growths were refused, and keeps the number.
counts() {
    echo "$1: $2 growths"
    echo "$2" >> "$work/counts"
}

# refusing NUMBER COMMAND..: runs it with that growth refused. Its output is in the file out, its status in status; it is false where no
# growth had that number.
refusing() {
    local number=$1 said=
    shift
    LD_PRELOAD=$work/refuse_growth.so REFUSE_GROWTH=$number "$@" > "$here/out" 2> "$here/err"
    status=$?
    read -r -d '' said < "$here/err"
    [[ $said == *'growth refused'* ]]
}

# apart COMMAND..: runs a function below beside the others, in a folder of its own.
apart() {
    (
        here=$(mktemp -d "$work/XXXXXX")
        "$@"
        exit $failed
    ) &
    running+=($!)
}

# is_late NAME NUMBER: whether the time is over.
is_late() {
    ((SECONDS >= limit)) && echo "$1: not tried from growth $2 on, $limit seconds are over"
}

# names_memory: whether the last line on standard error names memory as the fault.
names_memory() {
    local line last=
    while read -r line; do
        [ "$line" = 'growth refused' ] || last=$line
    done < "$here/err"
    [[ $last == omf-*' memory' ]]
}

# is_memory: whether a run ended for lack of memory. omf prints that on its output, the others on standard error, or with --json as an object. omf-dump,
# omf-lib and omf-find may have written a beginning of their text before that; the other programs have written nothing, or all.
is_memory() {
    local text= size
    [ $status -eq 3 ] || return
    read -r -d '' text < "$here/out"
    [ "$text" = memory ] && return
    size=$(stat -c %s "$here/out")
    if ! names_memory; then
        text=${text##*$'\n'}
        case $text in
        '{"fault":"memory"}' | '{"fault":"read","name":"'*'","error":"out of memory"}') size=$((size - ${#text} - 1)) ;;
        *) return 1 ;;
        esac
    fi
    ((size == 0)) && return
    [ -n "$in_pieces" ] || cmp -s "$here/out" "$here/wanted" || return
    cmp -s -n $size "$here/out" "$here/wanted"
}

# refuse_each_of_run STATUS INPUT PROGRAM ARGUMENT..: a run is as without a refusal, or it names memory as the fault and ends with the status 3.
refuse_each_of_run() {
    local wanted=$1 input=$2 program=$3 name number status in_pieces
    shift 3
    name="$(basename "$program") $* of $(basename "$input")${REFUSE_ALL:+, and all after it}"
    if [ ! -x "$program" ]; then
        skips "$name"
        return
    fi
    case $program in "$dump" | "$lib" | "$find") in_pieces=yes ;; *) in_pieces= ;; esac
    "$program" "$@" < "$input" > "$here/wanted"
    status=$?
    [ $status -eq "$wanted" ] || fails "$name ends with $status"
    for ((number = 1; ; number++)); do
        is_late "$name" $number && return
        refusing $number "$program" "$@" < "$input" || break
        is_memory && continue
        [ $status -eq "$wanted" ] && cmp -s "$here/out" "$here/wanted" && continue
        fails "$name, growth $number: status $status"
        cat "$here/out" "$here/err"
    done
    cmp -s "$here/out" "$here/wanted" || fails "$name: the run that meets no refusal"
    counts "$name" $((number - 1))
}

# refuse_all_from_each_of_run STATUS INPUT PROGRAM ARGUMENT..: the same for a run of which a growth and all that come after it are refused.
refuse_all_from_each_of_run() {
    local -x REFUSE_ALL=yes
    refuse_each_of_run "$@"
}

# has_whole_members COUNT: whether the folder `taken` has that many files or fewer, each a member byte for byte.
has_whole_members() {
    local file count=0
    for file in "$here/taken"/*; do
        [ -f "$file" ] || continue
        count=$((count + 1))
        cmp -s "$file" "$here/members/${file##*/}" || return 1
    done
    [ $count -le "$1" ]
}

# refuse_each_of_get INPUT: omf-lib takes out all members, as without a refusal, or it names memory as the fault and ends with the status 3. What it wrote
# until then are whole members.
refuse_each_of_get() {
    local input=$1 number status count in_pieces=yes
    if [ ! -x "$lib" ]; then
        skips "$(basename "$lib") get of $(basename "$input")"
        return
    fi
    mkdir "$here/members"
    "$lib" get - -d "$here/members" < "$input" > "$here/wanted" || fails "omf_lib get"
    count=$(find "$here/members" -type f | wc -l)
    for ((number = 1; ; number++)); do
        is_late "omf_lib get" $number && return
        rm -rf "$here/taken"
        mkdir "$here/taken"
        refusing $number "$lib" get - -d "$here/taken" < "$input" || break
        has_whole_members "$count" || fails "omf_lib get, growth $number: what it wrote"
        is_memory && continue
        [ $status -eq 0 ] && cmp -s "$here/out" "$here/wanted" && diff -r "$here/members" "$here/taken" > "$here/different" && continue
        fails "omf_lib get, growth $number: status $status"
        cat "$here/out" "$here/err"
    done
    diff -r "$here/members" "$here/taken" > "$here/different" || fails "omf_lib get: the run that meets no refusal"
    counts "omf_lib get of $(basename "$input")" $((number - 1))
}

# are_whole: whether each file of the folder `made` is the one of the folder `whole`.
are_whole() {
    local file
    for file in made/*; do
        [ ! -e "$file" ] || cmp -s "$file" "whole/${file##*/}" || return 1
    done
}

# refuse_each_of_made PROGRAM ARGUMENT..: a run that writes files into the folder `made` writes them as without a refusal, or it names
# memory as the fault and ends with the status 3; a file that is there then is whole.
refuse_each_of_made() {
    local program=$1 name number status
    shift
    name="$(basename "$program") $1 ${*: -1}"
    if [ ! -x "$program" ]; then
        skips "$name"
        return
    fi
    cd "$here" && mkdir made && "$program" "$@" > wanted || fails "$name"
    mv made whole
    for ((number = 1; ; number++)); do
        is_late "$name" $number && return
        rm -rf made
        mkdir made
        refusing $number "$program" "$@" || break
        if [ $status -eq 3 ] && names_memory && are_whole; then continue; fi
        [ $status -eq 0 ] && cmp -s out wanted && diff -r whole made > different && continue
        fails "$name, growth $number: status $status, $(ls made)"
        cat out err
    done
    diff -r whole made > different || fails "$name: the run that meets no refusal"
    counts "$name" $((number - 1))
}

# input NAME HEX TEXT: a module, written in hexadecimal, and the text after it.
input() {
    [ ! -e "$work/$1" ] || fails "two inputs have the name $1"
    printf "$(printf '%s' "$2" | tr -d ' \n' | sed 's/../\\x&/g')" > "$work/$1"
    printf '%s' "$3" >> "$work/$1"
}

header='80 03 00 01 41 3B' names='96 04 00 00 01 54 11' segment='98 07 00 28 04 00 02 01 01 31'
data='A0 08 00 01 00 00 B8 00 00 90 0F' fixup='9C 06 00 C4 01 04 01 01 93' end='8A 02 00 00 74'
placed='S 10020 10000 1000'
input offset "$header $names $segment $data $fixup $end" "$placed"
input threads "$header $names $segment 98 07 00 28 02 00 02 01 01 33 A0 08 00 01 00 00 00 00 00 00 57
    9C 09 00 50 00 01 C4 00 8C 00 02 B8 9C 04 00 C4 02 8C 0E A0 06 00 02 00 00 00 00 58 9C 04 00 C4 00 8C 10 $end" "$(
    printf 'S 20 10 1\nS 50 40 4')"
input jump "$header $names $segment 8C 04 00 01 58 00 17 A0 08 00 01 00 00 EB 00 00 90 DC
    9C 06 00 80 01 06 01 01 D5 $end" "$(printf '%s\nE 100A1 10000 1000' "$placed")"
input flat "$header 96 09 00 00 01 54 04 46 4C 41 54 E1 99 09 00 A9 0A 00 00 00 02 01 01 A7 9A 02 00 03 61
    A1 10 00 01 00 00 00 00 00 00 00 00 00 00 00 00 00 00 4E 9D 0F 00 EC 00 14 01 01 E4 06 10 01 01 04 00 00 00 52 $end" "$(
    printf 'S 401000 0 1B\nG 0 23')"
input repeats "$header $names 98 07 00 28 0C 00 02 01 01 29
    A2 15 00 01 00 00 03 00 02 00 02 00 00 00 01 AA 01 00 00 00 02 BB CC 0C $end" "$placed"
input start "$header $names $segment 9A 04 00 02 FF 01 60 9C 03 00 46 01 1A 8A 06 00 C1 A0 01 02 00 0C" "$(
    printf 'S 10020 real\nG real')"

group='9A 04 00 02 FF 01 60' external='8C 04 00 01 58 00 17' public='90 08 00 00 01 01 58 02 00 00 0C'
input call "$header $names $segment A0 08 00 01 00 00 E8 00 00 90 DF 9C 06 00 84 01 04 01 01 D3 $end" "$placed"
input framed "$header $names $segment $group 9C 03 00 46 01 1A 8A 06 00 C1 A0 01 02 00 0C" "$(printf '%s\nG 10010 1001' "$placed")"
input long "$header $names $segment A0 09 00 80 01 00 00 B8 00 00 90 8E $fixup $end" "$placed"
input local "$header CA 03 00 01 55 DD 98 07 00 28 04 00 01 00 00 34 B4 04 00 01 58 00 EF B5 04 00 01 59 00 ED
    B8 08 00 01 5A 00 62 81 80 00 82 B6 08 00 00 01 01 50 02 00 00 EE B7 0A 00 00 01 01 51 02 00 00 00 00 EA
    A0 08 00 01 00 00 EB 00 00 90 DC 9C 06 00 80 01 06 01 01 D5 $end" "$(printf '%s\nE 100A1 10000 1000\nE 0 0 0\nE 0 0 0' "$placed")"

# refuse_each_on MODULE: the programs on a module.
refuse_each_on() {
    local job
    for job in check list canon reloc; do
        refuse_each_of_run 0 "$1" "$omf" $job
        refuse_all_from_each_of_run 0 "$1" "$omf" $job
    done
    refuse_each_of_run 0 "$1" "$place" --real
    refuse_each_of_run 0 "$1" "$dump"
    refuse_each_of_run 0 "$1" "$dump" --json
}

for module in offset threads jump flat repeats start call framed long local; do
    apart refuse_each_on "$work/$module"
done
input empty '' ''
input no_line "$header $names $segment $data $fixup $end" 'T 1'
input missing "$header $names $segment $data $fixup $end" ''
apart refuse_each_of_run 1 "$work/empty" "$omf" check
apart refuse_each_of_run 1 "$work/empty" "$dump"
apart refuse_each_of_run 1 "$work/no_line" "$omf" reloc
apart refuse_each_of_run 1 "$work/missing" "$omf" reloc
(cd "$root/examples/link" && cat start.obj say.obj mark.obj program.link) > "$work/program"
for task in image map draft; do
    apart refuse_each_of_run 0 "$work/program" "$link" $task
done

# Two modules, of which the first has the offset of an external that the second defines; the same by the names of their segments and groups.
input pair "$header $names $segment $external $data 9C 05 00 C4 01 56 01 43 $end $header $names $segment $public $end" "$(
    printf 'M #1\nS #1 10020 10000 1000\nM #2\nS #1 10040 10000 1000\n')"
input named "$header $names $segment $group $external $data 9C 05 00 C4 01 56 01 43 $end $header $names $segment $group $public $end" "$(
    printf 'P "T" 10020 10000 1000 at 20000\nF "T" 10000 1000\n')"
for module in pair named; do
    for task in image map draft; do
        apart refuse_each_of_run 0 "$work/$module" "$link" $task
    done
done

# A module M with a group, two externals and a communal; a module N with local externals, and publics of their names.
letters='96 08 00 00 01 41 01 42 01 43 00'
input unlinked "80 03 00 01 4D 00 $letters 98 07 00 28 05 00 02 02 01 00 9A 04 00 03 FF 01 00 8C 07 00 01 58 00 01 59 00 00
    B0 06 00 01 5A 00 62 07 00 $end 80 03 00 01 4E 00 $letters 98 07 00 28 04 00 02 02 01 00 B4 07 00 01 58 00 01 59 00 00
    90 08 00 00 01 01 58 00 00 00 00 B6 08 00 00 01 01 59 00 00 00 00 $end" ''
apart refuse_each_of_run 0 "$work/unlinked" "$link" draft --base 401000 --flat 8

for task in list check; do
    apart refuse_each_of_run 0 "$root/examples/library/small.lib" "$lib" $task -
    apart refuse_each_of_run 1 "$root/crates/omf_lib/data/refused.lib" "$lib" $task -
done
apart refuse_each_of_run 1 "$root/crates/omf_lib/data/no-entry.lib" "$lib" check -
apart refuse_each_of_get "$root/examples/library/small.lib"

examples=$root/examples
apart refuse_each_of_made "$link" exe -o made/x.exe --map made/x.map "$examples"/exe/{main,show,report}.obj "$examples/library/small.lib"
apart refuse_each_of_made "$link" com -o made/x.com "$examples"/com/{hello,say}.obj
apart refuse_each_of_made "$link" bin --base 7C00 --size 200 -o made/x.bin "$examples"/link/{start,say,mark}.obj -t "$examples/link/program.link"
apart refuse_each_of_made "$lib" make -o made/x.lib "$examples"/link/{say,mark}.obj
apart refuse_each_of_made "$lib" canon -o made/x.lib "$examples/library/small.lib"

if [ -x "$link" ] && "$link" exe -o "$work/find.exe" "$examples"/exe/{main,show,report}.obj; then
    for words in --possible --json '--symbols ghidra'; do
        # shellcheck disable=SC2086
        apart refuse_each_of_run 0 /dev/null "$find" $words "$work/find.exe" "$examples"/exe/{main,report}.obj "$examples/library/small.lib"
    done
else
    skips "omf_find"
fi

# Calls of the libraries. `lower` on a file of modules: with externals by name, backpatches, a comment of a vendor, a COMDAT and its backpatch.
data_word='B2 07 00 01 01 01 00 34 12 FE' comdat='C2 0C 00 00 00 00 00 00 00 00 01 02 AA BB CA'
input lowered.obj "$header $names BC 05 00 02 00 01 05 37 $end $header $names $segment $data $data_word $fixup $end
    $header $names $segment $data B3 0B 00 01 02 00 00 00 00 FF FF FF FF 43 A0 06 00 01 02 00 05 00 52 $end 00 00
    $header CE 05 00 01 00 AA BB C7 CA 03 00 01 55 DD BC 03 00 01 00 40 $end
    $header $names $segment $comdat C8 07 00 01 02 00 00 02 01 2B $end" ''
apart refuse_each_of_made "$link" lower -o made/x.obj "$work/lowered.obj"

# Of the COMDATs of a name one is chosen; code that nothing reaches is left out, and a weak external has the place of its default.
any='C2 0C 00 00 10 00 00 00 00 00 01 02 AA BB BA' start='8A 07 00 C1 00 01 01 00 00 00'
input first.obj "$header $names $segment $any $start" ''
input second.obj "$header $names $segment $any 9C 06 00 C4 00 04 01 01 94 $end" ''
apart refuse_each_of_made "$link" exe --stack 16 -o made/x.exe "$work/first.obj" "$work/second.obj"
classes='96 0E 00 00 01 54 04 43 4F 44 45 04 44 41 54 41 00' code='98 07 00 28 04 00 02 03 01 00' own='98 07 00 28 04 00 02 04 01 00'
input unreached.obj "$header $classes $own $code 90 08 00 00 02 01 66 02 00 00 00 A0 06 00 02 00 00 00 00 00 9C 05 00 C4 00 54 02 00 $start" ''
input weak.obj "$header $classes $own 8C 07 00 01 66 00 01 67 00 00 88 05 00 00 A8 01 02 00 A0 06 00 01 00 00 00 00 00 9C 05 00 C4 00 56 01 00 $start" ''
input default.obj "$header $classes $code $code 90 08 00 00 02 01 67 00 00 00 FE A0 06 00 02 00 00 00 00 00 $end" ''
apart refuse_each_of_made "$link" exe --eliminate --stack 16 -o made/x.exe "$work/unreached.obj"
apart refuse_each_of_made "$link" exe --eliminate --stack 16 -o made/x.exe "$work/weak.obj" "$work/default.obj"

# Pieces of data that are laid in other orders, of which the last joins the others; each has the bytes of the system's smallest block.
as=$(printf '41%.0s' {1..24}) bs=$(printf '42%.0s' {1..24}) cs=$(printf '43%.0s' {1..24})
laid="$header $names 98 07 00 28 48 00 02 01 01 00 98 07 00 28 48 00 02 01 01 00
    A0 1C 00 01 00 00 $as 00 A0 1C 00 01 30 00 $cs 00 A0 1C 00 01 18 00 $bs 00
    A0 05 00 02 06 00 45 00 A0 05 00 02 04 00 43 00 A0 05 00 02 02 00 41 00 A0 08 00 02 01 00 61 62 63 64 00 $end"
input pieces "$laid" "$(printf 'S 0 0 0\nS 100 0 0')"
input pieces.obj "$laid" ''
input pieces.bin "$as $bs $cs" ''
apart refuse_each_on "$work/pieces"
apart refuse_each_of_run 0 /dev/null "$find" --possible --near 4 --base 0 "$work/pieces.bin" "$work/pieces.obj"

# Drafts: segments of each alignment, an external and two communals; absolute segments and groups; a segment that a comment raises to 4,096 bytes.
input aligned "$header $names 98 07 00 28 03 00 02 01 01 00 98 07 00 48 05 00 02 01 01 00 98 07 00 A8 01 00 02 01 01 00
    98 07 00 68 02 00 02 01 01 00 98 07 00 88 01 00 02 01 01 00 8C 04 00 01 58 00 17
    B0 06 00 01 59 00 62 07 00 B0 07 00 01 5A 00 61 03 05 00 $end" ''
input absolute "$header $names 98 07 00 28 04 00 02 01 01 00 98 0A 00 08 00 B8 00 04 00 02 01 01 96 98 0A 00 08 00 B8 10 04 00 02 01 01 00
    98 07 00 68 01 00 02 01 01 00 9A 04 00 02 FF 01 60 9A 02 00 02 00 8C 04 00 01 58 00 17 $end" ''
input raised "$header $names 98 07 00 28 03 00 02 01 01 00 98 07 00 88 02 00 02 01 01 00 88 05 00 00 DC 80 02 00 $end" ''
apart refuse_each_of_run 0 "$work/aligned" "$place" --base 10001 --flat 8
for module in absolute raised; do
    apart refuse_each_of_run 0 "$work/$module" "$place" --base 12345 --real
done

# Links by texts: a main module before another one; a frame that is shared, and a segment that is stored elsewhere; externals, one of which has its
# place from a group's public and one from a local public; and one with two publics.
input sides "$header $names 98 07 00 28 02 00 02 01 01 00 A0 06 00 01 00 00 CC DD 00 8A 06 00 41 50 01 01 00 00
    $header $names 98 07 00 20 02 00 02 01 01 00 A0 06 00 01 00 00 AA BB 00 8A 06 00 C1 50 01 01 00 00" "$(
    printf 'M #1\nS #1 10002 10000 1000\nM #2\nS #1 10000 10000 1000\n')"
input stored "$header $names $segment $segment $external $end" "$(
    printf 'M #1\nS #2 20 1234 5 at 8000\nS #1 10 shared\nX #1 30 0 0')"
places=$(printf 'M #1\nS #1 10020 10000 1000\nM #2\nS #1 10040 10000 1000\n')
input grouped "$header $names $segment $external $end $header $names $segment 9A 04 00 02 FF 01 60 90 08 00 01 01 01 58 02 00 00 0B $end" "$(
    printf '%s\nG #1 10000 1000' "$places")"
input local_public "$header $names $segment B4 04 00 01 58 00 EF B6 08 00 00 01 01 58 03 00 00 E5 $end $header $names $segment $public $end" "$places"
input twice "$header $names $segment $external $end $header $names $segment $public $end $header $names $segment $public $end" "$(
    printf '%s\nM #3\nS #1 10060 10000 1000' "$places")"
for module in sides stored grouped local_public; do
    apart refuse_each_of_run 0 "$work/$module" "$link" image
    apart refuse_each_of_run 0 "$work/$module" "$link" map
done
apart refuse_each_of_run 1 "$work/twice" "$link" image

for one in "${running[@]}"; do
    wait "$one" || failed=1
done
touch "$work/counts"
total=$(awk '{ total += $1 } END { print total + 0 }' "$work/counts")
echo "$total growths refused in $(wc -l < "$work/counts") runs"
[ "$total" -gt 0 ] || fails "no growth was refused (programs built without proofs do not take memory in this way)"
exit $failed
