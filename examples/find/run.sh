#!/usr/bin/env bash
# Links a program of main.obj and a library of show.obj and report.obj (those of examples/exe), and finds the library's members in it. What is
# printed must be said.txt, and each segment must be where the linker's map has it. Then links the members that are found again, by the text of
# --link: the bytes of each segment must be the program's. OMF_LINK, OMF_LIB and OMF_FIND name the programs.
set -euo pipefail
cd "$(dirname "$0")"
link=${OMF_LINK:-omf-link}
lib=${OMF_LIB:-omf-lib}
find=${OMF_FIND:-omf-find}

for program in "$link" "$lib" "$find"; do
    command -v "$program" > /dev/null || { echo "skipped: $program is not installed"; exit 0; }
done
work=$(mktemp -d)
trap 'rm -rf "$work"' EXIT
from=$PWD/../exe

"$lib" make -o "$work/rt.lib" "$from/show.obj" "$from/report.obj" > /dev/null
(cd "$work" && "$link" exe -o prog.exe --map prog.map "$from/main.obj" rt.lib)
(cd "$work" && "$find" --link prog.link prog.exe rt.lib) > "$work/said"
cmp "$work/said" said.txt
echo "what is found is said.txt"

# A line of the map has the module, the segment and the address; show.obj is module 2 of the program, and member 0 of the library.
awk '$1 == "segment" && $2 > 1 { print $4, $2 - 2, $3 }' "$work/prog.map" | sort > "$work/linked"
sed -n 's/^segment \([0-9A-F]*\) .* member \([0-9]*\) .* index \([0-9]*\) .*/\1 \2 \3/p' "$work/said" | sort > "$work/found"
test -s "$work/found" && test -z "$(comm -23 "$work/found" "$work/linked")"
echo "each segment is where the linker put it"

# The members by the text's comments, linked by the text; its first line has the options.
cd "$work"
members=$(sed -n 's/^M .*"rt.lib"  member \([0-9]*\) .*/\1/p' prog.link)
mkdir members
"$lib" get rt.lib $members -d members --numbered > /dev/null
options=$(sed -n '1s/^; omf-link image \(.*\) -t .*/\1/p' prog.link)
"$link" bin --base 0 --size 10000 $options -o again.bin -t prog.link $(printf 'members/%s.obj ' $members)

# The image of the program follows its header, whose paragraphs are the word at offset 8.
header=$(( 16 * $(od -An -tu2 -j8 -N2 prog.exe) ))
# Segments without data may be after the program.
size=$((16#$(sed -n "s/^program .* length \([0-9A-F]*\) .*/\1/p" said)))
while read -r address length; do
    [ $((16#$address + 16#$length)) -le "$size" ] || continue
    cmp -n $((16#$length)) -i $((header + 16#$address)):$((16#$address)) prog.exe again.bin
done < <(sed -n 's/^segment \([0-9A-F]*\)  length \([0-9A-F]*\) .*/\1 \2/p' said)
echo "linked again, each segment has the program's bytes"
