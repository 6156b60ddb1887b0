#!/usr/bin/env bash
# Links a program of two modules in each memory model, tiny to huge, in both orders of the files and in DOS order; and one of two libraries that need each
# other, in both orders, one of which has a refused member that nobody needs. It runs them all in an emulator: each exits with status 7.
# OMF_LINK and OMF_LIB name the programs.
#
# Debian's packages: nasm, dosbox.
set -euo pipefail
cd "$(dirname "$0")"
link=${OMF_LINK:-omf-link}
lib=${OMF_LIB:-omf-lib}

for tool in "$link" "$lib" nasm python3; do
    command -v "$tool" > /dev/null || { echo "skipped: $tool is not installed"; exit 0; }
done
work=$(mktemp -d)
trap 'rm -rf "$work"' EXIT
made=()

# link_one NAME TASK WORD..: links a program.
link_one() {
    "$link" "$2" -o "$work/$1.$2" "${@:3}"
    made+=("$1.$2")
}

nasm -f obj -dTINY main.asm -o "$work/main.obj"
nasm -f obj -dTINY part.asm -o "$work/part.obj"
link_one tiny com "$work/main.obj" "$work/part.obj"
for model in SMALL MEDIUM COMPACT LARGE HUGE; do
    nasm -f obj -d$model main.asm -o "$work/main.obj"
    nasm -f obj -d$model part.asm -o "$work/part.obj"
    name=${model,,}
    link_one "$name" exe "$work/main.obj" "$work/part.obj"
    link_one "${name:0:6}2" exe "$work/part.obj" "$work/main.obj"
    link_one "${name:0:6}3" exe --order dos "$work/main.obj" "$work/part.obj"
done

# The main module needs f1 of one.lib, which needs f2 of two.lib, which needs f3 of one.lib.
for part in 0 1 2 3; do
    nasm -f obj -dPART=$part chain.asm -o "$work/f$part.obj"
done
"$lib" make -o "$work/one.lib" "$work/f1.obj" "$work/f3.obj" > /dev/null
"$lib" make -o "$work/two.lib" "$work/f2.obj" "$work/part.obj" > /dev/null
link_one chain exe "$work/f0.obj" "$work/one.lib" "$work/two.lib"
link_one chain2 exe "$work/f0.obj" "$work/two.lib" "$work/one.lib"
cmp -s "$work/chain.exe" "$work/chain2.exe" && { echo "the order of the libraries has no effect"; exit 1; }

# The type of the first LEDATA of the member that nobody needs becomes C2H, with the checksum byte 0: a COMDAT that continues none, which is refused.
python3 - "$work/two.lib" "$work/part.obj" "$work/mixed.lib" << 'END'
import sys

library, member = (open(it, "rb").read() for it in sys.argv[1:3])
at = 0
while member[at] != 0xA0:
    at += 3 + int.from_bytes(member[at + 1:at + 3], "little")
at += library.index(member[:at])
end = at + 2 + int.from_bytes(library[at + 1:at + 3], "little")
open(sys.argv[3], "wb").write(library[:at] + b"\xC2" + library[at + 1:end] + b"\0" + library[end + 1:])
END
link_one chain3 exe "$work/f0.obj" "$work/one.lib" "$work/mixed.lib"
cmp "$work/chain.exe" "$work/chain3.exe"

# A program that needs that member has no file, and the line names the record.
nasm -f obj -dHUGE main.asm -o "$work/main.obj"
"$link" exe -o "$work/none.exe" "$work/main.obj" "$work/mixed.lib" 2> "$work/told" && exit 1
grep -q 'refused .* (COMDAT)$' "$work/told"
[ ! -e "$work/none.exe" ]
echo "${#made[@]} programs are linked; a needed member with a wrong COMDAT is refused"

# A program whose exit status is not 7 writes its name to a file of the folder that the emulator has as drive C. DOSBox makes that file, empty, also
# where nothing is written.
command -v dosbox > /dev/null || { echo "not run: dosbox is not installed"; exit 0; }
for it in "${made[@]}"; do
    printf '%s\r\nif errorlevel 8 echo %s >> wrong\r\nif not errorlevel 7 echo %s >> wrong\r\necho %s >> ran\r\n' "$it" "$it" "$it" "$it"
done > "$work/all.bat"
SDL_VIDEODRIVER=dummy SDL_AUDIODRIVER=dummy timeout 120 dosbox -noconsole -c "mount c $work" -c "c:" -c "call all.bat" -c "exit" \
    > "$work/emulator" 2>&1 || { echo "dosbox failed"; exit 1; }
wrong=$(find "$work" -iname wrong) ran=$(find "$work" -iname ran)
[ -z "$wrong" ] || [ ! -s "$wrong" ] || { echo "another exit status:"; cat "$wrong"; exit 1; }
[ "$(wc -l < "$ran")" = ${#made[@]} ] || { echo "a program did not end"; exit 1; }
echo "it ran each, and each exited with 7"
