#!/usr/bin/env bash
# Links the two modules in DOS order, runs the program in an emulator, and compares what it prints with said.txt and its exit status with 7: the bytes of its
# BSS. OMF_LINK names the program.
#
# Debian's packages: nasm (to assemble the sources anew and compare), dosbox.
set -euo pipefail
cd "$(dirname "$0")"
link=${OMF_LINK:-omf-link}

command -v "$link" > /dev/null || { echo "skipped: $link is not installed"; exit 0; }
work=$(mktemp -d)
trap 'rm -rf "$work"' EXIT

if command -v nasm > /dev/null; then
    for module in main show; do
        nasm -f obj $module.asm -o "$work/$module.obj"
        if cmp -s $module.obj "$work/$module.obj"; then
            echo "$module.obj is what nasm makes of $module.asm"
        else
            echo "$module.obj differs from what this nasm makes of $module.asm"
        fi
    done
fi

"$link" exe -o "$work/prog.exe" --map "$work/map" --order dos main.obj show.obj
echo "prog.exe: $(wc -c < "$work/prog.exe") bytes"
grep -E '^(segment 2|public 1) ' "$work/map"

# In the order of the files nothing defines the two names.
"$link" exe -o "$work/other.exe" --order input main.obj show.obj && exit 1

# The program's output and its exit status go into files of the folder that the emulator has as drive C.
command -v dosbox > /dev/null || { echo "not run: dosbox is not installed"; exit 0; }
SDL_VIDEODRIVER=dummy SDL_AUDIODRIVER=dummy timeout 60 dosbox -noconsole \
    -c "mount c $work" -c "c:" -c "prog.exe > said" -c "if errorlevel 8 goto end" -c "if errorlevel 7 echo 7 > status" -c "exit" \
    > "$work/emulator" 2>&1 || { echo "dosbox failed"; exit 1; }
said=$(find "$work" -iname said) status=$(find "$work" -iname status)
cmp "$said" said.txt
[ -n "$status" ] || { echo "the exit status is not 7"; exit 1; }
echo "it ran, exited with 7, and printed:"
tr -d '\r' < "$said"
