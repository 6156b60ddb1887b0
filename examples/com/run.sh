#!/usr/bin/env bash
# Links the two modules into a .COM program, also with one of them in a library, runs it in an emulator, and compares what it prints with
# said.txt and its exit status with 2. OMF_LINK and OMF_LIB name the programs.
#
# Debian's packages: nasm (to assemble the sources anew and compare), dosbox.
set -euo pipefail
cd "$(dirname "$0")"
link=${OMF_LINK:-omf-link}
lib=${OMF_LIB:-omf-lib}

command -v "$link" > /dev/null || { echo "skipped: $link is not installed"; exit 0; }
work=$(mktemp -d)
trap 'rm -rf "$work"' EXIT

if command -v nasm > /dev/null; then
    for module in hello say; do
        nasm -f obj $module.asm -o "$work/$module.obj"
        if cmp -s $module.obj "$work/$module.obj"; then
            echo "$module.obj is what nasm makes of $module.asm"
        else
            echo "$module.obj differs from what this nasm makes of $module.asm"
        fi
    done
fi

"$link" com -o "$work/hello.com" hello.obj say.obj
echo "hello.com: $(wc -c < "$work/hello.com") bytes"

if command -v "$lib" > /dev/null; then
    "$lib" make -o "$work/rt.lib" say.obj > /dev/null
    "$link" com -o "$work/same.com" hello.obj "$work/rt.lib"
    cmp "$work/same.com" "$work/hello.com"
    echo "with the other one in a library it is the same"
fi

# The program's output and its exit status go into files of the folder that the emulator has as drive C.
command -v dosbox > /dev/null || { echo "not run: dosbox is not installed"; exit 0; }
SDL_VIDEODRIVER=dummy SDL_AUDIODRIVER=dummy timeout 60 dosbox -noconsole \
    -c "mount c $work" -c "c:" -c "hello.com > said" -c "if errorlevel 3 goto end" -c "if errorlevel 2 echo 2 > status" -c "exit" \
    > "$work/emulator" 2>&1 || { echo "dosbox failed"; exit 1; }
said=$(find "$work" -iname said) status=$(find "$work" -iname status)
cmp "$said" said.txt
[ -n "$status" ] || { echo "the exit status is not 2"; exit 1; }
echo "it ran, exited with 2, and printed:"
tr -d '\r' < "$said"
