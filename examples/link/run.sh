#!/usr/bin/env bash
# Links the three modules of a boot sector's program at the addresses of program.link, makes the sector, boots it in an emulator, and
# compares what it prints with said.txt. OMF_LINK names the program.
#
# Debian's packages: nasm (to assemble the sources anew and compare), qemu-system-x86.
set -euo pipefail
cd "$(dirname "$0")"
link=${OMF_LINK:-omf-link}

for tool in "$link" qemu-system-i386; do
    command -v "$tool" > /dev/null || { echo "skipped: $tool is not installed"; exit 0; }
done
work=$(mktemp -d)
trap 'rm -rf "$work"' EXIT

if command -v nasm > /dev/null; then
    for module in start say mark; do
        nasm -f obj $module.asm -o "$work/$module.obj"
        if cmp -s $module.obj "$work/$module.obj"; then
            echo "$module.obj is what nasm makes of $module.asm"
        else
            echo "$module.obj differs from what this nasm makes of $module.asm"
        fi
    done
fi

"$link" image -t program.link start.obj say.obj mark.obj > "$work/shown"
cat "$work/shown"

# The text names its modules, so their order does not matter.
"$link" image -t program.link mark.obj say.obj start.obj | cmp - "$work/shown"
echo "the modules in another order give the same"

# The draft of their text, with the code in the frame of base 0 and the mark at the end of the sector, gives the same as program.link.
"$link" draft --base 7C00 --real start.obj say.obj mark.obj > "$work/draft"
# The lines are found by their names, since addresses move with each change of the sources. The second line of the code is `shared`.
sed -E 's/^(S "text" [0-9A-F]+) real ;/\1 0 0 ;/; s/^S "mark" .*;/S "mark" 7DFE 0 0 ;/' "$work/draft" > "$work/drafted"
"$link" image -t "$work/drafted" start.obj say.obj mark.obj | cmp - "$work/shown"
echo "the draft, with two lines changed, gives the same"

# The sector begins at 7C00H and has 512 bytes; those that no module has are 0.
"$link" bin --base 7C00 --size 200 --fill 0 -t program.link -o "$work/sector.img" start.obj say.obj mark.obj

# The sector ends the emulator by port F4H, which makes the status odd.
timeout 60 qemu-system-i386 -display none -monitor none -serial "file:$work/said" -device isa-debug-exit,iobase=0xf4,iosize=1 \
    -drive "format=raw,file=$work/sector.img" || test $? -ne 124
cmp "$work/said" said.txt
echo "it ran, and said:"
tr -d '\r' < "$work/said"
echo
