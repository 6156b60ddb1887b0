#!/usr/bin/env bash
# Relocates the boot sector, boots it in an emulator, and compares what it prints with said.txt. OMF names the program.
#
# Debian's packages: nasm (to assemble the source anew and compare), qemu-system-x86, python3.
set -euo pipefail
cd "$(dirname "$0")"
omf=${OMF:-omf}

for tool in "$omf" python3 qemu-system-i386; do
    command -v "$tool" > /dev/null || { echo "skipped: $tool is not installed"; exit 0; }
done
work=$(mktemp -d)
trap 'rm -rf "$work"' EXIT

if command -v nasm > /dev/null; then
    nasm -f obj boot.asm -o "$work/boot.omf"
    if cmp -s boot.omf "$work/boot.omf"; then
        echo "boot.omf is what nasm makes of boot.asm"
    else
        echo "boot.omf differs from what this nasm makes of boot.asm"
    fi
fi

cat boot.omf boot.place | "$omf" reloc > "$work/listing"
cat "$work/listing"
python3 ../image.py boot.place 7C00 512 < "$work/listing" > "$work/boot.img"

# The sector ends the emulator by port F4H, which makes the status odd.
timeout 60 qemu-system-i386 -display none -monitor none -serial "file:$work/said" -device isa-debug-exit,iobase=0xf4,iosize=1 \
    -drive "format=raw,file=$work/boot.img" || test $? -ne 124
cmp "$work/said" said.txt
echo "it ran, and said:"
tr -d '\r' < "$work/said"
