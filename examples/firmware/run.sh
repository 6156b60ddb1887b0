#!/usr/bin/env bash
# From three sources to a ROM of 64 KB that an emulator boots: a raw binary, Intel HEX and S-records. OMF_LINK names the program. NASM
# assembles the sources, and is needed for the second build, whose code is eight bytes longer; QEMU runs the ROM. Without them these steps
# are skipped.
set -euo pipefail
cd "$(dirname "$0")"
link=${OMF_LINK:-omf-link}

command -v "$link" > /dev/null || { echo "skipped: $link is not installed"; exit 0; }
work=$(mktemp -d)
trap 'rm -rf "$work"' EXIT
cp reset.obj main.obj say.obj "$work"

# assembles OPTION..: the three modules, with options for NASM.
assembles() {
    for name in reset main say; do
        nasm -f obj "$@" "$name.asm" -o "$work/$name.obj"
    done
}

# links NAME: the modules to a binary, Intel HEX and S-records.
links() {
    local files=("$work/reset.obj" "$work/main.obj" "$work/say.obj")
    "$link" bin --base F0000 --size 10000 --fill FF -t rom.link -o "$work/$1.bin" "${files[@]}"
    "$link" hex -t rom.link -o "$work/$1.hex" "${files[@]}"
    "$link" srec --addresses 24 -t rom.link -o "$work/$1.srec" "${files[@]}"
    echo "$1: $(stat -c %s "$work/$1.bin") bytes"
}

# boots NAME: runs a ROM, and prints what it writes to the serial port.
boots() {
    command -v qemu-system-i386 > /dev/null || { echo "skipped: qemu-system-i386 is not installed"; return 0; }
    timeout 20 qemu-system-i386 -bios "$work/$1.bin" -display none -serial file:"$work/$1.said" -monitor none \
        -device isa-debug-exit,iobase=0xf4,iosize=1 < /dev/null || true
    printf '%s boots: %s\n' "$1" "$(tr -d '\r\n' < "$work/$1.said")"
}

if command -v nasm > /dev/null; then
    assembles
    for name in reset main say; do
        cmp -s "$name.obj" "$work/$name.obj" || echo "$name.obj differs from what this nasm makes of $name.asm"
    done
fi
links rom
cat "$work/rom.hex" "$work/rom.srec"
boots rom
if command -v nasm > /dev/null; then
    assembles -DMORE
    links more
    boots more
fi
