#!/usr/bin/env bash
# Links two modules that call one another at the addresses of pair.link, makes a boot sector, boots it in an emulator, and compares what it
# prints with said.txt. LINK names the program; if not set, omf-link, or where that is not installed, crates/omf_link/out/omf_link.
#
# Debian's packages: nasm (to assemble the sources anew and compare), qemu-system-x86.
set -euo pipefail
cd "$(dirname "$0")"
link=${LINK:-$(command -v omf-link || echo ../../crates/omf_link/out/omf_link)}

for tool in "$link" qemu-system-i386; do
    command -v "$tool" > /dev/null || { echo "skipped: $tool is not installed"; exit 0; }
done
work=$(mktemp -d)
trap 'rm -rf "$work"' EXIT

if command -v nasm > /dev/null; then
    for module in caller callee; do
        nasm -f obj $module.asm -o "$work/$module.obj"
        if cmp -s $module.obj "$work/$module.obj"; then
            echo "$module.obj is what nasm makes of $module.asm"
        else
            echo "$module.obj differs from what this nasm makes of $module.asm"
        fi
    done
fi

"$link" map -t pair.link caller.obj callee.obj | grep '^external'
"$link" image -t pair.link caller.obj callee.obj

# The sector begins at 7C00H and has 512 bytes; those that no module has are 0.
"$link" bin --base 7C00 --size 200 --fill 0 -t pair.link -o "$work/sector.img" caller.obj callee.obj

# The sector ends the emulator by port F4H, which makes the status odd.
timeout 60 qemu-system-i386 -display none -monitor none -serial "file:$work/said" -device isa-debug-exit,iobase=0xf4,iosize=1 \
    -drive "format=raw,file=$work/sector.img" || test $? -ne 124
cmp "$work/said" said.txt
echo "it ran, and said:"
tr -d '\r' < "$work/said"
