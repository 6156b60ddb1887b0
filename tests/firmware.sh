#!/usr/bin/env bash
# Has other tools read the texts of the cases `link, runs for a chip` of crates/omf_cases/stdin, and compares what they read with the memory: firmware.sh
#
# Those cases show that omf-link writes these texts. objcopy (Debian's package: binutils) and srec_cat (srecord) read Intel
# HEX and S-records; a tool that is not installed is skipped. The status is 0 where each tool that is there reads the memory.
set -euo pipefail
cd "$(dirname "$0")/.."
work=$(mktemp -d)
trap 'rm -rf "$work"' EXIT

# N.hex or N.srec for each text, and memory.bin: the runs from the lowest address on, with 0 between them.
python3 - "$work" << 'END'
import pathlib
import sys

work = pathlib.Path(sys.argv[1])
# The runs of these cases, each by its address.
runs = [(0xFFFE, b"\xAA\xBB\xCC"), (0x10005, b"\x01\x02"), (0xFFFF0, b"\xEA")]
written = 0
for line in pathlib.Path("crates/omf_cases/stdin").read_text(encoding="utf-8").splitlines():
    name, *fields = (it.strip() for it in line.split("|"))
    task = fields[0].split()[1:2] if name.startswith("link, runs for a chip: ") else []
    if task in (["hex"], ["srec"]) and fields[3] == "0":
        written += 1
        (work / f"{written}.{task[0]}").write_text(fields[4].replace("/", "\n"), encoding="ascii")
if written != 4:
    sys.exit(f"{written} texts in crates/omf_cases/stdin")
first, end = min(a for a, _ in runs), max(a + len(b) for a, b in runs)
memory = bytearray(end - first)
for address, found in runs:
    memory[address - first : address - first + len(found)] = found
(work / "memory.bin").write_bytes(memory)
(work / "first").write_text(str(first))
END

for tool in objcopy srec_cat; do
    command -v "$tool" > /dev/null || echo "no $tool here: not compared with it"
done
failed=0 compared=0
# compares TOOL FILE READ: whether the tool read the memory.
compares() {
    compared=$((compared + 1))
    if cmp -s "$work/memory.bin" "$3"; then
        echo "$1 reads $(basename "$2")"
    else
        echo "FAILED: $1 reads other bytes in $(basename "$2")"
        failed=1
    fi
}

for file in "$work"/*.hex "$work"/*.srec; do
    case $file in *.hex) form=ihex option=-intel ;; *) form=srec option=-motorola ;; esac
    if command -v objcopy > /dev/null; then
        objcopy -I "$form" -O binary "$file" "$work/read.bin" && compares objcopy "$file" "$work/read.bin"
    fi
    if command -v srec_cat > /dev/null; then
        srec_cat "$file" "$option" -offset "-$(cat "$work/first")" -fill 0 0 "$(stat -c %s "$work/memory.bin")" -o "$work/read.bin" -binary
        compares srec_cat "$file" "$work/read.bin"
    fi
done
[ $compared -gt 0 ] || echo "skipped: neither objcopy nor srec_cat is installed"
exit $failed
