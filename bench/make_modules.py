#!/usr/bin/env python3
"""Writes large modules for measuring: make_modules.py FOLDER

  empty.omf    1,048,574 empty FIXUPPs: the most records that a module may have
  fixups.omf   800,000 fixups of 32-bit offsets, with long indices and displacements, over their data: about 12 MB
  data.omf     16 MB of data in LEDATAs
  mixed.omf    10 MB: half data, half fixups of 16-bit offsets
  falling-apart.omf, falling-touching.omf, rising.omf, gaps.omf
               640,000 LEDATAs of one byte each: in falling order, with a gap between any two or none; in rising order; at
               every second place, and then in the gaps
  X.place      a placement of X.omf for `omf reloc`
"""
import pathlib
import struct
import sys


def record(kind, body):
    head = bytes([kind]) + struct.pack("<H", len(body) + 1) + body
    return head + bytes([-sum(head) % 256])


HEADER = record(0x80, b"\x01A")
NAMES = record(0x96, b"\x00\x01T")
END = record(0x8A, b"\x00")
BIG_SEGMENT = record(0x99, b"\x2B\x00\x00\x00\x00\x02\x01\x01")
SEGMENT = record(0x98, b"\x2A\x00\x00\x02\x01\x01")


def empty(out):
    out.write(HEADER + record(0x9C, b"") * 1_048_574 + END)


def fixups(out):
    """Each LEDATA has 1,000 bytes and 250 fixups of 4 bytes each."""
    out.write(HEADER + NAMES + BIG_SEGMENT)
    one = b"".join(
        struct.pack(">H", 0xE400 | 4 * k) + b"\x00\x80\x01\x80\x01" + struct.pack("<I", 4 * k) for k in range(250)
    )
    for k in range(3200):
        out.write(record(0xA1, b"\x01" + struct.pack("<I", 1000 * k) + bytes(1000)))
        out.write(record(0x9D, one))
    out.write(END)


def data(out):
    out.write(HEADER + NAMES + BIG_SEGMENT)
    for k in range(256):
        out.write(record(0xA1, b"\x01" + struct.pack("<I", 65_000 * k) + bytes(65_000)))
    out.write(END)


def mixed(out):
    """320 segments of 16 bits, each with 16 LEDATAs of 1,160 bytes that have 200 fixups of 16-bit offsets each."""
    out.write(HEADER + NAMES + SEGMENT * 320)
    for s in range(1, 321):
        index = bytes([s]) if s < 128 else bytes([128 + s // 256, s % 256])
        one = b"".join(struct.pack(">H", 0xC400 | 5 * k) + b"\x54\x01" for k in range(200))
        for k in range(16):
            out.write(record(0xA0, index + struct.pack("<H", 1160 * k) + bytes(range(256)) * 4 + bytes(136)))
            out.write(record(0x9C, one))
    out.write(END)


def bytes_at(offsets):
    """One byte of data at each of these offsets of a segment, in this order."""

    def write(out):
        out.write(HEADER + NAMES + BIG_SEGMENT)
        for offset in offsets:
            out.write(record(0xA1, b"\x01" + struct.pack("<I", offset) + bytes([offset % 256])))
        out.write(END)

    return write


COUNT = 640_000
SHAPES = {
    "falling-apart": range(2 * COUNT, 0, -2),
    "falling-touching": range(COUNT, 0, -1),
    "rising": range(COUNT),
    "gaps": [*range(0, COUNT, 2), *range(1, COUNT, 2)],
}


def placement(count):
    return "".join(f"S {0x10000 * k:X} {0x10000 * k:X} {k & 0xFFFF:X}\n" for k in range(count))


def main():
    folder = pathlib.Path(sys.argv[1])
    folder.mkdir(parents=True, exist_ok=True)
    modules = [("empty", empty, 0), ("fixups", fixups, 1), ("data", data, 1), ("mixed", mixed, 320)]
    modules += [(name, bytes_at(offsets), 1) for name, offsets in SHAPES.items()]
    for name, write, segments in modules:
        with open(folder / f"{name}.omf", "wb") as out:
            write(out)
        (folder / f"{name}.place").write_text(placement(segments))


if __name__ == "__main__":
    main()
