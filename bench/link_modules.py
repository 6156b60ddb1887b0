#!/usr/bin/env python3
"""Writes the modules of a large program for measuring: link_modules.py FOLDER COUNT

  modules.omf  COUNT modules of some 10 KB, one after another: each has two segments, 20 publics, 20 externals that other
               modules define, and 8,000 bytes of data with 440 fixups of 32-bit offsets, every third to an external
  files/N.obj  each of them in a file
  one.omf      the first of them
"""
import pathlib
import struct
import sys

from make_modules import record

PUBLICS = 20
STEP = 7919


def name(module, number):
    return b"name_%d_%d" % (module, number)


def string(text):
    return bytes([len(text)]) + text


def segment(name_index):
    """A public segment of 4,000 bytes that begins at a multiple of 16, of 32 bits."""
    return record(0x98, bytes([0x69]) + struct.pack("<H", 4000) + bytes([name_index, name_index, 1]))


def fixups():
    """55 fixups of 32-bit offsets in the frames of their targets: two to the second segment, and one to an external, in turn."""
    one = b""
    for k in range(55):
        target = b"\x56" + bytes([1 + k // 3 % PUBLICS]) if k % 3 == 2 else b"\x54\x02"
        one += struct.pack(">H", 0xE400 | 16 * k) + target
    return one


def module(number, count):
    """The module of this number: its externals are names of modules that lie far apart."""
    out = record(0x80, string(b"module_%d" % number)) + record(0x96, b"".join(string(it) for it in (b"", b"CODE", b"DATA")))
    out += segment(2) + segment(3)
    wanted = (name((number + STEP * (k + 1)) % count, k) for k in range(PUBLICS))
    out += record(0x8C, b"".join(string(it) + b"\0" for it in wanted))
    given = (string(name(number, k)) + struct.pack("<H", 8 * k) + b"\0" for k in range(PUBLICS))
    out += record(0x90, b"\0\1" + b"".join(given))
    for index in 1, 2:
        for offset in range(0, 4000, 1000):
            out += record(0xA0, bytes([index]) + struct.pack("<H", offset) + bytes(1000)) + record(0x9D, fixups())
    return out + record(0x8A, b"\0")


def main():
    folder, count = pathlib.Path(sys.argv[1]), int(sys.argv[2])
    (folder / "files").mkdir(parents=True, exist_ok=True)
    (folder / "one.omf").write_bytes(module(0, count))
    with open(folder / "modules.omf", "wb") as out:
        for number in range(count):
            one = module(number, count)
            out.write(one)
            (folder / "files" / f"{number}.obj").write_bytes(one)


if __name__ == "__main__":
    main()
