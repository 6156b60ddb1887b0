#!/usr/bin/env python3
"""Writes the modules of a large DOS program for measuring: exe_modules.py FOLDER [COUNT]

  modules.obj  COUNT modules (1,000), of which the first is the main one: each has a 16-bit code segment of its own with 200 bytes, 12 far
               pointers to publics of other modules and 10 publics, and 48 bytes of _DATA in DGROUP with 12 offsets in this group
"""
import pathlib
import struct
import sys

from make_modules import record

PUBLICS = 10
STEP = 7919


def string(text):
    return bytes([len(text)]) + text


def name(module, number):
    return b"name_%d_%d" % (module, number)


def fixups(locat, data):
    """12 fixups, each of four bytes or fewer."""
    return b"".join(struct.pack(">H", locat | 16 * k) + data(k) for k in range(12))


def module(number, count):
    """The module of this number: its externals are names of modules that lie far apart."""
    names = (b"", b"%d_TEXT" % number, b"CODE", b"_DATA", b"DATA", b"DGROUP")
    out = record(0x80, string(b"module_%d" % number)) + record(0x96, b"".join(string(it) for it in names))
    out += record(0x98, bytes([0x48]) + struct.pack("<H", 200) + b"\2\3\1")
    out += record(0x98, bytes([0x48]) + struct.pack("<H", 48) + b"\4\5\1") + record(0x9A, b"\6\xFF\2")
    wanted = (name((number + STEP * (k + 1)) % count, k) for k in range(PUBLICS))
    out += record(0x8C, b"".join(string(it) + b"\0" for it in wanted))
    given = (string(name(number, k)) + struct.pack("<H", 8 * k) + b"\0" for k in range(PUBLICS))
    out += record(0x90, b"\0\1" + b"".join(given))
    out += record(0xA0, b"\1\0\0" + bytes(200)) + record(0x9C, fixups(0xCC00, lambda k: b"\x56" + bytes([1 + k % PUBLICS])))
    out += record(0xA0, b"\2\0\0" + bytes(48)) + record(0x9C, b"".join(struct.pack(">H", 0xC400 | 4 * k) + b"\x14\1\2" for k in range(12)))
    return out + record(0x8A, b"\xC1\x50\1\0\0" if number == 0 else b"\0")


def main():
    folder, count = pathlib.Path(sys.argv[1]), int(sys.argv[2]) if len(sys.argv) > 2 else 1000
    folder.mkdir(parents=True, exist_ok=True)
    (folder / "modules.obj").write_bytes(b"".join(module(number, count) for number in range(count)))


if __name__ == "__main__":
    main()
