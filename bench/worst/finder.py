"""The inputs that cost omf-find the most.

Each input has two sizes, n and 2n. For each the table has the bytes of program and library at 2n, the processor time at 2n as a ratio to that at n
(less a run on an empty program), that time, also as a ratio to `sha256sum` of the same bytes, the peak of memory in megabytes at n and 2n, the
bytes written and the status. Each time is the best of RUNS runs (2)."""
import os
import pathlib
import struct
import sys
import tempfile

import running

sys.path.insert(0, str(running.BENCH.parent / "tests" / "fuzz"))
from libraries import BLOCK, library, record  # noqa: E402

FIND = running.program("OMF_FIND", "omf-find")
RUNS = int(os.environ.get("RUNS", "2"))
LIMIT_SECONDS = 120
NO_DICTIONARY = bytes(BLOCK)
ZEROS = bytes(1 << 16)
PIECE = 0xF000


def module(data, externals=0, fixups=b"", wide=False):
    """A module with one segment of these bytes, each LEDATA with these fixups."""
    size = len(data)
    kind = 0x99 if wide else 0x98
    length = struct.pack("<I" if wide else "<H", size)
    body = record(0x96, b"\x01T") + record(kind, (b"\x69" if wide else b"\x68") + length + b"\x01\x01\x00")
    for number in range(externals):
        body += record(0x8C, b"\x04%04d\x00" % number)
    for at in range(0, size, PIECE):
        piece = data[at:at + PIECE]
        body += record(0xA1 if wide else 0xA0, b"\x01" + struct.pack("<I" if wide else "<H", at) + piece)
        body += record(0x9C, fixups) if fixups else b""
    return record(0x80, b"\x01m") + body + record(0x8A, b"\x00")


def archive(members):
    return library([(it, ()) for it in members], blocks=NO_DICTIONARY)


def same(data, count, program=ZEROS):
    return program, archive([module(data)] * count)


def after_a_one(length, size):
    """A program of runs of zeros, each one byte shorter than `length`, with a one after each."""
    return ((bytes(length - 1) + b"\x01") * (size // length + 1))[:size]


def lengths(count):
    """Segments of zeros of rising length: no two are equal."""
    return [module(bytes(64 + it % 192)) for it in range(count)]


def one_long(size):
    """One segment of zeros that is nowhere: the program is as long and has a one near its end."""
    return bytes(size - 8) + b"\x01" + bytes(7), archive([module(bytes(size), wide=True)])


def calls(count):
    """Modules of calls to one external each, all the same; the program is full of such calls."""
    code = b"\xE8\x00\x00\x90\x90\x90\xC3"
    fixup = b"\x84\x01\x56\x01"
    return (b"\xE8\x10\x20\x90\x90\x90\xC3" * 9362)[:65534], archive([module(code, 1, fixup)] * count)


def index(number):
    return bytes([number]) if number < 0x80 else bytes([0x80 | number >> 8, number & 0xFF])


def sparse(count, has_publics):
    """A module of segments without data, maybe with a PUBDEF each, and one with data that is in the program."""
    data = os.urandom(64)
    body = record(0x96, b"\x01T") + record(0x98, b"\x68\x00\x00\x01\x01\x00") * (count - 1) + record(0x98, b"\x68\x40\x00\x01\x01\x00")
    if has_publics:
        body += b"".join(record(0x90, b"\x00" + index(it) + b"\x01p\x00\x00\x00") for it in range(1, count))
    body += record(0xA0, index(count) + b"\x00\x00" + data)
    return bytes(1000) + data + bytes(1000), archive([record(0x80, b"\x01m") + body + record(0x8A, b"\x00")])


SHAPES = {
    "n members of one zero; a program of zeros": (lambda n: same(b"\x00", n), 16_000),
    "n members of four zeros; a program of zeros": (lambda n: same(bytes(4), n), 16_000),
    "n members of 64 zeros; a program of zeros": (lambda n: same(bytes(64), n), 8_000),
    "n members of 1,000 zeros; a program of zeros": (lambda n: same(bytes(1000), n), 1_000),
    "n members of 64 zeros; 63 zeros and a one in turn": (lambda n: same(bytes(64), n, after_a_one(64, 1 << 16)), 8_000),
    "n members of 1,000 zeros; 999 zeros and a one in turn": (lambda n: same(bytes(1000), n, after_a_one(1000, 1 << 16)), 1_000),
    "n members of 64 to 255 zeros; 63 zeros and a one in turn": (lambda n: (after_a_one(64, 1 << 16), archive(lengths(n))), 4_000),
    "a segment of n zeros; n zeros and a one": (one_long, 1 << 19),
    "n members of a call; a program of such calls": (calls, 8_000),
    "a member of n segments, all but one without data": (lambda n: sparse(n, False), 8_000),
    "a member of n segments, with a PUBDEF of each": (lambda n: sparse(n, True), 8_000),
    "n random bytes; one member": (lambda n: (os.urandom(n), archive([module(os.urandom(64))])), 1 << 22),
    "n zeros; one member of zeros": (lambda n: (bytes(n), archive([module(bytes(64))])), 1 << 22),
}


def sha256sum(launch, paths):
    return min(running.once(launch, ["sha256sum", *map(str, paths)], LIMIT_SECONDS)[0] for _ in range(max(RUNS, 5)))


def measure(launch, paths):
    command = [FIND, "--base", "0", *map(str, paths)]
    found = [running.once(launch, command, LIMIT_SECONDS) for _ in range(RUNS)]
    return None if None in found else min(found)


def show(name, folder, launch):
    make, count = SHAPES[name]
    found, sums, size = [], [], 0
    for number in (count, 2 * count):
        program, lib = make(number)
        paths = [folder / "program.bin", folder / "members.lib"]
        paths[0].write_bytes(program)
        paths[1].write_bytes(lib)
        size = len(program) + len(lib)
        sums.append(sha256sum(launch, paths))
        found.append(measure(launch, paths))
    large = found[1]
    running.FOUND.append(running.Found("omf-find", name, large[0] / max(sums[1], 0.1) if large else float("inf"), large[1] if large else 0, size, large[2] if large else 0))
    if None in found:
        print(f"| {name} | {2 * count:,} | {size:,} | over {LIMIT_SECONDS} s | | | | | |", flush=True)
        return
    small, large = found
    print(f"| {name} | {2 * count:,} | {size:,} | {large[0] / max(small[0], 0.1):.2f} | {large[0]:.0f} ms | {large[0] / max(sums[1], 0.1):.1f} | "
          f"{small[1]:.0f}, {large[1]:.0f} MB | {large[2]:,} | {large[3]} |", flush=True)


def table(part):
    print("| Input | 2n | Bytes | Time at 2n to n | Time at 2n | To `sha256sum` | Memory at n, 2n | Written | Status |\n|---|---|---|---|---|---|---|---|---|")
    with tempfile.TemporaryDirectory() as made:
        launch = running.built(made)
        for name in SHAPES:
            if part in name:
                show(name, pathlib.Path(made), launch)
