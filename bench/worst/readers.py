"""The inputs that cost omf-dump and omf-lib the most.

Each input has two sizes, n and 2n. For each run the table has the bytes of the larger input, the processor time at 2n as a ratio to that at n, that
time, the peak of memory in megabytes, and the bytes that were written. Each time is the best of RUNS runs (2), less a run on an empty file. SCALE
divides all sizes (1), for programs with run-time checks. No printed name may have a control character."""
import os
import pathlib
import struct
import sys
import tempfile

import running

sys.path.insert(0, str(running.BENCH.parent / "tests" / "fuzz"))
from libraries import BLOCK, BUCKETS, library, module, names_of_one_hash, record  # noqa: E402

PROGRAMS = {"dump": running.program("OMF_DUMP", "omf-dump"), "lib": running.program("OMF_LIB", "omf-lib")}
RUNS = int(os.environ.get("RUNS", "2"))
SCALE = int(os.environ.get("SCALE", "1"))
LIMIT_SECONDS = 300
# What a task writes, into a folder of its own.
MORE = {"get": ["--numbered", "-d", "."], "make": ["-o", "made.lib"], "canon": ["-o", "made.lib"]}
FRONT = record(0x80, b"\x01A") + record(0x96, b"\x00\x01T") + record(0x98, b"\x28\x01\x00\x02\x01\x01")
END = record(0x8A, b"\x00")
FRONT_OF_LONG = record(0x80, b"\x01A") + record(0x96, b"\x00\x01T") + record(0x98, b"\x28\x02\x00\x02\x01\x01") + record(0x8C, b"\xFF" + b"\x1B" * 255 + b"\x00")


def name_of(number, length=4):
    """A name of this length that only this number has; each byte is a control character in 4 of 5."""
    return struct.pack("<I", number)[:length] + bytes([0x1B]) * (length - 4)


def tiny_members(count):
    return library([(record(0x80, b"\x00") + END, ())] * count)


def one_public_each(count):
    return library([(module(b"", [name_of(it)]), [name_of(it)]) for it in range(count)])


def full_blocks(count, blocks):
    """A dictionary whose blocks are all marked as full, with no entry, so that each search goes through each block."""
    block = bytearray(BLOCK)
    block[BUCKETS] = 0xFF
    names = [name_of(it) for it in range(count)]
    return library([(module(b"", names), ())], blocks=bytes(block) * blocks)


def named_blocks(blocks, flags=1):
    """Full blocks, each with a name of 255 bytes of its own that all of its buckets have: a search compares with each block on its way."""
    found = []
    for number in range(blocks):
        block = bytearray(BLOCK)
        block[:BUCKETS] = bytes([20]) * BUCKETS
        block[BUCKETS] = 0xFF
        block[40:296] = b"\xFF" + bytes([0x1B]) * 251 + struct.pack("<I", number)
        found.append(bytes(block))
    return library([(module(b"", ()), ())], blocks=b"".join(found), flags=flags)


def outside(blocks):
    """Blocks in which each bucket names an entry that passes the block's end."""
    block = bytearray(bytes([255]) * BLOCK)
    return library([(module(b"", ()), ())], blocks=bytes(block) * blocks)


def long_names(count):
    names = [name_of(it, 255) for it in range(count)]
    return library([(module(bytes([0x1B]) * 255, names), ())], blocks=bytes(BLOCK))


def large_pages(count):
    return library([(module(b"a", ()), ())] * count, page=32768)


SHAPES = {
    "n members of 10 bytes": (tiny_members, 32_767, "lib", ["check", "list"]),
    "n members of 10 bytes, shown": (tiny_members, 32_767, "dump", ["", "--json"]),
    "n members of one public": (one_public_each, 4_000, "lib", ["check", "list"]),
    "n members of one public, taken": (one_public_each, 4_000, "lib", ["get", "canon"]),
    "n publics of their own": (lambda n: module(b"m", [name_of(it) for it in range(n)]), 8_000, "lib", ["make"]),
    "n publics of one hash": (lambda n: module(b"m", names_of_one_hash(n)), 4_000, "lib", ["make"]),
    "n publics, all of 251 blocks full": (lambda n: full_blocks(n, 251), 2_000, "lib", ["check"]),
    "251 publics, n blocks full": (lambda n: full_blocks(251, n), 2_000, "lib", ["check"]),
    "n full blocks of one name each": (named_blocks, 250, "lib", ["check"]),
    "n full blocks of one name each, case insensitive": (lambda n: named_blocks(n, 0), 62, "lib", ["check"]),
    "n blocks of entries outside": (outside, 32_767, "lib", ["check"]),
    "n publics of 255 bytes": (long_names, 8_000, "lib", ["check", "list"]),
    "n members on pages of 32,768": (large_pages, 250, "lib", ["check", "list"]),
    "n empty FIXUPPs": (lambda n: FRONT + record(0x9C, b"") * n + END, 500_000, "dump", ["", "--json"]),
    "n comments": (lambda n: FRONT + record(0x88, b"\x00\x01") * n + END, 500_000, "dump", ["", "--json"]),
    "n empty LNAMES": (lambda n: FRONT + record(0x96, b"") * n + END, 500_000, "dump", ["", "--json"]),
    "n EXTDEFs of a name of 255 bytes": (lambda n: FRONT + record(0x8C, b"\xFF" + bytes([0x1B]) * 255 + b"\x00") * n + END, 16_000, "dump", ["", "--json"]),
    "n fixups by threads on a name of 255 bytes": (
        lambda n: FRONT_OF_LONG + (record(0xA0, b"\x01\x00\x00\x00\x00") + record(0x9C, b"\x08\x01\x48\x01" + b"\xC4\x00\x8C" * min(n, 20_000)))
        * -(-n // 20_000) + END, 20_000, "dump", ["", "--json"]),
    "n bytes of data": (lambda n: FRONT + record(0x98, b"\x68\x00\x04\x02\x01\x01") + record(0xA0, b"\x02\x00\x00" + bytes(1024)) * (n // 1024) + END, 4 << 20, "dump",
                        ["", "--json", "--data 0"]),
}


def measure(launch, command, path, folder=None):
    """The least processor time in milliseconds, the peak of memory in megabytes, the bytes written and the status; None where it takes too long."""

    def look(part):
        if part.translate(None, bytes(range(32, 127)) + b"\n"):
            sys.exit(f"{' '.join(command)}: a control character of {path}")

    found = []
    for _ in range(RUNS):
        with tempfile.TemporaryDirectory(dir=folder) as made:
            found.append(running.once(launch, command, LIMIT_SECONDS, given=path, folder=made, look=look))
            written = sum(it.stat().st_size for it in pathlib.Path(made).iterdir())
            found[-1] = found[-1] and (*found[-1][:2], found[-1][2] + written, found[-1][3])
    return None if None in found else min(found)


def show(name, folder, launch):
    make, count, kind, jobs = SHAPES[name]
    sizes = count // SCALE, 2 * (count // SCALE)
    paths = []
    for size in sizes:
        paths.append(folder / f"{name.replace(' ', '-')}-{size}")
        paths[-1].write_bytes(make(size))
    empty = folder / "empty"
    empty.write_bytes(b"")
    for job in jobs:
        command = [PROGRAMS[kind], *job.split(), *MORE.get(job, []), *(["-"] if kind == "lib" else [])]
        found = [measure(launch, command, it, folder) for it in [empty, *paths]]
        sha = measure(launch, ["sha256sum"], paths[1], folder)[0]
        large, size = found[2], paths[1].stat().st_size
        task = " ".join(["omf-" + kind, *([job] if job in ("--json", "list", "check", "get", "make", "canon") else [])])
        running.FOUND.append(running.Found(task, name, large[0] / sha if large else float("inf"), large[1] if large else 0, size, large[2] if large else 0))
        if None in found:
            print(f"| {name} | {kind} {job} | {sizes[1]:,} | {paths[1].stat().st_size:,} | over {LIMIT_SECONDS} s | | | | |", flush=True)
            continue
        start, small, large = found
        times = [max(it[0] - start[0], 0.1) for it in (small, large)]
        print(f"| {name} | {kind} {job} | {sizes[1]:,} | {paths[1].stat().st_size:,} | {times[1] / times[0]:.2f} | {times[1]:.0f} ms | "
              f"{small[1]:.0f}, {large[1]:.0f} MB | {large[2]:,} | {large[3]} |", flush=True)
    for path in paths:
        path.unlink()


def table(part):
    print("| Input | Run | 2n | Bytes | Time at 2n to n | Time at 2n | Memory at n, 2n | Written | Status |\n|---|---|---|---|---|---|---|---|---|")
    with tempfile.TemporaryDirectory() as made:
        launch = running.built(made)
        for name in SHAPES:
            if part in name:
                show(name, pathlib.Path(made), launch)
