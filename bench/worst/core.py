"""The modules and placements that cost omf and omf-place the most.

For each the table has the bytes of the input, the time of `sha256sum` of it, and for `check`, `list`, `canon`, `reloc` and omf-place the processor
time as a ratio to that, the peak of memory in megabytes, and the bytes that were written. Each time is the best of RUNS runs (3). Below 1 MB the
program's own start is most of a time, so there the time itself is printed, in milliseconds."""
import os
import pathlib
import struct
import tempfile

import running

OMF, PLACE = running.program("OMF", "omf"), running.program("OMF_PLACE", "omf-place")
JOBS = {"check": [OMF, "check"], "list": [OMF, "list"], "canon": [OMF, "canon"], "reloc": [OMF, "reloc"], "omf-place": [PLACE, "--flat", "8"]}
RUNS = int(os.environ.get("RUNS", "3"))
LIMIT_SECONDS = 120
ITEMS = 1_048_576
TABLE = 32_767
NESTING = 64
LONGEST = 268_435_456
LONG = 16_777_216
BODY = 65_534


def record(kind, body):
    head = bytes([kind]) + struct.pack("<H", len(body) + 1) + body
    return head + bytes([-sum(head) % 256])


def index(number):
    return bytes([number]) if number < 128 else bytes([128 | number >> 8, number & 255])


HEADER = record(0x80, b"\x01A")
NAMES = record(0x96, b"\x00\x01T")
BIG = record(0x99, b"\x2B\x00\x00\x00\x00\x02\x01\x01")
SEGMENT = record(0x98, b"\x28\x01\x00\x02\x01\x01")
END = record(0x8A, b"\x00")
FRONT = HEADER + NAMES + BIG
ONE = "S 0 0 0\n"


def iterated(offset, blocks):
    return record(0xA3, b"\x01" + struct.pack("<I", offset) + blocks)


def nested(inner):
    """Blocks one in another as deep as they may be, in records that are full of them: 8 MB."""
    chain = b"".join(struct.pack("<IH", 1, 1) for _ in range(NESTING - 1)) + inner
    return FRONT + iterated(0, chain * ((BODY - 5) // len(chain))) * 128 + END


def repeats_of_nothing():
    chain = b"".join(struct.pack("<IH", 0xFFFFFFFF, 1) for _ in range(NESTING - 1)) + struct.pack("<IH", 0xFFFFFFFF, 0) + b"\x00"
    return FRONT + iterated(0, chain * ((BODY - 5) // len(chain))) * 128 + END


def flat_blocks():
    """Many small blocks, none in another: as many as records hold."""
    block = struct.pack("<IH", 1, 0) + b"\x01\xAA"
    return FRONT + iterated(0, block * ((BODY - 5) // len(block))) * 128 + END


def segments():
    data = b"".join(record(0xA0, index(i) + b"\x00\x00\xAA") for i in range(1, TABLE + 1))
    return HEADER + NAMES + SEGMENT * TABLE + data + END


def shared_name():
    """Segments and groups that all have one name of 255 bytes, which `list` writes out each time."""
    names = record(0x96, b"\x00\xFF" + b"\xFF" * 255)
    return HEADER + names + SEGMENT * TABLE + record(0x9A, b"\x02") * TABLE + END


def subrecords(one, count, front):
    most = BODY // len(one)
    full, rest = divmod(count, most)
    return front + record(0x9C, one * most) * full + (record(0x9C, one * rest) if rest else b"") + END


DATA = record(0xA1, b"\x01" + struct.pack("<I", 0) + bytes(4))
THREADS = record(0x9C, b"\x50\x00\x01")


def members():
    """Groups with as many members as a GRPDEF holds."""
    return FRONT + record(0x9A, b"\x01" + b"\xFF\x01" * 32_766) * 128 + END


def communals():
    one = b"\x00\x00\x61\x88\xFF\xFF\xFF\xFF\x88\xFF\xFF\xFF\xFF"
    return HEADER + record(0xB0, one * 1000) * 32 + END


def externals():
    one = b"\xFF" + b"\xFF" * 255 + b"\x00"
    return HEADER + record(0x8C, one * 200) * 163 + END


def publics():
    one = b"\x00\x00\x00\x00"
    return FRONT + record(0x90, b"\x00\x01" + one * 16_000) * 128 + END


def repeated(count, length, step):
    """LIDATAs that expand to `length` bytes each."""
    one = struct.pack("<IH", length, 0) + b"\x01\xAA"
    return FRONT + b"".join(iterated(step * k, one) for k in range(count)) + END


def doubled():
    """A byte that is doubled as often as an LIDATA may hold."""
    levels = LONGEST.bit_length() - 1
    return FRONT + iterated(0, struct.pack("<IH", 2, 1) * (levels - 1) + struct.pack("<IH", 2, 0) + b"\x01\xAA") + END


EXTERNAL_LINES = "E 100 0 0\n" * (163 * 200)
SMALL = FRONT + DATA + END
SHAPES = {
    f"blocks in blocks, {NESTING} deep": (lambda: nested(struct.pack("<IH", 1, 0) + b"\x01\xAA"), ONE),
    f"repeats of nothing, {NESTING} deep": (repeats_of_nothing, ONE),
    "blocks of one byte": (flat_blocks, ONE),
    "32,767 segments of one byte": (segments, ONE * TABLE),
    "32,767 segments and groups of one long name": (shared_name, ONE * TABLE + "G 0 0\n" * TABLE),
    "1,048,500 THREADs in 16 FIXUPPs": (lambda: subrecords(b"\x50", 1_048_500, FRONT + DATA), ONE),
    "1,048,500 fixups by threads on one location": (lambda: subrecords(b"\xC4\x00\x8C", 1_048_500, FRONT + DATA + THREADS), ONE),
    "1,048,572 empty FIXUPPs": (lambda: FRONT + record(0x9C, b"") * (ITEMS - 4) + END, ONE),
    "1,048,572 comments": (lambda: FRONT + record(0x88, b"\x00\x00") * (ITEMS - 4) + END, ONE),
    "128 groups of 32,766 members, by G real": (members, ONE + "G real\n" * 128),
    "32,000 COMDEF entries of the longest spelling": (communals, "E 0 0 0\n" * 32_000),
    "32,600 EXTDEF entries of 255 bytes": (externals, EXTERNAL_LINES),
    "2,048,000 PUBDEF entries without a name": (publics, ONE),
    "4 MB of comment lines": (lambda: SMALL, ";\n" * 2_000_000 + ONE),
    "one line of 4 MB": (lambda: SMALL, ONE + ";" * 4_000_000),
    "4 MB of spaces": (lambda: SMALL, " " * 4_000_000 + ONE),
    "500,000 S lines": (lambda: SMALL, ONE * 500_000),
    "590,000 G real lines": (lambda: SMALL, ONE + "G real\n" * 590_000),
    f"8 LIDATAs of {LONG:,} bytes, one after another": (lambda: repeated(8, LONG, LONG), ONE),
    f"64 LIDATAs of {LONG:,} bytes, at one offset": (lambda: repeated(64, LONG, 0), ONE),
    f"an LIDATA of {LONGEST:,} bytes": (lambda: repeated(1, LONGEST, 0), ONE),
    f"an LIDATA of {LONGEST:,} bytes, doubled level by level": (doubled, ONE),
    f"8 LIDATAs of {LONGEST:,} bytes, at one offset": (lambda: repeated(8, LONGEST, 0), ONE),
}


def run(launch, command, given):
    """Milliseconds, megabytes, bytes written, status: the best of the runs."""
    found = [running.once(launch, command, LIMIT_SECONDS, given=given) for _ in range(RUNS)]
    if None in found:
        return None
    return min(it[0] for it in found), min(it[1] for it in found), *found[-1][2:]


def cell(found, sha, is_small):
    if found is None:
        return f"over {LIMIT_SECONDS} s"
    time, peak, written, status = found
    shown = f"{time:.0f} ms" if is_small else f"{time / sha:.2f}"
    ended = "" if status == 0 else f" (status {status})"
    return f"{shown}, {peak:.0f} MB, {written:,}{ended}"


def measure(folder, launch, part):
    print("| Input | Bytes | `sha256sum`, ms | `check` | `list` | `canon` | `reloc` | `omf-place` |\n|---|---|---|---|---|---|---|---|")
    for name, (make, placement) in SHAPES.items():
        if part not in name:
            continue
        module, both = folder / "module", folder / "both"
        module.write_bytes(make())
        both.write_bytes(module.read_bytes() + placement.encode())
        size, cells = both.stat().st_size, []
        sha = run(launch, ["sha256sum"], both)[0]
        for job, command in JOBS.items():
            found = run(launch, command, both if job == "reloc" else module)
            cells.append(cell(found, sha, size < 1_000_000))
            task = job if job.startswith("omf") else f"omf {job}"
            running.FOUND.append(running.Found(task, name, found[0] / sha, found[1], size, found[2]) if found else running.Found(task, name, float("inf"), 0, size, 0))
        print(f"| {name} | {size:,} | {sha:.1f} | " + " | ".join(cells) + " |", flush=True)


def table(part):
    with tempfile.TemporaryDirectory() as work:
        measure(pathlib.Path(work), running.built(work), part)
