#!/usr/bin/env python3
"""Links generated modules with CEXTDEFs, BAKPATs and COMDATs, and compares with their lowerings by the reader of lowered.py: taken.py [--first SEED] [--count N | --seconds S]

`omf-link exe` of a main module and such a file, or a library of its modules, must give what it gives of their lowerings: the same program and map, or the same
lines. Where a record is at fault, it must name the file, the module and the record, and write nothing. The file that `omf-link join` makes of the files must give the same program.
`omf-lib make` must make a library of the same modules, in which `omf-lib check` finds no fault, and which gives the same program; or refuse the module at fault.
OMF_LINK and OMF_LIB name the programs (omf-link and omf-lib, if not set). The status is 1 where a file differs."""
import os
import pathlib
import random
import re
import subprocess
import sys
import tempfile

import lowered

LINK, LIB = os.environ.get("OMF_LINK") or "omf-link", os.environ.get("OMF_LIB") or "omf-lib"
PAGE = 16
PLACE = re.compile(rb" record \d+ at \d+ (?=within \d+)")


def with_public(records, name):
    """The records with a PUBDEF of this name at the front of the first segment, before the MODEND."""
    return records[:-1] + [lowered.record(0x90, b"\0\x01" + lowered.named(name) + b"\0\0\0"), records[-1]]


def main_module(source, asked, names):
    """A main module with a stack, which asks for some names and defines others."""
    records = [lowered.record(0x80, b"\x01A"), lowered.record(0x96, b"\0\x04CODE\x05STACK"), lowered.record(0x98, b"\x28\x10\0\x02\x02\x01"),
               lowered.record(0x98, b"\x74\x20\0\x03\x03\x01"), lowered.record(0x8C, b"".join(lowered.named(it) + b"\0" for it in asked))]
    records += [lowered.record(0x90, b"\0\x01" + lowered.named(it) + lowered.little(source.randrange(16), 2) + b"\0") for it in names]
    return b"".join(records + [lowered.record(0xA0, b"\x01\0\0" + source.randbytes(16)), lowered.record(0x8A, b"\xC1\0\x01\x01\0\0")])


def library(members):
    out = b"\xF0\x0D\0" + bytes(13)
    for member in members:
        out += member + bytes(-len(member) % PAGE)
    return out + b"\xF1"


def linked(folder, *files):
    for made in ("p.exe", "p.map"):
        (folder / made).unlink(missing_ok=True)
    done = subprocess.run([LINK, "exe", "-o", "p.exe", "--map", "p.map", *files], cwd=folder, stdin=subprocess.DEVNULL, capture_output=True, timeout=60, check=False)
    return done.returncode, done.stderr, *((folder / it).read_bytes() if (folder / it).exists() else None for it in ("p.exe", "p.map"))


def is_rejoined(folder, answer, *files):
    """Whether the file that `omf-link join` makes of these files gives the same program as they do."""
    return run(folder, LINK, "join", "-o", "all.obj", *files)[0] == 0 and linked(folder, "all.obj")[2] == answer[2]


def is_same(answer, wanted):
    """Whether two links give the same. The place of a fault that the lowering leaves is one in the file that is linked."""
    return (answer[0], PLACE.sub(b"", answer[1]), *answer[2:]) == (wanted[0], PLACE.sub(b"", wanted[1]), *wanted[2:])


def run(folder, *words):
    """The status of a program, and the lines that it writes."""
    done = subprocess.run(words, cwd=folder, stdin=subprocess.DEVNULL, capture_output=True, timeout=60, check=False)
    return done.returncode, (done.stdout + done.stderr).splitlines()


def publics_of(records):
    """The names of a module's PUBDEFs, in order."""
    for one in records:
        contents = one[3:-1] if one[0] & 0xFE == 0x90 else b""
        _, at = lowered.index_at(contents, 0) if contents else (0, 0)
        segment, at = lowered.index_at(contents, at) if contents else (0, 0)
        at += 2 if contents and not segment else 0
        while at < len(contents):
            yield contents[at + 1:at + 1 + contents[at]]
            _, at = lowered.index_at(contents, at + 1 + contents[at] + (4 if one[0] & 1 else 2))


def kept(folder, modules, publics):
    """The library that `omf-lib make` makes of the file `x` with these modules, which define these publics; the lines of a refusal; or what is not as it must be."""
    (folder / "y").unlink(missing_ok=True)
    status, lines = run(folder, LIB, "make", "-o", "y", "x")
    if status:
        return lines
    bytes_ = (folder / "y").read_bytes()
    checked, text = run(folder, LIB, "check", "y")
    _, listed = run(folder, LIB, "list", "y")
    spans = [line.split()[3:5] for line in listed if line.startswith(b"M ")]
    members = [bytes_[int(at, 16):int(at, 16) + int(length)] for at, length in spans]
    names = [line.split(b'"')[1] for line in listed if line.startswith(b"P ")]
    is_right = checked == 0 and text[0].startswith(b"OK ") and members == modules and names == publics
    return bytes_ if is_right else (text, listed)


def lowering(records):
    """The bytes of a module's lowering, or the number of the record at fault."""
    try:
        return b"".join(lowered.Lowered(records).records)
    except lowered.Fault as fault:
        return fault.args[0]


def differs(folder, seed):
    """What is not as it must be, if anything is."""
    source = random.Random(seed)
    modules = [with_public(records, b"p%d" % number) for number, (records, _) in enumerate(lowered.made(seed))]
    lower = [lowering(it) for it in modules]
    bytes_ = [b"".join(it) for it in modules]
    in_library = source.random() < 0.5
    names = sorted({name for records, low in zip(modules, lower) if isinstance(low, bytes) for name in lowered.Lowered(records).names if name})
    (folder / "main.obj").write_bytes(main_module(source, [b"p%d" % it for it in range(len(modules))], names))
    joined = library if in_library else b"".join
    (folder / "x").write_bytes(joined(bytes_))
    answer = linked(folder, "main.obj", "x")
    if any(map(lowered.has_unknown_segment, modules)):
        return None if answer[0] == 1 and answer[2] is None else answer[:2]
    faults = [(number, it) for number, it in enumerate(lower, 1) if not isinstance(it, bytes)]
    if faults:
        number, at = faults[0]
        named = re.search(rb'^omf-link: file "x" module (\d+) ', answer[1])
        if named and int(named[1]) < number:
            # A module before it has a fault that its lowering leaves.
            return None if answer[0] == 1 and answer[2] is None else answer[:2]
        title = b'file "x" module %d%s refused ' % (number, b' "m"' if in_library else b"")
        is_right = answer[0] == 1 and answer[2] is None and title in answer[1] and b" record %d at " % at in answer[1]
        made = kept(folder, bytes_, [])
        is_kept = isinstance(made, list) and any(b": refused " in it for it in made) and not (folder / "y").exists()
        return None if is_right and is_kept else (faults, answer, made)
    if answer[0] == 0 and not is_rejoined(folder, answer, "main.obj", "x"):
        return "join", answer[:2]
    made = kept(folder, bytes_, [name for it in modules for name in publics_of(lowered.Lowered(it).records)])
    (folder / "x").write_bytes(joined(lower))
    wanted = linked(folder, "main.obj", "x")
    if not is_same(answer, wanted):
        return wanted[:2], answer[:2]
    (folder / "x").write_bytes(library(lower))
    wanted = linked(folder, "main.obj", "x")
    if not isinstance(made, bytes):
        return None if wanted[0] and isinstance(made, list) else made
    (folder / "x").write_bytes(made)
    answer = linked(folder, "main.obj", "x")
    return None if is_same(answer, wanted) else (wanted[:2], answer[:2])


def main():
    asked = lowered.seeded_parser(__doc__, 500).parse_args()
    with tempfile.TemporaryDirectory() as folder:
        tried, failed = lowered.run_seeds(asked, lambda seed: differs(pathlib.Path(folder), seed))
    print(f"{tried} files linked, {failed} otherwise")
    return 1 if failed else 0


if __name__ == "__main__":
    sys.exit(main())
