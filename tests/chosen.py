#!/usr/bin/env python3
"""Links generated modules with COMDATs of the same names, and compares with a link of modules without those that are left out: chosen.py [--first SEED] [--count N | --seconds S]

Of the COMDATs of one name that is not local the first counts, and the others are left out with their continuations, NBKPATs and fixups (but not their THREADs), if the selections of both allow it.
This script knows what it makes, so it leaves out the records itself. `omf-link exe` must give the same program of both, or the same lines, and fail where a name is
still defined twice. Some modules are members of a library.
OMF_LINK names the program (omf-link, if not set). The status is 1 where a program differs."""
import pathlib
import random
import sys
import tempfile

import lowered
import taken
from lowered import COMDAT, COMDAT_EXTERNALS, CONTINUED, DATA, EXTERNALS, FIXUPS, LOCAL, LOCAL_NAMES, NAMED_BACKPATCH, NAMES, SEGMENT, little, named, record, shortest

COMDATS = [b"c%d" % it for it in range(6)]
NEVER, ANY, SAME_SIZE, SAME_DATA = range(4)
FAR_POINTER, BY_INDEX, BY_THREAD, EXTERNAL_THREAD = 0xCC00, 0x56, 0x5C, 0x08


class Body:
    """The records of a COMDAT's data, and the data with the values of its NBKPAT."""

    def __init__(self, source):
        self.offset = source.choice([0, 0, 3])
        self.pieces = [bytearray(source.randbytes(source.randint(4, 9))) for _ in range(source.choice([1, 1, 2]))]
        self.patch = (source.randrange(len(self.pieces[0]) - 1), source.getrandbits(16)) if source.random() < 0.3 else None
        self.size = self.offset + sum(map(len, self.pieces))
        self.data = bytearray(b"".join(self.pieces))
        if self.patch:
            at, value = self.patch
            self.data[at:at + 2] = little(int.from_bytes(self.data[at:at + 2], "little") + value, 2)

    def agrees(self, other, selection):
        """Whether a linker with this selection takes the one for the other."""
        same_size = self.size == other.size
        same = same_size and self.data == other.data and self.offset == other.offset and list(map(len, self.pieces)) == list(map(len, other.pieces))
        return {NEVER: False, ANY: True, SAME_SIZE: same_size, SAME_DATA: same}[selection]


class Module:
    """A module: records, each with the name of the COMDAT that it is of, if it is of one, and what is left of it without that."""

    def __init__(self, source, number, bodies, asked, publics):
        self.random, self.number, self.comdats, self.records, self.thread, self.end = source, number, [], [], None, 0
        names = [b"", b"T", b"CODE", b"STACK"] + source.sample(COMDATS, len(COMDATS))
        self.names = {name: at for at, name in enumerate(names, 1)}
        self.put(0x80, named(b"m%d" % number))
        self.put(NAMES, b"".join(map(named, names)))
        local = [name for name, _, _, flags in bodies if flags & LOCAL]
        self.local = {name: at for at, name in enumerate(local, len(names) + 1)}
        self.put(LOCAL_NAMES, b"".join(map(named, local)))
        self.put(SEGMENT, b"\x28" + little(48, 2) + b"\x02\x03\x01")
        if number == 0:
            self.put(SEGMENT, b"\x74" + little(64, 2) + b"\x04\x04\x01")
        self.put(0x90, b"\0\x01" + named(b"p%d" % number) + b"\0\0\0")
        own = source.sample(local, source.randint(0, len(local)))
        self.externals = [shortest(it) for it in range(1, len(publics) + len(asked) + len(own) + 1)]
        self.put(EXTERNALS, b"".join(named(it) + b"\0" for it in publics))
        if asked:
            self.put(COMDAT_EXTERNALS, b"".join(shortest(self.names[it]) + b"\0" for it in asked))
        if own:
            self.put(COMDAT_EXTERNALS, b"".join(shortest(self.local[it]) + b"\0" for it in own))
        for name, body, selection, flags in bodies:
            self.add_data()
            self.add_comdat(name, body, selection, flags)
        self.add_data()
        self.put(0x8A, b"\xC1\0\x01\x01\0\0" if number == 0 else b"\0")

    def put(self, kind, contents, of=None, rest=None):
        self.records.append((record(kind, contents), of, record(kind, rest) if rest is not None else b""))

    def fixup(self, offset):
        if self.thread is not None and self.random.random() < 0.3:
            return (FAR_POINTER | offset).to_bytes(2, "big") + bytes([BY_THREAD | self.thread])
        return (FAR_POINTER | offset).to_bytes(2, "big") + bytes([BY_INDEX]) + self.random.choice(self.externals)

    def add_data(self):
        self.put(DATA, b"\x01" + little(self.end, 2) + bytes(8))
        self.end += 8
        if self.random.random() < 0.7:
            self.put(FIXUPS, self.fixup(self.random.randint(0, 4)))

    def add_comdat(self, name, body, selection, flags):
        self.comdats.append((name, body, selection, flags))
        own, index = (None, shortest(self.local[name])) if flags & LOCAL else (name, shortest(self.names[name]))
        allocation, offset = self.random.choice([0, 0, 1]), body.offset
        base = b"\0\x01" if allocation == 0 else b""
        for data in body.pieces:
            head = bytes([flags, selection << 4 | allocation, self.random.choice([0, 1, 2])])
            self.put(COMDAT, head + little(offset, 2) + b"\0" + base + index + data, own)
            flags, offset = flags | CONTINUED, offset + len(data)
            thread = b""
            if self.random.random() < 0.3:
                self.thread = self.random.randrange(4)
                thread = bytes([EXTERNAL_THREAD | self.thread]) + self.random.choice(self.externals)
            if thread or self.random.random() < 0.4:
                self.put(FIXUPS, thread + self.fixup(self.random.randint(0, len(data) - 4)), own, thread)
        if body.patch:
            at, value = body.patch
            self.put(NAMED_BACKPATCH, b"\x01" + index + little(body.offset + at, 2) + little(value, 2), own)

    def without(self, names):
        return b"".join(rest if of in names else one for one, of, rest in self.records)


def made(source):
    """Modules, and of each the names of COMDATs that are left out."""
    count = source.randint(2, 4)
    usual = {it: source.choice([ANY, ANY, SAME_SIZE, SAME_DATA, NEVER if source.random() < 0.2 else ANY]) for it in COMDATS}
    bodies = {it: [Body(source) for _ in range(2)] for it in COMDATS}
    plans = []
    for _ in range(count):
        plan = []
        for name in source.sample(COMDATS, source.randint(0, 4)):
            varied = usual[name] == ANY or source.random() < 0.05
            selection = usual[name] if source.random() < 0.97 else source.randrange(4)
            plan.append((name, bodies[name][varied and source.randrange(2)], selection, LOCAL if source.random() < 0.1 else 0))
        plans.append(plan)
    defined = sorted({name for plan in plans for name, _, _, flags in plan if not flags})
    publics = [b"p%d" % it for it in range(count)]
    modules = [Module(source, it, plan, source.sample(defined, source.randint(0, len(defined))), publics) for it, plan in enumerate(plans)]
    first, left_out = {}, []
    for module in modules:
        gone = {name for name, body, selection, flags in module.comdats if not flags and name in first
                and body.agrees(first[name][0], selection) and body.agrees(first[name][0], first[name][1])}
        for name, body, selection, flags in module.comdats:
            if not flags:
                first.setdefault(name, (body, selection))
        left_out.append(gone)
    return modules, left_out


def linked(folder, given, members):
    (folder / "a.obj").write_bytes(b"".join(given))
    (folder / "l.lib").write_bytes(taken.library(members))
    answer = taken.linked(folder, "a.obj", "l.lib")[:3]
    return answer if answer[0] or taken.is_rejoined(folder, answer, "a.obj", "l.lib") else ("join", *answer)


def differs(folder, seed):
    """What is not as it must be, if anything is."""
    source = random.Random(seed)
    modules, left_out = made(source)
    split = source.randint(1, len(modules))
    names = [name for module in modules for name in {it[0] for it in module.comdats if not it[3]}]
    gone = [name for it in left_out for name in it]
    is_twice = any(names.count(it) - gone.count(it) > 1 for it in names)
    whole, rest = [[module.without(it) for module, it in zip(modules, names)] for names in ([set()] * len(modules), left_out)]
    answers = [linked(folder, it[:split], it[split:]) for it in (whole, rest)]
    is_right = answers[0] == answers[1] and answers[0][0] == is_twice
    return None if is_right else (left_out, is_twice, answers)


def main():
    asked = lowered.seeded_parser(__doc__, 500).parse_args()
    with tempfile.TemporaryDirectory() as folder:
        tried, failed = lowered.run_seeds(asked, lambda seed: differs(pathlib.Path(folder), seed))
    print(f"{tried} links, {failed} otherwise")
    return 1 if failed else 0


if __name__ == "__main__":
    sys.exit(main())
