#!/usr/bin/env python3
"""Lowers and links generated modules with Borland's virtual segments, and compares with a reader of its own, by the standard's text: virtual.py [--first SEED] [--count N | --seconds S]

The COMDEFs of a module have virtual segments among usual communals, with data in pieces or without, and its fixups and THREADs name them by 4000H and their index, or as externals, and some frames by numbers.
What `omf-link lower` writes must be the bytes that this reader gives; where a record is at fault, it must name the file, the module and the record, and write nothing.
This script knows what it makes, so it also writes each module with COMDATs, without the ones whose names a module before it defines: `omf-link exe` must give the same program and
map of both. OMF_LINK names the program (omf-link, if not set). The status is 1 where a file differs."""
import collections
import itertools
import pathlib
import random
import re
import sys
import tempfile
import typing

import frames
import lowered
import taken
from comdats import names_in
from lowered import COMDAT, COMDAT_EXTERNALS, CONTINUED, DATA, EXTERNALS, FIXUPS, ITERATED, LOCAL_EXTERNALS, LOCAL_NAMES, NAMES, REPEATED, SEGMENT, index_at, little, named, record, shortest

COMMUNALS, LOCAL_COMMUNALS, LOCAL_PUBLIC, PUBLIC, END, FAR, NEAR, BASE, LAST_SEGMENT = 0xB0, 0xB8, 0xB6, 0x90, 0x8A, 0x61, 0x62, 0x4000, 0x5F
NAMING, LENGTHS = (EXTERNALS, LOCAL_EXTERNALS, COMMUNALS, LOCAL_COMMUNALS), {2: 0x81, 3: 0x84, 4: 0x88}
VIRTUALS = [b"v%d" % it for it in range(6)]


class Entry(typing.NamedTuple):
    """An external: the type of its record, its name, and of a communal the lengths and the data type. `choose` takes one of the forms of a number, of which the first is the shortest."""
    kind: int
    name: bytes
    lengths: tuple = ()
    data_type: int = 0
    type_index: int = 0

    def is_virtual(self):
        return 0 < self.data_type <= LAST_SEGMENT

    def contents(self, choose=lambda forms: forms[0]):
        text = named(self.name) + choose([shortest(self.type_index), bytes([0x80 | self.type_index >> 8, self.type_index & 255])]) + bytes([self.data_type] * (self.lengths != ()))
        for it in self.lengths:
            text += choose([little(it, 1)] * (it <= 128) + [bytes([first]) + little(it, size) for size, first in LENGTHS.items() if it < 1 << 8 * size])
        return text

    def near(self):
        """The record of a near communal in place of a virtual segment, or of the entry itself."""
        return record(self.kind, self._replace(data_type=NEAR if self.is_virtual() else self.data_type).contents())


class Module(lowered.Made):
    """The records of a module that is made at random: of each its bytes, and the bytes in its place in the module with COMDATs. `own` has its virtual segments by name, with whether
    they have data, `asked` names that it asks for, and `before` names that a module before it defines."""

    def __init__(self, source, number, own, asked, before):
        self.random, self.own, self.before, self.records, self.frames, self.targets, self.ends = source, own, before, [], {}, {}, {}
        names = [b"", b"T", b"CODE", b"STACK"] + [b"n"] * source.choice([0, 0, 121, 124])
        self.names = {name: at for at, name in enumerate((it for it in own if own[it]), len(names) + 1)}
        self.put(0x80, named(b"m%d" % number))
        self.put(NAMES, b"".join(map(named, names)), record(NAMES, b"".join(map(named, [*names, *self.names]))))
        self.segments = [0x28] + [source.choice([0x28, 0x48, 0x68, 0x30, 0x3C]) for _ in range(source.choice([0, 0, 0, 1, 1, 2, LAST_SEGMENT - 1]))]
        for at, attribute in enumerate(self.segments):
            wide = source.random() < 0.3
            self.put(SEGMENT + wide, bytes([attribute]) + little(0 if at else 64, 4 if wide else 2) + b"\x02\x03\x01")
        self.put(SEGMENT, b"\x74\x40\0\x04\x04\x01" if number == 0 else b"\x28\0\0\x02\x03\x01")
        self.put(PUBLIC, b"\0\x01" + named(b"p%d" % number) + b"\0\0\0")
        self.put(LOCAL_PUBLIC, b"\0\x01" + named(b"l") + b"\x04\0\0")
        self.add_externals(asked)
        if source.random() < 0.5:
            self.put(source.choice([NAMES, LOCAL_NAMES]), named(b"z"))
        pieces = [it for it in self.virtuals if self.virtuals[it].name in self.names for _ in range(source.randint(1, 3))] + [0] * source.randint(1, 3)
        for it in source.sample(pieces, len(pieces)):
            self.add_data(it)
        wide = source.random() < 0.3
        start, plain = (b"\0", b"\0") if number else self.fixup(4 if wide else 2)
        self.put(END + wide, start, record(END + wide, plain))

    def put(self, kind, contents, plain=None):
        self.records.append((record(kind, contents), record(kind, contents) if plain is None else plain))

    def add_externals(self, asked):
        source, size = self.random, self.random.choice([1, 2, 9])
        names = [b"c0", b"c1", b"c2", *(it for it in VIRTUALS if it not in self.own)]
        made = [Entry(EXTERNALS, it) for it in asked]
        made += [Entry(COMMUNALS, source.choice(names), (source.choice([1, 2, 128, 129, 300]),), NEAR) for _ in range(source.randrange(3))]
        made += [Entry(COMMUNALS, b"f%d" % it, (source.randint(1, 200), source.choice([1, 4])), FAR) for it in range(source.randrange(2))]
        made += [Entry(LOCAL_EXTERNALS, b"l")] * source.randrange(2) + [Entry(LOCAL_COMMUNALS, b"l", (3,), NEAR)] * source.randrange(2)
        made += [Entry(COMMUNALS, it, (source.choice([1, 3, 127, 128, 400, 65536]),), source.randint(1, len(self.segments))) for it in self.own]
        entries = [Entry(EXTERNALS, b"p0")] * source.choice([0, 0, 0, 120, 125, 130]) + source.sample(made, len(made))
        self.virtuals = {at: it for at, it in enumerate(entries, 1) if it.is_virtual()}
        self.externals = range(1, len(entries) + 1)
        for (kind, _), some in itertools.groupby(enumerate(entries), lambda it: (it[1].kind, it[0] // size)):
            some = [it for _, it in some]
            plain = (record(COMDAT_EXTERNALS, shortest(self.names[it.name]) + b"\0") if it.is_virtual() and it.name in self.names else it.near() for it in some)
            self.put(kind, b"".join(it.contents(source.choice) for it in some), b"".join(plain))

    def add_data(self, number):
        """Data of a virtual segment, or of the first segment, and perhaps fixups in them."""
        source, wide = self.random, self.random.random() < 0.3
        iterated, width, is_left_out = number > 0 and source.random() < 0.3, 4 if wide else 2, number > 0 and self.virtuals[number].name in self.before
        data = self.blocks(width, 2) if iterated else source.randbytes(source.randint(1, 12))
        flags, offset, plain = CONTINUED * (number in self.ends) | ITERATED * iterated, little(self.ends.get(number, 0), width), None
        self.ends[number] = self.ends.get(number, 0) + (lowered.expanded(data, 0, -1, width)[0] if iterated else len(data)) + source.choice([0, 0, 5])
        if number:
            segment, name = self.virtuals[number].data_type, self.names[self.virtuals[number].name]
            head = bytes([flags, 0x10, self.segments[segment - 1] >> 5]) + offset + b"\0\0" + shortest(segment) + shortest(name)
            plain = b"" if is_left_out else record(COMDAT + wide, head + data)
        self.put((REPEATED if iterated else DATA) + wide, self.index(BASE + number if number else 1) + offset + data, plain)
        self.add_fixups(lowered.contents_of(data, width) if iterated else [(0, len(data))], is_left_out)

    def add_fixups(self, places, is_left_out):
        source, wide = self.random, self.random.random() < 0.3
        threads = [self.thread() for _ in range(source.choice([0, 0, 1, 2]))]
        fixups = [self.fixup(4 if wide else 2, start + source.randint(0, size - 4)) for start, size in places if size > 3 and source.random() < 0.7]
        whole, plain = b"".join(it for it, _ in threads + fixups), b"".join(it for _, it in threads + fixups * (not is_left_out))
        if whole:
            self.put(FIXUPS + wide, whole, record(FIXUPS + wide, plain) if plain else b"")

    def datum(self):
        """A method and an index; and both in the module with COMDATs."""
        if self.random.random() < 0.04:
            return (frames.NUMBERED, little(0xB800, 2)) * 2
        number = self.random.choice([0, *self.externals[-3:], *[*self.virtuals] * 3])
        segment, external = (0, self.index(BASE + number if number else 1)), (2, self.index(number))
        return segment * 2 if number == 0 else segment + external if number in self.virtuals and self.random.random() < 0.8 else external * 2

    def thread(self):
        number, is_frame, datum = self.random.randrange(4), self.random.random() < 0.4, self.datum()
        (self.frames if is_frame else self.targets)[number] = datum
        return tuple(bytes([0x40 * is_frame | datum[it] << 2 | number]) + datum[it + 1] for it in (0, 2))

    def fixup(self, width, at=None):
        """The bytes of a fixup, or of a start address if it is nowhere, and those in the module with COMDATs."""
        source, is_start = self.random, at is None
        number = None if is_start or not self.targets or source.random() < 0.7 else source.choice([*self.targets])
        datum = self.datum() if number is None else self.targets[number]
        target = datum if number is None else (8 | number, b"") * 2
        threads = [(8 | it, b"") * 2 for it, other in self.frames.items() if other[2:] == datum[2:]]
        frame = source.choice([datum] * 4 + threads * 4 + [(5, b"") * 2] * 3 + ([] if is_start else [(4, b"") * 2, self.datum()]))
        bare = 4 if not is_start and source.random() < 0.3 else 0
        head = b"\xC1" if is_start else (0xC000 | source.choice([1, 2, 3]) << 10 | at).to_bytes(2, "big")
        rest = b"" if bare else little(source.randrange(9), width)
        return tuple(head + bytes([frame[it] << 4 | target[it] | bare]) + frame[it + 1] + target[it + 1] + rest for it in (0, 2))

    def broken(self):
        """The module's records with a fault, and the number of the record at fault."""
        source, records = self.random, [it for it, _ in self.records]
        at, last, none = source.randrange(2, len(records)), len(records) - 1, len(self.externals) + 1
        first = next((it for it, one in enumerate(records) if one[0] == COMMUNALS and any(map(Entry.is_virtual, entries_of(one)))), None)
        filled = next((it for it, one in enumerate(records) if one[0] & 0xFE in (DATA, REPEATED) and index_at(one, 3)[0] > BASE), None)
        faults = [(at, 1, [records[at][:-1] + bytes([(records[at][-1] + 1) % 256 or 1])], at), (at, 0, [record(COMDAT, b"\0\x10\0\0\0\0\0\x01\xFF\xFF")], at)]
        if first is not None:
            faults.append((at, 0, [record(COMDAT_EXTERNALS, b"\x02\0")], first + (at <= first)))
        if filled is not None:
            after, name = source.randrange(filled + 1, len(records)), self.virtuals[index_at(records[filled], 3)[0] - BASE].name
            unknown, data = ([record(DATA, self.index(BASE + it) + b"\0\0\x90")] for it in (source.choice([0, none, *{*self.externals} - {*self.virtuals}]), none))
            faults += [(after, 0, [record(NAMES, named(b"y"))], first), (after, 0, unknown, after)]
            faults += [(last, 0, [record(COMMUNALS, Entry(COMMUNALS, it, (1,), segment).contents()), *data], last + 1) for it, segment in ((name, 1), (b"w", len(self.segments) + 2)) if segment <= LAST_SEGMENT]
        at, skipped, more, number = source.choice(faults)
        return [*records[:at], *more, *records[at + skipped:]], number


def entries_of(one):
    """The entries of a record with external names."""
    contents, at = one[3:-1], 0
    while at < len(contents):
        name, data_type, lengths = contents[at + 1:at + 1 + contents[at]], 0, []
        type_index, at = index_at(contents, at + 1 + len(name))
        if one[0] in (COMMUNALS, LOCAL_COMMUNALS):
            data_type, at = contents[at], at + 1
            for _ in range(2 if data_type == FAR else 1):
                size = {first: it for it, first in LENGTHS.items()}.get(contents[at], 0)
                lengths.append(int.from_bytes(contents[at + (size > 0):at + 1 + size], "little"))
                at += 1 + size
        yield Entry(one[0], name, tuple(lengths), data_type, type_index)


class Comdats(frames.Respelled):
    """The records of a module with COMDATs in place of virtual segments."""

    def __init__(self, records):
        externals = [it for one in records if one[0] in NAMING for it in entries_of(one)]
        self.virtuals = {BASE + at: it for at, it in enumerate(externals, 1) if it.is_virtual()}
        namings = [at for at, one in enumerate(records) if one[0] in (NAMES, LOCAL_NAMES)]
        self.last = sum(len(names_in(records[at][3:-1])) for at in namings)
        data = [index_at(one, 3)[0] for one in records if one[0] & 0xFE in (DATA, REPEATED)]
        self.filled = list(dict.fromkeys(it for it in data if it in self.virtuals))
        self.passed, self.begun, self.records = BASE, set(), []
        for number, one in enumerate(records):
            self.records += self.in_place(one)
            if number == max(namings, default=0):
                self.records += [record(NAMES, named(self.virtuals[it].name)) for it in self.filled]

    def in_place(self, one):
        """In place of each virtual segment an EXTDEF if it has data, since the COMDAT defines the name, else a near communal; a COMDAT in place of its data."""
        if one[0] in NAMING:
            entries = list(enumerate(entries_of(one), self.passed + 1))
            self.passed += len(entries)
            made = [record(EXTERNALS, named(it.name) + shortest(it.type_index)) if at in self.filled else it.near() for at, it in entries]
            return made if any(it.is_virtual() for _, it in entries) else [one]
        if one[0] & 0xFE in (DATA, REPEATED):
            index, at = index_at(one, 3)
            return [self.comdat(one, index, at) if index in self.virtuals else one]
        return [self.taken(one)]

    def comdat(self, one, index, at):
        """Flags; pick any, in a segment; its alignment; the offset; no type; no group, the segment; the name; the data."""
        end = at + (4 if one[0] & 1 else 2)
        flags = CONTINUED * (index in self.begun) | ITERATED * (one[0] & 0xFE == REPEATED)
        self.begun.add(index)
        places = b"\0\0" + shortest(self.virtuals[index].data_type) + shortest(self.last + 1 + self.filled.index(index))
        return record(COMDAT | one[0] & 1, bytes([flags, 0x10, 0]) + one[at:end] + places + one[end:-1])

    def datum(self, contents, at, method):
        """A method 0, a segment, becomes 2, an external."""
        index, at = index_at(contents, at)
        is_one = method == 0 and index in self.virtuals
        self.has |= is_one
        return method + 2 * is_one, shortest(index - BASE * is_one), at


def made(source):
    """Modules with virtual segments of the same names."""
    owns = [{it: source.random() < 0.8 for it in source.sample(VIRTUALS, source.randint(0, 4))} for _ in range(source.choice([1, 2, 2, 3]))]
    before, modules = set(), []
    for number, own in enumerate(owns):
        others = sorted({it for one in owns for it in one} - {*own})
        modules.append(Module(source, number, own, [b"p%d" % source.randrange(len(owns)), *others * source.randrange(2)], before.copy()))
        before |= {it for it in own if own[it]}
    return modules


def linked(folder, modules):
    """The status of a link, its lines, the program, and the map without empty segments, which COMDATs that are left out leave, and without segments of frames by number, which only
    these may name; all without the numbers of records and segments."""
    (folder / "a.obj").write_bytes(b"".join(map(b"".join, modules)))
    status, lines, program, text = taken.linked(folder, "a.obj")
    rest = [it for it in (text or b"").splitlines() if not re.match(rb'segment \d+ \d+ \w+ (?:00000000 |\w+ - -$)|whole .* "" ""$', it)]
    return status, re.sub(rb"record \d+", b"", lines), program, [re.sub(rb"^(segment \d+) \d+", rb"\1", it) for it in rest]


def differs(folder, seed, counts):
    """What is not as it must be, if anything is."""
    source = random.Random(seed)
    modules = made(source)
    records = [[it for it, _ in one.records] for one in modules]
    counts["modules"] += len(modules)
    if source.random() < 0.3:
        number = source.randrange(len(modules))
        records[number], at = modules[number].broken()
        counts["faults"] += 1
        return lowered.otherwise(folder, [(it, b"") for it in records], (number + 1, at))
    wanted = b"".join(it for one in records for it in lowered.records_of(Comdats(frames.Plain(one).records).records))
    answer = lowered.otherwise(folder, [(it, b"") for it in records], wanted)
    answers = [linked(folder, it) for it in (records, [[it for _, it in one.records] for one in modules])]
    counts["programs"] += answers[1][0] == 0
    return answer or (None if answers[0] == answers[1] else answers)


def main():
    asked, counts = lowered.seeded_parser(__doc__, 500).parse_args(), collections.Counter()
    with tempfile.TemporaryDirectory() as folder:
        tried, failed = lowered.run_seeds(asked, lambda seed: differs(pathlib.Path(folder), seed, counts))
    print(f"{counts['modules']} modules lowered, {counts['faults']} of them with a fault, {counts['programs']} programs linked; {failed} of {tried} files otherwise")
    return 1 if failed else 0


if __name__ == "__main__":
    sys.exit(main())
