#!/usr/bin/env python3
"""Lowers generated modules, and compares with a reader of its own, by the standard's text: lowered.py [--first SEED] [--count N | --seconds S] [--repeats]

Each module has LNAMES and LLNAMES, CEXTDEFs with names of these, LEDATAs of both widths, BAKPATs that add values to their data, VENDEXTs, and COMDATs
with NBKPATs and LINSYMs, local if an LLNAMES has their names; some files have several modules, with padding after them. What `omf-link lower` writes must be the bytes that this reader gives; where a record is at fault, it must name the file,
the module and the record, and write nothing. With --repeats each module has LIDATAs with fixups instead of COMDATs.
OMF_LINK names the program (omf-link, if not set). The status is 1 where a module differs."""
import argparse
import os
import pathlib
import random
import struct
import subprocess
import sys
import tempfile
import time

LINK = os.environ.get("OMF_LINK") or "omf-link"
NAMES, LOCAL_NAMES, EXTERNALS, COMDAT_EXTERNALS, DATA, BACKPATCH = 0x96, 0xCA, 0x8C, 0xBC, 0xA0, 0xB2
SEGMENT, GROUP, REPEATED, COMDAT, FIXUPS, NAMED_BACKPATCH, COMMENT = 0x98, 0x9A, 0xA2, 0xC2, 0x9C, 0xC8, 0x88
LOCAL_EXTERNALS, VENDOR, LINES, SYMBOL_LINES = 0xB4, 0xCE, 0x94, 0xC4
CONTINUED, ITERATED, LOCAL = 1, 2, 4
SIZES = {0: 1, 1: 2, 2: 4}
LOCATIONS = {0: 1, 1: 2, 2: 2, 3: 4, 4: 1, 5: 2, 9: 4, 11: 6, 13: 4}
MOST_RECORDS = 1 << 20
MOST_FAILED = 10


def record(kind, contents):
    head = bytes([kind]) + struct.pack("<H", len(contents) + 1) + contents
    return head + bytes([-sum(head) % 256])


def named(name):
    return bytes([len(name)]) + name


def little(number, width):
    return (number % (1 << 8 * width)).to_bytes(width, "little")


class Made:
    """The records of a module that is made at random."""

    def __init__(self, source):
        self.random = source
        self.lengths = [self.random.randint(20, 60) for _ in range(self.random.randint(1, 3))]
        self.groups = 0
        names = [b""] + [bytes(self.random.choices(b"abcXYZ_", k=self.random.randint(1, 6))) for _ in range(self.random.randint(2, 9))]
        names += self.random.sample([b"CODE", b"FAR_DATA", b"", b"f1", b"f2"], self.random.randint(0, 5))
        first = self.random.randint(1, len(names))
        self.count, self.later, self.local = first, names[first:], set()
        self.records = [record(0x80, named(b"m")), record(NAMES, b"".join(map(named, names[:first])))]
        self.records += [self.segdef(it) for it in self.lengths]
        while self.random.random() < 0.3:
            self.groups += 1
            self.records.append(record(GROUP, b"\x01\xFF\x01"))
        for _ in range(self.random.randint(1, 10)):
            self.add_names()
            self.random.choices([self.add_data, self.add_externals, self.add_patches, self.add_comment, self.add_vendor, self.add_comdats, self.add_thread],
                                [35, 25, 15, 5, 3, 40, 1])[0]()
            if self.random.random() < 0.01:
                self.records.append(self.segdef(5))
        self.records.append(record(0x8A, b"\0"))

    def index(self, number):
        return bytes([number]) if number < 128 and self.random.random() < 0.8 else bytes([0x80 | number >> 8, number & 255])

    def segdef(self, length):
        attribute = self.random.choice([0x28, 0x48, 0x69, 0x30, 0xBD]) if self.random.random() < 0.95 else self.random.choice([0x20, 0x54, 0x78])
        return record(SEGMENT, bytes([attribute]) + little(length, 2) + b"\x01\x01\x01")

    def segment(self):
        number = self.random.randint(1, len(self.lengths))
        return number, self.lengths[number - 1]

    def add_names(self):
        if self.later and self.random.random() < 0.5:
            kind = self.random.choice([NAMES, LOCAL_NAMES])
            self.records.append(record(kind, b"".join(map(named, self.later))))
            self.local |= set(range(self.count + 1, self.count + 1 + len(self.later))) if kind == LOCAL_NAMES else set()
            self.count, self.later = self.count + len(self.later), []

    def add_data(self):
        (segment, length), size, is_wide = self.segment(), self.random.randint(1, 12), self.random.random() < 0.4
        segment = segment if self.random.random() < 0.98 else len(self.lengths) + 1
        front = self.index(segment) + little(self.random.randint(0, length - size), 4 if is_wide else 2)
        self.records.append(record(DATA + is_wide, front + self.random.randbytes(size)))

    def add_thread(self):
        self.records.append(record(FIXUPS, bytes([self.random.choice([0x00, 0x42])]) + self.index(len(self.lengths) + self.random.randrange(2))))

    def add_externals(self):
        most = self.count + (self.random.random() < 0.05)
        entries = [self.index(self.random.randint(1, most)) + self.index(0) for _ in range(self.random.randint(1, 4))]
        self.records.append(record(COMDAT_EXTERNALS, b"".join(entries)))

    def add_patches(self):
        (segment, length), is_wide = self.segment(), self.random.random() < 0.5
        width, kind = (4, self.random.choice([0, 1, 1, 2])) if is_wide else (2, self.random.choice([0, 1]))
        items = [little(self.random.randrange(length), width) + little(self.random.choice([self.random.randrange(4), self.random.getrandbits(32)]), width)
                 for _ in range(self.random.randint(1, 3))]
        self.records.append(record(BACKPATCH + is_wide, self.index(segment) + bytes([kind]) + b"".join(items)))

    def add_comdats(self):
        """COMDATs of one name: a first one, and perhaps others that continue it, in any order of their offsets."""
        name = self.random.randint(1, self.count)
        most = 0
        base = self.index(self.random.randint(0, self.groups)) + self.index(self.random.randint(1, len(self.lengths)))
        if self.random.random() < 0.02:
            base = self.random.choice([b"\x00\x00\x34\x12", b"\x09\x01", b"\x00\x09"])
        allocation = self.random.choice([0, 0, 0, 1, 2, 3, 4])
        flags = self.random.choice([0, LOCAL, LOCAL, 8] if name in self.local or self.random.random() < 0.02 else [0, 0, 0, 8])
        flags = flags if self.random.random() < 0.97 else CONTINUED
        align = self.random.randint(0, 5) if self.random.random() < 0.98 else self.random.choice([6, 7])
        for _ in range(self.random.choice([1, 1, 1, 2, 3])):
            wide, iterated = self.random.random() < 0.4, self.random.random() < 0.3
            width = 4 if wide else 2
            data = self.blocks(width, 2) if iterated else self.random.randbytes(self.random.randint(0, 12))
            offset = self.random.choices([0, most, self.random.randint(0, 40), 0xFFFFFFFB], [20, 20, 20, wide])[0]
            front = bytes([flags | ITERATED * iterated, self.random.randint(0, 3) << 4 | allocation, align])
            front += little(offset, width)
            self.records.append(record(COMDAT + wide, front + self.index(0) + (base if allocation == 0 else b"") + self.index(name) + data))
            fitting = [it for it, size in contents_of(data, width) if size > 1] if iterated else [0] * (len(data) > 2)
            if fitting and self.random.random() < 0.4:
                segments = [1, 1] if self.random.random() < 0.98 else self.random.sample([1, len(self.lengths) + 1], 2)
                self.records.append(record(FIXUPS, (0xC400 + self.random.choice(fitting)).to_bytes(2, "big") + bytes([4, *segments])))
            flags, most = flags & LOCAL | CONTINUED, offset if iterated else offset + len(data)
            if len(data) > 3 and not iterated and self.random.random() < 0.5:
                self.add_named_patches(name, offset, len(data))
            if self.random.random() < 0.3:
                self.add_lines(name)

    def add_lines(self, name):
        """A LINSYM; now and then of another name, cut, or with half a line."""
        wide = self.random.random() < 0.3
        name = name if self.random.random() < 0.9 else self.random.randint(1, self.count + 1)
        contents = self.random.choice([b"\0", b"\0", b"\x01"]) + self.index(name) + self.random.randbytes((6 if wide else 4) * self.random.randint(0, 3))
        contents = contents if self.random.random() < 0.95 else contents[:self.random.randint(0, len(contents))]
        self.records.append(record(SYMBOL_LINES + wide, contents))

    def add_named_patches(self, name, offset, size):
        wide = self.random.random() < 0.4
        width, kind = (4, self.random.choice([0, 1, 2])) if wide else (2, self.random.choice([0, 1]))
        name = name if self.random.random() < 0.97 else self.random.randint(1, self.count + 1)
        last = size - SIZES[kind] + (self.random.random() < 0.05)
        items = [little(offset + self.random.randint(0, last), width) + little(self.random.getrandbits(32), width) for _ in range(self.random.randint(1, 3))]
        self.records.append(record(NAMED_BACKPATCH + wide, bytes([kind]) + self.index(name) + b"".join(items)))

    def blocks(self, width, most):
        text = b""
        for _ in range(self.random.randint(1, 2)):
            if most and self.random.random() < 0.4:
                inner = [self.blocks(width, 0) for _ in range(self.random.randint(1, 2))]
                count, content = sum(self.count_of(it, width) for it in inner), b"".join(inner)
            else:
                content = self.random.randbytes(self.random.randint(0, 4))
                count, content = 0, bytes([len(content)]) + content
            text += little(self.random.randint(0, 5), width) + little(count, 2) + content
        return text

    @staticmethod
    def count_of(text, width):
        """The number of blocks in a text of blocks without others in them."""
        at = count = 0
        while at < len(text):
            at, count = at + width + 3 + text[at + width + 2], count + 1
        return count

    def add_comment(self):
        self.records.append(record(COMMENT, b"\0\0hi"))

    def add_vendor(self):
        self.records.append(record(VENDOR, b"\x01\0" + self.random.randbytes(self.random.randrange(5))))


class Fault(Exception):
    """The record with this number is at fault."""


def shortest(index):
    return bytes([index]) if index < 128 else bytes([0x80 | index >> 8, index & 255])


def expanded(contents, at, count, width):
    """The size of this many blocks from a position on, or of all to the end, and the position after them, which is after the end where some lack."""
    size = 0
    while count != 0 and at < len(contents):
        times, inner = (int.from_bytes(contents[it:it + n], "little") for it, n in ((at, width), (at + width, 2)))
        at += width + 2
        if inner:
            one, at = expanded(contents, at, inner, width)
        else:
            one, at = contents[at], at + 1 + contents[at]
        size, count = size + times * one, count - 1
    return size, len(contents) + 1 if count > 0 else at


def whole_size(contents, width):
    """The size of blocks that fill these contents; blocks that are cut have none."""
    size, end = expanded(contents, 0, -1, width)
    return size if end == len(contents) else 0


def index_at(contents, at):
    first = contents[at]
    return ((first & 127) << 8 | contents[at + 1], at + 2) if first & 128 else (first, at + 1)


def segments_in(one, is_thread=False):
    """The indices of segments that a data record, a BAKPAT or a FIXUPP names; or a FIXUPP's THREADs alone name."""
    kind, contents, width = one[0] & 0xFE, one[3:-1], 4 if one[0] & 1 else 2
    if kind in (DATA, REPEATED, BACKPATCH) and not is_thread:
        yield index_at(contents, 0)[0]
    at = 0 if kind == FIXUPS else len(contents)
    while at < len(contents):
        first, at = contents[at], at + 1
        methods, count = [first >> 2 & (7 if first & 0x40 else 3)], 0
        if first & 0x80:
            fix, at = contents[at + 1], at + 2
            methods, count = [9 if fix & 0x80 else fix >> 4 & 7, 9 if fix & 8 else fix & 3], 0 if fix & 4 else width
        for method in methods:
            if method < 3:
                number, at = index_at(contents, at)
                if method == 0 and not (is_thread and first & 0x80):
                    yield number
        at += count


class Lowered:
    """The records of a lowered module. Data are a segment, an offset, a size, the number of the record, its front and its bytes,
    or None for blocks."""

    def __init__(self, records):
        self.names, self.local, self.records, self.data = [], set(), [], []
        self.segments, self.groups, self.comdats = [], 0, {}
        self.origins = []
        for number, one in enumerate(records):
            self.take_one(number, one)
            self.origins += [number] * (len(self.records) - len(self.origins))
        for _, at, attribute, end, indices in self.comdats.values():
            self.records[at] = record(SEGMENT + 1, bytes([attribute]) + little(end, 4) + indices)

    def take_one(self, number, one):
        kind, contents = one[0], one[3:-1]
        if self.comdats and any(it > len(self.segments) for it in segments_in(one)):
            raise Fault(number)
        if kind == COMDAT_EXTERNALS:
            self.take_externals(number, contents)
        elif kind & 0xFE == BACKPATCH:
            self.take_patches(number, contents, 4 if kind & 1 else 2)
        elif kind & 0xFE == NAMED_BACKPATCH:
            self.take_named_patches(number, contents, 4 if kind & 1 else 2)
        elif kind & 0xFE == COMDAT:
            self.take_comdat(number, kind & 1, contents)
        elif kind & 0xFE == SEGMENT and self.comdats:
            raise Fault(number)
        elif kind & 0xFE == SEGMENT and contents[:1] >= b"\xC0":
            self.take_paged(kind, contents)
        elif kind == VENDOR:
            return
        elif kind & 0xFE == SYMBOL_LINES:
            self.records.append(self.lines_of(one, contents))
        else:
            self.take(kind, contents)
            self.records.append(one)

    def take_paged(self, kind, contents):
        """A SEGDEF with A = 6 or 7 as one with A = 4, with a comment for 6."""
        page = bytes([0x80 | contents[0] & 31]) + contents[1:]
        self.take(kind, page)
        self.records.append(record(kind, page))
        if contents[0] < 0xE0:
            self.records.append(record(COMMENT, b"\0\xDC" + shortest(len(self.segments))))

    def lines_of(self, one, contents):
        """A LINNUM in place of a LINSYM with the name of a COMDAT before it."""
        try:
            name, at = index_at(contents, 1)
        except IndexError:
            return one
        text = self.names[name - 1] if 1 <= name <= len(self.names) else None
        return record(LINES + (one[0] & 1), b"\0" + shortest(self.comdats[text][0]) + contents[at:]) if text in self.comdats else one

    def take(self, kind, contents):
        if kind in (NAMES, LOCAL_NAMES):
            at = 0
            while at < len(contents):
                self.names.append(contents[at + 1:at + 1 + contents[at]])
                self.local |= {len(self.names)} if kind == LOCAL_NAMES else set()
                at += 1 + contents[at]
        elif kind & 0xFE == SEGMENT:
            self.segments.append((contents[0], contents[3 + 2 * (kind & 1):]))
        elif kind == GROUP:
            self.groups += 1
        elif kind & 0xFE == DATA:
            segment, at = index_at(contents, 0)
            end = at + (4 if kind & 1 else 2)
            own = bytearray(contents[end:])
            self.data.append((segment, int.from_bytes(contents[at:end], "little"), len(own), len(self.records), contents[:end], own))

    def take_comdat(self, number, odd, contents):
        width = 4 if odd else 2
        flags, attributes, align = contents[:3]
        offset = int.from_bytes(contents[3:3 + width], "little")
        kind, at = index_at(contents, 3 + width)
        group, pattern = 0, None
        if attributes & 15 == 0:
            group, at = index_at(contents, at)
            segment, at = index_at(contents, at)
            if not 1 <= segment <= len(self.segments) or group > self.groups or self.segments[segment - 1][0] >> 2 & 7 not in (2, 4, 7):
                raise Fault(number)
            pattern = self.segments[segment - 1]
        name, at = index_at(contents, at)
        data = contents[at:]
        end = offset + (whole_size(data, width) if flags & ITERATED else len(data))
        if not 1 <= name <= len(self.names) or attributes >> 4 > 3 or attributes & 15 > 4 or align > 5 or end >= 1 << 32:
            raise Fault(number)
        text = self.names[name - 1]
        if bool(flags & CONTINUED) != (text in self.comdats) or (flags & LOCAL and name not in self.local):
            raise Fault(number)
        if not self.comdats and any(it > len(self.segments) for one in self.records for it in segments_in(one, is_thread=True)):
            raise Fault(number)
        if not flags & CONTINUED:
            self.add_comdat(text, align, pattern or self.allocated(name, attributes & 15))
            body = shortest(group) + shortest(self.comdats[text][0]) + named(text) + bytes(4) + shortest(kind)
            self.records.append(record(0xB7 if name in self.local else 0x91, body))
            self.records.append(record(COMMENT, b"\x80\xDCCOMDAT" + bytes([attributes >> 4])))
        # What data before it reach in its segment: also the data of an LEDATA before the first COMDAT, for a segment that was not defined there.
        before = max((at + size for segment, at, size, *_ in self.data if segment == self.comdats[text][0]), default=0)
        self.comdats[text][3] += max(0, end - (before if flags & CONTINUED else 0))
        front = shortest(self.comdats[text][0]) + little(offset, width)
        own = None if flags & ITERATED else bytearray(data)
        self.data.append((self.comdats[text][0], offset, end - offset, len(self.records), front, own))
        self.records.append(record((REPEATED if flags & ITERATED else DATA) + odd, front + data))

    def allocated(self, name, allocation):
        """The attributes and the indices of the segment of a COMDAT without a base."""
        kind = self.names.index(it) + 1 if (it := b"CODE" if allocation & 1 else b"FAR_DATA") in self.names else name
        overlay = self.names.index(b"") + 1 if b"" in self.names else name
        return 0x69 if allocation > 2 else 0x68, shortest(name) + shortest(kind) + shortest(overlay)

    def add_comdat(self, text, align, pattern):
        attribute = (align << 5 | pattern[0] & 0x1D) if align else pattern[0] & 0xFD
        self.comdats[text] = [len(self.segments) + len(self.comdats) + 1, len(self.records), attribute, 0, pattern[1]]
        self.records.append(b"")

    def take_externals(self, number, contents):
        at = 0
        while at < len(contents):
            name, at = index_at(contents, at)
            type_index, at = index_at(contents, at)
            if not 1 <= name <= len(self.names):
                raise Fault(number)
            self.records.append(record(LOCAL_EXTERNALS if name in self.local else EXTERNALS, named(self.names[name - 1]) + shortest(type_index)))

    def take_patches(self, number, contents, width):
        segment, at = index_at(contents, 0)
        size = SIZES[contents[at]]
        for item in range(at + 1, len(contents), 2 * width):
            offset, value = (int.from_bytes(contents[it:it + width], "little") for it in (item, item + width))
            self.patch(number, segment, offset, size, value)

    def take_named_patches(self, number, contents, width):
        name, at = index_at(contents, 1)
        text = self.names[name - 1] if 1 <= name <= len(self.names) else None
        if text not in self.comdats:
            raise Fault(number)
        for item in range(at, len(contents), 2 * width):
            offset, value = (int.from_bytes(contents[it:it + width], "little") for it in (item, item + width))
            self.patch(number, self.comdats[text][0], offset, SIZES[contents[0]], value)

    def patch(self, number, segment, offset, size, value):
        """Adds a value to the last data before it that have a byte of the location, if they have all."""
        for other, first, most, record_number, front, own in reversed(self.data):
            if other == segment and first < offset + size and offset < first + most:
                at = offset - first
                if own is None or at < 0 or at + size > most:
                    raise Fault(number)
                own[at:at + size] = little(int.from_bytes(own[at:at + size], "little") + value, size)
                self.records[record_number] = record(self.records[record_number][0], front + own)
                return
        raise Fault(number)


class Repeats(Made):
    """The records of a module with LIDATAs, FIXUPPs and THREADs that is made at random."""

    def __init__(self, source):
        self.random = source
        self.data, self.is_repeated = None, False
        self.records = [record(0x80, named(b"m")), record(NAMES, named(b"") + named(b"T")), record(SEGMENT, b"\x28\xFF\x7F\x02\x01\x01"), record(EXTERNALS, named(b"f") + b"\0")]
        self.records.append(record(FIXUPS, b"".join(bytes([kind | number, 1]) for kind in (0x40, 0) for number in range(4))))
        for _ in range(self.random.randint(1, 8)):
            self.random.choices([self.add_repeated, self.add_fixups, self.add_plain, self.add_comment], [4, 6, 1, 1])[0]()
        self.records.append(record(0x8A, b"\0"))

    def add_repeated(self):
        wide = self.random.random() < 0.4
        self.data, self.is_repeated = self.blocks(4 if wide else 2, self.random.choice([0, 1, 2, 3])), True
        if self.random.random() < 0.02:
            self.data = self.data[:-1]
        offset = self.random.choices([self.random.randint(0, 999), 0xFFFFFFF0], [50, wide])[0]
        self.records.append(record(REPEATED + wide, self.index(1) + little(offset, 4 if wide else 2) + self.data))

    def add_plain(self):
        self.data, self.is_repeated = self.random.randbytes(12), False
        self.records.append(record(DATA, b"\x01" + little(self.random.randint(0, 99), 2) + self.data))

    def add_fixups(self):
        wide = self.random.random() < 0.4
        parts = [self.thread() if self.random.random() < 0.2 else self.fixup(4 if wide else 2) for _ in range(self.random.randint(0, 3))]
        self.records.append(record(FIXUPS + wide, b"".join(parts)))

    def thread(self):
        method = self.random.choice([0, 2]) if (frame := self.random.random() < 0.5) or self.random.random() < 0.9 else 6
        if frame and self.random.random() < 0.4:
            return bytes([0x40 | self.random.choice([4, 5]) << 2 | self.random.randrange(4)])
        return bytes([0x40 * frame | method << 2 | self.random.randrange(4)]) + self.index(1)

    def fixup(self, width):
        kind, relative = self.random.choice([(0, 1), (1, 1), (2, 0), (3, 0), (4, 0), (5, 1), (9, 1), (11, 0), (13, 1)])
        segment_relative = not relative or self.random.random() < 0.7
        fitting = [it for it in contents_of(self.data, 4 if wide_of(self.records) else 2) if it[1] >= LOCATIONS[kind]] if self.data and self.is_repeated else []
        if not fitting and self.random.random() < 0.97:
            return self.thread()
        start, size = self.random.choice(fitting) if fitting else (self.random.randint(0, 40), 8)
        offset = self.random.randint(start, start + size - LOCATIONS[kind])
        first = 0x8000 | 0x4000 * segment_relative | kind << 10 | min(offset, 1023)
        frame = self.random.choice([0x00, 0x20, 0x40, 0x50, 0x80, 0xB0])
        target = self.random.choice([0, 2, 4, 6, 8, 11, 12, 15])
        datum = (self.index(1) if frame in (0x00, 0x20) else b"") + (b"" if target & 8 else self.index(1))
        return first.to_bytes(2, "big") + bytes([frame | target]) + datum + (b"" if target & 4 else little(self.random.getrandbits(32), width))


def wide_of(records):
    """Whether the last LIDATA has repeat counts of 32 bits."""
    return next((one[0] & 1 for one in reversed(records) if one[0] & 0xFE == REPEATED), 0)


def origins(text, at, count, width):
    """For each byte of this many expanded blocks, or of all to the end, the offset of the byte that it is a copy of; the extents of the contents; the position after the blocks."""
    sources, contents = [], []
    while count != 0 and at < len(text):
        if at + width + 2 > len(text):
            raise ValueError
        times, inner = (int.from_bytes(text[it:it + n], "little") for it, n in ((at, width), (at + width, 2)))
        at += width + 2
        if inner:
            one, own, at = origins(text, at, inner, width)
        else:
            if at >= len(text) or at + 1 + text[at] > len(text):
                raise ValueError
            one, own, at = list(range(at + 1, at + 1 + text[at])), [(at + 1, text[at])], at + 1 + text[at]
        sources, contents, count = sources + one * times, contents + own, count - 1
    if count > 0:
        raise ValueError
    return sources, contents, at


def contents_of(text, width):
    """The extents of the contents of blocks: of each its first offset and its size."""
    try:
        return origins(text, 0, -1, width)[1]
    except ValueError:
        return []


class Unrolled:
    """The records of a module whose LIDATAs with fixups are unrolled: the LIDATA stays, and of each fixup after it each copy of its location is an LEDATA with a FIXUPP."""

    def __init__(self, records):
        self.records, self.data, self.taken = [], None, set()
        for number, one in enumerate(records):
            kind = one[0] & 0xFE
            if kind in (DATA, REPEATED):
                self.data, self.taken = self.repeated(one) if kind == REPEATED else None, set()
            if kind == FIXUPS and self.data and any(first & 0x80 for first, _ in self.subrecords(one)):
                for first, text in self.subrecords(one):
                    self.take(number, one[0], first, text)
            else:
                self.records.append(one)

    @staticmethod
    def repeated(one):
        """The segment, the offset and the blocks of an LIDATA, with the origins and the contents; None if its blocks are cut short or its data go past 2^32."""
        width = 4 if one[0] & 1 else 2
        segment, at = index_at(one[3:-1], 0)
        text = one[3 + at + width:-1]
        try:
            sources, contents, _ = origins(text, 0, -1, width)
        except ValueError:
            return None
        offset = int.from_bytes(one[3 + at:3 + at + width], "little")
        return (segment, offset, text, sources, contents) if offset + len(sources) <= 1 << 32 else None

    @staticmethod
    def subrecords(one):
        """The subrecords of a FIXUPP: of each its first byte, and its bytes in their shortest form."""
        contents, width, at = one[3:-1], 4 if one[0] & 1 else 2, 0
        while at < len(contents):
            first = contents[at]
            text, at = contents[at:at + 1], at + 1
            count = 0
            if first & 0x80:
                text, fix, at = contents[at - 1:at + 2], contents[at + 1], at + 2
                count = (not fix & 0x80 and fix >> 4 & 7 < 3) + (not fix & 8)
            elif first >> 2 & (7 if first & 0x40 else 3) < 3:
                count = 1
            for _ in range(count):
                number, at = index_at(contents, at)
                text += shortest(number)
            if first & 0x80 and not fix & 4:
                text, at = text + contents[at:at + width], at + width
            yield first, text

    def take(self, number, kind, first, text):
        if not first & 0x80:
            self.records.append(record(kind, text))
            return
        segment, offset, blocks, sources, contents = self.data
        locat = int.from_bytes(text[:2], "big")
        at, size = locat & 1023, LOCATIONS[locat >> 10 & 15]
        own = set(range(at, at + size))
        if not any(start <= at and at + size <= start + length for start, length in contents) or own & self.taken:
            raise Fault(number)
        self.taken |= own
        copies = [it for it, source in enumerate(sources) if source == at]
        if len(self.records) + 2 * len(copies) > MOST_RECORDS:
            raise Fault(number)
        for copy in copies:
            self.records.append(record(DATA + 1, shortest(segment) + little(offset + copy, 4) + blocks[at:at + size]))
            self.records.append(record(kind, bytes([first & 0xFC, 0]) + text[2:]))


def made(seed):
    """The modules of a file, each as its records, and the padding after each."""
    source = random.Random(seed)
    count = source.choices([1, 2, 3], [6, 2, 1])[0]
    return [(Made(source).records, bytes([source.choice([0, 0x1A])]) * source.choice([0, 0, 1, 40])) for _ in range(count)]


def made_repeats(seed):
    """The modules of a file with LIDATAs that have fixups: one module, without padding."""
    return [(Repeats(random.Random(seed)).records, b"")]


def records_of(records):
    """The records of a module, lowered and unrolled. A fault is at the record that the lowered one is from."""
    one = Lowered(records)
    try:
        return Unrolled(one.records).records
    except Fault as fault:
        raise Fault(one.origins[fault.args[0]]) from fault


def lowered(modules):
    """The bytes of the lowered modules; or the numbers of the first module with a fault, from 1, and of its record."""
    out = b""
    for number, (records, _) in enumerate(modules, 1):
        try:
            out += b"".join(records_of(records))
        except Fault as fault:
            return number, fault.args[0]
    return out


def has_unknown_segment(records):
    """Whether data name a segment that no SEGDEF before them defines. Such a module is refused, whatever its lowering is."""
    count = 0
    for one in records:
        count += one[0] & 0xFE == SEGMENT
        if one[0] & 0xFE in (DATA, REPEATED) and index_at(one[3:], 0)[0] > count:
            return True
    return False


def otherwise(folder, modules, wanted):
    """What `omf-link lower` answers to a file of these modules, if that is not what it must: these bytes, the fault of this module and record, or (None) any of both."""
    (folder / "wide.obj").write_bytes(b"".join(b"".join(records) + padding for records, padding in modules))
    (folder / "out.obj").unlink(missing_ok=True)
    done = subprocess.run([LINK, "lower", "-o", "out.obj", "wide.obj"], cwd=folder, stdin=subprocess.DEVNULL, capture_output=True, timeout=60, check=False)
    written = (folder / "out.obj").read_bytes() if (folder / "out.obj").exists() else None
    if wanted is None:
        is_right = done.returncode == (written is None)
    elif isinstance(wanted, bytes):
        is_right = done.returncode == 0 and written == wanted
    else:
        words = done.stderr.decode().split()
        offset = sum(map(len, modules[wanted[0] - 1][0][:wanted[1]]))
        is_named = words[1:6] == ["file", '"wide.obj"', "module", str(wanted[0]), "refused"] and words[8:12] == ["record", str(wanted[1]), "at", str(offset)]
        is_right = done.returncode == 1 and written is None and is_named
    return None if is_right else (done.returncode, done.stderr)


def differs(folder, modules):
    """What `omf-link lower` answers to a file of these modules, if that is not what it must."""
    is_unknown = any(has_unknown_segment(records) for records, _ in modules)
    return otherwise(folder, modules, None if is_unknown else lowered(modules))


def seeded_parser(text, count):
    """The options of a run with seeds."""
    parser = argparse.ArgumentParser(description=text, formatter_class=argparse.RawDescriptionHelpFormatter)
    parser.add_argument("--first", type=int, default=1, help="the first seed")
    parser.add_argument("--count", type=int, default=count, help="how many seeds")
    parser.add_argument("--seconds", type=float, help="in place of a count, the time for all")
    return parser


def run_seeds(asked, answer_of):
    """Tries one seed after another, with a line of each for which there is an answer. Returns how many were tried, and how many differ."""
    begun, seed, failed = time.monotonic(), asked.first, 0
    while failed < MOST_FAILED and (seed < asked.first + asked.count if asked.seconds is None else time.monotonic() - begun < asked.seconds):
        answer = answer_of(seed)
        if answer:
            failed += 1
            print(f"seed {seed}: {answer}", flush=True)
        seed += 1
    print(f"seeds {asked.first} to {seed - 1}")
    return seed - asked.first, failed


def main():
    parser = seeded_parser(__doc__, 2000)
    parser.add_argument("--repeats", action="store_true", help="modules whose LIDATAs have fixups, which are unrolled")
    asked, counts = parser.parse_args(), []
    with tempfile.TemporaryDirectory() as folder:

        def answer_of(seed):
            modules = made_repeats(seed) if asked.repeats else made(seed)
            counts.append(len(modules))
            return differs(pathlib.Path(folder), modules)

        _, failed = run_seeds(asked, answer_of)
    print(f"{sum(counts)} modules lowered, {failed} files otherwise")
    return 1 if failed else 0


if __name__ == "__main__":
    sys.exit(main())
