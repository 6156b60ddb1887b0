#!/usr/bin/env python3
"""Links generated modules that name frames by their numbers, and compares with a reader of its own, by the standard's text: frames.py [--first SEED] [--count N | --seconds S]

Each module has THREADs and FIXUPs of frame method F3 and of target methods T3 and T7 among others, and some have a start address with them. What `omf-link lower`
writes must be the bytes that this reader gives; with a CEXTDEF of an undefined name among its records, and perhaps segments with A = 6, the fault's place must be one in the
module. Where `omf-link exe` makes a program, each location must have the offset or selector that the standard
defines for the frames and targets as the module has them, and no word of it moves; a start at such an address is refused. OMF_LINK names the program (omf-link, if not set). The status is 1 where a module differs."""
import os
import pathlib
import random
import struct
import subprocess
import sys
import tempfile

from lowered import index_at, little, named, record, run_seeds, seeded_parser, shortest

LINK = os.environ.get("OMF_LINK") or "omf-link"
SEGMENT, FIXUPS, END, NUMBERED = 0x98, 0x9C, 0x8A, 3
UNDEFINED_NAME = record(0xBC, b"\x09\0")
BYTE, OFFSET, SELECTOR, POINTER, HIGH = 0, 1, 2, 3, 4
SIZES = {BYTE: 1, OFFSET: 2, SELECTOR: 2, POINTER: 4, HIGH: 1}


class Made:
    """The records of a module that is made at random, and what its locations must have: of each its offset and its bytes."""

    def __init__(self, source):
        self.random = source
        self.numbers = [self.random.choice([0, 0x40, 0x50, 0xB800, 0xF000, 0xFFFF, self.random.randint(0, 0xFFFF)]) for _ in range(self.random.randint(1, 4))]
        self.frames, self.targets, self.wanted = {}, {}, {}
        self.segments = self.random.choice([1, 1, 2, 126, 130])
        self.records = [record(0x80, named(b"m")), record(0x96, named(b"") + named(b"T") + named(b"CODE"))]
        self.records += [record(SEGMENT, b"\x28" + little(64 if it == 0 else 0, 2) + b"\x02\x03\x01") for it in range(self.segments)]
        for _ in range(self.random.randint(1, 3)):
            self.add_data()
        self.records.append(self.end())

    def index(self, number):
        return shortest(number) if self.random.random() < 0.8 else bytes([0x80 | number >> 8, number & 255])

    def add_data(self):
        wide = self.random.random() < 0.3
        free = [it for it in range(0, 64, 8) if it not in self.wanted]
        if not free:
            return
        self.start = self.random.choice(free)
        self.data = bytearray(self.random.choice([bytes(8), bytes([self.random.randint(0, 9), 0]) * 4]))
        width = 4 if wide else 2
        parts = [self.thread() for _ in range(self.random.randint(0, 3))]
        at = 0
        while at < 8:
            kind = self.random.choice([BYTE, OFFSET, SELECTOR, POINTER, HIGH])
            if at + SIZES[kind] > 8:
                break
            parts.append(self.fixup(kind, at, width))
            at += SIZES[kind]
        self.wanted[self.start] = bytes(self.data)
        self.records.append(record(0xA0, self.index(1) + little(self.start, 2) + self.before))
        self.records.append(record(FIXUPS + wide, b"".join(parts)))

    def thread(self):
        number = self.random.randrange(4)
        frame = self.random.choice(self.numbers)
        if self.random.random() < 0.5:
            self.frames[number] = frame
            return bytes([0x40 | NUMBERED << 2 | number]) + little(frame, 2)
        self.targets[number] = frame
        return bytes([self.random.choice([3, 7]) << 2 | number]) + little(frame, 2)

    def reference(self, width):
        """The bytes of a reference, its frame and its target's address."""
        target = self.random.choice(self.numbers)
        fix, text = NUMBERED, little(target, 2)
        if self.targets and self.random.random() < 0.4:
            number = self.random.choice(list(self.targets))
            target, fix, text = self.targets[number], 8 | number, b""
        frame = target
        how = self.random.random()
        if how < 0.3:
            fix |= 0x50
        elif how < 0.5 and target in self.frames.values():
            fix |= 0x80 | next(it for it, other in self.frames.items() if other == target) << 4
        else:
            frame = max(0, target - self.random.randint(0, 0x800))
            fix, text = fix | NUMBERED << 4, little(frame, 2) + text
        displacement = self.random.randint(0, 0x7000)
        if self.random.random() < 0.2:
            displacement, fix = 0, fix | 4
        else:
            text += little(displacement, width)
        return bytes([fix]) + text, frame, 16 * target + displacement

    def fixup(self, kind, at, width):
        self.before = bytes(self.data) if at == 0 else self.before
        text, frame, address = self.reference(width)
        offset, size = address - 16 * frame, SIZES[kind]
        own = bytearray(self.data[at:at + size])
        if kind == BYTE:
            own[0] = (own[0] + offset) & 255
        elif kind == HIGH:
            own[0] = (own[0] + (offset >> 8)) & 255
        if kind in (OFFSET, POINTER):
            own[:2] = little(int.from_bytes(own[:2], "little") + offset, 2)
        if kind in (SELECTOR, POINTER):
            own[-2:] = little(int.from_bytes(own[-2:], "little") + frame, 2)
        self.data[at:at + size] = own
        return (0xC000 | kind << 10 | at).to_bytes(2, "big") + text

    def end(self):
        self.starts = self.random.random() < 0.7
        if self.starts:
            return record(END, b"\xC1\x00\x01\x01" + little(0, 2))
        text, _, _ = self.reference(2)
        return record(END, b"\xC1" + text)


class Respelled:
    """Of a FIXUPP or a start address the record with other methods. `datum` gives the method in place of one, the bytes of its datum and the position after it, and sets `has` if it
    is another."""

    def reference(self, contents, at, width):
        fix, at, text = contents[at], at + 1, b""
        for shift, bits in (4, 15), (0, 11):
            method = fix >> shift & bits
            if method <= NUMBERED:
                other, own, at = self.datum(contents, at, method)
                fix, text = fix + (other - method << shift), text + own
        end = at if fix & 4 else at + width
        return bytes([fix]) + text + contents[at:end], end

    def thread(self, contents, at):
        first = contents[at]
        method = first >> 2 & (7 if first & 0x40 else 3)
        if method > NUMBERED:
            return contents[at:at + 1], at + 1
        other, own, end = self.datum(contents, at + 1, method)
        return bytes([first + (other - method << 2)]) + own, end

    def taken(self, one):
        contents, width, self.has = one[3:-1], 4 if one[0] & 1 else 2, False
        is_start = one[0] & 0xFE == END and contents[0] & 0x40
        if one[0] & 0xFE != FIXUPS and not is_start:
            return one
        out, at = (contents[:1], 1) if is_start else (b"", 0)
        while at < len(contents):
            front = at + 2 if contents[at] & 0x80 and not is_start else at
            text, end = self.reference(contents, front, width) if is_start or front > at else self.thread(contents, at)
            out, at = out + contents[at:front] + text, end
        return record(one[0], out) if self.has else one


class Plain(Respelled):
    """The records of a module without frame numbers: a segment for each frame, after the module's own."""

    def __init__(self, records):
        self.numbers = []
        self.count = sum(one[0] & 0xFE == SEGMENT for one in records)
        self.records = [self.taken(one) for one in records]
        last = max(it for it, one in enumerate(records) if one[0] & 0xFE == SEGMENT)
        self.records[last + 1:last + 1] = [record(SEGMENT, b"\x02" + little(it, 2) + bytes(6)) for it in self.numbers]

    def datum(self, contents, at, method):
        if method != NUMBERED:
            number, at = index_at(contents, at)
            return method, shortest(number), at
        number, self.has = int.from_bytes(contents[at:at + 2], "little"), True
        if number not in self.numbers:
            self.numbers.append(number)
        return 0, shortest(self.count + self.numbers.index(number) + 1), at + 2


def run(folder, words):
    return subprocess.run([LINK, *words], cwd=folder, stdin=subprocess.DEVNULL, capture_output=True, timeout=60, check=False)


def image_of(file):
    """The image and the places of the words that move, of an MZ file."""
    _, last, pages, count, paragraphs = struct.unpack_from("<2s4H", file)
    size = 512 * pages - (512 - last if last else 0)
    table = struct.unpack_from("<H", file, 0x18)[0]
    places = [struct.unpack_from("<HH", file, table + 4 * it) for it in range(count)]
    return file[16 * paragraphs:size], [16 * segment + offset for offset, segment in places]


def misplaced(folder, records, random_):
    """The line for a module with a fault in it, if that has not the place of the record at fault."""
    records = [record(SEGMENT, b"\xC8" + it[4:-1]) if it[0] == SEGMENT and random_.random() < 0.2 else it for it in records]
    at = random_.randrange(2, len(records))
    (folder / "w.obj").write_bytes(b"".join([*records[:at], UNDEFINED_NAME, *records[at:]]))
    done = run(folder, ["lower", "-o", "out.obj", "w.obj"])
    place = f"record {at} at {sum(map(len, records[:at]))} within 3"
    wanted = f'omf-link: file "w.obj" module 1 refused 21 UndefinedName {place}\n'
    return None if (done.returncode, done.stderr.decode()) == (1, wanted) else ("place", place, done.stderr)


def differs(folder, one):
    """What a call answers to a module, if that is not what it must."""
    answer = misplaced(folder, one.records, one.random)
    if answer:
        return answer
    (folder / "m.obj").write_bytes(b"".join(one.records))
    done = run(folder, ["lower", "-o", "out.obj", "m.obj"])
    wanted = b"".join(Plain(one.records).records)
    if done.returncode or (folder / "out.obj").read_bytes() != wanted:
        return "lower", done.returncode, done.stderr
    done = run(folder, ["exe", "-o", "m.exe", "m.obj"])
    if not one.starts:
        return None if done.returncode == 1 and b"does not move" in done.stderr else ("start", done.returncode, done.stderr)
    if done.returncode:
        return "exe", done.returncode, done.stderr
    image, places = image_of((folder / "m.exe").read_bytes())
    wrong = [it for it, own in one.wanted.items() if image[it:it + 8].ljust(8, b"\0") != own]
    return ("exe", wrong, places) if wrong or places else None


def main():
    asked = seeded_parser(__doc__, 1000).parse_args()
    with tempfile.TemporaryDirectory() as folder:
        tried, failed = run_seeds(asked, lambda seed: differs(pathlib.Path(folder), Made(random.Random(seed))))
    print(f"{tried} modules linked, {failed} otherwise")
    return 1 if failed else 0


if __name__ == "__main__":
    sys.exit(main())
