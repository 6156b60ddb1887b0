"""Modules with CEXTDEFs and BAKPATs: made at random, and lowered by the standard's text and this profile's rule, apart from the crates.

tests/lowered.py has a reader too, of made modules alone: this one finds the faults of any bytes."""
import re

from libraries import record

NAMES, LOCAL_NAMES, EXTERNALS, COMDAT_EXTERNALS, DATA, REPEATED, BACKPATCH, COMDAT = 0x96, 0xCA, 0x8C, 0xBC, 0xA0, 0xA2, 0xB2, 0xC2
FIXUPS, NAMED_BACKPATCH, SEGMENT, COMMENT = 0x9C, 0xC8, 0x98, 0x88
LOCAL_EXTERNALS, VENDOR = 0xB4, 0xCE
HEADERS, ENDS, FRONT = (b"\x80", b"\x82"), (0x8A, 0x8B), 3
PADDING = re.compile(rb"\0+|\x1A+|")
# The bytes of a location of a BAKPAT, by its type.
SIZES = {0: 1, 1: 2, 2: 4}
# The types of the standard, and B5H (an LEXTDEF of this profile).
KNOWN = bytes.fromhex("80 82 88 8A 8B 8C 8E 90 91 94 95 96 98 99 9A 9C 9D A0 A1 A2 A3 B0 B2 B3 B4 B5 B6 B7 B8 BC C2 C3 C4 C5 C6 C8 C9 CA CC CE F0 F1")
# The most nested blocks of an LIDATA, and the most bytes to which they expand.
DEEPEST, MOST_REPEATED = 64, 1 << 28


def named(name):
    return bytes([len(name)]) + name


def little(number, width):
    return (number % (1 << 8 * width)).to_bytes(width, "little")


class Made:
    """The records of a module that is made at random."""

    def __init__(self, random_):
        self.random = random_
        self.lengths = [self.random.randint(20, 60) for _ in range(self.random.randint(1, 3))]
        names = [b""] + [bytes(self.random.choices(b"abcXYZ_", k=self.random.randint(1, 6))) for _ in range(self.random.randint(2, 9))]
        self.held = []
        first = self.random.randint(1, len(names))
        self.count, self.later = first, names[first:]
        self.records = [record(0x80, named(b"m")), record(NAMES, b"".join(map(named, names[:first])))]
        self.records += [record(0x98, b"\x28" + little(it, 2) + b"\x01\x01\x01") for it in self.lengths]
        for _ in range(self.random.randint(1, 10)):
            self.add_names()
            self.random.choices([self.add_data, self.add_repeated, self.add_externals, self.add_patches, self.add_comment], [14, 3, 10, 14, 2])[0]()
        self.records.append(record(0x8A, b"\0"))

    def index(self, number):
        return bytes([number]) if number < 128 and self.random.random() < 0.8 else bytes([0x80 | number >> 8, number & 255])

    def segment(self):
        number = self.random.randint(1, len(self.lengths))
        return number, self.lengths[number - 1]

    def add_names(self):
        if self.later and self.random.random() < 0.5:
            self.records.append(record(self.random.choice([NAMES, LOCAL_NAMES]), b"".join(map(named, self.later))))
            self.count, self.later = self.count + len(self.later), []

    def add_data(self):
        (segment, length), size, is_wide = self.segment(), self.random.randint(1, 12), self.random.random() < 0.4
        offset = self.random.randint(0, length - size)
        self.held.append((segment, offset, size))
        self.records.append(record(DATA + is_wide, self.index(segment) + little(offset, 4 if is_wide else 2) + self.random.randbytes(size)))

    def add_repeated(self):
        """An LIDATA of bytes that are repeated, perhaps in a block with others."""
        (segment, length), is_wide = self.segment(), self.random.random() < 0.4
        inner = little(self.random.randint(1, 3), 4 if is_wide else 2) + little(0, 2) + named(self.random.randbytes(self.random.randint(1, 3)))
        blocks = self.random.choice([inner, little(2, 4 if is_wide else 2) + little(1, 2) + inner])
        self.records.append(record(REPEATED + is_wide, self.index(segment) + little(self.random.randint(0, length - 18), 4 if is_wide else 2) + blocks))

    def add_externals(self):
        most = self.count + (self.random.random() < 0.05)
        items = [(self.random.randint(1, most), self.random.choice([0, 0, 0, 5, 300])) for _ in range(self.random.randint(1, 4))]
        self.records.append(record(COMDAT_EXTERNALS, b"".join(self.index(it) for item in items for it in item)))

    def add_patches(self):
        """A BAKPAT: mostly of locations in data that are there, now and then of any."""
        is_wide = self.random.random() < 0.5
        width, kind = (4, self.random.choice([0, 1, 1, 2])) if is_wide else (2, self.random.choice([0, 1]))
        fitting = [it for it in self.held if it[2] >= SIZES[kind]]
        if fitting and self.random.random() < 0.9:
            segment, first, size = self.random.choice(fitting)
            last = first + size - SIZES[kind]
        else:
            (segment, last), first = self.segment(), 0
        values = [self.random.choice([self.random.randrange(4), self.random.getrandbits(32)]) for _ in range(self.random.randint(1, 3))]
        items = [little(self.random.randint(first, last), width) + little(it, width) for it in values]
        self.records.append(record(BACKPATCH + is_wide, self.index(segment) + bytes([kind]) + b"".join(items)))

    def add_comment(self):
        self.records.append(record(0x88, b"\0\0hi"))


class Fault(Exception):
    """A record is at fault, for a reason and at an offset in it."""

    def __init__(self, reason, within):
        super().__init__(reason, within)
        self.reason, self.within = reason, within


class Fields:
    """The fields of a record's contents, one after another."""

    def __init__(self, contents):
        self.contents, self.at = contents, 0

    def more(self):
        return self.at < len(self.contents)

    def within(self):
        return FRONT + self.at

    def take(self, size):
        if self.at + size > len(self.contents):
            raise Fault("8 Short", self.within())
        self.at += size
        return self.contents[self.at - size:self.at]

    def number(self, width):
        return int.from_bytes(self.take(width), "little")

    def index(self):
        is_long = self.contents[self.at:self.at + 1] >= b"\x80"
        return int.from_bytes(self.take(2), "big") & 0x7FFF if is_long else self.number(1)

    def name(self):
        """A length byte and its data, which are one field."""
        return self.take(1 + self.contents[self.at])[1:]


def block_size(fields, width, depth):
    """The number of bytes of the next block of an LIDATA."""
    repeats, count = (fields.number(it) for it in (width, 2))
    if depth > DEEPEST:
        raise Fault("19 TooDeep", 0)
    inner = sum(block_size(fields, width, depth + 1) for _ in range(count)) if count else len(fields.name() if fields.more() else fields.take(1))
    return repeats * inner


def repeated_size(contents, width):
    """The number of bytes of the blocks of an LIDATA; 0 where they have a fault, for which `omf check` refuses the module."""
    fields, size = Fields(contents), 0
    try:
        while fields.more():
            size += block_size(fields, width, 1)
    except Fault:
        return 0
    return size if size <= MOST_REPEATED else 0


def front_record(rest):
    """The first record of these bytes, which is whole, of a known type and with a right checksum byte."""
    if not rest:
        raise Fault("1 NoEnd", 0)
    if rest[0] not in KNOWN:
        raise Fault("3 UnknownType", 0)
    size = int.from_bytes(rest[1:3], "little")
    if len(rest) < FRONT + size or len(rest) < FRONT:
        raise Fault("2 Cut", len(rest))
    if size == 0:
        raise Fault("5 EmptyRecord", 1)
    one = rest[:FRONT + size]
    if one[-1] and sum(one) % 256:
        raise Fault("6 Checksum", len(one) - 1)
    return one


class Unread(Exception):
    """A COMDAT, a backpatch by name or a fixup of an LIDATA, which this reader does not lower."""


class Beyond(Exception):
    """A frame by number or a virtual segment, which no reader here lowers (tests/frames.py and tests/virtual.py do)."""


def is_lowered(bytes_):
    """Whether some record of a file is replaced, as far as the lengths of its records lead."""
    at = 0
    while at + FRONT <= len(bytes_):
        if bytes_[at] == COMDAT_EXTERNALS or bytes_[at] & 0xFE in (BACKPATCH, COMDAT):
            return True
        if bytes_[at] & 0xFE == SEGMENT and bytes_[at + FRONT:at + FRONT + 1] >= b"\xC0":  # A = 6 and 7
            return True
        at += FRONT + int.from_bytes(bytes_[at + 1:at + FRONT], "little")
    return False


def has_end(bytes_):
    """Whether one of the whole records at the front is a MODEND."""
    at = 0
    while at + FRONT < len(bytes_):
        size = int.from_bytes(bytes_[at + 1:at + FRONT], "little")
        if not 0 < size <= len(bytes_) - at - FRONT:
            return False
        if bytes_[at] in ENDS:
            return True
        at += FRONT + size
    return False


class Lowered:
    """The records of a lowered module. Data are lists of a segment, an offset, a size, the number of the record (None for an LIDATA), its front and its
    bytes. `judge` is called with each record whose layout is not read here; a SEGDEF has A = 4 for A = 6 and 7 where the module has an end."""

    def __init__(self, judge=lambda one: None, is_whole=False):
        self.segments, self.is_whole = 0, is_whole
        self.names, self.local, self.records, self.data, self.judge, self.is_repeated = [], [], [], [], judge, False

    def take(self, one):
        kind, contents = one[0], one[FRONT:-1]
        if kind == COMDAT_EXTERNALS:
            self.take_externals(Fields(contents))
        elif kind & 0xFE == BACKPATCH:
            self.take_patches(Fields(contents), 4 if kind & 1 else 2)
        elif kind & 0xFE in (COMDAT, NAMED_BACKPATCH):
            raise Unread
        elif kind == VENDOR:
            return
        else:
            paged = self.paged(one)
            self.take_other(paged[0], Fields(contents))
            self.records += paged

    def paged(self, one):
        """A SEGDEF with A = 6 or 7 as one with A = 4, with a comment for 6, if it has no other fault; or the record as it is."""
        if one[0] & 0xFE != SEGMENT:
            return [one]
        self.segments += 1
        attribute = one[FRONT] if self.is_whole and len(one) > FRONT + 1 else 0
        if attribute < 0xC0:
            return [one]
        page = record(one[0], bytes([0x80 | attribute & 31]) + one[FRONT + 1:-1])
        try:
            self.judge(page)
        except Fault:
            return [one]
        index = bytes([self.segments]) if self.segments < 128 else bytes([0x80 | self.segments >> 8, self.segments & 255])
        return [page, record(COMMENT, b"\0\xDC" + index)] if attribute < 0xE0 else [page]

    def take_other(self, one, fields):
        if one[0] in (NAMES, LOCAL_NAMES):
            while fields.more():
                self.names.append(fields.name())
                self.local.append(one[0] == LOCAL_NAMES)
        elif one[0] & 0xFE in (DATA, REPEATED):
            width = 4 if one[0] & 1 else 2
            segment, offset, at = fields.index(), fields.number(width), fields.at
            own, is_data = bytearray(fields.contents[at:]), one[0] & 0xFE == DATA
            size, number = (len(own), len(self.records)) if is_data else (repeated_size(own, width), None)
            self.data.append((segment, offset, size, number, fields.contents[:at], own))
            self.is_repeated = not is_data
        elif one[0] & 0xFE == FIXUPS and self.is_repeated:
            raise Unread
        else:
            self.judge(one)

    def take_externals(self, fields):
        found = []
        while fields.more():
            found.append((fields.within(), fields.index(), fields.index()))
        for within, name, kind in found:
            if not 1 <= name <= len(self.names):
                raise Fault("21 UndefinedName", within)
            shortest = bytes([kind]) if kind < 128 else bytes([0x80 | kind >> 8, kind & 255])
            self.records.append(record(LOCAL_EXTERNALS if self.local[name - 1] else EXTERNALS, named(self.names[name - 1]) + shortest))

    def take_patches(self, fields, width):
        segment, within = fields.index(), fields.within()
        size = SIZES.get(fields.number(1))
        if size is None or size > width:
            raise Fault("17 LocationType", within)
        items = []
        while fields.more():
            items.append((fields.within(), fields.number(width), fields.number(width)))
        for within, offset, value in items:
            self.patch(within, segment, offset, size, value)

    def patch(self, within, segment, offset, size, value):
        """Adds a value to the last data before it that have a byte of the location, if they have all."""
        for other, first, length, number, front, own in reversed(self.data):
            if other == segment and first < offset + size and offset < first + length:
                at = offset - first
                if number is None:
                    raise Fault("29 FixupOnIterated", within)
                if at < 0 or at + size > length:
                    raise Fault("27 OutsideRecord", within)
                own[at:at + size] = little(int.from_bytes(own[at:at + size], "little") + value, size)
                self.records[number] = record(self.records[number][0], front + own)
                return
        raise Fault("28 NoDataRecord", within)


class Refused(Exception):
    """A module is refused, with this line."""


def lowered_module(bytes_, judge):
    """The bytes of the first module, lowered, and how many it has in the file."""
    made, at, number = Lowered(judge, has_end(bytes_)), 0, 0
    try:
        while not made.records or made.records[-1][0] not in ENDS:
            one = front_record(bytes_[at:])
            made.take(one)
            at, number = at + len(one), number + 1
    except Fault as fault:
        raise Refused(f"refused {fault.reason} record {number} at {at} within {fault.within}\n") from fault
    return b"".join(made.records), at


def lowered(bytes_, file, judge=lambda one: None):
    """The bytes of the lowered modules of a file, without the padding after each; or the line of the first fault, as text."""
    if bytes_[:1] == b"\xF0":
        return f'file "{file}": a library: take its modules out with omf-lib get\n'
    out, at, number = b"", 0, 0
    try:
        while number == 0 or bytes_[at:at + 1] in HEADERS:
            number += 1
            own, size = lowered_module(bytes_[at:], judge)
            out, at = out + own, at + size
            at += len(PADDING.match(bytes_[at:])[0])
    except Refused as fault:
        return f'file "{file}" module {number} {fault}'
    return f'file "{file}" at {at}: neither a module nor padding\n' if at < len(bytes_) else out
