"""An object module of ELF for the i386 as one of OMF, written from the pages of TIS OMF 1.1 and of the i386 ELF supplement, and of nothing else here."""
import collections
import struct

# ELF: section types, flags, section numbers, kinds of symbols, relocations.
SYMTAB, NOBITS, REL = 2, 8, 9
WRITE, ALLOC, EXECUTED = 1, 2, 4
UNDEFINED, ABSOLUTE = 0, 0xFFF1
LOCAL, SECTION = 0, 3
R_32, R_PC32, R_PLT32 = 1, 2, 4

# OMF: the alignment of a SEGDEF by its bytes (a page has 256).
ALIGNMENT = {1: 1, 2: 2, 4: 5, 8: 3, 16: 3, 32: 4, 64: 4, 128: 4, 256: 4}
PUBLIC, USE32 = 2, 1
OFFSET32 = 9
MOST_DATA = 1000

Section = collections.namedtuple("Section", "name type flags data length link info alignment")
Symbol = collections.namedtuple("Symbol", "name value section bind kind")


class Elf:
    """The sections and symbols of a file, and the relocations of each section by its number."""

    def __init__(self, data):
        if data[:7] != b"\x7FELF\x01\x01\x01" or struct.unpack_from("<HH", data, 16) != (1, 3):
            raise ValueError("no object module of ELF for the i386")
        (start,), (_, count, names) = struct.unpack_from("<I", data, 32), struct.unpack_from("<HHH", data, 46)
        heads = [struct.unpack_from("<10I", data, start + 40 * it) for it in range(count)]
        text = heads[names][4]
        self.sections = [
            Section(self.string(data, text + it[0]), it[1], it[2], data[it[4] : it[4] + (0 if it[1] == NOBITS else it[5])], it[5], it[6], it[7], max(it[8], 1)) for it in heads
        ]
        self.symbols, self.relocations = [], {}
        for section in self.sections:
            if section.type == SYMTAB:
                self.symbols = [self.symbol(data, heads[section.link][4], *it) for it in struct.iter_unpack("<IIIBBH", section.data)]
            elif section.type == REL:
                self.relocations[section.info] = [(at, info >> 8, info & 255) for at, info in struct.iter_unpack("<II", section.data)]

    @staticmethod
    def string(data, at):
        return data[at : data.index(b"\0", at)].decode()

    def symbol(self, data, text, name, value, _size, info, _other, section):
        return Symbol(self.string(data, text + name), value, section, info >> 4, info & 15)


def record(kind, body):
    """A record with its length and its checksum."""
    front = bytes([kind]) + struct.pack("<H", len(body) + 1) + body
    return front + bytes([-sum(front) & 255])


def index(number):
    return bytes([number]) if number < 128 else bytes([128 | number >> 8, number & 255])


def named(text):
    return bytes([len(text)]) + text.encode()


class Writer:
    """One module. Each section in memory is a public segment, and the frame of all references is the group FLAT, which has no members."""

    def __init__(self, elf, name, start):
        self.elf, self.name, self.start, self.names = elf, name, start, {}
        self.own = [it for it, section in enumerate(elf.sections) if section.flags & ALLOC and section.length]
        self.segments = {section: number for number, section in enumerate(self.own, 1)}
        undefined = [it for it, symbol in enumerate(elf.symbols) if symbol.section == UNDEFINED and symbol.name]
        self.externals = {symbol: number for number, symbol in enumerate(undefined, 1)}

    def lname(self, text):
        return index(self.names.setdefault(text, len(self.names) + 1))

    def segdef(self, section):
        kind = "CODE" if section.flags & EXECUTED else "CONST" if not section.flags & WRITE else "BSS" if section.type == NOBITS else "DATA"
        attributes = bytes([ALIGNMENT[section.alignment] << 5 | PUBLIC << 2 | USE32])
        names = self.lname(section.name) + self.lname(kind) + self.lname("")
        wide = section.length > 0xFFFF
        return record(0x99 if wide else 0x98, attributes + struct.pack("<I" if wide else "<H", section.length) + names)

    def target(self, symbol):
        """What a symbol is to a FIXUPP: its method with bit 2 where there is no displacement, and its datum and displacement."""
        one = self.elf.symbols[symbol]
        if one.section == UNDEFINED:
            return 6, index(self.externals[symbol])
        segment = index(self.segments[one.section])
        return (0, segment + struct.pack("<I", one.value)) if one.value else (4, segment)

    def fixup(self, symbol, kind, at):
        """A subrecord FIXUP for 32 bits of offset in the frame of the first group, self-relative but for R_386_32."""
        method, datum = self.target(symbol)
        is_segment_relative = kind == R_32
        locat = 0x80 | is_segment_relative << 6 | OFFSET32 << 2 | at >> 8
        return bytes([locat, at & 255, 0x10 | method]) + index(1) + datum

    def pieces(self, section, relocations):
        """The bytes of a section in pieces, none of which ends within a field that is relocated."""
        data, begin = self.elf.sections[section].data, 0
        while begin < len(data):
            end = min(begin + MOST_DATA, len(data))
            end = min([at for at, _, _ in relocations if at < end < at + 4], default=end)
            yield begin, bytearray(data[begin:end]), [it for it in relocations if begin <= it[0] < end]
            begin = end

    def data(self, section):
        """The LEDATAs of a section, each with its FIXUPP."""
        for begin, data, relocations in self.pieces(section, sorted(self.elf.relocations.get(section, []))):
            fixups = b""
            for at, symbol, kind in relocations:
                if kind not in (R_32, R_PC32, R_PLT32):
                    raise ValueError(f"a relocation of type {kind}")
                if kind != R_32:
                    # ELF counts from the field, OMF from its end.
                    addend = struct.unpack_from("<I", data, at - begin)[0]
                    struct.pack_into("<I", data, at - begin, (addend + 4) % 2**32)
                fixups += self.fixup(symbol, kind, at - begin)
            yield record(0xA1, index(self.segments[section]) + struct.pack("<I", begin) + data)
            if fixups:
                yield record(0x9D, fixups)

    def public(self, symbol):
        return record(0x91, index(1) + index(self.segments[symbol.section]) + named(symbol.name) + struct.pack("<I", symbol.value) + index(0))

    def end(self):
        """MODEND: with the start where this is the main module."""
        if not self.start:
            return record(0x8A, b"\x00")
        one = next(it for it in self.elf.symbols if it.name == self.start)
        return record(0x8B, b"\xC1\x10" + index(1) + index(self.segments[one.section]) + struct.pack("<I", one.value))

    def module(self):
        group = self.lname("FLAT")
        segdefs = [self.segdef(self.elf.sections[it]) for it in self.own]
        yield record(0x80, named(self.name))
        yield from (record(0x96, named(it)) for it in self.names)
        yield from segdefs
        yield record(0x9A, group)
        yield from (record(0x8C, named(self.elf.symbols[it].name) + index(0)) for it in self.externals)
        for it in self.elf.symbols:
            if it.bind != LOCAL and it.section in self.segments:
                yield self.public(it)
        for it in self.own:
            if self.elf.sections[it].type != NOBITS:
                yield from self.data(it)
        yield self.end()


def omf_of(elf, name, start=None):
    """The module of OMF with this name; it is the main module if it has a start."""
    return b"".join(Writer(Elf(elf), name, start).module())
