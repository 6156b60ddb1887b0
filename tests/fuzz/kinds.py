"""Made modules with COMDATs, CEXTDEFs, NBKPATs, weak externals and LINNUMs, and what these mean by the standard: modules without COMDATs to link in
their place, the defaults of externals, and the lines of a map."""
import struct
import sys

import libraries
from aliases import asking
from changes import records_of
from libraries import record
from modules import ALIAS, EXTERNALS, LOCAL_EXTERNALS, WEAK, bodies, index_at, lengths_of, name_at, name_places, named_externals, publics_of, quoted, titles_of
from promises import ROOT

sys.path.append(str(ROOT / "tests"))
from lowered import CONTINUED, ITERATED, LOCAL, Fault, Lowered, index_at as next_index, little, named, shortest  # noqa: E402

NAMES, LOCAL_NAMES, SEGMENT, COMDAT, COMDAT_EXTERNALS, FIXUPS, NAMED_BACKPATCH = 0x96, 0xCA, 0x98, 0xC2, 0xBC, 0x9C, 0xC8
COMMENT, PUBLIC, GROUP, DATA, LINES, HEADERS = 0x88, 0x90, 0x9A, (0xA0, 0xA1, 0xA2, 0xA3), (0x94, 0x95), (0x80, 0x82)
# Names that no made module defines by a PUBDEF, as long as those that they do.
COMDATS = (b"x", b"y", b"z")
NEVER, ANY, SAME_SIZE, SAME_DATA = range(4)
FAR_CODE, FAR_DATA, WITH_BASE = 1, 2, 0
# The combine types of segments that a COMDAT may be based on.
JOINED = (2, 4, 7)
# How much more often a made module asks for a name that is defined.
OFTEN = 16


def parts_of(module):
    return [bytes(it) for it in records_of(module)[0]]


def count_names(parts):
    """The number of names in LNAMES and LLNAMES."""
    found = 0
    for one in parts:
        at = 3
        while one[0] in (NAMES, LOCAL_NAMES) and at < len(one) - 1:
            found, at = found + 1, at + 1 + one[at]
    return found


def based_on(module):
    """The indices of the segments that a COMDAT may be based on."""
    attributes = [body[0] for _, body in bodies(module, (SEGMENT, SEGMENT + 1))]
    return [at for at, it in enumerate(attributes, 1) if it >> 2 & 7 in JOINED]


class Body:
    """The data of a COMDAT, in one or two records, and the item of its NBKPAT, if it has one."""

    def __init__(self, random_):
        self.pieces = [random_.randbytes(random_.randrange(6, 14)) for _ in range(random_.choice((1, 1, 2)))]
        self.repeats = random_.randrange(1, 4) if random_.randrange(8) == 0 else 0
        self.patch = (random_.randrange(len(self.pieces[0]) - 1), random_.getrandbits(16)) if random_.randrange(3) == 0 else None

    def items(self):
        """The offset and the contents of each record, and whether they are repeated data."""
        at = 0
        for one in self.pieces:
            yield at, one, False
            at += len(one)
        if self.repeats:
            yield at, little(self.repeats, 2) + little(0, 2) + named(b"ab"), True


class Plan:
    """What the COMDATs of this number of modules are like: the names of each module's, and for each name its selection, where its segment is, and two
    bodies."""

    def __init__(self, random_, count):
        self.random = random_
        self.names = [random_.sample(COMDATS, random_.choice((0, 1, 1, 2, 3))) for _ in range(count)]
        self.defined = sorted({it for one in self.names for it in one})
        self.selections = {it: random_.choice((ANY,) * 4 + (SAME_SIZE,) * 3 + (SAME_DATA,) * 4 + (NEVER,)) for it in COMDATS}
        self.allocations = {it: random_.choice((WITH_BASE, FAR_CODE, FAR_DATA)) for it in COMDATS}
        self.contents = {it: [Body(random_) for _ in range(2)] for it in COMDATS}

    def body(self, name):
        is_varied = self.selections[name] == ANY or self.random.randrange(8) == 0
        return self.contents[name][is_varied and self.random.randrange(2)]

    def records(self, name, index, is_local, bases, fixups):
        """The COMDAT with this name, which may be local. `fixups` makes some, for data of a size."""
        random_, body = self.random, self.body(name)
        allocation = self.allocations[name] if self.allocations[name] != WITH_BASE or bases else FAR_CODE
        selection = self.selections[name] if random_.randrange(24) else random_.randrange(4)
        base = b"\0" + shortest(random_.choice(bases)) if allocation == WITH_BASE else b""
        flags, made = LOCAL if is_local and random_.randrange(4) else 0, []
        for offset, data, is_repeated in body.items():
            head = bytes([flags | ITERATED * is_repeated, selection << 4 | allocation, random_.randrange(3)])
            made.append(record(COMDAT, head + little(offset, 2) + b"\0" + base + shortest(index) + data))
            flags |= CONTINUED
            if not is_repeated and random_.randrange(2):
                made.append(record(FIXUPS, fixups(len(data))))
        if body.patch:
            at, value = body.patch
            made.append(record(NAMED_BACKPATCH, b"\x01" + shortest(index) + little(at, 2) + little(value, 2)))
        return made


def with_comdats(random_, module, plan, defined, fixup):
    """A made module with these COMDATs at its end, and CEXTDEFs before them. `fixup` makes one at an offset, as in the module's other data."""
    *parts, end = parts_of(module)
    names = plan.defined if random_.randrange(8) else COMDATS
    asked = random_.sample(names, random_.randrange(len(names) + 1))
    first, names = count_names(parts) + 1, list(dict.fromkeys([*defined, *asked]))
    if not names:
        return module
    local = [it for it in defined if random_.randrange(12) == 0]
    names = [it for it in names if it not in local]
    indices = {it: at for at, it in enumerate(names + local, first)}
    parts += [record(kind, b"".join(map(named, some))) for kind, some in ((NAMES, names), (LOCAL_NAMES, local)) if some]
    if asked:
        parts.append(record(COMDAT_EXTERNALS, b"".join(shortest(indices[it]) + b"\0" for it in asked)))
    segments, groups = titles_of(module)
    externals = len(named_externals(module)) + len(asked)

    def fixups(size):
        return b"".join(fixup(random_, at, len(segments), len(groups) > 0, externals) for at in range(0, size - 5, 6))
    for name in defined:
        parts += plan.records(name, indices[name], name in local, based_on(module), fixups)
    return b"".join([*parts, end])


def by_index(random_, module):
    """The module with CEXTDEFs in place of some of its EXTDEFs and LEXTDEFs: of those after its last names, whose indices stay."""
    made, count, whole = [], 0, count_names(parts_of(module))
    for one in parts_of(module):
        count += count_names([one])
        if one[0] in EXTERNALS + LOCAL_EXTERNALS and count >= whole and random_.randrange(2):
            body = one[3:-1]
            names = [body[begin:end] for begin, end in name_places(one[0], body)]
            made.append(record(LOCAL_NAMES if one[0] in LOCAL_EXTERNALS else NAMES, b"".join(map(named, names))))
            one = record(COMDAT_EXTERNALS, b"".join(shortest(at) + b"\0" for at in range(count + 1, count + len(names) + 1)))
            count += len(names)
        made.append(one)
    return b"".join(made)


def with_weak(random_, module, count):
    """A module of this many externals with a comment that has defaults for some of them."""
    *parts, end = parts_of(module)
    pairs = [random_.sample(range(1, count + 1), 2) for _ in range(random_.randrange(1, 4))]
    body = b"".join(shortest(it) for pair in pairs for it in pair)
    return b"".join([*parts, record(COMMENT, random_.choice((b"\0", b"\x80")) + random_.choice(WEAK) + body), end])


def with_aliases(module, pairs):
    """A module with an ALIAS record of these pairs at its end."""
    *parts, end = parts_of(module)
    body = b"".join(named(it.encode()) for pair in pairs for it in pair)
    return b"".join([*parts, *([record(ALIAS[0], body)] if pairs else []), end])


def with_defaults(random_, module, pairs):
    """A module with a comment for each pair of names: the weak or lazy external, and its default. Names that are no externals yet have an EXTDEF."""
    *parts, end = parts_of(module)
    pairs = [[it.encode() for it in pair] for pair in pairs]
    names = [name for name, _ in named_externals(module)]
    more = [it for it in dict.fromkeys(it for pair in pairs for it in pair) if it not in names]
    indices = {name: at for at, name in enumerate(names + more, 1)}
    parts += [record(EXTERNALS[0], named(it) + b"\0") for it in more]
    parts += [record(COMMENT, b"\x80" + random_.choice(WEAK) + b"".join(shortest(indices[it]) for it in pair)) for pair in pairs]
    return b"".join([*parts, end])


def with_lines(random_, module):
    """A made module with some LINNUMs."""
    *parts, end = parts_of(module)
    count = len(titles_of(module)[0])
    for _ in range(random_.randrange(1, 3)):
        wide = random_.randrange(4) == 0
        items = b"".join(little(random_.randrange(1, 400), 2) + little(random_.randrange(9), 4 if wide else 2) for _ in range(random_.randrange(1, 4)))
        parts.append(record(LINES[wide], b"\0" + shortest(random_.randrange(count) + 1) + items))
    return b"".join([*parts, end])


def externals_in(module):
    """The number of externals, also of CEXTDEFs."""
    found = len(named_externals(module))
    for _, body in bodies(module, (COMDAT_EXTERNALS,)):
        at = 0
        while at < len(body):
            _, at = index_at(body, at)
            _, at = index_at(body, at)
            found += 1
    return found


def various(random_, modules, fixup):
    """The made modules, some with records of these kinds. Mostly they ask for names that they define."""
    plan, made = Plan(random_, len(modules)), []
    is_wide = random_.randrange(4) > 0
    names = [it[0] for one in modules for it in publics_of(one)] + plan.defined * is_wide
    for number, one in enumerate(modules):
        one = asking(random_, one, names * OFTEN) if names and random_.randrange(8) else one
        one = by_index(random_, one) if random_.randrange(3) == 0 else one
        one = with_lines(random_, one) if random_.randrange(3) == 0 else one
        one = with_comdats(random_, one, plan, plan.names[number], fixup) if is_wide else one
        count = externals_in(one)
        made.append(with_weak(random_, one, count) if count > 1 and random_.randrange(3) == 0 else one)
    return made


def instance_at(records, at):
    """The name and the selection of the COMDAT whose lowered segment is defined here, or None."""
    rest = records[at + 1:at + 3]
    is_one = records[at][0] & 0xFE == SEGMENT and len(rest) == 2 and rest[0][0] & 0xFE == PUBLIC and rest[1][4:-2] == b"\xDCCOMDAT"
    if not is_one:
        return None
    place = next_index(rest[0], 3)[1]
    segment, place = next_index(rest[0], place)
    return rest[0][place + 1:place + 1 + rest[0][place]], rest[1][-2], segment


class Instance:
    """A COMDAT of a module: its selection, its size, and its data with the values of its NBKPATs."""

    def __init__(self, records, at):
        self.name, self.selection, segment = instance_at(records, at)
        self.size = struct.unpack_from("<I", records[at], 4)[0]
        self.data = [(one[0], one[3:-1]) for one in records if one[0] in DATA and next_index(one, 3)[0] == segment]
        self.data = [(kind, body[next_index(body, 0)[1]:]) for kind, body in self.data]

    def takes(self, other):
        return {NEVER: False, ANY: True, SAME_SIZE: self.size == other.size, SAME_DATA: self.size == other.size and self.data == other.data}[self.selection]


def instances(records):
    return [Instance(records, at) for at in range(len(records)) if instance_at(records, at)]


def left_out(lowered):
    """Of each module the names of its COMDATs that are left out: those that agree with the first of the name in a module before."""
    first, gone = {}, []
    for records in lowered:
        own = instances(records)
        gone.append({it.name for it in own if it.name in first and it.takes(first[it.name]) and first[it.name].takes(it)})
        for one in own:
            first.setdefault(one.name, one)
    return gone


def threads_of(kind, body):
    """The THREADs of a FIXUPP."""
    at, found = 0, b""
    while at < len(body):
        begin, byte = at, body[at]
        if byte & 0x80 == 0:
            has_index = byte & 0x40 == 0 or byte >> 2 & 7 < 3
            at = next_index(body, at + 1)[1] if has_index else at + 1
            found += body[begin:at]
            continue
        data, at = body[at + 2], at + 3
        for has_index in (data & 0x80 == 0 and data >> 4 & 7 < 3, data & 8 == 0):
            at = next_index(body, at)[1] if has_index else at
        at += 0 if data & 4 else 4 if kind & 1 else 2
    return found


def comdat_name(one, names):
    """The name of a COMDAT or NBKPAT record, and whether an LLNAMES has it."""
    body = one[3:-1]
    if one[0] & 0xFE == NAMED_BACKPATCH:
        return names[next_index(body, 1)[0] - 1]
    _, at = next_index(body, 5 + 2 * (one[0] & 1))
    for _ in range(2 if body[1] & 15 == 0 else 0):
        _, at = next_index(body, at)
    return names[next_index(body, at)[0] - 1]


def without(records, gone):
    """The records of a module without its COMDATs of these names, their NBKPATs and their fixups, but with the THREADs."""
    made, names, is_gone, local = [], [], False, set()
    for one in records:
        kind, body = one[0], one[3:-1]
        at = 0
        while kind in (NAMES, LOCAL_NAMES) and at < len(body):
            names.append((body[at + 1:at + 1 + body[at]], kind == LOCAL_NAMES))
            at += 1 + body[at]
        if kind & 0xFE == COMDAT or kind in DATA:
            is_gone = False
        if kind & 0xFE in (COMDAT, NAMED_BACKPATCH):
            name, is_local = comdat_name(one, names)
            local |= {name} if is_local else set()
            is_left_out = name in gone and name not in local
            is_gone = is_left_out if kind & 0xFE == COMDAT else is_gone
            if is_left_out:
                continue
        if kind & 0xFE == FIXUPS and is_gone:
            one = record(kind, threads_of(kind, body))
        made.append(one)
    return made


def plain(modules):
    """The modules without the COMDATs that are left out, and lowered, and the same with all COMDATs; None where this reader does not read one."""
    try:
        if any(libraries.module_length(it) != len(it) for it in modules):
            return None
        records = [parts_of(it) for it in modules]
        lowered = [Lowered(it).records for it in records]
        rest = [Lowered(without(parts, gone)).records for parts, gone in zip(records, left_out(lowered))]
    except (Fault, IndexError, KeyError, ValueError, struct.error):
        return None
    return [b"".join(it) for it in rest], [b"".join(it) for it in lowered]


def has_lines(module):
    return any(True for _ in bodies(module, LINES))


def map_lines(module, number, places):
    """The lines of a map for the LINNUMs of the module with this number, at the places of its segments, but for those at the end of their segment or after it. One whose last
    item is cut has none, nor one of a group or segment that the module does not have."""
    lengths, groups = list(lengths_of(module)), sum(1 for _ in bodies(module, (GROUP,)))
    source = next((name_at(body, 0)[0] for _, body in bodies(module, HEADERS)), b"")
    for kind, body in bodies(module, LINES):
        width = 4 if kind & 1 else 2
        group, at = index_at(body, 0)
        segment, at = index_at(body, at)
        if group > groups or not 0 < segment <= len(lengths):
            continue
        begin, base, selector = places[0][segment - 1]
        for item in range(at, len(body), 2 + width) if (len(body) - at) % (2 + width) == 0 else ():
            line, offset = (int.from_bytes(body[it:it + size], "little") for it, size in ((item, 2), (item + 2, width)))
            if offset < lengths[segment - 1]:
                yield f"line {selector:04X}:{begin - base + offset:04X} {number} {line} {quoted(source)}"
