"""What a linker needs of a module: its externals, publics and aliases, read here by the standard; and which members of a library are needed."""
import collections
import re
import struct

import libraries
from changes import records_of
from libraries import record

EXTERNALS, COMMUNALS = (0x8C,), (0xB0,)
PUBLICS = (0x90, 0x91)
LISTS, SEGMENTS, GROUPS = (0x96, 0xCA), (0x98, 0x99), (0x9A,)
LOCALS = (0xB4, 0xB5, 0xB6, 0xB7, 0xB8, 0xB9)
LOCAL_PUBLICS, LOCAL_COMMUNALS = (0xB6, 0xB7), (0xB8, 0xB9)
LOCAL_EXTERNALS = (0xB4, 0xB5)
COMMENTS, ALIAS = (0x88,), (0xC6,)
# The comments that pair an external with its default, by their class.
WEAK = (b"\xA8", b"\xA9")
NAMED = EXTERNALS + COMMUNALS + PUBLICS + LOCALS + ALIAS
# How many aliases are followed from one name.
MOST_ALIASES = 64
ENDS = (0x8A, 0x8B)
MOST_MEMBER = 4096
TWICE = re.compile(rb'(?:twice "[^"]*": .*\n)+')
# Lines that follow the lines of the names: of a COMDAT that is not left out, and of a circle of aliases.
KEPT = re.compile(rb'(?m)^(?:comdat "[^"]*": .* is not left out: (?:no match|same size|exact match)|aliases in a circle: .*)\n')
UNRESOLVED = re.compile(rb'(?:(?:undefined|twice) "[^"]*": .*\n)+')


def index_at(body, at):
    """An index of one byte or two, and the offset after it."""
    return (body[at], at + 1) if body[at] < 0x80 else ((body[at] & 0x7F) << 8 | body[at + 1], at + 2)


def name_at(body, at):
    return body[at + 1:at + 1 + body[at]], at + 1 + body[at]


def bodies(bytes_, kinds):
    """The type and the body of each record of these types, without the checksum, up to the MODEND."""
    for one in records_of(bytes_)[0]:
        if one[0] in kinds:
            yield one[0], bytes(one[3:-1])
        if one[0] in ENDS:
            return


def after_number(body, at):
    """The offset after a communal's length."""
    return at + 1 + {0x81: 2, 0x84: 3, 0x88: 4}.get(body[at], 0)


def named_externals(bytes_):
    """The name of each external and communal, by their indices, and whether it is local."""
    kinds = EXTERNALS + COMMUNALS + LOCAL_EXTERNALS + LOCAL_COMMUNALS
    return [(body[begin:end], kind in LOCALS) for kind, body in bodies(bytes_, kinds) for begin, end in name_places(kind, body)]


def externals_of(bytes_):
    """The names of the externals and the communals that are not local, by their indices where none is."""
    return [name for name, is_local in named_externals(bytes_) if not is_local]


def communals_of(bytes_):
    """The names of the communals that are not local."""
    return [body[begin:end] for kind, body in bodies(bytes_, COMMUNALS) for begin, end in name_places(kind, body)]


def publics_of(bytes_):
    """The name, the group, the segment, the frame (where both are 0) and the offset of each public."""
    found = []
    for kind, body in bodies(bytes_, PUBLICS):
        group, at = index_at(body, 0)
        segment, at = index_at(body, at)
        frame = None
        if segment == 0:
            frame, at = struct.unpack_from("<H", body, at)[0], at + 2
        while at < len(body):
            name, at = name_at(body, at)
            offset = int.from_bytes(body[at:at + (4 if kind & 1 else 2)], "little")
            _, at = index_at(body, at + (4 if kind & 1 else 2))
            found.append((name, group, segment, frame, offset))
    return found


def lengths_of(bytes_):
    """The length of each segment."""
    for kind, body in bodies(bytes_, SEGMENTS):
        at, size = 4 if body[0] >> 5 == 0 else 1, 4 if kind & 1 else 2
        yield 1 << 8 * size if body[0] & 2 else int.from_bytes(body[at:at + size], "little")


def titles_of(bytes_):
    """The name and the class of each segment, and the name of each group, by their indices. A name that is missing is empty."""
    names, segments, groups = [b""], [], []
    for kind, body in bodies(bytes_, LISTS + SEGMENTS + GROUPS):
        at = 0
        while kind in LISTS and at < len(body):
            name, at = name_at(body, at)
            names.append(name)
        if kind in GROUPS:
            groups.append(names[index_at(body, 0)[0]])
        elif kind in SEGMENTS:
            name, at = index_at(body, (4 if body[0] >> 5 == 0 else 1) + (4 if kind & 1 else 2))
            segments.append((names[name], names[index_at(body, at)[0]]))
    return segments, groups


def listed_places(body):
    """Where names one after another begin and end; none if the last one is cut."""
    places, at = [], 0
    while at < len(body):
        places.append((at + 1, at + 1 + body[at]))
        at = places[-1][1]
    return places if at == len(body) else []


def name_places(kind, body):
    """Where the names of a record of aliases, publics, externals or communals, local or not, begin and end in its body."""
    if kind in ALIAS:
        yield from listed_places(body)
        return
    at, is_public = 0, kind in PUBLICS or kind in LOCAL_PUBLICS
    if is_public:
        _, at = index_at(body, at)
        segment, at = index_at(body, at)
        at += 0 if segment else 2
    while at < len(body):
        begin = at + 1
        _, at = name_at(body, at)
        yield begin, at
        _, at = index_at(body, at + (4 if kind & 1 else 2) if is_public else at)
        if kind in COMMUNALS or kind in LOCAL_COMMUNALS:
            count, at = (2 if body[at] == 0x61 else 1), at + 1
            for _ in range(count):
                at = after_number(body, at)


def pairs_of(bytes_):
    """Each alias and its substitute, in order. A record that ends within a name has none, and a name that is left over makes no pair."""
    for kind, body in bodies(bytes_, ALIAS):
        names = [body[begin:end] for begin, end in name_places(kind, body)]
        yield from zip(names[::2], names[1::2])


def weak_indices(bytes_):
    """The indices of the weak externals: the first of each pair in the comments of class A8H."""
    for _, body in bodies(bytes_, COMMENTS):
        at, found = 2, []
        while body[1:2] == WEAK[0] and at < len(body):
            index, at = index_at(body, at)
            found.append(index)
        yield from (index for index, _ in zip(found[::2], found[1::2]))


def defaults_of(bytes_):
    """The defaults of each external that has some, by their indices."""
    found = {}
    for _, body in bodies(bytes_, COMMENTS):
        at, indices = 2, []
        while body[1:2] in WEAK and at < len(body):
            index, at = index_at(body, at)
            indices.append(index)
        for weak, default in zip(indices[::2], indices[1::2]):
            found.setdefault(weak, []).append(default)
    return found


def with_names(bytes_, spelled):
    """The module with each name of a public, an external, a communal or an alias as `spelled` gives it, which is as long."""
    made = []
    for one in records_of(bytes_)[0]:
        if one[0] in NAMED:
            body = bytes(one[3:-1])
            for begin, end in name_places(one[0], body):
                one[3 + begin:3 + end] = spelled(body[begin:end])
            one[-1] = 0
        made.append(bytes(one))
    return b"".join(made)


def has_defaults(bytes_):
    """Whether an external has a default of its own: a weak or a lazy one."""
    return any(body[1:2] in WEAK for _, body in bodies(bytes_, COMMENTS))


def is_open(bytes_):
    """One module alone, without a record of local names or of communals, and with defaults that are externals."""
    try:
        pairs, count = defaults_of(bytes_), len(named_externals(bytes_))
    except IndexError:
        return False
    if not all(1 <= it <= count for weak, own in pairs.items() for it in (weak, *own)):
        return False
    return not any(True for _ in bodies(bytes_, LOCALS + COMMUNALS)) and libraries.module_length(bytes_) == len(bytes_)


def is_simple(bytes_):
    """One module alone, without a record of local names or of communals and without weak externals, so that each external has the public of its name."""
    return is_open(bytes_) and not has_defaults(bytes_)


def is_main(bytes_):
    return any(body[0] & 0x80 and body[0] & 0x40 for _, body in bodies(bytes_, ENDS))


def quoted(name):
    return '"' + "".join(chr(it) if 0x20 <= it <= 0x7E and it not in b'"\\' else f"\\x{it:02X}" for it in name) + '"'


def end_of(name, defined, substitutes):
    """The first name on the way from a name that is defined, or no alias; None after MOST_ALIASES, as in a circle."""
    for _ in range(MOST_ALIASES + 1):
        if name in defined or name not in substitutes:
            return name
        name = substitutes[name]
    return None


def ends_of(modules):
    """Where each alias leads that these modules do not define: to a name, or to None. Of two substitutes of an alias the first counts."""
    defined, substitutes = {it for one in modules for it in (*communals_of(one), *(public[0] for public in publics_of(one)))}, {}
    for alias, substitute in (it for one in modules for it in pairs_of(one)):
        substitutes.setdefault(alias, substitute)
    return {name: end_of(name, defined, substitutes) for name in substitutes if name not in defined}


def asked_names(module, ends):
    """The names that a module asks for: those of its externals, and then those to which these lead."""
    names = externals_of(module)
    return names + [ends[it] for it in names if ends.get(it) is not None]


def unresolved_lines(modules, places, follows=False):
    """A line for each name of an external that has no public, or more than one: in the order of the externals, with the places of the modules that ask
    for it, or define it; where aliases are followed, of the names to which they lead too. None where a module defines a name twice."""
    publics = [[it[0] for it in publics_of(one)] for one in modules]
    if any(len(set(it)) < len(it) for it in publics):
        return None
    ends = ends_of(modules) if follows else {}
    asked, counts = [asked_names(it, ends) for it in modules], collections.Counter(it for one in publics for it in one)
    lines = []
    for name in dict.fromkeys(it for one in asked for it in one):
        definers, askers = ([place for place, names in zip(places, lists) if name in names] for lists in (publics, asked))
        if len(definers) != 1 and counts[ends.get(name)] != 1:
            lines.append(f"{'twice' if definers else 'undefined'} {quoted(name)}: {', '.join(definers or askers)}\n")
    return "".join(lines).encode()


def repeated_lines(modules, places):
    """A line for each name that more than one of the modules defines, in ascending order, with their places."""
    publics = [{it[0] for it in publics_of(one)} for one in modules]
    definers = {name: [place for place, names in zip(places, publics) if name in names] for name in sorted(set().union(*publics))}
    return "".join(f"twice {quoted(name)}: {', '.join(own)}\n" for name, own in definers.items() if len(own) > 1).encode()


def provider(names, starts):
    """A module with a public for each of these names, once, in a segment of their number of bytes; perhaps the main one."""
    names = sorted(set(names))[:200]
    size = len(names) + 1
    made = record(0x80, b"\x01P") + record(0x96, b"\x00\x05_TEXT\x04CODE") + record(0x98, b"\x28" + struct.pack("<H", size) + b"\x02\x03\x01")
    made += b"".join(record(0x90, b"\x00\x01" + bytes([len(it)]) + it + struct.pack("<HB", number, 0)) for number, it in enumerate(names))
    made += record(0xA0, b"\x01\x00\x00" + bytes(range(0x10, 0x10 + min(size, 100))))
    return made + record(0x8A, b"\xC1\x00\x01\x01\x00\x00" if starts else b"\x00")


def as_library(modules):
    return libraries.library([(it, ()) for it in modules], blocks=bytes(libraries.BLOCK))


def defined_names(bytes_):
    """The names that a member is taken for: its publics and its aliases."""
    return [it[0] for it in publics_of(bytes_)] + [alias for alias, _ in pairs_of(bytes_)]


def needed_names(bytes_):
    """The names that a module needs members for: its externals, but for local and weak ones, and the substitutes of its aliases."""
    weak = {*weak_indices(bytes_)}
    externals = [name for index, (name, is_local) in enumerate(named_externals(bytes_), 1) if not is_local and index not in weak]
    return externals + [substitute for _, substitute in pairs_of(bytes_)]


def members_needed(files, members):
    """The numbers of the members that are taken: a name that a file or a taken member needs, and no file defines, takes the first member that defines it.
    None where a module is not read."""
    try:
        defined, first, taken = {name for one in files for name in defined_names(one)}, {}, set()
        for number, one in enumerate(members):
            for name in defined_names(one):
                first.setdefault(name, number)
        queue = [*files]
        while queue:
            more = {first[it] for it in needed_names(queue.pop()) if it in first and it not in defined} - taken
            taken |= more
            queue += [members[it] for it in more]
        return sorted(taken)
    except (IndexError, struct.error):
        return None
