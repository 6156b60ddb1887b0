"""DOS programs (MZ files) as DOS loads them, and modules to link them of: made and read by the published formats, apart from the crates."""
import re
import struct
import subprocess

from libraries import record
from modules import GROUPS, SEGMENTS, bodies, defaults_of, ends_of, index_at, lengths_of, named_externals, publics_of, quoted, titles_of

PARAGRAPH = 16
COM_FRONT = 0x100
LOCATIONS = (1, 1, 2, 2, 3, 3, 3, 0, 4, 5, 9, 13, 11)
NEAR_LOCATIONS = (1,) * 40 + (5, 9, 13, 2)
# The methods of frames: mostly of the target.
FRAMES = (5, 5, 5, 4, 0, 1, 2)
NAMES = (b"f", b"g", b"h")


def loaded(file, paragraph):
    """What DOS makes of a file at a paragraph: the bytes from there on, CS and IP, and the number of bytes of memory."""
    mark, last, pages, words, head, least, _, stack, pointer, checksum, ip, cs, table, overlay = struct.unpack_from("<2s13H", file)
    if (mark, checksum, overlay) != (b"MZ", 0, 0) or len(file) != 512 * pages - (512 - last if last else 0):
        raise ValueError("the header")
    image = bytearray(file[PARAGRAPH * head:])
    for number in range(words):
        offset, segment = struct.unpack_from("<2H", file, table + 4 * number)
        at = PARAGRAPH * segment + offset
        word = struct.unpack_from("<H", image, at)[0]
        struct.pack_into("<H", image, at, (word + paragraph) % 65536)
    return bytes(image), ((cs + paragraph) % 65536, ip), len(image) + PARAGRAPH * least


def loaded_com(file, paragraph):
    """What DOS makes of a .COM file at a paragraph: the bytes from there on, CS and IP, and the number of bytes of memory."""
    return bytes(COM_FRONT) + file, (paragraph, COM_FRONT), COM_FRONT + len(file)


def segment_frames(text, absolute):
    """The frames of the segments of a drafted text that are absolute, or of those that are not."""
    frames = set()
    for line in text.decode().splitlines():
        segment = re.match(r'S (?:#\d+|"[^"]*"(?: "[^"]*")?) ([0-9A-F]+) (?:real|([0-9A-F]+) [0-9A-F]+)', line)
        if segment and (" absolute " in line) == absolute:
            frames.add(int(segment[2], 16) if segment[2] else int(segment[1], 16) // PARAGRAPH * PARAGRAPH)
    return frames


def empty_groups(modules):
    """The names of groups, as a text has them, of which no module's GRPDEF has a member."""
    groups = [(title, body[index_at(body, 0)[1]:]) for one in modules for title, (_, body) in zip(titles_of(one)[1], bodies(one, GROUPS))]
    return {quoted(title) for title, _ in groups} - {quoted(title) for title, members in groups if members}


def moved(text, paragraph, empty=frozenset()):
    """A drafted text with all that is not absolute this number of paragraphs higher, and with one frame for the groups of a name: the lowest. A group
    whose frame is that of an absolute segment stays, and one of these names, which has no members."""
    lines, modules = text.decode().splitlines(), 0
    stay = segment_frames(text, True) - segment_frames(text, False)
    frames = {}
    for key, base in re.findall(r"^G (\S+) (\S+) ", text.decode(), re.M):
        frames[key] = min(frames.get(key, 1 << 20), int(base, 16))
    made = []
    for line in lines:
        segment = re.match(r'S (#\d+|"[^"]*"(?: "[^"]*")?) ([0-9A-F]+) (?:real|([0-9A-F]+) ([0-9A-F]+))', line)
        if line.startswith("M "):
            modules += 1
            line = f"M #{modules}"
        elif segment and " absolute " not in line:
            frame = f"{int(segment[3], 16) + PARAGRAPH * paragraph:X} {int(segment[4], 16) + paragraph:X}" if segment[3] else "real"
            line = f"S {segment[1]} {int(segment[2], 16) + PARAGRAPH * paragraph:X} {frame}"
        elif line.startswith("G "):
            key = line.split()[1]
            by = 0 if frames[key] in stay or key in empty else paragraph
            line = f"G {key} {frames[key] + PARAGRAPH * by:X} {frames[key] // PARAGRAPH + by:X}"
        made.append(line)
    return ("\n".join(made) + "\n").encode()


def least_memory(text):
    """The end of the highest segment of a drafted text that is not absolute."""
    found = re.findall(r'^S (?:#\d+|"[^"]*"(?: "[^"]*")?) ([0-9A-F]+) [^;]*; (?:(?! absolute ).)* length (\d+)', text.decode(), re.M)
    return max((int(at, 16) + int(length) for at, length in found), default=0)


def with_frames(text, modules):
    """A drafted text of these modules in which each line has its frame: `shared` is the frame of the first line for the name and class, or for the group name."""
    titles, frames, made = iter([titles_of(it) for it in modules]), {}, []
    for line in text.decode().splitlines():
        found = re.match(r'([MSG]) (?:#\d+|"[^"]*"(?: "[^"]*")?)', line)
        if found and found[1] == "M":
            left = dict(zip("SG", map(iter, next(titles))))
        elif found:
            said, mark, comment = line[found.end():].partition(" ;")
            words, title = said.split(), (found[1], next(left[found[1]]))
            frame = [f"{int(words[0], 16) // PARAGRAPH * PARAGRAPH:X}", f"{int(words[0], 16) // PARAGRAPH:X}"] if words[-1] == "real" else words[-2:]
            if words[-1] == "shared":
                frame = frames[title]
            elif " absolute " not in comment:
                frames.setdefault(title, frame)
            line = " ".join([found[0], *words[:found[1] == "S"], *frame]) + mark + comment
        made.append(line)
    return ("\n".join(made) + "\n").encode()


def places_in(text):
    """The places of segments and the frames of groups, by module and index, of a text whose lines are in the order of the indices."""
    places = []
    for line in text.decode().splitlines():
        found = re.match(r'([MSG]) (?:#\d+|"[^"]*"(?: "[^"]*")?) ?(.*?)(?: ;.*)?$', line)
        if found and found[1] == "M":
            places.append(([], []))
        elif found:
            numbers = found[2].split()
            if numbers[-1] == "real" and found[1] == "S":
                at = int(numbers[0], 16)
                numbers = [at, at // PARAGRAPH * PARAGRAPH, at // PARAGRAPH]
            else:
                numbers = [int(it, 16) for it in numbers]
            places[-1]["SG".index(found[1])].append(numbers)
    return places


# The number of bytes that a segment's place is a multiple of, by its alignment type A.
ALIGNMENTS = {1: 1, 2: 2, 3: 16, 4: 256, 5: 4}


def stack_segments(text, modules):
    """The stack's segments (C = 5, not absolute): the place of each in a drafted text of the modules, its length, its attribute byte and its title."""
    for one, (segments, _) in zip(modules, places_in(with_frames(text, modules))):
        for (_, body), length, title, place in zip(bodies(one, SEGMENTS), lengths_of(one), titles_of(one)[0], segments):
            if body[0] >> 5 and body[0] >> 2 & 7 == 5:
                yield place, length, body[0], title


def stack_pointer(text, modules):
    """SS and SP of modules at a drafted text: the frame of the lowest segment of the stack that has a byte, and the end of the last one. Empty segments
    count where there are no others."""
    parts = [(place, size) for place, size, _, _ in stack_segments(text, modules)]
    parts = [it for it in parts if it[1]] or parts
    if not parts:
        return 0, 0
    _, base, selector = min((place for place, _ in parts), key=lambda it: it[0])
    return selector, (max(place[0] + size for place, size in parts) - base) % 65536


def stack_byte(text, modules):
    """The module that omf-link adds to an .EXE whose stack has an odd length: a part of one byte after the last one; None for another stack. `text` is a
    drafted text of the modules."""
    parts, length = [], 0
    for place, size, attribute, title in stack_segments(text, modules):
        parts.append((place[0], len(parts), size, ALIGNMENTS.get(attribute >> 5, 1), attribute & 1, title))
    for _, _, size, alignment, _, _ in sorted(parts):
        length = -(-length // alignment) * alignment + size
    if length % 2 == 0:
        return None
    *_, wide, (name, title) = max(parts)
    names = record(0x96, b"".join(bytes([len(it)]) + it for it in (title, name)))
    return record(0x80, b"\x05stack") + names + record(0x98, bytes([0x34 | wide, 1, 0, 2, 1, 0])) + record(0x8A, b"\0")


def public_place(places, group, segment, frame, offset):
    """The address, the base and the selector of a public: its frame is its group's, else its segment's, else the paragraph that it names."""
    segments, groups = places
    at, base, selector = segments[segment - 1] if segment else (PARAGRAPH * frame, PARAGRAPH * frame, frame)
    return (at + offset, *(groups[group - 1] if group else (base, selector)))


def public_places(modules, places):
    """The place of each public of modules, and of each alias of one."""
    found = {one[0]: public_place(there, *one[1:]) for module_, there in zip(modules, places) for one in publics_of(module_)}
    return found | {name: found[end] for name, end in ends_of(modules).items() if end in found}


def candidates(modules):
    """Of each external of modules, in their order, the names that may give its place: its own and its defaults' names, and the end of the aliases of
    the first default, or of its own name without one. That end is None if there is no alias."""
    ends = ends_of(modules)
    for one in modules:
        names, defaults = [name for name, _ in named_externals(one)], defaults_of(one)
        for index, name in enumerate(names, 1):
            own = [names[it - 1] for it in defaults.get(index, ())]
            followed = own[0] if own else name
            yield [name, *own], ends.get(followed)


def map_rows(modules, places):
    """The lines of a map for the segments, the groups and the publics of modules, by the first word of each."""
    rows = {"segment": [], "group": [], "public": []}
    publics = []
    for number, (one, there) in enumerate(zip(modules, places), 1):
        titles = titles_of(one)
        for index, (title, length, place) in enumerate(zip(titles[0], lengths_of(one), there[0]), 1):
            rows["segment"].append(f"segment {number} {index} {place[0]:08X} {length:08X} {quoted(title[0])} {quoted(title[1])}")
        for index, (title, frame) in enumerate(zip(titles[1], there[1]), 1):
            rows["group"].append(f"group {number} {index} {frame[1]:04X} {quoted(title)}")
        for name, *where in publics_of(one):
            at, base, selector = public_place(there, *where)
            rows["public"].append(f"public {number} {at:08X} {quoted(name)}")
            publics.append((name, at, f"{selector:04X}:{at - base:04X} {quoted(name)}" if at >= base else f"- {quoted(name)}"))
    rows["name"] = [f"name {it[2]}" for it in sorted(publics, key=lambda it: it[0])]
    rows["value"] = [f"value {it[2]}" for it in sorted(publics, key=lambda it: (it[1], it[0]))]
    return rows


def has_undefined(modules):
    """Whether an external has no place, or it or its first default leads by aliases to a name that nothing defines, also where the external is defined."""
    publics = {it[0] for one in modules for it in publics_of(one)}
    return any(not publics & {*names, end} or (end is not None and end not in publics) for names, end in candidates(modules))


def external_places(modules, places):
    """The place of each external of modules, in their order."""
    found = {one[0]: public_place(there, *one[1:]) for module_, there in zip(modules, places) for one in publics_of(module_)}
    return [next(found[it] for it in [*names, end] if it in found) for names, end in candidates(modules)]


def with_aliases(text, modules):
    """A text whose lines are in the order of the indices, with a line for each external that an alias gives a place: `omf-link image` follows none."""
    ends, found, made, parts = ends_of(modules), public_places(modules, places_in(text)), [], iter(modules)
    for line in text.decode().splitlines():
        made.append(line)
        externals = named_externals(next(parts)) if line.startswith("M ") else ()
        led = [(index, name) for index, (name, is_local) in enumerate(externals, 1) if not is_local and name in ends and name in found]
        made += ["X #{} {:X} {:X} {:X}".format(index, *found[name]) for index, name in led]
    return ("\n".join(made) + "\n").encode()


def relocated(omf, modules, text):
    """The memory and the start of modules, each relocated alone by `omf reloc` at its places of the text; or the first line with a fault."""
    places, memory, start = places_in(with_frames(text, modules)), {}, None
    externals = iter(external_places(modules, places))
    for module_, (segments, groups) in zip(modules, places):
        lines = [f"S {it[0]:X} {it[1]:X} {it[2]:X}" for it in segments] + [f"G {it[0]:X} {it[1]:X}" for it in groups]
        lines += ["E {:X} {:X} {:X}".format(*next(externals)) for _ in named_externals(module_)]
        done = subprocess.run([omf, "reloc"], input=module_ + "\n".join(lines).encode(), stdout=subprocess.PIPE, timeout=60)
        if done.returncode:
            return done.stdout, None
        for segment, offset, row in re.findall(rb"^([0-9A-F]{4}):([0-9A-F]{8})((?: [0-9A-F]{2})+)$", done.stdout, re.M):
            memory.update(enumerate(bytes.fromhex(row.decode()), segments[int(segment, 16) - 1][0] + int(offset, 16)))
        own = re.search(rb"^START ([0-9A-F]{4}):([0-9A-F]{8})$", done.stdout, re.M)
        start = (int(own[1], 16), int(own[2], 16)) if own else start
    return memory, start


def memory_of(lines):
    """The bytes by address, and the start, of what `omf-link image` prints."""
    found = {}
    for address, row in re.findall(rb"^([0-9A-F]{8}):((?: [0-9A-F]{2})+)$", lines, re.M):
        found.update(enumerate(bytes.fromhex(row.decode()), int(address, 16)))
    start = re.search(rb"^START ([0-9A-F]{4}):([0-9A-F]{8})$", lines, re.M)
    return found, start and (int(start[1], 16), int(start[2], 16))


def fixup(random_, at, count, has_group, externals, locations=LOCATIONS, frames=FRAMES):
    """One fixup of a location at this offset, of the kinds that 16-bit modules have; now and then of another."""
    location = random_.choice(locations)
    is_absolute = random_.randrange(2)
    target = random_.choice((0, 0, 0, 1, 2, 2)) if externals else random_.choice((0, 0, 1))
    target = 0 if target == 1 and not has_group else target
    index = {0: random_.randrange(count) + 1, 1: 1, 2: random_.randrange(max(externals, 1)) + 1}[target]
    frame = random_.choice(frames)
    frame = 5 if (frame == 1 and not has_group) or (frame == 2 and not externals) else frame
    frame_index = {0: random_.randrange(count) + 1, 1: 1, 2: random_.randrange(max(externals, 1)) + 1}.get(frame)
    body = struct.pack(">H", 0x8000 | (0x4000 if is_absolute or location in (2, 3, 11) else 0) | location << 10 | at)
    body += bytes([frame << 4 | 4 | target]) + (bytes([frame_index]) if frame_index else b"") + bytes([index])
    return body


def module(random_, number, is_main, front=0, locations=LOCATIONS, frames=FRAMES):
    """A module with a few segments, publics, externals, data and fixups. The first segment begins with that many bytes without data; a start is there."""
    count, externals = random_.randrange(3) + 1, random_.randrange(3)
    names = [b"", b"_TEXT", b"_DATA", b"STACK", b"CODE", b"DATA", b"DGROUP"]
    records = [record(0x80, b"\x01" + bytes([0x41 + number])), record(0x96, b"".join(bytes([len(it)]) + it for it in names))]
    sizes = [random_.choice((8, 12, 16, 33, 64, 300, 0)) for _ in range(count)]
    sizes[0] += front
    for size in sizes:
        kind = random_.choice((0x28, 0x28, 0x48, 0x60, 0x68, 0x74))
        frame = b""
        if random_.randrange(24) == 0:
            kind, frame = 0, struct.pack("<HB", random_.choice((0x40, 0xB800)), random_.randrange(16))
        records.append(record(0x98, bytes([kind]) + frame + struct.pack("<H", size) + bytes([random_.randrange(2, 5), random_.randrange(5, 7), 1])))
    has_group = random_.randrange(2) == 0
    if has_group:
        records.append(record(0x9A, b"\x07" + b"".join(bytes([0xFF, it + 1]) for it in range(count) if it == 0 or random_.randrange(2))))
    if number < len(NAMES):
        name = NAMES[number]
        where = b"\0\0\0\0" if random_.randrange(24) == 0 else bytes([has_group and random_.randrange(2), random_.randrange(count) + 1])
        records.append(record(0x90, where + bytes([len(name)]) + name + struct.pack("<HB", random_.randrange(8), 0)))
    if externals:
        records.append(record(0x8C, b"".join(bytes([len(it)]) + it + b"\0" for it in (random_.choice(NAMES) for _ in range(externals)))))
    for segment, size in enumerate(sizes, 1):
        if size == 0 or random_.randrange(5) == 0:
            continue
        low = front if segment == 1 else 0
        length = min(size - low, random_.choice((8, 12, 24)))
        start = random_.choice((low, low, size - length))
        records.append(record(0xA0, bytes([segment]) + struct.pack("<H", start) + random_.randbytes(length)))
        places = range(0, length - 5, random_.choice((6, 6, 6, 6, 1)))
        chosen = [fixup(random_, at, count, has_group, externals, locations, frames) for at in places if random_.randrange(2)]
        if chosen:
            records.append(record(0x9C, b"".join(chosen)))
    start = b"\xC1\x00\x01\x01" + struct.pack("<H", front or random_.randrange(8)) if is_main else b"\x00"
    return b"".join(records) + record(0x8A, start)
