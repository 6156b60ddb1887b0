"""Libraries and programs as compilers make them, at random from a seed: find_programs.py links them, and searches in the programs.

A library has families of members that call one another, and a core that many call. Of each member there are the records of an object module,
as Turbo C (`tc`), Microsoft C (`msc`) and assemblers (`asm`) write them, or a source for NASM. The code is not made to run: its instructions
are those that compilers of that time chose, with references to what the member uses."""
import dataclasses
import itertools
import math
import random
import struct

from make_modules import record


@dataclasses.dataclass(frozen=True)
class Model:
    """A memory model, and how many routines in a hundred load the selector of DGROUP."""
    far_code: bool = False
    far_data: bool = False
    selectors: int = 5


MODELS = {"small": Model(), "quiet": Model(selectors=0), "compact": Model(far_data=True, selectors=20), "medium": Model(far_code=True), "large": Model(True, True, 20)}


@dataclasses.dataclass(frozen=True)
class Ref:
    """A location. Its target is a name, or a segment of the module and an offset in it, or None for DGROUP. What is near is in DGROUP."""
    kind: str
    target: object
    add: int = 0
    is_near: bool = False

    def size(self):
        return 4 if self.kind == "pointer" else 2


class Segment:
    """A segment: bytes and references, and then bytes without data."""

    def __init__(self, name, kind, align, is_near=False, is_private=False):
        self.name, self.kind, self.align, self.is_near, self.is_private = name, kind, align, is_near, is_private
        self.pieces, self.size, self.reserved = [], 0, 0

    def put(self, pieces):
        for piece in pieces:
            self.pieces.append(piece)
            self.size += len(piece) if isinstance(piece, bytes) else piece.size()


class Module:
    """An object module."""

    def __init__(self, name, style, segments):
        self.name, self.style, self.segments = name, style, {it.name: it for it in segments}
        self.code = segments[0].name
        self.publics, self.communals, self.start, self.family = {}, {}, None, ()
        # Its routines, and about how many bytes each is to have.
        self.names, self.wanted = [], []

    def refs(self):
        return [it for segment in self.segments.values() for it in segment.pieces if isinstance(it, Ref)]

    def externals(self):
        """The names that it takes from others, and whether each is near."""
        taken = {it.target: it.is_near for it in self.refs() if isinstance(it.target, str)}
        return {name: is_near for name, is_near in taken.items() if name not in self.publics and name not in self.communals}


# Instructions by weight. A byte is two digits; +r and +8r add a register, d is the displacement of a local variable, i a small byte, w a word, j a
# short jump, m two registers. N is an offset in DGROUP, F one of far data and S its selector, G the selector of DGROUP.
PLAIN = """8 8B 46+8r d|5 89 46+8r d|3 8A 46 d|2 88 46 d|4 B8+r w|2 C7 46 d w|2 03 m|1 2B m|2 3B m|1 23 m|1 0B m|2 33 m|4 8B m|3 83 7E d i|2 83 C0+r i|2 3D w
|3 0B C0|3 40+r|1 48+r|4 50+r|1 58+r|3 FF 76 d|6 74 j|5 75 j|2 7C j|1 7D j|1 7E j|1 7F j|1 72 j|1 73 j|4 EB j|1 E2 j|1 D1 E0|1 D1 F8|1 B1 i D3 E0+r|1 8A 04|1 8A 07
|1 88 05|1 AC|1 AA|1 F3 A5|1 F3 A4|1 FC|1 A5|1 98|1 99|1 F7 6E d|1 F7 7E d|1 F7 D8|2 8D 46 d 50|1 C6 47 i i|1 8B 47 i|1 89 47 i|1 C4 5E d|1 26 8A 07|1 26 8B 47 i
|1 26 C7 47 i w|1 B4 i CD 21|1 BA w EC|1 2B C0|1 BA w EE"""
NEAR = "6 A1 N|4 A3 N|3 8B 06+8r N|3 89 06+8r N|3 C7 06 N w|3 83 3E N i|2 FF 06 N|2 FF 0E N|4 B8 N 50|3 B8+r N|2 FF 36 N|2 80 3E N i|1 A0 N|2 8B 87 N|1 F6 87 N i|1 1E B8 N 50"
FAR = "3 B8 S 8E C0 26 A1 F|2 B8 S 8E C0 26 8B 1E F|2 BA S B8 F 52 50|1 B8 S 8E C0 26 FF 06 F|1 B8 S 50 B8 F 50"
SELECTOR = "2 B8 G 8E D8 |1 BA G 8E C2 |1 B8 G 50"


def table(text):
    """The templates, and the sums of their weights."""
    rows = [it.split() for it in text.replace("\n", "").split("|")]
    return [[letter(it) for it in words[1:]] for words in rows], [*itertools.accumulate(int(it[0]) for it in rows)]


def letter(word):
    """A word of a template: a letter, or a byte and what a register is multiplied by."""
    code, _, more = word.partition("+")
    return word if len(code) == 1 else (int(code, 16), int(more[:-1] or 1) if more else 0)


PLAIN, NEAR, FAR, SELECTOR = map(table, (PLAIN, NEAR, FAR, SELECTOR))
REGISTERS = [0, 0, 0, 1, 2, 3, 3, 6, 7]


class Coder:
    """Makes the code of a routine. `near` and `far` are the targets that it may refer to."""

    def __init__(self, pick, model, near, far):
        self.pick, self.model, self.near, self.far = pick, model, near, far
        self.kinds = [*itertools.accumulate((75, 22 if near else 0, 10 if far else 0, model.selectors / 8))]

    def word(self):
        return self.pick.choice((0, 1, 2, 10, 0xFF, 0x100, self.pick.randrange(64), self.pick.randrange(65536)))

    def ref(self, kind, target, is_near):
        return Ref(kind, target, self.pick.choice((0, 0, 0, 0, 2, 4)) if kind == "offset" and isinstance(target, str) else 0, is_near)

    def piece(self, word, far):
        """The piece of a word of a template."""
        pick = self.pick
        if isinstance(word, tuple):
            return bytes([word[0] + (word[1] and word[1] * pick.choice(REGISTERS))])
        match word:
            case "d":
                return bytes([pick.choice((4, 4, 6, 6, 8, 10, 0xFE, 0xFE, 0xFC, 0xFA, 0xF8, 0xF6, 0xF4, 0xF0, 0xE0)) & 0xFF])
            case "i":
                return bytes([pick.choice((0, 0, 1, 1, 2, 4, 8, 0xFF, pick.randrange(128))) & 0xFF])
            case "w":
                return struct.pack("<H", self.word())
            case "j":
                return bytes([pick.choice((pick.randrange(3, 40), pick.randrange(0xC0, 0xFD)))])
            case "m":
                return bytes([0xC0 | 8 * pick.choice(REGISTERS) | pick.choice(REGISTERS)])
            case "N":
                return self.ref("offset", pick.choice(self.near), True)
            case "F":
                return self.ref("offset", far, False)
            case "S":
                return self.ref("selector", far, False)
            case "G":
                return Ref("selector", None)

    def any(self):
        """An instruction of any kind."""
        return self.instruction(self.pick.choices((PLAIN, NEAR, FAR, SELECTOR), cum_weights=self.kinds)[0])

    def instruction(self, templates):
        far = self.pick.choice(self.far) if self.far else None
        return [self.piece(it, far) for it in self.pick.choices(templates[0], cum_weights=templates[1])[0]]

    def uses(self, segments):
        """Instructions that refer to these segments."""
        for segment in segments:
            place = [(segment.name, 0)]
            yield Coder(self.pick, self.model, place, place).instruction(NEAR if segment.is_near else FAR)

    def call(self, name):
        """The call of another module's routine: arguments, and the stack after it."""
        pick = self.pick
        count = pick.choice((0, 1, 1, 2, 3))
        pushes = [it for _ in range(count) for it in pick.choice(([b"\x50"], [b"\xFF\x76", self.piece("d", None)], [b"\x56"], [b"\xB8", struct.pack("<H", self.word()), b"\x50"]))]
        after = [] if count == 0 else [b"\x59"] if count == 1 else [b"\x83\xC4", bytes([2 * count])]
        return [*pushes, *([b"\x9A", Ref("pointer", name)] if self.model.far_code else [b"\xE8", Ref("call", name)]), *after]

    def routine(self, size, calls, used=()):
        """About this number of bytes that call these names and use these segments."""
        pick, end = self.pick, b"\xCB" if self.model.far_code else b"\xC3"
        is_framed = size > 16 or calls
        saves = pick.choice(([], [], [b"\x56"], [b"\x57", b"\x56"])) if is_framed else []
        front = [b"\x55\x8B\xEC", *([b"\x83\xEC", bytes([pick.choice((2, 4, 6, 8, 16, 64))])] if pick.random() < 0.5 else []), *saves] if is_framed else []
        back = [*(it.translate(TO_POP) for it in reversed(saves)), *([b"\x8B\xE5", b"\x5D"] if is_framed else []), end]
        made = [*map(self.call, calls), *self.uses(used)]
        left = size - length(front) - length(back) - sum(map(length, made))
        while left > 0:
            made.append(self.any())
            left -= length(made[-1])
        pick.shuffle(made)
        return [*front, *(it for one in made for it in one), *back]


TO_POP = bytes.maketrans(b"\x56\x57", b"\x5E\x5F")
SYLLABLES = "str mem get put set read wri open clo buf fil dir ptr int flo dbl con vid key mou gr pal line box cir pix font snd tim dat env arg sig heap far near alc fre cmp cat cpy len chr tok scan prn fmt".split()
WORDS = "error file not found can't open read write out of memory invalid argument the a disk full drive ready press any key to continue %d %s %04x abort retry fail overflow divide by zero null pointer stack usage version".split()


def core(members):
    """The members of a library that many others use."""
    return members[:max(4, len(members) // 40)]


def length(pieces):
    return sum(len(it) if isinstance(it, bytes) else it.size() for it in pieces)


def size_of_routine(pick):
    """10 to 500 bytes, most of them short."""
    return max(10, min(500, int(math.exp(pick.gauss(math.log(62), 0.9)))))


class World:
    """Libraries of a model: their members, and programs that need some of them. `twins` members in a hundred have a twin elsewhere, with the same code and
    other names; `copies` of them are once more in the last library, with their names."""

    def __init__(self, seed, model, sizes, twins=0, copies=0):
        self.pick, self.model, self.made = random.Random(seed), MODELS[model], set()
        self.libraries = [[self.declared(number, place) for place in range(size)] for number, size in enumerate(sizes)]
        for number, members in enumerate(self.libraries):
            self.join(number, members)
            for place, member in enumerate(members):
                self.fill(member, self.known_to(number, place))
        self.add_twins(twins)
        self.libraries[-1] += self.pick.sample([it for members in self.libraries[:-1] for it in members], copies)
        self.definers = {}
        for member in self.members():
            for name in [*member.publics, *member.communals]:
                self.definers.setdefault(name, member)

    def members(self):
        return [it for members in self.libraries for it in members]

    def name(self, front="_"):
        """A name that nothing else has."""
        while True:
            found = front + "".join(self.pick.choice(SYLLABLES) for _ in range(self.pick.choice((1, 2, 2, 3)))) + self.pick.choice(("", "", "_l", "2", str(self.pick.randrange(100))))
            if found not in self.made:
                self.made.add(found)
                return found

    def declared(self, number, place):
        """A member of a library, with what it defines, but without its code."""
        pick, style = self.pick, ("msc", "tc", "asm")[number % 3]
        kind = "data" if pick.random() < 0.03 else "tiny" if pick.random() < 0.06 else "usual"
        name = "".join(it for it in self.name("") if it.isalnum())[:8]
        module = empty(name, style, self.model)
        if kind != "data":
            count = 1 if kind == "tiny" else pick.choices((1, 2, 3), (70, 20, 10))[0]
            module.wanted = [pick.randrange(2, 16) if kind == "tiny" else size_of_routine(pick) for _ in range(count)]
            module.names = [self.name() for _ in range(count)]
            module.publics = {it: None for it in module.names}
        if kind == "data" or kind == "usual" and pick.random() < 0.5:
            self.add_data(module, "CONST" if style == "msc" and pick.random() < 0.5 else "_DATA")
        if kind == "usual" and pick.random() < 0.2:
            module.segments["_BSS"].reserved = 2 * pick.randrange(1, 40)
        if kind == "usual" and pick.random() < 0.02:
            module.communals[self.name()] = 2 * pick.randrange(1, 20)
        if self.model.far_data and pick.random() < 0.3:
            far = Segment(f"{name.upper()}_FAR", "FAR_DATA", 3, is_private=pick.random() < 0.5)
            module.segments[far.name] = far
            self.add_data(module, far.name)
        return module

    def add_data(self, module, name):
        """Strings, words and tables; some with a public name."""
        pick, segment = self.pick, module.segments[name]
        for _ in range(pick.choice((1, 1, 1, 2, 3, 4))):
            if pick.random() < 0.3:
                module.publics[self.name()] = (name, segment.size)
            segment.put(self.item())

    def item(self):
        """One item of data."""
        pick = self.pick
        kind = pick.choices(("text", "word", "words", "bytes", "zeros"), (40, 25, 15, 10, 10))[0]
        if kind == "text":
            text = " ".join(pick.choice(WORDS) for _ in range(pick.randrange(1, 6))).encode() + pick.choice((b"\n\0", b"\0", b"$"))
            return [text]
        if kind == "word":
            return [struct.pack("<H", pick.choice((0, 1, 0xFFFF, pick.randrange(65536))))]
        count = pick.choice((2, 4, 8, 16, pick.randrange(3, 64)))
        if kind == "words":
            return [struct.pack(f"<{count}H", *(pick.choice((0, pick.randrange(256), pick.randrange(65536))) for _ in range(count)))]
        return [bytes(count) if kind == "zeros" else pick.randbytes(count)]

    def join(self, number, members):
        """Divides a library into its core and families."""
        place = 0
        while place < len(members):
            size = self.pick.randrange(5, 40)
            for one in members[place:place + size]:
                one.family = (number, place)
            place += size
        for one in core(members):
            one.family = (number, -1)

    def known_to(self, number, place):
        """The members that one may use: its family, the core of its library before it and the core of the first library."""
        members = self.libraries[number]
        module = members[place]
        family = [it for it in members[max(0, place - 40):place + 40] if it.family == module.family]
        return [[it for it in them if it is not module] for them in (family, core(members), core(self.libraries[0]))]

    def fill(self, module, known):
        """The code of a member, and pointers in its data."""
        pick, (family, own, front) = self.pick, known
        calls = []
        for name in module.names:
            for _ in range(pick.choices((0, 1, 2, 3, 5), (35, 30, 20, 10, 5))[0]):
                among = pick.choices((family, own, front), (45, 35, 20))[0]
                called = [it for one in pick.sample(among, min(3, len(among))) for it in one.names]
                calls += [(name, pick.choice(called))] if called else []
        strangers = [it for it in pick.sample(family, min(4, len(family))) + pick.sample(front, min(2, len(front)))]
        near, far = self.targets(module, strangers)
        coder = Coder(pick, self.model, near, far)
        segment = module.segments[module.code]
        for name, size in zip(module.names, module.wanted):
            if module.style != "asm" and segment.size % 2 and pick.random() < 0.5:
                segment.put([b"\x90"])
            module.publics[name] = (module.code, segment.size)
            used = [it for it in module.segments.values() if it.name != module.code and it.size and name == module.names[-1]]
            segment.put(coder.routine(size, [it for caller, it in calls if caller == name and size > 15], used))
        if segment.size > 60 and pick.random() < 0.1:
            self.add_switch(segment)
        self.add_pointers(module, [it for it in (calls and [calls[0][1]])], near)

    def targets(self, module, strangers):
        """What a member's code may refer to in DGROUP and in far segments: items of its own, and publics of others."""
        near, far = [], []
        for segment in module.segments.values():
            if segment.size + segment.reserved and segment.name != module.code:
                offsets = [self.pick.randrange(0, segment.size + segment.reserved, 2) for _ in range(3)]
                (near if segment.is_near else far).extend((segment.name, it) for it in (0, 0, *offsets))
        near += 2 * [*module.communals]
        for other in strangers:
            for name, place in other.publics.items():
                if place and place[0] != other.code:
                    (near if other.segments[place[0]].is_near else far).append(name)
        return near, far

    def add_switch(self, segment):
        """A table of offsets after the code, and a jump by it."""
        offsets = [self.pick.randrange(segment.size) for _ in range(self.pick.randrange(3, 10))]
        segment.put([b"\x2E\xFF\xA7", Ref("offset", (segment.name, segment.size + 5))])
        segment.put([Ref("offset", (segment.name, it)) for it in offsets])

    def add_pointers(self, module, names, near):
        """Some members have pointers in their data: to data and to routines."""
        pick, segment = self.pick, module.segments["_DATA"]
        if not segment.size or pick.random() > 0.25:
            return
        for _ in range(pick.randrange(1, 6)):
            if names and pick.random() < 0.4:
                segment.put([Ref("pointer" if self.model.far_code else "offset", pick.choice(names))])
            elif near:
                segment.put([Ref("pointer" if self.model.far_data else "offset", pick.choice(near), 0, True)])

    def add_twins(self, share):
        """Members with the code of others: half of them call another routine of the same library at one place."""
        for number, members in enumerate([*it] for it in self.libraries):
            for member in self.pick.sample(members, len(members) * share // 100):
                there = self.pick.choice(self.libraries)
                there.insert(self.pick.randrange(len(there)), self.twin(member, members))

    def twin(self, member, members):
        """A module with the segments of another, but other names."""
        names = {it: self.name() for it in [*member.publics, *member.communals]}
        made = Module(f"{member.name[:7]}X", member.style, [*member.segments.values()])
        made.family, made.names = member.family, [names[it] for it in member.names]
        made.publics = {names[it]: place for it, place in member.publics.items()}
        made.communals = {names[it]: size for it, size in member.communals.items()}
        calls = [it for it in member.refs() if it.kind in ("call", "pointer") and isinstance(it.target, str) and not it.is_near]
        other = [it for one in self.pick.sample(members, min(8, len(members))) for it in one.names]
        if calls and other and self.pick.random() < 0.5:
            names[calls[0].target] = other[0]
        for segment in member.segments.values():
            copy = Segment(segment.name, segment.kind, segment.align, segment.is_near, segment.is_private)
            copy.put(it if isinstance(it, bytes) or not isinstance(it.target, str) else dataclasses.replace(it, target=names.get(it.target, it.target)) for it in segment.pieces)
            copy.reserved = segment.reserved
            made.segments[copy.name] = copy
        return made

    def closure(self, needed, members):
        """What these members need too."""
        queue = [it for it in members if id(it) not in needed]
        needed.update((id(it), it) for it in queue)
        while queue:
            for name in queue.pop().externals():
                one = self.definers.get(name)
                if one and id(one) not in needed:
                    needed[id(one)] = one
                    queue.append(one)
        return needed

    def chosen(self, code):
        """Names that a program asks for, so that the members that it needs have about this number of bytes of code."""
        families, needed, names = {}, {}, []
        for member in self.members():
            if member.names:
                families.setdefault(member.family, []).append(member)
        order = [*families.values()]
        self.pick.shuffle(order)
        for members in order:
            asked = [it for it in self.pick.sample(members, self.pick.randrange(1, 2 + len(members) // 2)) if id(self.definers[it.names[0]]) == id(it)]
            self.closure(needed, asked)
            names += [self.pick.choice(it.names) for it in asked]
            if sum(it.segments[it.code].size for it in needed.values()) > code:
                break
        return names

    def program(self, code, own):
        """The modules of a program: the start-up, and about `own` bytes of code that call all names that are chosen."""
        names, pick = self.chosen(code), self.pick
        pick.shuffle(names)
        count = max(1, own // 1500)
        modules = [start_up(self.model)]
        for number in range(count):
            module = empty(f"game{number}", "tc", self.model)
            for _ in range(4):
                self.add_data(module, "_DATA")
            module.names, module.wanted = [self.name() for _ in range(5)] + (["_main"] if number == 0 else []), []
            coder = Coder(pick, self.model, *self.targets(module, []))
            mine = names[number::count]
            for place, name in enumerate(module.names):
                segment = module.segments[module.code]
                module.publics[name] = (module.code, segment.size)
                segment.put(coder.routine(own // count // len(module.names), mine[place::len(module.names)]))
            modules.append(module)
        return modules


def empty(name, style, model):
    """A module of a style with its segments, which are empty."""
    code = f"{name.upper()}_TEXT" if model.far_code else "_TEXT"
    segments = [Segment(code, "CODE", 1 if style != "msc" else 2), Segment("_DATA", "DATA", 2, True), *([Segment("CONST", "CONST", 2, True)] if style == "msc" else []), Segment("_BSS", "BSS", 2, True)]
    return Module(name, style, segments)


def start_up(model):
    """The start-up module: it loads DGROUP's selector, and calls _main."""
    module = empty("c0", "asm", model)
    segment = module.segments[module.code]
    call = [b"\x9A", Ref("pointer", "_main")] if model.far_code else [b"\xE8", Ref("call", "_main")]
    segment.put([b"\xB8", Ref("selector", None), b"\x8E\xD8\x2E\x8C\x1E\x40\x00\xB4\x30\xCD\x21\x33\xED", *call, b"\x50\xB4\x4C\xCD\x21"])
    module.segments["_DATA"].put([bytes(4) + b"Turbo-C - Copyright (c)\0"])
    module.segments["STACK"] = Segment("STACK", "STACK", 3)
    module.segments["STACK"].reserved = 1024
    module.start = (module.code, 0)
    return module


def stubs(names):
    """A module that defines these names, in a segment of code."""
    module = empty("stubs", "asm", MODELS["small"])
    for name in names:
        module.publics[name] = (module.code, module.segments[module.code].size)
        module.segments[module.code].put([b"\x90\xC3"])
    return module


def named(text):
    return bytes([len(text)]) + text.encode()


def index(number):
    return bytes([number]) if number < 128 else bytes([0x80 | number >> 8, number & 0xFF])


class Writer:
    """Writes the records of a module."""

    def __init__(self, module):
        self.module = module
        self.segments = [it for it in module.segments.values() if module.style != "asm" or it.size + it.reserved]
        self.numbers = {it.name: number for number, it in enumerate(self.segments, 1)}
        self.externals = {name: number for number, name in enumerate([*module.externals(), *module.communals], 1)}
        self.group = [self.numbers[it.name] for it in self.segments if it.is_near]
        # Turbo C puts what is added into the fixup; Microsoft C has threads.
        self.has_threads, self.has_displacements = module.style == "msc", module.style == "tc"

    def record(self):
        return record(0x80, named(self.module.name)) + self.heads() + b"".join(map(self.data, self.segments)) + self.end()

    def heads(self):
        module = self.module
        names = ["", "DGROUP", *dict.fromkeys(word for it in self.segments for word in (it.name, it.kind))]
        out = record(0x88, b"\x80\x9E") if module.start else b""
        out += record(0x96, b"".join(map(named, names)))
        for it in self.segments:
            combine = 5 if it.kind == "STACK" else 0 if it.is_private else 2
            out += record(0x98, bytes([it.align << 5 | combine << 2]) + struct.pack("<H", it.size + it.reserved) + bytes([names.index(it.name) + 1, names.index(it.kind) + 1, 1]))
        if self.group or self.needs_group():
            out += record(0x9A, b"\x02" + b"".join(bytes([0xFF, it]) for it in self.group))
        taken = [it for it in self.externals if it not in module.communals]
        out += record(0x8C, b"".join(named(it) + b"\0" for it in taken)) if taken else b""
        for name, number in self.numbers.items():
            publics = [named(it) + struct.pack("<H", place[1]) + b"\0" for it, place in module.publics.items() if place[0] == name]
            near = module.segments[name].is_near
            out += record(0x90, bytes([1 if near else 0, number]) + b"".join(publics)) if publics else b""
        out += record(0xB0, b"".join(named(it) + b"\0\x62" + bytes([size]) for it, size in module.communals.items())) if module.communals else b""
        return out

    def needs_group(self):
        return any(it.is_near or it.target is None for it in self.module.refs())

    def data(self, segment):
        """LEDATAs of at most 1,000 bytes, with their fixups."""
        out, bytes_, fixups, at = b"", bytearray(), b"", 0
        for piece in [*split(segment.pieces), None]:
            if piece is None or len(bytes_) + length([piece]) > 1000:
                out += record(0xA0, index(self.numbers[segment.name]) + struct.pack("<H", at) + bytes_) if bytes_ else b""
                out += record(0x9C, self.threads() + fixups) if fixups else b""
                at, bytes_, fixups = at + len(bytes_), bytearray(), b""
            if isinstance(piece, Ref):
                fixup, value = self.fixup(piece, len(bytes_))
                fixups += fixup
                bytes_ += struct.pack("<H", value & 0xFFFF) + bytes(piece.size() - 2)
            elif piece:
                bytes_ += piece
        return out

    def threads(self):
        """Frame threads: 0 is DGROUP, 1 the target's."""
        if not self.has_threads:
            return b""
        return (b"\x44\x01" if self.group or self.needs_group() else b"") + b"\x55"

    def fixup(self, ref, at):
        """The fixup of a reference at an offset of the data, and what its bytes are."""
        place = {"call": 0x84, "offset": 0xC4, "selector": 0xC8, "pointer": 0xCC}[ref.kind] << 8 | at
        is_own = isinstance(ref.target, tuple)
        add = ref.target[1] + ref.add if is_own else ref.add
        method, datum = (1, 1) if ref.target is None else (0, self.numbers[ref.target[0]]) if is_own else (2, self.externals[ref.target])
        in_group = ref.target is None or ref.is_near
        frame = (0x80 | (0 if in_group else 1) << 4, b"") if self.has_threads else (0x10, b"\x01") if in_group else (0x50, b"")
        has_displacement = self.has_displacements and add
        fix = struct.pack(">H", place) + bytes([frame[0] | (0 if has_displacement else 4) | method]) + frame[1] + index(datum)
        return fix + (struct.pack("<H", add) if has_displacement else b""), 0 if has_displacement else add

    def end(self):
        if not self.module.start:
            return record(0x8A, b"\x00")
        number = self.numbers[self.module.start[0]]
        return record(0x8A, bytes([0xC1, 0x00, number, number]) + struct.pack("<H", self.module.start[1]))


def split(pieces):
    """The pieces, none of more than 500 bytes."""
    for piece in pieces:
        if isinstance(piece, Ref):
            yield piece
        else:
            yield from (piece[at:at + 500] for at in range(0, len(piece), 500))


def omf(module):
    return Writer(module).record()


def nasm(module):
    """The source of a module for NASM."""
    lines = ["cpu 8086", *(f"extern {name}{':wrt DGROUP' if is_near else ''}" for name, is_near in module.externals().items())]
    lines += [f"common {name} {size}:near" for name, size in module.communals.items()]
    lines += [f"global {it}" for it in module.publics]
    segments = [it for it in module.segments.values() if it.is_near or it.size + it.reserved]
    for number, segment in enumerate(segments):
        lines.append(f"segment {segment.name} {'stack' if segment.kind == 'STACK' else 'private' if segment.is_private else 'public'} align={1 << (segment.align - 1) if segment.align < 3 else 16} class={segment.kind}")
        lines += nasm_lines(module, segment, {it.name: f"s{number}" for number, it in enumerate(segments)}, f"s{number}")
    return "\n".join([*lines, "group DGROUP " + " ".join(it.name for it in segments if it.is_near)]) + "\n"


def nasm_lines(module, segment, labels, own):
    """The lines of a segment: its label, bytes, and references."""
    publics = {}
    for name, place in module.publics.items():
        if place[0] == segment.name:
            publics.setdefault(place[1], []).append(name)
    yield f"{own}:"
    at = 0
    for piece in [*segment.pieces, b""]:
        for offset in range(at, at + max(1, length([piece]))):
            yield from (f"{name} equ {own} + {offset}" for name in publics.pop(offset, []))
        if piece:
            yield nasm_bytes(piece) if isinstance(piece, bytes) else nasm_ref(piece, labels)
        at += length([piece])
    if module.start and module.start[0] == segment.name:
        yield f"..start equ {own} + {module.start[1]}"
    if segment.reserved:
        yield f"resb {segment.reserved}"


def nasm_bytes(piece):
    return "db " + ", ".join(map(str, piece))


def nasm_ref(ref, labels):
    if ref.target is None:
        return "dw DGROUP"
    is_own = isinstance(ref.target, tuple)
    target = f"{labels[ref.target[0]]} + {ref.target[1] + ref.add}" if is_own else f"{ref.target} + {ref.add}"
    in_group = " wrt DGROUP" if is_own and ref.is_near else ""
    base = "DGROUP" if ref.is_near else f"seg {labels[ref.target[0]] if is_own else ref.target}"
    match ref.kind:
        case "call":
            return f"dw {target} - $ - 2"
        case "offset":
            return f"dw {target}{in_group}"
        case "selector":
            return f"dw {base}"
    return f"dw {target}{in_group}, {base}"
