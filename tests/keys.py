#!/usr/bin/env python3
"""Links modules, and the same modules in another spelling: keys.py [--first SEED] [--count N | --seconds S]

The modules are made at random, with COMDATs or without, or come from a case of conformance/programs or crates/omf_cases/stdin, in their order. The other spelling has
other checksum bytes, longer indices and numbers, other bits that mean nothing, FIXUPPs that are split, joined or empty, and other THREADs, also where no
fixup is near. `omf canon` must give the same bytes of both, and omf-link the same files, maps and symbols, and the same lines but for the record and the place in it.
OMF and OMF_LINK name the programs (omf and omf-link, if not set). The status is 1 where something differs."""
import importlib.util
import os
import pathlib
import random
import re
import subprocess
import sys
import tempfile

ROOT = pathlib.Path(__file__).resolve().parent.parent
sys.path.insert(0, str(ROOT / "tests" / "fuzz"))

import chosen
import executables
import lowered
from lowered import COMMENT, DATA, EXTERNALS, FIXUPS, GROUP, LINK, LOCAL_EXTERNALS, REPEATED, SEGMENT, index_at
from promises import ALLOW_ALL

OMF = os.environ.get("OMF") or "omf"
END, PUBLICS, LOCAL_PUBLICS, COMMUNALS, LOCAL_COMMUNALS = 0x8A, 0x90, 0xB6, 0xB0, 0xB8
# Of a communal's number by its first byte: how many bytes follow. And the first byte of each longer form.
NUMBERS = {0x81: 2, 0x84: 3, 0x88: 4}
FAR = 0x61
LARGEST, MOST_INPUT = 1000, 1 << 16
# What a program may have with these options.
PROGRAM_ALLOW = [it for kind in ("group", "mixed", "near", "twice") for it in ("--allow", kind)]
# The place of a fault in a record, which another spelling moves.
PLACE = re.compile(rb" record \d+(?: at \d+)?(?: within \d+)?|(?<=input) at \d+(?=:)")


class Fields:
    """The fields of a record's contents, one after another, and their other spelling."""

    def __init__(self, source, contents, is_wide):
        self.random, self.contents, self.at, self.width, self.made = source, contents, 0, 4 if is_wide else 2, b""

    def copy(self, size):
        self.made += self.contents[self.at:self.at + size]
        self.at += size
        return self.contents[self.at - size:self.at]

    def index(self):
        number, self.at = index_at(self.contents, self.at)
        self.made += spelled(self.random, number)
        return number

    def name(self):
        self.copy(1 + self.contents[self.at])

    def number(self):
        first = self.copy(1)[0]
        size = NUMBERS.get(first, 0)
        value = int.from_bytes(self.copy(size), "little") if size else first
        form = self.random.choice([it for it in (0, *NUMBERS) if NUMBERS.get(it, 0) >= size])
        if form:
            self.made = self.made[:-1 - size] + bytes([form]) + value.to_bytes(NUMBERS[form], "little")

    def is_left(self):
        return self.at < len(self.contents)

    def rest(self):
        self.copy(len(self.contents) - self.at)


def spelled(source, number):
    """An index in one of its forms."""
    return bytes([number]) if number < 128 and source.random() < 0.6 else bytes([0x80 | number >> 8, number & 255])


def segdef(fields):
    fields.copy(4 if fields.contents[0] >> 5 == 0 else 1)
    fields.copy(fields.width)
    for _ in range(3):
        fields.index()


def grpdef(fields):
    fields.index()
    while fields.is_left():
        fields.copy(1)
        fields.index()


def pubdef(fields):
    fields.index()
    if fields.index() == 0:
        fields.copy(2)
    while fields.is_left():
        fields.name()
        fields.copy(fields.width)
        fields.index()


def extdef(fields):
    while fields.is_left():
        fields.name()
        fields.index()


def comdef(fields):
    while fields.is_left():
        fields.name()
        fields.index()
        for _ in range(2 if fields.copy(1)[0] == FAR else 1):
            fields.number()


def data(fields):
    fields.index()
    fields.rest()


# How the contents of a record are spelled, by its type without the bit of 32-bit records; others stay.
SPELLINGS = {SEGMENT: segdef, GROUP: grpdef, PUBLICS: pubdef, LOCAL_PUBLICS: pubdef, EXTERNALS: extdef, LOCAL_EXTERNALS: extdef, COMMUNALS: comdef, LOCAL_COMMUNALS: comdef, DATA: data, REPEATED: data}


class Reference:
    """A frame and a target, each with its method and its index, and the fix data byte's other bits with the displacement."""

    def __init__(self, frame, target, is_short, displacement):
        self.frame, self.target, self.is_short, self.displacement = frame, target, is_short, displacement

    def sides(self):
        return (True, self.frame), (False, self.target)


class Read:
    """The records of a module. A FIXUPP is the list of its fixups, with their threads resolved: each its first two bytes and a reference."""

    def __init__(self, module):
        self.threads, self.records, at = {}, [], 0
        while at < len(module):
            size = int.from_bytes(module[at + 1:at + 3], "little")
            kind, contents = module[at], module[at + 3:at + 2 + size]
            at += 3 + size
            if kind & 0xFE == FIXUPS:
                self.records.append((kind, self.fixups(contents, kind & 1)))
            elif kind & 0xFE == END:
                self.records.append((kind, (contents[0], self.reference(contents, 1, kind & 1)[0] if contents[0] & 0x40 else None)))
            else:
                self.records.append((kind, contents))

    def reference(self, contents, at, is_wide):
        fix, at = contents[at], at + 1
        if fix & 0x80:
            frame = self.threads[True, fix >> 4 & 3]
        else:
            method, datum = fix >> 4 & 7, 0
            if method < 3:
                datum, at = index_at(contents, at)
            frame = method, datum
        if fix & 8:
            target = self.threads[False, fix & 3]
        else:
            datum, at = index_at(contents, at)
            target = fix & 3, datum
        size = 0 if fix & 4 else 4 if is_wide else 2
        return Reference(frame, target, fix & 4, contents[at:at + size]), at + size

    def fixups(self, contents, is_wide):
        at, found = 0, []
        while at < len(contents):
            first = contents[at]
            if first & 0x80:
                one, after = self.reference(contents, at + 2, is_wide)
                found.append((contents[at:at + 2], one))
                at = after
                continue
            is_frame, method, datum, at = first & 0x40 != 0, first >> 2 & 7, 0, at + 1
            method &= 7 if is_frame else 3
            if not is_frame or method < 3:
                datum, at = index_at(contents, at)
            self.threads[is_frame, first & 3] = method, datum
        return found

    def sides(self):
        """Whether it is a frame's, the method and the index, of all references."""
        for _, contents in self.records:
            found = [it for _, it in contents] if isinstance(contents, list) else [contents[1]] if isinstance(contents, tuple) else []
            yield from (side for one in found if one for side in one.sides())


class Spelling:
    """The other spelling of a module."""

    def __init__(self, source, module):
        self.random, self.read, self.threads, self.made, self.left = source, Read(module), {}, b"", []
        self.sides = [*self.read.sides()]
        for kind, contents in self.read.records:
            if isinstance(contents, list):
                self.left += [(kind, it) for it in contents]
                continue
            self.put_fixups()
            if self.made and self.random.random() < 0.25:
                self.put_threads()
            if isinstance(contents, tuple):
                self.put_end(kind, *contents)
            else:
                self.put(kind, self.contents(kind, contents))

    def put(self, kind, contents):
        one = lowered.record(kind, contents)
        self.made += one if self.random.random() < 0.5 else one[:-1] + b"\0"

    def contents(self, kind, contents):
        if kind & 0xFE not in SPELLINGS or kind == COMMENT:
            return contents
        fields = Fields(self.random, contents, kind & 1)
        SPELLINGS[kind & 0xFE](fields)
        return fields.made

    def thread(self, is_frame, side):
        """A THREAD, with a number of its own choice and a bit that means nothing."""
        number, (method, datum) = self.random.randrange(4), side
        self.threads[is_frame, number] = side
        unused = 0x20 * self.random.randrange(2) | (0 if is_frame else 0x10 * self.random.randrange(2))
        return bytes([is_frame << 6 | unused | method << 2 | number]) + (spelled(self.random, datum) if method < 3 else b"")

    def put_threads(self):
        """A FIXUPP without a FIXUP: empty, or with THREADs that a later reference may use."""
        chosen_ = [self.random.choice(self.sides) for _ in range(self.random.randrange(3))] if self.sides else []
        self.put(FIXUPS | self.random.randrange(2), b"".join(self.thread(*it) for it in chosen_))

    def side(self, is_frame, side):
        """The number of the thread by which a side of a reference is spelled, or none, and the THREAD that sets it."""
        if self.random.random() < 0.4:
            return None, b""
        set_ = [number for number in range(4) if self.threads.get((is_frame, number)) == side]
        if set_ and self.random.random() < 0.8:
            return self.random.choice(set_), b""
        made = self.thread(is_frame, side)
        return made[0] & 3, made

    def reference(self, one, may_set):
        """The THREADs before a reference, and its bytes."""
        held = dict(self.threads)
        (frame, front), (target, more) = self.side(True, one.frame), self.side(False, one.target)
        if not may_set and front + more:
            self.threads, frame, target, front, more = held, None, None, b"", b""
        fix, body = one.is_short, b""
        if frame is None:
            fix |= one.frame[0] << 4
            body += spelled(self.random, one.frame[1]) if one.frame[0] < 3 else b""
        else:
            fix |= 0x80 | frame << 4 | 0x40 * self.random.randrange(2)
        if target is None:
            fix |= one.target[0]
            body += spelled(self.random, one.target[1])
        else:
            fix |= 8 | target
        return front + more, bytes([fix]) + body + one.displacement

    def put_fixups(self):
        """The FIXUPPs of the fixups that are left, split and joined otherwise. A FIXUPP has one type."""
        body, last = b"", None
        for kind, (place, one) in self.left:
            front, reference = self.reference(one, True)
            if last is not None and (kind != last or self.random.random() < 0.3 or len(body) > LARGEST):
                self.put(last, body)
                body = b""
                if self.random.random() < 0.2:
                    self.put(FIXUPS | self.random.randrange(2), b"")
            if front and self.random.random() < 0.2:
                if body:
                    self.put(last, body)
                self.put(FIXUPS | self.random.randrange(2), front)
                body, front = b"", b""
            body, last = body + front + place + reference, kind
        if body:
            self.put(last, body)
        self.left = []

    def put_end(self, kind, byte, start):
        _, reference = self.reference(start, False) if start else (b"", b"")
        self.put(kind, bytes([byte & 0xC0 | self.random.randrange(64)]) + reference)


def run(folder, words, input_=None):
    return subprocess.run(words, cwd=folder, input=input_, stdin=None if input_ is not None else subprocess.DEVNULL, capture_output=True, timeout=60, check=False)


def modules_in(bytes_):
    """The modules one after another, each with the bytes of 0 after it, and what follows them."""
    at, begun, found = 0, 0, []
    while at + 3 <= len(bytes_) and bytes_[begun] in (0x80, 0x82):
        kind = bytes_[at]
        at += 3 + int.from_bytes(bytes_[at + 1:at + 3], "little")
        if kind & 0xFE == END and at <= len(bytes_):
            end = len(bytes_) - len(bytes_[at:].lstrip(b"\0"))
            found.append((bytes_[begun:at], bytes_[at:end]))
            at = begun = end
    return found, bytes_[begun:]


def answer(folder, words, files, input_=None):
    """The status of omf-link, its lines, and the files that it makes."""
    for old in folder.iterdir():
        old.unlink()
    for name, bytes_ in files.items():
        (folder / name).write_bytes(bytes_)
    done = run(folder, [LINK, *words], input_)
    made = {it.name: it.read_bytes() for it in sorted(folder.iterdir()) if it.name not in files}
    return done.returncode, PLACE.sub(b"", done.stdout), PLACE.sub(b"", done.stderr), made


def loaded(path):
    """A script as a module."""
    found = importlib.util.spec_from_file_location(path.stem, path)
    made = importlib.util.module_from_spec(found)
    found.loader.exec_module(made)
    return made


RUN, ADAPTER = loaded(ROOT / "conformance" / "run.py"), loaded(ROOT / "conformance" / "adapters" / "program.py")
FILE_CASES, INPUT_CASES = ([it for it in RUN.cases_of(ROOT / name) if it.call[0] == "omf-link" and it.call[1:2] not in ([], ["lower"], ["join"]) and it.status != 2 and len(it.input) < MOST_INPUT]
                           for name in ("conformance/programs", "crates/omf_cases/stdin"))


def file_case(case):
    """The words of a case of conformance/programs, and its files."""
    names, words = {"lib": "l.lib", "link": "t.link"}, [it for it in case.call[1:] if it != "{warnings}"]
    files = {names.get(kind, f"{chr(97 + number)}.obj"): bytes_ for number, (kind, bytes_) in enumerate(ADAPTER.parts_of(case.input))}
    more = ["--map", "q.map", "--symbols", "nm=q.nm"] if words[0] in ("exe", "com") and not {"--map", "--symbols"} & {*words} else []
    return [*words, *more, "-o", "p.exe", *(it for it in files if it != "t.link")], files


class Differs(Exception):
    """What is not the same, though the keys are."""


class Tries:
    """Tries, each of some modules in both spellings."""

    def __init__(self, folder):
        self.folder, self.links, self.done = pathlib.Path(folder), 0, 0

    def compare(self, words, files, others, input_=None, other_input=None):
        one, other = answer(self.folder, words, files, input_), answer(self.folder, words, others, other_input)
        self.links, self.done = self.links + 1, self.done + (one[0] == 0)
        if one[0] == 2 or one != other:
            kinds = ("status", "output", "lines", "files")
            raise Differs(" ".join(words), [it for it, left, right in zip(kinds, one, other) if left != right], one[:3:2], other[:3:2])
        return one

    def spelled(self, source, bytes_):
        """Bytes with each module that is accepted in another spelling, of the same key."""
        modules, rest = modules_in(bytes_)
        made = b""
        for module, padding in modules:
            form, other = run(self.folder, [OMF, "canon"], module), module
            if form.returncode == 0:
                other = Spelling(source, module).made
                if run(self.folder, [OMF, "canon"], other).stdout != form.stdout:
                    raise Differs("keys", module.hex(), other.hex())
            made += other + padding
        return made + rest

    def case(self, source, case, is_file):
        if is_file:
            words, files = file_case(case)
            self.compare(words, files, {name: self.spelled(source, it) for name, it in files.items()})
        else:
            self.compare(case.call[1:], {}, {}, case.input, self.spelled(source, case.input))

    def program(self, source, modules):
        """Programs, drafts and links by a draft of modules."""
        files = {f"{chr(97 + number)}.obj": it for number, it in enumerate(modules)}
        others, names = {name: self.spelled(source, it) for name, it in files.items()}, [*files]
        made = ["-o", "p.exe", "--map", "p.map", "--symbols", "nm=p.nm", *PROGRAM_ALLOW, *names]
        for words in (["exe", *made], ["com", *made], ["exe", "--eliminate", "--order", "dos", *made]):
            self.compare(words, files, others)
        status, text, *_ = self.compare(["draft", "--real", "--base", "1000", *names], files, others)
        if status == 0:
            files, others = files | {"t.link": text}, others | {"t.link": text}
            for words in (["bin", "--base", "1000", "--size", "1000"], ["hex"], ["srec"], ["image"], ["map"]):
                self.compare([*words, *(ALLOW_ALL if words[0] != "map" else []), "-t", "t.link", *names], files, others)

    def lowered(self, modules):
        """Modules as `omf-link lower` writes them."""
        for module in modules:
            *_, made = answer(self.folder, ["lower", "-o", "out.obj", "a.obj"], {"a.obj": module})
            yield made["out.obj"]

    def differs(self, seed):
        source, number = random.Random(seed), seed // 4
        try:
            if seed % 4 == 0:
                self.case(source, FILE_CASES[number % len(FILE_CASES)], True)
            elif seed % 4 == 1:
                self.case(source, INPUT_CASES[number % len(INPUT_CASES)], False)
            elif seed % 4 == 2:
                self.program(source, [executables.module(source, it, it == 0) for it in range(source.randrange(1, 4))])
            else:
                self.program(source, [*self.lowered([it.without(set()) for it in chosen.made(source)[0]])])
        except Differs as found:
            return found.args
        return None


def main():
    asked = lowered.seeded_parser(__doc__, 2000).parse_args()
    with tempfile.TemporaryDirectory() as folder:
        tries = Tries(folder)
        _, failed = lowered.run_seeds(asked, tries.differs)
    print(f"{tries.links} links, {tries.done} of them done, {failed} seeds otherwise")
    return 1 if failed else 0


if __name__ == "__main__":
    sys.exit(main())
