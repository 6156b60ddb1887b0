#!/usr/bin/env python3
"""Tries the programs on every module of a folder: modules.py FOLDER|--made FIRST SECONDS KEPT [check|place|canon|reloc|respell ..] [-- OPTION..]

check    `omf check` and `omf list` accept and refuse the same modules, and the list has as many records. Each refusal is printed
place    at the draft of `omf-place`, with the options after `--` (--real), `omf reloc` finds no line of the draft at fault; a fixup may
         still not reach. Each that does not reach is printed
canon    the canonical bytes of an accepted module are accepted, are their own canonical bytes, and are relocated as the module is (where
         the placement does not reach, with the same fault, but for the record and the place in it). `omf canon` refuses what `omf list`
         refuses, with the same line
reloc    each accepted module is relocated at a placement for all its segments, groups and externals. Each that does not reach is printed
respell  an accepted module in another spelling is accepted, and has the same canonical bytes

Without a word it does all five. The placement of canon and reloc has one frame at 10000H, segments one after another from there, those of
16 bits first, externals in the same 64 KB, absolute segments at their addresses. So 16-bit offsets reach in modules of less than 64 KB,
and 32-bit offsets always. The other spelling has checksum bytes of 0, indices of two bytes in data records and fixups, and each fixup in a
FIXUPP of its own, with its frame and its target by threads, and a displacement. Bits that mean nothing are set.

With --made they are modules made at random, half of them changed, one for each seed from FIRST on. One for which something does not hold is kept in the
folder KEPT, without the records and bytes that it does not need for that.

OMF and OMF_PLACE name the programs. A module for which something does not hold is printed, and then the status is 1; it is 2 where the
folder has no module."""
import os
import contextlib
import io
import pathlib
import random
import re
import subprocess
import sys
import time

ROOT = pathlib.Path(__file__).resolve().parent.parent
OMF, PLACE = os.environ.get("OMF", "omf"), os.environ.get("OMF_PLACE", "omf-place")
BASE = 0x10000
FRAME = f"{BASE:X} {BASE >> 4:X}"
# With --made it ends after this number of modules of which something does not hold.
MOST_BAD = 10
ENDINGS = {".obj", ".o", ".omf", ".t"}


def run(words, data):
    done = subprocess.run(words, input=data, stdout=subprocess.PIPE, check=False)
    return done.returncode, done.stdout


def omf(job, data):
    return run([OMF, job], data)


def lines_of(listing, kind):
    """The words of a listing's lines of one kind."""
    return [words for words in (line.split(" ") for line in listing.decode("latin-1").splitlines()) if words[0] == kind]


def absolute(module, record):
    """The frame number and offset of the SEGDEF of an R line, where it is absolute; and whether it has 16-bit offsets."""
    at = int(record[2], 16) + 3
    attribute = module[at]
    if attribute >> 5 == 0:
        return module[at + 1] + 256 * module[at + 2], module[at + 3], True
    return None, None, attribute % 2 == 0


def placement(module, listing):
    segdefs = [absolute(module, line) for line in lines_of(listing, "R") if line[5] == "SEGDEF"]
    lengths = [int(line[2]) for line in lines_of(listing, "S")]
    segments, address = {}, BASE
    for i in sorted(range(len(lengths)), key=lambda i: (not segdefs[i][2], i)):
        number, offset, _ = segdefs[i]
        if number is not None:
            segments[i] = f"S {16 * number + offset:X} {16 * number:X} {number:X}"
            continue
        segments[i] = f"S {address:X} {FRAME}"
        address += (lengths[i] + 15) // 16 * 16
    text = [segments[i] for i in range(len(lengths))]
    text += [f"G {FRAME}" for _ in lines_of(listing, "G")]
    text += [f"E {BASE + 0x100 + 4 * i:X} {FRAME}" for i, _ in enumerate(lines_of(listing, "E"))]
    return "".join(f"{line}\n" for line in text).encode()


class Job:
    """A job counts its modules, and yields what does not hold of one."""

    def __init__(self, options):
        self.options, self.accepted, self.refused, self.held = options, 0, 0, 0

    def look(self, path, module, listed):
        if listed[0] != 0:
            self.refused += 1
            yield from self.look_at_refused(path, module, listed)
        else:
            self.accepted += 1
            yield from self.look_at(path, module, listed[1])

    def look_at_refused(self, path, module, listed):
        return ()


class Check(Job):
    def look_at_refused(self, path, module, listed):
        status, verdict = omf("check", module)
        if status == 0:
            yield "check accepts it, and list refuses it"
        elif not re.fullmatch(rb"refused \d+ \w+ record \d+ at \d+ within \d+\n", verdict):
            yield f"its verdict is no refusal: {verdict[:200]}"
        else:
            print(f"{path}: {verdict.decode('latin-1').strip()}")

    def look_at(self, path, module, listing):
        status, verdict = omf("check", module)
        records = len(lines_of(listing, "R"))
        if status != 0:
            yield "list accepts it, and check refuses it"
        elif not verdict.startswith(f"OK {records} records, ".encode()):
            yield f"{verdict.decode().strip()}, but the list has {records} records"
        elif not verdict.endswith(f", {len(module)} bytes\n".encode()):
            print(f"{path}: {verdict.decode().strip()}, and the file has {len(module)}")

    def counts(self):
        return f"{self.accepted} accepted, {self.refused} refused"


class Place(Job):
    drafted = 0

    def look_at(self, path, module, listing):
        status, draft = run([PLACE, *self.options], module)
        if status != 0:
            print(f"{path}: {draft.decode('latin-1').strip()}")
            return
        status, answer = omf("reloc", module + draft)
        last = answer.decode("latin-1").splitlines()[-1:]
        if status != 0 and not last[0].startswith("reach 4 TooFar"):
            yield f"its draft is not in order: {last[0]}"
            return
        self.drafted, self.held = self.drafted + 1, self.held + (status == 0)
        if status != 0:
            print(f"{path}: {last[0]}")

    def counts(self):
        return f"{self.accepted} accepted, {self.drafted} drafts in order, {self.held} reach"


def without_place(answer):
    """A fault of reach without its record and its place there."""
    status, line = answer
    return (status, line.split(b" record ")[0]) if line.startswith(b"reach 4 ") else answer


class Canon(Job):
    changed = before = after = 0

    def look_at_refused(self, path, module, listed):
        if omf("canon", module) != listed:
            yield "canon and list refuse it otherwise"

    def look_at(self, path, module, listing):
        status, form = omf("canon", module)
        if status != 0:
            yield "canon refuses it"
            return
        self.changed, self.before, self.after = self.changed + (form != module), self.before + len(module), self.after + len(form)
        status, verdict = omf("check", form)
        if status != 0 or not verdict.endswith(f", {len(form)} bytes\n".encode()):
            yield f"its canonical bytes are not accepted: {verdict.decode().strip()}"
        if omf("canon", form) != (0, form):
            yield "its canonical bytes are not their own"
        text = placement(module, listing)
        if without_place(omf("reloc", module + text)) != without_place(omf("reloc", form + text)):
            yield "its canonical bytes are relocated otherwise"

    def counts(self):
        return f"{self.accepted} accepted, {self.changed} of them not canonical before; {self.refused} refused; {self.before} bytes, {self.after} of canonical bytes"


class Reloc(Job):
    def look_at(self, path, module, listing):
        status, answer = omf("reloc", module + placement(module, listing))
        if status == 0:
            self.held += 1
        elif answer.startswith(b"reach 4 "):
            print(f"{path}: {answer.decode('latin-1').strip()}")
        else:
            yield answer.decode("latin-1").strip()

    def counts(self):
        return f"{self.accepted} accepted, {self.held} of them reach"


class HasThreads(Exception):
    """The module has threads of its own, which those of the other spelling would change."""


def records(module):
    """The records of a module, each by its type and its contents."""
    at = 0
    while at < len(module):
        length = module[at + 1] + 256 * module[at + 2]
        yield module[at], module[at + 3 : at + 2 + length]
        at += 3 + length


def record(kind, contents):
    return bytes([kind]) + (len(contents) + 1).to_bytes(2, "little") + contents + b"\0"


def index(data, at):
    """An index and the offset after it."""
    if data[at] < 0x80:
        return data[at], at + 1
    return (data[at] & 0x7F) * 256 + data[at + 1], at + 2


def long_index(value):
    return bytes([0x80 | value >> 8, value & 0xFF])


def thread(kind, number, method, datum):
    """A THREAD: a bit that means nothing, whether it is a frame's (1) or a target's (0), its method, its number, its index."""
    return bytes([kind << 6 | 0x20 | method << 2 | number]) + (long_index(datum) if method < 3 else b"")


def fixup(data, at, count, wide):
    """The fixup at an offset as a FIXUPP's contents, and the offset after it. It uses the threads of the number count modulo 4."""
    place, fix, number = data[at : at + 2], data[at + 2], count % 4
    at += 3
    threads, new = b"", fix & ~4
    if fix & 0x80 == 0:
        method, datum = fix >> 4 & 7, 0
        if method < 3:
            datum, at = index(data, at)
        threads += thread(1, number, method, datum)
        new = new & 0x0F | 0xC0 | number << 4
    if fix & 8 == 0:
        datum, at = index(data, at)
        threads += thread(0, number, fix & 3, datum)
        new = new & 0xF0 | 8 | number
    size = 4 if wide else 2
    displacement = bytes(size) if fix & 4 else data[at : at + size]
    at += 0 if fix & 4 else size
    return threads + place + bytes([new]) + displacement, at


def fixupps(kind, data):
    """The FIXUPPs of one."""
    at, count = 0, 0
    while at < len(data):
        if data[at] & 0x80 == 0:
            raise HasThreads
        contents, at = fixup(data, at, count, kind & 1)
        count += 1
        yield record(kind, contents)


def respelled(module):
    """A module that means the same, in another spelling; None where it has threads of its own."""
    made = b""
    for kind, contents in records(module):
        if kind in (0x9C, 0x9D):
            try:
                made += b"".join(fixupps(kind, contents))
            except HasThreads:
                return None
        elif kind in (0xA0, 0xA1, 0xA2, 0xA3):
            segment, at = index(contents, 0)
            made += record(kind, long_index(segment) + contents[at:])
        elif kind in (0x8A, 0x8B) and contents[0] & 0x40 == 0:
            made += record(kind, bytes([contents[0] | 0x3F]) + contents[1:])
        else:
            made += record(kind, contents)
    return made


class Respell(Job):
    longer = 0

    def look_at(self, path, module, listing):
        other = respelled(module)
        if other is None:
            return
        self.held, self.longer = self.held + 1, self.longer + len(other)
        if omf("check", other)[0] != 0:
            yield "in another spelling it is not accepted"
        elif omf("canon", other) != omf("canon", module):
            yield "in another spelling it has other canonical bytes"

    def counts(self):
        return f"{self.accepted} accepted, {self.held} in another spelling, {self.longer} bytes"


JOBS = {"check": Check, "place": Place, "canon": Canon, "reloc": Reloc, "respell": Respell}


def faults_of(jobs, path, module):
    """What does not hold of a module, with the name of each job."""
    listed = omf("list", module)
    return [f"{name}: {it}" for name, job in jobs.items() for it in job.look(path, module, listed)]


def cut(bytes_):
    """A module without what follows its last record, which would be read as a placement."""
    import libraries
    return bytes_[: libraries.module_length(bytes_) or len(bytes_)]


def made(seed):
    """A module of this seed, with a module of the examples as another source of changed bytes."""
    import changes
    import executables
    random_ = random.Random(seed)
    found = executables.module(random_, random_.randrange(4), random_.randrange(2) == 0)
    written = [path.read_bytes() for path in sorted(ROOT.glob("examples/*/*.obj"))]
    return found if random_.randrange(2) else cut(changes.changed_module(random_, [found, random_.choice(written)]))


def smallest_fault(jobs, seed, module, found):
    """The smallest module for which the same job finds something that does not hold."""
    import smaller
    kinds = {it.split(":")[0] for it in found}

    def differs(inputs):
        with contextlib.redirect_stdout(io.StringIO()):
            return bool(kinds & {it.split(":")[0] for it in faults_of(jobs, f"seed {seed}", cut(inputs[0]))})

    return cut(smaller.smallest([module], differs, 30)[0])


def look_at_made(jobs, first, seconds, kept):
    """The numbers of modules: of which something does not hold, and of all."""
    seed, bad, end = first, 0, time.monotonic() + seconds
    sys.path.insert(0, str(ROOT / "tests" / "fuzz"))
    while time.monotonic() < end and bad < MOST_BAD:
        module = made(seed)
        with contextlib.redirect_stdout(io.StringIO()):
            found = faults_of(jobs, f"seed {seed}", module)
        if found:
            path = pathlib.Path(kept) / f"modules-{seed}.obj"
            path.parent.mkdir(parents=True, exist_ok=True)
            path.write_bytes(smallest_fault(jobs, seed, module, found))
            print(f"seed {seed}: {found[0]}: {path} ({path.stat().st_size} bytes)", flush=True)
        bad, seed = bad + (len(found) > 0), seed + 1
    print(f"seeds {first} to {seed - 1}")
    return bad, seed - first


def look_at_folder(jobs, folder):
    """The numbers of modules: of which something does not hold, and of all."""
    bad, seen = 0, 0
    for path in sorted(it for it in pathlib.Path(folder).rglob("*") if it.suffix.lower() in ENDINGS and it.is_file()):
        found = faults_of(jobs, path, path.read_bytes())
        for failing in found:
            print(f"{path}: {failing}")
        bad, seen = bad + (len(found) > 0), seen + 1
    return bad, seen


def main(words):
    own, options = (words[: words.index("--")], words[words.index("--") + 1 :]) if "--" in words else (words, [])
    front = 4 if own[:1] == ["--made"] else 1
    given, asked = own[:front], own[front:] or list(JOBS)
    if len(given) < front or not set(asked) <= set(JOBS):
        print(__doc__.splitlines()[0], file=sys.stderr)
        return 2
    jobs = {name: JOBS[name](options) for name in asked}
    bad, seen = look_at_made(jobs, int(given[1]), float(given[2]), given[3]) if front == 4 else look_at_folder(jobs, given[0])
    for name, job in jobs.items():
        print(f"{name}: {job.counts()}")
    print(f"{seen} modules, {bad} of which something does not hold")
    return 1 if bad else 0 if seen else 2


sys.exit(main(sys.argv[1:]))
