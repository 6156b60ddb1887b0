#!/usr/bin/env python3
"""Tries the lists of omf-dump: names.py [--first SEED --count N] [--seconds S] [--keep FOLDER]

The names of modules whose bytes are written here by the standard, with the kind, the place and the name of each by hand; of the same and of refused
files as JSON (read by Python's json) and as comma-separated values (read by Python's csv, and by sqlite3 if it is installed); and of modules that NASM
makes, with the offsets of its listing. With a seed instead modules made at random, whose names are known as they are made. OMF_DUMP names the program
(omf-dump, if not set). The last line has how many lists were compared."""
import argparse
import contextlib
import csv
import io
import json
import os
import pathlib
import random
import re
import shutil
import subprocess
import sys
import tempfile
import textwrap
import time

ROOT = pathlib.Path(__file__).resolve().parent.parent
sys.path.insert(0, str(ROOT / "tests" / "fuzz"))
from smaller import fewer  # noqa: E402

DUMP = os.environ.get("OMF_DUMP") or "omf-dump"
# A run with seeds ends after this number of lists that differ.
MOST_FAILED = 90
UNDEFINED = {"undefined", "weak", "lazy"}
tried, failed = 0, 0


def fails(what, *more):
    global failed
    failed += 1
    print("failed:", what, *more)


def same(what, found, expected):
    global tried
    tried += 1
    if found != expected:
        fails(what, f"\n  found    {found}\n  expected {expected}")


def run(*words, status=0, folder):
    done = subprocess.run([DUMP, *words], cwd=folder, stdin=subprocess.DEVNULL, capture_output=True, timeout=60)
    if done.returncode != status:
        fails("status", done.returncode, words, done.stderr)
    return done.stdout.decode("latin-1")


def record(kind, *parts):
    """A record: its type, the length of what follows, its contents, and the byte that makes the sum of all 0."""
    body = b"".join(parts)
    front = bytes([kind]) + (len(body) + 1).to_bytes(2, "little") + body
    return front + bytes([-sum(front) % 256])


def name(text):
    return bytes([len(text)]) + text.encode("latin-1")


def word(number):
    return number.to_bytes(2, "little")


# The names of the LNAMES, from index 1. Each SEGDEF has byte alignment and is private (20H).
LNAMES = ["", "_TEXT", "CODE", "_DATA", "DATA", "_BSS", "BSS", "M_TEXT", "FAR_CODE", "low", "code", "REP"]


def segment(label, group, size):
    return record(0x98, b"\x20", word(size), bytes([LNAMES.index(label) + 1, LNAMES.index(group) + 1, 1]))


KINDS = b"".join((
    record(0x80, name("kinds.asm")),
    record(0x96, *(name(it) for it in LNAMES)),
    segment("_TEXT", "CODE", 4), segment("_DATA", "DATA", 4), segment("_BSS", "BSS", 8), segment("M_TEXT", "FAR_CODE", 0), segment("low", "code", 2),
    segment("REP", "DATA", 4),
    # Externals 1 to 4; a local one is 5. A WKEXT makes 1 weak, an LZEXT 2 lazy, each with the default 3; a WKEXT that names 2 counts first.
    record(0x8C, name("_weak"), b"\0", name("_lazy"), b"\0", name("_given"), b"\0", name("_asked"), b"\0"),
    record(0xB4, name("_inner"), b"\0"),
    record(0x88, b"\x80\xA8\x01\x03"),
    record(0x88, b"\x80\xA9\x02\x03"),
    # Communals are externals too: 6 and 7, 8.
    record(0xB0, name("_near"), b"\0\x62\x02", name("_far"), b"\0\x61\x02\x04"),
    record(0xB8, name("_own"), b"\0\x62\x01"),
    record(0x8C, name("_late"), b"\0"),
    record(0x88, b"\x80\xA9\x80\x09\x03"),
    record(0x90, b"\0\x01", name("_main"), word(2), b"\0"),
    record(0x90, b"\0\x02", name("_count"), word(0), b"\0", name("_flag"), word(0x1234), b"\0"),
    record(0x91, b"\0\x03", name("_room"), (0x12345).to_bytes(4, "little"), b"\0"),
    record(0x90, b"\0\x04", name("_m"), word(0), b"\0"),
    record(0x90, b"\0\x05", name("_low"), word(1), b"\0"),
    record(0x90, b"\0\x06", name("_rep"), word(3), b"\0"),
    record(0x90, b"\0\0", word(0x40), name("ticks"), word(0x6C), b"\0"),
    record(0xB6, b"\0\x02", name("_hidden"), word(3), b"\0"),
    # IMPDEF by its name and by its ordinal; another comment of the class; one of another class.
    record(0x88, b"\x80\xA0\x01\0", name("_beep"), name("DOSCALLS"), name("DOSBEEP")),
    record(0x88, b"\x80\xA0\x01\x01", name("_exit"), name("DOSCALLS"), word(5)),
    record(0x88, b"\x80\xA0\x02\0", name("out"), name("in")),
    record(0x88, b"\x80\xA1\x01\0", name("_not"), name("DOSCALLS"), name("X")),
    record(0xA0, b"\x01", word(0), b"\x90\x90\xC3\x90"),
    record(0xA0, b"\x02", word(0), b"\x01\x02"),
    # An LIDATA counts as data: two times one byte.
    record(0xA2, b"\x06", word(0), word(2), word(0), b"\x01\xFF"),
    record(0x8A, b"\0"),
))
# Kind, whether it is local, segment, frame, offset, least number of digits, name.
KINDS_NAMES = [
    ("weak", False, None, None, None, 0, "_weak"), ("lazy", False, None, None, None, 0, "_lazy"), ("undefined", False, None, None, None, 0, "_given"),
    ("undefined", False, None, None, None, 0, "_asked"), ("undefined", True, None, None, None, 0, "_inner"), ("common", False, None, None, None, 0, "_near"),
    ("common", False, None, None, None, 0, "_far"), ("common", True, None, None, None, 0, "_own"), ("lazy", False, None, None, None, 0, "_late"),
    ("text", False, "_TEXT", None, 2, 4, "_main"), ("data", False, "_DATA", None, 0, 4, "_count"), ("data", False, "_DATA", None, 0x1234, 4, "_flag"),
    ("bss", False, "_BSS", None, 0x12345, 8, "_room"), ("text", False, "M_TEXT", None, 0, 4, "_m"), ("bss", False, "low", None, 1, 4, "_low"),
    ("data", False, "REP", None, 3, 4, "_rep"), ("absolute", False, None, 0x40, 0x6C, 4, "ticks"), ("data", True, "_DATA", None, 3, 4, "_hidden"),
    ("imported", False, None, None, None, 0, "_beep"), ("imported", False, None, None, None, 0, "_exit"),
]
# Names that need quotes or escapes.
ODD = ["a,b", 'say "x"', "tab\there", "line\nend", "\x1b[31m", "back\\slash", "\xe9", "", " "]
ODD_MODULE = b"".join((record(0x80, name('x",y')), *(record(0x8C, name(it), b"\0") for it in ODD), record(0x8A, b"\0")))
ODD_NAMES = [("undefined", False, None, None, None, 0, it) for it in ODD]


def escaped(text, quote):
    """As text and CSV show a name: what is not 20H to 7EH, the backslash and, in text, the quote as \\xNN."""
    shown = "".join(it if " " <= it <= "~" and it != "\\" and it != '"' else it if it == '"' and quote else f"\\x{ord(it):02X}" for it in text)
    return shown.replace('"', '""') if quote else shown


def text_line(head, row):
    kind, is_local, place, frame, offset, digits, symbol = row
    place = f'"{escaped(place, False)}"' if place is not None else f"{frame:04X}" if frame is not None else "-"
    shown = f"{offset:0{digits}X}" if offset is not None else "-"
    return f'{head}{kind} {place} {shown} "{escaped(symbol, False)}"' + (" local" if is_local else "")


def keys(head, row):
    kind, is_local, place, frame, offset, _, symbol = row
    more = {"segment": place, "frame": frame, "offset": offset}
    return {**head, "kind": kind, "local": is_local, **{key: it for key, it in more.items() if it is not None}, "symbol": symbol}


def cells(line):
    """The keys of an object as cells, with names as CSV escapes them. A module's number is in the cell of a member's."""
    shown = {"member" if key == "module" else key: escaped(it, True).replace('""', '"') if key in ("file", "name", "segment", "symbol") else it for key, it in line.items()}
    return {key: str(it).lower() if isinstance(it, bool) else str(it) for key, it in shown.items()}


def read_csv(text):
    rows = list(csv.DictReader(io.StringIO(text, newline=""), strict=True))
    return [{key: it for key, it in row.items() if it != "" or (key == "symbol" and row["kind"])} for row in rows]


def lists(folder, what, names):
    """All lists of a file that is one module."""
    for words, wanted in (((), names), (("--defined",), [it for it in names if it[0] not in UNDEFINED]), (("--undefined",), [it for it in names if it[0] in UNDEFINED])):
        expected = [keys({"file": what}, it) for it in wanted]
        same((what, words), run("--names", *words, what, folder=folder).splitlines(), [text_line(f"{escaped(what, False)}: ", it) for it in wanted])
        same((what, "json", words), [json.loads(it) for it in run("--names", "--json", *words, what, folder=folder).splitlines()], expected)
        same((what, "csv", words), read_csv(run("--names", "--csv", *words, what, folder=folder)), [cells(it) for it in expected])


# The first with a byte of an LEDATA changed, and why that is refused: 8 records up to the SEGDEFs, 8 of externals and comments on them, 8 of publics, 4 comments.
BAD = KINDS.replace(b"\x90\x90\xC3\x90", b"\x90\x90\xC3\x91")
REFUSAL = {"refused": 6, "reason": "Checksum", "record": 28, "at": KINDS.index(b"\xA0\x08\x00\x01\0\0\x90\x90"), "within": 10}
REFUSAL_LINE = f"refused 6 Checksum record 28 at {REFUSAL['at']} within 10"


def lists_of_parts(folder, what, parts, end, last):
    """All lists of a file with both modules, a refused one between them, and a fault `last` of its pages, if there is one: each part has the words of its lines and its keys."""
    (first, of_first), (bad, of_bad), (odd, of_odd) = parts
    refusal, accepted = {**of_bad, **REFUSAL}, ({**of_first, "records": 32, "bytes": len(KINDS)}, {**of_odd, "records": len(ODD) + 2, "bytes": len(ODD_MODULE)})
    names = [*(text_line(f"{what}: {first}: ", it) for it in KINDS_NAMES), f"{what}: {bad}: {REFUSAL_LINE}", *(text_line(f"{what}: {odd}: ", it) for it in ODD_NAMES), *last]
    same((what, "names"), run("--names", what, status=1, folder=folder).splitlines(), names)
    expected = [*(keys(of_first, it) for it in KINDS_NAMES), refusal, *(keys(of_odd, it) for it in ODD_NAMES), *end]
    same((what, "names json"), [json.loads(it) for it in run("--names", "--json", what, status=1, folder=folder).splitlines()], expected)
    same((what, "names csv"), read_csv(run("--names", "--csv", what, status=1, folder=folder)), [cells(it) for it in expected])
    verdicts = [f"{what}: {first}: OK 32 records, {len(KINDS)} bytes", f"{what}: {bad}: {REFUSAL_LINE}", f"{what}: {odd}: OK {len(ODD) + 2} records, {len(ODD_MODULE)} bytes", *last]
    same((what, "verdicts"), run("--verdict", what, status=1, folder=folder).splitlines(), verdicts)
    expected = [accepted[0], refusal, accepted[1], *end]
    same((what, "verdicts json"), [json.loads(it) for it in run("--verdict", "--json", what, status=1, folder=folder).splitlines()], expected)
    rows = list(csv.DictReader(io.StringIO(run("--verdict", "--csv", what, status=1, folder=folder), newline=""), strict=True))
    same((what, "verdicts csv"), [{key: it for key, it in row.items() if it != ""} for row in rows], [cells(it) for it in expected])


def parts_named(what, key):
    """The words of the lines of the modules in a file, and their keys."""
    shown = (("kinds.asm", "kinds.asm"), ("kinds.asm", "kinds.asm"), ('x\\x22,y', 'x",y'))
    return [(f'{key} {index} "{words}"', {"file": what, key: index, "name": it}) for index, (words, it) in enumerate(shown)]


def several(folder):
    """A file of modules with padding after each, and with another byte after the padding of the last."""
    (folder / "three.obj").write_bytes(KINDS + b"\x1A\x1A" + BAD + b"\0" + ODD_MODULE + b"\x1A\0")
    lists_of_parts(folder, "three.obj", parts_named("three.obj", "module"), [], [])
    (folder / "padded.obj").write_bytes(ODD_MODULE + bytes(3))
    same("padded", run("--verdict", "padded.obj", folder=folder), f"padded.obj: OK {len(ODD) + 2} records, {len(ODD_MODULE)} bytes\n")


def library(folder):
    """A library of modules with no F1H: pages of 16 bytes."""
    pad = lambda data: data + bytes(-len(data) % 16)
    (folder / "three.lib").write_bytes(pad(record(0xF0, bytes(12))) + pad(KINDS) + pad(BAD) + pad(ODD_MODULE))
    end = {"file": "three.lib", "fault": "NoEnd", "member": 3, "at": (folder / "three.lib").stat().st_size}
    lists_of_parts(folder, "three.lib", parts_named("three.lib", "member"), [end], [f"three.lib: fault NoEnd member 3 at {end['at']}"])
    if shutil.which("sqlite3"):
        (folder / "three.csv").write_text(run("--names", "--csv", "three.lib", status=1, folder=folder), encoding="latin-1")
        done = subprocess.run(["sqlite3", "three.db", ".import --csv three.csv names", "SELECT count(*), count(DISTINCT symbol) FROM names WHERE kind <> ''"], cwd=folder, capture_output=True, text=True, check=False)
        symbols = {it[-1] for it in KINDS_NAMES + ODD_NAMES}
        same("sqlite3", done.stdout.strip() + done.stderr, f"{len(KINDS_NAMES) + len(ODD_NAMES)}|{len(symbols)}")


ASSEMBLY = """segment code class=CODE
global start, stop
extern away
import beep doscalls.dll DosBeep
start: nop
 call far away
stop: ret
segment data class=DATA
global counter, other
counter: dw 1
other: db 5
segment room class=BSS
global buffer
 resb 3
buffer: resw 4
common shared 16
"""
PLACES = {"start": ("text", "code"), "stop": ("text", "code"), "counter": ("data", "data"), "other": ("data", "data"), "buffer": ("bss", "room")}


def assembled(folder):
    """What NASM makes, with the offsets of its listing."""
    (folder / "a.asm").write_text(ASSEMBLY, encoding="ascii")
    subprocess.run(["nasm", "-f", "obj", "-l", "a.lst", "-o", "a.obj", "a.asm"], cwd=folder, check=True)
    listing = (folder / "a.lst").read_text(encoding="ascii")
    offsets = {label: int(at, 16) for at, label in re.findall(r"^ *\d+ ([0-9A-F]{8}) .*?(\w+): ", listing, re.M)}
    expected = {f'{kind} "{place}" {offsets[label]:04X} "{label}"' for label, (kind, place) in PLACES.items()}
    expected |= {'undefined - - "away"', 'imported - - "beep"', 'common - - "shared"'}
    lines = run("--names", "a.obj", folder=folder).splitlines()
    same("nasm", {it.removeprefix("a.obj: ") for it in lines}, expected)
    same("nasm, once each", len(lines), len(expected))


def misused(folder):
    global tried
    for words in (["--csv"], ["--names", "--verdict"], ["--names", "--json", "--csv"], ["--defined"], ["--verdict", "--undefined"], ["--names", "--defined", "--undefined"]):
        tried += 1
        run(*words, "kinds.obj", status=2, folder=folder)


class Made:
    """A module made at random, and its names as they are listed. Parts can be left out: each has random numbers of its own."""

    def __init__(self, seed, without=()):
        self.random, self.rows, self.externals, self.own = random.Random(seed), [], [], set()
        self.count = self.random.randrange(12)
        self.places = [self.random.choice((("_TEXT", "CODE"), ("_DATA", "DATA"), ("_BSS", "BSS"), ("M_TEXT", "FAR_CODE"), ("low", "code"), ("REP", "DATA")))
                       for _ in range(self.random.randrange(1, 5))]
        self.filled = {it for it in range(len(self.places)) if self.random.randrange(2)}
        data = [record(0xA0, bytes([it + 1]), word(0), b"\x90" * self.random.randrange(1, 9)) for it in sorted(self.filled)]
        body = [self.part(f"{seed} {it}") for it in range(self.count) if it not in without]
        front = [record(0x80, name("made.asm")), record(0x96, *(name(it) for it in LNAMES)), *(segment(*it, 0x4000) for it in self.places)]
        self.bytes = b"".join([*front, *body, *data, record(0x8A, b"\0")])
        # A weak or lazy external is so from its first default on, wherever that is; a default of a communal or a local name changes nothing here.
        self.names = [(*self.externals[it][:2], *([None] * 3), 0, self.externals[it][2]) if isinstance(it, int) else it for it in self.rows]

    def part(self, seed):
        self.random = random.Random(seed)
        return self.random.choice((self.external, self.external, self.public, self.public, self.communal, self.imported, self.default))()

    def label(self):
        """A name that the module does not have yet."""
        while True:
            found = self.random.choice(("_", "a,", 'q"', "\\", "\xe9", "")) + "".join(self.random.choice("abXY09 ") for _ in range(self.random.randrange(1, 12)))
            if found not in self.own:
                self.own.add(found)
                return found

    def add_external(self, kind, is_local):
        self.externals.append([kind, is_local, self.label()])
        self.rows.append(len(self.externals) - 1)
        return self.externals[-1][2]

    def external(self):
        is_local = self.random.randrange(4) == 0
        found = [self.add_external("undefined", is_local) for _ in range(self.random.randrange(1, 4))]
        return record(0xB4 if is_local else 0x8C, *(part for it in found for part in (name(it), b"\0")))

    def communal(self):
        is_local, is_far = self.random.randrange(4) == 0, self.random.randrange(2)
        found = self.add_external("common", is_local)
        return record(0xB8 if is_local else 0xB0, name(found), b"\0\x61\x02\x04" if is_far else b"\0\x62\x02")

    def default(self):
        """A WKEXT or an LZEXT of an external, with another as its default; or another comment."""
        chosen = [number for number, it in enumerate(self.externals) if it[0] == "undefined" and not it[1]]
        if not chosen:
            return record(0x88, b"\x80\xA1\x01\x02")
        at, other = self.random.choice(chosen), self.random.randrange(len(self.externals))
        is_weak = self.random.randrange(2)
        self.externals[at][0] = "weak" if is_weak else "lazy"
        return record(0x88, bytes([0x80, 0xA8 if is_weak else 0xA9, at + 1, other + 1]))

    def imported(self):
        found, is_number = self.label(), self.random.randrange(2)
        self.rows.append(("imported", False, None, None, None, 0, found))
        return record(0x88, b"\x80\xA0\x01", bytes([is_number]), name(found), name("DOSCALLS"), word(5) if is_number else name("X"))

    def public(self):
        is_local, is_wide, offset = self.random.randrange(4) == 0, self.random.randrange(3) == 0, self.random.randrange(0x4000)
        at, found = self.random.randrange(-1, len(self.places)), self.label()
        place, kind = (self.places[at][0], self.places[at][1]) if at >= 0 else (None, "")
        kind = "absolute" if at < 0 else "text" if kind.endswith("CODE") else "data" if at in self.filled else "bss"
        self.rows.append((kind, is_local, place, None if at >= 0 else 0x40, offset, 8 if is_wide else 4, found))
        front = bytes([0, at + 1]) + (b"" if at >= 0 else word(0x40))
        return record((0xB6 if is_local else 0x90) + is_wide, front, name(found), offset.to_bytes(4 if is_wide else 2, "little"), b"\0")


def differs(module, folder):
    """Whether lists of a made module differ, and the lines of these."""
    before, said = failed, io.StringIO()
    (folder / "made.obj").write_bytes(module.bytes)
    with contextlib.redirect_stdout(said):
        lists(folder, "made.obj", module.names)
    return failed > before, said.getvalue()


def look_at_made(seed, folder, kept):
    """All lists of a made module; where they differ, the smallest module of its parts whose lists do."""
    global failed, tried
    found, _ = differs(Made(seed), folder)
    if not found:
        return
    every, counts = range(Made(seed).count), (tried, failed)
    parts = fewer(list(every), lambda it: differs(Made(seed, set(every) - set(it)), folder)[0], time.monotonic() + 30)
    module = Made(seed, set(every) - set(parts))
    _, said = differs(module, folder)
    tried, failed = counts
    where = pathlib.Path(kept or tempfile.gettempdir()) / f"names-{seed}.obj"
    where.parent.mkdir(parents=True, exist_ok=True)
    where.write_bytes(module.bytes)
    print(f"seed {seed}: lists of the parts {parts} differ: {where} ({len(module.bytes)} bytes)\n{textwrap.indent(said, '    ')}", end="", flush=True)


def look_at_all_made(asked):
    seed, end = asked.first, time.monotonic() + (asked.seconds or 0)
    with tempfile.TemporaryDirectory() as made:
        while failed < MOST_FAILED and (time.monotonic() < end if asked.seconds else seed < asked.first + asked.count):
            look_at_made(seed, pathlib.Path(made), asked.keep)
            seed += 1
    print(f"seeds {asked.first} to {seed - 1}")


def main():
    words = argparse.ArgumentParser()
    words.add_argument("--first", type=int)
    words.add_argument("--count", type=int, default=100)
    words.add_argument("--seconds", type=float)
    words.add_argument("--keep", help="a folder for modules whose lists differ")
    asked = words.parse_args()
    if asked.first is not None:
        look_at_all_made(asked)
    else:
        look_at_written()
    print(f"{tried} lists, {failed} failed")
    return failed > 0


def look_at_written():
    with tempfile.TemporaryDirectory() as made:
        folder = pathlib.Path(made)
        (folder / "kinds.obj").write_bytes(KINDS)
        (folder / 'odd ",.obj').write_bytes(ODD_MODULE)
        lists(folder, "kinds.obj", KINDS_NAMES)
        lists(folder, 'odd ",.obj', ODD_NAMES)
        library(folder)
        several(folder)
        misused(folder)
        if shutil.which("nasm"):
            assembled(folder)


if __name__ == "__main__":
    sys.exit(main())
