#!/usr/bin/env python3
"""Searches in programs of generated modules, and compares with the linker's map: find_programs.py [--seed N] [--count N] [--programs NAME ..] [--members N]
    [--code BYTES] [--own BYTES] [--nasm] [--corpus FOLDER] [--why] [--keep FOLDER]

Each program is of libraries with --members members together (6,500), of which it needs some: those with --code bytes of code (52,000), and modules of
its own with --own bytes (8,000). omf-link makes it, and omf-find searches in it for the libraries, as one does who has the compiler's libraries
alone; with `+own` also for the program's own modules. The programs are:

small, compact, medium, large    a memory model
quiet                            small, where nothing but the start-up module uses DGROUP's selector
twins                            large, where members have the code of others: half of these differ in one call
copies                           small, where the last library has members of the others once more

With --nasm NASM assembles the modules of a small and a large program. With --corpus half of the modules and members of a folder's files
are linked, without those that do not link with a module that defines what they ask for, and all are searched for.

Each line has how many code segments of the libraries' members that the map has are found, how many of their other segments with data, and how many of both;
how many lines of segments, publics and asked names are wrong; processor time and its ratio to `sha256sum` of the same files, the least of RUNS (5) runs;
and the peak of memory. A segment at the place of a member with the same bytes is right. With --why lines follow on what is not found: the reasons
of `--possible`, of what kind of segment. The last line counts the programs. The status is 1 where a line is wrong, or nothing is found.
OMF_FIND, OMF_LINK and OMF_LIB name the programs (omf-find, omf-link and omf-lib, if not set)."""
import argparse
import collections
import json
import os
import pathlib
import random
import re
import shutil
import subprocess
import sys
import tempfile

import find_modules
from find_modules import omf

sys.path.insert(0, str(pathlib.Path(__file__).resolve().parent / "worst"))
import running  # noqa: E402

FIND, LINK, LIB = (os.environ.get(name.replace("-", "_").upper()) or name for name in ("omf-find", "omf-link", "omf-lib"))
RUNS = int(os.environ.get("RUNS", "5"))
LIMIT_SECONDS = 120
# The model, how many members in a hundred have a twin, and how many are in the last library again.
PROGRAMS = {"small": ("small", 0, 0), "large": ("large", 0, 0), "compact": ("compact", 0, 0), "medium": ("medium", 0, 0), "quiet": ("quiet", 0, 0), "twins": ("large", 10, 0),
            "copies": ("small", 0, 5)}
# What part of the members each library has.
SHARES = (0.38, 0.23, 0.18, 0.13, 0.08)


def run(folder, *words):
    """The status, the standard output and the standard error."""
    done = subprocess.run([str(it) for it in words], cwd=folder, stdin=subprocess.DEVNULL, capture_output=True, check=False)
    return done.returncode, done.stdout.decode("latin-1"), done.stderr.decode("latin-1")


def done(folder, *words, most=0):
    """The standard output of a run that must end with the status 0, or one up to `most`."""
    status, output, error = run(folder, *words)
    if status > most:
        sys.exit(f"{' '.join(map(str, words[:4]))} ..: status {status}\n{error[:2000]}")
    return output


class Facts:
    """What the records of a module show: its names, and which of its segments have data."""

    def __init__(self, bytes_):
        self.bytes, self.publics, self.externals, self.with_data = bytes_, [], [], set()
        for kind, contents in records(bytes_):
            if kind & 0xFE in (0xA0, 0xA2):
                self.with_data.add(index(contents, 0)[0])
            elif kind == 0x8C:
                self.externals += names(contents, 0, 1)
            elif kind & 0xFE == 0x90:
                _, at = index(contents, 0)
                segment, at = index(contents, at)
                self.publics += names(contents, at if segment else at + 2, 5 if kind & 1 else 3)


def records(bytes_):
    """The records up to the MODEND, each by its type and its contents."""
    at = 0
    while at + 3 <= len(bytes_):
        size = bytes_[at + 1] + 256 * bytes_[at + 2]
        yield bytes_[at], bytes_[at + 3:at + 2 + size]
        if bytes_[at] & 0xFE == 0x8A:
            return
        at += 3 + size


def index(data, at):
    """An index and the offset after it."""
    return (data[at], at + 1) if data[at] < 0x80 else ((data[at] & 0x7F) * 256 + data[at + 1], at + 2)


def names(data, at, more):
    """Names from an offset on, each with this number of bytes after it."""
    found = []
    while at < len(data):
        found.append(data[at + 1:at + 1 + data[at]])
        at += 1 + data[at] + more
    return found


class Case:
    """A program in a folder: its file and map, the files that are searched for and the facts of their modules by file and member."""

    def __init__(self, name, folder, files, facts):
        self.name, self.folder, self.files, self.facts = name, folder, files, facts
        text = (folder / "prog.map").read_text("latin-1")
        self.modules = {}
        for number, file, member in re.findall(r'^module (\d+) file "([^"]*)" module (\d+)(?: "[^"]*")?$', text, re.M):
            self.modules[int(number)] = file, int(member) - 1
        self.segments, self.publics = {}, collections.defaultdict(set)
        for number, segment, address, size, section, kind in re.findall(r'^segment (\d+) (\d+) (\S+) (\S+) "([^"]*)" "([^"]*)"$', text, re.M):
            if int(number) in self.modules:
                self.segments[(*self.modules[int(number)], int(segment))] = int(address, 16), kind.endswith("CODE")
        for number, address, public in re.findall(r'^public (\d+) (\S+) "([^"]*)"$', text, re.M):
            self.publics[public].add(int(address, 16))

    def wanted(self):
        """The segments with data of the searched files that the map has, each with whether it is code."""
        return {key: is_code for key, (_, is_code) in self.segments.items() if key[:2] in self.facts and key[2] in self.facts[key[:2]].with_data}

    def places(self):
        """The addresses of each segment, by the bytes of its module."""
        found = collections.defaultdict(set)
        for key, (address, _) in self.segments.items():
            if key[:2] in self.facts:
                found[self.facts[key[:2]].bytes, key[2]].add(address)
        return found

    def lines(self, *options):
        """The lines of omf-find; a module that is refused is left out."""
        return [json.loads(it) for it in done(self.folder, FIND, "--json", *options, "prog.exe", *self.files, most=1).splitlines()]

    def wrong(self, lines):
        """The lines that the map denies."""
        places = self.places()
        for line in lines:
            if "segment" in line and line["segment"] not in places[self.facts[line["file"], line["member"]].bytes, line["index"]]:
                yield line
            elif ("public" in line or "asked" in line) and line["name"] in self.publics and line.get("public", line.get("asked")) not in self.publics[line["name"]]:
                yield line

    def found(self, lines):
        """The segments of the map that are found, if only as a member with the same bytes."""
        shown = {(self.facts[it["file"], it["member"]].bytes, it["index"], it["segment"]) for it in lines if "segment" in it}
        return {key for key in self.wanted() if (self.facts[key[:2]].bytes, key[2], self.segments[key][0]) in shown}

    def measure(self, launch):
        """Milliseconds and megabytes of omf-find, and milliseconds of sha256sum."""
        command = [FIND, "prog.exe", *self.files]
        find = [running.once(launch, command, LIMIT_SECONDS, folder=self.folder) for _ in range(RUNS)]
        sums = [running.once(launch, ["sha256sum", *command[1:]], LIMIT_SECONDS, folder=self.folder)[0] for _ in range(RUNS)]
        return min(it[0] for it in find), max(it[1] for it in find), min(sums)


def share(found, wanted):
    return f"{len(found & wanted)} of {len(wanted)} ({100 * len(found & wanted) / max(1, len(wanted)):.1f} %)"


def look(case, launch, why):
    """Prints the line of a program; whether all is right and something is found."""
    lines = case.lines()
    wanted, found, wrong = case.wanted(), case.found(lines), [*case.wrong(lines)]
    code = {key for key, is_code in wanted.items() if is_code}
    time, peak, sums = case.measure(launch)
    size = sum((case.folder / it).stat().st_size for it in case.files)
    print(f"{case.name}: {len(case.facts):,} modules, {size:,} bytes; program {(case.folder / 'prog.exe').stat().st_size:,} bytes; code {share(found, code)}, "
          f"data {share(found, set(wanted) - code)}, all {share(found, set(wanted))}, wrong {len(wrong)}; {time:.0f} ms, {time / sums:.1f} times sha256sum, {peak:.0f} MB", flush=True)
    for line in wrong[:10]:
        is_linked = any(key[:2] == (line["file"], line["member"]) for key in case.segments)
        print("  wrong, of a member that is", "linked:" if is_linked else "not linked:", json.dumps(line))
    if why:
        show_reasons(case, set(wanted) - found, {(it["file"], it["member"]) for it in lines if "segment" in it})
    return not wrong and bool(found or not wanted)


def show_reasons(case, missed, held):
    """Counts why segments are not found: what --possible shows of their modules, or that their module is found without them."""
    reasons = {}
    for line in case.lines("--possible"):
        if "why" in line:
            key = line["file"], line["member"], line["index"]
            reasons[key] = line["why"] + (" at its place" if line.get("possible") == case.segments.get(key, (None,))[0] or "at its place" in reasons.get(key, "") else "")
    counts = collections.Counter()
    for key in missed:
        word = reasons.get(key) or ("absent from a module that is found" if key[:2] in held else "not shown")
        counts[word, "code" if case.segments[key][1] else "data"] += 1
    for (word, kind), count in sorted(counts.items()):
        print(f"  {count} of {kind}: {word}")


def write_library(folder, name, modules):
    """A library of these modules' bytes, by omf-lib, which takes one module of each file."""
    files = [f"{number}.obj" for number in range(len(modules))]
    for file, one in zip(files, modules):
        (folder / file).write_bytes(one)
    (folder / name).unlink(missing_ok=True)
    done(folder, LIB, "make", "-o", name, *files)
    for file in files:
        (folder / file).unlink()


def assembled(folder, module):
    """The bytes that NASM makes of a module's source."""
    (folder / "x.asm").write_text(find_modules.nasm(module))
    done(folder, "nasm", "-f", "obj", "-o", "x.obj", "x.asm")
    return (folder / "x.obj").read_bytes()


def generated(name, asked, seed, folder, make):
    """The cases of a generated program: of its libraries alone, and of its own modules too."""
    model, twins, copies = PROGRAMS[name]
    sizes = [max(1, round(asked.members * it)) for it in SHARES]
    world = find_modules.World(seed, model, sizes, twins, asked.members * copies // 100)
    facts, files = {}, []
    for number, members in enumerate(world.libraries):
        files.append(f"lib{number}.lib")
        made = [make(it) for it in members]
        write_library(folder, files[-1], made)
        facts.update({(files[-1], member): Facts(it) for member, it in enumerate(made)})
    own = [make(it) for it in world.program(asked.code, asked.own)]
    (folder / "own.obj").write_bytes(b"".join(own))
    done(folder, LINK, "exe", "-o", "prog.exe", "--map", "prog.map", "own.obj", *files)
    title = f"{name}, seed {seed}"
    yield Case(title, folder, files, facts)
    yield Case(f"{title}, +own", folder, ["own.obj", *files], facts | {("own.obj", number): Facts(it) for number, it in enumerate(own)})


def modules_of(folder):
    """The modules of a folder's files, members of libraries too."""
    for path in sorted(it for it in pathlib.Path(folder).rglob("*") if it.is_file()):
        bytes_ = path.read_bytes()
        if bytes_[:1] == b"\x80":
            yield bytes_
        elif bytes_[:1] == b"\xF0":
            with tempfile.TemporaryDirectory() as work:
                run(work, LIB, "get", path.resolve(), "-d", ".", "--numbered")
                yield from (it.read_bytes() for it in sorted(pathlib.Path(work).iterdir(), key=lambda it: int(it.stem)))


def with_stubs(facts):
    """A start-up module, and one that defines the names that these modules ask for and do not define."""
    asked = {name for one in facts for name in one.externals} - {name for one in facts for name in one.publics}
    names_ = sorted({"_main"} | {it.decode("latin-1") for it in asked})
    return omf(find_modules.start_up(find_modules.MODELS["small"])) + omf(find_modules.stubs(names_))


def links(folder, facts):
    """Whether these modules are linked with a start-up module."""
    (folder / "own.obj").write_bytes(with_stubs(facts))
    for number, one in enumerate(facts):
        (folder / f"m{number}.obj").write_bytes(one.bytes)
    files = [f"m{number}.obj" for number in range(len(facts))]
    return run(folder, LINK, "exe", "--no-default-libraries", "--allow", "near", "--allow", "group", "-o", "prog.exe", "--map", "prog.map", "own.obj", *files)[0] == 0


def linked(folder, taken, others):
    """The other modules, without some that do not link with these."""
    if not others or links(folder, [*taken, *others]):
        return others
    half = len(others) // 2
    if not half:
        return []
    first = linked(folder, taken, others[:half])
    return [*first, *linked(folder, [*taken, *first], others[half:])]


def corpus(asked, seed, folder):
    """The case of a program of half of a folder's modules, without those that do not link. All are searched for."""
    modules = [Facts(it) for it in dict.fromkeys(modules_of(asked.corpus))]
    random.Random(seed).shuffle(modules)
    taken = linked(folder, [], modules[:len(modules) // 2])
    links(folder, taken)
    others = [it for it in modules if all(it is not one for one in taken)]
    files = [f"m{number}.obj" for number in range(len(modules))]
    for number, one in enumerate(others, len(taken)):
        (folder / files[number]).write_bytes(one.bytes)
    yield Case(f"corpus, seed {seed}, {len(taken)} linked", folder, files, {(file, 0): one for file, one in zip(files, [*taken, *others])})


def cases(asked, seed, folder):
    """The programs of a seed, each with the folder of its files."""
    if asked.corpus:
        yield from corpus(asked, seed, folder)
        return
    for name in asked.programs or (["small", "large"] if asked.nasm else PROGRAMS):
        make = (lambda it: assembled(folder, it)) if asked.nasm else omf
        yield from generated(name, asked, seed, folder, make)


def main():
    words = argparse.ArgumentParser(description=__doc__.split("\n\n")[0], formatter_class=argparse.RawDescriptionHelpFormatter)
    words.add_argument("--seed", type=int, default=1)
    words.add_argument("--count", type=int, default=1, help="the number of seeds")
    words.add_argument("--programs", nargs="+", choices=PROGRAMS)
    words.add_argument("--members", type=int, default=6500)
    words.add_argument("--code", type=int, default=52_000)
    words.add_argument("--own", type=int, default=8_000)
    words.add_argument("--nasm", action="store_true")
    words.add_argument("--corpus")
    words.add_argument("--why", action="store_true")
    words.add_argument("--keep", help="a folder for the files of the last program")
    asked, looked, bad = words.parse_args(), 0, 0
    for seed in range(asked.seed, asked.seed + asked.count):
        with tempfile.TemporaryDirectory() as work:
            launch = running.built(work)
            folder = pathlib.Path(work) / "files"
            folder.mkdir()
            for case in cases(asked, seed, folder):
                looked, bad = looked + 1, bad + (not look(case, launch, asked.why))
            if asked.keep:
                shutil.copytree(folder, asked.keep, dirs_exist_ok=True)
    print(f"{looked} programs, {bad} bad")
    return 1 if bad else 0


if __name__ == "__main__":
    sys.exit(main())
