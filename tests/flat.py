#!/usr/bin/env python3
"""A program of C, flat and for 32 bits, as OMF: flat.py [--first SEED] [--count N | --seconds S] [--keep FOLDER]

Each seed compiles the modules of tests/flat by GCC or Clang for the i386, with options of its own (-O0 to -Os, a section for each function, for each
variable), and one module more, which the seed makes: functions and tables of pointers that refer to one another. tests/flat/omf.py writes what the compiler
made as OMF. omf-link drafts a text for one flat frame and makes the memory. It must be what GNU ld makes of the compiler's modules at the addresses
of the map; and where QEMU is installed it boots (as multiboot), and must print what the same C prints on the host.

Where a program differs, its line has the seed. OMF_LINK names omf-link. GCC or Clang, and GNU's as, ld and objcopy are needed (Debian: gcc, clang,
binutils, qemu-system-x86). The last line counts the programs. The status is 1 if one differs, and 2 if a tool is missing."""
import os
import pathlib
import random
import re
import shutil
import subprocess
import sys
import tempfile

HERE = pathlib.Path(__file__).resolve().parent / "flat"
sys.path.insert(0, str(HERE))
sys.path.insert(0, str(HERE.parent))
from lowered import run_seeds, seeded_parser  # noqa: E402
from omf import omf_of  # noqa: E402

LINK = os.environ.get("OMF_LINK", "omf-link")
MODULES = ("main", "text", "data", "memory")
COMPILERS = [it for it in ("gcc", "clang") if shutil.which(it)]
PLAIN = "-std=c11 -w -ffreestanding -fno-common -fno-stack-protector -fno-asynchronous-unwind-tables -fcf-protection=none -fno-ident".split()
FLAT = [*PLAIN, "-m32", "-march=i386", "-mno-sse", "-fno-pic", "-fno-pie"]
LEVELS = ("-O0", "-O1", "-O2", "-O3", "-Os")
# For one command, by the clock: QEMU takes a second or two.
SECONDS = 120


class Differs(Exception):
    """What differs."""


def run(words, folder, **more):
    done = subprocess.run([str(it) for it in words], cwd=folder, capture_output=True, timeout=SECONDS, check=False, **more)
    if done.returncode != 0:
        raise Differs(f"status {done.returncode}: {' '.join(str(it) for it in words)}: {done.stderr.decode(errors='replace').strip()[-600:]}")
    return done.stdout


def made_module(pick):
    """C with functions that call one another, arrays, and tables of pointers to both; made() runs through all. A function calls only those before it."""
    count, lines = pick.randint(3, 24), ['#include "flat.h"']
    arrays = [(f"a{it}", pick.randint(1, 40)) for it in range(pick.randint(1, 8))]
    for name, length in arrays:
        values = ", ".join(str(pick.randrange(2**32)) + "u" for _ in range(pick.randint(1, length)))
        lines.append(f"{pick.choice(('', 'static ', 'static const ', 'const '))}u32 {name}[{length}]{pick.choice(('', f' = {{{values}}}'))};")
    for number in range(pick.randint(1, 6)):
        names = [f"(u32 *)&{name}[{pick.randint(0, length - 1)}]" for name, length in (pick.choice(arrays) for _ in range(pick.randint(1, 9)))]
        lines.append(f"static u32 *{pick.choice(('', 'const '))}p{number}[] = {{{', '.join(names)}}};")
        lines.append(f"static u32 q{number}(u32 x) {{ return *p{number}[x % {len(names)}]; }}")
    pointers = number + 1
    for number in range(count):
        name, length = pick.choice(arrays)
        calls = [f"f{pick.randrange(number)}(x {pick.choice('+^-')} {pick.randrange(99)})" for _ in range(pick.randint(0, min(number, 2)))]
        terms = [f"{name}[x % {length}]", f"q{pick.randrange(pointers)}(x)", f"crc_of(page, {pick.randrange(9)})", "counts[x % 4]", f"tree[x % 7].weight", "(u8)verbs[x % 5].name[0]", f"x * {pick.randrange(2**16)}u"]
        body = pick.choice((" + ", " ^ ")).join([*calls, *pick.sample(terms, pick.randint(1, 4))])
        lines.append(f"{pick.choice(('', 'static '))}u32 f{number}(u32 x) {{ return x % 5 == 4 ? x : {body}; }}")
    table = [f"f{it}" for it in range(count)]
    pick.shuffle(table)
    lines.append(f"static u32 (*{pick.choice(('', 'const '))}table[])(u32) = {{{', '.join(table)}}};")
    lines.append(f"u32 made(void) {{ u32 sum = 0; for (u32 i = 0; i < {count}; i++) {{ sum = sum * 31 + table[i](i * 3); show_line(\"made\", sum); }} return sum; }}")
    return "\n".join(lines) + "\n"


class Program:
    """The program of a seed in a folder."""

    def __init__(self, seed, folder):
        self.folder, pick = folder, random.Random(seed)
        self.compiler, self.level = pick.choice(COMPILERS), pick.choice(LEVELS)
        self.options = [it for it in ("-ffunction-sections", "-fdata-sections") if pick.random() < 0.4]
        self.base = pick.choice((0x100000, 0x120000, 0x234560, 0x7F0010))
        (folder / "made.c").write_text(made_module(pick))
        self.order = [*MODULES, "made"]
        pick.shuffle(self.order)

    def source(self, name):
        return self.folder / "made.c" if name == "made" else HERE / f"{name}.c"

    def printed_on_host(self):
        sources = [self.source(it) for it in ("host", *MODULES, "made") if it != "memory"]
        run([self.compiler, *PLAIN, "-O1", f"-I{HERE}", "-o", "host", *sources], self.folder)
        return run(["./host"], self.folder)

    def compile(self):
        """The modules as ELF and as OMF: the one of the start first."""
        run(["as", "--32", "-o", "start.o", HERE / "start.s"], self.folder)
        for name in self.order:
            own = ["-fno-builtin", "-fno-tree-loop-distribute-patterns"] if name == "memory" and self.compiler == "gcc" else ["-fno-builtin"] if name == "memory" else []
            run([self.compiler, *FLAT, self.level, *self.options, *own, f"-I{HERE}", "-c", "-o", f"{name}.o", self.source(name)], self.folder)
        self.order.insert(0, "start")
        for name in self.order:
            module = omf_of((self.folder / f"{name}.o").read_bytes(), name, "start" if name == "start" else None)
            (self.folder / f"{name}.obj").write_bytes(module)

    def link(self):
        """The memory by omf-link, and the segments of the map: each with its module's number, its address, its length and its name."""
        files = [f"{it}.obj" for it in self.order]
        run([LINK, "draft", "--base", f"{self.base:X}", "--flat", "8", "-o", "flat.link", *files], self.folder)
        shown = run([LINK, "map", "-t", "flat.link", *files], self.folder).decode()
        segments = [(int(a), int(b, 16), int(c, 16), name) for a, b, c, name in re.findall(r'^segment (\d+) \d+ ([0-9A-F]+) ([0-9A-F]+) "(.*?)"', shown, re.M)]
        size = max(at + length for _, at, length, _ in segments) - self.base
        run([LINK, "bin", "-t", "flat.link", "--base", f"{self.base:X}", "--size", f"{size:X}", "--fill", "0", "-o", "flat.bin", *files], self.folder)
        return (self.folder / "flat.bin").read_bytes(), segments

    def by_ld(self, segments):
        """The memory by GNU ld, with the sections at the same addresses."""
        script = "SECTIONS {\n"
        for number, (module, at, _length, name) in enumerate(sorted(segments, key=lambda it: it[1])):
            script += f"  s{number} 0x{at:X} : SUBALIGN(1) {{ {self.order[module - 1]}.plain.o({name}) }}\n"
        (self.folder / "flat.ld").write_text(script + "  /DISCARD/ : { *(*) }\n}\n")
        for name in self.order:
            # Sections whose equal strings ld would join are plain ones here.
            run(["objcopy", "--set-section-flags", ".rodata*=alloc,load,readonly,data", f"{name}.o", f"{name}.plain.o"], self.folder)
        run(["ld", "-m", "elf_i386", "-e", "start", "-T", "flat.ld", "-o", "flat.elf", *(f"{it}.plain.o" for it in self.order)], self.folder)
        run(["objcopy", "-O", "binary", "--gap-fill", "0", "flat.elf", "ld.bin"], self.folder)
        return (self.folder / "ld.bin").read_bytes()

    def printed_in_emulator(self):
        """What it sends on the serial line. It ends the emulator by port F4H, which makes the status odd."""
        words = "qemu-system-i386 -display none -monitor none -no-reboot -serial file:printed -device isa-debug-exit,iobase=0xf4,iosize=1 -kernel flat.bin".split()
        done = subprocess.run(words, cwd=self.folder, capture_output=True, timeout=SECONDS, check=False)
        if done.returncode != 1:
            raise Differs(f"QEMU ends with status {done.returncode}: {done.stderr.decode(errors='replace').strip()[-300:]}")
        return (self.folder / "printed").read_bytes()

    def check(self, boots):
        expected = self.printed_on_host()
        self.compile()
        memory, segments = self.link()
        other = self.by_ld(segments)
        if memory != other.ljust(len(memory), b"\0"):
            at = next((it for it, (a, b) in enumerate(zip(memory, other.ljust(len(memory), b"\0"))) if a != b), len(memory))
            raise Differs(f"the byte at {self.base + at:X} is not the one of GNU ld")
        if boots and (printed := self.printed_in_emulator()) != expected:
            line = next((it for it, (a, b) in enumerate(zip(printed.splitlines(), expected.splitlines())) if a != b), len(printed.splitlines()))
            raise Differs(f"line {line + 1} of what it prints differs from the host's")


def difference(seed, boots, kept):
    """What differs, or None. The folder of a program that differs is kept, if there is a folder for it."""
    with tempfile.TemporaryDirectory() as made:
        try:
            Program(seed, pathlib.Path(made)).check(boots)
        except (Differs, subprocess.TimeoutExpired) as it:
            if kept:
                shutil.copytree(made, kept / f"flat-{seed}", dirs_exist_ok=True)
            return str(it)
    return None


def main():
    parser = seeded_parser(__doc__, 20)
    parser.add_argument("--keep", type=pathlib.Path, help="a folder for programs that differ")
    asked = parser.parse_args()
    missing = [it for it in ("as", "ld", "objcopy") if not shutil.which(it)] + ([] if COMPILERS else ["gcc"])
    if missing:
        print(f"skipped: {missing[0]} is not installed")
        return 2
    boots = shutil.which("qemu-system-i386") is not None
    if not boots:
        print("not run: qemu-system-i386 is not installed; the memory alone is compared")
    tried, differ = run_seeds(asked, lambda seed: difference(seed, boots, asked.keep))
    print(f"{tried} programs {'booted and ' if boots else ''}compared, {differ} differ")
    return 1 if differ else 0


if __name__ == "__main__":
    sys.exit(main())
