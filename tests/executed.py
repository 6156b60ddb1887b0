#!/usr/bin/env python3
"""Programs whose sources know their answer, linked and run: executed.py [--first SEED] [--count N] [--seconds S] [--keep FOLDER] [--without STEP ..] [--dosbox]

Each seed makes a program of two to six modules for NASM. Its parts refer to one another in the ways that compilers do: near and far calls, code in a
group that not every module names, words in DGROUP and in far segments, also some bytes after a name, near and far communals of several sizes, pointers
and tables of them, two parts of a stack, routines that each module which calls them has as a COMDAT, names that are aliases, and weak and lazy externals,
defined or not. Some modules have CEXTDEFs, or debug information. Each step adds to a sum in BP, so a reference that goes elsewhere gives another sum,
or no end. The modules are linked in any order, some of them from a library, as an .EXE, a .COM or a ROM. An 8086 emulator
(Unicorn) loads the program as DOS does, at three paragraphs, and runs it. With --dosbox DOSBox runs those for DOS too, some in one go. What is linked with status 0 must end with the sum of the source. A program
without a near call into another segment must link. So must one with such calls in a group, also from a module that does not name it, but for two cases:
a called routine of a module that does not name the group is in the frame of its segment, and a call from below that is refused; and where all modules that
name the group have a segment empty, the group's frame may begin after the segment.

Where a program differs, its line has the seed, and the steps without which it still differs: --first SEED --count 1 --without STEP .. makes the smaller
one again. --seconds is the time for all; a program that differs takes up to SMALLER seconds more.

OMF_LINK and OMF_LIB name the programs. NASM and Unicorn's Python package (Debian: nasm, python3-unicorn) are needed. The last line counts the programs.
The status is 1 if one differs, and 2 if something is not installed."""
import argparse
import os
import random
import shutil
import struct
import subprocess
import sys
import tempfile
import time

sys.path.append("/usr/lib/python3/dist-packages")
sys.path.insert(0, os.path.dirname(os.path.realpath(__file__)))
sys.path.insert(0, os.path.join(os.path.dirname(os.path.realpath(__file__)), "fuzz"))
from comdats import with_comdats  # noqa: E402
from kinds import by_index, with_aliases, with_defaults  # noqa: E402
from smaller import fewer  # noqa: E402

LINK, LIB = os.environ.get("OMF_LINK", "omf-link"), os.environ.get("OMF_LIB", "omf-lib")
MOST_INSTRUCTIONS = 200_000
SMALLER, MOST_DIFFER = 60, 10
ROM_BASE, ROM_SIZE = 0xE0000, 0x20000


# Shows BP as four letters, A for 0, and leaves it as it is.
SHOW = ["mov cx, 4", "told: push cx", "mov cl, 4", "rol bp, cl", "mov dx, bp", "and dl, 15", "add dl, 'A'", "mov ah, 2", "int 21h", "pop cx", "loop told"]
BATCH = 25


class Module:
    """One source: lines of its segments, and the names that it takes from others."""

    def __init__(self, number, code):
        self.number, self.code, self.names_group = number, code, False
        self.text, self.data, self.far, self.taken, self.communals = [], [], [], set(), {}
        self.inlines, self.aliases, self.defaults = {}, [], []

    def source(self, plan):
        """The text for NASM."""
        group = ["group DGROUP " + ("_TEXT _DATA _BSS" if plan.kind == "com" else "_DATA _BSS")]
        lines = ["cpu 8086", *sorted(self.taken), *(f"common {name} {size}" for name, size in sorted(self.communals.items()))]
        if plan.is_grouped and (self.number == 0 or plan.random.random() < 0.5):
            self.names_group = True
            lines += [f"segment {code} public align={plan.align} class=CODE" for code in ("A_TEXT", "B_TEXT")]
            group.append("group CGROUP A_TEXT B_TEXT")
        lines += group
        lines += [f"segment {self.code} public align={plan.align} class=CODE", *self.text]
        lines += ["segment _DATA public align=2 class=DATA", *self.data, "segment _BSS public align=2 class=BSS", f"b{self.number}: resw 1"]
        if self.far:
            lines += [f"segment FAR{self.number} {plan.far} align=16 class=FAR_DATA", *self.far]
        if plan.kind != "com" and (self.number == 0 or plan.split_stack and self.number == 1):
            lines += ["segment STACK stack class=STACK", "resb 256"]
        for name, body in self.inlines.items():
            lines += [f"global {name}__", f"segment INLINE_{name} align=1 class=CODE", f"{name}__:", *body]
        return "\n".join(lines) + "\n"


class Plan:
    """A program: its modules, what each step of it does, and the sum. Steps can be left out: each has random numbers of its own."""

    def __init__(self, seed, without=()):
        self.random, self.seed, self.without, self.made = random.Random(seed), seed, set(without), 0
        pick = self.random
        self.kind = pick.choice(("exe", "exe", "exe", "com", "bin"))
        self.align, self.far = pick.choice((1, 2, 16)), pick.choice(("private", "public"))
        self.split_stack, self.strays, self.crossed = pick.random() < 0.3, False, []
        self.is_grouped = self.kind == "exe" and pick.random() < 0.3
        count = pick.randint(2, 6)
        codes = ["_TEXT"] if self.kind == "com" or pick.random() < 0.4 else ["_TEXT", "A_TEXT", "B_TEXT"]
        codes = ["A_TEXT", "B_TEXT"] if self.is_grouped else codes
        self.modules = [Module(number, pick.choice(codes)) for number in range(count)]
        self.words, self.sum, self.tables = {}, 0, 0
        self.leaves, self.rows = {}, {}
        self.selections = {f"x{it}": pick.choice((1, 1, 2)) for it in range(3)}
        for module in self.modules:
            self.declare(module)
        for module in self.modules:
            self.fill(module)
        self.begin()

    def far_data(self):
        return self.kind != "com"

    def declare(self, module):
        """What a module defines: a near and a far routine, a word in DGROUP, a communal, and a word in a segment of its own."""
        number, pick = module.number, self.random
        module.text.append(f"global p{number}, n{number}, b{number}" + (f", q{number}, r{number}" if self.far_data() else ""))
        self.leaves[f"p{number}"], self.leaves[f"r{number}"] = pick.randrange(65536), pick.randrange(65536)
        self.words[f"n{number}"], self.words[f"b{number}"] = pick.randrange(65536), None
        self.rows[f"n{number}"] = [pick.randrange(65536) for _ in range(pick.randrange(4))]
        module.text += [f"p{number}: mov ax, {self.leaves[f'p{number}']}", *self.adds(), "ret"]
        if self.far_data():
            module.text += [f"r{number}: mov ax, {self.leaves[f'r{number}']}", *self.adds(), "retf"]
            module.text[0] += f", f{number}"
            module.far += ["db " + ", ".join(str(pick.randrange(256)) for _ in range(pick.randrange(1, 20)))] * pick.randrange(2)
            self.words[f"f{number}"] = pick.randrange(65536)
            self.rows[f"f{number}"] = [pick.randrange(65536) for _ in range(pick.randrange(4))]
            module.far += [f"f{number}: dw {self.words[f'f{number}']}", *(f"dw {it}" for it in self.rows[f"f{number}"])]
        if pick.random() < 0.5:
            module.data.append("db " + ", ".join(str(pick.randrange(256)) for _ in range(pick.randrange(1, 9))))
        module.data += [f"n{number}: dw {self.words[f'n{number}']}", *(f"dw {it}" for it in self.rows[f"n{number}"])]

    def adds(self):
        return ["mov cl, 3", "rol bp, cl", "add bp, ax"]

    def add(self, value):
        self.sum = ((self.sum << 3 | self.sum >> 13) + value) % 65536

    def near(self, module, name):
        """The name of a word in DGROUP, with its EXTDEF in a module that does not define it."""
        if name[0] != "c" and name[1:] != str(module.number):
            module.taken.add(f"extern {name}:wrt DGROUP")
            return name
        if name[0] == "c":
            module.communals.setdefault(name, f"{2 * self.random.randint(1, 4)}:near")
        return f"{name} wrt DGROUP"

    def other(self, module, name):
        """A name of code or of a far word, with its EXTDEF in a module that does not define it."""
        if name[1:] != str(module.number):
            module.taken.add(f"extern {name}")
        return name

    def fill(self, module):
        """The routine q of a module, which makes its steps."""
        body, whole = [f"q{module.number}:"], self.random
        for _ in range(whole.randint(3, 12)):
            self.made += 1
            self.random = random.Random(f"{self.seed} {self.made}")
            body += [] if self.made in self.without else self.random.choice(self.steps())(module)
        self.random = whole
        module.text += [*body, "retf" if self.far_data() else "ret"]
        if not self.far_data():
            module.text[0] += f", q{module.number}"

    def steps(self):
        """The steps that this kind of program may make."""
        steps = [self.constant, self.near_call, self.near_word, self.near_row, self.near_store, self.near_table]
        if self.kind != "bin":
            steps += [self.communal, self.alias_word]
            steps += [] if self.is_grouped else [self.alias_call]
        if self.far_data():
            steps += [self.far_word, self.far_row, self.far_table, self.selector]
            steps += [self.far_communal] if self.kind == "exe" else []
        if not self.is_grouped:
            steps += [self.code_table, self.weak_call]
            if self.far_data():
                steps += [self.far_call, self.far_code_table]
            steps += [self.inline] * 4 if self.kind == "exe" else []
        return steps

    def any_module(self):
        return self.random.choice(self.modules)

    def table(self, module, entry):
        """A table in a module's data with one entry among others; its name and the entry's offset."""
        self.tables += 1
        name, front = f"t{module.number}x{self.tables}", self.random.randrange(3)
        module.data += [f"{name}: times {front} dw 0", entry] if front else [f"{name}:", entry]
        return f"{name} + {2 * front} wrt DGROUP" if front else f"{name} wrt DGROUP"

    def constant(self, module):
        value = self.random.randrange(65536)
        self.add(value)
        return [f"mov ax, {value}", *self.adds()]

    def near_call(self, module):
        there = self.any_module()
        if there.code != module.code and self.is_grouped:
            self.crossed.append(there)
        elif there.code != module.code:
            if self.random.random() < 0.9:
                return self.constant(module)
            self.strays = True
        self.add(self.leaves[f"p{there.number}"])
        return [f"call {self.other(module, f'p{there.number}')}"]

    def near_word(self, module):
        name = f"n{self.any_module().number}"
        self.add(self.words[name])
        return [f"mov ax, [{self.near(module, name)}]", *self.adds()]

    def row(self, name):
        """A word at a name or one of the next: its offset from the name. It is added to the sum."""
        number = self.random.randrange(len(self.rows[name]) + 1)
        self.add(self.rows[name][number - 1] if number else self.words[name])
        return 2 * number

    def near_row(self, module):
        name = f"n{self.any_module().number}"
        offset, where = self.row(name), self.near(module, name).split()
        where = " ".join([f"{where[0]} + {offset}", *where[1:]])
        if self.random.random() < 0.5:
            return [f"mov ax, [{where}]", *self.adds()]
        return [f"mov bx, [{self.table(module, f'dw {where}')}]", "mov ax, [bx]", *self.adds()]

    def near_store(self, module):
        name, value = f"{self.random.choice('nb')}{self.any_module().number}", self.random.randrange(65536)
        self.words[name] = value
        self.add(value)
        where = self.near(module, name)
        return [f"mov word [{where}], {value}", f"mov ax, [{where}]", *self.adds()]

    def communal(self, module):
        name, value = f"c{self.random.randrange(90, 93)}", self.random.randrange(65536)
        where, lines = self.near(module, name), []
        if self.words.get(name) is None or self.random.random() < 0.5:
            self.words[name] = value
            lines = [f"mov word [{where}], {value}"]
        self.add(self.words[name])
        return [*lines, f"mov ax, [{where}]", *self.adds()]

    def far_communal(self, module):
        """A communal in a segment of its own, as large as its largest declaration."""
        name, value, lines = f"d{self.random.randrange(90, 93)}", self.random.randrange(65536), []
        module.communals.setdefault(name, f"{2 * self.random.randint(1, 40)}:{self.random.choice(('far', '1', '2'))}")
        if self.words.get(name) is None or self.random.random() < 0.5:
            self.words[name] = value
            lines = [f"mov word [es:{name}], {value}"]
        self.add(self.words[name])
        return [f"mov ax, seg {name}", "mov es, ax", *lines, f"mov ax, [es:{name}]", *self.adds()]

    def near_table(self, module):
        name = f"n{self.any_module().number}"
        where = self.table(module, f"dw {self.near(module, name)}")
        self.add(self.words[name])
        return [f"mov bx, [{where}]", "mov ax, [bx]", *self.adds()]

    def code_table(self, module):
        there = self.random.choice([it for it in self.modules if it.code == module.code])
        name = self.other(module, f"p{there.number}")
        where = self.table(module, f"dw {name}" + (" wrt DGROUP" if self.kind == "com" and there is module else ""))
        self.add(self.leaves[f"p{there.number}"])
        return [f"call [{where}]"]

    def far_call(self, module):
        name = f"r{self.any_module().number}"
        self.add(self.leaves[name])
        self.other(module, name)
        return [f"call seg {name}:{name}"]

    def inline(self, module):
        """A far call of a routine that each module which calls it has as a COMDAT."""
        name = self.random.choice(sorted(self.selections))
        module.taken.add(f"extern {name}")
        own = random.Random(f"{self.seed} {name}")
        word, value = f"f{own.choice(self.modules).number}", own.randrange(65536)
        nops = ["nop"] * self.random.randrange(4) if self.selections[name] == 1 else []
        if name not in module.inlines:
            self.other(module, word)
            body = [*nops, f"mov ax, seg {word}", "mov es, ax", f"mov ax, [es:{word}]", *self.adds(), f"mov ax, {value}", *self.adds(), "retf"]
            module.inlines[name] = body
        self.add(self.words[word])
        self.add(value)
        return [f"call seg {name}:{name}"]

    def alias(self, name):
        """An alias of a name, perhaps by another one, each in some module."""
        first = f"also{self.made}"
        names = [first, *(f"{first}x{it}" for it in range(self.random.randrange(2))), name]
        for pair in zip(names, names[1:]):
            self.any_module().aliases.append(pair)
        return first

    def alias_call(self, module):
        there = self.random.choice([it for it in self.modules if it.code == module.code])
        name = self.alias(f"p{there.number}")
        module.taken.add(f"extern {name}")
        self.add(self.leaves[f"p{there.number}"])
        return [f"call {name}"]

    def alias_word(self, module):
        word = f"n{self.any_module().number}"
        name = self.alias(word)
        module.taken.add(f"extern {name}:wrt DGROUP")
        self.add(self.words[word])
        return [f"mov ax, [{name}]", *self.adds()]

    def weak_call(self, module):
        """A near call of a name with a default, which another module defines or none."""
        others = [f"p{it.number}" for it in self.modules if it.code == module.code and it is not module]
        if not others:
            return self.constant(module)
        default, weak = self.other(module, self.random.choice(others)), self.random.choice([f"weak{self.made}", *others])
        if weak == default:
            weak = f"weak{self.made}"
        module.taken.add(f"extern {weak}")
        module.defaults.append((weak, default))
        self.add(self.leaves.get(weak, self.leaves[default]))
        return [f"call {weak}"]

    def far_word(self, module):
        name = self.other(module, f"f{self.any_module().number}")
        self.add(self.words[name])
        return [f"mov ax, seg {name}", "mov es, ax", f"mov ax, [es:{name}]", *self.adds()]

    def far_row(self, module):
        name = self.other(module, f"f{self.any_module().number}")
        offset = self.row(name)
        if self.random.random() < 0.5:
            return [f"mov ax, seg {name}", "mov es, ax", f"mov ax, [es:{name} + {offset}]", *self.adds()]
        return [f"les bx, [{self.table(module, f'dw {name} + {offset}, seg {name}')}]", "mov ax, [es:bx]", *self.adds()]

    def far_table(self, module):
        name = self.other(module, f"f{self.any_module().number}")
        where = self.table(module, f"dw {name}, seg {name}")
        self.add(self.words[name])
        return [f"les bx, [{where}]", "mov ax, [es:bx]", *self.adds()]

    def far_code_table(self, module):
        name = self.other(module, f"r{self.any_module().number}")
        where = self.table(module, f"dw {name}, seg {name}")
        self.add(self.leaves[name])
        return [f"call far [{where}]"]

    def selector(self, module):
        name = f"n{self.any_module().number}"
        self.add(self.words[name])
        where = self.near(module, name)
        return ["mov ax, DGROUP", "mov es, ax", f"mov ax, [es:{where}]", *self.adds()]

    def may_be_refused(self):
        """Whether a near call may be into another frame."""
        if not self.is_grouped:
            return self.strays
        full = {module.code for module in self.modules if module.names_group}
        return not all(there.names_group for there in self.crossed) or not all(module.code in full for module in self.modules)

    def begin(self):
        """The start, in module 0: it calls each routine q, and ends with the sum in BP."""
        main, lines = self.modules[0], ["begin:" if self.kind == "com" else "..start:"]
        if self.kind == "com":
            main.text[1:1] = ["resb 100h", "..start: jmp begin"]
        else:
            lines += ["mov ax, DGROUP", "mov ds, ax"]
            if self.kind == "bin":
                lines += ["mov ax, STACK", "mov ss, ax", "mov sp, 256"]
        lines.append("xor bp, bp")
        for module in self.modules:
            name = self.other(main, f"q{module.number}")
            if self.is_grouped:
                main.taken.discard(f"extern {name}")
                main.taken |= {f"extern {name}:wrt CGROUP"} if module is not main else set()
                lines.append(f"call CGROUP:{name}" + (" wrt CGROUP" if module is main else ""))
            else:
                lines.append(f"call seg {name}:{name}" if self.far_data() else f"call {name}")
        main.text += [*lines, *(SHOW if self.kind != "bin" else []), "mov ax, 4C00h", "int 21h"]


def run(*words):
    return subprocess.run(words, capture_output=True)


def built(plan, folder):
    """The modules' files, assembled."""
    names = []
    for module in plan.modules:
        name = f"{folder}/m{module.number}"
        with open(f"{name}.asm", "w") as it:
            it.write(module.source(plan))
        pick = random.Random(f"{plan.seed} module {module.number}")
        made = run("nasm", "-f", "obj", *["-g"] * (pick.random() < 0.2 and not module.inlines), f"{name}.asm", "-o", f"{name}.obj")
        if made.returncode:
            raise ValueError(made.stderr.decode())
        with open(f"{name}.obj", "rb") as it:
            whole = with_other_records(plan, module, pick, it.read())
        with open(f"{name}.obj", "wb") as it:
            it.write(whole)
        names.append(f"{name}.obj")
    return names


def with_other_records(plan, module, pick, whole):
    """A module with the records that the assembler does not write."""
    whole = with_defaults(pick, with_aliases(whole, module.aliases), module.defaults)
    if module.inlines:
        whole = with_comdats(whole, {name.encode(): selection for name, selection in plan.selections.items()})
    return by_index(pick, whole) if plan.kind != "bin" and pick.random() < 0.3 else whole


def linked(plan, folder, names):
    """What links the modules, in any order, some from a library: the run, and the program's file."""
    pick, order = plan.random, names[1:]
    pick.shuffle(order)
    order.insert(0 if plan.kind == "com" else pick.randrange(len(names)), names[0])
    file = f"{folder}/program.{plan.kind}"
    if plan.kind == "bin":
        text = f"{folder}/program.link"
        drafted = run(LINK, "draft", "--base", f"{ROM_BASE:X}", "--real", "-o", text, *order)
        if drafted.returncode:
            return drafted, file
        return run(LINK, "bin", "--base", f"{ROM_BASE:X}", "--size", f"{ROM_SIZE:X}", "-t", text, "-o", file, *order), file
    aside = [it for it in order if it != names[0] and pick.random() < 0.3]
    if aside and not run(LIB, "make", "-o", f"{folder}/some.lib", *aside).returncode:
        order = [it for it in order if it not in aside] + [f"{folder}/some.lib"]
    words = ["--order", "dos"] if pick.random() < 0.3 else []
    return run(LINK, plan.kind, "-o", file, *words, *order), file


def loaded(plan, file, paragraph):
    """The memory that DOS makes of a program at a paragraph, as pieces, with CS, IP, SS and SP."""
    with open(file, "rb") as it:
        bytes_ = it.read()
    if plan.kind == "com":
        return [(16 * paragraph + 256, bytes_)], (paragraph, 256, paragraph, 0xFFFE)
    mark, last, pages, words, head, _, _, ss, sp, _, ip, cs, table, _ = struct.unpack_from("<2s13H", bytes_)
    image = bytearray(bytes_[16 * head:512 * pages - (512 - last if last else 0)])
    for number in range(words):
        offset, segment = struct.unpack_from("<2H", bytes_, table + 4 * number)
        word = struct.unpack_from("<H", image, 16 * segment + offset)[0]
        struct.pack_into("<H", image, 16 * segment + offset, (word + paragraph) % 65536)
    return [(16 * paragraph, bytes(image))], (paragraph + cs, ip, paragraph + ss, sp)


def in_rom(plan, folder, names, file):
    """The memory of a ROM, with the start that `omf-link image` prints."""
    shown = run(LINK, "image", "-t", f"{folder}/program.link", *names).stdout.decode()
    start = [line for line in shown.splitlines() if line.startswith("START ")][0].split()[1]
    selector, offset = (int(it, 16) for it in start.split(":"))
    with open(file, "rb") as it:
        return [(ROM_BASE, it.read())], (selector, offset, 0, 0x400)


def executed(memory, registers):
    """Runs a program until INT 21H with AH = 4CH; BP then, or why it came to no such end. With AH = 2 it goes on."""
    import unicorn
    from unicorn import x86_const as reg
    machine = unicorn.Uc(unicorn.UC_ARCH_X86, unicorn.UC_MODE_16)
    machine.mem_map(0, 0x110000)
    for address, bytes_ in memory:
        machine.mem_write(address, bytes_)
    cs, ip, ss, sp = registers
    ended = []

    def interrupt(machine, number, _):
        if number == 0x21 and machine.reg_read(reg.UC_X86_REG_AH) == 2:
            return
        ended.append(number == 0x21 and machine.reg_read(reg.UC_X86_REG_AX) == 0x4C00)
        machine.emu_stop()

    machine.hook_add(unicorn.UC_HOOK_INTR, interrupt)
    for name, value in (("CS", cs), ("SS", ss), ("SP", sp), ("DS", ss), ("ES", ss)):
        machine.reg_write(getattr(reg, f"UC_X86_REG_{name}"), value)
    try:
        machine.emu_start(16 * cs + ip, 0xFFFFFFFF, count=MOST_INSTRUCTIONS)
    except unicorn.UcError as fault:
        return f"the processor stopped: {fault}"
    return machine.reg_read(reg.UC_X86_REG_BP) if ended == [True] else "it came to no end"


class Dosbox:
    """Programs that ended with the right sum, for DOSBox to run: its drive C, and what each must show."""

    def __init__(self, folder):
        self.folder, self.wanted, self.differ = folder, [], 0

    def take(self, seed, kind, file, total):
        shutil.copy(file, f"{self.folder}/p{len(self.wanted)}.{kind}")
        self.wanted.append((seed, kind, "".join(chr(65 + (total >> it & 15)) for it in (12, 8, 4, 0))))
        if len(self.wanted) == BATCH:
            self.run()

    def run(self):
        """Runs what was taken, and prints a line of each that shows something else."""
        with open(f"{self.folder}/all.bat", "w", newline="\r\n") as it:
            it.write("".join(f"p{at}.{kind} > s{at}\n" for at, (_, kind, _) in enumerate(self.wanted)))
        words = ["dosbox", "-noconsole", "-c", f"mount c {self.folder}", "-c", "c:", "-c", "call all.bat", "-c", "exit"]
        try:
            subprocess.run(words, capture_output=True, timeout=300, env={**os.environ, "SDL_VIDEODRIVER": "dummy", "SDL_AUDIODRIVER": "dummy"})
        except subprocess.TimeoutExpired:
            pass
        shown = {it.lower(): it for it in os.listdir(self.folder)}
        for at, (seed, kind, wanted) in enumerate(self.wanted):
            found = "nothing"
            if f"s{at}" in shown:
                with open(f"{self.folder}/{shown[f's{at}']}", "rb") as it:
                    found = it.read().decode("latin-1")
            if found != wanted:
                self.differ += 1
                print(f"seed {seed}: {kind} in DOSBox: {found[:80]!r}, the source has {wanted!r}", flush=True)
        self.wanted = []
        for name in os.listdir(self.folder):
            os.unlink(f"{self.folder}/{name}")


def tried(seed, folder, without=(), dosbox=None):
    """One program without some steps: 'ran', 'refused', or what differs."""
    plan = Plan(seed, without)
    names = built(plan, folder)
    made, file = linked(plan, folder, names)
    if made.returncode:
        words = (made.stdout + made.stderr).decode().strip()
        is_stray = plan.may_be_refused() and made.returncode == 1 and ("near" in words or "TooFar" in words)
        return "refused" if is_stray else f"{plan.kind}: not linked: {words}"
    for paragraph in (0x50, plan.random.randrange(0x60, 0x8000), 0x9000)[:1 if plan.kind == "bin" else 3]:
        parts = in_rom(plan, folder, names, file) if plan.kind == "bin" else loaded(plan, file, paragraph)
        found = executed(*parts)
        if found != plan.sum:
            return f"{plan.kind} at {paragraph:X}: {found}, the source says {plan.sum}"
    if dosbox and plan.kind != "bin":
        dosbox.take(seed, plan.kind, file, plan.sum)
    return "ran"


def needless(seed, found, without):
    """The steps of a program without which it still differs, so that no other can be left out alone."""
    every = range(1, Plan(seed).made + 1)

    def differs(steps):
        with tempfile.TemporaryDirectory() as folder:
            other = tried(seed, folder, set(every) - set(steps))
        return other not in ("ran", "refused") and ("not linked" in other) == ("not linked" in found)

    kept = fewer([it for it in every if it not in without], differs, time.monotonic() + SMALLER)
    return sorted(set(every) - set(kept))


def look(seed, asked, dosbox):
    """Tries a program; 'ran', 'refused' or 'differs', with a line of what does."""
    with tempfile.TemporaryDirectory() as folder:
        found = tried(seed, folder, asked.without, dosbox)
        if found in ("ran", "refused"):
            return found
        if asked.keep:
            shutil.copytree(folder, f"{asked.keep}/{seed}", dirs_exist_ok=True)
    without = needless(seed, found, asked.without)
    print(f"seed {seed}: {found}; the same with --without {' '.join(map(str, without))}", flush=True)
    if asked.keep:
        shutil.rmtree(f"{asked.keep}/{seed}-small", ignore_errors=True)
        os.makedirs(f"{asked.keep}/{seed}-small")
        tried(seed, f"{asked.keep}/{seed}-small", without)
    return "differs"


def main():
    words = argparse.ArgumentParser()
    words.add_argument("--first", type=int, default=1)
    words.add_argument("--count", type=int, default=200)
    words.add_argument("--seconds", type=float)
    words.add_argument("--keep", help="a folder for the files of a program that differs, and of the smallest one")
    words.add_argument("--dosbox", action="store_true")
    words.add_argument("--without", type=int, nargs="*", default=[])
    asked = words.parse_args()
    try:
        import unicorn  # noqa: F401
    except ImportError:
        print("nothing was run: no python3-unicorn")
        return 2
    if asked.count and not (shutil.which("nasm") and shutil.which(LINK)):
        print("nothing was run: no nasm, or no omf-link")
        return 2
    counts, end, seed = dict.fromkeys(("ran", "refused", "differs"), 0), asked.seconds and time.time() + asked.seconds, asked.first
    is_dosbox = asked.dosbox and shutil.which("dosbox")
    if asked.dosbox and not is_dosbox:
        print("not run: dosbox is not installed")
    with tempfile.TemporaryDirectory() as drive:
        dosbox = Dosbox(drive) if is_dosbox else None
        while counts["differs"] < MOST_DIFFER and (time.time() < end if end else seed < asked.first + asked.count):
            counts[look(seed, asked, dosbox)] += 1
            seed += 1
        if dosbox and dosbox.wanted:
            dosbox.run()
        counts["differs"] += dosbox.differ if dosbox else 0
    print(f"seeds {asked.first} to {seed - 1}")
    print(f"{seed - asked.first} programs: {counts['ran']} ran as their sources say, {counts['refused']} refused for a near call, {counts['differs']} differ")
    return 1 if counts["differs"] else 0


if __name__ == "__main__":
    sys.exit(main())
