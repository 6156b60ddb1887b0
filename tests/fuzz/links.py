"""omf-link exe and com: the file as DOS loads it against the modules relocated one by one, and a library against the members that it must give."""
import functools
import os
import re
import struct
import subprocess

import executables
import kinds
import libraries
import wide
from aliases import aliased
from changes import changed_module
from modules import KEPT, TWICE, UNRESOLVED, as_library, ends_of, externals_of, has_defaults, is_main, is_open, is_simple, members_needed, pairs_of, provider
from modules import repeated_lines, unresolved_lines, with_names
from promises import ALLOW_ALL, TIMEOUT, program, promised, run, told_of


# Names that no made and no real module has.
UNASKED = (b"\xFFz", b"Unasked", b"Una")
# A line that may follow `undefined`: a module asks for this library.
NOT_FOUND = re.compile(rb'library "[^"\n]*" is not found(: [^\n]*)?\n')
# The line of `draft` for a frame by number, which exe and com lower and no reader here does (tests/frames.py).
BY_NUMBER = re.compile(rb'file "in\d+\.obj" module 1 refused 15 FrameMethod .*\n')
# The line of a stack that has another length than --stack asks for.
STACK = re.compile(rb"^stack: SP is (\d+): ", re.M)
REFUSED = re.compile(rb'file "in(\d+)\.obj" module 1 refused .*\n')


class Exe:
    IS_BATCH = False
    TASK, LOADED = "exe", staticmethod(executables.loaded)
    # The locations and frame methods of fixups: of all kinds, and of those that mostly reach.
    FIXUPS = (executables.LOCATIONS, executables.FRAMES), ((2, 3, 3), (5,))

    def __init__(self, seeds, random_, every):
        self.link, self.omf, self.random = program("omf_link"), program("omf"), random_
        self.modules = [it for it in seeds if it[:1] != b"\xF0" and libraries.module_length(it)]
        self.accepted = self.compared = 0

    def inputs(self):
        """Modules made at random, one of them perhaps changed, or one that defines the name of another; or a real module, and a made one that has what
        it needs."""
        random_ = self.random
        if random_.randrange(3) == 0:
            real = random_.choice(self.modules)
            try:
                own = provider(externals_of(real), not is_main(real))
            except IndexError:  # an example with a record that is too short
                own = provider([], True)
            return [changed_module(random_, [real]) if random_.randrange(4) == 0 else real, own]
        main, count = random_.randrange(4), random_.randrange(4) + 1
        fixups = random_.choice(self.FIXUPS)
        made = [executables.module(random_, number, number == main % count, 0, *fixups) for number in range(count)]
        return self.changed(made, fixups)

    def changed(self, made, fixups):
        """Made modules, perhaps with records of other kinds and aliases, of which one is perhaps changed; or one more, which defines the name of another."""
        fixup = functools.partial(executables.fixup, locations=fixups[0], frames=fixups[1])
        made = kinds.various(self.random, made, fixup) if self.random.randrange(2) else made
        made = aliased(self.random, made) if self.random.randrange(4) == 0 else made
        kind, at = self.random.randrange(8), self.random.randrange(len(made))
        if kind == 0:
            made[at] = changed_module(self.random, [made[at]])
        elif kind == 1:
            made.append(executables.module(self.random, at, False))
        return made

    def exe(self, file, names, folder):
        """The status and the line of a link, or its lines of names; where the status is 0 there is a file, and else none."""
        (folder / file).unlink(missing_ok=True)
        done = subprocess.run([self.link, self.TASK, "-o", file, *names], stdout=subprocess.PIPE, stderr=subprocess.PIPE, cwd=folder, timeout=TIMEOUT)
        told = NOT_FOUND.sub(b"", told_of(done))
        is_said = told.count(b"\n") <= 1 or UNRESOLVED.fullmatch(KEPT.sub(b"", told))
        promised(done.returncode in (0, 1) and done.stdout == b"" and is_said, f"{self.TASK}: status {done.returncode}, {done}")
        promised(all(it == 10 or 32 <= it < 127 for it in done.stderr), f"{self.TASK}: control characters")
        promised((folder / file).exists() == (done.returncode == 0), f"{self.TASK}: status {done.returncode}, and the file")
        promised(told or done.returncode == 0, f"{self.TASK}: status {done.returncode} without a line")
        promised(not any(it.endswith(".tmp") for it in os.listdir(folder)), "a .tmp file is left")
        return done.returncode, told if done.returncode else b""

    def look(self, inputs, folder):
        names = [f"in{number}.obj" for number in range(len(inputs))]
        for name, bytes_ in zip(names, inputs):
            (folder / name).write_bytes(bytes_)
        status, lines = self.exe("p.exe", names, folder)
        if any(map(wide.is_lowered, inputs)):
            return self.look_at_lowered(status, lines, inputs, names, folder)
        lines = KEPT.sub(b"", lines)
        if all(map(is_open, inputs)) and b'twice "' not in lines and (status == 0 or UNRESOLVED.fullmatch(lines)):
            is_undefined = executables.has_undefined(inputs)
            promised(is_undefined == (b'undefined "' in lines), f"{lines}, an external without a place: {is_undefined}")
        if all(is_simple(it) and libraries.module_length(it) == len(it) for it in inputs) and (status == 0 or UNRESOLVED.fullmatch(lines)):
            places = [f'file "in{number}.obj" module 1' for number in range(len(inputs))]
            wanted = unresolved_lines(inputs, places, True)
            wanted = repeated_lines(inputs, places) if wanted == b"" else wanted
            promised(wanted in (None, lines if status else b""), f"{lines}, not {wanted}")
        if status == 0 or (TWICE.fullmatch(lines) and self.is_allowed(lines, names, folder)):
            self.accepted += 1
            self.compare(names, inputs, (folder / "p.exe").read_bytes(), folder)
        if status == 0 and self.random.randrange(3) == 0:
            self.look_at_repeated(inputs, names, folder)
        if status == 0 and self.TASK == "exe" and self.random.randrange(3) == 0:
            self.look_at_stack(names, folder)
        if len(inputs) > 1 and self.random.randrange(3) == 0:
            self.look_at_library(inputs, names, folder)
        if self.random.randrange(4) == 0:
            self.look_at_case(inputs, folder)

    def look_at_lowered(self, status, lines, inputs, names, folder):
        """Modules with COMDATs and the like are linked as their lowerings are, without the COMDATs that are left out."""
        found, refused = kinds.plain(inputs), REFUSED.fullmatch(lines)
        if found is None or any(map(wide.is_lowered, found[0])):  # the reader leaves A = 6 and 7
            return None
        rest, lowered = found
        if refused:
            other, line = run([self.link, "lower", "-o", "low.obj", names[int(refused[1])]], folder=folder)
            return promised(other or run([self.omf, "check"], (folder / "low.obj").read_bytes())[0] == 1, f"{self.TASK}: {lines}, lower: {other} {line}")
        if len(inputs) > 1 and self.random.randrange(3) == 0:
            self.look_at_library(inputs, names, folder, lowered)
        for name, bytes_ in zip(names, rest):
            (folder / name).write_bytes(bytes_)
        other, alone = self.exe("q.exe", names, folder)
        promised(status == other and (alone == lines or not UNRESOLVED.fullmatch(KEPT.sub(b"", alone))), f"{lines}, without the COMDATs left out {alone}")
        promised(status or (folder / "p.exe").read_bytes() == (folder / "q.exe").read_bytes(), "other files without the COMDATs left out")
        self.compared += 1
        return self.look(rest, folder)

    def is_allowed(self, lines, names, folder):
        """Whether --allow twice makes a program: the lines are then warnings. Where an external asks for one of the names it is refused as before."""
        done = subprocess.run([self.link, self.TASK, "-o", "p.exe", "--allow", "twice", *names], stdout=subprocess.PIPE, stderr=subprocess.PIPE, cwd=folder, timeout=TIMEOUT)
        told = KEPT.sub(b"", NOT_FOUND.sub(b"", told_of(done)))
        is_made = done.returncode == 0 and told.startswith(lines) and told[len(lines):].count(b"\n") <= 1
        promised(done.stdout == b"" and (is_made or (done.returncode, told) == (1, lines)), f"--allow twice: status {done.returncode}, {done}")
        promised((folder / "p.exe").exists() == is_made, "--allow twice: the file")
        return is_made

    def look_at_repeated(self, inputs, names, folder):
        """With two more modules, which define names that no other module has, there is a line for each name; and a program, if that is allowed."""
        own, files = [provider(UNASKED[:self.random.randrange(3) + 1], False)] * 2, ["u.obj", "v.obj"]
        for name, bytes_ in zip(files, own):
            (folder / name).write_bytes(bytes_)
        status, lines = self.exe("p.exe", [*names, *files], folder)
        wanted = repeated_lines(own, [f'file "{it}" module 1' for it in files])
        promised(status == 1 and (lines == wanted or not TWICE.fullmatch(lines)), f"{lines}, not {wanted}")
        if lines == wanted and self.is_allowed(lines, [*names, *files], folder):
            self.compare([*names, *files], [*inputs, *own], (folder / "p.exe").read_bytes(), folder)

    def look_at_stack(self, names, folder):
        """With --stack N, SP is N, or N + 1 for an odd one, or a line shows another; and DOS gives memory up to SS:SP."""
        size = self.random.choice((1, 16, 255, 256, 1000, 4096, 65534))
        even = size + size % 2
        words = [self.link, self.TASK, "--stack", str(size), "-o", "s.exe", *names]
        done = subprocess.run(words, stdout=subprocess.PIPE, stderr=subprocess.PIPE, cwd=folder, timeout=TIMEOUT)
        told = told_of(done)
        shown = STACK.search(told)
        if done.returncode:
            return promised(done.returncode == 1 and told and not shown, f"--stack {size}: status {done.returncode}, {done}")
        file = (folder / "s.exe").read_bytes()
        found, pointer = struct.unpack_from("<2H", file, 0xE)
        length = pointer or 65536
        promised(length == (int(shown[1]) if shown else even) and (not shown or length != even), f"--stack {size}: SP {length}, {told[-200:]}")
        end, asked = executables.PARAGRAPH * found + length, self.LOADED(file, 0)[2]
        promised(end <= asked, f"--stack {size}: the stack ends at {end}, the memory at {asked}")
        self.compared += 1

    def look_at_library(self, inputs, names, folder, lowered=None):
        """Some modules in a library: the members that are needed, as a second reader finds them, linked by name give the same file. That reader reads
        the lowered ones, if they are given."""
        count, read = self.random.randrange(1, len(inputs)), lowered or inputs
        members, needed = inputs[count:], members_needed(read[:count], read[count:])
        (folder / "rt.lib").write_bytes(as_library(members))
        if needed is None or any(libraries.module_length(it) != len(it) or self.hides_aliases(it) for it in read[count:]):
            return
        status, line = self.exe("l.exe", [*names[:count], "rt.lib"], folder)
        refused = re.match(rb'file "rt.lib" module (\d+) (refused .*\n)', line)
        if refused:
            member = read[count + int(refused[1]) - 1]
            return promised(run([self.omf, "check"], member) == (1, refused[2]), f"{line}, of a member that omf check accepts")
        other, alone = self.exe("q.exe", [*names[:count], *(names[count + it] for it in needed)], folder)
        promised(status == other, f"with the library {line[:200]}, without it {alone[:200]}")
        same = status or (folder / "l.exe").read_bytes() == (folder / "q.exe").read_bytes()
        promised(same, f"members {needed}: other files")
        self.compared += 1

    def hides_aliases(self, member):
        """Whether a member has aliases and is refused: then only its publics count, and not all that the reader finds."""
        return any(pairs_of(member)) and run([self.omf, "check"], member)[0] != 0

    def look_at_case(self, inputs, folder):
        """With --ignore-case, modules whose names have any case are linked as those are that have these names in lower case."""
        if any(run([self.omf, "check"], it)[0] or libraries.module_length(it) != len(it) for it in inputs):
            return
        turns = (bytes.lower, bytes.upper, bytes.swapcase, bytes)
        for task, change in (("a", lambda it: self.random.choice(turns)(it)), ("b", bytes.lower)):
            for number, one in enumerate(inputs):
                (folder / f"{task}{number}.obj").write_bytes(with_names(one, change))
        status, lines = self.exe("c.exe", ["--ignore-case", *(f"a{it}.obj" for it in range(len(inputs)))], folder)
        other, lower = self.exe("d.exe", [f"b{it}.obj" for it in range(len(inputs))], folder)
        promised(status == other and lines == re.sub(rb'file "b(\d+\.obj")', rb'file "a\1', lower), f"--ignore-case {lines[:200]}, in lower case {lower[:200]}")
        promised(status or (folder / "c.exe").read_bytes() == (folder / "d.exe").read_bytes(), "--ignore-case: other files")
        self.compared += 1

    def compare(self, names, inputs, file, folder):
        """The file at some paragraphs, and the memory of the modules there."""
        status, text = run([self.link, "draft", "--base", "0", "--real", *names], folder=folder)
        if status and BY_NUMBER.fullmatch(text):
            return
        promised(status == 0, f"draft: {text[:200]}")
        if any(it[libraries.module_length(it):].strip(b"\0\x1A") for it in inputs):  # the readers here read one module of a file
            return
        is_read, is_mixed = all(map(is_open, inputs)), any(map(has_defaults, inputs)) and ends_of(inputs)
        if is_mixed and not is_read:
            return
        own = executables.stack_byte(text, inputs) if self.TASK == "exe" else None
        if own:
            (folder / "stack.obj").write_bytes(own)
            return self.compare([*names, "stack.obj"], [*inputs, own], file, folder)
        self.look_at_map(names, inputs, executables.places_in(executables.with_frames(text, inputs)), folder)
        if self.TASK == "exe":
            least, asked = executables.least_memory(text), self.LOADED(file, 0)[2]
            promised(least <= asked < least + executables.PARAGRAPH, f"memory: {asked} bytes, not {least}")
            found, wanted = struct.unpack_from("<2H", file, 0xE), executables.stack_pointer(text, inputs)
            promised(found == wanted, f"SS and SP: {found}, not {wanted}")
        text = executables.with_frames(text, inputs)
        for paragraph in (0, *(self.random.randrange(1, 0x8000) for _ in range(2))):
            image, start, _ = self.LOADED(file, paragraph)
            there = executables.moved(text, paragraph, executables.empty_groups(inputs))
            (folder / "text").write_bytes(executables.with_aliases(there, inputs))
            if is_read and (is_mixed or self.random.randrange(2)):
                memory, own = executables.relocated(self.omf, inputs, there)
            else:
                status, lines = run([self.link, "image", *ALLOW_ALL, "-t", "text", *names], folder=folder)
                promised(status == 0, f"image at {paragraph}: {lines[:200]}")
                memory, own = executables.memory_of(lines)
            promised(own == start, f"start {own}, loaded {start}")
            at = executables.PARAGRAPH * paragraph
            promised(all(at <= it < at + len(image) and image[it - at] == byte for it, byte in memory.items()), f"other bytes at {paragraph}")
            promised(all(byte == 0 or at + number in memory for number, byte in enumerate(image)), f"more bytes at {paragraph}")
            promised(not memory or max(memory) == at + len(image) - 1, f"bytes after the last at {paragraph}")
            self.compared += 1

    def look_at_map(self, names, inputs, places, folder):
        """The lines of the map: of LINNUMs, and of the segments, groups and publics of modules that the readers here read whole."""
        words = [self.link, self.TASK, "--allow", "twice", "-o", "m.exe", "--map", "m.map", *names]
        if self.random.randrange(4 if not any(map(kinds.has_lines, inputs)) else 2):
            return
        promised(subprocess.run(words, stderr=subprocess.PIPE, cwd=folder, timeout=TIMEOUT).returncode == 0, "with --map: not linked")
        lines = (folder / "m.map").read_text().splitlines()
        found = [it for it in lines if it.startswith("line ")]
        wanted = [it for number, (one, there) in enumerate(zip(inputs, places), 1) for it in kinds.map_lines(one, number, there)]
        promised(found == wanted, f"lines {found}, not {wanted}")
        self.compared += 1
        if not all(map(is_open, inputs)):
            return
        for word, rows in executables.map_rows(inputs, places).items():
            found = [it for it in lines if it.startswith(word + " ")]
            promised(found == rows, f"{word}: {found}, not {rows}")


class Com(Exe):
    TASK, LOADED = "com", staticmethod(executables.loaded_com)
    FIXUPS = (executables.NEAR_LOCATIONS, executables.FRAMES), ((1,), (5,))

    def inputs(self):
        """Modules made at random, the first with a start at 100H and no data below, and with few references that need a selector."""
        random_, front = self.random, executables.COM_FRONT
        fixups = random_.choice(self.FIXUPS)
        made = [executables.module(random_, number, number == 0, 0 if number else front, *fixups) for number in range(random_.randrange(4) + 1)]
        return self.changed(made, fixups)
