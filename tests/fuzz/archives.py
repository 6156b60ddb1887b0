"""omf-lib on changed libraries: a second reader's members, the files that `get` writes, and libraries that `make` and `canon` write."""
import os
import re
import shutil
import struct

import libraries
from changes import LONGEST, change_library, changed_module
from promises import NAME, parts_of, program, promised, run
from rebuilds import canon_twice, make_again

BATCH = 16


def plain(name):
    """A name as bytes, from how it is shown."""
    return re.sub(rb"\\x([0-9A-F]{2})", lambda it: bytes([int(it[1], 16)]), name)


class Library:
    IS_BATCH = True

    def __init__(self, seeds, random_, every):
        self.omf, self.lib = program("omf"), program("omf_lib")
        self.modules = [it for it in seeds if libraries.module_length(it)]
        self.libraries = [it for it in seeds if it[:1] == b"\xF0"]
        self.random, self.every = random_, every
        self.accepted = self.compared = 0

    def made(self):
        """A library of a few modules, some of them changed."""
        random_, chosen = self.random, []
        for _ in range(random_.randrange(5)):
            if random_.randrange(3):
                names = [random_.randbytes(random_.choice((0, 1, 3, 8, 255))) for _ in range(random_.randrange(12))]
                own = random_.choice((b"a", b"../a", b"/tmp/a", b".", b"..", b"", b"a\x1B[2J", b"a\0b", b"A" * 255, bytes([0x1B]) * 255))
                chosen.append((libraries.module(own, names), names))
            else:
                chosen.append((changed_module(random_, self.modules), []))
        return bytearray(libraries.library(chosen, 1 << random_.choice((4, 4, 4, 5, 9)), flags=random_.randrange(2)))

    def inputs(self):
        random_, inputs = self.random, []
        for _ in range(BATCH):
            bytes_ = self.made() if random_.randrange(2) else bytearray(random_.choice(self.libraries))
            for _ in range(random_.choice((0, 1, 1, 2, 4))):
                bytes_ = change_library(random_, bytes_, self.modules, self.libraries)
            inputs.append(bytes(bytes_[:4 * LONGEST]))
        return inputs

    def look(self, inputs, folder):
        flag = ["--refuse-vendor-comments"] if self.random.randrange(4) == 0 else []
        names = [f"in{number:02}.lib" for number in range(len(inputs))]
        for name, bytes_ in zip(names, inputs):
            (folder / name).write_bytes(bytes_)
        if len(inputs) == 1:
            checked, text = run([self.lib, "check", *flag, "-"], inputs[0])
            listed, lines = run([self.lib, "list", *flag, names[0]], folder=folder)
            checks, lists = [text], [lines]
        else:
            checked, text = run([self.lib, "check", *flag, *names], folder=folder)
            listed, lines = run([self.lib, "list", *flag, *names], folder=folder)
            titles = [b"%s:\n" % it.encode() for it in names]
            checks, lists = parts_of(text, titles), parts_of(lines, titles)
        bad = [self.compare(*it, flag) for it in zip(inputs, checks, lists)]
        promised(checked == max(it[0] for it in bad) and listed == max(it[1] for it in bad), f"status {checked} and {listed}, lines {bad}")
        for name, bytes_, lines in zip(names, inputs, lists):
            self.take(name, bytes_, lines, folder)

    def compare(self, bytes_, check, lines, flag):
        """The lines of check and list, and the members as read here. Returns the status that each has to have."""
        read = libraries.members(bytes_)
        members, has_end = read if read else ([], False)
        rows = re.findall(rb"^M (\d+) (\d+) ([0-9A-F]{8}) (\d+) " + NAME + rb"( refused \d+ \w+ record \d+ at \d+ within \d+| lowered)?$", lines, re.M)
        promised([(int(it[2], 16), int(it[3])) for it in rows] == members, f"members {[it[:4] for it in rows]}, here {members}")
        promised([int(it[0]) for it in rows] == list(range(len(members))), "the numbers of members")
        for row, (at, length) in zip(rows, members):
            size = bytes_[at + 3] if length > 3 else 0
            promised(plain(row[4]) == bytes_[at + 4:min(at + 4 + size, at + length)], f"the name of member {row[0]}")
        faults = re.findall(rb"^fault (\d+) \w+ at (\d+)", check, re.M)
        notes = re.findall(rb"^note (1[789]|22) (\w+) at \d+", check, re.M)
        is_ok = re.match(rb"OK (\d+) members, (\d+) publics, (\d+) entries\n", check)
        promised(bool(is_ok) != bool(faults) and bool(is_ok) + len(faults) + len(notes) == check.count(b"\n"), f"check {check[:200]}")
        promised(all((1 <= int(it[0]) <= 16 or it[0] == b"21") and int(it[1]) <= 2 ** 32 + 2 ** 25 for it in faults), "a fault's number or offset")
        ends = [it for it in faults if int(it[0]) <= 6]
        promised(bool(ends) != has_end, f"the end of the members, here {has_end}")
        refused = [it for it in rows if it[5] not in (b"", b" lowered")]
        promised(len(refused) == len([it for it in faults if it[0] == b"7"]) or not read, "refused members")
        promised(sum(it[5] == b" lowered" for it in rows) == sum(it[0] == b"22" for it in notes) or not read, "lowered members")
        if is_ok:
            self.accepted += 1
            self.look_up(bytes_, lines, is_ok)
        if rows and self.random.randrange(self.every) == 0:
            self.compared += 1
            row, (at, length) = self.random.choice(list(zip(rows, members)))
            verdict, answer = run([self.omf, "check", *flag], bytes_[at:at + length])
            is_mendable = bool(re.match(rb"refused (4|10|13|15|16|29) ", answer)) and row[5] != b""
            promised((b" " + answer.strip() if verdict else b"") == row[5] or is_mendable or verdict and row[5] == b" lowered", f"omf check {answer}, member {row}")
        return int(not is_ok), int(bool(ends) or bool(refused) or any(it[0] == b"16" for it in faults))

    def look_up(self, bytes_, lines, counts):
        """Where nothing is at fault, each public is found by one of the searches."""
        publics = [plain(it) for it in re.findall(rb"^P \d+ " + NAME + rb"$", lines, re.M)]
        promised([int(counts[1]), int(counts[2])] == [lines.count(b"\nM "), len(publics)], f"counts {counts[0]}")
        for name in publics:
            promised(libraries.is_found(bytes_, name, False) or libraries.is_found(bytes_, name, True), f"public {name}")

    def take(self, name, bytes_, lines, folder):
        """`get` into a folder; a file and a link are there already."""
        outer = folder / "outer"
        shutil.rmtree(outer, ignore_errors=True)
        inner = outer / "inner"
        inner.mkdir(parents=True)
        numbered = ["--numbered"] if self.random.randrange(2) else []
        rows = re.findall(rb"^M (\d+) \d+ ([0-9A-F]{8}) (\d+) " + NAME, lines, re.M)
        own = [bytes_[int(it[1], 16):int(it[1], 16) + int(it[2])] for it in rows]
        there = set()
        if own and numbered and self.random.randrange(2) == 0:
            first = inner / f"{self.random.randrange(len(own))}.obj"
            there.add(first.name)
            if self.random.randrange(2):
                first.write_bytes(b"there")
            else:
                first.symlink_to("../outside")
        asked = [] if self.random.randrange(2) or not rows else [self.random.choice(rows)[self.random.choice((0, 3))].decode()]
        asked = [it for it in asked if it and it[0] != "-"]
        status, text = run([self.lib, "get", name, *asked, "-d", "outer/inner", *numbered], folder=folder)
        promised(os.listdir(outer) == ["inner"], f"files outside: {os.listdir(outer)}")
        found = {it: None if (inner / it).is_symlink() else (inner / it).read_bytes() for it in os.listdir(inner)}
        promised(all(it in found and found.pop(it) in (None, b"there") for it in there), "a file that was there is changed")
        wrote = [(it[0].decode(), int(it[1])) for it in re.findall(rb"^wrote (.*) (\d+)$", text, re.M)]
        promised({it[0]: it[1] for it in wrote} == {it: len(here) for it, here in found.items()}, f"files {sorted(found)}, lines {wrote}")
        left = iter(own)
        promised(all(any(found[it[0]] == whole for whole in left) for it in wrote), "a file that is no member, or not in their order")
        promised(not numbered or all(here == own[int(it[:-4])] for it, here in found.items()), "a file of another number")
        refused = re.search(rb"^(refused|\S+: fault|write) ", text, re.M)
        promised((status != 0) == bool(refused), f"get: status {status}, {text[:200]}")
        read = libraries.members(bytes_)
        promised((read is not None and read[1]) or (not found and re.match(rb"\S+: fault ", text)), "files of no library")
        promised(status != 0 or asked or len(found) == len(own), "not all members")
        if read and self.random.randrange(4) == 0:
            canon_twice(self.lib, name, len(own), folder)
            if own:
                make_again(self.lib, own[:40], folder)
