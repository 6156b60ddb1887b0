#!/usr/bin/env python3
"""Writes the first inputs of the targets members, link and program of run.sh: seeds.py FOLDER [MORE]

FOLDER/members has libraries, FOLDER/link modules with a link text after them, FOLDER/program modules one after another. They are the libraries and
modules of examples/, those of the folder MORE that have less than 5 KB, and some made at random, always the same."""
import pathlib
import random
import struct
import sys

import executables
import libraries
from changes import records_of
from modules import externals_of, publics_of
from programs import load_seeds
from promises import ROOT

MOST = 4096
MADE = 100


def made_library(random_, modules):
    """A library of a few modules, made or real."""
    chosen = []
    for number in range(random_.randrange(1, 5)):
        names = [random_.randbytes(random_.choice((1, 3, 8))) for _ in range(random_.randrange(6))]
        real = random_.choice(modules)
        chosen.append((libraries.module(b"m%d" % number, names), names) if random_.randrange(2) else (real, publics_of(real)))
    chosen = [(module, [it if isinstance(it, bytes) else it[0] for it in names]) for module, names in chosen]
    return libraries.library(chosen, 1 << random_.choice((4, 4, 4, 5)), flags=random_.randrange(2))


def has_publics(module):
    """Whether the publics of a module can be read: an example of a fault may have a record that is cut."""
    try:
        publics_of(module)
    except (IndexError, struct.error):
        return False
    return True


def text_for(modules):
    """A link text that gives each segment a place of its own, each group the frame of its lowest member, and each external that no public has a place."""
    defined = {it[0] for module in modules for it in publics_of(module)}
    lines, place = [], 0x10000
    for number, module in enumerate(modules, 1):
        kinds = [it[0] & 0xFE for it in records_of(module)[0]]
        lines.append(f"M #{number}")
        for index in range(kinds.count(0x98)):
            lines.append(f"S #{index + 1} {place:X} real")
            place += 0x200
        lines += [f"G #{index + 1} real" for index in range(kinds.count(0x9A))]
        lines += [f"X #{index} {place:X} real" for index, name in enumerate(externals_of(module), 1) if name not in defined]
    return "\n".join(lines).encode()


def examples_linked():
    """The folders of examples with a link text: their modules, one after another, and the text."""
    for text in sorted(ROOT.glob("examples/*/*.link")):
        paths = sorted(it for it in text.parent.iterdir() if it.suffix == ".obj")
        yield b"".join(it.read_bytes() for it in paths) + text.read_bytes()


def write(folder, inputs):
    folder.mkdir(parents=True, exist_ok=True)
    for number, bytes_ in enumerate(inputs):
        if len(bytes_) <= MOST:
            (folder / f"{number:04}").write_bytes(bytes_)


def main(folder, more=None):
    random_ = random.Random(1)
    seeds = load_seeds(more)
    modules = [it for it in seeds if it[:1] == b"\x80" and libraries.module_length(it) == len(it)]
    named = [it for it in modules if has_publics(it)]
    write(folder / "members", [it for it in seeds if it[:1] == b"\xF0"] + [made_library(random_, named) for _ in range(MADE)])
    sets = [[executables.module(random_, number, number == 0) for number in range(random_.randrange(1, 4))] for _ in range(MADE)]
    written = [it for name in ("exe", "order") for it in [sorted((ROOT / "examples" / name).glob("*.obj"))]]
    whole = [b"".join(it.read_bytes() for it in paths) for paths in written]
    write(folder / "program", [b"".join(it) for it in sets] + whole + modules)
    write(folder / "link", [b"".join(it) + text_for(it) for it in sets] + list(examples_linked()))


if __name__ == "__main__":
    if len(sys.argv) not in (2, 3):
        sys.exit(__doc__)
    main(pathlib.Path(sys.argv[1]), *sys.argv[2:])
