#!/usr/bin/env python3
"""Runs the programs on changed files and texts, and compares what they print with one another and with a second reading of the standard.

usage: tests/fuzz/programs.py SECONDS [dump|library|exe|com|placement|linktext|find|lower ..] [--seeds FOLDER] [--number N] [--keep FOLDER] [--every N]
                              [--smaller SECONDS] [--again FILE ..]

dump       changed modules: omf-dump refuses exactly what `omf check` refuses, at the same place and for the same reason, and shows the records
           that `omf list` lists; each line of JSON is read by Python; text and JSON have the same records; a name gives no control characters
library    changed libraries: omf-lib finds the members that tests/fuzz/libraries.py finds; where the check is OK each public is found; `get` writes
           exactly the members, only into its folder, and changes no file that is there; `make` of them and `canon` give libraries without faults
exe        modules, made at random or real, some changed, some with COMDATs, CEXTDEFs, NBKPATs, aliases, weak externals and LINNUMs: what
           `omf-link exe` writes, loaded by tests/fuzz/executables.py at several paragraphs, has
           the bytes, the start and the stack of these modules, linked or each relocated alone, at addresses so much higher; with some in a library
           the file has the members that are needed; of a fault there is one line, or one for each name, and no file; names that more than one
           module defines are those that a second reader finds, and with --allow twice they are lines on standard error; it follows aliases and
           defaults; with COMDATs the file is the one of the lowerings by tests/lowered.py, without those left out; the map has the lines of
           LINNUMs, segments, groups and publics; with --stack N the stack has that length, or a line shows another
com        the same for `omf-link com`
placement  placement texts: a draft of omf-place is read back, another spelling of it has the same listing, and of a changed text the first line
           that a second reader does not understand is reported
linktext   the same of link texts; the image has the bytes of the modules, each relocated alone; HEX, S-records and raw binary have its bytes
find       programs that omf-link makes of made modules: each segment that omf-find finds has the bytes that no fixup touches; changed programs and
           modules are read or refused, and each line is JSON
lower      modules with CEXTDEFs and BAKPATs, some changed: `omf-link lower` writes the bytes that the reader of tests/fuzz/wide.py gives, or has
           the line of the fault that it finds; a module that `omf check` accepts stays as it is

The seeds are examples/, the data of the crates, libraries made of these modules, and the files of FOLDER that have less than 5 KB. --number begins
the random numbers, so that a run can be repeated. An input that breaks a promise is kept in the folder of --keep, or in that which is printed, with
the number and the round in its name. Beside it is the smallest input that was found in --smaller seconds (20) to break it at the same line of the
reader: files, records, lines and bytes are left out. --again looks at these files in place of made ones.
With --every only each Nth module is given to `omf check` too, which is most of the time where the program has run-time checks.
OMF, OMF_DUMP, OMF_FIND, OMF_LIB, OMF_LINK and OMF_PLACE name programs; else those of crates/*/out are taken, and else they are built without their proofs.
The status is 0 where every promise held. It stops at the tenth that did not hold."""
import argparse
import os
import pathlib
import random
import resource
import sys
import tempfile
import time
import traceback

import executables
import kinds
from archives import Library
from dumps import Dump
from finding import Find
from links import Com, Exe
from linktexts import LinkText
from lowering import Lower
from promises import ROOT
from smaller import smallest
from texts import Placement

MOST_BROKEN, MADE_SEEDS = 10, 20
TARGETS = {"dump": Dump, "library": Library, "exe": Exe, "com": Com, "placement": Placement, "linktext": LinkText, "find": Find, "lower": Lower}


def made_seeds():
    """Made modules with COMDATs and the other records of tests/fuzz/kinds.py: the same ones in each run."""
    for number in range(MADE_SEEDS):
        random_ = random.Random(number)
        yield from kinds.various(random_, [executables.module(random_, it, it == 0) for it in range(2)], executables.fixup)


def load_seeds(more):
    """The modules and the libraries to begin with, each once."""
    paths = [*ROOT.glob("examples/**/*"), *ROOT.glob("crates/*/data/*"), *ROOT.glob("tests/fuzz/*.omf")]
    paths += pathlib.Path(more).rglob("*") if more else []
    suffixes = (".omf", ".obj", ".o", ".lib")
    taken = {it.read_bytes() for it in paths if it.is_file() and it.suffix.lower() in suffixes and it.stat().st_size < 5120}
    return sorted((taken | {*made_seeds()}) - {b""})


def place_of(error):
    """Where a promise was seen not to hold: the kind of the error, and the line of the reader that looked."""
    frames = [it for it in traceback.extract_tb(error.__traceback__) if not it.filename.endswith("promises.py")]
    return type(error).__name__, frames[-1].filename, frames[-1].lineno


class Guilty:
    """The inputs that break a promise, and what was random when they did."""

    def __init__(self, one, inputs, error, state, folder):
        self.one, self.inputs, self.error, self.folder = one, inputs, error, folder
        self.states = [state, *(random.Random(it).getstate() for it in range(3))]

    def look(self, inputs):
        """The first error at these inputs, or None."""
        for state in self.states:
            self.one.random.setstate(state)
            try:
                self.one.look(inputs, self.folder)
            except Exception as error:
                return error
        return None

    def differs(self, inputs):
        error = self.look(inputs)
        return error is not None and place_of(error) == place_of(self.error)

    def alone(self):
        """Of a batch the first input that breaks a promise by itself."""
        for bytes_ in self.inputs if len(self.inputs) > 1 else ():
            error = self.look([bytes_])
            if error:
                self.inputs, self.error = [bytes_], error
                return


def keep(guilty, path, smaller):
    """Keeps the inputs and the smallest ones. Returns what is printed of them."""
    path.parent.mkdir(parents=True, exist_ok=True)
    if (guilty.folder / "text").exists():
        pathlib.Path(f"{path}-text").write_bytes((guilty.folder / "text").read_bytes())
    found = smallest(guilty.inputs, guilty.differs, smaller) if smaller > 0 and guilty.differs(guilty.inputs) else []
    for kind, inputs in (("", guilty.inputs), ("-small", found)):
        for index, bytes_ in enumerate(inputs):
            pathlib.Path(f"{path}{kind}-{index}").write_bytes(bytes_)
    small = f"; the smallest {len(found)} of {sum(map(len, found))} bytes: {path}-small-0" if found else ""
    return f"{path}-0 ({len(guilty.inputs)} inputs of {sum(map(len, guilty.inputs))} bytes{small})"


def fuzz(name, seeds, asked, kept):
    """Looks at changed inputs for that time. Returns how many broke a promise."""
    one = TARGETS[name](seeds, random.Random(asked.number), asked.every)
    given = [pathlib.Path(it).read_bytes() for it in asked.again]
    begun, spent, broken, count, rounds = time.monotonic(), 0, 0, 0, 0
    before = resource.getrusage(resource.RUSAGE_CHILDREN)
    with tempfile.TemporaryDirectory() as folder:
        folder = pathlib.Path(folder)
        while time.monotonic() - begun - spent < asked.seconds and broken < MOST_BROKEN:
            inputs = given or one.inputs()
            inputs = inputs[:1] if one.IS_BATCH and rounds % 8 == 0 else inputs
            count, rounds, state = count + len(inputs), rounds + 1, one.random.getstate()
            try:
                one.look(inputs, folder)
            except Exception as error:
                broken, after, since = broken + 1, one.random.getstate(), time.monotonic()
                guilty = Guilty(one, inputs, error, state, folder)
                guilty.alone()
                where = keep(guilty, kept / f"{name}-{asked.number}-{rounds}", asked.smaller)
                print(f"{name}: not so: seed {asked.number} round {rounds}: {str(guilty.error) or repr(guilty.error)}: {where}", flush=True)
                one.random.setstate(after)
                spent += time.monotonic() - since
    after = resource.getrusage(resource.RUSAGE_CHILDREN)
    used = after.ru_utime + after.ru_stime - before.ru_utime - before.ru_stime
    print(f"{name}: {count} inputs, {one.accepted} accepted, {one.compared} compared with another program, {broken} broken promises, {used:.0f} s", flush=True)
    return broken


def main():
    parser = argparse.ArgumentParser(usage=__doc__)
    parser.add_argument("seconds", type=float)
    parser.add_argument("targets", nargs="*")
    parser.add_argument("--seeds")
    parser.add_argument("--number", type=int, default=1)
    parser.add_argument("--keep")
    parser.add_argument("--every", type=int, default=1)
    parser.add_argument("--smaller", type=float, default=20)
    parser.add_argument("--again", nargs="*", default=[])
    asked = parser.parse_args()
    targets = asked.targets or list(TARGETS)
    if set(targets) - set(TARGETS):
        parser.error(f"the targets are {', '.join(TARGETS)}")
    kept = pathlib.Path(asked.keep) if asked.keep else pathlib.Path(tempfile.gettempdir()) / f"programs-{os.getpid()}"
    seeds = load_seeds(asked.seeds)
    sys.exit(1 if sum(fuzz(it, seeds, asked, kept) for it in targets) else 0)


if __name__ == "__main__":
    main()
