#!/usr/bin/env python3
"""Results on a standard output that can't be written: a full device, and a pipe whose reader has closed it.

usage: tests/devices/results.py [WORD]     (only the runs whose name has WORD)

Each run whose result goes to the standard output is made once to a file, then to /dev/full, then into a closed pipe. A full device ends it with status
3 and one line with the system's reason (`omf`, whose streams are fixed, prints none); a closed pipe with status 3 and no line. No file is left. OMF,
OMF_DUMP, OMF_FIND, OMF_LIB, OMF_LINK and OMF_PLACE name the programs. The status is 0 where every promise held."""
import os
import pathlib
import subprocess
import sys
import tempfile

import system_calls
from promises import program, promised

THREE = system_calls.THREE
RUNS = [(name, crate, words, given) for name, crate, words, given in system_calls.RUNS if not any(it.startswith("made/") or it == "made" for it in words)] + [
    ("omf-dump --verdict", "omf_dump", ["--verdict", "first.omf", "small.lib"], None), ("omf-dump --names", "omf_dump", ["--names", "--csv", *THREE], None),
    ("omf-link bin", "omf_link", ["bin", "--base", "7C00", "--size", "200", *THREE, "-t", "program.link"], None),
    ("omf-link hex", "omf_link", ["hex", *THREE, "-t", "program.link"], None), ("omf-link srec", "omf_link", ["srec", *THREE, "-t", "program.link"], None),
    ("omf-link draft", "omf_link", ["draft", *THREE], None), ("omf-link map of files", "omf_link", ["map", *THREE], None),
    ("omf-link exe -o -", "omf_link", ["exe", "-o", "-", "main.obj", "show.obj", "report.obj"], None),
    ("omf-link com -o -", "omf_link", ["com", "-o", "-", "hello.obj", "say2.obj"], None),
    ("omf-lib make -o -", "omf_lib", ["make", "-o", "-", "say.obj", "mark.obj"], None), ("omf-lib canon -o -", "omf_lib", ["canon", "-o", "-", "small.lib"], None),
    ("omf-find --symbols", "omf_find", ["--symbols", "nm", "find.exe", "main.obj", "report.obj"], None),
    *((f"{it} --help", crate, ["--help"], None) for it, crate in (("omf-dump", "omf_dump"), ("omf-find", "omf_find"), ("omf-lib", "omf_lib"), ("omf-link", "omf_link"), ("omf-place", "omf_place"))),
]


def run(folder, words, given, output):
    """The status and the standard error of a run."""
    with (folder / given).open("rb") if given else open(os.devnull, "rb") as input_:
        done = subprocess.run(words, cwd=folder, stdin=input_, stdout=output, stderr=subprocess.PIPE, timeout=60, check=False)
    return done.returncode, done.stderr


def refuse(folder, name, crate, words, given):
    """A run to a file, to a full device, and into a closed pipe."""
    words, before = [program(crate), *words], sorted(folder.iterdir())
    with tempfile.TemporaryFile() as output:
        status, _ = run(folder, words, given, output)
        promised(status == 0 and output.seek(0, os.SEEK_END), f"{name}: status {status}, or nothing is printed")
    with open("/dev/full", "wb") as output:
        found = run(folder, words, given, output)
    line = b"" if crate == "omf" else f"{crate.replace('_', '-')}: write standard output: No space left on device (os error 28)\n".encode()
    promised(found == (3, line), f"{name}: on a full device {found}")
    reading, writing = os.pipe()
    os.close(reading)
    found = run(folder, words, given, writing)
    os.close(writing)
    promised(found == (3, b""), f"{name}: into a closed pipe {found}")
    promised(sorted(folder.iterdir()) == before, f"{name}: files are left")


def main():
    wanted, tried = sys.argv[1] if len(sys.argv) > 1 else "", 0
    with tempfile.TemporaryDirectory() as made:
        folder = pathlib.Path(made)
        system_calls.fill(folder)
        for it in (it for it in RUNS if wanted in it[0]):
            refuse(folder, *it)
            tried += 1
    print(f"{tried} results refused by a full device and by a closed pipe")


if __name__ == "__main__":
    main()
