#!/usr/bin/env python3
"""Compares the example linkers link.c and link.py with `omf-link bin`: linked.py LINK OMF_LINK

LINK is examples/c/link.c, compiled; LIBOMF is the shared library for Python. Both place the modules of examples/, write the same bytes and print the
same text. Of these modules and this text `omf-link bin` makes these bytes. A name that is not defined is named.
"""
import os
import subprocess
import sys
import tempfile

here = os.path.dirname(os.path.abspath(__file__))
examples = os.path.join(here, "..", "..", "examples")
CASES = [("7C00", "400", ["pair/caller.obj", "pair/callee.obj"]), ("10000", "400", ["exe/main.obj", "exe/show.obj", "exe/report.obj"])]
# The examples look for nothing that a text does unseen.
ALLOWED = [word for kind in ("overlap", "align", "group", "frame", "near") for word in ("--allow", kind)]


def run(*words):
    return subprocess.run(words, capture_output=True, env={**os.environ, "PYTHONPATH": os.path.join(here, "..", "..", "python")}, check=False)


def main(link, omf_link):
    python, failures = [sys.executable, os.path.join(examples, "python", "link.py")], 0
    with tempfile.TemporaryDirectory() as folder:
        output = os.path.join(folder, "memory")
        text = os.path.join(folder, "text")

        def made(*words):
            it = run(*words)
            if it.returncode != 0:
                raise RuntimeError(f"{words[0]} ended with {it.returncode}: {it.stderr.decode()}")
            with open(output, "rb") as file:
                return file.read(), it.stdout

        for base, size, names in CASES:
            modules = [os.path.join(examples, name) for name in names]
            by_c = made(link, base, size, output, *modules)
            with open(text, "wb") as file:
                file.write(by_c[1])
            if made(*python, base, size, output, *modules) != by_c:
                print(f"{names}: link.py differs from link.c")
                failures += 1
            if made(omf_link, "bin", "--base", base, "--size", size, "--fill", "0", *ALLOWED, "-t", text, "-o", output, *modules)[0] != by_c[0]:
                print(f"{names}: omf-link bin differs from link.c")
                failures += 1
        alone = os.path.join(examples, "pair", "caller.obj")
        for linker in ([link], python):
            it = run(*linker, "7C00", "400", output, alone)
            if it.returncode != 1 or b"not defined: say" not in it.stderr:
                print(f"{linker[-1]}: a name that is not defined: {it.stderr.decode()}")
                failures += 1
    print(f"examples: two linkers make the bytes of omf-link bin, of {len(CASES)} inputs")
    return failures > 0


sys.exit(main(*sys.argv[1:3]))
