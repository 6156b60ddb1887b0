#!/usr/bin/env python3
"""Tries `omf-link join`: rejoined.py

For each case of conformance/programs that `omf-link exe` links with options that `join` has too, `join` writes the modules in one file, and `exe` of this file
alone must make the same program, byte by byte. OMF_LINK names the program (omf-link, if not set). The last line has how many files were linked."""
import os
import pathlib
import subprocess
import sys
import tempfile

import keys

LINK = os.environ.get("OMF_LINK") or "omf-link"
OPTIONS = {"--order", "--ignore-case", "--keep-debug", "--no-default-libraries", "--no-default-library", "-L", "--library-path"}


def can_join(case):
    """Whether a case makes a program with options that `join` has."""
    words = [it for it in case.call[2:] if it.startswith(("-", "{"))]
    return case.call[:2] == ["omf-link", "exe"] and case.status == 0 and set(words) <= OPTIONS


def made(folder, *words):
    """What a run writes to the file that `-o` names; its lines, if it writes none."""
    output = folder / words[words.index("-o") + 1]
    done = subprocess.run([LINK, *words], cwd=folder, stdin=subprocess.DEVNULL, capture_output=True, timeout=60, check=False)
    return output.read_bytes() if done.returncode == 0 else (done.returncode, done.stderr)


def difference(case):
    """What differs between the program of a case and the program of its joined modules; None if nothing does."""
    names, kinds = {"lib": "l.lib"}, keys.ADAPTER.parts_of(case.input)
    files = {names.get(kind, f"{chr(97 + number)}.obj"): bytes_ for number, (kind, bytes_) in enumerate(kinds)}
    with tempfile.TemporaryDirectory() as place:
        folder = pathlib.Path(place)
        for name, bytes_ in files.items():
            (folder / name).write_bytes(bytes_)
        options = case.call[2:]
        wanted = made(folder, "exe", *options, "-o", "p.exe", *files)
        joined = made(folder, "join", *options, "-o", "j.obj", *files)
        debug = [it for it in options if it == "--keep-debug"]
        again = made(folder, "exe", *debug, "-o", "q.exe", "j.obj") if isinstance(joined, bytes) else joined
        return None if wanted == again else (wanted, again)


def main():
    cases = [it for it in keys.RUN.cases_of(keys.ROOT / "conformance" / "programs") if can_join(it)]
    differs = [(it.name, found) for it in cases if (found := difference(it))]
    for name, found in differs:
        print(f"{name}: {found[0]} is {found[1]} once it is joined")
    print(f"{len(cases)} joined files were linked, {len(differs)} differ")
    return 1 if differs or not cases else 0


if __name__ == "__main__":
    sys.exit(main())
