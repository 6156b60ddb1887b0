#!/usr/bin/env python3
"""Where `omf-link exe` looks for files and libraries: searches.py

Each row has the files of a folder, the variable LIB, the words of a call after `exe -o p.exe --map p.map`, and what comes of it: the files of the
modules that the map shows, or the status and the lines on the standard error. The rows were written by hand from docs/DOS.md. OMF_LINK names the
program. The status is 0 where each row is right."""
import itertools
import os
import pathlib
import re
import subprocess
import sys
import tempfile

sys.path.insert(0, str(pathlib.Path(__file__).resolve().parent / "fuzz"))
from libraries import library, module, record  # noqa: E402
from promises import program  # noqa: E402

START = record(0x8A, b"\xC1\x50\x01\x00\x00")


def main(needs=b"", libraries=()):
    """A module with the start that needs a name and asks for libraries."""
    asked = b"".join(record(0x88, b"\x00\x9F" + it) for it in libraries)
    externals = record(0x8C, bytes([len(needs)]) + needs + b"\x00") if needs else b""
    parts = record(0x96, b"\x00\x01T") + record(0x98, b"\x68\x01\x00\x02\x01\x01") + externals + record(0xA0, b"\x01\x00\x00\xC3")
    return record(0x80, b"\x01m") + asked + parts + START


def lib(*names):
    return library([(module(b"l", [it]), (it,)) for it in names])


def asking(name, *libraries):
    """A library whose member defines a name and asks for libraries."""
    member = module(b"l", [name])
    end = 3 + int.from_bytes(member[1:3], "little")
    asked = b"".join(record(0x88, b"\x00\x9F" + it) for it in libraries)
    return library([(member[:end] + asked + member[end:], (name,))])


# A name of a file: its bytes.
PLAIN = {"m.obj": main()}
ASKS = {"m.obj": main(b"f", [b"Clib"])}
UNDEFINED = 'undefined "f": file "m.obj" module 1'
MISSING = 'library "Clib" is not found'

# Names of libraries that are not there, and spellings of one name.
MANY = [b"lib%d" % it for it in range(20000)]
SPELLINGS = [bytes(it) for it in itertools.product(*zip(b"abcdefghijklm", b"ABCDEFGHIJKLM"))]

# The files that a library of this name may be, the first one first.
CLIB = ["Clib", "Clib.lib", "clib", "clib.lib", "CLIB", "CLIB.LIB"]

# Files, LIB, words; the files of the map's modules, or a status and lines.
ROWS = [
    # Endings that are left out.
    (PLAIN, "", "m", ["m.obj"]),
    ({"M.OBJ": main()}, "", "M", ["M.OBJ"]),
    ({"m": main(), "m.obj": b""}, "", "m", ["m"]),
    ({"m.obj": main(b"f"), "c.lib": lib(b"f")}, "", "m c", ["m.obj", "c.lib"]),
    ({"m.obj": main(b"f"), "c.LIB": lib(b"f")}, "", "m c", ["m.obj", "c.LIB"]),
    ({"m/x": b"", "m.obj": main()}, "", "m", ["m.obj"]),
    ({"d/m.obj": main()}, "", "d/m", ["d/m.obj"]),
    (PLAIN, "", "n", (3, ["read n: No such file or directory (os error 2)"])),
    (PLAIN, "", "m.lib", (3, ["read m.lib: No such file or directory (os error 2)"])),
    # Files whose names are in another case.
    ({"m.obj": main(b"f"), "clib.LIB": lib(b"f")}, "", "m CLIB.lib", ["m.obj", "clib.LIB"]),
    ({"m.obj": main(b"f"), "CLIB.Lib": lib(b"f")}, "", "m clib", ["m.obj", "CLIB.Lib"]),
    ({"m.obj": main(b"f"), "d/clib.LIB": lib(b"f")}, "", "-L d m CLIB.lib", ["m.obj", "d/clib.LIB"]),
    ({"m.obj": main(b"f"), "cLib": lib(b"f"), "d/CLIB.lib": lib(b"f")}, "d", "m CLIB", ["m.obj", "d/CLIB.lib"]),
    ({"m.obj": main(b"f"), "clib": lib(b"f"), "cLib": lib(b"f"), "clib.LIB": lib(b"f")}, "", "m CLIB", ["m.obj", "clib.LIB"]),
    ({"m.obj": main(b"f"), "clib": lib(b"f"), "cLib": lib(b"f"), "d/ClIB": lib(b"f")}, "d", "m CLIB", ["m.obj", "d/ClIB"]),
    ({"m.obj": main(b"f"), "clib": lib(b"f"), "cLib": lib(b"f")}, "", "m CLIB", (3, ["read CLIB: No such file or directory (os error 2)"])),
    ({"m.obj": main(b"f"), "clib/x": b"", "cLib": lib(b"f")}, "", "m CLIB", ["m.obj", "cLib"]),
    ({"m.obj": main(b"f", [b"Clib"]), "cLIB.LIB": lib(b"f")}, "", "m CLIB.lib", ["m.obj", "cLIB.LIB"]),
    ({"M.OBJ": main()}, "", "m.obj", ["M.OBJ"]),
    ({"M.Obj": main(), "M.Lib": lib(b"f")}, "", "m", ["M.Obj"]),
    ({"d/M.OBJ": main()}, "", "d/m.obj", (3, ["read d/m.obj: No such file or directory (os error 2)"])),
    ({"M.OBJ": main()}, "", "-o m.obj M", ["M.OBJ"]),
    ({"M.OBJ": main()}, "", "-o M.OBJ m", (2, None)),
    # Folders for files: the current one, then -L, then LIB.
    ({"d/m.obj": main()}, "", "m", (3, ["read m: No such file or directory (os error 2)"])),
    ({"d/m.obj": main()}, "", "-L d m", ["d/m.obj"]),
    ({"d/m.obj": main()}, "", "-Ld m", ["d/m.obj"]),
    ({"d/m.obj": main(), "e/m.obj": main()}, "", "-Le -Ld m.obj", ["e/m.obj"]),
    ({"a=b/m.obj": main()}, "", "-La=b m", ["a=b/m.obj"]),
    ({"a=b/m.obj": main()}, "", "-L=a=b m", ["a=b/m.obj"]),
    ({"Ld/m.obj": main()}, "", "-L Ld m", ["Ld/m.obj"]),
    ({"-Ld/m.obj": main()}, "", "-L -Ld m", ["-Ld/m.obj"]),
    ({"d/m.obj": main(), "-Ld.obj": main()}, "", "-- -Ld", ["./-Ld.obj"]),
    ({"m.obj": main()}, "", "-op.exe m", ["m.obj"]),
    ({"d/m.obj": main()}, "", "--library-path d m.obj", ["d/m.obj"]),
    ({"d/m.obj": main(), "m.obj": main()}, "", "-L d m.obj", ["m.obj"]),
    ({"d/m.obj": main(), "e/m.obj": main()}, "", "-L e -L d m.obj", ["e/m.obj"]),
    ({"d/m.obj": main(), "e/m.obj": main()}, "", "-L e --library-path d m.obj", ["e/m.obj"]),
    ({"d/m.obj": main(), "e/m.obj": main()}, "", "--library-path e --library-path d m.obj", ["e/m.obj"]),
    ({"d/m.obj": main(), "e/m.obj": main()}, "d", "-L e m.obj", ["e/m.obj"]),
    ({"d/m.obj": main(), "e/m.obj": main()}, "e;d", "m.obj", ["e/m.obj"]),
    ({"d/m.obj": main()}, "e;d", "m.obj", ["d/m.obj"]),
    ({"d/m.obj": main()}, "e:d", "m.obj", ["d/m.obj"]),
    ({"d/m.obj": main()}, ";d;", "m.obj", ["d/m.obj"]),
    ({"d/e/m.obj": main()}, "d", "e/m.obj", (3, ["read e/m.obj: No such file or directory (os error 2)"])),
    # Libraries that modules ask for.
    *(({**ASKS, **{it: lib(b"f") for it in CLIB[at:]}}, "", "m", ["m.obj", CLIB[at]]) for at in range(len(CLIB))),
    ({"m.obj": main(b"f", [b"a", b"b", b"a"])}, "", "m", (1, [UNDEFINED, 'library "a" is not found', 'library "b" is not found'])),
    ({**ASKS, "Clib": lib(b"f")}, "", "m", ["m.obj", "Clib"]),
    ({**ASKS, "clib.lib": lib(b"f")}, "", "m", ["m.obj", "clib.lib"]),
    ({**ASKS, "CLIB.LIB": lib(b"f")}, "", "m", ["m.obj", "CLIB.LIB"]),
    ({**ASKS, "cLIB.Lib": lib(b"f")}, "", "m", ["m.obj", "cLIB.Lib"]),
    ({**ASKS, "d/cLIB": lib(b"f")}, "", "-L d m", ["m.obj", "d/cLIB"]),
    ({**ASKS, "d/Clib.LIB": lib(b"f")}, "d", "m", ["m.obj", "d/Clib.LIB"]),
    ({**ASKS, "cLib": lib(b"f"), "d/Clib": lib(b"f")}, "d", "m", ["m.obj", "cLib"]),
    ({**ASKS, "cLib": lib(b"f"), "ClIB.lib": lib(b"f")}, "", "m", (1, [UNDEFINED, f'{MISSING}: it may be file "ClIB.lib" or "cLib"'])),
    ({**ASKS, "d/clIb": lib(b"f"), "d/cLib": lib(b"f"), "e/CLIB": b""}, "d;e", "m", (1, [UNDEFINED, f'{MISSING}: it may be file "d/cLib" or "d/clIb"'])),
    ({**ASKS, "d/clIb": lib(b"f"), "d/cLib": lib(b"f"), "e/CLIB": lib(b"f")}, "d;e", "m", ["m.obj", "e/CLIB"]),
    ({**ASKS, "Clib.libx": lib(b"f"), "xClib": lib(b"f"), "Clib.obj": lib(b"f")}, "", "m", (1, [UNDEFINED, MISSING])),
    ({**ASKS, "Clib": b"no library", "Clib.lib": lib(b"f")}, "", "m", ["m.obj", "Clib.lib"]),
    ({"m.obj": main(b"f", [b"A", b"a"]), "A.lib": lib(b"f")}, "", "m", ["m.obj", "A.lib"]),
    ({"m.obj": main(b"f", [b"B", b"A"]), "A": asking(b"f", b"B", b"D", b"A"), "D": lib(b"g")}, "", "m", ["m.obj", "A"]),
    ({"m.obj": main(b"f", [b"A"]), "A": asking(b"g", b"A", b"B", b"D", b"D"), "D": b""}, "", "m", (1, [UNDEFINED])),
    # Files of the name that are no libraries; folders are no files.
    ({**ASKS, "Clib": b"no library"}, "", "m", (1, [UNDEFINED, f'{MISSING}: file "Clib" is no library'])),
    ({**ASKS, "cLib.Lib": b""}, "", "m", (1, [UNDEFINED, f'{MISSING}: file "cLib.Lib" is no library'])),
    ({**ASKS, "CLIB.LIB": b"!<arch>\n", "clib": b"", "cLIB": lib(b"f")}, "", "m", (1, [UNDEFINED, f'{MISSING}: file "clib" is no library'])),
    ({**ASKS, "d/clib.lib": b"!<arch>\n"}, "", "-L d m", (1, [UNDEFINED, f'{MISSING}: file "d/clib.lib" is no library'])),
    ({**ASKS, "clib": b"", "d/clib.lib": b"", "e/Clib": lib(b"f")}, "d;e", "m", ["m.obj", "e/Clib"]),
    ({"m.obj": main(b"f", [b'C"\x01']), 'C"\x01': b""}, "", "m", (1, [UNDEFINED, r'library "C\x22\x01" is not found: file "C\x22\x01" is no library'])),
    ({**ASKS, "Clib/x": b"", "clib.lib/x": b""}, "", "m", (1, [UNDEFINED, MISSING])),
    ({**ASKS, "Clib/x": b"", "cLib.lib": lib(b"f")}, "", "m", ["m.obj", "cLib.lib"]),
    ({**ASKS, "d/Clib": lib(b"f")}, "", "m", (1, [UNDEFINED, MISSING])),
    ({"m.obj": main(b"f", [b"d/Clib"]), "d/Clib": lib(b"f")}, "d", "m", (1, [UNDEFINED, 'library "d/Clib" is not found'])),
    ({"m.obj": main(b"f", [b""]), ".lib": lib(b"f")}, "", "m", ["m.obj", ".lib"]),
    ({"m.obj": main(b"f", [b".", b"..", b"C\xE4", b"C\x00"])}, "", "m", (1, [UNDEFINED, *(rf'library "{it}" is not found' for it in (".", "..", r"C\xE4", r"C\x00"))])),
    # Many names, in a folder of many files: each folder is listed once, and each file is read once.
    ({"m.obj": main(b"f", MANY), **{f"n{it}.lib": b"" for it in range(2000)}}, "", "m", (1, [UNDEFINED, *(f'library "{it.decode()}" is not found' for it in MANY)])),
    ({"m.obj": main(b"f", SPELLINGS), "abcdefghijklm": bytes(1 << 22)}, "", "m", (1, [UNDEFINED, *(f'library "{it.decode()}" is not found: file "abcdefghijklm" is no library' for it in SPELLINGS)])),
    # Libraries that are left out: they are not missing either.
    ({**ASKS, "Clib": lib(b"f")}, "", "m --no-default-libraries", (1, [UNDEFINED])),
    ({**ASKS, "d/Clib": lib(b"f"), "e/Clib": lib(b"f")}, "", "m --library-path e --library-path d --no-default-libraries", (1, [UNDEFINED])),
    ({**ASKS, "Clib": lib(b"f")}, "", "m --no-default-library clib", (1, [UNDEFINED])),
    ({**ASKS, "Clib": lib(b"f")}, "", "m --no-default-library CLIB.LIB", (1, [UNDEFINED])),
    ({**ASKS, "Clib": lib(b"f")}, "", "m --no-default-library Dlib", ["m.obj", "Clib"]),
    ({"m.obj": main(b"f", [b"A", b"B"]), "A": lib(b"f"), "B": lib(b"f")}, "", "m --no-default-library a", ["m.obj", "B"]),
    ({"m.obj": main(b"f", [b"A", b"B"]), "A": lib(b"f"), "B": lib(b"f")}, "", "m --no-default-library a --no-default-library b", (1, [UNDEFINED])),
    # An output is none of the files that are found.
    (PLAIN, "", "-o m.obj m", (2, None)),
]


def fault(row):
    """What differs from a row; None if nothing does."""
    files, variable, words, expected = row
    with tempfile.TemporaryDirectory() as made:
        folder = pathlib.Path(made)
        for name, content in files.items():
            (folder / name).parent.mkdir(parents=True, exist_ok=True)
            (folder / name).write_bytes(content)
        front = [] if re.search("(?:^| )-o", words) else ["-o", "p.exe"]
        command = [program("omf_link"), "exe", *front, "--map", "p.map", *words.split()]
        done = subprocess.run(command, cwd=folder, env={**os.environ, "LIB": variable}, capture_output=True, text=True, timeout=60, check=False)
        told = [it.removeprefix("omf-link: ") for it in done.stderr.splitlines()]
        if isinstance(expected, list):
            shown = re.findall(r'^module \d+ file "(.*?)" module \d+(?: ".*")?$', (folder / "p.map").read_text(), re.M) if done.returncode == 0 else None
            return None if shown == expected else f"modules of {shown}, status {done.returncode} {told}"
        status, lines = expected
        if done.returncode != status or lines is not None and told != lines:
            return f"status {done.returncode} {told}"
        return None if not (folder / "p.exe").exists() and all((folder / it).read_bytes() == b for it, b in files.items()) else "a file is made or changed"


if __name__ == "__main__":
    if len(sys.argv) != 1:
        sys.exit(__doc__)
    wrong = [(row, found) for row in ROWS if (found := fault(row))]
    for row, found in wrong:
        print(f"failed: {sorted(row[0])} LIB={row[1]} {row[2]}: {found}, not {row[3]}")
    print(f"{len(ROWS)} searches, {len(wrong)} failed")
    sys.exit(bool(wrong))
