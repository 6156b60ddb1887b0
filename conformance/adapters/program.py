#!/usr/bin/env python3
"""Has a linker answer a case of conformance/programs: program.py COMMAND WORD.., where a word {files} is the input's files and {exe} the program.

The input is modules one after another, and a library, a text or nothing after them: they are put into files a.obj, b.obj, .., l.lib and t.link. A module
after bytes of 0 is in the file of the one before it. What is printed is the program, or the other file that the linker makes, a map or symbols; where
it makes none, what it prints: its standard output; or, where that is empty, its standard error, without the linker's name before each line. A word
{warnings} in the call is no word of the linker's: then its standard error is what is printed also where it makes a program. Where a word of the call is -
the input is the linker's standard input, and is put into no file."""
import pathlib
import re
import struct
import subprocess
import sys
import tempfile


def parts_of(input_):
    """The kinds and bytes of the files: modules, each to its MODEND, and what follows them."""
    at, begun = 0, 0
    while at + 3 <= len(input_) and input_[begun] != 0xF0 and not (begun and input_[begun] < 0x80):
        kind = input_[at]
        at += 3 + struct.unpack_from("<H", input_, at + 1)[0]
        if kind in (0x8A, 0x8B):
            next_ = len(input_) - len(input_[at:].lstrip(b"\0"))
            if next_ in (at, len(input_)):
                yield "obj", input_[begun:next_]
                begun = next_
            at = next_
            if at == len(input_):
                return
    yield "lib" if input_[begun:begun + 1] == b"\xF0" else "link" if begun and input_[begun] < 0x80 else "obj", input_[begun:]


def main():
    names = []
    with tempfile.TemporaryDirectory() as made:
        folder = pathlib.Path(made)
        input_ = sys.stdin.buffer.read()
        for number, (kind, bytes_) in enumerate(parts_of(input_) if "-" not in sys.argv else ()):
            names.append({"lib": "l.lib", "link": "t.link"}.get(kind, f"{chr(97 + number)}.obj"))
            (folder / names[-1]).write_bytes(bytes_)
        words = []
        for word in sys.argv[1:]:
            words += [it for it in names if it != "t.link"] if word == "{files}" else [word.replace("{exe}", "p.exe")]
        done = subprocess.run([it for it in words if it != "{warnings}"], cwd=folder, input=input_, capture_output=True)
        products = sorted((it for it in folder.iterdir() if it.name not in names), key=lambda it: it.name == "p.exe")
        if done.returncode == 0 and products and "{warnings}" not in words:
            sys.stdout.buffer.write(products[0].read_bytes())
        else:
            sys.stdout.buffer.write(done.stdout or re.sub(rb"(?m)^[a-z][a-z-]*: ", b"", done.stderr))
    return done.returncode


if __name__ == "__main__":
    sys.exit(main())
