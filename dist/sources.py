#!/usr/bin/env python3
"""Prints a digest of the sources that the package is made of, the same wherever they are: sources.py [--list]

It is SHA-256 of a line for each file, its path and its own SHA-256, in the order of the paths; the first 16 digits are printed. --list prints these
lines. What scripts and builds leave in a folder (out/, __pycache__) is no source, and in a clone what Git does not track."""
import hashlib
import pathlib
import subprocess
import sys

ROOT = pathlib.Path(__file__).resolve().parent.parent
PARTS = ("crates", "crates.txt", "HANDLES", "VERSION", "LICENSE", "page", "dist", "python", "include", "man", "completions", "examples", "docs/BELIEVE.md",
         "docs/REASONS.md", "docs/LIBRARIES.md")
# What a build leaves, and what is made of the sources.
MADE = {"out", "__pycache__", "must-fail"}
RELEASED = (".tar.xz", ".html", "GATE", "SHA256SUMS")


def tracked():
    """The files that Git tracks, or None where this is no clone."""
    if not (ROOT / ".git").exists():
        return None
    return {*subprocess.run(["git", "-C", ROOT, "ls-files", "-z"], stdout=subprocess.PIPE, check=True).stdout.decode().split("\0")}


def files():
    known = tracked()
    for part in PARTS:
        path = ROOT / part
        for it in sorted(path.rglob("*")) if path.is_dir() else [path]:
            name = it.relative_to(ROOT)
            if it.is_file() and not MADE & {*name.parts} and not (name.parts[0] == "dist" and name.name.endswith(RELEASED)) and (known is None or name.as_posix() in known):
                yield name.as_posix()


def lines():
    return [f"{hashlib.sha256((ROOT / name).read_bytes()).hexdigest()}  {name}\n" for name in sorted(files())]


def digest():
    return hashlib.sha256("".join(lines()).encode()).hexdigest()[:16]


if __name__ == "__main__":
    if sys.argv[1:] == ["--list"]:
        print("".join(lines()), end="")
    elif sys.argv[1:]:
        sys.exit(__doc__)
    else:
        print(digest())
