#!/usr/bin/env python3
"""Compares the version in the file VERSION with those of the header, the Python package, the C library and the programs."""
import pathlib
import sys

ROOT = pathlib.Path(__file__).resolve().parent.parent.parent
VERSION = (ROOT / "VERSION").read_text(encoding="utf-8").strip()
NUMBER = sum(int(part) * 100**place for place, part in enumerate(reversed(VERSION.split("."))))
# Each place of the version: the file, and the text that it must have.
PLACES = [
    ("include/omf.h", f'#define OMF_VERSION "{VERSION}"\n#define OMF_VERSION_NUMBER {NUMBER} '),
    ("python/omf/__init__.py", f'__version__ = "{VERSION}"'),
    ("crates/omf_c/src/texts.rt", f"ensures {{ result ≡ {NUMBER} }}"),
    ("crates/omf_host/specs/Question.antt", f'version_line name = name ++ (codes " {VERSION}" ++ 10 ∷ [])'),
]


def main():
    lacking = [path for path, text in PLACES if text not in (ROOT / path).read_text(encoding="utf-8")]
    for path in lacking:
        print(f"{path}: its version is not {VERSION}")
    return 1 if lacking else 0


if __name__ == "__main__":
    sys.exit(main())
