#!/usr/bin/env python3
"""Writes how to use the release into README.md: release.py NAME < SUMS   (dist/release.sh calls it)"""
import pathlib
import re
import sys

README = pathlib.Path(__file__).resolve().parent.parent / "README.md"
TEXT = """**Without the kit**: `tar xf dist/{name}.tar.xz` gives the programs, man pages, C library, Python wheel, examples and page, for Linux with glibc 2.34 or later (Debian 12, Ubuntu 22.04). SHA-256:

```text
{sums}
```
"""


def main(name, sums):
    text = README.read_text(encoding="utf-8")
    text, count = re.subn(r"^\*\*Without the kit\*\*.*?\n(?=\n(?!```)[^\n])", lambda _: TEXT.format(name=name, sums=sums.rstrip()), text, flags=re.M | re.S)
    if count != 1:
        sys.exit(f"README.md has {count} paragraphs \"Without the kit\"")
    README.write_text(text, encoding="utf-8")


if __name__ == "__main__":
    if len(sys.argv) != 2:
        sys.exit(__doc__)
    main(sys.argv[1], sys.stdin.read())
