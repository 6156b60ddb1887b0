#!/usr/bin/env python3
"""Whether the pages keep to docs/BUDGET: its bytes, no line of more than 400 characters, no cell of a table of more than 200.

budget.py    status 1 where a page is larger than its line allows, has such a line or cell, or has no line in docs/BUDGET

A line there is `PAGE BYTES`; `PAGE any` for a page of any size; `PAGE made` for one that scripts make, whose tables may have long cells. Pages of
docs/ and of the top folder have their name, others the folder before it. Blocks of code and quotes are not looked at, and neither are tables between
the marks of tests/docs/house.py.
"""
import pathlib
import re
import sys

ROOT = pathlib.Path(__file__).resolve().parent.parent.parent
STORE = ROOT / "docs" / "BUDGET"
LINE, CELL = 400, 200


def pages():
    """Each page by its name in docs/BUDGET."""
    found = [*ROOT.glob("*.md"), *(ROOT / "docs").glob("*.md")]
    others = [path for folder in ("bench", "conformance", "examples", "page", "python", "tests") for path in (ROOT / folder).rglob("*.md")]
    return {path.stem: path for path in sorted(found)} | {str(path.relative_to(ROOT).with_suffix("")): path for path in sorted(others)}


def too_long(path):
    """The numbers of the long lines, and of the lines with long cells."""
    lines, cells, code, made = [], [], False, False
    for number, line in enumerate(path.read_text(encoding="utf-8").splitlines(), 1):
        made = line.startswith("<!-- house.py") or made and line != "<!-- end -->"
        code ^= line.startswith("```")
        if code or made:
            continue
        if line.startswith("|"):
            cells += [number] * any(len(it.strip()) > CELL for it in re.split(r"(?<!\\)\|", line))
        elif len(line) > LINE and not line.startswith(">"):
            lines.append(number)
    return lines, cells


def faults_of(path, size):
    shown, (lines, cells) = path.relative_to(ROOT), too_long(path)
    if size not in ("any", "made") and path.stat().st_size > int(size):
        yield f"{shown}: {path.stat().st_size} bytes, {size} allowed"
    if lines:
        yield f"{shown}: lines of more than {LINE} characters: {lines}"
    if cells and size != "made":
        yield f"{shown}: cells of more than {CELL} characters in the lines {cells}"


def main():
    rows = [line.split("#")[0].split() for line in STORE.read_text(encoding="utf-8").splitlines()]
    allowed, there = {row[0]: row[1] for row in rows if row}, pages()
    faults = [it for name, path in there.items() for it in (faults_of(path, allowed[name]) if name in allowed else [f"{path.relative_to(ROOT)}: no line in docs/BUDGET"])]
    faults += [f"docs/BUDGET: there is no page {name}" for name in allowed if name not in there]
    if faults:
        sys.exit("\n".join(faults))


main()
