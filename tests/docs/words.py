#!/usr/bin/env python3
"""Counts words that this project's English does without, so that they do not come back.

words.py          compares with tests/docs/words.txt: status 1 where a count has grown
words.py --set    stores the counts
words.py --show   prints each place

Counted are the documents (README.md, docs/, man/, examples/, include/, the scripts) and the comments of the crates' sources. docs/CALLS.md, docs/BELIEVE.md and
docs/REFUSALS.md, which are made from these, are left out, and so are the tables that tests/docs/house.py makes, tests/docs/words.py and tests/docs/words.txt.
"""
import pathlib
import re
import sys

from tree import CRATES, ROOT, crates

STORE = ROOT / "tests" / "docs" / "words.txt"
# Each with what is written instead.
WORDS = {
    "behind": ("after, following", r"\bbehind\b"),
    "stands": ("is, is at, has", r"\b(?:stands?|stood|standing)\b"),
    "says": ("shows, names, is", r"(?<![/.$\"'\w-])(?:says?|said|saying)\b(?![\w]*[.\"'=:]\S)"),
    "tells": ("shows, reports, names", r"\b(?:tells?|told|telling)\b"),
    "want of": ("out of, too little", r"\bwant of\b"),
    "so many": ("n", r"\bso many\b"),
    "low byte first": ("little-endian", r"\b(?:low|high) byte first\b"),
    "lies": ("is at", r"(?<![`:.])\b(?:lies|lay|lying)\b"),
    "alike": ("shared, the same", r"\balike\b"),
    "words are not understood": ("usage error", r"\bwords? (?:\w+ ){0,3}(?:not )?understood\b"),
    "one behind another": ("one after another", r"\bone behind (?:another|the other)\b"),
    "leads to": ("points to", r"\bleads to\b"),
    "turn over": ("convert", r"\bturn(?:s|ed)? .{0,20}\bover\b"),
}
# The same of the documents alone.
DOCUMENTS = {"that of": ("the noun again, or another verb", r"\b(?:that|those) of\b")}
COMMENT = re.compile(r"(?:^|\s)(?:///|//!|//|--)\s(.*)")
# What is read of a file of code: its comments.
CODE = {".sh": r"(?:^|\s)#\s(.*)", ".py": r"(?:^|\s)(?:#\s|\"\"\")(.*)|^([A-Z][^=]*)$", ".c": r"(?:^|\s)(?:/?\*)\s(.*)", ".asm": r";\s(.*)"}


def documents():
    yield from (ROOT / name for name in ("README.md", "CHANGELOG.md", "CONTRIBUTING.md", "Makefile", ".ci/run", "crates.txt"))
    for folder in ("docs", "man", "examples", "include", "tests", "bench"):
        for path in sorted((ROOT / folder).rglob("*")):
            known = path.suffix in (".md", ".1", ".h", ".in", ".sh", ".py", ".c", ".asm", ".place", ".link")
            if path.is_file() and known and path.name not in ("CALLS.md", "BELIEVE.md", "REFUSALS.md", "words.py", "words.txt"):
                yield path


def texts():
    """Each place of a text: its part (documents or a crate), its file, the number of its line, the text."""
    for path in documents():
        if path.exists():
            made = False
            for number, line in enumerate(path.read_text(encoding="utf-8").splitlines(), 1):
                made = line.startswith("<!-- house.py") or made and line != "<!-- end -->"
                if made:
                    continue
                code = re.search(CODE[path.suffix], line) if path.suffix in CODE else None
                if path.suffix not in CODE or code:
                    yield "documents", path, number, next(it for it in code.groups() if it) if code and any(code.groups()) else line
    for crate in crates():
        for path in sorted((CRATES / crate).rglob("*")):
            if path.suffix not in (".rt", ".antt") or "out" in path.relative_to(CRATES / crate).parts:
                continue
            for number, line in enumerate(path.read_text(encoding="utf-8").splitlines(), 1):
                comment = COMMENT.search(line)
                if comment:
                    yield crate, path, number, comment[1]


def counts(show=False):
    found = {}
    for part, path, number, text in texts():
        for word, (_, pattern) in (WORDS | (DOCUMENTS if part == "documents" else {})).items():
            times = len(re.findall(pattern, text, re.I))
            if times:
                found[part, word] = found.get((part, word), 0) + times
                if show:
                    print(f"{path.relative_to(ROOT)}:{number}: {word}: {text.strip()[:140]}")
    return found


def stored():
    found = {}
    for line in STORE.read_text(encoding="utf-8").splitlines() if STORE.exists() else []:
        count, part, word = line.split(None, 2)
        found[part, word] = int(count)
    return found


def main():
    if sys.argv[1:] == ["--show"]:
        counts(show=True)
        return
    now = counts()
    if sys.argv[1:] == ["--set"]:
        STORE.write_text("".join(f"{now[it]} {it[0]} {it[1]}\n" for it in sorted(now)), encoding="utf-8")
        return
    before = stored()
    grown = [(it, before.get(it, 0), now[it]) for it in sorted(now) if now[it] > before.get(it, 0)]
    for (part, word), old, new in grown:
        print(f"{part}: '{word}' {new} times, {old} before; write: {(WORDS | DOCUMENTS)[word][0]}")
    if grown:
        sys.exit("tests/docs.py words --show names the places")


main()
