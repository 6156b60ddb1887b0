#!/usr/bin/env python3
"""Writes the pages and tables that are made from the sources, and checks the pages.

docs.py --write       writes docs/CALLS.md, docs/BELIEVE.md, docs/REFUSALS.md, the tables of docs/INDEX.md and completions/ (`make docs`)
docs.py --check       compares these with the sources, and checks the pages: status 1 where one fails
docs.py PART WORD..   runs one part: calls, believe, house, clauses, links, words, version, budget, options, cost. tests/docs/PART.py has its words
"""
import pathlib
import subprocess
import sys

PARTS = pathlib.Path(__file__).resolve().parent / "docs"
WRITTEN = (["calls"], ["believe"], ["house", "--write"], ["options", "--write"])
CHECKED = (["calls", "--check"], ["believe", "--check"], ["house", "--check"], ["links"], ["words"], ["version"], ["clauses", "--check"], ["budget"], ["options", "--check"])
NAMES = {words[0] for words in CHECKED} | {"cost"}


def run(name, *words):
    """Whether a part ended well."""
    return subprocess.run([sys.executable, str(PARTS / f"{name}.py"), *words], check=False).returncode == 0


def main():
    words = sys.argv[1:]
    if words in (["--write"], ["--check"]):
        ended = [run(*part) for part in (WRITTEN if words == ["--write"] else CHECKED)]
    elif words and words[0] in NAMES:
        ended = [run(*words)]
    else:
        sys.exit(__doc__)
    return 0 if all(ended) else 1


if __name__ == "__main__":
    sys.exit(main())
