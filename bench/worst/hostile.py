"""The column `Ratio` of the table of docs/HOSTILE.md: of each task the input of all the other tables that takes the most processor time beside
`sha256sum` of its bytes.

An input with LIDATAs is left out, since they cost what they expand to; so is one of which more than MOST_WRITTEN times its bytes are written. The
inputs that take over MOST times are named, with the ratio of each. The status is 1 where one of these is not in EXPECTED."""
import pathlib
import re
import sys

import running

PAGE = running.BENCH.parent / "docs" / "HOSTILE.md"
HEAD = "| Task | Ratio |"
MOST, MOST_WRITTEN = 10, 30
# A row, by its first cell: the tasks that it is about.
ROWS = {
    "`omf check`": ["omf check"],
    "`omf list`": ["omf list"],
    "`omf canon`": ["omf canon"],
    "`omf reloc`": ["omf reloc"],
    "`omf-place`": ["omf-place"],
    "`omf-link exe`, `com`": ["omf-link exe"],
    "`omf-link lower`": ["omf-link lower"],
    "`omf-link image`": ["omf-link image"],
    "`omf-link draft`": ["omf-link draft"],
    "`omf-dump`": ["omf-dump"],
    "`omf-dump --json`": ["omf-dump --json"],
    "`omf-lib list`": ["omf-lib list"],
    "`omf-lib check`": ["omf-lib check"],
    "`omf-lib get`": ["omf-lib get"],
    "`omf-lib make`, `canon`": ["omf-lib make", "omf-lib canon"],
    "`omf-find`": ["omf-find"],
}
LIDATA = {"`omf reloc`", "`omf-link exe`, `com`", "`omf-find`"}
# What takes longer, and why that is accepted.
EXPECTED = {
    "n aliases that lead through 60 others": "each external takes up to 64 look-ups",
    "n aliases of one public": "each external takes two look-ups, and sha256sum reads 300 KB",
    "n names that nothing defines": "a line is written for each",
    "n communals of names of their own": "1.3 microseconds each, and sha256sum reads 16 bytes of each",
    "n COMDATs": "each looks over all before it",
    "a COMDAT continued n times": "each looks over all before it",
    "n data records and items of a BAKPAT": "each looks over all before it",
}


def counted(found):
    return [it for it in found if "LIDATA" not in it.name and it.written <= MOST_WRITTEN * it.size]


def ratio(row, found):
    """The cell of a row."""
    mine = sorted((it for it in counted(found) if it.task in ROWS[row]), key=lambda it: -it.ratio)
    if not mine:
        return None
    over = [it for it in mine if it.ratio > MOST]
    shown = [f"{it.ratio:.0f} ({it.name.removeprefix('n ')})" for it in over] or [f"{mine[0].ratio:.1f}"]
    return ", ".join(shown) + (", and no bound with LIDATA" if row in LIDATA else "")


def written(text, found):
    """The page with these ratios."""
    lines, inside = [], False
    for line in text.splitlines(keepends=True):
        inside = line.startswith(HEAD) or inside and line.startswith("|")
        cells = line.split(" | ")
        new = ratio(cells[0][2:], found) if inside and cells[0][2:] in ROWS else None
        lines.append(" | ".join([cells[0], new, *cells[2:]]) if new else line)
    return "".join(lines)


def report(write):
    """Prints the table; writes it into the page if that is asked for. The status."""
    print("\n| Task | Ratio | At the input | Memory | Bytes | Written |\n|---|---|---|---|---|---|")
    for task in dict.fromkeys(it.task for it in running.FOUND):
        most = max((it for it in counted(running.FOUND) if it.task == task), key=lambda it: it.ratio, default=None)
        if most:
            print(f"| {task} | {most.ratio:.1f} | {most.name} | {most.peak:.0f} MB | {most.size:,} | {most.written:,} |")
    text = PAGE.read_text(encoding="utf-8")
    missing = [row for row in ROWS if not re.search(rf"^\| {re.escape(row)} \|", text, re.M)]
    if missing:
        print(f"{PAGE.name} has no row for {', '.join(missing)}", file=sys.stderr)
    if write:
        PAGE.write_text(written(text, running.FOUND), encoding="utf-8")
    others = [it for it in counted(running.FOUND) if it.ratio > MOST and it.name not in EXPECTED]
    for it in others:
        print(f"{it.task}, {it.name}: {it.ratio:.1f} times sha256sum", file=sys.stderr)
    return 1 if others else 0
