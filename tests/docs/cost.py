#!/usr/bin/env python3
"""What the gate costs: runs `rt ci`, which proves everything from nothing, and sums the processor time of its proofs by crate.

usage: tests/docs.py cost FILE [--of PID]
  Writes lines `CRATE PROOF EDITS` to FILE, in seconds, anew every few seconds; `tests/docs.py house --write --times FILE` makes the table of
  docs/INDEX.md of them. PROOF is the proof of the crate, its tests and its programs; EDITS is all that its must-fail edits took.
  --of PID: watches a run that is there already, and starts none.

Processor time depends on what else a machine does, so let it do nothing else. Compare two trees on one machine on one day."""
import os
import pathlib
import subprocess
import sys
import time

from tree import ROOT, crates

TICK = os.sysconf("SC_CLK_TCK")


def processes():
    """Each process: its parent, its start, and its processor time in seconds."""
    found = {}
    for entry in pathlib.Path("/proc").iterdir():
        if entry.name.isdigit():
            try:
                fields = (entry / "stat").read_text().rpartition(") ")[2].split()
            except OSError:
                continue
            found[int(entry.name)] = (int(fields[1]), fields[19], (int(fields[11]) + int(fields[12])) / TICK)
    return found


def below(root, found):
    """The processes that a process started, and those that these started."""
    children = {}
    for pid, (parent, _, _) in found.items():
        children.setdefault(parent, []).append(pid)
    left = [root]
    while left:
        pid = left.pop()
        yield pid
        left += children.get(pid, [])


def crate_and_kind(pid):
    """The crate that a process of the prover works on, and whether it tries an edit: `rt ci` does that over a kept check."""
    try:
        words = pathlib.Path(f"/proc/{pid}/cmdline").read_text().split("\0")
    except OSError:
        return None
    if "--crate-name" not in words:
        return None
    return words[words.index("--crate-name") + 1], "--incremental" in words


def gate():
    """The gate from nothing. A kit whose `rt ci` keeps what earlier runs proved has the flag `--anew`; any other proves all each time."""
    said = subprocess.run(["rt", "help"], stdout=subprocess.PIPE, stderr=subprocess.STDOUT, errors="replace").stdout
    return ["rt", "ci", "--anew"] if "--anew" in said else ["rt", "ci"]


def write(path, seen):
    times = {name: [0.0, 0.0] for name in crates()}
    for found, seconds in seen.values():
        if found and found[0] in times:
            times[found[0]][found[1]] += seconds
    lines = [f"{name} {proof:.0f} {edits:.0f}\n" for name, (proof, edits) in times.items()]
    path.write_text("".join(lines), encoding="utf-8")
    return sum(sum(pair) for pair in times.values())


def main(words):
    if len(words) not in (1, 3) or (len(words) == 3 and words[1] != "--of"):
        sys.exit(__doc__)
    path = pathlib.Path(words[0])
    run = None if len(words) == 3 else subprocess.Popen(gate(), cwd=ROOT)
    root = run.pid if run else int(words[2])
    seen, total = {}, 0.0
    while run.poll() is None if run else os.path.exists(f"/proc/{root}"):
        found = processes()
        for pid in below(root, found):
            if pid in found:
                _, start, seconds = found[pid]
                old = seen.get((pid, start))
                seen[pid, start] = ((old and old[0]) or crate_and_kind(pid), seconds)
        total = write(path, seen)
        time.sleep(0.5)
    print(f"{total:.0f} s of processor time, {total / 60:.0f} minutes")
    sys.exit(run.returncode if run else 0)


main(sys.argv[1:])
