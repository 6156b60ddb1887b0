"""What the targets share: the programs, their runs, and promises that do not hold."""
import os
import pathlib
import re
import subprocess

ROOT = pathlib.Path(__file__).resolve().parent.parent.parent
# Seconds of the clock for one run.
TIMEOUT = float(os.environ.get("TIMEOUT", "60"))
# What is before each line on standard error.
NAMED = re.compile(rb"omf-[a-z]+: ")
# What `omf-link` lets pass with these options, and its lines of that on standard error.
ALLOW_ALL = [it for kind in ("overlap", "align", "group", "frame", "near", "twice") for it in ("--allow", kind)]
ALLOWED = re.compile(rb'(?:(?:(?:overlap|align|group|frame|near): |twice ").*\n)*')
NAME = rb'"((?:[ !#-\[\]-~]|\\x[0-9A-F]{2})*)"'


class Broken(Exception):
    """A promise that does not hold."""


def promised(holds, text):
    if not holds:
        raise Broken(text)


def program(crate):
    """The program of a crate: by its variable, as built, or built without proofs."""
    named, built = os.environ.get(crate.upper()), ROOT / "crates" / crate / "out" / crate
    if named or built.exists():
        return named or str(built)
    made = subprocess.run([ROOT / "tests" / "unproved.sh", crate], check=True, stdout=subprocess.PIPE, text=True)
    return str(ROOT / made.stdout.strip())


def told_of(done):
    """The lines on the standard error without the program's name, which is before each; after a usage error before the first."""
    lines = done.stderr.splitlines(keepends=True)
    promised(done.returncode == 2 or all(NAMED.match(it) for it in lines), f"a line without the program's name: {done.stderr[-200:]}")
    return b"".join(NAMED.sub(b"", it) for it in lines)


def run(command, input=b"", folder=None):
    """The status of a program, and its output; where the status is not 0, also the lines of its faults."""
    try:
        done = subprocess.run(command, input=input, stdout=subprocess.PIPE, stderr=subprocess.PIPE, cwd=folder, timeout=TIMEOUT, close_fds=False)
    except subprocess.TimeoutExpired:
        raise Broken(f"{' '.join(command)}: no end in {TIMEOUT:.0f} seconds") from None
    told = told_of(done)
    warned = done.returncode or (ALLOWED.fullmatch(told) if "--allow" in command else not told)
    promised(done.returncode in (0, 1, 2, 3) and warned, f"{' '.join(command)}: status {done.returncode} {told[-200:]}")
    promised(all(it == 10 or 32 <= it < 127 for it in done.stdout + told), f"{' '.join(command)}: control characters")
    return done.returncode, done.stdout + told if done.returncode else done.stdout


def parts_of(text, names):
    """What was printed of each file, after the line with its name."""
    parts, rest = [], text
    for name in reversed(names):
        rest, mark, part = rest.rpartition(name)
        promised(mark, f"no line {name}")
        parts.append(part)
    promised(rest == b"", "a text before the first name")
    return parts[::-1]
