#!/usr/bin/env python3
"""Runs a program against the cases of crates/omf_cases/stdin; README.md has their form, and how an adapter answers.

CALL is the front of a call, as `omf`, `omf check` or `omf-link map`. COMMAND runs the cases whose call begins with
these words: it is split as a shell does, and the words of the call that are left are its last arguments, or are where
it has {args}. The input comes on standard input, or in a file, whose name is where COMMAND has {input}. Where several
CALLs fit a case, the longest is taken. What is compared is the standard output; or, where that is empty and the status is
not 0, the standard error without the program's name before each line. A usage error there is compared by its status alone.

Each case that goes wrong is one line, by its line in the file, and a line with the rule above it. Then comes a summary.
The status is 0 where all cases that were run are right, and at least one was run; 1 where one is wrong; 2 where the
arguments or the file are not understood."""
import argparse
import collections
import pathlib
import re
import shlex
import subprocess
import sys
import tempfile
import time

CASES = pathlib.Path(__file__).resolve().parent.parent / "crates" / "omf_cases" / "stdin"
CANNOT, CRASHED = 77, 124
Case = collections.namedtuple("Case", "line rule name call input status printed")


def stop(text):
    print(text, file=sys.stderr)
    sys.exit(2)


def text_of(field):
    """A text: `/` is a line feed, and `%` with two hexadecimal digits is a byte."""
    front, *parts = field.replace("/", "\n").split("%")
    return front.encode() + b"".join(bytes([int(it[:2], 16)]) + it[2:].encode() for it in parts)


def bytes_of(field):
    """Bytes in hexadecimal; `BYTES*N` is N times these."""
    parts = (it.partition("*") for it in field.split())
    return b"".join(bytes.fromhex(digits) * int(times or 1) for digits, _, times in parts)


def case_of(number, rule, line):
    name, call, records, text, status, printed = (it.strip() for it in line.split("|"))
    words = ["" if it == '""' else it for it in call.split(" ")]
    wanted = bytes_of(printed[4:]) if printed.startswith("hex ") else text_of(printed)
    return Case(number, rule, name, words, bytes_of(records) + text_of(text), int(status), wanted)


def cases_of(path):
    rule, was_rule = "", False
    for number, line in enumerate(path.read_text(encoding="utf-8").split("\n"), 1):
        if line.startswith("#"):
            rule, was_rule = f"{rule} {line[2:]}" if was_rule else line[2:], True
        elif line:
            was_rule = False
            try:
                yield case_of(number, rule, line)
            except ValueError as error:
                stop(f"{path}: line {number}: {error}")


def command_of(word):
    call, equals, command = word.partition("=")
    if not equals or not call.split() or not command.split():
        stop(f"no CALL=COMMAND: {word}")
    return call.split(), shlex.split(command)


def command_for(case, commands, is_exact):
    """The words of the command that runs a case, or None."""
    for call, command in sorted(commands, key=lambda it: -len(it[0])):
        left = case.call[len(call) :]
        if case.call[: len(call)] == call and not (is_exact and left):
            at = command.index("{args}") if "{args}" in command else len(command)
            return [*command[:at], *left, *command[at + 1 :]]
    return None


def run(case, command, seconds):
    """Runs a case, and returns the status and the output, or None where it took too long."""
    with tempfile.TemporaryDirectory() as folder:
        path = pathlib.Path(folder) / "input.obj"
        path.write_bytes(case.input)
        words = [it.replace("{input}", str(path)) for it in command]
        given = b"" if words != command else case.input
        try:
            ended = subprocess.run(words, input=given, timeout=seconds, capture_output=True)
        except subprocess.TimeoutExpired:
            return None
        except OSError as error:
            stop(f"{words[0]} does not start: {error.strerror}")
    return ended.returncode, ended.stdout or said(ended)


def said(ended):
    """The faults of a program that prints them on standard error, without its name, which is before each; None for how it is called."""
    if ended.returncode in (0, CANNOT) or ended.returncode >= CRASHED:
        return b""
    return None if ended.returncode == 2 and ended.stderr else re.sub(rb"(?m)^[a-z][a-z-]*: ", b"", ended.stderr)


def is_same(printed, wanted):
    """Whether the output is the wanted one; after a line `only R S ..`, by the lines that begin with these words."""
    first, _, rest = printed.partition(b"\n")
    only, *kinds = first.split() or [b""]
    if only == b"only":
        return rest.splitlines() == [it for it in wanted.splitlines() if it.split(b" ")[0] in kinds]
    return printed == wanted


def difference(case, ended, compared):
    """What differs from what the case wants, or None."""
    if ended is None:
        return "it took too long"
    status, printed = ended
    is_verdict = compared == "verdict" and 0 <= status < CRASHED
    if (status == 0) != (case.status == 0) if is_verdict else status != case.status:
        return f"status {status}, wanted {case.status}"
    if compared == "all" and printed is not None and not is_same(printed, case.printed):
        return f"printed {printed[:120]!r}, wanted {case.printed[:120]!r}"
    return None


def in_turn(cases, first, seconds):
    """The cases; or those from a number on, after the last the first again, for that many seconds, but none twice."""
    begun, at = time.monotonic(), 0
    while at < len(cases) and (first is None or time.monotonic() - begun < seconds):
        yield cases[((first or 1) - 1 + at) % len(cases)]
        at += 1
    if first is not None:
        print(f"seeds {first} to {first + at - 1}")


def run_all(cases, commands, given):
    counts = collections.Counter()
    for case in in_turn(cases, given.first, given.slice):
        command = command_for(case, commands, given.exact)
        ended = run(case, command, given.seconds) if command else (CANNOT, b"")
        found = difference(case, ended, given.compare)
        kind = "wrong" if found else "right"
        if ended and ended[0] == CANNOT:
            kind = "cannot" if command else "not run"
        counts[kind] += 1
        if kind == "wrong":
            print(f"line {case.line}: {case.name}: {found}\n    rule: {case.rule}")
    print(", ".join(f"{counts[it]} {it}" for it in ("right", "wrong", "cannot", "not run")))
    return 1 if counts["wrong"] or not (counts["right"] or given.first) else 0


def write_all(cases, folder):
    pathlib.Path(folder).mkdir(parents=True, exist_ok=True)
    for number, case in enumerate(cases, 1):
        args = "".join(f"{it}\n" for it in case.call).encode()
        parts = {"name": f"{case.name}\n".encode(), "args": args, "input": case.input}
        parts.update(status=f"{case.status}\n".encode(), printed=case.printed)
        for ending, content in parts.items():
            (pathlib.Path(folder) / f"{number:04}.{ending}").write_bytes(content)
    print(f"{len(cases)} cases in {folder}")


def main():
    parser = argparse.ArgumentParser(description=__doc__, formatter_class=argparse.RawDescriptionHelpFormatter)
    add = parser.add_argument
    add("commands", nargs="*", metavar="CALL=COMMAND")
    add("--exact", action="store_true", help="only the cases whose call is exactly a CALL, with no more words")
    add("--compare", choices=["all", "status", "verdict"], default="all", help="verdict: whether the status is 0")
    add("--name", default="", help="only the cases whose name has this word")
    add("--cases", type=pathlib.Path, default=CASES, help="other cases")
    add("--seconds", type=float, default=10, help="how long a case may take")
    add("--first", type=int, help="begin with the case of this number, for the time of --slice")
    add("--slice", type=float, default=60, help="seconds of the cases from --first on (60)")
    add("--calls", action="store_true", help="print how many cases each call has, and run nothing")
    add("--write", metavar="FOLDER", help="write NUMBER.name, .args, .input, .status and .printed, and run nothing")
    given = parser.parse_args()
    if not given.cases.is_file():
        stop(f"no such file: {given.cases}")
    cases = [it for it in cases_of(given.cases) if given.name in it.name]
    if given.calls:
        tasks = (" ".join(it for it in case.call[:2] if re.fullmatch("[a-z][a-z-]*", it)) for case in cases)
        for task, count in sorted(collections.Counter(tasks).items()):
            print(f"{count:5} {task}")
    if given.write:
        write_all(cases, given.write)
    if given.calls or given.write:
        return 0
    if not given.commands:
        parser.error("no CALL=COMMAND")
    return run_all(cases, [command_of(it) for it in given.commands], given)


if __name__ == "__main__":
    sys.exit(main())
