"""Runs a program under bench/launch.c, which prints its processor time and its peak of memory."""
import collections
import os
import pathlib
import shutil
import subprocess
import sys
import tempfile

BENCH = pathlib.Path(__file__).resolve().parent.parent
# What was measured of an input: the program with its task, the name of the input, the processor time as a ratio to `sha256sum` of the same bytes,
# megabytes at the peak, bytes of the input and bytes written. hostile.py reads them.
Found = collections.namedtuple("Found", "task name ratio peak size written")
FOUND = []


def program(variable, name):
    """The path of a program that a variable names, or that is on the path; runs are in other folders."""
    asked = os.environ.get(variable, name)
    return os.path.abspath(shutil.which(asked) or asked)


def built(folder):
    """The launcher, compiled into the folder."""
    launch = str(pathlib.Path(folder) / "launch")
    subprocess.run(["cc", "-O1", "-o", launch, BENCH / "launch.c"], check=True)
    return launch


def once(launch, command, limit, given=None, folder=None, look=None):
    """Milliseconds of processor time, megabytes of memory at its peak, bytes on standard output and the status; None where a run takes over `limit`
    seconds. `given` is the file for standard input, `folder` the one to run in; `look` sees each part of the output."""
    with tempfile.TemporaryFile() as out, open(given or os.devnull, "rb") as source:
        done = subprocess.run(["timeout", str(limit), launch, *command], cwd=folder, stdin=source, stdout=out, stderr=subprocess.PIPE, check=False)
        written = out.seek(0, os.SEEK_END)
        if done.returncode == 124:
            return None
        if done.returncode == 127:
            sys.exit(f"{command[0]} does not run")
        if look:
            out.seek(0)
            for part in iter(lambda: out.read(1 << 20), b""):
                look(part)
        time, peak = done.stderr.split()[-2:]
        return float(time), int(peak) / 1024, written, done.returncode
