#!/usr/bin/env python3
"""Compares the examples show.c and show.py with the programs: agree.py SHOW OMF OMF_DUMP MODULE..

SHOW is examples/c/show.c, compiled; LIBOMF names the shared library for Python. What both print of a module must be its segments and
fixups, made from the lines of `omf-dump --json`, and then the text of `omf reloc`. The placement of a MODULE is in MODULE.place.
"""
import json
import os
import subprocess
import sys

here = os.path.dirname(os.path.abspath(__file__))
python = os.path.join(here, "..", "..", "python")
LOCATIONS = {"low-byte": 0, "offset16": 1, "base": 2, "pointer16:16": 3, "high-byte": 4, "loader-offset16": 5, "offset32": 9, "pointer16:32": 11,
             "loader-offset32": 13}


def output(*words, stdin=b"", status=0):
    run = subprocess.run(words, input=stdin, stdout=subprocess.PIPE, stderr=subprocess.PIPE, env={**os.environ, "PYTHONPATH": python, "PYTHONIOENCODING": "latin-1"})
    if run.returncode != status:
        raise RuntimeError(f"{words[0]} ended with {run.returncode}: {run.stderr.decode()}")
    return run.stdout


def wanted(omf, dump, path):
    """The lines of a module, from the programs."""
    with open(path, "rb") as file:
        module = file.read()
    records = [json.loads(line) for line in output(dump, "--json", path).decode().splitlines()]
    lines, fixups, segment = [], [], 0
    for record in records:
        if record["record"] == "SEGDEF":
            lines.append(f"segment {record['segment']} {record['name'].get('name', '')}: {record['length']} bytes")
        if record["record"] in ("LEDATA", "LIDATA"):
            segment = record["segment"]["index"]
        if record["record"] == "FIXUPP":
            fixups += [
                f"fixup {segment}:{item['at']:04X} type {LOCATIONS[item['location']]} of {item['target'].get('name', '')}"
                for item in record["items"] if "location" in item]
    size = records[-1]["start"] + 3 + module[records[-1]["start"] + 1] + 256 * module[records[-1]["start"] + 2]
    with open(path + ".place", "rb") as file:
        image = output(omf, "reloc", stdin=module[:size] + file.read())
    return "".join(line + "\n" for line in lines + fixups).encode("latin-1") + image


show, omf, dump = sys.argv[1:4]
failures = 0
for path in sys.argv[4:]:
    by_programs = wanted(omf, dump, path)
    for name, is_ in (("C", output(show, path, path + ".place")),
                      ("Python", output(sys.executable, os.path.join(here, "..", "..", "examples", "python", "show.py"), path, path + ".place"))):
        if is_ != by_programs:
            print(f"{path}: {name} differs")
            failures += 1
print(f"examples: segments, fixups and image as the programs, on {len(sys.argv) - 4} modules")
sys.exit(failures > 0)
