#!/usr/bin/env python3
"""Tries the page in headless Chromium: main.py PAGE.html [FOLDER..]

Compares what its programs print with what the native programs print (OMF, OMF_DUMP, OMF_PLACE and OMF_LIB name them), over examples/ and the
folders. Then opens files as a person does: each file and each example (opening.py), and what a person does with them (acts.py).
"""
import base64
import hashlib
import json
import pathlib
import sys
import tempfile

import acts
import opening
from chromium import Tab
from shared import ROOT, STATE, Tries, modules, native, printed

RUN = """(async asked => {
  const answers = [];
  for (const { program, words, bytes } of asked) {
    const answer = await page.engine.ask("run", { program, words, bytes: fromBase64(bytes) });
    answers.push([answer.status, answer.output.length, sha256(answer.output)]);
  }
  return answers;
})"""


def cases(file, data):
    """The runs that are compared for a file: program, arguments, standard input."""
    if data[:1] == b"\xF0":
        return [("omf_lib", ["list", "-"], data), ("omf_lib", ["check", "-"], data), ("omf_dump", [], data), ("omf_dump", ["--json"], data)]
    own = file.with_suffix(".place")
    place = own.read_bytes() if own.exists() else printed("omf_place", ["--real"], data)
    return [("omf", ["check"], data), ("omf", ["check", "--refuse-vendor-comments"], data), ("omf", ["list"], data), ("omf", ["canon"], data),
            ("omf", ["reloc"], data + place), ("omf", ["reloc"], data + b"S 10000 real\n"), ("omf_place", ["--real"], data), ("omf_place", [], data),
            ("omf_place", ["--base", "7C00", "--flat", "8"], data), ("omf_dump", ["--json", "--data", "16"], data), ("omf_dump", [], data)]


def compare(tab, tries, file):
    """The answers of the page's programs and of the native ones for a file. Returns how many differ, and how many there are."""
    runs, failed = cases(file, file.read_bytes()), len(tries.failed)
    asked = [{"program": program, "words": words, "bytes": base64.b64encode(given).decode()} for program, words, given in runs]
    for (program, words, given), answer in zip(runs, tab.value(f"{RUN}({json.dumps(asked)})")):
        status, text = native(program, tuple(words), given)
        tries.see(f"{file} {program} {' '.join(words)}", answer, [status, len(text), hashlib.sha256(text).hexdigest()])
    return len(tries.failed) - failed, len(runs)


def each_file(tab, tries, files):
    counts = [0, 0]
    for file in files:
        counts = [sum(it) for it in zip(counts, compare(tab, tries, file))]
        opening.file(tab, tries, file)
    print(f"{len(files)} files, {counts[1]} answers of the page's programs: {counts[0]} differences", flush=True)


def main(page, *folders):
    tries = Tries()
    with tempfile.TemporaryDirectory(prefix="omf-page-test-") as work, Tab(pathlib.Path(page).resolve().as_uri(), folder=work) as tab:
        tab.until(f"{STATE} === 'done'", 300)
        opening.first_sight(tab, tries)
        each_file(tab, tries, modules([ROOT / "examples", *folders]))
        opening.examples(tab, tries)
        acts.all_of(tab, tries, pathlib.Path(work))
        tries.see("requests to a network", tab.requests(), [])
        tries.see("faults of the page", tab.faults(), [])
        acts.policy(tab, tries)
        tab.close()
        tries.see("requests in the browser's log at its end", tab.logged(), [])
    print(f"{tries.done} tries, {len(tries.failed)} failed")
    return 1 if tries.failed else 0


if __name__ == "__main__":
    sys.exit(main(*sys.argv[1:]))
