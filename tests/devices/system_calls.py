#!/usr/bin/env python3
"""Programs whose reads and writes fail: each call in turn fails, and each is interrupted 999 and 1,000 times (strace).

usage: tests/devices/system_calls.py [WORD]     (only the runs whose name has WORD)

Each run is first made as it is. Then each call of the program that opens, reads, writes, closes, links, renames or removes a file fails once, the
first, the second and so on. What must hold: the status is 3, or the run is as without a failure; a file that is there under its name is whole; none
but FILE.tmp is there else, and that only where it could not be removed. Where a read or a write is interrupted 999 times in a row the run
is as without; at 1,000 the status is 3, or the run is as without. The calls of the loader are passed over. OMF, OMF_DUMP, OMF_FIND, OMF_LIB, OMF_LINK
and OMF_PLACE name the programs.
The status is 0 where every promise held."""
import pathlib
import re
import shutil
import subprocess
import sys
import tempfile

sys.path.insert(0, str(pathlib.Path(__file__).resolve().parent.parent / "fuzz"))
from promises import ROOT, program, promised  # noqa: E402

FAILURES = {"openat": "EACCES", "read": "EIO", "write": "ENOSPC", "close": "EIO", "linkat": "EIO", "rename": "EIO", "renameat": "EIO", "unlinkat": "EIO",
            "link": "EIO", "unlink": "EIO"}
PATIENCE = 999
EXAMPLES = ROOT / "examples"
THREE = ["start.obj", "say.obj", "mark.obj"]
RUNS = [("omf check", "omf", ["check"], "first.omf"), ("omf list", "omf", ["list"], "first.omf"), ("omf reloc", "omf", ["reloc"], "placed"),
        ("omf canon", "omf", ["canon"], "first.omf"), ("omf-place", "omf_place", ["--real", "first.omf"], None),
        ("omf-dump", "omf_dump", ["first.omf", "small.lib"], None), ("omf-dump --json", "omf_dump", ["--json"], "first.omf"),
        ("omf-lib list", "omf_lib", ["list", "small.lib"], None), ("omf-lib check", "omf_lib", ["check", "-"], "small.lib"),
        ("omf-lib find", "omf_lib", ["find", "small.lib", "_gets"], None), ("omf-lib get", "omf_lib", ["get", "small.lib", "-d", "made", "--numbered"], None),
        ("omf-lib make", "omf_lib", ["make", "-o", "made/x.lib", "say.obj", "mark.obj"], None),
        ("omf-lib canon", "omf_lib", ["canon", "-o", "made/x.lib", "small.lib"], None),
        ("omf-link exe", "omf_link", ["exe", "-o", "made/x.exe", "--map", "made/x.map", "main.obj", "show.obj", "report.obj", "small.lib"], None),
        ("omf-link com", "omf_link", ["com", "-o", "made/x.com", "hello.obj", "say2.obj"], None),
        ("omf-link image", "omf_link", ["image", *THREE, "-t", "program.link"], None), ("omf-link map", "omf_link", ["map"], "linked"),
        ("omf-link bin", "omf_link", ["bin", "--base", "7C00", "--size", "200", "-o", "made/x.bin", *THREE, "-t", "program.link"], None),
        ("omf-link draft", "omf_link", ["draft", "--real", "-o", "made/x.link", *THREE], None),
        ("omf-find", "omf_find", ["find.exe", "main.obj", "report.obj", "small.lib"], None), ("omf-find --json", "omf_find", ["--json", "find.exe", "main.obj"], None)]


class Job:
    """A run of a program in a folder of its own: what it prints and the files that it makes."""

    def __init__(self, folder, name, crate, words, input_):
        self.folder, self.name, self.words, self.input = folder, name, [program(crate), *words], input_
        self.calls, self.front = self.count()
        self.wanted = self.run([])

    def run(self, front):
        """The status, the standard output and the files."""
        shutil.rmtree(self.folder / "made", ignore_errors=True)
        (self.folder / "made").mkdir()
        input_ = (self.folder / self.input).open("rb") if self.input else subprocess.DEVNULL
        done = subprocess.run([*front, *self.words], cwd=self.folder, stdin=input_, stdout=subprocess.PIPE, stderr=subprocess.DEVNULL, timeout=60)
        return done.returncode, done.stdout, {it.name: it.read_bytes() for it in (self.folder / "made").iterdir()}

    def traced(self, inject=None):
        """A run under strace, and the lines of its calls."""
        trace = self.folder / "trace"
        words = ["strace", "-qq", "-o", str(trace), "-e", "trace=" + ",".join(FAILURES), *(["-e", f"inject={inject}"] if inject else [])]
        return self.run(words), trace.read_text(errors="replace").splitlines()

    def count(self):
        """How many calls of each kind the program makes, and how many came before its first own: those of the loader."""
        lines = self.traced()[1]
        files = [it for it in self.words[1:] if "." in it]
        own = re.compile(r"\((0|1), |" + "|".join(re.escape(f'"{it}') for it in files)) if files else re.compile(r"\((0|1), ")
        first = next(number for number, line in enumerate(lines) if own.search(line))
        counted = {call: [line.startswith(f"{call}(") for line in lines] for call in FAILURES}
        return {call: sum(it) for call, it in counted.items()}, {call: sum(it[:first]) for call, it in counted.items()}

    def is_whole(self, files, may_leave):
        """Whether each file is that of the run without a failure, apart from a FILE.tmp."""
        made = self.wanted[2]
        return all(made.get(name) == bytes_ or (may_leave and name.endswith(".tmp")) for name, bytes_ in files.items())

    def fail_each(self):
        """Each call fails once. Returns how many did."""
        tried = 0
        for call, error in FAILURES.items():
            for number in range(self.front[call] + 1, self.calls[call] + 1):
                (status, printed, files), lines = self.traced(f"{call}:error={error}:when={number}")
                removed = not any("unlink" in it and "INJECTED" in it for it in lines)
                promised(self.is_whole(files, not removed), f"{self.name}: {call} {number} failed: {sorted(files)}")
                promised(status == 3 or (status, printed, files) == self.wanted, f"{self.name}: {call} {number} failed: status {status}, {printed[-200:]}")
                tried += 1
        return tried

    def interrupt_each(self):
        """Each read and write is interrupted 999 times, and once more. Returns how many were, and how many of these ended the run."""
        tried = ended_so = 0
        for call in ("read", "write"):
            for number in range(self.front[call] + 1, self.calls[call] + 1):
                ended, _ = self.traced(f"{call}:error=EINTR:when={number}..{number + PATIENCE - 1}")
                promised(ended == self.wanted, f"{self.name}: {call} {number} interrupted {PATIENCE} times: status {ended[0]}, {ended[1][-200:]}")
                ended, _ = self.traced(f"{call}:error=EINTR:when={number}..{number + PATIENCE}")
                gave_up = ended[0] == 3 and self.is_whole(ended[2], False)
                promised(gave_up or ended == self.wanted, f"{self.name}: {call} {number} interrupted {PATIENCE + 1} times: status {ended[0]}")
                tried, ended_so = tried + 1, ended_so + gave_up
        return f"{tried} interrupted, {ended_so} of them given up"


def fill(folder):
    """The inputs: examples, a module with its placement, and modules with their text."""
    names = ["first.omf", "library/small.lib", "com/hello.obj", *(f"exe/{it}.obj" for it in ("main", "show", "report")), *(f"link/{it}" for it in THREE), "link/program.link"]
    for name in names:
        shutil.copy(EXAMPLES / name, folder / pathlib.Path(name).name)
    shutil.copy(EXAMPLES / "com" / "say.obj", folder / "say2.obj")
    (folder / "placed").write_bytes((EXAMPLES / "first.omf").read_bytes() + (EXAMPLES / "first.place").read_bytes())
    subprocess.run([program("omf_link"), "exe", "-o", "find.exe", "main.obj", "show.obj", "report.obj"], cwd=folder, check=True)
    (folder / "linked").write_bytes(b"".join((folder / it).read_bytes() for it in [*THREE, "program.link"]))


def main():
    if not shutil.which("strace"):
        print("skipped: strace is not installed")
        return
    wanted = sys.argv[1] if len(sys.argv) > 1 else ""
    with tempfile.TemporaryDirectory() as made:
        folder = pathlib.Path(made)
        fill(folder)
        for name, *rest in (it for it in RUNS if wanted in it[0]):
            job = Job(folder, name, *rest)
            promised(job.wanted[0] == 0, f"{name}: status {job.wanted[0]}, {job.wanted[1][:200]}")
            print(f"{name}: {job.fail_each()} calls failed in turn, {job.interrupt_each()}", flush=True)


if __name__ == "__main__":
    main()
