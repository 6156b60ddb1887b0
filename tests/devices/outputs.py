#!/usr/bin/env python3
"""Outputs with names that are something already: a device, a pipe, a link, a file that may not be written, an input, the text, a response file, or the
other output.

usage: tests/devices/outputs.py

No program may destroy a file by `-o`, `--map` or `--symbols`. An output that is an input or another output is refused with status 2 and a line, before anything
is read, and all files stay as they are; whatever else is there is written into, or replaced as a whole, and keeps its mode. A device node is made
where the user may make one (root). OMF_LIB and OMF_LINK name the programs. The status is 0 where every promise held."""
import os
import pathlib
import shutil
import stat
import subprocess
import sys
import tempfile

sys.path.insert(0, str(pathlib.Path(__file__).resolve().parent.parent / "fuzz"))
from promises import ROOT, program, promised  # noqa: E402

LIB, LINK = program("omf_lib"), program("omf_link")
EXAMPLES = ROOT / "examples"
NAMES = ["library/small.lib", "com/hello.obj", *(f"exe/{it}.obj" for it in ("main", "show", "report")), *(f"link/{it}.obj" for it in ("start", "say", "mark")), "link/program.link"]
EXE = ["exe", "main.obj", "show.obj", "report.obj", "small.lib"]
THREE = ["start.obj", "say.obj", "mark.obj"]
BIN = ["bin", "--base", "7C00", "--size", "200", "-t", "program.link", *THREE]


class Folder:
    """A folder with the inputs: what is in it before a run, and after."""

    runs = 0

    def __init__(self, path):
        self.path = path
        for name in NAMES:
            shutil.copy(EXAMPLES / name, path / pathlib.Path(name).name)

    def state(self):
        """Each name: its kind and mode, and the bytes or the target."""
        found = {}
        for it in self.path.iterdir():
            how = it.lstat().st_mode
            found[it.name] = how, os.readlink(it) if stat.S_ISLNK(how) else it.read_bytes() if stat.S_ISREG(how) else None
        return found

    def run(self, words, input=None, user=None, output=subprocess.PIPE):
        self.runs += 1
        input = subprocess.DEVNULL if input is None else (self.path / input).open("rb")
        return subprocess.run(words, cwd=self.path, stdin=input, stdout=output, stderr=subprocess.PIPE, timeout=60, user=user)

    def fails(self, words, status, error=b"", **how):
        """A run that ends so, with this on the standard error and nothing on the output, and leaves all as it was."""
        before, done = self.state(), self.run(words, **how)
        promised(done.returncode == status and not done.stdout and error in done.stderr, f"{words[1:]}: status {done.returncode}, {done.stderr[:200]}")
        promised(self.state() == before, f"{words[1:]}: files changed: {sorted(self.state().items() ^ before.items())[:2]}")

    def passes(self, words, made=(), **how):
        """A run that is done, and changes no name but these."""
        before, done = self.state(), self.run(words, **how)
        promised(done.returncode == 0, f"{words[1:]}: status {done.returncode}, {(done.stdout or b'')[:200]}, {done.stderr[:200]}")
        after = self.state()
        changed = {it for it in before.keys() | after.keys() if before.get(it) != after.get(it)}
        promised(changed == set(made), f"{words[1:]}: changed {sorted(changed)}")
        return done.stdout


def refused(folder):
    """Outputs that are an input, by any name of it, or one another."""
    (folder.path / "link.obj").symlink_to("main.obj")
    os.link(folder.path / "main.obj", folder.path / "hard.obj")
    (folder.path / "sub").symlink_to(".")
    (folder.path / "new.link").symlink_to("new.exe")
    for name in ("main.obj", "./main.obj", ".//main.obj", "sub/main.obj", str(folder.path / "main.obj"), "link.obj", "hard.obj", "small.lib"):
        told = b'omf-link: "%s" is an input and an output\n' % name.encode()
        folder.fails([LINK, *EXE, "-o", name], 2, told)
        folder.fails([LINK, *EXE, "-o", "p.exe", "--map", name], 2, told)
    for name in (*THREE, "program.link", "sub/program.link"):
        folder.fails([LINK, *BIN, "-o", name], 2, b'omf-link: "%s" is an input and an output\n' % name.encode())
    for one, other in (("p.exe", "p.exe"), ("p.exe", "./p.exe"), ("p.exe", "sub/p.exe"), ("new.exe", "new.link"), ("new.link", "new.exe"), ("-", "-")):
        folder.fails([LINK, *EXE, "-o", one, "--map", other], 2, b'omf-link: "%s" is two outputs\n' % other.encode())
    folder.fails([LINK, "draft", "-o", "start.obj"], 2, b'omf-link: "start.obj" is an input and an output\n', input="start.obj")
    with (folder.path / "start.obj").open("ab") as end:
        folder.fails([LINK, "draft", "-o", "-", "start.obj"], 2, b'omf-link: "-" is an input and an output\n', output=end)
    for task, name in (("make", "say.obj"), ("make", "sub/say.obj"), ("canon", "small.lib")):
        folder.fails([LIB, task, "-o", name, pathlib.Path(name).name], 2, b'omf-lib: "%s" is an input and an output\n' % name.encode())
    (folder.path / "bin.lnk").write_text(" ".join(BIN))
    (folder.path / "make.lnk").write_text("make say.obj")
    for name in ("bin.lnk", "sub/bin.lnk"):
        folder.fails([LINK, "@bin.lnk", "-o", name], 2, b'omf-link: "%s" is an input and an output\n' % name.encode())
    folder.fails([LIB, "@make.lnk", "-o", "make.lnk"], 2, b'omf-lib: "make.lnk" is an input and an output\n')
    print("inputs, the text, a response file and two outputs of one name: refused, all files as before")


def asked_libraries(folder):
    """A library that a module asks for, and that is found, is an input too."""
    def record(kind, contents):
        front = bytes([kind]) + (len(contents) + 1).to_bytes(2, "little") + contents
        return front + bytes([-sum(front) % 256])

    asks = record(0x80, b"\x01A") + record(0x88, b"\0\x9Fsmall") + record(0x96, b"\0\x01T\x05STACK") + record(0x98, b"\x28\x01\0\x02\x01\x01")
    asks += record(0x98, b"\x74\x10\0\x03\x01\x01") + record(0xA0, b"\x01\0\0\xF4") + record(0x8A, b"\xC1\0\x01\x01\0\0")
    (folder.path / "asks.obj").write_bytes(asks)
    folder.fails([LINK, "exe", "-o", "small.lib", "asks.obj"], 2, b'omf-link: "small.lib" is an input and an output\n')
    folder.passes([LINK, "exe", "-o", "asks.exe", "asks.obj"], ["asks.exe"])
    print("a library that a module asks for: refused as an output")


def written_into(folder):
    """Devices, pipes and the standard output."""
    wanted = (folder.path / "p.exe").read_bytes()
    promised(folder.passes([LINK, *EXE, "-o", "-"]) == wanted, "-o -: other bytes")
    promised(folder.passes([LINK, *EXE, "-o", "/dev/stdout"]) == wanted, "-o /dev/stdout: other bytes")
    folder.passes([LINK, *EXE, "-o", "-", "--map", "m"], ["m"])
    promised(folder.passes([LINK, *EXE, "-o", "q.exe", "--map", "-"], ["q.exe"]) == (folder.path / "m").read_bytes(), "--map -: another map")
    promised(folder.passes([LINK, *BIN, "-o", "-"]) == folder.passes([LINK, *BIN]), "bin -o -: other bytes")
    promised(folder.passes([LIB, "make", "-o", "-", "say.obj"])[:1] == b"\xF0", "make -o -: no library")
    folder.passes([LIB, "get", "small.lib", "-d", ".", "--numbered"], ["0.obj", "1.obj"])
    whole = folder.passes([LIB, "make", "-o", "-", "say.obj", "small.lib"])
    promised(whole == folder.passes([LIB, "make", "-o", "-", "say.obj", "0.obj", "1.obj"]), "make of a library: other bytes than of its members")
    promised(folder.passes([LIB, "canon", "-o", "-", "small.lib"])[:1] == b"\xF0", "canon -o -: no library")
    folder.passes([LINK, *EXE, "-o", "/dev/null", "--map", "/dev/null"])
    folder.fails([LINK, *EXE, "-o", "/dev/full"], 3, b"No space left")
    folder.fails([LIB, "make", "-o", "/dev/null", "say.obj"], 1, b"it is there already")
    os.mkfifo(folder.path / "fifo")
    with subprocess.Popen(["cat", "fifo"], cwd=folder.path, stdout=subprocess.PIPE) as reader:
        folder.passes([LINK, *EXE, "-o", "fifo"])
        promised(reader.communicate(timeout=60)[0] == wanted, "fifo: other bytes")
    if os.geteuid() == 0:
        os.mknod(folder.path / "null", 0o666 | stat.S_IFCHR, os.makedev(1, 3))
        os.mknod(folder.path / "full", 0o666 | stat.S_IFCHR, os.makedev(1, 7))
        folder.passes([LINK, *EXE, "-o", "null"])
        folder.passes([LINK, *BIN, "-o", "null"])
        folder.fails([LINK, *EXE, "-o", "full"], 3, b"No space left")
        folder.fails([LIB, "make", "-o", "null", "say.obj"], 1, b"it is there already")
    print("devices, a pipe and the standard output: written into, and still there")


def replaced(folder):
    """Links are followed, modes and owners are kept, and what may not be written is not."""
    wanted = (folder.path / "p.exe").read_bytes()
    (folder.path / "target").write_bytes(b"old")
    (folder.path / "target").chmod(0o640)
    (folder.path / "to").symlink_to("target")
    (folder.path / "more").symlink_to(folder.path / "to")
    folder.passes([LINK, *EXE, "-o", "more"], ["target"])
    promised((folder.path / "target").read_bytes() == wanted and (folder.path / "target").stat().st_mode & 0o777 == 0o640, "through a link: other bytes, or another mode")
    if os.geteuid() == 0:
        os.chown(folder.path / "target", 65534, 65533)
        folder.passes([LINK, *EXE, "-o", "more"])
        how = (folder.path / "target").stat()
        promised((how.st_uid, how.st_gid, how.st_mode & 0o777) == (65534, 65533, 0o640), "through a link: another owner")
    (folder.path / "dangling").symlink_to("there")
    folder.passes([LINK, *EXE, "-o", "dangling"], ["there"])
    (folder.path / "round").symlink_to("round")
    folder.fails([LINK, *EXE, "-o", "round"], 3, b"round")
    folder.fails([LINK, *EXE, "-o", "no/such"], 3, b"No such file")
    (folder.path / "folder").mkdir()
    folder.fails([LINK, *EXE, "-o", "folder"], 3, b"folder")
    user = 65534 if os.geteuid() == 0 else None
    (folder.path / "kept").write_bytes(b"kept")
    (folder.path / "kept").chmod(0o444)
    folder.path.chmod(0o777)
    folder.fails([LINK, *EXE, "-o", "kept"], 3, b"Permission denied", user=user)
    folder.fails([LINK, *EXE, "-o", "a.exe", "--map", "kept"], 3, b"Permission denied", user=user)
    print("links are followed, modes and owners are kept; a file that may not be written is as before")


def all_or_none(folder):
    """Where the map or the symbols cannot be written the program is not, or the line names it."""
    for name in ("folder", "no/such", "round"):
        folder.fails([LINK, *EXE, "-o", "a.exe", "--map", name], 3, name.encode())
        folder.fails([LINK, *EXE, "-o", "target", "--map", name], 3, name.encode())
        folder.fails([LINK, *EXE, "-o", name, "--map", "a.map"], 3, name.encode())
        for names in ((name, "a.map", "a.sym"), ("a.exe", name, "a.sym"), ("target", "a.map", name)):
            folder.fails([LINK, *EXE, "-o", names[0], "--map", names[1], "--symbols", f"nm={names[2]}"], 3, name.encode())
    for one, other in (("x.tmp", "x"), ("x", "x.tmp")):
        before = folder.state()
        done = folder.run([LINK, *EXE, "-o", one, "--map", other])
        made = {it: made for it, (_, made) in folder.state().items() if it not in before}
        right = made == {one: (folder.path / "p.exe").read_bytes(), other: (folder.path / "m").read_bytes()}
        promised(right if done.returncode == 0 else done.returncode == 3 and not made, f"{one} and {other}: status {done.returncode}, {sorted(made)}")
        for it in made:
            (folder.path / it).unlink()
    done = folder.run([LINK, *EXE, "-o", "b.exe", "--map", "/dev/full"])
    promised(done.returncode == 3 and done.stderr.endswith(b'omf-link: "b.exe" is written\n'), f"--map /dev/full: {done.stderr[:200]}")
    promised((folder.path / "b.exe").read_bytes() == (folder.path / "p.exe").read_bytes(), "b.exe: other bytes")
    done = folder.run([LINK, *EXE, "-o", "c.exe", "--map", "c.map", "--symbols", "nm=/dev/full"])
    promised(done.returncode == 3 and done.stderr.endswith(b'omf-link: "c.exe" is written\nomf-link: "c.map" is written\n'), f"--symbols nm=/dev/full: {done.stderr[:200]}")
    promised((folder.path / "c.exe").read_bytes() == (folder.path / "p.exe").read_bytes(), "c.exe: other bytes")
    promised((folder.path / "c.map").read_bytes() == (folder.path / "m").read_bytes(), "c.map: other bytes")
    print("two or three outputs: all, none, or lines name those that are written")


def main():
    with tempfile.TemporaryDirectory() as made:
        folder = Folder(pathlib.Path(made).resolve())
        folder.path.chmod(0o755)
        refused(folder)
        folder.passes([LINK, *EXE, "-o", "p.exe"], ["p.exe"])
        for part in (asked_libraries, written_into, replaced, all_or_none):
            part(folder)
        print(f"{folder.runs} runs")


if __name__ == "__main__":
    main()
