#!/usr/bin/env python3
"""Runs the programs in a sandbox with what docs/HOSTILE.md lists, and no more: sandbox.py [WORD]   (only the runs whose name has WORD)

The runs are in tests/devices/system_calls.py. Each is made as it is, and again under bubblewrap (Debian: bubblewrap): without a network,
other processes, an environment and rights; with the program, the libraries of the system, its inputs to read, and a folder to write into only where it
has outputs. `omf` sees no file but the loader's. A filter of system calls (seccomp) ends a run at any call but those below: so none starts a
program or a thread, or opens a socket. The status, what is printed and the files must be the same.

With a C compiler it is shown first that the sandbox refuses what it must: a socket, a process, a file of another folder, a write to an input.
Without bubblewrap nothing is tried. OMF, OMF_DUMP, OMF_FIND, OMF_LIB, OMF_LINK and OMF_PLACE name the programs. The status is 0 where every promise held."""
import pathlib
import shutil
import struct
import subprocess
import sys
import tempfile

import system_calls
from promises import promised

# Calls by their numbers on x86-64. What the loader makes before a program begins; what the run-time checks of an unproved program make more.
LOADER = {"execve": 59, "openat": 257, "close": 3, "read": 0, "pread64": 17, "fstat": 5, "newfstatat": 262, "access": 21, "mmap": 9, "mprotect": 10, "munmap": 11,
          "arch_prctl": 158, "set_tid_address": 218, "set_robust_list": 273, "rseq": 334, "prlimit64": 302, "getrandom": 318}
CHECKS = {"rt_sigprocmask": 14, "sigaltstack": 131, "clock_gettime": 228, "getpid": 39, "readlink": 89, "readlinkat": 267, "madvise": 28, "futex": 202}
# What a program makes: memory, reading, writing, ignoring the signal of a closed pipe, the end; with files also looking at names, and whether there is a terminal; with outputs also giving and removing names.
MEMORY = {"brk": 12, "mmap": 9, "mremap": 25, "munmap": 11, "madvise": 28}
STREAMS = {"read": 0, "write": 1, "lseek": 8, "rt_sigaction": 13, "exit": 60, "exit_group": 231}
FILES = {"ioctl": 16, "openat": 257, "close": 3, "statx": 332, "newfstatat": 262, "fstat": 5, "readlink": 89}
OUTPUTS = {"link": 86, "linkat": 265, "unlink": 87, "unlinkat": 263, "rename": 82, "renameat": 264, "fchmod": 91, "chmod": 90, "ftruncate": 77}
X86_64, KILL, ALLOW = 0xC000003E, 0x80000000, 0x7FFF0000
LIBRARIES = [it for it in ("/lib", "/lib64", "/usr/lib", "/usr/lib64", "/etc/ld.so.cache") if pathlib.Path(it).exists()]
CONTROL = """
#include <fcntl.h>
#include <stdio.h>
#include <stdlib.h>
#include <sys/socket.h>
#include <unistd.h>
int main(int count, char **words) {
    int way = atoi(words[1]);
    if (way == 1) return socket(AF_INET, SOCK_STREAM, 0) < 0;
    if (way == 2) return fork() < 0;
    return open(words[2], way == 3 ? O_RDONLY : O_WRONLY) < 0 ? 9 : 0;
}
"""


def filter_of(calls):
    """A filter that ends the process at any other call (struct sock_filter): the architecture, then the number of the call."""
    lines = [(0x20, 0, 0, 4), (0x15, 1, 0, X86_64), (0x06, 0, 0, KILL), (0x20, 0, 0, 0)]
    for number in sorted(set(calls.values())):
        lines += [(0x15, 0, 1, number), (0x06, 0, 0, ALLOW)]
    return b"".join(struct.pack("<HBBI", *it) for it in [*lines, (0x06, 0, 0, KILL)])


class Box:
    """A sandbox for one program in one folder."""

    def __init__(self, folder, program, has_files, has_outputs):
        self.folder, self.program, self.has_files, self.has_outputs = folder, program, has_files, has_outputs
        calls = LOADER | MEMORY | STREAMS | (FILES if has_files else {}) | (OUTPUTS if has_outputs else {})
        self.filter = pathlib.Path(f"{folder}.filter")
        self.filter.write_bytes(filter_of(calls | (CHECKS if "/unproved/" in program else {})))

    def front(self):
        """What comes before the words of the program."""
        words = ["--unshare-all", "--as-pid-1", "--die-with-parent", "--new-session", "--clearenv", "--cap-drop", "ALL"]
        words += [it for path in LIBRARIES for it in ("--ro-bind", path, path)]
        words += ["--ro-bind", self.program, self.program, "--seccomp", "10"]
        if self.has_files:
            words += ["--ro-bind", str(self.folder), "/box", "--chdir", "/box"]
        if self.has_outputs:
            words += ["--bind", str(self.folder / "made"), "/box/made"]
        return ["bash", "-c", 'exec 10< "$0"; exec bwrap "$@"', str(self.filter), *words]


class Boxed(system_calls.Job):
    """A run that is made as it is, and in a sandbox."""

    def __init__(self, folder, name, crate, words, input_):
        self.folder, self.name, self.input = folder, name, input_
        program = str(pathlib.Path(shutil.which(system_calls.program(crate)) or system_calls.program(crate)).absolute())
        self.words = [program, *words]
        self.box = Box(folder, program, crate != "omf", any(it.startswith("made") for it in words))

    def compare(self):
        wanted, found = self.run([]), self.run(self.box.front())
        promised(wanted[0] == 0, f"{self.name}: status {wanted[0]}, {wanted[1][:200]}")
        promised(found == wanted, f"{self.name}: in the sandbox status {found[0]}, {found[1][:200]}, files {sorted(found[2])}; without it {wanted[0]}, {sorted(wanted[2])}")


def controls(folder):
    """What the sandbox refuses: the number of tries."""
    source, program = folder / "control.c", str(folder / "control")
    source.write_text(CONTROL)
    subprocess.run(["cc", "-O1", "-o", program, str(source)], check=True)
    box = Box(folder, program, True, False)
    tries = [("an input", ["3", "first.omf"], {0}), ("a socket", ["1"], {-31, 159}), ("a process", ["2"], {-31, 159}),
             ("a file of another folder", ["3", str(system_calls.ROOT / "README.md")], {9}), ("a write to an input", ["4", "first.omf"], {9})]
    for name, words, wanted in tries:
        done = subprocess.run([*box.front(), program, *words], cwd=folder, stdin=subprocess.DEVNULL, capture_output=True, timeout=60, check=False)
        promised(done.returncode in wanted, f"{name}: status {done.returncode}, wanted {sorted(wanted)}: {done.stderr.decode()[-200:]}")
    return len(tries)


def main():
    if not shutil.which("bwrap"):
        print("skipped: bubblewrap is not installed")
        return
    if subprocess.run(["bwrap", "--unshare-all", "--ro-bind", "/", "/", "true"], capture_output=True, check=False).returncode:
        print("skipped: bubblewrap may not make a sandbox here")
        return
    wanted, tried = sys.argv[1] if len(sys.argv) > 1 else "", 0
    with tempfile.TemporaryDirectory() as made:
        folder = pathlib.Path(made) / "box"
        folder.mkdir()
        system_calls.fill(folder)
        print(f"{controls(folder)} controls" if shutil.which("cc") else "not run: the controls, there is no C compiler")
        for run in (it for it in system_calls.RUNS if wanted in it[0]):
            Boxed(folder, *run).compare()
            print(f"{run[0]}: the same in the sandbox", flush=True)
            tried += 1
    print(f"{tried} runs in a sandbox")


if __name__ == "__main__":
    main()
