#!/usr/bin/env python3
"""Programs that write files, on a full disk and killed: no file of the asked name is there that is not whole.

usage: tests/devices/disk.py [KILLS]

A disk of 64 KB is mounted (tmpfs, which needs root), and filled. Then a program is killed KILLS times (100), each a little later in its run, and the
files that are there then have their whole content or are not there; FILE.tmp may be left. With strace it is also killed at each call that opens, writes,
closes, links, renames or removes a file. At last members are taken whose names would leave the folder or control a terminal, and programs are linked
of modules that ask for libraries by such names. OMF_LIB and OMF_LINK name the programs. The status is 0 where every promise held."""
import os
import pathlib
import shutil
import subprocess
import sys
import tempfile
import time

sys.path.insert(0, str(pathlib.Path(__file__).resolve().parent.parent / "fuzz"))
from libraries import library, module, record  # noqa: E402
from promises import program, promised  # noqa: E402

LIB, LINK = program("omf_lib"), program("omf_link")
CALLS = ("openat", "write", "close", "link", "linkat", "rename", "renameat", "renameat2", "unlink", "unlinkat")
NAMES = (b"..\\x", b"/etc/x", b"a\x1bb", b"../x", b"..", b".", b"", b"x/../../y", b"-d", b"a\0b", b"a\nb", b"~",
         b"$(touch z)", b"con", b"A" * 250, b"\xff" * 255)


def large_module(name, size, front=0):
    """A main module with that many bytes of data after the front, and a start there."""
    data = b"".join(record(0xA0, b"\x01" + at.to_bytes(2, "little") + bytes(range(256)) * 4) for at in range(front, front + size, 1024))
    segment = record(0x98, b"\x60" + (front + size).to_bytes(2, "little") + b"\x02\x01\x01")
    return record(0x80, bytes([len(name)]) + name) + record(0x96, b"\0\x01T") + segment + data + record(0x8A, b"\xC1\x00\x01\x01" + front.to_bytes(2, "little"))


def run(words, folder, status):
    done = subprocess.run(words, cwd=folder, capture_output=True, timeout=60)
    promised(done.returncode in status, f"{words[1:]}: status {done.returncode}, {(done.stdout + done.stderr)[:200]}")
    return done


def on_full_disk(folder, jobs):
    """Each job on a disk with room for none of it, for half of it, and for all of it: a file is whole or not there, and no FILE.tmp is left."""
    for name, words, made in jobs:
        for left in (0, 8192, 20480, 60000):
            disk = folder / "disk"
            disk.mkdir(exist_ok=True)
            subprocess.run(["mount", "-t", "tmpfs", "-o", "size=64k", "tmpfs", disk], check=True)
            try:
                (disk / "fill").write_bytes(bytes(max(0, 65536 - left)))
                done = run(words, folder, (0, 3) if left < 60000 else (0,))
                found = {it: (disk / it).read_bytes() for it in os.listdir(disk) if it != "fill"}
                promised(not any(it.endswith(".tmp") for it in found), f"{name}: {sorted(found)}")
                promised(all(made.get(it) == bytes_ for it, bytes_ in found.items()), f"{name}: a file that is not whole, with {left} bytes left")
                promised(done.returncode == 3 or found.keys() == made.keys(), f"{name}: status 0, files {sorted(found)}")
                print(f"{name}, {left} bytes free: status {done.returncode}, {len(found)} of {len(made)} files")
            finally:
                subprocess.run(["umount", disk], check=True)


def when_killed(folder, jobs, kills):
    """Each job is killed a little later each time."""
    disk = folder / "disk"
    for name, words, made in jobs:
        begun = time.monotonic()
        for it in os.listdir(disk):
            (disk / it).unlink()
        run(words, folder, (0,))
        span, whole, left = time.monotonic() - begun, 0, 0
        for number in range(kills):
            for it in os.listdir(disk):
                (disk / it).unlink()
            one = subprocess.Popen(words, cwd=folder, stdout=subprocess.DEVNULL)
            time.sleep(1.2 * span * number / kills)
            one.kill()
            one.wait()
            found = {it: (disk / it).read_bytes() for it in os.listdir(disk)}
            promised(all(made[it] == bytes_ for it, bytes_ in found.items() if not it.endswith(".tmp")), f"{name}: a file that is not whole after a kill")
            whole, left = whole + (found.keys() >= made.keys()), left + any(it.endswith(".tmp") for it in found)
        print(f"{name}, killed {kills} times: {whole} times all files, {left} times a .tmp file, never a part of one")


def when_killed_at_calls(folder, jobs):
    """Each job is killed at each call of these kinds: at the first, at the second and so on, until it ends by itself (strace)."""
    disk = folder / "disk"
    for name, words, made in jobs:
        kills = 0
        for call in CALLS:
            number, status = 0, 1
            while status != 0:
                number += 1
                for it in os.listdir(disk):
                    (disk / it).unlink()
                trace = ["strace", "-f", "-qq", "-o", os.devnull, "-e", f"inject={call}:signal=SIGKILL:when={number}"]
                status = subprocess.run([*trace, *words], cwd=folder, stdout=subprocess.DEVNULL, stderr=subprocess.DEVNULL).returncode
                found = {it: (disk / it).read_bytes() for it in os.listdir(disk) if not it.endswith(".tmp")}
                promised(all(made[it] == bytes_ for it, bytes_ in found.items()), f"{name}: a file that is not whole, killed at {call} {number}")
            kills += number - 1
        print(f"{name}, killed at each of {kills} calls: never a part of a file")


def with_names(folder):
    """Members with such names: each file is directly in the folder, and what is printed has no control character."""
    outer, inner = folder / "outer", folder / "outer" / "inner"
    inner.mkdir(parents=True)
    (folder / "names.lib").write_bytes(library([(module(it), ()) for it in NAMES]))
    done = run([LIB, "get", "names.lib", "-d", "outer/inner"], folder, (0, 1, 3))
    promised(os.listdir(outer) == ["inner"] and all((inner / it).is_file() and b"\x1b" not in os.fsencode(it) for it in os.listdir(inner)), "files outside")
    promised(all(it == 10 or 32 <= it < 127 for it in done.stdout + done.stderr), "a control character")
    promised(not os.path.exists("/etc/x") and not os.path.exists("/etc/x.obj"), "a file in /etc")
    print(f"{len(NAMES)} names: {len(os.listdir(inner))} files in the folder, none outside, status {done.returncode}")


def with_asked_libraries(folder):
    """A module asks for a library by such names (COMENT 9FH). None outside of the folder is read, and what is printed has no control character."""
    outer, inner = folder / "asked", folder / "asked" / "inner"
    inner.mkdir(parents=True)
    found = library([(module(b"found", [b"f"]), [b"f"])])
    front = record(0x80, b"\x01A") + record(0x96, b"\0\x01T\x05STACK") + record(0x98, b"\x28\x04\0\x02\x01\x01") + record(0x98, b"\x74\x10\0\x03\x01\x01")
    back = record(0x8C, b"\x01f\0") + record(0xA0, b"\x01\0\0\x9A\0\0\0") + record(0x9C, b"\xC4\x01\x56\x01") + record(0x8A, b"\xC1\0\x01\x01\0\0")
    (outer / "out.lib").write_bytes(found)
    for name in (b"../out.lib", b"../out", os.fsencode(outer / "out.lib"), b"inner/../../out.lib", *NAMES):
        (inner / "main.obj").write_bytes(front + record(0x88, b"\0\x9F" + name[:255]) + back)
        done = run([LINK, "exe", "-o", "p.exe", "main.obj"], inner, (1,))
        promised(done.stdout == b"" and done.stderr.startswith(b'omf-link: undefined "f"'), f"{name}: {done.stderr[:200]}")
        promised(all(it == 10 or 32 <= it < 127 for it in done.stdout + done.stderr), "a control character")
        promised(os.listdir(inner) == ["main.obj"], f"{name}: {os.listdir(inner)}")
    (inner / "out.lib").write_bytes(found)
    (inner / "main.obj").write_bytes(front + record(0x88, b"\0\x9Fout") + back)
    run([LINK, "exe", "-o", "p.exe", "main.obj"], inner, (0,))
    print(f"{len(NAMES) + 4} names of libraries: none outside of the folder was read")


def main():
    kills = int(sys.argv[1]) if len(sys.argv) > 1 else 100
    with tempfile.TemporaryDirectory() as made:
        folder = pathlib.Path(made)
        seeds = [large_module(b"m%d" % it, 16384) for it in range(2)]
        for number, bytes_ in enumerate(seeds):
            (folder / f"{number}.obj").write_bytes(bytes_)
        (folder / "com.obj").write_bytes(large_module(b"com", 16384, 256))
        (folder / "disk").mkdir()
        (folder / "two.lib").write_bytes(library([(it, ()) for it in seeds]))
        jobs = [("omf-lib get", [LIB, "get", "two.lib", "-d", "disk", "--numbered"]), ("omf-lib make", [LIB, "make", "-o", "disk/x.lib", "0.obj", "1.obj"]),
                ("omf-lib canon", [LIB, "canon", "-o", "disk/x.lib", "two.lib"]), ("omf-link exe", [LINK, "exe", "-o", "disk/x.exe", "0.obj"]),
                ("omf-link com", [LINK, "com", "-o", "disk/x.com", "com.obj"]),
                ("omf-link bin", [LINK, "bin", "--base", "0", "--size", "8000", "-t", "text", "-o", "disk/x.bin", "0.obj"])]
        (folder / "text").write_text("M #1\nS #1 0 0 0\n")
        tried = []
        for name, words in jobs:
            run(words, folder, (0,))
            disk = folder / "disk"
            tried.append((name, words, {it: (disk / it).read_bytes() for it in os.listdir(disk)}))
            for it in os.listdir(disk):
                (disk / it).unlink()
        when_killed(folder, tried, kills)
        if shutil.which("strace"):
            when_killed_at_calls(folder, tried)
        with_names(folder)
        with_asked_libraries(folder)
        if os.geteuid() == 0:
            on_full_disk(folder, tried)
        else:
            print("the full disk was left out: only root mounts one")


if __name__ == "__main__":
    main()
