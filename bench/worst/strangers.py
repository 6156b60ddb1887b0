"""Inputs of a stranger for omf-link exe: COMDATs of one name, chains of aliases, and LIDATAs of 2^28 bytes with a fixup.

Each input has two sizes, n and 2n. A run may take SECONDS of processor time (120) and MEGABYTES of memory (2,000). The memory is watched, since
programs built without proofs don't run under `ulimit -v`. The table has the bytes of the larger input, the processor time at 2n as a ratio to
that at n (less a run without files), that time, the peaks of memory, the status, or the limit that ended the run, and the first fault line."""
import os
import pathlib
import resource
import signal
import struct
import subprocess
import tempfile
import time

from linker import FRONT, LINK, archive, main_module, module, name_of, record
import running

SECONDS = int(os.environ.get("SECONDS", "120"))
MEGABYTES = int(os.environ.get("MEGABYTES", "2000"))
NO_MATCH, PICK_ANY, SAME_SIZE, EXACT = range(4)
FAR_CODE, END = 1, record(0x8A, b"\0")
MOST_BYTES = 1 << 28
NAMES = record(0x96, b"\0\x01f\x04CODE")


def comdat(selection, data=b"\x90\xC3"):
    return NAMES + record(0xC2, bytes([0, selection << 4 | FAR_CODE, 1, 0, 0, 0, 2]) + data)


def comdats(count, selection):
    """A file of modules, each with a COMDAT `f`."""
    return [main_module(b"f"), (record(0x80, b"\x01m") + comdat(selection) + END) * count]


def needed_member(number, count):
    """A member that defines a name of its own, asks for the next one's, and has a COMDAT `f`."""
    after = [name_of(number + 1)] if number + 1 < count else []
    own = module(name_of(number), [name_of(number)], after)[:-len(END)]
    return own + record(0x96, b"\x01f") + record(0xC2, bytes([0, PICK_ANY << 4 | FAR_CODE, 1, 0, 0, 0, 4]) + b"\x90\xC3") + END


def needed_members(count):
    return [main_module(name_of(0), b"f"), archive([needed_member(it, count) for it in range(count)])]


def other_members(count):
    """Members with a COMDAT `f`, of which the first is enough."""
    return [main_module(b"f"), archive([record(0x80, b"\x01m") + comdat(PICK_ANY) + END] * count)]


def alias(number, after):
    name, other = name_of(number), name_of(after)
    return record(0xC6, bytes([len(name)]) + name + bytes([len(other)]) + other)


def chain(count, asked):
    """Aliases in one module, each for the next and the last for a public, and these names asked for, 32,000 in a module."""
    aliases = b"".join(alias(it, it + 1) for it in range(count))
    askers = [module(b"asker", externals=[name_of(it) for it in asked[first:first + 32_000]]) for first in range(0, len(asked), 32_000)]
    return [main_module(), b"".join(askers), record(0x80, b"\x01a") + aliases + END, module(b"last", [name_of(count)])]


def chain_of_members(count):
    """Members of one alias each, for the next one's."""
    made = [record(0x80, b"\x01a") + alias(it, it + 1) + END for it in range(count)]
    return [main_module(name_of(0)), archive(made), module(b"last", [name_of(count)])]


def circle(count):
    aliases = b"".join(alias(it, (it + 1) % count) for it in range(count))
    return [main_module(name_of(0)), record(0x80, b"\x01a") + aliases + END]


def repeated(size, blocks, within):
    """A segment of 32 bits with an LIDATA of these blocks, and a fixup of 32 bits at an offset in their text."""
    segment = record(0x99, b"\x29" + struct.pack("<I", size) + b"\x02\x02\x01")
    data = record(0xA3, b"\x01\0\0\0\0" + blocks)
    return [record(0x80, b"\x01m") + FRONT + segment + data + record(0x9D, struct.pack(">H", 0xE400 | within) + b"\x54\x01") + record(0x8A, b"\xC1\x00\x01\x01\x00\x00")]


def block(times, content):
    return struct.pack("<IHB", times, 0, len(content)) + content


def copies(count):
    """Blocks of four bytes, each with the fixup."""
    return repeated(4 * count, block(count, bytes(4)), 7)


def distant_copies(count):
    """512 bytes this many times, of which the first four have the fixup."""
    return repeated(512 * count, struct.pack("<IH", count, 2) + block(1, bytes(4)) + block(127, bytes(4)), 13)


def one_copy(size):
    """Four bytes with the fixup, and others without."""
    return repeated(size, block(1, bytes(4)) + block((size - 4) // 4, bytes(4)), 7)


SHAPES = {
    "n modules, COMDATs of one name, any": (lambda n: comdats(n, PICK_ANY), 32_500),
    "n modules, COMDATs of one name and size": (lambda n: comdats(n, SAME_SIZE), 32_500),
    "n modules, COMDATs of one name, the same": (lambda n: comdats(n, EXACT), 32_500),
    "n modules, COMDATs of one name, no match": (lambda n: comdats(n, NO_MATCH), 32_500),
    "a library of n members, all needed, COMDATs of one name": (needed_members, 32_500),
    "a library of n members, one needed, COMDATs of one name": (other_members, 32_500),
    "a chain of n aliases, the first is asked for": (lambda n: chain(n, range(1)), 32_500),
    "a chain of n aliases, all are asked for": (lambda n: chain(n, range(n)), 32_500),
    "a chain of n aliases, each in a member": (chain_of_members, 32_500),
    "a circle of n aliases": (circle, 32_500),
    "an LIDATA of n bytes, a fixup in each four": (lambda n: copies(n // 4), MOST_BYTES // 2),
    "an LIDATA of n bytes, a fixup in each 512": (lambda n: distant_copies(n // 512 - 8), MOST_BYTES // 2),
    "an LIDATA of n bytes, a fixup in one place": (one_copy, MOST_BYTES // 2),
}


def limit_time():
    resource.setrlimit(resource.RLIMIT_CPU, (SECONDS, SECONDS))


def own_process(launch):
    """The process that the launcher has started; none before."""
    with open(f"/proc/{launch.pid}/task/{launch.pid}/children") as it:
        found = it.read().split()
    return int(found[0]) if found else None


def megabytes(process):
    with open(f"/proc/{process}/statm") as it:
        return int(it.read().split()[1]) * resource.getpagesize() / (1 << 20)


def watch(launch):
    """Waits for a run, and ends it at the limit of memory; whether it did."""
    while launch.poll() is None:
        try:
            process = own_process(launch)
            if process and megabytes(process) > MEGABYTES:
                os.kill(process, signal.SIGKILL)
                launch.wait()
                return True
        except (OSError, IndexError):
            pass
        time.sleep(0.01)
    return False


def run(launcher, words, folder):
    """The processor time in milliseconds, the peak in megabytes, the status, or which limit ended the run, and the first fault line."""
    with tempfile.TemporaryFile() as faults:
        launch = subprocess.Popen([launcher, *words], cwd=folder, stdout=subprocess.DEVNULL, stderr=faults, preexec_fn=limit_time)
        is_large = watch(launch)
        line, used, peak = texts(faults)
    status = f"over {MEGABYTES:,} MB" if is_large else f"over {SECONDS} s" if launch.returncode == 128 else launch.returncode
    return float(used), int(peak) / 1024, status, line


def texts(faults):
    """The beginning of the first fault line, and what the launcher has written after all lines."""
    size = faults.seek(0, os.SEEK_END)
    faults.seek(0)
    first = faults.read(120).decode(errors="replace").split("\n")[0]
    faults.seek(max(0, size - 100))
    last = faults.read().decode(errors="replace").splitlines()[-1].split()
    return first.removeprefix("omf-link: ") if first.split() != last else "", *last


def show(name, folder, launcher):
    make, count = SHAPES[name]
    found = []
    for size in (count, 2 * count):
        own = folder / str(size)
        own.mkdir()
        files = make(size)
        for number, bytes_ in enumerate(files):
            (own / f"{number}.o").write_bytes(bytes_)
        found.append(run(launcher, [LINK, "exe", "-o", "out.exe", *[f"{it}.o" for it in range(len(files))]], own))
    empty = run(launcher, [LINK, "--version"], folder)[0]
    (small, low, _, _), (most, high, status, line) = found
    growth = max(most - empty, 0.1) / max(small - empty, 0.1)
    print(f"| {name} | {2 * count:,} | {sum(map(len, files)):,} | {growth:.2f} | {most:,.0f} ms | {low:.0f}, {high:.0f} MB | {status} | {line} |", flush=True)


def table(part):
    print("| Input | 2n | Bytes | Growth | Time | Memory at n, 2n | Status | First line |\n|---|---|---|---|---|---|---|---|")
    for name in SHAPES:
        if part in name:
            with tempfile.TemporaryDirectory() as made:
                show(name, pathlib.Path(made), running.built(made))
