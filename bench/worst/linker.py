"""The inputs that cost omf-link the most.

Each input has two sizes, n and 2n. For each run the table has the bytes of the larger input, the processor time at 2n as a ratio to that at n (less
a run without files), that time, also as a ratio to `sha256sum` of the same bytes, the peak of memory in megabytes, the bytes written and the
status. Each time is the best of RUNS runs (2)."""
import os
import pathlib
import struct
import sys
import tempfile

import running

sys.path.insert(0, str(running.BENCH.parent / "tests" / "fuzz"))
from libraries import BLOCK, library, record  # noqa: E402

LINK = running.program("OMF_LINK", "omf-link")
RUNS = int(os.environ.get("RUNS", "2"))
LIMIT_SECONDS = 120
FRONT = record(0x96, b"\x00\x04CODE\x05STACK")
SEGMENT = record(0x98, b"\x28\x01\x00\x02\x02\x01")
NO_DICTIONARY = bytes(BLOCK)


def module(name, publics=(), externals=(), start=False):
    """A module of a segment of one byte, with these publics and externals."""
    body = b"".join(record(0x90, b"\x00\x01" + bytes([len(it)]) + it + bytes(3)) for it in publics)
    body += b"".join(record(0x8C, bytes([len(it)]) + it + b"\0") for it in externals)
    data = record(0xA0, b"\x01\x00\x00\x90")
    return record(0x80, bytes([len(name)]) + name) + FRONT + SEGMENT + body + data + record(0x8A, b"\xC1\x00\x01\x01\x00\x00" if start else b"\x00")


def name_of(number, size=8):
    return (b"x" * (size - 8) + b"%08d" % number)[-255:]


def linked(number, count):
    return module(name_of(number), [name_of(number)], [name_of(number + 1)] if number + 1 < count else [])


def archive(members):
    return library([(it, ()) for it in members], blocks=NO_DICTIONARY)


def main_module(*externals):
    return module(b"main", externals=externals, start=True)


def chain_of_libraries(count, order=1):
    return [main_module(name_of(0)), *[archive([linked(it, count)]) for it in range(count)][::order]]


def chain_of_members(count, order=1):
    return [main_module(name_of(0)), archive([linked(it, count) for it in range(count)][::order])]


def not_needed(count):
    return [main_module(), *[archive([module(name_of(it), [name_of(it, 255)])] * 16) for it in range(count)]]


def many_names(count, size):
    names = [name_of(it, size) for it in range(count)]
    return [module(b"a", names, start=True), module(b"b", (), names)]


# What can be added to the 40 bytes of a name without a change of its number (crates/omf_names/specs/Names.antt); 3 is for nothing.
STEPS = """
4443534143334324531332323353334133343333
3224412433434333531423331435353343434333
3244545124324223334325223233214023343333
3433353232333135323255442221133124333333
2544233224443215331243424342253153243333
2134422452323453123324551414344324423333
5142234314224322435434234332314431343433
3413343132223222444345242132202125424343
4253345335324422032114335332424321343323
6443443123245222423234341331114113444333
2314235434414212353223214234332344333243
2442142323452124305253144321341433333333
4122523242314523352522542434425344233433
3231345243323524352315534432314231334423
4231142332354225523344343434132323434333
""".split()


def same_number(count):
    """Names of 40 bytes that all have the same number; at most 32,768."""
    return [bytes(96 + sum(int(step[at]) - 3 for bit, step in enumerate(STEPS) if it >> bit & 1) for at in range(40)) for it in range(count)]


def names_of_one_number(count):
    names = same_number(count)
    return [module(b"a", names, start=True), module(b"b", (), names)]


def asking(number, names, communals=()):
    """A module that asks for these names, and has these communals of 2 bytes; the first is the main one."""
    body = b"".join(record(0xB0, bytes([len(it)]) + it + b"\0\x62\x02") for it in communals)
    return module(name_of(number), (), names, number == 0).replace(record(0xA0, b"\x01\0\0\x90"), body + record(0xA0, b"\x01\0\0\x90"))


def large(count):
    """Segments of 65,520 bytes, with a far reference in each 16 bytes: 1 MB and 65,535 relocation words are the most that a program has."""
    made = []
    for number in range(count):
        rows = b"".join(record(0xA0, b"\x01" + struct.pack("<H", at) + bytes(1008)) + record(0x9C, b"".join(struct.pack(">H", 0xC800 | it) + b"\x54\x01"
                        for it in range(0, 1008, 16))) for at in range(0, 65520, 1008))
        made.append(record(0x80, b"\x08" + name_of(number)) + FRONT + record(0x98, b"\x60" + struct.pack("<H", 65520) + b"\x02\x02\x01") + rows
                    + record(0x8A, b"\xC1\x00\x01\x01\x00\x00" if number == 0 else b"\x00"))
    return made


def segments(count):
    names = b"".join(record(0x96, b"\x08" + name_of(it)) for it in range(count))
    index = [bytes([it]) if it < 128 else struct.pack(">H", 0x8000 | it) for it in range(1, count + 1)]
    return [record(0x80, b"\x01A") + names + b"".join(record(0x98, b"\x28\x01\x00" + it * 2 + b"\x01") for it in index) + record(0x8A, b"\x00")]


def text_of_names(count):
    return 'M "A"\n' + "".join(f'S "{name_of(it).decode()}" {it:X} 0 0\n' for it in reversed(range(count)))


def text_of_modules(count):
    return "".join(f'M "{name_of(it).decode()}"\nS #1 {it:X} 0 0\n' for it in reversed(range(count)))


def many_externals(count):
    return [module(b"A", (), [name_of(it, 255) for it in range(count)])]


def text_of_externals(count):
    return 'M "A"\nS #1 0 0 0\n' + "".join(f'X "{name_of(it, 255).decode()}" {it:X} 0 0\n' for it in reversed(range(count)))


def aliases(count, others):
    """A module whose externals are aliases of one public; with `others` each goes through this number of further aliases, shared by all."""
    names, chain = [name_of(it) for it in range(count)], [b"through%02d" % it for it in range(others)] + [b"public"]
    pairs = [*((it, chain[0]) for it in names), *zip(chain, chain[1:])]
    links = b"".join(record(0xC6, bytes([len(a)]) + a + bytes([len(b)]) + b) for a, b in pairs)
    made = module(b"a", [b"public"], names, start=True)
    return [made[:made.index(FRONT)] + links + made[made.index(FRONT):]]


def comdat(number, data, flags=0):
    """A COMDAT of any instance, far code, by the index of its name."""
    index = bytes([number]) if number < 128 else struct.pack(">H", 0x8000 | number)
    return record(0xC2, bytes([flags, 0x11, 1, 0, 0, 0]) + index + data)


def many_comdats(count):
    """COMDATs of a byte, of names of their own."""
    names = b"".join(record(0x96, b"\x08" + name_of(it)) for it in range(count))
    return [asking(0, ()).replace(SEGMENT, SEGMENT + names + b"".join(comdat(it + 4, b"\x90") for it in range(count)))]


def continued(count):
    """A COMDAT of a byte that is continued with another one, again and again: 64 KB are the most that it may have."""
    pieces = b"".join(record(0xC2, bytes([1, 0x11, 1]) + struct.pack("<H", it) + b"\0\x03\x90") for it in range(1, count))
    return [record(0x80, b"\x01a") + record(0x96, b"\x00\x04CODE\x01f") + SEGMENT + comdat(3, b"\x90") + pieces + record(0x8A, b"\x00")]


def backpatches(count):
    """Data records of two bytes, and a BAKPAT with an item for each; all are for the first record."""
    rows = b"".join(record(0xA0, b"\x01" + struct.pack("<H", 2 * it) + bytes(2)) for it in range(count))
    items = b"".join(record(0xB2, b"\x01\x01" + struct.pack("<HH", 0, 1) * min(8000, count - it)) for it in range(0, count, 8000))
    return [record(0x80, b"\x01a") + FRONT + record(0x98, b"\x28" + struct.pack("<H", 2 * count) + b"\x02\x02\x01") + rows + items + record(0x8A, b"\x00")]


IMAGE = ["image", "-t", "text"]
SHAPES = {
    "n libraries, each needs the next": (chain_of_libraries, None, 500, ["exe"]),
    "n libraries, each needs the one before": (lambda n: chain_of_libraries(n, -1), None, 500, ["exe"]),
    "a library of n members, each needs the next": (chain_of_members, None, 4000, ["exe"]),
    "a library of n members, each needs the one before": (lambda n: chain_of_members(n, -1), None, 4000, ["exe"]),
    "n libraries of 16 members, none needed": (not_needed, None, 500, ["exe"]),
    "a library of n members of 10 bytes": (lambda n: [main_module(), archive([record(0x80, b"\x00") + record(0x8A, b"\x00")] * n)], None, 32_767, ["exe"]),
    "n publics and n externals of 8 bytes": (lambda n: many_names(n, 8), None, 8000, ["exe"]),
    "n publics and n externals of 255 bytes": (lambda n: many_names(n, 255), None, 8000, ["exe"]),
    "n publics and n externals of one number": (names_of_one_number, None, 8000, ["exe"]),
    "n names that nothing defines": (lambda n: [asking(0, [name_of(it) for it in range(n)])], None, 16_000, ["exe"]),
    "n modules, 16 names that nothing defines": (lambda n: [asking(it, [name_of(it) for it in range(16)]) for it in range(n)], None, 1000, ["exe"]),
    "n communals of names of their own": (lambda n: [asking(0, (), [name_of(it) for it in range(n)])], None, 8000, ["exe"]),
    "n modules, 16 communals of the same names": (lambda n: [asking(it, (), [name_of(it) for it in range(16)]) for it in range(n)], None, 1000, ["exe"]),
    "n aliases of one public": (lambda n: aliases(n, 0), None, 8000, ["exe"]),
    "n aliases that lead through 60 others": (lambda n: aliases(n, 60), None, 8000, ["exe"]),
    "n COMDATs": (many_comdats, None, 8000, ["exe"]),
    "a COMDAT continued n times": (continued, None, 8000, ["lower"]),
    "n data records and items of a BAKPAT": (backpatches, None, 8000, ["lower"]),
    "n segments of 65,520 bytes": (large, None, 8, ["exe"]),
    "n modules of one public": (lambda n: [module(name_of(it), [name_of(it)], start=it == 0) for it in range(n)], None, 1000, ["exe"]),
    "n modules of one public, drafted": (lambda n: [module(name_of(it), [name_of(it)]) for it in range(n)], None, 1000, ["draft", "--flat", "0"]),
    "n modules, a text that names each": (lambda n: [module(name_of(it)) for it in range(n)], text_of_modules, 1000, IMAGE),
    "n segments of names of their own": (segments, None, 4000, ["draft", "--flat", "0"]),
    "n segments, a text that names each": (segments, text_of_names, 4000, IMAGE),
    "n segments, a text that numbers each": (segments, lambda n: 'M "A"\n' + "".join(f"S #{it + 1} {it:X} 0 0\n" for it in range(n)), 4000, IMAGE),
    "n segments, a text that numbers each backwards": (segments, lambda n: 'M "A"\n' + "".join(f"S #{it + 1} {it:X} 0 0\n" for it in reversed(range(n))), 4000, IMAGE),
    "n externals of 255 bytes, a text that names each": (many_externals, text_of_externals, 1000, IMAGE),
    "n bytes of comment lines": (lambda n: segments(1), lambda n: 'M "A"\nS #1 0 0 0\n' + "; a comment of 19 b\n" * (n // 20), 2_000_000, IMAGE),
    "n empty lines": (lambda n: segments(1), lambda n: 'M "A"\nS #1 0 0 0\n' + "\n" * n, 2_000_000, IMAGE),
    "one line of n bytes": (lambda n: segments(1), lambda n: 'M "A"\nS #1 0 0 0\n;' + '"' * n, 2_000_000, IMAGE),
    "one name of n bytes": (lambda n: segments(1), lambda n: 'M "A"\nS #1 0 0 0\nX "' + "x" * n + '" 0 0 0', 2_000_000, IMAGE),
}


def measure(launch, words, folder):
    """The least processor time in milliseconds, the peak of memory in megabytes, the bytes written and the status; None where it takes too long."""
    found = []
    for _ in range(RUNS):
        done = running.once(launch, words, LIMIT_SECONDS, folder=folder)
        if done is None:
            return None
        time, peak, written, status = done
        out_file = folder / "out.exe"
        found.append((time, peak, written + (out_file.stat().st_size if out_file.exists() else 0), status))
    return min(found)


def show(name, folder, launch):
    make, make_text, count, words = SHAPES[name]
    found = []
    for size in (count, 2 * count):
        files, own = make(size), folder / str(size)
        own.mkdir()
        names = [f"{number}.o" for number in range(len(files))]
        for file, bytes_ in zip(names, files):
            (own / file).write_bytes(bytes_)
        if make_text:
            (own / "text").write_text(make_text(size))
            names.append("text")
        bytes_ = sum((own / it).stat().st_size for it in names)
        task = [LINK, *words, *(["-o", "out.exe"] if words[0] in ("exe", "lower") else []), *[it for it in names if it != "text"]]
        found.append((measure(launch, task, own), measure(launch, ["sha256sum", *names], own), bytes_))
    task = f"omf-link {words[0]}"
    if None in (found[0][0], found[1][0]):
        running.FOUND.append(running.Found(task, name, float("inf"), 0, bytes_, 0))
        return print(f"| {name} | `{words[0]}` | {2 * count:,} | {bytes_:,} | over {LIMIT_SECONDS} s |", flush=True)
    empty = measure(launch, [LINK, "--version"], folder)[0]
    (small, _, _), (most, hash_, bytes_) = found
    running.FOUND.append(running.Found(task, name, most[0] / hash_[0], most[1], bytes_, most[2]))
    growth = max(most[0] - empty, 0.1) / max(small[0] - empty, 0.1)
    print(f"| {name} | `{words[0]}` | {2 * count:,} | {bytes_:,} | {growth:.2f} | {most[0]:.0f} ms | {most[0] / hash_[0]:.1f} | {small[1]:.0f}, {most[1]:.0f} MB | "
          f"{most[2]:,} | {most[3]} |", flush=True)


def table(part):
    print("| Input | Run | 2n | Bytes | Growth | Time | To `sha256sum` | Memory at n, 2n | Written | Status |\n|---|---|---|---|---|---|---|---|---|---|")
    for name in SHAPES:
        if part in name:
            with tempfile.TemporaryDirectory() as made:
                show(name, pathlib.Path(made), running.built(made))
