#!/usr/bin/env python3
"""Tries omf-find: find.py [--first SEED --count N] [--seconds S] [--keep FOLDER]

On programs that omf-link makes of the examples, whose addresses its map has: of given modules and of libraries, as .EXE, as .COM and as a raw
image. Each segment that is found must be where the map has it; how many of those with code are found is counted. On files that are no programs, or
are packed, and with parts of files that are refused. On programs in which bytes of a routine differ (--near). With the files in each order. What `--link` writes is linked again, and compared with the program. With a seed instead on programs of tests/executed.py, which NASM assembles. OMF_FIND, OMF_LINK and OMF_LIB name the programs (omf-find, omf-link and omf-lib, if not
set). The last line has how much was tried."""
import argparse
import itertools
import json
import os
import pathlib
import random
import re
import shutil
import struct
import subprocess
import sys
import tempfile
import time

ROOT = pathlib.Path(__file__).resolve().parent.parent
EXAMPLES = ROOT / "examples"
FIND, LINK, LIB = (os.environ.get(name.replace("-", "_").upper()) or name for name in ("omf-find", "omf-link", "omf-lib"))
# The task of omf-link and the modules of a program.
PROGRAMS = [("exe", ["exe/main.obj", "exe/show.obj", "exe/report.obj"]), ("com", ["com/hello.obj", "com/say.obj"]), ("exe", ["order/main.obj", "order/show.obj"])]
# A run with seeds ends after this number that differ.
MOST_FAILED = 20
tried, failed = 0, 0
code_segments, code_found = 0, 0


def fails(what, *more):
    global failed
    failed += 1
    print("failed:", what, *more)


def run(*words, folder):
    """The status, the standard output and the standard error of a program."""
    done = subprocess.run([str(it) for it in words], cwd=folder, stdin=subprocess.DEVNULL, capture_output=True, timeout=60)
    return done.returncode, done.stdout.decode("latin-1"), done.stderr.decode("latin-1")


def lines_of(folder, *words):
    """The lines of JSON of a run that must end with the status 0."""
    global tried
    tried += 1
    status, output, error = run(FIND, "--json", *words, folder=folder)
    if status or error:
        fails("status", status, words, error)
    return [json.loads(it) for it in output.splitlines()]


def mapped(text):
    """The address of each segment of a map, by the number of its module and its own; and the segments of a class of code."""
    found = re.findall(r'^segment (\d+) (\d+) ([0-9A-F]{8}) ([0-9A-F]{8}) "[^"]*" "([^"]*)"$', text, re.M)
    places = {(int(module), int(index)): int(address, 16) for module, index, address, _, _ in found}
    return places, {(int(module), int(index)) for module, index, _, length, name in found if name.endswith("CODE") and int(length, 16)}


def compare(what, lines, places, code, number_of):
    """Compares the segments that are found with a map. `number_of` gives the number of a module in the map by its file and member."""
    found = {}
    for line in lines:
        if "segment" in line:
            found[number_of(line["file"], line["member"]), line["index"]] = line["segment"]
    for key, address in found.items():
        if places.get(key) != address:
            fails(what, "segment", key, "is found at", hex(address), "and not at", places.get(key))
    global code_segments, code_found
    code_segments += len(code)
    code_found += sum(it in found for it in code)
    return found


def linked(folder):
    """Programs of given modules, of a library, and of modules that are not in them."""
    for task, names in PROGRAMS:
        files = [EXAMPLES / it for it in names]
        program = f"prog.{task}"
        status, output, error = run(LINK, task, "-o", program, "--map", "prog.map", "--order", "dos", *files, folder=folder)
        if status:
            fails(names, output, error)
            continue
        places, code = mapped((folder / "prog.map").read_text())
        first = max((int(it) for it in re.findall(r"^module (\d+) file ", (folder / "prog.map").read_text(), re.M)), default=0) - len(files)
        numbers = {(str(path), 0): first + 1 + k for k, path in enumerate(files)}
        lines = lines_of(folder, "--least", "8", program, *files)
        found = compare(names, lines, places, code, lambda file, member: numbers[file, member])
        (folder / "rt.lib").unlink(missing_ok=True)
        run(LIB, "make", "-o", "rt.lib", *files[1:], folder=folder)
        lines = lines_of(folder, program, "rt.lib")
        compare([*names, "library"], lines, places, {it for it in code if it[0] > first + 1}, lambda file, member: first + 2 + member)
        if task == "com":
            lines = lines_of(folder, "--base", "100", "--frame", "0", program, *files)
            compare([*names, "raw"], lines, places, code, lambda file, member: numbers[file, member])
            # The first segment begins with the 256 bytes before the file.
            if found.get((first + 1, 1)) != 0:
                fails(names, "the first segment is not found")
        others = [EXAMPLES / it for _, them in PROGRAMS for it in them if them is not names and not it.endswith("main.obj")]
        wrong = [it for it in lines_of(folder, program, *others) if "segment" in it and it["class"].endswith("CODE")]
        if wrong:
            fails(names, "found though it is not there:", wrong)
        symbols(folder, program, files, lines_of(folder, program, *files), task)
        if not found:
            fails(names, "nothing is found")
        linked_again(names, folder, program, "--least", "8", program, *files)
        linked_again([*names, "library"], folder, program, program, "rt.lib")


# Each tool: what is added to the addresses of an .EXE, and what a line of a symbol looks like.
FORMS = {"ghidra": (0x10000, r"(?P<name>\S+) 0x(?P<address>[0-9A-F]{8}) [fl]"), "ida": (0x10000, r'  set_name\(0x(?P<address>[0-9A-F]{8}), "(?P<name>[^"]+)", SN_NOCHECK \| SN_NOWARN\);'),
         "r2": (0, r"f sym\.(?P<name>[A-Za-z0-9._]+) 1 0x(?P<address>[0-9A-F]{8})"), "nm": (0, r"(?P<address>[0-9A-F]{8}) [TD] (?P<name>\S+)")}


def symbols(folder, program, files, lines, task):
    """The symbols of each form are the publics of the map."""
    global tried
    wanted = [(it["name"], it["public"]) for it in lines if "public" in it]
    for tool, (load, form) in FORMS.items():
        tried += 1
        load = load if task == "exe" or tool == "ida" else 0
        status, output, error = run(FIND, "--symbols", tool, program, *files, folder=folder)
        text = output.splitlines()
        if tool == "ida":
            if text[:2] != ["#include <idc.idc>", "static main() {"] or text[-1:] != ["}"]:
                fails(tool, "the script", text)
            text = text[2:-1]
        found = [re.fullmatch(form, it) for it in text]
        if status or error or not all(found) or [(it["name"], int(it["address"], 16) - load) for it in found] != wanted:
            fails(tool, program, status, output, error, wanted)
        _, moved, _ = run(FIND, "--symbols", tool, "--load", "20000", program, *files, folder=folder)
        if [int(it["address"], 16) - 0x20000 for it in map(re.compile(form).fullmatch, moved.splitlines()) if it] != [address for _, address in wanted]:
            fails(tool, "--load")


# What omf-link is asked to allow: what a program's places are need not be what it would choose.
ALLOWED = [word for kind in ("twice", "overlap", "align", "group", "frame", "near") for word in ("--allow", kind)]
lines_linked, left_out_of_links, bytes_linked = 0, 0, 0


def image_of(path):
    """The address of the first byte of a program, and its bytes."""
    file = path.read_bytes()
    if path.suffix != ".exe":
        return 0x100 if path.suffix == ".com" else 0, file
    last, pages, _, paragraphs = struct.unpack_from("<4H", file, 2)
    return 0, file[16 * paragraphs:512 * pages - (512 - last if last else 0)]


def linked_again(what, folder, program, *words):
    """By what `--link` writes omf-link puts the members that are found, lowered, where they are: each byte of a segment that is found is the program's."""
    global tried, left_out_of_links, lines_linked, bytes_linked
    tried += 1
    (folder / "found.link").unlink(missing_ok=True)
    shutil.rmtree(folder / "members", ignore_errors=True)
    lines = lines_of(folder, "--link", "found.link", *words)
    text = (folder / "found.link").read_text("latin-1")
    taken = [(file, int(member)) for file, member in re.findall(r'^M .* ;  file "([^"]*)"  member (\d+)  module ', text, re.M)]
    out = [(file, int(member)) for file, member in re.findall(r'^; left out:  file "([^"]*)"  member (\d+)  module ', text, re.M)]
    found = {(it["file"], it["member"]) for it in lines if "segment" in it}
    if not found <= {*taken, *out} or len({*taken, *out}) != len(taken) + len(out):
        fails(what, "--link", sorted(found), taken, out)
    left_out_of_links += len(out)
    lines_linked += len(taken)
    files = []
    for number, (file, member) in enumerate(taken):
        if not file.endswith(".lib"):
            files.append(file)
            continue
        (folder / "members" / str(number)).mkdir(parents=True)
        status, output, error = run(LIB, "get", file, member, "-d", f"members/{number}", "--numbered", folder=folder)
        if status:
            fails(what, "omf-lib get", output, error)
        files.append(f"members/{number}/{member}.obj")
    if not files:
        return
    for number, file in enumerate(files):
        files[number] = f"lowered{number}.obj"
        status, output, error = run(LINK, "lower", "-o", files[number], file, folder=folder)
        if status:
            fails(what, "omf-link lower", output, error)
    status, output, error = run(LINK, "image", *ALLOWED, "-t", "found.link", *files, folder=folder)
    if status:
        fails(what, "omf-link image", status, error)
        return
    memory = {int(at, 16) + k: int(it, 16) for at, bytes_ in re.findall(r"^([0-9A-F]{8}): ([0-9A-F ]+)$", output, re.M) for k, it in enumerate(bytes_.split())}
    base, image = image_of(folder / program)
    shown = set()
    for it in lines:
        if "segment" in it and (it["file"], it["member"]) not in out:
            shown.update(range(it["segment"], it["segment"] + it["length"]))
    wrong = [hex(at) for at in sorted(shown) if at in memory and (not base <= at < base + len(image) or memory[at] != image[at - base])]
    bytes_linked += sum(at in memory for at in shown)
    if wrong or not any(at in memory for at in shown):
        fails(what, "linked again differs at", wrong[:10])


def link_files(folder):
    """The file of `--link` is a file, and none of the others."""
    global tried
    obj = (EXAMPLES / "com" / "say.obj").read_bytes()
    (folder / "x.com").write_bytes(b"\x90" * 16)
    (folder / "say.obj").write_bytes(obj)
    for name, status in (("-", 2), ("x.com", 2), ("say.obj", 2), ("no/found.link", 3), ("none.link", 0)):
        tried += 1
        done, output, error = run(FIND, "--link", name, "x.com", "say.obj", folder=folder)
        if done != status or bool(error) != bool(status) or ("nothing found" in output) != (status != 2):
            fails("--link", name, done, output, error)
    head = f"; omf-link image {' '.join(ALLOWED)} -t TEXT MODULE ..\n"
    if (folder / "none.link").read_text() != head or (folder / "x.com").read_bytes() != b"\x90" * 16 or (folder / "say.obj").read_bytes() != obj:
        fails("--link", "the files")
    done, output, error = run(FIND, "--json", "--link", "no/found.link", "x.com", "say.obj", folder=folder)
    if done != 3 or error or {"fault": "write", "name": "no/found.link"}.items() - json.loads(output.splitlines()[-1]).items():
        fails("--json --link", done, output, error)


def record(kind, contents):
    """A record."""
    head = bytes([kind]) + struct.pack("<H", len(contents) + 1) + contents
    return head + bytes([-sum(head) % 256])


def code_module(name, segments, fixup=b""):
    """A module with segments of code, each of a name, its length and its bytes; the fixup is one of the last."""
    made = record(0x80, bytes([len(name)]) + name) + record(0x96, b"\x00\x04CODE" + b"".join(b"\x01" + it for it, _, _ in segments))
    for index, (_, length, _) in enumerate(segments):
        made += record(0x98, b"\x28" + struct.pack("<H", length) + bytes([index + 3, 2, 1]))
    for index, (_, _, data) in enumerate(segments):
        for at in range(0, len(data), 1000):
            made += record(0xA0, bytes([index + 1]) + struct.pack("<H", at) + data[at:at + 1000])
    return made + (record(0x9C, fixup) if fixup else b"") + record(0x8A, b"\x00")


def absent_segments(folder):
    """A segment that is not in the program calls one that is, in the frame at 0. So it can't be after the program of 70,000 bytes: it is in the first
    gap of its length; and if the gaps up to 64 KB are shorter, its module is left out."""
    global tried
    code, large = bytes(range(1, 18)), random.Random(1).randbytes(0xFE00)
    for length, others, wanted in ((16, b"", ['S "T" 100 0 0', 'S "D" 0 0 0']), (0x200, large, ['S "B" 200 0 0'])):
        tried += 1
        program = bytearray(b"\x90" * 70_000)
        program[0x100:0x100 + len(code)] = code
        program[0x200:0x200 + len(others)] = others
        (folder / "x.bin").write_bytes(program)
        # A self-relative offset of 16 bits at 1, in the frame of its target (F5), the first segment (T4).
        # It has no four bytes in a row that no fixup touches: of these it would be known that they are nowhere, and its module would not be sure.
        (folder / "m.obj").write_bytes(code_module(b"m", [(b"T", len(code), code), (b"D", length, b"\xE8\0\0")], b"\x84\x01\x54\x01"))
        (folder / "b.obj").write_bytes(code_module(b"b", [(b"B", len(large), large)]))
        words = ["--base", "0", "--frame", "0", "x.bin", "m.obj", "b.obj"]
        status, output, error = run(FIND, "--link", "x.link", *words, folder=folder)
        text = (folder / "x.link").read_text().splitlines()
        out = [it for it in text if it.startswith("; left out:")]
        if status or error or [it for it in text if it.startswith("S ")] != wanted or out != (['; left out:  file "m.obj"  member 0  module "m"'] if others else []):
            fails("a segment that is absent", length, status, output, error, text)
        linked_again(("absent", length), folder, "x.bin", *words)


def lowered_modules(folder):
    """A module with a COMDAT is found by its lowering: in a file before another one, and as a member of a library."""
    code, other = bytes(range(1, 25)), bytes(range(101, 125))
    program = bytearray(b"\x90" * 1000)
    program[0x100:0x100 + len(code)], program[0x200:0x200 + len(other)] = code, other
    module = record(0x80, b"\x01c") + record(0x96, b"\x00\x04CODE\x01f") + record(0xC2, b"\x00\x11\x01\x00\x00\x00\x03" + code) + record(0x8A, b"\x00")
    (folder / "x.bin").write_bytes(program)
    (folder / "two.obj").write_bytes(module + bytes(3) + code_module(b"d", [(b"D", len(other), other)]))
    (folder / "two.lib").unlink(missing_ok=True)
    run(LIB, "make", "-o", "two.lib", "two.obj", folder=folder)
    for file in ("two.obj", "two.lib"):
        lines = lines_of(folder, "--base", "0", "--frame", "0", "x.bin", file)
        found = {(it["member"], it["name"]): it["segment"] for it in lines if "segment" in it}
        publics = [(it["name"], it["public"]) for it in lines if "public" in it]
        if found != {(0, "f"): 0x100, (1, "D"): 0x200} or publics != [("f", 0x100)]:
            fails("a module with a COMDAT", file, lines)


def header(image=b"", last=None, pages=None, count=0, paragraphs=2, start=(0, 0), table=28):
    """An MZ file: 28 bytes of header, 4 of padding, and the image."""
    size = 16 * paragraphs + len(image)
    words = [0x5A4D, size % 512 if last is None else last, (size + 511) // 512 if pages is None else pages, count, paragraphs, 0, 0xFFFF, 0, 256, 0, start[1], start[0], table, 0]
    return struct.pack("<14H", *words) + bytes(16 * paragraphs - 28) + image


def with_mark(at, mark, size=80):
    """An MZ file with bytes at an offset."""
    file = bytearray(header(bytes(size - 32)))
    file[at:at + len(mark)] = mark
    return bytes(file)


def stub(mark):
    """An MZ file whose bytes 60 to 63 are the offset of another header."""
    return with_mark(60, struct.pack("<I", 64) + mark)


UNKNOWN = "neither an MZ file nor named .com; --base takes it as a raw image"
OTHER = " after an MZ stub; write the bytes of a segment to a file and search that with --base"
# A name, a file, and why it is refused.
REFUSED = [("x.bin", b"\x90" * 16, UNKNOWN), ("x.exe", b"", UNKNOWN), ("x.exe", b"MZ", "the header is cut"), ("x.exe", header()[:27], "the header is cut"),
           ("x.exe", header(last=512), "by its header the last page has more than 511 bytes: 512"), ("x.exe", header(bytes(16), pages=2), "it has fewer bytes than its header gives: 560"),
           ("x.exe", header(bytes(16))[:-1], "it has fewer bytes than its header gives: 48"), ("x.exe", header(bytes(16), paragraphs=2)[:8] + b"\x04\0" + header(bytes(16))[10:], "the header is longer than the file: 64 bytes"),
           ("x.exe", header(bytes(16), count=6), "the relocation table passes the end of the file: it ends at 52"),
           ("x.exe", header(bytes(16), count=1, table=32), None), ("x.exe", header(struct.pack("<HH", 3, 0), count=1, table=32), "a relocation word is outside the image: 00000003"),
           ("x.com", bytes(65281), "longer than 65280 bytes, so no .COM file"), ("x.exe", stub(b"NE"), "an NE file (16-bit Windows, OS/2)" + OTHER),
           ("x.exe", stub(b"LE"), "an LE file (OS/2, a DOS extender, a driver of Windows)" + OTHER), ("x.exe", stub(b"LX"), "an LX file (OS/2)" + OTHER),
           ("x.exe", stub(b"PE\0\0"), "a PE file (Windows)" + OTHER), ("x.exe", stub(b"PE\0\1"), None), ("X.COM", b"\x90" * 16, None), ("x.exe", header(bytes(16)).replace(b"MZ", b"ZM"), None)]
PACKED = [("LZEXE", with_mark(28, b"LZ09")), ("LZEXE", with_mark(28, b"LZ91")), ("PKLITE", with_mark(30, b"PKLITE Copr.")), ("EXEPACK", header(bytes(14) + b"RB" + bytes(8), start=(0, 16))),
          ("EXEPACK", header(bytes(32) + b"RB" + bytes(8), start=(1, 18))), (None, header(bytes(14) + b"RB" + bytes(8), start=(0, 17))), (None, with_mark(29, b"LZ09"))]


def files(folder):
    """Files that are no programs, and packed ones."""
    global tried
    module = EXAMPLES / "com" / "say.obj"
    for name, file, why in REFUSED:
        tried += 1
        (folder / name).write_bytes(file)
        status, output, error = run(FIND, name, module, folder=folder)
        wanted = (1, "", f'omf-find: program "{name}": {why}\n') if why else (0, output, "")
        if (status, output, error) != wanted or (not why and "nothing found" not in output):
            fails(name, status, output, error, wanted)
        if why:
            status, output, error = run(FIND, "--json", name, module, folder=folder)
            if (status, json.loads(output), error) != (1, {"fault": "program", "name": name, "error": why}, ""):
                fails(name, "--json", status, output, error)
    for packer, file in PACKED:
        tried += 1
        (folder / "x.exe").write_bytes(file)
        status, output, error = run(FIND, "x.exe", module, folder=folder)
        wanted = f'omf-find: program "x.exe" is packed by {packer}: unpack it first, or its modules are not found\n' if packer else ""
        if status or error != wanted or "nothing found" not in output:
            fails(packer, status, output, error)
        status, output, error = run(FIND, "--json", "x.exe", module, folder=folder)
        found = [it for it in map(json.loads, output.splitlines()) if "warning" in it]
        if status or error or found != ([{"warning": "packed", "name": "x.exe", "packer": packer}] if packer else []):
            fails(packer, "--json", status, output, error)


def parts(folder):
    """Parts of files that are refused are left out, and named, with --json in an object; the rest is searched."""
    global tried
    obj = (EXAMPLES / "com" / "say.obj").read_bytes()
    (folder / "x.com").write_bytes(b"\x90" * 16)
    (folder / "two.obj").write_bytes(obj + b"\x1A\x1A" + obj)
    (folder / "rest.obj").write_bytes(obj + b"\x1A" + b"text")
    (folder / "bad.obj").write_bytes(obj + obj[:-1] + b"\xFF" + obj)
    (folder / "cut.lib").write_bytes((EXAMPLES / "library" / "small.lib").read_bytes()[:100])
    tries = [("two.obj", 0, 2, ""), ("rest.obj", 1, 1, f'file "rest.obj" from {len(obj) + 1} on, neither a module nor padding'),
             ("bad.obj", 1, 1, 'file "bad.obj" member 1 "say.asm", refused 6 Checksum record '), ("cut.lib", 1, 1, 'file "cut.lib" from ')]
    for name, status, count, line in tries:
        tried += 1
        done, output, error = run(FIND, "--json", "x.com", name, folder=folder)
        shown = [json.loads(it) for it in output.splitlines()]
        counts = [it["modules"] for it in shown if "program" in it]
        left_out = [it["error"] for it in shown if it.get("fault") == "left-out"]
        if done != status or counts != [count] or error or len(left_out) != bool(line) or not all(it.startswith(line) for it in left_out):
            fails(name, "--json", done, output, error)
        done, output, error = run(FIND, "x.com", name, folder=folder)
        if done != status or error != "".join(f"omf-find: left out: {it}\n" for it in left_out):
            fails(name, done, output, error)
    for words, status in ((["x.com"], 2), (["--frame", "0", "x.com", "two.obj"], 2), (["--symbols", "gdb", "x.com", "two.obj"], 2), (["no.exe", "two.obj"], 3), (["x.com", "no.obj"], 3)):
        tried += 1
        done, output, error = run(FIND, *words, folder=folder)
        if done != status or output or not error.startswith("omf-find: read no." if status == 3 else "omf-find: "):
            fails(words, done, output, error)
    done, output, error = run(FIND, "--json", "no.exe", "two.obj", folder=folder)
    if done != 3 or error or [(it["fault"], it["name"]) for it in map(json.loads, output.splitlines())] != [("read", "no.exe")]:
        fails("--json", "no.exe", done, output, error)


def has_comdat(bytes_):
    """Whether a module has a COMDAT."""
    at = 0
    while at + 3 <= len(bytes_) and bytes_[at] & 0xFE != 0xC2:
        at += 3 + int.from_bytes(bytes_[at + 1:at + 3], "little")
    return at + 3 <= len(bytes_)


def look_at_made(seed, folder):
    """A generated program, of its modules in any order: each segment that is found is where the map has it."""
    import executed
    plan = executed.Plan(seed)
    names = executed.built(plan, folder)
    # (a COMDAT of several modules is found where the one is that was chosen)
    if plan.kind == "bin" or any(has_comdat((folder / it).read_bytes()) for it in names):
        return
    order = names[1:]
    plan.random.shuffle(order)
    order.insert(0 if plan.kind == "com" else plan.random.randrange(len(names)), names[0])
    status, output, error = run(LINK, plan.kind, "-o", "made", "--map", "made.map", *order, folder=folder)
    if status:
        return
    program = f"made.{plan.kind}"
    (folder / "made").rename(folder / program)
    places, code = mapped((folder / "made.map").read_text())
    numbers = {file: int(number) for number, file in re.findall(r'^module (\d+) file "([^"]*)"', (folder / "made.map").read_text(), re.M)}
    plan.random.shuffle(names)
    linked_again(f"seed {seed}", folder, program, "--least", "8", program, *names)
    compare(f"seed {seed}", lines_of(folder, "--least", "8", program, *names), places, code, lambda file, member: numbers[file])


def named(name):
    return bytes([len(name)]) + name


def module(name, data, publics, externals=(), fixups=b""):
    """A module of one segment S with these bytes, publics at offsets, and the fixups of a FIXUPP."""
    records = [record(0x80, named(name)), record(0x96, named(b"") + named(b"S")), record(0x98, bytes([0x28]) + struct.pack("<H", len(data)) + bytes([2, 1, 1]))]
    if externals:
        records.append(record(0x8C, b"".join(named(it) + b"\0" for it in externals)))
    records.append(record(0x90, bytes([0, 1]) + b"".join(named(it) + struct.pack("<HB", at, 0) for it, at in publics)))
    records.append(record(0xA0, bytes([1, 0, 0]) + data))
    if fixups:
        records.append(record(0x9C, fixups))
    return b"".join(records) + record(0x8A, b"\0")


def replaced(data, *changes):
    """Bytes with others at some offsets."""
    data = bytearray(data)
    for at, value in changes:
        data[at] = value
    return bytes(data)


ROUTINE = bytes(range(1, 21))
X = 'file "x.obj"  member 0  module "x"  index 1  name "S"  class ""'
BYTE_3 = 'byte 00000108  index 1  offset 00000003  public "f"  after 00000003  own 04  program 40'
BYTE_12 = 'byte 00000111  index 1  offset 0000000C  public "g"  after 00000002  own 0D  program D0'
# The bytes of a program from 100H on, the options, and the lines on what is near. The routine is at 105H, where bytes 3 and 12 differ.
CHANGED = replaced(ROUTINE, (3, 0x40), (12, 0xD0))
NEAR = [(bytes(5) + CHANGED, ("--near", "2"), [f"near 00000105  length 00000014  differs 2  {X}", BYTE_3, BYTE_12]),
        (bytes(5) + CHANGED, ("--near", "1"), []), (bytes(5) + CHANGED, (), []),
        (bytes(5) + CHANGED, ("--near", "2", "--least", "19"), []), (bytes(5) + CHANGED, ("--near", "20", "--least", "18"), [f"near 00000105  length 00000014  differs 2  {X}", BYTE_3, BYTE_12]),
        # It is there too.
        (bytes(5) + CHANGED + ROUTINE, ("--near", "2"), []),
        # Another place has fewer differences.
        (bytes(5) + CHANGED + replaced(ROUTINE, (0, 0)), ("--near", "2"), [f"near 00000119  length 00000014  differs 1  {X}", 'byte 00000119  index 1  offset 00000000  public "f"  after 00000000  own 01  program 00']),
        # The last byte is past the program's end.
        (bytes(5) + ROUTINE[:19], ("--near", "2"), [f"near 00000105  length 00000014  differs 1  {X}", 'byte 00000118  index 1  offset 00000013  public "g"  after 00000009  own 14  program none'])]


def near(folder):
    """Segments of which some bytes differ, and references that go elsewhere."""
    global tried
    (folder / "x.obj").write_bytes(module(b"x", ROUTINE, [(b"f", 0), (b"g", 10)]))
    for program, options, wanted in NEAR:
        tried += 1
        (folder / "near.bin").write_bytes(program)
        status, output, error = run(FIND, "--base", "100", *options, "near.bin", "x.obj", folder=folder)
        found = [it for it in output.splitlines() if it.split()[0] in ("near", "byte", "reference")]
        if status or error or found != wanted:
            fails("--near", options, status, found, wanted, error)
    (folder / "near.bin").write_bytes(bytes(5) + CHANGED)
    objects = [it for it in lines_of(folder, "--base", "100", "--near", "2", "near.bin", "x.obj") if "near" in it or "byte" in it]
    own = {"file": "x.obj", "member": 0, "module": "x", "index": 1, "name": "S", "class": ""}
    if objects != [{"near": 0x105, "length": 20, "differs": 2, **own}, {"byte": 0x108, "index": 1, "offset": 3, "public": "f", "after": 3, "own": 4, "program": 0x40},
                   {"byte": 0x111, "index": 1, "offset": 12, "public": "g", "after": 2, "own": 13, "program": 0xD0}]:
        fails("--near", "--json", objects)
    # A call of h at offset 2 of the other module, which is at 100H, goes to 101H: 36H before the byte after it, which is at 137H. Byte 12 differs too.
    calls = ROUTINE + b"\xE8\0\0\x90"
    (folder / "x.obj").write_bytes(module(b"x", calls, [(b"f", 0)], [b"h"], bytes([0x84, 21, 0x56, 1])))
    (folder / "y.obj").write_bytes(module(b"y", bytes(range(0x40, 0x60)), [(b"h", 2)]))
    (folder / "near.bin").write_bytes(bytes(range(0x40, 0x60)) + replaced(calls, (12, 0xD0), (21, 0xCA), (22, 0xFF)))
    tried += 1
    status, output, error = run(FIND, "--base", "100", "--near", "2", "near.bin", "x.obj", "y.obj", folder=folder)
    found = [it for it in output.splitlines() if it.split()[0] in ("byte", "reference")]
    if found != ['byte 0000012C  index 1  offset 0000000C  public "f"  after 0000000C  own 0D  program D0',
                 'reference 00000135  index 1  offset 00000015  public "f"  after 00000015  name "h"  own 00000102  program 00000101']:
        fails("--near", "a reference", output, error)


def found_in(lines):
    """The segments that are found, each with its address."""
    return {(it["file"], it["member"], it["index"], it["segment"]) for it in lines if "segment" in it}


def orders(folder):
    """The order of the files does not change what is found. A module to which two others refer at two places is at neither."""
    for task, names in PROGRAMS:
        files = [EXAMPLES / it for it in names]
        run(LINK, task, "-o", f"prog.{task}", "--order", "dos", *files, folder=folder)
        found = [found_in(lines_of(folder, "--least", "8", f"prog.{task}", *them)) for them in itertools.permutations(files)]
        if any(it != found[0] for it in found):
            fails(names, "the order of the files changes what is found", found)
    # Two routines of 20 bytes, each with a call of h after them: at 100H of the h at 180H, and at 140H of the h at 1A0H.
    routines = [ROUTINE + b"\xE8\0\0\x90", bytes(range(0x60, 0x74)) + b"\xE8\0\0\x90"]
    for name, code in zip((b"a", b"b"), routines):
        (folder / f"{name.decode()}.obj").write_bytes(module(name, code, [(name, 0)], [b"h"], bytes([0x84, 21, 0x56, 1])))
    (folder / "h.obj").write_bytes(module(b"h", b"\x33\xC0\xC3", [(b"h", 0)]))
    program = bytearray(b"\x90" * 0x100)
    for at, code, distance in ((0, routines[0], 0x69), (0x40, routines[1], 0x49)):
        program[at:at + len(code)] = replaced(code, (21, distance))
    program[0x80:0x83] = program[0xA0:0xA3] = b"\x33\xC0\xC3"
    (folder / "two.bin").write_bytes(program)
    a, b, h = ("a.obj", 0, 1, 0x100), ("b.obj", 0, 1, 0x140), ("h.obj", 0, 1, 0x180)
    for files, wanted in ((["a.obj", "h.obj"], {a, h}), (["h.obj", "b.obj"], {b, ("h.obj", 0, 1, 0x1A0)}), (["h.obj"], set())):
        if found_in(lines_of(folder, "--base", "100", "two.bin", *files)) != wanted:
            fails("orders", files)
    for files in itertools.permutations(["a.obj", "b.obj", "h.obj"]):
        lines = lines_of(folder, "--base", "100", "--possible", "two.bin", *files)
        if found_in(lines) != {a, b} or [it["public"] for it in lines if it.get("name") == "h" and "asked" not in it and "public" in it]:
            fails("orders", files, lines)


# Of files, the bytes of the segments of each, and why each place in the program at 100H is only a possible one: the address, the file, the segment, the
# reason, and what else the line has. PLAIN has 20 bytes that all differ, and none of them is in FILLER.
PLAIN, FILLER = bytes(range(1, 21)), b"\x90" * 32
REASONS = [
    ("7 bytes", {"a.obj": [PLAIN[:7]]}, FILLER + PLAIN, [(0x120, "a.obj", 1, "few-bytes", {})]),
    ("two places", {"a.obj": [PLAIN]}, PLAIN + FILLER + PLAIN, [(0x100, "a.obj", 1, "several-places", {}), (0x134, "a.obj", 1, "several-places", {})]),
    ("the same bytes", {"a.obj": [PLAIN], "b.obj": [PLAIN]}, FILLER + PLAIN, [(0x120, "a.obj", 1, "same-bytes", {}), (0x120, "b.obj", 1, "same-bytes", {})]),
    ("a segment that is nowhere", {"a.obj": [PLAIN, b"nowhere here"]}, FILLER + PLAIN, [(0x120, "a.obj", 1, "other-segment-missing", {"missing": 2})]),
    ("zeros", {"a.obj": [bytes(20)]}, FILLER + bytes(20) + FILLER, [(0x120, "a.obj", 1, "few-values", {})]),
    ("a part of each other", {"a.obj": [PLAIN[:18]], "b.obj": [PLAIN[2:]]}, FILLER + PLAIN, [(0x120, "a.obj", 1, "overlapped", {}), (0x122, "b.obj", 1, "overlapped", {})]),
    ("zeros at 81 places, none before the letter", {"a.obj": [bytes(4) + b"A"]}, bytes(84) + b"B", []),
    ("zeros at 81 places", {"a.obj": [bytes(4)]}, bytes(84), [(0x100 + it, "a.obj", 1, "few-bytes", {}) for it in range(16)]),
]


def reasons(folder):
    """Why the place of a segment is only a possible one."""
    global tried
    for what, files_of, program, wanted in REASONS:
        tried += 1
        for name, segments in files_of.items():
            (folder / name).write_bytes(code_module(b"m", [(bytes([0x53 + at]), len(it), it) for at, it in enumerate(segments)]))
        (folder / "why.bin").write_bytes(program)
        lines = [it for it in lines_of(folder, "--base", "100", "--possible", "why.bin", *files_of) if "possible" in it]
        found = [(it["possible"], it["file"], it["index"], it["why"], {"missing": it["missing"]} if "missing" in it else {}) for it in lines]
        if sorted(found, key=str) != sorted(wanted, key=str):
            fails("why", what, found)


def look_at_all_made(asked):
    seed, end = asked.first, time.monotonic() + (asked.seconds or 0)
    while failed < MOST_FAILED and (time.monotonic() < end if asked.seconds else seed < asked.first + asked.count):
        with tempfile.TemporaryDirectory() as work:
            before = failed
            look_at_made(seed, pathlib.Path(work))
            if failed > before:
                print(f"seed {seed}: {failed - before} of the lines above differ", flush=True)
            if failed > before and asked.keep:
                shutil.copytree(work, f"{asked.keep}/find-{seed}", dirs_exist_ok=True)
        seed += 1
    print(f"seeds {asked.first} to {seed - 1}")


def look_at_written():
    with tempfile.TemporaryDirectory() as work:
        folder = pathlib.Path(work)
        files(folder)
        parts(folder)
        link_files(folder)
        near(folder)
        orders(folder)
        reasons(folder)
        absent_segments(folder)
        lowered_modules(folder)
        linked(folder)


def main():
    words = argparse.ArgumentParser()
    words.add_argument("--first", type=int)
    words.add_argument("--count", type=int, default=50)
    words.add_argument("--seconds", type=float)
    words.add_argument("--keep", help="a folder for the files of a program that differs")
    asked = words.parse_args()
    if asked.first is not None:
        look_at_all_made(asked)
    else:
        look_at_written()
    print(f"{code_found} of {code_segments} segments of code found")
    print(f"{lines_linked} modules linked again, {bytes_linked} bytes of segments compared, {left_out_of_links} modules left out")
    print(f"{tried} runs, {failed} failed")
    return 1 if failed else 0


if __name__ == "__main__":
    sys.exit(main())
