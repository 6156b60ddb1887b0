#!/usr/bin/env python3
"""Mistakes in the arguments of the programs, and the line of each: mistakes.py [WORD]     (only the calls that have WORD)

tests/mistakes.txt has a row for each: a call, its status, and what the line says after the program's name. The line is the first one on the standard
error; nothing is on the standard output, and no file is made or changed. After a usage error (status 2) the usage of the task follows, in at most 80
columns. OMF_DUMP, OMF_FIND, OMF_LIB, OMF_LINK and OMF_PLACE name the programs. The status is 0 where each row is right."""
import pathlib
import shutil
import subprocess
import sys
import tempfile

sys.path.insert(0, str(pathlib.Path(__file__).resolve().parent / "fuzz"))
from promises import ROOT, program  # noqa: E402

TABLE = ROOT / "tests" / "mistakes.txt"
FILES = ["first.omf", "reasons/06-Checksum.omf", "library/small.lib", "com/hello.obj", *(f"exe/{it}.obj" for it in ("main", "show", "report")), *(f"link/{it}.obj" for it in ("start", "say", "mark")), "link/program.link"]

# Texts with mistakes, and response files: each is a file of this name.
TEXTS = {
    "module.link": 'M "sart.asm"\n', "segment.link": 'M "start.asm"\nS "_TEXT" 7C00 0 0\n', "group.link": 'M "start.asm"\nG "dgroop" 7C40 7C4\n', "external.link": 'M "start.asm"\nX "sya" 7C00 0 0\n',
    "unlike.link": 'M "start.asm"\nX "_printf" 7C00 0 0\n', "number.link": 'M "start.asm"\n\tS\t"text" 7G00 0 0\n', "front.link": '; no module yet\nS "text" 7C00 0 0\n', "again.link": 'M "start.asm"\nS "text" 7C00 0 0\nS "text" 7C00 0 0\n',
    "lower.link": 'M "start.asm"\nS "t\\xffxt" 7C00 0 0\n', "gap.link": 'M "start.asm"\nS "text" 7C00 0 0\n',
    "cp437.link": b'M "st\x84rt.asm"\n', "mark.link": b'\xEF\xBB\xBFM\t"start.asm"\r\n\tS "text"\t7C00 0 0\r\n', "plain.link": 'M "start.asm"\nS "text" 7C00 0 0\n',
    "bin.rsp": "bin --base 7C00\n--size\t200 -t 'program.link'\r\n\"start.obj\" say.obj mark.obj", "marked.link": 'M "start.asm"\nS "text" 0x7C00 0X0 00H\n', "front.rsp": b"\xEF\xBB\xBFbin --base 7C00 --size 200 -t program.link start.obj say.obj mark.obj", "wrong.rsp": "--base 7G00", "dash.rsp": "--verdict -- -x.obj",
}

# Files of two modules, and one with something else after a module.
SAY = (ROOT / "examples/link/say.obj").read_bytes()
TEXTS |= {"twice.obj": SAY + bytes(3) + SAY, "second.obj": SAY + (ROOT / "examples/reasons/06-Checksum.omf").read_bytes(), "tail.obj": SAY + b"\x1A\x1Aend"}

# A module with padding, and what is neither a module nor padding after one, in files whose names are not plain; a file of a record, and an empty one.
MARK = (ROOT / "examples/link/mark.obj").read_bytes()
TEXTS |= {"padded.obj": MARK + b"\x1A\x1A", "b\x1b[2J": MARK + b"\0\0MZ", "text.obj": MARK + b";\n", "old lib": b"\xF0\x0D\0", "empty.obj": b""}


def library(flags, *modules):
    """A library of pages of 16 bytes, without a dictionary: the header, the modules, each at a page, and F1H."""
    return bytes.fromhex("F00D00 00000000 0000") + bytes([flags]) + bytes(6) + b"".join(it + bytes(-len(it) % 16) for it in modules) + bytes.fromhex("F10100 00")


# Libraries: one in which case does not count, one in which it does, one with a name twice, and one with a member that is refused.
TEXTS |= {"old.lib": library(0, SAY), "same.lib": library(1, SAY), "dup.lib": library(1, SAY, SAY), "bad.lib": library(1, (ROOT / "examples/reasons/06-Checksum.omf").read_bytes(), MARK)}

# Names in a response file: with spaces, in quotes of both kinds, an empty one; what follows 1AH is not read.
TEXTS["names.rsp"] = "--verdict\t\"my name.obj\"\r\n 'a b'c\"d e\" x'\"'y\n\x1Az"
TEXTS["empty.rsp"] = "make -o \"\" main.obj"
TEXTS |= {it: SAY for it in ("my name.obj", "a bcd e", 'x"y')}

# A module with 1,000 names of one hash, which counts no case: ten letters each. Name n comes after n others, so the searches would be too long.
NAMES = [bytes(it ^ (number >> at & 1) << 5 for at, it in enumerate(b"abcdefghij")) for number in range(1000)]
PUBLICS = [b"\x90\x13\0\0\0\0\0\x0A" + it + b"\0\0\0\0" for it in NAMES]
TEXTS |= {name: bytes.fromhex("80030001413B") + b"".join(PUBLICS[:count]) + bytes.fromhex("8A02000074") for name, count in (("hash.obj", 1000), ("hundred.obj", 100))}

# A .COM file by itself: int 20H at 100H, which is its start.
TEXTS["tiny.obj"] = bytes.fromhex("80030001413B 96040000015400 98070028020102010100 A00600010001CD2000 8A0700C1000101000100")

# The text of examples/link, with one part of "shared" in another frame.
TEXTS["frames.link"] = 'S "shared" 7C9E 7C80 7C8'.join((ROOT / "examples/link/program.link").read_text(encoding="utf-8").rsplit('S "shared" 7C9E 7C90 7C9', 1))


def rows():
    """The rows of the table: a call, its status and its line."""
    for number, line in enumerate(TABLE.read_text(encoding="utf-8").splitlines(), 1):
        if line.strip() and not line.startswith("#"):
            call, status, said = (it.strip() for it in line.split(" | "))
            yield number, call, int(status), said


def words_of(call):
    """The words of a call, as bytes: `""` is an empty one, `%NN` is a byte."""
    words = [b"" if it == '""' else it.encode() for it in call.split(" ")]
    return [b"".join([first, *(bytes([int(it[:2], 16)]) + it[2:] for it in rest)]) for first, *rest in (it.split(b"%") for it in words)]


def content(folder):
    return {it.name: it.read_bytes() for it in folder.iterdir()}


def faults(folder, call, status, said):
    """What is not as the row says."""
    name, *words = words_of(call)
    before = content(folder)
    done = subprocess.run([program(name.decode().replace("-", "_")), *words], cwd=folder, stdin=subprocess.DEVNULL, capture_output=True, timeout=60, check=False)
    lines = done.stderr.decode().splitlines()
    if done.returncode != status:
        yield f"status {done.returncode}, not {status}"
    if not lines or lines[0] != f"{name.decode()}: {said}":
        yield f"said {lines[:1]}"
    if status == 2 and "is an input and an output" not in said and "is two outputs" not in said and (len(lines) < 2 or not lines[1].startswith("usage: ")):
        yield "no usage after the line"
    if any(len(it) > 80 for it in lines[1:]):
        yield "a line of the usage is longer than 80 columns"
    if done.stdout:
        yield f"printed {done.stdout[:80]}"
    if content(folder) != before:
        yield "files are made or changed"


# Calls that go on after a file that is refused or can't be read, or after a warning: the status, the lines that begin the output, and those on the standard error.
GO_ON = [
    ("omf-link map start.obj 06-Checksum.omf mark.obj", 1, ['module 1 file "start.obj" module 1', 'module 2 file "mark.obj" module 1', 'segment 1 1 - 00000035 "text" "CODE"'],
     ['omf-link: file "06-Checksum.omf" module 1 refused 6 Checksum record 3 at 23 within 10']),
    ("omf-link map -t frames.link start.obj say.obj mark.obj", 0, ['module 1 file "start.obj" module 1', 'module 2 file "say.obj" module 1'],
     ['omf-link: frame: file "start.obj" module 1 segment "shared" frame 00007C90 selector 07C9, file "say.obj" module 1 segment "shared" frame 00007C80 selector 07C8']),
    ("omf-link map nofile.obj mark.obj", 3, ['module 1 file "mark.obj" module 1', 'segment 1 1 - 00000002 "mark" "MARK"'], ["omf-link: read nofile.obj: No such file or directory (os error 2)"]),
    ("omf-dump --verdict first.omf 06-Checksum.omf nofile.obj small.lib", 3, ["first.omf: OK 6 records, 48 bytes", "06-Checksum.omf: refused 6 Checksum record 3 at 23 within 10"],
     ["omf-dump: read nofile.obj: No such file or directory (os error 2)"]),
    ("omf-lib get bad.lib -d .", 1, ["wrote A.obj 48", "wrote mark.asm.obj 95"], ["omf-lib: bad.lib: fault 7 Member at 16 member 0 refused 6 Checksum record 3 at 23 within 10"]),
    ("omf-lib get bad.lib mark.asm -d . --numbered", 0, ["wrote 1.obj 95"], []),
    ("omf-lib get small.lib ..\\gets.asm -d .", 0, ["wrote ..\\x5Cgets.asm.obj 47"], []),
    ("omf-lib get small.lib ..\\x5Cgets.asm -d . --numbered", 1, [], ["omf-lib: refused 1.obj: it is there already"]),
    ("omf-lib make -o new.lib old.lib", 0, ["wrote new.lib 1536 bytes, 1 members"], ["omf-lib: case does not count in old.lib, but in new.lib: --ignore-case keeps it"]),
    ("omf-lib make --ignore-case -o whole.lib old.lib", 0, ["wrote whole.lib 1536 bytes, 1 members"], []),
    ("omf-lib make -o case.lib same.lib", 0, ["wrote case.lib 1536 bytes, 1 members"], []),
    ("omf-lib make -o module.lib say.obj", 0, ["wrote module.lib 1536 bytes, 1 members"], []),
]


def stops(folder, call, status, printed, said):
    """What a call that goes on does otherwise."""
    name, *words = words_of(call)
    done = subprocess.run([program(name.decode().replace("-", "_")), *words], cwd=folder, stdin=subprocess.DEVNULL, capture_output=True, timeout=60, check=False)
    found = done.returncode, done.stdout.decode().splitlines()[: len(printed)], done.stderr.decode().splitlines()
    if found != (status, printed, said):
        yield f"{found}"


# Calls of which each does what the first one does: its status, and its bytes on both outputs.
SAME = [
    ["omf-link bin --base 7C00 --size 200 -t program.link start.obj say.obj mark.obj", "omf-link bin --base 0x7C00 --size 0x200 -t program.link start.obj say.obj mark.obj",
     "omf-link bin --base 7c00h --size 200H --fill FFH -t program.link start.obj say.obj mark.obj", "omf-link @bin.rsp", "omf-link @front.rsp",
     "omf-link bin --base=07C00H --size=0x200 --fill=0FFH -t=program.link start.obj say.obj mark.obj"],
    ["omf-link exe -o - --stack 8 --allow twice --library-path b main.obj show.obj report.obj", "omf-link exe --allow twice main.obj --stack 8 show.obj -o - report.obj --library-path b"],
    ["omf-link com -o - --stack 8 --allow twice --library-path b tiny.obj", "omf-link com --allow twice tiny.obj --stack 8 -o - --library-path b"],
    ["omf-link bin --base 0 --size 10000 -t program.link start.obj say.obj mark.obj", "omf-link bin --base 0 --size 64K -t program.link start.obj say.obj mark.obj"],
    ["omf-link exe --stack 4096 -o - main.obj show.obj report.obj", "omf-link exe --stack 4K -o - main.obj show.obj report.obj", "omf-link exe --stack 0x1000 -o - main.obj show.obj report.obj", "omf-link exe --stack=4096 -o - main.obj show.obj report.obj"],
    ["omf-link image -t program.link start.obj say.obj mark.obj", "omf-link image -t program.link start say mark", "omf-link image -t program.link ./start say.obj mark", "omf-link image -t program.link start.obj say.obj padded.obj"],
    ["omf-link draft start.obj mark.obj", "omf-link draft start mark"], ["omf-link lower -o - mark.obj", "omf-link lower -o - mark"], ["omf-place hello.obj", "omf-place hello"],
    ["omf-link map -t plain.link start.obj", "omf-link map -t mark.link start.obj", "omf-link map -t marked.link start.obj", "omf-link map -t=plain.link start.obj"],
    ["omf-place --base 7C00 first.omf", "omf-place --base 0x7C00 first.omf", "omf-place --base 7C00H first.omf"],
    ["omf-link --help", "omf-link -h", "omf-link help", "omf-link exe --help", "omf-link bin -h"],
    ["omf-lib --help", "omf-lib -h", "omf-lib help", "omf-lib find --help"],
    *([f"{it} --help", f"{it} -h"] for it in ("omf-dump", "omf-find", "omf-place")),
    ["omf-dump --verdict -- -x.obj", "omf-dump @dash.rsp"],
    ["omf-lib make -o - hundred.obj", "omf-lib make -o=- hundred.obj"],
    ["omf-dump --verdict my%20name.obj a%20bcd%20e x%22y", "omf-dump @names.rsp"],
    ["omf-lib find small.lib _gets", "omf-lib find small.lib \\x5Fgets", "omf-lib find small.lib _get\\x73"],
]


def others(folder, first, *calls):
    """The calls that do something else than the first, or all if that one is not done."""
    wanted = None
    for call in (first, *calls):
        name, *words = words_of(call)
        done = subprocess.run([program(name.decode().replace("-", "_")), *words], cwd=folder, stdin=subprocess.DEVNULL, capture_output=True, timeout=60, check=False)
        found = done.returncode, done.stdout, done.stderr
        wanted = wanted or found
        if found != wanted or done.returncode or not done.stdout:
            yield f"{call}: status {done.returncode}, {done.stderr[:80]}"
        if b"usage: " in done.stdout and any(len(it) > 80 for it in done.stdout.decode().splitlines()):
            yield f"{call}: a line is longer than 80 columns"


def main():
    wanted, right, wrong = sys.argv[1] if len(sys.argv) > 1 else "", 0, 0
    with tempfile.TemporaryDirectory() as made:
        folder = pathlib.Path(made)
        for name in FILES:
            shutil.copy(ROOT / "examples" / name, folder / pathlib.Path(name).name)
        for name, text in TEXTS.items():
            (folder / name).write_bytes(text.encode() if isinstance(text, str) else text)
        shutil.copy(folder / "first.omf", folder / "-x.obj")
        for number, call, status, said in rows():
            if wanted not in call:
                continue
            found = list(faults(folder, call, status, said))
            right, wrong = right + (not found), wrong + bool(found)
            print("".join(f"mistakes.txt:{number}: {call}: {it}\n" for it in found), end="")
        for call, *how in GO_ON:
            if wanted in call:
                found = list(stops(folder, call, *how))
                right, wrong = right + (not found), wrong + bool(found)
                print("".join(f"{call}: {it}\n" for it in found), end="")
        for calls in SAME:
            if wanted in calls[0]:
                found = list(others(folder, *calls))
                right, wrong = right + (not found), wrong + bool(found)
                print("".join(f"not as {calls[0]}: {it}\n" for it in found), end="")
    print(f"{right} mistakes told, {wrong} otherwise")
    return 1 if wrong or not right else 0


if __name__ == "__main__":
    sys.exit(main())
