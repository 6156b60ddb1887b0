#!/usr/bin/env python3
"""The standard input and output of `omf`, `omf-link` and `omf-place`: a reader that fails after each number of bytes, a writer with room for each number
of bytes, and an input in pieces.

usage: tests/devices/streams.py [STEP]     (each STEP-th case of a call: 18)

Cases of crates/omf_cases/stdin are run so. Where a reader fails before the program has all that it needs, the status is 3 and the fault `read`;
a failure after that does not show. A full writer has the front of the text, and the status is 3, or as without where that is not 0. A placement text has
4,194,304 bytes at most, also from a reader that never ends. A text of more than 64 KB is written in pieces, each up to the end of a line.

The reader is a terminal whose other end is closed (EIO), the writer a file under a limit (RLIMIT_FSIZE). OMF, OMF_LINK and OMF_PLACE name the programs. The
status is 0 where every promise held."""
import fcntl
import os
import pathlib
import pty
import resource
import struct
import subprocess
import sys
import tempfile
import termios
import threading
import time
import tty

TESTS = pathlib.Path(__file__).resolve().parent.parent
sys.path[:0] = [str(TESTS / "fuzz"), str(TESTS.parent / "conformance")]
from promises import TIMEOUT, program, promised  # noqa: E402
from run import CASES, cases_of  # noqa: E402

CALLS = ("omf check", "omf list", "omf canon", "omf reloc", "omf-link image", "omf-link map", "omf-link draft", "omf-place", "omf-place --real")
OF_A_MODULE = {"check", "list", "canon", "omf-place"}
PROGRAMS = {it: program(it.replace("-", "_")) for it in ("omf", "omf-link", "omf-place")}
OUTPUT, UNLIMITED, TEXT_LIMIT = tempfile.TemporaryFile(), resource.getrlimit(resource.RLIMIT_FSIZE), 4194304
RELOC, MISSING, TOO_LONG = ["omf", "reloc"], (1, b"reach 1 Missing segment 1\n"), (1, b"placement too long\n")
MODULE = bytes.fromhex("80030001413B 96040000015411 98070028040002010131 A00800010000B80000900F 9C0600C40104010193 8A02000074")
HEADER, NAMES, END = MODULE[:6], MODULE[6:13], MODULE[-5:]
tried = 0


def begin(call, reader, room=None):
    """Starts a program. No signal ends it where the file is full: Python ignores SIGXFSZ."""
    global tried
    tried += 1
    OUTPUT.seek(0)
    OUTPUT.truncate()
    if room is not None:
        resource.setrlimit(resource.RLIMIT_FSIZE, (room, UNLIMITED[1]))
    try:
        return subprocess.Popen([PROGRAMS[call[0]], *call[1:]], stdin=reader, stdout=OUTPUT, stderr=subprocess.PIPE, restore_signals=False)
    finally:
        resource.setrlimit(resource.RLIMIT_FSIZE, UNLIMITED)


def end(running):
    """The status of a program, its text, and its lines on the standard error."""
    lines = running.communicate(timeout=TIMEOUT)[1]
    OUTPUT.seek(0)
    return running.returncode, OUTPUT.read(), lines


def fed(call, feed, reader, writer):
    """A run over a reader that a function fills."""
    feeder = threading.Thread(target=feed, args=(writer,))
    try:
        running = begin(call, reader)
    finally:
        os.close(reader)
    feeder.start()
    found = end(running)
    feeder.join()
    return found


def put(writer, bytes_):
    """Writes bytes, and closes the writer; the program may have ended before."""
    try:
        while bytes_:
            bytes_ = bytes_[os.write(writer, bytes_):]
    except OSError:
        pass
    os.close(writer)


def failing(call, front):
    """A run over a reader that fails after these bytes."""
    reader, writer = pty.openpty()
    tty.setraw(writer)
    return fed(call, lambda to: put(to, front), reader, writer)


def endless(call, front):
    """A run over a reader with these bytes and then spaces, without end."""
    def feed(writer):
        put(os.dup(writer), front)
        try:
            while True:
                os.write(writer, b" " * 65536)
        except BrokenPipeError:
            os.close(writer)

    return fed(call, feed, *os.pipe())


def in_pieces(call, input_, size):
    """A run over a reader with pieces of a size: each is written when the one before it is read."""
    def feed(writer):
        for at in range(0, len(input_), size):
            until = time.monotonic() + 1
            while struct.unpack("i", fcntl.ioctl(watched, termios.FIONREAD, bytes(4)))[0] and time.monotonic() < until:
                time.sleep(0)
            try:
                os.write(writer, input_[at:at + size])
            except BrokenPipeError:
                break
        os.close(writer)
        os.close(watched)

    reader, writer = os.pipe()
    watched = os.dup(writer)
    return fed(call, feed, reader, writer)


def whole(call, input_, room=None):
    """A run over a file, with room for `room` bytes."""
    with tempfile.TemporaryFile() as reader:
        reader.write(input_)
        reader.seek(0)
        return end(begin(call, reader, room))


def needed(call, input_):
    """After how many bytes a failing reader does not matter: at the end of the module, or never."""
    at = 0
    while call[-1] in OF_A_MODULE or call[0] == "omf-place":
        kind, size = input_[at], 3 + int.from_bytes(input_[at + 1:at + 3], "little")
        at += size
        if kind in (0x8A, 0x8B):
            return at
    return len(input_) + 1


def has_fault(call, word, text, found):
    """Whether a run ended with status 3 and the fault of its device: of `omf` on the standard output, and none of that."""
    if call[0] == "omf":
        return found == (3, b"read\n" if word == "read" else text, b"")
    return found[:2] == (3, text) and found[2].startswith(f"{call[0]}: {word}".encode()) and found[2].count(b"\n") == 1


def over_readers(case):
    """A reader that fails after each number of bytes."""
    for count in range(len(case.input) + 1):
        found = failing(case.call, case.input[:count])
        right = found == (0, case.printed, b"") if count >= needed(case.call, case.input) else has_fault(case.call, "read", b"", found)
        promised(right, f"line {case.line}: a reader that fails after {count} bytes: {found}")


def over_writers(case, rooms):
    """A writer with room for each of these numbers of bytes."""
    for room in rooms:
        found, front = whole(case.call, case.input, room), case.printed[:room]
        kept = case.status != 0 or room >= len(case.printed)
        right = found == (case.status, front, b"") if kept else has_fault(case.call, "write", front, found)
        promised(right, f"line {case.line}: a writer with room for {room} bytes: {found}")


def over_pieces(case, sizes):
    for size in sizes:
        found = in_pieces(case.call, case.input, size)
        promised(found == (0, case.printed, b""), f"line {case.line}: in pieces of {size} bytes: {found}")


def text_limits():
    """The limit of a placement text comes before a line at fault, and before a reader that fails after it."""
    def spaced(first, count):
        return MODULE + (first + b" " * (count - 1))

    for first, count, wanted in ((b" ", TEXT_LIMIT, MISSING), (b"X", TEXT_LIMIT, (1, b"placement line 1\n")), (b"X", TEXT_LIMIT + 1, TOO_LONG), (b" ", TEXT_LIMIT + 1, TOO_LONG)):
        promised(whole(RELOC, spaced(first, count))[:2] == wanted, f"reloc: a text of {count} bytes from {first} on")
    for first, count, wanted in ((b"X", 2, (3, b"read\n")), (b" ", TEXT_LIMIT, (3, b"read\n")), (b" ", TEXT_LIMIT + 1, TOO_LONG)):
        promised(failing(RELOC, spaced(first, count))[:2] == wanted, f"reloc: a text of {count} bytes from {first} on, and a reader that fails")
    promised(endless(RELOC, MODULE)[:2] == TOO_LONG, "reloc: a text without an end")


def large_cases(like):
    """Texts of more than 64 KB: 41 records of 1,000 bytes, each byte its record's number; 4,000 records without contents."""
    records = b"".join(b"\xA0\xEC\x03\x01" + (1000 * it).to_bytes(2, "little") + bytes([it]) * 1000 + b"\0" for it in range(41))
    input_ = HEADER + NAMES + bytes.fromhex("98 07 00 2A 00 00 02 01 01 33") + records + END + b"S 10020 10000 1000"
    lines = ("0001:%08X%s\n" % (at, "".join(" %02X" % (it // 1000) for it in range(at, min(at + 16, 41000)))) for at in range(0, 41000, 16))
    yield like._replace(call=RELOC, input=input_, status=0, printed="".join(lines).encode())
    lines = ["R 0 00000000 80 2 THEADR\n", *("R %d %08X 9C 0 FIXUPP\n" % (it, 4 * it + 2) for it in range(1, 4001)), "R 4001 00003E86 8A 1 MODEND\n"]
    yield like._replace(call=["omf", "list"], input=HEADER + b"\x9C\x01\0\x63" * 4000 + END, status=0, printed="".join(lines).encode())


def main():
    step = int(sys.argv[1]) if len(sys.argv) > 1 else 18
    cases = [it for it in cases_of(CASES) if len(it.input) < 200 and len(it.printed) < 500]
    done = [it for call in CALLS for it in [case for case in cases if " ".join(case.call) == call and case.status == 0][::step]]
    refused = [it for it in cases if it.call[0] == "omf" and it.status == 1][::3 * step]
    for case in done:
        over_readers(case)
        over_writers(case, range(len(case.printed) + 1))
        over_pieces(case, (1, 7, 65))
    usage = next(it for it in cases_of(CASES) if it.call == ["omf"] and it.status == 2)
    for case in (*refused, usage):
        over_writers(case, range(len(case.printed) + 1))
    text_limits()
    for case in large_cases(done[0]):
        whole_, more = len(case.printed), (0, 65535, 65536, 65560, 65595, 65596, 65597, 100000, 131191, 131192, 131193)
        over_writers(case, [*(it for it in more if it < whole_), whole_ - 1, whole_])
        over_pieces(case, (1000,))
    print(f"{tried} runs over failing and full devices and in pieces, of {len(done) + len(refused) + 1} cases")


if __name__ == "__main__":
    main()
