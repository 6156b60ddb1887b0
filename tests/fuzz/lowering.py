"""omf-link lower: made modules with CEXTDEFs and BAKPATs, and changed ones, against a second reader; with COMDATs against the one of tests/lowered.py."""
import functools
import re

import executables
import kinds
import libraries
import wide
from changes import changed_module
from libraries import record
from promises import program, promised, run

# A fault of a record's layout, as `omf check` prints it.
LAYOUT = re.compile(rb"refused ((?:[89]|1[0-8]) \w+) record (\d+) at \d+ within (\d+)\n")
HEADER, HEADERS = record(0x80, b"\x01A"), (0x80, 0x82)


class Lower:
    IS_BATCH = False

    def __init__(self, seeds, random_, every):
        self.link, self.omf, self.random, self.seeds = program("omf_link"), program("omf"), random_, seeds
        self.accepted = self.compared = 0
        self.verdict = functools.lru_cache(4096)(lambda bytes_: run([self.omf, "check"], bytes_))

    def inputs(self):
        """A made module, perhaps changed, or with padding and another or any file after it; or one with COMDATs; or any file, changed."""
        random_, kind = self.random, self.random.randrange(10)
        if kind > 7:
            return [kinds.various(random_, [executables.module(random_, 0, True)], executables.fixup)[0]]
        made = b"".join(wide.Made(random_).records)
        if kind < 3:
            return [changed_module(random_, [made, made, made, *random_.sample(self.seeds, 3)])]
        if kind == 3:
            other = random_.choice((b"".join(wide.Made(random_).records), random_.choice(self.seeds)))
            return [made + random_.choice((b"", b"\0", b"\x1A" * 40, b"\0\x1A")) + other]
        return [made]

    def judge(self, one):
        """The fault of a record's layout: the one that `omf check` has for the record alone, or after a header."""
        front = b"" if one[0] in HEADERS else HEADER
        found = LAYOUT.fullmatch(self.verdict(front + one)[1])
        if found and found[1] in (b"13 CommunalType", b"15 FrameMethod", b"16 TargetMethod"):
            raise wide.Beyond
        if found and int(found[2]) == (front != b""):
            raise wide.Fault(found[1].decode(), int(found[3]))

    def look(self, inputs, folder):
        """The bytes are those of the reader, or the line is; a module that `omf check` accepts stays."""
        bytes_, path = inputs[0], folder / "out.obj"
        (folder / "wide.obj").write_bytes(bytes_)
        path.unlink(missing_ok=True)
        status, line = run([self.link, "lower", "-o", "out.obj", "wide.obj"], folder=folder)
        made = path.read_bytes() if path.exists() else None
        promised(status in (0, 1) and (made is None) == (status == 1), f"lower: status {status}, {line[:200]}")
        try:
            wanted = wide.lowered(bytes_, "wide.obj", self.judge)
        except wide.Beyond:
            return
        except wide.Unread:
            found = kinds.plain([bytes_]) if status == 0 else None
            promised(found is None or made == found[1][0], "lower: not the bytes of the reader of COMDATs")
            return
        if isinstance(wanted, bytes):
            promised((status, line, made) == (0, b"", wanted), f"lower: status {status}, {line[:200]}, not the bytes of the reader")
            self.accepted += 1
        else:
            # A FIXUPP that also names a frame by number is written anew, so that a fault in it is of the whole record.
            whole = re.sub(r"(17 LocationType .*) within \d+", r"\1 within 0", wanted)
            promised((status, made) == (1, None) and line in (wanted.encode(), whole.encode()), f"lower: status {status}, {line[:200]}, not {wanted}")
        if status == 0 and run([self.omf, "check"], bytes_)[0] == 0:
            size = libraries.module_length(bytes_)
            promised(made[:size] == bytes_[:size], "lower: an accepted module is changed")
        self.compared += 1
