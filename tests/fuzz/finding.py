"""omf-find on programs that omf-link makes: what is found has the module's bytes where no fixup touches them, read by a second reader; and on changed files."""
import json
import struct
import subprocess

import executables
import libraries
from changes import change_bytes, changed_module, records_of
from promises import TIMEOUT, program, promised

# The bytes of a location, by its number (TIS OMF 1.1, "FIXUPP").
LOCATION_BYTES = {0: 1, 1: 2, 2: 2, 3: 4, 4: 1, 5: 2, 9: 4, 11: 6, 13: 4}
LEDATA, FIXUPP = 0xA0, 0x9C
ALLOWED = ["--allow", "group", "--allow", "near", "--allow", "twice"]


def locations_in(body):
    """The offset of each location of a FIXUPP as executables.module writes them, with its number of bytes."""
    at = 0
    while at < len(body):
        high, low, method = body[at:at + 3]
        yield (high & 3) << 8 | low, LOCATION_BYTES[high >> 2 & 15]
        at += 4 + (method >> 4 < 3)


def closed_bytes(module):
    """The bytes of a made module that no location touches: by segment and offset."""
    closed, segment, start = {}, 0, 0
    for record in records_of(module)[0]:
        body = bytes(record[3:-1])
        if record[0] == LEDATA:
            segment, start = body[0], struct.unpack_from("<H", body, 1)[0]
            closed.update(((segment, start + at), byte) for at, byte in enumerate(body[3:]))
        elif record[0] == FIXUPP:
            for at, size in locations_in(body):
                for offset in range(start + at, start + at + size):
                    closed.pop((segment, offset), None)
    return closed


class Find:
    IS_BATCH = False

    def __init__(self, seeds, random_, every):
        self.find, self.link, self.random = program("omf_find"), program("omf_link"), random_
        self.seeds = seeds
        self.modules = [it for it in seeds if it[:1] != b"\xF0" and libraries.module_length(it)]
        self.accepted = self.compared = 0

    def inputs(self):
        count = self.random.randrange(4) + 1
        return [executables.module(self.random, number, number == 0) for number in range(count)]

    def lines(self, words, names, folder):
        """The objects that a run prints. Faults are among them, and the status is then 1."""
        done = subprocess.run([self.find, "--json", *words, *names], stdout=subprocess.PIPE, stderr=subprocess.PIPE, cwd=folder, timeout=TIMEOUT)
        promised(done.returncode in (0, 1), f"omf-find: status {done.returncode}, {done.stderr[-200:]}")
        promised(all(it == 10 or 32 <= it < 127 for it in done.stdout + done.stderr), "omf-find: control characters")
        found = [json.loads(it) for it in done.stdout.splitlines()]
        faults = [it for it in found if "fault" in it]
        promised(done.stderr == b"" and (done.returncode == 1) == bool(faults), f"omf-find: status {done.returncode} with {faults}, {done.stderr[-200:]}")
        return found

    def look(self, inputs, folder):
        names = [f"in{number}.obj" for number in range(len(inputs))]
        for name, bytes_ in zip(names, inputs):
            (folder / name).write_bytes(bytes_)
        (folder / "p.exe").unlink(missing_ok=True)
        made = subprocess.run([self.link, "exe", "-o", "p.exe", *ALLOWED, *names], stdout=subprocess.PIPE, stderr=subprocess.PIPE, cwd=folder, timeout=TIMEOUT)
        if made.returncode == 0:
            self.accepted += 1
            self.compare(inputs, names, folder)
        self.look_at_changed(inputs, names, folder)

    def compare(self, inputs, names, folder):
        """Each segment that is found has the closed bytes of its module."""
        file = (folder / "p.exe").read_bytes()
        image = file[16 * struct.unpack_from("<H", file, 8)[0]:]
        for line in self.lines([], ["p.exe", *names], folder):
            if "segment" in line and "index" in line:
                number = names.index(line["file"])
                for (segment, offset), byte in closed_bytes(inputs[number]).items():
                    at = line["segment"] + offset
                    promised(segment != line["index"] or (at < len(image) and image[at] == byte), f"{line} has other bytes at {offset}")
                self.compared += 1

    def look_at_changed(self, inputs, names, folder):
        """Changed programs and modules are read or refused."""
        path = folder / "p.exe"
        bytes_ = bytearray(path.read_bytes()) if path.exists() else bytearray(b"MZ" + bytes(40))
        for _ in range(self.random.choice((1, 2, 8))):
            bytes_ = change_bytes(self.random, bytes_, self.seeds)
        (folder / "q.exe").write_bytes(bytes(bytes_))
        (folder / names[0]).write_bytes(bytes(changed_module(self.random, [*inputs, *self.modules])))
        base = ["--base", f"{self.random.choice((0, 0x100, 0x10000, 0xFFFFFFFF)):X}"] if self.random.randrange(4) == 0 else []
        for line in self.lines([*base, "--possible"], ["q.exe", *names], folder):
            if "program" in line:
                promised(line["explained"] <= line["length"] and line["found"] <= line["modules"], f"{line}")
