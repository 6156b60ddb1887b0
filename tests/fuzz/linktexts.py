"""Link texts: what `omf-link image` makes of them, against the modules relocated one by one by `omf reloc`, and against its own files for chips."""
import re

import executables
from modules import UNRESOLVED, is_simple, unresolved_lines
from promises import ALLOW_ALL, program, promised, run
from texts import TURNS, as_read, changed_text, first_bad, is_linked, respelled

FAULT = re.compile(rb"(?:text: line .*\n  |(?:file|module|two starts|no room|memory)\b).*\n")
MOST = 1 << 16
# Lines of every form, to put among others.
FORMS = b"""C "CODE" 7C00 real
C "DATA" after 0 0 at after
P "_TEXT" 0x500 500H 50
P "_DATA" "DATA" after real at F0000
F "DGROUP" 7C00 7C0
S #1 10 shared at 20
S "_TEXT" "CODE" 10 10 1 at 0FFFF0h
G #1 real
G "DGROUP" shared
X "f" 10 real
M #1""".split(b"\n")


def of_hex(text):
    """The bytes by address of Intel HEX."""
    found, upper = {}, 0
    for line in text.split():
        raw = bytes.fromhex(line[1:].decode())
        promised(line[:1] == b":" and sum(raw) % 256 == 0 and len(raw) == raw[0] + 5, f"HEX {line}")
        at, data = int.from_bytes(raw[1:3], "big"), raw[4:-1]
        if raw[3] == 0:
            found.update((upper + (at + number) % 0x10000, byte) for number, byte in enumerate(data))
        elif raw[3] in (2, 4):
            upper = int.from_bytes(data, "big") << (4 if raw[3] == 2 else 16)
    return found


def of_srec(text):
    """The bytes by address of S-records."""
    found = {}
    for line in text.split():
        raw = bytes.fromhex(line[2:].decode())
        promised(sum(raw) % 256 == 255 and len(raw) == raw[0] + 1, f"S-record {line}")
        size = {b"S1": 2, b"S2": 3, b"S3": 4}.get(line[:2])
        if size:
            found.update(enumerate(raw[1 + size:-1], int.from_bytes(raw[1:1 + size], "big")))
    return found


class LinkText:
    IS_BATCH = False

    def __init__(self, seeds, random_, every):
        self.link, self.omf, self.random = program("omf_link"), program("omf"), random_
        self.modules = [it for it in seeds if it[:1] != b"\xF0" and run([self.omf, "check"], it)[0] == 0]
        self.texts = [b'M "A"\nS #1 7C00 real\nG "DGROUP" 0 0\nX "f" 0 0 0']
        self.accepted = self.compared = 0

    def inputs(self):
        count = self.random.randrange(1, 4)
        made = [executables.module(self.random, number, number == 0) for number in range(count)]
        if self.random.randrange(3) == 0:
            made[-1] = self.random.choice(self.modules)
        return made

    def task(self, task, names, folder, text=None, *options):
        """The status and the output of a task; of a fault one line, or one for each name; of one in the text two, with its line."""
        if text is not None:
            (folder / "text").write_bytes(text)
        text_options = [] if text is None else [*ALLOW_ALL, "-t", "text"]
        status, answer = run([self.link, task, *options, *text_options, *names], folder=folder)
        named = UNRESOLVED.match(answer)
        rest = answer[named.end():] if named else answer
        is_fault = (named and not rest) or FAULT.fullmatch(rest)
        promised(status == 0 or (status == 1 and is_fault), f"{task}: status {status}, {answer[:200]}")
        return status, answer

    def look(self, inputs, folder):
        random_ = self.random
        names = [f"in{number}.obj" for number in range(len(inputs))]
        for name, bytes_ in zip(names, inputs):
            (folder / name).write_bytes(bytes_)
        base = f"{random_.choice((0, 0x100, 0x7C00, 0x10000, 0xF0000, 0xFFFFFFF0)):X}"
        frame = random_.choice((["--real"], ["--real"], ["--flat", f"{random_.randrange(65536):X}"]))
        status, draft = self.task("draft", names, folder, None, "--base", base, *frame)
        if status:
            return
        draft = draft.removesuffix(b"\n")
        self.texts = [*self.texts[-50:], draft]
        answer = self.task("image", names, folder, draft)
        promised(not answer[1].startswith(b"text") and b" Missing " not in answer[1], f"a draft is not read back: {answer[1][:200]}")
        self.accepted += answer[0] == 0
        if all(map(is_simple, inputs)):
            self.compare(inputs, draft, answer)
        promised(self.task("image", names, folder, respelled(random_, draft, True)) == answer, "another spelling has another image")
        if answer[0] == 0:
            self.look_at_files(names, folder, draft, answer[1])
        for _ in range(TURNS):
            self.try_text(names, folder, changed_text(random_, draft, [*self.texts, *FORMS]))

    def compare(self, inputs, draft, answer):
        """The image has the bytes of the modules, each relocated alone; or the first that does not reach is reported, or the names without one public."""
        if answer[0] == 0 or UNRESOLVED.fullmatch(answer[1]):
            wanted = unresolved_lines(inputs, [f'file "in{number}.obj" module 1' for number in range(len(inputs))])
            promised(wanted in (None, answer[1] if answer[0] else b""), f"{answer[1]}, not {wanted}")
        if answer[0] == 1 and not re.match(rb"module \d+ reach ", answer[1]):
            return
        memory, start = executables.relocated(self.omf, inputs, draft)
        self.compared += 1
        if answer[0] == 1:
            promised(isinstance(memory, bytes) and answer[1].endswith(b" " + memory), f"image {answer[1]}, reloc {memory}")
        else:
            promised((memory, start) == executables.memory_of(answer[1]), "image and reloc have other bytes")

    def look_at_files(self, names, folder, draft, lines):
        """The same bytes as Intel HEX, as S-records and as a raw binary."""
        memory, _ = executables.memory_of(lines)
        if not memory:
            return
        status, text = self.task("hex", names, folder, draft)
        promised(status == 0 and of_hex(text) == memory, "other bytes in HEX")
        status, text = self.task("srec", names, folder, draft, "--addresses", "32")
        promised(status == 0 and of_srec(text) == memory, "other bytes in S-records")
        low, size = min(memory), max(memory) - min(memory) + 1
        if size <= MOST:
            (folder / "rom").unlink(missing_ok=True)
            status, _ = self.task("bin", names, folder, draft, "--base", f"{low:X}", "--size", f"{size:X}", "-o", "rom")
            promised(status == 0 and (folder / "rom").read_bytes() == bytes(memory.get(low + it, 0xFF) for it in range(size)), "other bytes in the raw binary")

    def try_text(self, names, folder, text):
        """The first line that is no entry is reported; where there is none, no line is not understood."""
        status, answer = self.task("image", names, folder, text)
        bad = first_bad(as_read(text), is_linked)
        said = re.match(rb"text: line (\d+): (?:expected|a byte that is not ASCII)", answer)
        promised((int(said[1]) if said else None) == bad, f"line {bad}, and {answer[:200]}")
        self.compared += 1
