"""Placement texts and link texts, drafted, respelled and changed: what `omf reloc` and `omf-link` do with them, against a second reader of their lines."""
import re

import executables
import libraries
from changes import change_bytes
from promises import promised, program, run

PLACE = re.compile(rb"(?:[0-9A-Fa-f]{1,8} [0-9A-Fa-f]{1,8} [0-9A-Fa-f]{1,4}|0{0,3}[0-9A-Fa-f]{1,5} real)")
FRAME = re.compile(rb"(?:[0-9A-Fa-f]{1,8} [0-9A-Fa-f]{1,4}|real)")
KEY = re.compile(rb'(?: *"[ !#-~]*"(?: *"[ !#-~]*")? *| #([0-9]{1,10})(?: |$))')
TURNS = 6
# What takes the place of a word of a line.
WORDS = b"real shared at after 0 FFFFFFFF 100000000 FFFFF 100000 #1 #0 #4294967296 10 7c00 0x7C00 7C00H 0FFFFh".split() + b'" S X C P F'.split()


def said(line):
    """A line without its carriage return, the comment and the spaces at both ends."""
    return line.removesuffix(b"\r").partition(b";")[0].strip(b" ")


def is_placed(line):
    """A line of a placement."""
    letter, _, rest = said(line).partition(b" ")
    if letter == b"E":
        return bool(PLACE.fullmatch(rest)) and not rest.endswith(b"real")
    return said(line) == b"" or bool({b"S": PLACE, b"G": FRAME}[letter].fullmatch(rest) if letter in (b"S", b"G") else None)


def without_comment(line):
    """A line of a link text without its comment: a `;` in a name is part of it."""
    found = re.match(rb'(?:[^";]*"[^"]*")*[^";]*(?=;|$)', line.removesuffix(b"\r"), re.S)
    return found[0].strip(b" ") if found else None


def number(word, most=8):
    """The value of a hexadecimal number of a link text, marked (0x7C00, 7C00H) or not; None where it is none."""
    found = re.fullmatch(rb"(?:0[xX])?([0-9A-Fa-f]{1,%d})|0?([0-9A-Fa-f]{1,%d})[hH]" % (most, most), word)
    return int(found[1] or found[2], 16) if found else None


def is_frame(words):
    """A base and a selector."""
    return len(words) == 2 and number(words[0]) is not None and number(words[1], 4) is not None


def is_place(words):
    """An address and a frame, or an address of real mode."""
    at = number(words[0]) if len(words) in (2, 3) else None
    return at is not None and (is_frame(words[1:]) or (words[1:] == [b"real"] and at < 1 << 20))


def is_where(word):
    return word == b"after" or number(word) is not None


def is_laid(words):
    """Where segments of all modules begin, and their frame; and perhaps where they are stored."""
    if len(words) > 2 and words[-2] == b"at" and is_where(words[-1]):
        words = words[:-2]
    return len(words) in (2, 3) and is_where(words[0]) and (words[1:] == [b"real"] or is_frame(words[1:]))


def is_segment(words):
    """The place of a segment, or an address in a frame that it shares; and perhaps the address at which it is stored."""
    if len(words) > 2 and words[-2] == b"at" and number(words[-1]) is not None:
        words = words[:-2]
    return is_place(words) or (words[1:] == [b"shared"] and number(words[0]) is not None)


# What the words after a key are, by the letter of the line. The last three are for all modules, and have names for a key.
MEANT = {b"M": lambda words: not words, b"S": is_segment, b"G": lambda words: words in ([b"real"], [b"shared"]) or is_frame(words), b"X": is_place,
         b"C": is_laid, b"P": is_laid, b"F": is_frame}
MOST_NAMES = {b"C": 1, b"F": 1}


def is_linked(line):
    """A line of a link text."""
    text = without_comment(line)
    if text is None or text == b"":
        return text == b""
    letter, key = text[:1], KEY.match(text, 1)
    if letter not in MEANT or not key or (key[1] and (letter in b"CPF" or int(key[1]) >= 2 ** 32)) or key[0].count(b'"') > 2 * MOST_NAMES.get(letter, 2):
        return False
    rest = text[key.end():]
    return MEANT[letter](rest.split(b" ") if rest else [])


def as_read(text):
    """A link text with one space for the spaces and tabs in a row outside of names, and without a byte-order mark."""
    parts = re.split(rb'("[^"\n]*"?|;[^\n]*)', text.removeprefix(b"\xEF\xBB\xBF"))
    return b"".join(part if part[:1] in (b'"', b";") else re.sub(rb"[ \t]+", b" ", part) for part in parts)


def first_bad(text, is_line):
    """The number of the first line that is no entry; None where there is none."""
    return next((number for number, line in enumerate(text.split(b"\n"), 1) if not is_line(line)), None)


def spelled(random_, digits, is_link):
    """Another spelling of a hexadecimal number; those of link texts may be marked."""
    digits = digits.lower().rjust(random_.randrange(5), b"0")
    return random_.choice((digits, b"0x" + digits, digits + b"H", b"0" + digits + b"h")) if is_link else digits


def respelled(random_, text, is_link=False):
    """The same entries in other spellings."""
    lines = []
    for line in text.split(b"\n"):
        if random_.randrange(4) == 0:
            lines.append(random_.choice((b"", b"  ", b"; a comment", b"\r", b' ; "', b";;")))
        entry = re.match(rb'(?:[^";]*"[^"]*")*[^";]*', line)[0].rstrip(b" ")
        key, mark, numbers = entry.rpartition(b'"')
        if random_.randrange(2):
            numbers = re.sub(rb"(?<= )[0-9A-F]{1,4}(?= |$)", lambda it: spelled(random_, it[0], is_link), numbers)
        if is_link:
            numbers = numbers.replace(b" ", random_.choice((b" ", b"  ", b"\t", b" \t  ")))
        entry = b" " * random_.randrange(3) + key + mark + numbers + b" " * random_.randrange(3)
        lines.append(entry + random_.choice((b"", b"; x", b";", b'; "a" "')) + random_.choice((b"", b"\r")))
    return b"\n".join(lines)


def changed_text(random_, text, others):
    """A text with lines moved, left out, doubled or taken from another, or with changed words or bytes."""
    lines = text.split(b"\n")
    for _ in range(random_.choice((1, 1, 2, 4))):
        at, kind = random_.randrange(len(lines)), random_.randrange(7)
        words = lines[at].split(b" ")
        if kind == 0:
            lines.insert(random_.randrange(len(lines)), lines[at])
        elif kind == 1 and len(lines) > 1:
            del lines[at]
        elif kind == 2:
            lines.insert(at, random_.choice(random_.choice(others).split(b"\n")))
        elif kind == 3:
            words[random_.randrange(len(words))] = random_.choice(WORDS)
            lines[at] = b" ".join(words)
        elif kind == 4:
            random_.shuffle(words)
            lines[at] = b" ".join(words)
        else:
            lines[at] = bytes(change_bytes(random_, bytearray(lines[at]), others))[:400]
    return b"\n".join(lines)


class Placement:
    """omf-place and `omf reloc`."""
    IS_BATCH = False

    def __init__(self, seeds, random_, every):
        self.place, self.omf, self.random = program("omf_place"), program("omf"), random_
        self.modules = [it for it in seeds if it[:1] != b"\xF0" and run([self.omf, "check"], it)[0] == 0]
        self.texts = [b"S 10000 0 0\nG real\nE 7C00 7C00 7C0"]
        self.accepted = self.compared = 0

    def inputs(self):
        made = executables.module(self.random, self.random.randrange(3), self.random.randrange(2) == 0)
        return [made if self.random.randrange(2) else self.random.choice(self.modules)]

    def draft(self, module):
        base = f"{self.random.choice((0, 0x100, 0x7C00, 0x10000, 0xF0000, 0xFFFF0, 0xFFFFFFF0, self.random.randrange(1 << 20))):X}"
        frame = self.random.choice((["--real"], ["--flat", f"{self.random.randrange(65536):X}"], []))
        return run([self.place, "--base", base, *frame], module)

    def look(self, inputs, folder):
        """The draft is of the first module, whatever follows it."""
        status, draft = self.draft(inputs[0])
        promised(status == 0 or draft.count(b"\n") == 1, f"omf-place: status {status}, {draft[:200]}")
        if status:
            return
        module, draft = inputs[0][:libraries.module_length(inputs[0])], draft.removesuffix(b"\n")
        self.texts = [*self.texts[-50:], draft]
        status, listing = run([self.omf, "reloc"], module + draft)
        promised(status == 0 or re.match(rb"reach [34] ", listing), f"a draft is not read back: {listing[:200]}")
        self.accepted += status == 0
        wanted = [sum(it[:2] == letter for it in draft.split(b"\n")) for letter in (b"S ", b"G ", b"E ")]
        promised(run([self.omf, "reloc"], module + respelled(self.random, draft)) == (status, listing), "another spelling has another listing")
        for _ in range(TURNS):
            self.try_text(module, changed_text(self.random, draft, self.texts), wanted, folder)

    def try_text(self, module, text, wanted, folder):
        """The first line that is no entry is the one that is reported; then what is missing and what is too much."""
        (folder / "text").write_bytes(text)
        status, answer = run([self.omf, "reloc"], module + text)
        promised(status == 0 or answer.count(b"\n") == 1, f"status {status}, {answer[:200]}")
        bad, lines = first_bad(text, is_placed), [said(it) for it in text.split(b"\n")]
        counts = [sum(it[:2] == letter for it in lines) for letter in (b"S ", b"G ", b"E ")]
        if bad is not None:
            promised((status, answer) == (1, b"placement line %d\n" % bad), f"line {bad}, and {answer[:200]}")
        elif b"G real" not in lines:
            promised(bool(re.match(rb"reach [12] ", answer)) == (counts != wanted), f"lines {counts}, of the module {wanted}: {answer[:200]}")
        promised(status != 0 or counts == wanted, "an image with other lines")
        self.compared += 1
