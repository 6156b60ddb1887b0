"""omf-dump on changed modules and libraries: its JSON, its text, and the answers of `omf`."""
import json
import re
import struct

import libraries
from changes import changed_module
from promises import parts_of, program, promised, run
from records import compare_list, compare_text, compare_verdict, last_judged, look_at_records, no_doubles

BATCH = 16


def after_padding(bytes_, at):
    """The offset after bytes of one value, 00H or 1AH."""
    value = bytes_[at:at + 1]
    return len(bytes_) - len(bytes_[at:].lstrip(value)) if value in (b"\0", b"\x1A") else at


def module_ends(bytes_):
    """The offsets where the modules of a file begin, one after another, and where the last of them and its padding end."""
    at, ends = 0, [0]
    while bytes_[at:at + 1] in (b"\x80", b"\x82"):
        length = libraries.module_length(bytes_[at:])
        at = len(bytes_) if length is None else after_padding(bytes_, at + length)
        ends.append(at)
    return ends if len(ends) > 1 else [0, len(bytes_)]


def file_modules(bytes_, rows, text):
    """The bytes from each module of a file on, its lines of JSON and its text. A line `left` has the bytes after the last."""
    ends = module_ends(bytes_)
    left = [it for it in rows if it.startswith(b'{"left":')]
    wanted = [b'{"left":true,"offset":%d,"length":%d}' % (ends[-1], len(bytes_) - ends[-1])] if ends[-1] < len(bytes_) else []
    promised(left == wanted and left == rows[len(rows) - len(left):], f"left {left}")
    texts = re.split(rb"^module .*\n", text, flags=re.M)
    texts[-1] = re.sub(rb"^left .*\n\Z", b"", texts[-1], flags=re.M)
    starts = [number for number, it in enumerate(rows) if it.startswith(b'{"module":')]
    places = [json.loads(rows[it], object_pairs_hook=no_doubles) for it in starts]
    promised([it["module"] for it in places] == list(range(1, len(ends) - 1)) and [it["offset"] for it in places] == ends[1:-1], f"modules {places}")
    promised(len(texts) == len(ends) - 1, "the texts of modules")
    stops = starts + [len(rows) - len(left)]
    return [(bytes_[at:], rows[first:stop], own) for at, first, stop, own in zip(ends, [0, *(it + 1 for it in starts)], stops, texts)]


def modules_shown(bytes_, lines, text):
    """The bytes, the lines of JSON and the text of each module, which of a library are its members; and 1 where the library has no end."""
    rows, read = lines.splitlines(), libraries.members(bytes_)
    if read is None:
        return file_modules(bytes_, rows, text), 0
    fault = [it for it in rows if it.startswith(b'{"fault":')]
    promised(fault == (rows[-1:] if fault else []) and bool(fault) != read[1], f"fault {fault}, of a library whose end is there: {read[1]}")
    texts = re.split(rb"^member .*\n", text, flags=re.M)
    texts[-1] = re.sub(rb"^fault .*\n\Z", b"", texts[-1], flags=re.M)
    page, dictionary, blocks, flags = struct.unpack_from("<HIHB", bytes_, 1)
    promised(texts[0] == b"library  page %d  dictionary %08X  blocks %d  flags %02X\n" % (page + 3, dictionary, blocks, flags), f"the header {texts[0]}")
    promised(rows[0] == b'{"library":"header","page":%d,"dictionary":%d,"blocks":%d,"flags":%d}' % (page + 3, dictionary, blocks, flags), f"the header {rows[0]}")
    starts = [number for number, it in enumerate(rows) if it.startswith(b'{"member":')]
    places = [json.loads(rows[it], object_pairs_hook=no_doubles) for it in starts]
    promised([it["member"] for it in places] == list(range(len(places))) and len(texts) == len(places) + 1, "the numbers of members")
    promised([it["offset"] for it in places][:len(read[0])] == [it[0] for it in read[0]], "the places of members")
    promised(len(places) <= len(read[0]) + len(fault), "more members")
    ends = starts[1:] + [len(rows) - len(fault)]
    lengths = [it[1] for it in read[0]] + [len(bytes_)]
    modules = [bytes_[it["offset"]:it["offset"] + length] for it, length in zip(places, lengths)]
    return [(own, rows[start + 1:end], text_) for own, start, end, text_ in zip(modules, starts, ends, texts[1:])], len(fault)


class Dump:
    IS_BATCH = True

    def __init__(self, seeds, random_, every):
        self.omf, self.dump = program("omf"), program("omf_dump")
        self.seeds, self.random, self.every = seeds, random_, every
        self.accepted = self.compared = 0

    def inputs(self):
        return [changed_module(self.random, self.seeds) for _ in range(BATCH)]

    def look(self, inputs, folder):
        flag = ["--refuse-vendor-comments"] if self.random.randrange(4) == 0 else []
        most = self.random.choice((None, None, 0, 1, 16, 17, 40))
        data = [] if most is None else ["--data", str(most)]
        names = [f"in{number:02}.obj" for number in range(len(inputs))]
        for name, bytes_ in zip(names, inputs):
            (folder / name).write_bytes(bytes_)
        if len(inputs) == 1:
            status, lines = run([self.dump, "--json", *data, *flag], inputs[0])
            other, text = run([self.dump, *data, *flag, names[0]], folder=folder)
            shown, texts = [lines], [text]
        else:
            status, lines = run([self.dump, "--json", *data, *flag, *names], folder=folder)
            other, text = run([self.dump, *data, *flag, *names], folder=folder)
            shown = parts_of(lines, [b'{"file":"%s"}\n' % it.encode() for it in names])
            texts = parts_of(text, [b"%s:\n" % it.encode() for it in names])
        promised(status == other, f"status {status} with --json, and else {other}")
        verdicts = []
        for bytes_, lines, text in zip(inputs, shown, texts):
            modules, verdict = modules_shown(bytes_, lines, text)
            own_verdicts = [verdict]
            for own, lines_, text_ in modules:
                found = look_at_records(lines_, own, most)
                compare_text(text_, found)
                own_verdicts.append(int("refused" in last_judged(found)))
                if self.random.randrange(self.every) == 0:
                    self.compare(own, found, flag)
            verdicts.append(max(own_verdicts))
            self.accepted += verdicts[-1] == 0
        promised(status == max(verdicts), f"status {status}, records {verdicts}")

    def compare(self, bytes_, found, flag):
        """What `omf` has of a module, and its records in JSON."""
        self.compared += 1
        verdict, answer = run([self.omf, "check", *flag], bytes_)
        promised(verdict == int("refused" in last_judged(found)), f"omf check: status {verdict}")
        compare_verdict(answer, found, bytes_)
        if verdict == 0 and self.random.randrange(4) == 0:
            compare_list(run([self.omf, "list", *flag], bytes_)[1], found)
