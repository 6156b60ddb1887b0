#!/usr/bin/env python3
"""NASM's omfdump: records, segments, groups, externals and publics.

It refuses a module where it notes a cut or a wrong checksum. It prints the names of a public's group and segment and
not their indices, and no name both for the name "" and for index 0."""
import re

import peer

SEGMENT = re.compile(r"\(C\d\).* size ([0-9a-f]+)\n     name '(.*?)'(?:, class '.*)?$", re.MULTILINE)
EXTERNAL = re.compile(r"^   \[[0-9a-f]{4}\] external name '(.*?)'(?:, type \d+)?$", re.MULTILINE)
PUBLIC = re.compile(r"public name '(.*)' offset ([0-9a-f]+)")


def fault(status, text):
    for said in re.finditer(r"^  \(truncated.*|checksum ..(?<!00) \(actual.*|.*missing bytes.*", text, re.MULTILINE):
        return said[0].strip()
    return f"status {status}" if status else None


def tables(text):
    at = 0
    for number, (kind, name, length) in enumerate(re.findall(r"^([0-9a-f]{2}) (\S+) +(\d+) bytes", text, re.MULTILINE)):
        plain = re.sub("(16|32)$", "", name)
        yield f"R {number} {at:08X} {kind.upper()} {int(length) - 1} {plain}"
        at += int(length) + 3
    segments = SEGMENT.findall(text)
    groups = re.findall(r"^9a GRPDEF.*\n     name '(.*)'", text, re.MULTILINE)
    names = [name for _, name in segments]
    if "" in names + groups:
        peer.cannot()
    for number, (size, name) in enumerate(segments, 1):
        length = 16 ** len(size) if int(size, 16) == 0 and "MAXSIZE" in text else int(size, 16)
        yield f"S {number} {length} {peer.quoted(name)}"
    for number, name in enumerate(groups, 1):
        yield f"G {number} {peer.quoted(name)}"
    for number, name in enumerate(EXTERNAL.findall(text), 1):
        yield f"E {number} {peer.quoted(name)}"
    for place, lines in re.findall(r"^9[01] PUBDEF.*\n(.*)\n((?:   \[.*\n)*)", text, re.MULTILINE):
        segment, group = re.search("segment '(.*?)'", place), re.search("group '(.*?)'", place)
        for name, offset in PUBLIC.findall(lines):
            of_group = peer.only(groups, group[1]) if group else "-"
            of_segment = peer.only(names, segment[1]) if segment else "-"
            yield f"P {of_group} {of_segment} {int(offset, 16):08X} {peer.quoted(name)}"


peer.answer(["omfdump"], fault, "R S G E P", tables)
