#!/usr/bin/env python3
"""objconv -dhsr: segments, groups, externals and publics. It refuses a module where it prints an error or a warning.

It prints the names of a public's group and segment and not their indices, no communals, and the length 0 for 2^16 and
2^32."""
import re

import peer

SEGMENT = re.compile(r"  Segment +\d+, Name (.*), Class .*, Align .*, Length (\d+)")
PUBLIC = re.compile(r"  (.*), Segment (.*), Group (.*), Offset 0x([0-9A-F]+), Type \d+(?:, Frame \d+)?")


def fault(status, text):
    said = re.search(r"^(Error|Warning) \d+:.*", text, re.MULTILINE)
    return said and said[0] or (f"status {status}" if status else None)


def tables(text):
    segments = SEGMENT.findall(text)
    groups = re.findall(r"^  Group: (.*)", text, re.MULTILINE)
    names = [name for name, _ in segments]
    if re.search(r"^  Segment +\d.*, big, Length 0", text, re.MULTILINE):
        peer.cannot()
    for number, (name, length) in enumerate(segments, 1):
        yield f"S {number} {length} {'-' if name == 'null' else peer.quoted(name)}"
    for number, name in enumerate(groups, 1):
        yield f"G {number} {peer.quoted(name)}"
    for number, name in enumerate(re.findall(r"^ +\d+  (.*), Type \d+$", text, re.MULTILINE), 1):
        yield f"E {number} {peer.quoted(name)}"
    for name, segment, group, offset in PUBLIC.findall(text):
        of_group = "-" if group == "none" else peer.only(groups, group)
        of_segment = "-" if segment == "none" else peer.only(names, segment)
        yield f"P {of_group} {of_segment} {int(offset, 16):08X} {peer.quoted(name)}"


peer.answer(["objconv", "-dhsr"], fault, "S G E P", tables)
