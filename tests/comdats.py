"""COMDATs for modules of an assembler that writes none: a segment with a public `NAME__` becomes the COMDAT `NAME`."""
import struct

from lowered import COMDAT, CONTINUED, DATA, NAMES, SEGMENT, index_at, named, record, shortest

PUBLIC, MARK, FAR_CODE, BYTES = 0x90, b"__", 1, 1


def records_of(module):
    at = 0
    while at < len(module):
        size = 3 + struct.unpack_from("<H", module, at + 1)[0]
        yield module[at:at + size]
        at += size


def names_in(contents):
    at, names = 0, []
    while at < len(contents):
        names.append(contents[at + 1:at + 1 + contents[at]])
        at += 1 + contents[at]
    return names


def public_in(kind, contents):
    """The segment and the name of a PUBDEF with one name."""
    _, at = index_at(contents, 0)
    segment, at = index_at(contents, at)
    name = contents[at + 1:at + 1 + contents[at]]
    return (segment, name) if len(contents) == at + 1 + len(name) + 2 + 2 * (kind & 1) + 1 else (0, b"")


def with_comdats(module, selections):
    """A module in which the last segments are COMDATs, each if its one public ends with the mark. Selections are by name."""
    records = list(records_of(module))
    publics = dict(public_in(it[0], it[3:-1]) for it in records if it[0] & 0xFE == PUBLIC)
    comdats = {segment: name[:-len(MARK)] for segment, name in publics.items() if name.endswith(MARK)}
    out, names, segments, indices = [], 0, 0, {}
    for one in records:
        kind, contents = one[0], one[3:-1]
        names += len(names_in(contents)) if kind == NAMES else 0
        segments += kind & 0xFE == SEGMENT
        if kind & 0xFE == SEGMENT and segments in comdats or kind & 0xFE == PUBLIC and public_in(kind, contents)[0] in comdats:
            continue
        segment, at = index_at(contents, 0) if kind & 0xFE == DATA else (0, 0)
        if segment not in comdats:
            out.append(one)
            continue
        name, flags, width = comdats[segment], CONTINUED if segment in indices else 0, 2 + 2 * (kind & 1)
        if segment not in indices:
            out.append(record(NAMES, named(name)))
            names += 1
            indices[segment] = names
        head = bytes([flags, selections[name] << 4 | FAR_CODE, BYTES]) + contents[at:at + width] + b"\0"
        out.append(record(COMDAT | kind & 1, head + shortest(indices[segment]) + contents[at + width:]))
    return b"".join(out)
