"""The smallest input that still differs: whole files are left out, then records or lines, then bytes of what is left."""
import struct
import time

from changes import records_of

# Of longer inputs no single bytes are left out, apart from those in records and lines.
MOST_BYTES = 512


def fewer(parts, differs, until):
    """Parts in their order, of which none can be left out alone so that it still differs; or what is left at that time."""
    size = max(len(parts) // 2, 1)
    while size and time.monotonic() < until:
        at = 0
        while at < len(parts) and time.monotonic() < until:
            left = parts[:at] + parts[at + size:]
            if differs(left):
                parts = left
            else:
                at += size
        size //= 2
    return parts


def parts_of(bytes_):
    """The records of a file and what follows them; or its lines, where it begins with no record."""
    found, rest = records_of(bytes_)
    if not found or bytes_[:1] < b"\x6E":
        return bytes_.splitlines(keepends=True)
    return [bytes(it) for it in found] + ([bytes(rest)] if rest else [])


def record(kind, body):
    """A record with a checksum byte of 0, which is right whatever the sum."""
    return kind + struct.pack("<H", len(body) + 1) + body + b"\0"


def without_parts(bytes_, differs, until):
    return b"".join(fewer(parts_of(bytes_), lambda it: differs(b"".join(it)), until))


def without_contents(bytes_, differs, until):
    """Each record with less contents, its length mended."""
    parts = parts_of(bytes_)
    for at, one in enumerate(parts):
        if len(one) < 5 or len(one) != 3 + struct.unpack_from("<H", one, 1)[0]:
            continue
        def whole(body):
            return b"".join([*parts[:at], record(one[:1], bytes(body)), *parts[at + 1:]])
        if differs(whole(one[3:-1])):
            parts[at] = record(one[:1], bytes(fewer(list(one[3:-1]), lambda it: differs(whole(it)), until)))
    return b"".join(parts)


def without_bytes(bytes_, differs, until):
    return bytes(fewer(list(bytes_), lambda it: differs(bytes(it)), until)) if len(bytes_) <= MOST_BYTES else bytes_


def smallest(inputs, differs, seconds):
    """The smallest files that are found in that time, of which `differs` is still true. It is of no call without files."""
    until = time.monotonic() + seconds
    inputs = fewer(list(inputs), lambda it: bool(it) and differs(it), until)
    for step in (without_parts, without_contents, without_bytes):
        for number in range(len(inputs)):
            inputs[number] = step(inputs[number], lambda it: differs([*inputs[:number], it, *inputs[number + 1:]]), until)
    return inputs
