"""Changes of modules and libraries at random: of bytes anywhere, of records, of the header and of the dictionary."""
import struct

import libraries

LONGEST = 8192


def records_of(bytes_):
    """The records by their lengths, and what follows the last whole one."""
    found, at = [], 0
    while len(bytes_) - at >= 3:
        size = 3 + struct.unpack_from("<H", bytes_, at + 1)[0]
        if at + size > len(bytes_):
            break
        found.append(bytearray(bytes_[at:at + size]))
        at += size
    return found, bytes_[at:]


def change_bytes(random_, bytes_, seeds):
    """One change anywhere."""
    if not bytes_:
        return bytearray(random_.choice(seeds))
    at, size = random_.randrange(len(bytes_)), random_.choice((1, 2, 4, 16, 64))
    kind = random_.randrange(9)
    if kind == 0:
        bytes_[at] ^= 1 << random_.randrange(8)
    elif kind == 1:
        bytes_[at] = random_.choice((0, 1, 0x1B, 0x22, 0x2F, 0x5C, 0x7F, 0x80, 0xF0, 0xF1, 0xFF, random_.randrange(256)))
    elif kind == 2:
        bytes_[at:at] = random_.randbytes(size)
    elif kind == 3:
        del bytes_[at:at + size]
    elif kind == 4:
        bytes_[at:at] = bytes_[at:at + size] * random_.randrange(1, 9)
    elif kind == 5:
        to = random_.randrange(len(bytes_))
        bytes_[to:to + size] = bytes_[at:at + size]
    elif kind == 6:
        other = random_.choice(seeds)
        start = random_.randrange(len(other) + 1)
        bytes_[at:at + size] = other[start:start + size]
    elif kind == 7:
        bytes_[at:at + 2] = struct.pack("<H", random_.choice((0, 1, 2, 0x7FFF, 0x8000, 0xFFFF, random_.randrange(65536))))
    elif random_.randrange(4) == 0:
        del bytes_[at:]
    return bytes_


def change_records(random_, bytes_, seeds):
    """One change of a record, with its length mended; or a record left out, doubled, or taken from another file."""
    found, rest = records_of(bytes_)
    if not found:
        return change_bytes(random_, bytes_, seeds)
    at, kind = random_.randrange(len(found)), random_.randrange(8)
    if kind == 0:
        del found[at]
    elif kind == 1:
        found.insert(random_.randrange(len(found) + 1), found[at])
    elif kind <= 3:
        others, _ = records_of(random_.choice(seeds))
        if others:
            found.insert(at, random_.choice(others))
    elif kind == 4:
        found[at][0] ^= 1
    else:
        body = change_bytes(random_, found[at][3:], seeds)[:65535]
        found[at] = found[at][:1] + struct.pack("<H", len(body)) + body
    return bytearray(b"".join(found) + rest)


def without_sums(bytes_, at=0):
    """Sets the checksum of each record to 00, which is right whatever the sums, up to a MODEND."""
    while len(bytes_) - at >= 3:
        size = 3 + struct.unpack_from("<H", bytes_, at + 1)[0]
        if size == 3 or at + size > len(bytes_):
            return
        bytes_[at + size - 1] = 0
        at += size


def changed_module(random_, seeds):
    bytes_ = bytearray(random_.choice(seeds))
    for _ in range(random_.choice((1, 1, 2, 4))):
        bytes_ = random_.choice((change_bytes, change_records))(random_, bytes_, seeds)
    if random_.randrange(4):
        without_sums(bytes_)
    return bytes(bytes_[:LONGEST])


def change_library(random_, bytes_, modules, archives):
    """A change anywhere, in the header, in the dictionary, or of the end."""
    kind = random_.randrange(8)
    if len(bytes_) < 16 or kind <= 2:
        return change_bytes(random_, bytes_, modules + archives)
    if kind == 3:
        bytes_[random_.randrange(1, 10)] = random_.choice((0, 1, 2, 0x0D, 0x1D, 0xFD, 0x80, 0xFF, random_.randrange(256)))
    elif kind == 4:
        start = struct.unpack_from("<I", bytes_, 3)[0]
        if start < len(bytes_):
            at = random_.randrange(start, len(bytes_))
            at = at - at % 512 + random_.randrange(38) if random_.randrange(2) else at
            bytes_[min(at, len(bytes_) - 1)] = random_.choice((0, 1, 0x13, 0x14, 0xFE, 0xFF, random_.randrange(256)))
    elif kind == 5:
        del bytes_[random_.randrange(len(bytes_)):]
    elif kind == 6:
        other = random_.choice(archives)
        page = 16 * random_.randrange(1, 1 + len(bytes_) // 16)
        bytes_[page:page] = other[16:16 * random_.randrange(1, 9)]
    else:
        members, _ = libraries.members(bytes_) or ([], False)
        if members:
            without_sums(bytes_, random_.choice(members)[0])
    return bytes_
