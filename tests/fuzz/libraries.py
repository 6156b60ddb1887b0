"""Libraries of object modules (TIS OMF 1.1, appendix 2), made and read by the standard's text, apart from the crates.

tests/fuzz/libraries.py PROGRAM FOLDER runs omf-lib on the libraries of a folder: `list` shows the members that this reader finds, `get` writes
exactly their bytes, `check` says OK only where this reader finds each entry by both searches and its name in its member, `canon` writes a library that is its own
canonical one, and each cut and each changed byte of the smallest library has an answer. Searches that would be long end: `check` has the fault 16,
and `make` refuses."""
import os
import struct
import subprocess
import sys
import tempfile

BUCKETS = 37
BLOCK = 512


def record(kind, body):
    head = bytes([kind]) + struct.pack("<H", len(body) + 1) + body
    return head + bytes([-sum(head) % 256])


def module(name, publics=()):
    """A module with a segment of one byte and these publics, each in a record of its own."""
    publics = b"".join(record(0x90, b"\x00\x01" + bytes([len(it)]) + it + bytes(3)) for it in publics)
    names = record(0x96, b"\x00\x01T")
    return record(0x80, bytes([len(name)]) + name) + names + record(0x98, b"\x28\x01\x00\x02\x01\x01") + publics + record(0x8A, b"\x00")


def rotated(word, bits):
    return (word << bits | word >> 16 - bits) & 0xFFFF


def probe(name, blocks):
    """The first block and its step, the first bucket and its step."""
    front, back = bytes([len(name) & 255]) + name[:-1], name[::-1]
    block = bucket_step = block_step = bucket = 0
    for one in front:
        block, bucket_step = rotated(block, 2) ^ (one | 0x20), rotated(bucket_step, 14) ^ (one | 0x20)
    for one in back:
        block_step, bucket = rotated(block_step, 2) ^ (one | 0x20), rotated(bucket, 14) ^ (one | 0x20)
    return block % blocks, block_step % blocks or 1, bucket % BUCKETS, bucket_step % BUCKETS or 1


def put_entry(blocks, name, page):
    """Puts an entry where a search of the standard finds it; false where it has no room."""
    block, block_step, first, step = probe(name, len(blocks))
    entry = bytes([len(name)]) + name + struct.pack("<H", page)
    for _ in blocks:
        one, bucket = blocks[block], first
        free = 2 * one[BUCKETS] if one[BUCKETS] != 0xFF else BLOCK
        for _ in range(BUCKETS):
            if one[bucket] == 0 and free + len(entry) <= BLOCK:
                one[free:free + len(entry)] = entry
                one[bucket] = free // 2
                free += len(entry) + len(entry) % 2
                one[BUCKETS] = free // 2 if free < BLOCK else 0xFF
                return True
            if one[bucket] == 0:
                break
            bucket = (bucket + step) % BUCKETS
        one[BUCKETS] = 0xFF
        block = (block + block_step) % len(blocks)
    return False


def dictionary(entries, count):
    """The dictionary of these names and pages; None where they have no room in this number of blocks."""
    blocks = [bytearray(BLOCK) for _ in range(count)]
    for block in blocks:
        block[BUCKETS] = (BUCKETS + 1) // 2
    if not all(put_entry(blocks, name, page) for name, page in entries):
        return None
    return b"".join(map(bytes, blocks))


def library(modules, page=16, blocks=None, flags=1):
    """The library of these modules, each with its publics; `blocks` is a dictionary to take as it is."""
    members, entries, at = [], [], page
    for bytes_, publics in modules:
        entries += [(it, at // page & 0xFFFF) for it in publics]
        members.append(bytes_ + bytes(-len(bytes_) % page))
        at += len(members[-1])
    filling = -(at + 3) % BLOCK
    end = b"\xF1" + struct.pack("<H", filling) + bytes(filling)
    count = 2
    while blocks is None:
        blocks = dictionary(entries, count)
        count = count * 2 + 1
    head = b"\xF0" + struct.pack("<HIHB", page - 3, at + len(end), min(len(blocks) // BLOCK, 0xFFFF), flags)
    return head + bytes(page - len(head)) + b"".join(members) + end + blocks


def module_length(bytes_):
    """The bytes up to the end of the first MODEND by the records' lengths; None where there is none."""
    at = 0
    while len(bytes_) - at >= 3:
        kind, size = bytes_[at], 3 + struct.unpack_from("<H", bytes_, at + 1)[0]
        if at + size > len(bytes_):
            return None
        at += size
        if kind in (0x8A, 0x8B):
            return at
    return None


def members(bytes_):
    """The offset and the length of each member, and whether F1H follows them; None where there is no header."""
    if bytes_[:1] != b"\xF0" or len(bytes_) < 3:
        return None
    page = 3 + struct.unpack_from("<H", bytes_, 1)[0]
    if len(bytes_) < page or page not in (2 ** it for it in range(4, 16)):
        return None
    found, at = [], page
    while at < len(bytes_) and bytes_[at] in (0x80, 0x82):
        length = module_length(bytes_[at:])
        if length is None:
            return found, False
        found.append((at, length))
        at += length + -length % page
    return found, bytes_[at:at + 1] == b"\xF1"


def is_found(bytes_, name, keeps):
    """Whether a search finds a name; with `keeps` it goes on in the next block at the bucket where it stopped."""
    start, count = struct.unpack_from("<IH", bytes_, 3)
    fold = bytes if bytes_[9] & 1 else bytes.upper
    if count == 0:
        return False
    number, block_step, first, step = probe(name, count)
    for _ in range(count):
        block, bucket = bytes_[start + BLOCK * number:start + BLOCK * (number + 1)], first
        for _ in range(BUCKETS):
            at = 2 * block[bucket]
            if at == 0:
                break
            if at + 3 + block[at] <= BLOCK and fold(block[at + 1:at + 1 + block[at]]) == fold(name):
                return True
            bucket = (bucket + step) % BUCKETS
        if block[bucket] == 0 and block[BUCKETS] != 0xFF:
            return False
        first = bucket if keeps else first
        number = (number + block_step) % count
    return False


def entries(bytes_):
    """The names and the pages of the dictionary's entries."""
    start, count = struct.unpack_from("<IH", bytes_, 3)
    for number in range(count):
        block = bytes_[start + BLOCK * number:start + BLOCK * (number + 1)]
        for at in (2 * it for it in block[:BUCKETS] if it):
            end = at + 1 + block[at]
            yield block[at + 1:end], struct.unpack_from("<H", block, end)[0]


def index(body, at):
    """An index of one or two bytes, and where it ends."""
    return (body[at], at + 1) if body[at] < 0x80 else ((body[at] & 0x7F) << 8 | body[at + 1], at + 2)


def public_names(kind, body):
    """The names of a PUBDEF."""
    group, at = index(body, 0)
    segment, at = index(body, at)
    at += 2 if segment == 0 else 0
    while at < len(body):
        end = at + 1 + body[at]
        yield body[at + 1:end]
        _, at = index(body, end + (4 if kind & 1 else 2))


def communal_names(body):
    """The names of a COMDEF."""
    at = 0
    while at < len(body):
        end = at + 1 + body[at]
        yield body[at + 1:end]
        _, end = index(body, end)
        sizes, at = 2 if body[end] == 0x61 else 1, end + 1
        for _ in range(sizes):
            at += {0x81: 3, 0x84: 4, 0x88: 5}.get(body[at], 1)


def alias_names(body):
    """The names of an ALIAS, each before its substitute; none if it ends within a name."""
    names, at = [], 0
    while at < len(body):
        end = at + 1 + body[at]
        names.append(body[at + 1:end])
        at = end
    return names[:len(names) // 2 * 2:2] if at == len(body) else []


def records(module_):
    """The types and the bodies of a module's records."""
    at = 0
    while at < len(module_):
        size = struct.unpack_from("<H", module_, at + 1)[0]
        yield module_[at], module_[at + 3:at + 2 + size]
        at += 3 + size


def aliases(module_):
    """The aliases of a module."""
    return {name for kind, body in records(module_) if kind == 0xC6 for name in alias_names(body)}


def defined_by(kind, body):
    """The names that a record defines."""
    if kind in (0x90, 0x91):
        return public_names(kind, body)
    if kind == 0xB0:
        return communal_names(body)
    if kind == 0xC6:
        return alias_names(body)
    return [body[5:5 + body[4]]] if kind == 0x88 and body[1:3] == b"\xA0\x01" and len(body) > 4 else []


def defined(module_):
    """The names that a module defines: its publics, communals, imports and aliases."""
    return (name for kind, body in records(module_) for name in defined_by(kind, body))


def communals_alone(modules):
    """The names of communals that no public, import or alias of these modules has; none if a module has a COMDAT, which may have one of them."""
    parts = [it for one in modules for it in records(one)]
    if any(kind in (0xC2, 0xC3) for kind, _ in parts):
        return set()
    communals = {name for kind, body in parts if kind == 0xB0 for name in communal_names(body)}
    return communals - {name for kind, body in parts if kind != 0xB0 for name in defined_by(kind, body)}


def are_entries_defined(bytes_, found):
    """Whether the member at the page of each entry defines its name, or the entry is a module's."""
    page, fold = 3 + struct.unpack_from("<H", bytes_, 1)[0], bytes if bytes_[9] & 1 else bytes.upper
    names = {at // page: {fold(it) for it in defined(bytes_[at:at + length])} for at, length in found}
    return all(name[-1:] == b"!" or fold(name) in names.get(number, ()) for name, number in entries(bytes_))


def run(program, *words):
    """The lines of the output and of faults, without the program's name, and the status, which is 0 or 1: any other is a failure here."""
    done = subprocess.run([program, *words], capture_output=True, timeout=60)
    if done.returncode not in (0, 1) or (done.stderr and not done.returncode):
        raise SystemExit(f"{words}: status {done.returncode}: {done.stderr[:200]}")
    lines = (done.stdout + done.stderr).decode("ascii").splitlines()
    return [it.removeprefix("omf-lib: ") for it in lines], done.returncode


def try_file(program, file):
    """Lists, checks and takes apart a library."""
    with open(file, "rb") as it:
        bytes_ = it.read()
    found, ended = members(bytes_)
    lines, _ = run(program, "list", file)
    shown = [(int(it.split()[3], 16), int(it.split()[4])) for it in lines if it.startswith("M ")]
    assert shown == found and ended, f"{file}: other members"
    lines, status = run(program, "check", file)
    if status == 0:
        assert all(is_found(bytes_, it, keeps) for it, _ in entries(bytes_) for keeps in (False, True)), f"{file}: OK, but an entry is not found"
        assert are_entries_defined(bytes_, found), f"{file}: OK, but an entry's member does not define its name"
    with tempfile.TemporaryDirectory() as folder:
        run(program, "get", file, "-d", folder, "--numbered")
        for number, (at, length) in enumerate(found):
            with open(f"{folder}/{number}.obj", "rb") as it:
                assert it.read() == bytes_[at:at + length], f"{file}: member {number} differs"
        assert len(os.listdir(folder)) == len(found), f"{file}: other files"
    print(f"{file}: {len(found)} members, {lines[-1]}")


def try_ghosts(program):
    """An entry of a name that its member does not define is fault 21, but not one of a module; and the pages of two entries are changed."""
    one, two = (module(it, [it]) for it in (b"one", b"two"))
    alias = one[:-5] + record(0xC6, b"\x04_one\x03one") + one[-5:]
    at = 1 + -(-len(one) // 16)
    good = [(b"one", 1), (b"two", at)]
    cases = [(good, []), (good + [(b"one!", 1)], []), (good + [(b"three", at)], ["three"]), (good + [(b"ONE", 1)], ["ONE"]),
             ([(b"one", at), (b"two", 1)], ["one", "two"])]
    with tempfile.TemporaryDirectory() as folder:
        for flags in (0, 1):
            for all_, ghosts in cases:
                with open(f"{folder}/x.lib", "wb") as it:
                    it.write(library([(one, ()), (two, ())], blocks=dictionary(all_, 1), flags=flags))
                lines, _ = run(program, "check", f"{folder}/x.lib")
                shown = [it.split('"')[1] for it in lines if it.startswith("fault 21 Undefined ")]
                ghosts = [it for it in ghosts if flags or it != "ONE"]
                assert sorted(shown) == ghosts and lines[0].startswith("OK") == (not ghosts), f"{all_}, flags {flags}: {lines}"
                try_file(program, f"{folder}/x.lib")
        for all_, ghosts in (([(b"one", 1), (b"_one", 1)], []), ([(b"one", 1), (b"_one", 1), (b"none", 1)], ["none"])):
            with open(f"{folder}/x.lib", "wb") as it:
                it.write(library([(alias, ())], blocks=dictionary(all_, 1)))
            lines, _ = run(program, "check", f"{folder}/x.lib")
            shown = [it.split('"')[1] for it in lines if it.startswith("fault 21 Undefined ")]
            assert shown == ghosts and lines[0].startswith("OK") == (not ghosts), f"entries of an ALIAS: {lines}"
    print(f"{2 * len(cases)} dictionaries with and without entries that their members lack")


def try_canon(program, file):
    """The library of canonical bytes has as many members, `check` has no fault in it, and it is its own library of canonical bytes."""
    with tempfile.TemporaryDirectory() as folder:
        _, status = run(program, "canon", "-o", f"{folder}/1.lib", file)
        if status == 1:
            assert not os.listdir(folder), f"{file}: a file of a refused library"
            return
        run(program, "canon", "-o", f"{folder}/2.lib", f"{folder}/1.lib")
        with open(file, "rb") as it, open(f"{folder}/1.lib", "rb") as one, open(f"{folder}/2.lib", "rb") as other:
            first = one.read()
            assert first == other.read(), f"{file}: canonical bytes change"
            assert len(members(first)[0]) == len(members(it.read())[0]), f"{file}: other canonical members"
        lines, status = run(program, "check", f"{folder}/1.lib")
        assert status == 0, f"{file}: {lines[0]}"


def try_changes(program, file):
    """Each cut and each changed byte of a library has an answer."""
    with open(file, "rb") as it:
        bytes_ = it.read()
    with tempfile.TemporaryDirectory() as folder:
        for at in range(len(bytes_)):
            for change in (bytes_[:at], bytes_[:at] + bytes([bytes_[at] ^ 0xFF]) + bytes_[at + 1:]):
                with open(f"{folder}/x.lib", "wb") as it:
                    it.write(change)
                for task in ("list", "check"):
                    lines, _ = run(program, task, f"{folder}/x.lib")
                    assert lines, f"{file}: no answer to {task} at {at}"
    print(f"{file}: {2 * len(bytes_)} changes, each with an answer")


def full_block(name):
    """A block marked as full, whose buckets all lead to one entry."""
    block = bytearray(BLOCK)
    block[:BUCKETS + 1] = bytes([20]) * BUCKETS + b"\xFF"
    block[40:41 + len(name)] = bytes([len(name)]) + name
    return bytes(block)


def names_of_one_hash(count):
    """Names that differ in the case of their letters alone: the hash sets the bit 20H of each character."""
    return [bytes((0x41 if number >> at & 1 else 0x61) + at for at in range(14)) for number in range(count)]


def try_long_searches(program):
    """Each name of the first library has a block of its own, which a search reaches after half of the others. The names of the second one fill
    200 blocks and more, of 24 names each at most, and all searches begin in one block. Names that are numbered in order become a library."""
    blocks = b"".join(full_block(b"x" * 251 + struct.pack("<I", it)) for it in range(1500))
    with tempfile.TemporaryDirectory() as folder:
        with open(f"{folder}/x.lib", "wb") as it:
            it.write(library([(module(b"", ()), ())], blocks=blocks))
        lines, status = run(program, "check", f"{folder}/x.lib")
        assert status == 1 and lines[-1] == "fault 16 LongSearches at 512", f"long searches: {lines[-1]}"
        for count in (100, 5000):
            names = names_of_one_hash(count)
            assert len({probe(it, 65521) for it in names}) == 1
            with open(f"{folder}/{count}.obj", "wb") as it:
                it.write(module(b"", names))
            lines, status = run(program, "make", "-o", f"{folder}/{count}.lib", f"{folder}/{count}.obj")
            assert status == (count > 100), f"{count} names of one hash: {lines}"
        assert lines == [f"refused {folder}/5000.lib: the searches for its names would be too long"] and not os.path.exists(f"{folder}/5000.lib")
        try_file(program, f"{folder}/100.lib")
        for form in ("_n%06d", "sub_%05X"):
            with open(f"{folder}/numbered.obj", "wb") as it:
                it.write(module(b"", [(form % number).encode() for number in range(4000)]))
            lines, status = run(program, "make", "-o", f"{folder}/{form}.lib", f"{folder}/numbered.obj")
            assert status == 0, f"numbered names: {lines}"
            lines, status = run(program, "check", f"{folder}/{form}.lib")
            assert status == 0 and lines[0] == "OK 1 members, 4000 publics, 4000 entries", f"numbered names: {lines[0]}"
    print("long searches: fault 16, and make refuses, but not numbered names")


if __name__ == "__main__":
    if len(sys.argv) != 3:
        sys.exit(__doc__)
    files = [f"{sys.argv[2]}/{it}" for it in sorted(os.listdir(sys.argv[2]))]
    files = [it for it in files if open(it, "rb").read(1) == b"\xF0"]
    for name in files:
        try_file(sys.argv[1], name)
        try_canon(sys.argv[1], name)
    try_changes(sys.argv[1], min(files, key=os.path.getsize))
    try_ghosts(sys.argv[1])
    try_long_searches(sys.argv[1])
