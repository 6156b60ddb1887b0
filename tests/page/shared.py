"""What the tests of the page share: the native programs, the files, made modules, and how a file is opened."""
import functools
import os
import pathlib
import subprocess

ROOT = pathlib.Path(__file__).resolve().parent.parent.parent
NATIVE = {"omf": os.environ.get("OMF", "omf"), "omf_dump": os.environ.get("OMF_DUMP", "omf-dump"), "omf_place": os.environ.get("OMF_PLACE", "omf-place"),
          "omf_lib": os.environ.get("OMF_LIB", "omf-lib")}
ENDINGS = (".obj", ".o", ".omf", ".t", ".lib", ".a")
LARGE = 12 << 20
STATE = "document.documentElement.dataset.state"
text_of = "document.getElementById({!r}).innerText".format


class Tries:
    def __init__(self):
        self.done, self.failed = 0, []

    def see(self, what, seen, wanted):
        self.done += 1
        if seen != wanted:
            self.failed.append(what)
            print(f"{what}: saw {str(seen)[:300]!r}, wanted {str(wanted)[:300]!r}", flush=True)


@functools.lru_cache(maxsize=64)
def native(program, words, data):
    """The status of a native program, and what it prints on both streams. The last answers are kept."""
    ran = subprocess.run([NATIVE[program], *words], input=data, stdout=subprocess.PIPE, stderr=subprocess.STDOUT, timeout=600, check=False)
    return ran.returncode, ran.stdout


def printed(program, words, data):
    return native(program, tuple(words), data)[1]


def modules(folders):
    return [file for folder in folders for file in sorted(pathlib.Path(folder).rglob("*")) if file.is_file() and file.suffix.lower() in ENDINGS]


def open_file(tab, *files, seconds=120):
    tab.value(f"{STATE} = 'waiting'")
    tab.choose("#file", *files)
    tab.until(f"['done', 'failed'].includes({STATE})", seconds)


def record(kind, contents):
    """A record with its checksum."""
    size = len(contents) + 1
    body = bytes([kind, size & 255, size >> 8]) + contents
    return body + bytes([-sum(body) & 255])


def named(text):
    return bytes([len(text)]) + text


def hostile(name):
    """A module whose names are all this one, with a fixup to an external."""
    return b"".join((record(0x80, named(name)), record(0x88, b"\0\0" + name), record(0x96, named(b"") + named(name)), record(0x98, bytes([0x28, 4, 0, 2, 2, 2])),
                     record(0x9A, bytes([2, 0xFF, 1])), record(0x8C, named(name) + b"\0"), record(0x90, bytes([0, 1]) + named(name) + bytes([0, 0, 0])),
                     record(0xA0, bytes([1, 0, 0, 0xB8, 0, 0, 0x90])), record(0x9C, bytes([0xC4, 1, 0x56, 1])), record(0x8A, b"\0")))


def large():
    """A module of 12 MB: data records with a fixup each, in segments of 64 KB."""
    segments = LARGE // 65536
    parts = [record(0x80, named(b"large")), record(0x96, named(b"") + named(b"CODE"))]
    parts += [record(0x98, bytes([0x6A, 0, 0, 2, 2, 1]))] * segments
    for segment in range(1, segments + 1):
        index = bytes([segment]) if segment < 128 else bytes([0x80 | segment >> 8, segment & 255])
        for offset in range(0, 65536, 1024):
            parts.append(record(0xA0, index + offset.to_bytes(2, "little") + bytes(1024)))
            parts.append(record(0x9C, bytes([0xC4, 0, 0x54]) + index))
    return b"".join(parts) + record(0x8A, b"\0")


def library(members):
    """A library of modules, in pages of 16 bytes, without a dictionary."""
    body = record(0xF0, bytes(12))
    assert len(body) == 16
    for member in members:
        body += member + bytes(-len(member) % 16)
    return body + b"\xF1\x0D\x00" + bytes(13)
