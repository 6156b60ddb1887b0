"""Object modules in OMF (TIS OMF 1.1, the .OBJ files of DOS, OS/2 and 16-bit Windows), by the shared library libomf.

    >>> import omf
    >>> module = omf.Module(open("examples/first.omf", "rb").read())
    >>> [segment.name for segment in module.segments]
    ['T']
    >>> [(fixup.offset, module.target_name(fixup)) for fixup in module.fixups]
    [(1, 'T')]
    >>> module.relocate("S 10020 10000 1000").runs
    (Run(segment=1, offset=0, data=b'\\xb8 \\x00\\x90'),)

Sizes and offsets are in bytes. An index counts from 1, as in the records; 0 is none. A name is a str of its bytes as Latin-1, so
name.encode("latin-1") gives the bytes. The library is the file that the environment variable LIBOMF names, else libomf.so in this package's
folder, else the system's libomf; find_library() says which. It is loaded at the first call.
"""
from __future__ import annotations

import ctypes
import ctypes.util
import os
import warnings
from enum import IntEnum
from functools import cached_property
from itertools import accumulate
from typing import Any, Iterable, List, NamedTuple, Optional, Sequence, Tuple, Type, Union

__version__ = "1.0.0"
__all__ = [
    "Module", "Record", "Comment", "DataRecord", "Segment", "Group", "External", "Communal", "Public", "Fixup", "StartReference", "Method", "LOCATIONS",
    "Placement", "Place", "Frame", "Run", "Image", "Library", "Member", "link", "link_exe", "Error", "Refused", "NoLibrary", "NotLinked", "PlacementLine",
    "PlacementTooLong", "Unreachable", "reason_name", "reason_sentence", "find_library",
]

Data = Union[bytes, bytearray, memoryview]


def _struct(name: str, *fields: Tuple[Any, str]) -> Type[ctypes.Structure]:
    """A structure of include/omf.h: types, each with the names of its fields."""
    listed = [(field, kind) for kind, names in fields for field in names.split()]
    return type(name, (ctypes.Structure,), {"_fields_": listed})


_U32, _U64 = ctypes.c_uint32, ctypes.c_uint64
_Answer = _struct("_Answer", (_U32, "status reason kind index number within"), (_U64, "start line size record_count"))
_Name = _struct("_Name", (_U64, "offset size"))
_Span = _struct("_Span", (_U64, "offset size"))
_Record = _struct("_Record", (_Span, "bytes"), (_U32, "type_byte number"))
_Header = _struct("_Header", (_Name, "name"), (_U32, "type_byte number"))
_Comment = _struct("_Comment", (_Span, "text"), (_U32, "class_byte flags number unused"))
_Data = _struct("_Data", (_Span, "stored"), (_U64, "size"), (_U32, "offset segment type_byte number"))
_StartReference = _struct("_StartReference", (_U32, "is_main has_start frame_method frame_index target_method target_index displacement bits number within"))
_Place = _struct("_Place", (_U32, "address base"), (ctypes.c_uint16, "selector unused"))
_Frame = _struct("_Frame", (_U32, "base"), (ctypes.c_uint16, "selector unused"))
_Segment = _struct("_Segment", (_Name, "name class_name overlay_name"), (_U64, "size"),
                   (_U32, "align combine bits is_absolute frame frame_offset"))
_Group = _struct("_Group", (_Name, "name"), (_U64, "members"))
_Member = _struct("_Member", (_U32, "segment"))
_External = _struct("_External", (_Name, "name"), (_U32, "type_index is_local communal elements element_size unused"))
_Public = _struct("_Public", (_Name, "name"), (_U32, "offset segment group frame type_index is_local"))
_Run = _struct("_Run", (_U64, "size"), (_U32, "segment offset"))
_LibraryMember = _struct("_LibraryMember", (_U64, "offset size"))
_Start = _struct("_Start", (_U32, "selector offset"))
_Fixup = _struct("_Fixup", (_U64, "offset"), (_U32, "segment location size is_self_relative frame_method frame_index target_method"),
                 (_U32, "target_index displacement bits number within"))

_Placement = type("_Placement", (ctypes.Structure,), {"_fields_": [
    ("segments", ctypes.POINTER(_Place)), ("segment_count", ctypes.c_size_t), ("groups", ctypes.POINTER(_Frame)), ("group_count", ctypes.c_size_t),
    ("externals", ctypes.POINTER(_Place)), ("external_count", ctypes.c_size_t)]})

_File = type("_File", (ctypes.Structure,), {"_fields_": [
    ("bytes", ctypes.c_char_p), ("length", ctypes.c_size_t), ("name", ctypes.c_char_p), ("name_length", ctypes.c_size_t)]})
_Program = _struct("_Program", (ctypes.c_uint16, "stack order"), (ctypes.c_bool, "is_com ignore_case allow_twice allow_group allow_near allow_mixed"))

_TABLES = {"records": _Record, "headers": _Header, "comments": _Comment, "data": _Data, "start_reference": _StartReference, "segments": _Segment, "groups": _Group, "group_members": _Member, "externals": _External, "publics": _Public,
           "fixups": _Fixup}
_DONE, _MEMORY, _REFUSED, _LINE, _TOO_LONG, _REACH, _ROOM, _NO_LIBRARY, _NOT_LINKED = 0, 1, 4, 5, 6, 7, 8, 9, 10


_HOW = "build it (`make library`, or `make library UNPROVED=1` without proofs), and install it or name it in LIBOMF"


def find_library() -> Optional[str]:
    """The file or the name of the library that the first call loads, or None if there is none."""
    beside = os.path.join(os.path.dirname(__file__), "libomf.so")
    return os.environ.get("LIBOMF") or (beside if os.path.exists(beside) else ctypes.util.find_library("omf"))


def _load() -> ctypes.CDLL:
    path = find_library()
    if not path:
        raise ImportError(f"there is no libomf: {_HOW}")
    try:
        library = ctypes.CDLL(path)
    except OSError as error:
        raise ImportError(f"{path} is not loaded ({error}): {_HOW}") from error
    module = [ctypes.c_char_p, ctypes.c_size_t]
    flag, out = [ctypes.c_bool], [ctypes.c_void_p, ctypes.c_size_t]
    calls = {"omf_check": module + flag, "omf_list": module + flag + out, "omf_canon": module + flag + out}
    calls.update(omf_image=module + module + flag + out + out, omf_start=module + module + flag + out, omf_reason_name=[_U32] + out, omf_reason_sentence=[_U32] + out,
                 omf_fault_line=[ctypes.POINTER(_Answer)] + out)
    placed = module + [ctypes.POINTER(_Placement)] + flag
    calls.update(omf_image_at=placed + out + out, omf_start_at=placed + out, omf_data_bytes=module + flag + [_U32] + out)
    calls.update(omf_link_image=module + [_U32, _U32, ctypes.c_uint8] + out)
    calls.update(omf_exe=[ctypes.POINTER(_File), ctypes.c_size_t, ctypes.POINTER(_Program)] + out + out)
    calls.update({f"omf_{name}": module + flag + out for name in [*_TABLES, "library_members"]}, omf_library_find=module + module)
    for name, arguments in calls.items():
        call = getattr(library, name)
        call.argtypes, call.restype = arguments, _Answer
    return library


class _Calls:
    """The library's calls. The first one loads it, so an import does not need it."""

    def __getattr__(self, name: str) -> Any:
        self.__dict__["_loaded"] = library = self.__dict__.get("_loaded") or _load()
        return getattr(library, name)


_library = _Calls()


def _filled(call: Any, row: Any, *arguments: Any) -> Tuple[Any, Any]:
    """A call for the rows of a table, or for the bytes of a text: once for their number, and once for themselves."""
    answer = call(*arguments, None, 0)
    if answer.status != _ROOM:
        return answer, (row * 0)()
    buffer = (row * answer.size)()
    return call(*arguments, buffer, answer.size), buffer


def _said(call: Any, *arguments: Any) -> str:
    """A text of reasons and faults."""
    answer, text = _filled(call, ctypes.c_uint8, *arguments)
    if answer.status == _MEMORY:
        raise MemoryError("out of memory")
    return bytes(text).decode("ascii")


def reason_name(reason: int) -> str:
    """The name of a reason, 1 to 33, as Cut; empty for any other number."""
    return _said(_library.omf_reason_name, reason)


def reason_sentence(reason: int) -> str:
    """What a reason means, as 'the input ends inside a record'; empty for any number but 1 to 33."""
    return _said(_library.omf_reason_sentence, reason)


class Error(Exception):
    """A module or a placement was not accepted. The text is the line that the programs print."""


class Refused(Error):
    """The bytes do not begin with a well-formed module.

    reason is the reason's number, 1 to 33 (docs/REASONS.md), name its name and sentence what it means. record is the number of the record,
    from 0; start is its offset in the bytes, within the offset in the record of the fault (0 is the type byte), and offset their sum.
    """

    def __init__(self, line: str, answer: Any) -> None:
        super().__init__(line)
        self.reason: int = answer.reason
        self.name: str = reason_name(answer.reason)
        self.sentence: str = reason_sentence(answer.reason)
        self.record: int = answer.number
        self.start: int = answer.start
        self.within: int = answer.within
        self.offset: int = answer.start + answer.within


class NoLibrary(Error):
    """The bytes are no library, or a member is not well formed.

    reason is 1 if they do not begin with F0H, 2 if they end in the header, 3 if its length is no page size, 4 if they end where a member or F1H
    must begin, 5 if the dictionary is not in them; None for a member: refusal is then its Refused. offset is where the fault is, in bytes, or None.
    """

    def __init__(self, answer: Any) -> None:
        self.refusal: Optional[Refused] = None
        self.reason: Optional[int] = answer.reason
        self.offset: Optional[int] = answer.size if answer.status == _REFUSED or answer.reason == 4 else None
        if answer.status == _REFUSED:
            plain = _Answer(status=_REFUSED, reason=answer.reason, number=answer.number, within=answer.within, start=answer.start)
            line = _said(_library.omf_fault_line, ctypes.byref(plain))
            self.refusal, self.reason = Refused(line, plain), None
            super().__init__(f"the member at {answer.size} is refused: {line}")
        else:
            super().__init__({1: "no library header at 0", 2: "the header is cut", 3: f"{answer.size} is no page size",
                              4: f"no member and no end at {answer.size}", 5: "the dictionary is not in the library"}[answer.reason])


class PlacementLine(Error):
    """A line of the placement is no entry, or asks for the frame of a group that has none. line is its number, from 1."""

    def __init__(self, line: str, answer: Any) -> None:
        super().__init__(line)
        self.line: int = answer.line


class PlacementTooLong(Error):
    """The placement has more than 4,194,304 bytes."""

    def __init__(self, line: str, answer: Any) -> None:
        super().__init__(line)


class Unreachable(Error):
    """The placement does not reach.

    reason is 1 if an entry is missing, 2 if there is an extra one, 3 if an absolute segment is not placed where its SEGDEF says, 4 if the
    fixup or the start at offset within of record does not reach. kind is at reasons 1 and 2 a Method: SEGMENT, GROUP or EXTERNAL; at
    reason 4: 1 its target, 2 its location, 3 its distance. index counts from 1.
    """

    def __init__(self, line: str, answer: Any) -> None:
        super().__init__(line)
        self.reason: int = answer.reason
        self.kind: int = Method(answer.kind) if answer.reason in (1, 2) else answer.kind
        self.index: int = answer.index
        self.record: int = answer.number
        self.within: int = answer.within


def _fault(answer: Any) -> Exception:
    """The exception of a fault, with the line that the programs print."""
    kinds = {_REFUSED: Refused, _LINE: PlacementLine, _TOO_LONG: PlacementTooLong, _REACH: Unreachable}
    if answer.status not in kinds:
        return MemoryError("out of memory")
    return kinds[answer.status](_said(_library.omf_fault_line, ctypes.byref(answer)), answer)


def _made(call: Any, row: Any, *arguments: Any) -> Any:
    """The rows or the bytes that a call makes; or the exception of its fault."""
    answer, made = _filled(call, row, *arguments)
    if answer.status != _DONE:
        raise _fault(answer)
    return made


class Method(IntEnum):
    """A frame or a target method: what its index counts, the segment of the location (F4), or the frame of the target (F5)."""

    SEGMENT = 0
    GROUP = 1
    EXTERNAL = 2
    LOCATION = 4
    TARGET = 5


# The types of locations by their numbers (TIS OMF 1.1, "FIXUPP", LOCATION), as `omf-dump` names them.
LOCATIONS = {
    0: "low-byte",
    1: "offset16",
    2: "base",
    3: "pointer16:16",
    4: "high-byte",
    5: "loader-offset16",
    9: "offset32",
    11: "pointer16:32",
    13: "loader-offset32",
}


class Record(NamedTuple):
    """A record: its type byte, its offset in the module, and its size in bytes, with its type, length and checksum."""

    type: int
    offset: int
    size: int


class Comment(NamedTuple):
    """A comment (COMENT): its class, the bytes after it, its flags, and the number of its record, from 0."""

    class_byte: int
    text: bytes
    no_purge: bool
    no_list: bool
    record: int


class DataRecord(NamedTuple):
    """A data record before relocation: an LEDATA; an LIDATA, if is_iterated is true.

    Its data are size bytes from offset on, in bytes, of the segment with index segment; Module.data_of gives them. stored has the data of an LEDATA, and
    the repeated blocks of an LIDATA. record is its number, from 0.
    """

    segment: int
    offset: int
    size: int
    is_iterated: bool
    stored: bytes
    record: int


class Segment(NamedTuple):
    """A segment (SEGDEF).

    name, class_name and overlay_name are None if it has none. length is in bytes, 0 to 2**32. align is the A field: 0 absolute, 1 byte,
    2 word, 3 paragraph, 4 page, 5 double word. combine is the C field: 0 private, 2, 4 and 7 public, 5 stack, 6 common. bits is 16 or 32.
    absolute is, of an absolute segment, the number of its frame and its offset in it in bytes.
    """

    name: Optional[str]
    class_name: Optional[str]
    overlay_name: Optional[str]
    length: int
    align: int
    combine: int
    bits: int
    absolute: Optional[Tuple[int, int]]


class Group(NamedTuple):
    """A group (GRPDEF): its name, None if it has none, and the indices of its segments."""

    name: Optional[str]
    segments: Tuple[int, ...]


class Communal(NamedTuple):
    """The size of a communal: its number of elements, 1 if it is near, and the size of an element in bytes."""

    is_far: bool
    elements: int
    element_size: int


class External(NamedTuple):
    """An external name. is_local is true for one of a LEXTDEF or an LCOMDEF; communal is None except for one of a COMDEF or an LCOMDEF."""

    name: str
    type_index: int
    is_local: bool
    communal: Optional[Communal]


class Public(NamedTuple):
    """A public name (PUBDEF; LPUBDEF, if is_local is true).

    offset is in bytes: in the segment with index segment, or, if segment is 0, in the frame with the number frame, which is None otherwise.
    group is the index of its group, or 0.
    """

    name: str
    offset: int
    segment: int
    group: int
    frame: Optional[int]
    type_index: int
    is_local: bool


class Fixup(NamedTuple):
    """A fixup, with its threads resolved.

    Its location has size bytes at offset, in bytes, of the segment with index segment. location is the LOCATION field (LOCATIONS has the
    names). frame and target are methods, each with its index, which is 0 at the methods LOCATION and TARGET. displacement is in bytes, a number
    without a sign of bits bits. record is the number of its FIXUPP, from 0, and within the offset of its first byte in that record.
    """

    segment: int
    offset: int
    size: int
    location: int
    is_self_relative: bool
    frame: Method
    frame_index: int
    target: Method
    target_index: int
    displacement: int
    bits: int
    record: int
    within: int


class StartReference(NamedTuple):
    """The start of a module before relocation, with its threads resolved; the fields are those of a Fixup."""

    frame: Method
    frame_index: int
    target: Method
    target_index: int
    displacement: int
    bits: int
    record: int
    within: int


class Frame(NamedTuple):
    """A frame: the address of its first byte, and its selector; in real mode the base is 16 times the selector."""

    base: int
    selector: int


class Place(NamedTuple):
    """The place of a segment or an external: its address, and the frame that it is addressed by."""

    address: int
    frame: Frame


class Placement(NamedTuple):
    """A placement: the places of the segments, the frames of the groups and the places of the externals, in the order of their indices."""

    segments: Sequence[Place]
    groups: Sequence[Frame] = ()
    externals: Sequence[Place] = ()


def _placement(given: Placement) -> Any:
    """A placement for C. ctypes keeps the arrays alive with it."""
    segments, externals = ([(place.address, *place.frame, 0) for place in places] for places in (given.segments, given.externals))
    groups = [(*frame, 0) for frame in given.groups]
    return _Placement((_Place * len(segments))(*segments), len(segments), (_Frame * len(groups))(*groups), len(groups),
                      (_Place * len(externals))(*externals), len(externals))


class Run(NamedTuple):
    """Bytes at an offset, in bytes, of the segment with index segment. Nothing is next to them."""

    segment: int
    offset: int
    data: bytes


class Image(NamedTuple):
    """A relocated module: its runs, by segment and offset, and its start as selector and offset, or None."""

    runs: Tuple[Run, ...]
    start: Optional[Tuple[int, int]]


def _cut(rows: Any, data: bytes) -> Tuple[Run, ...]:
    """Runs with their bytes, which follow one another in the data."""
    ends = list(accumulate(row.size for row in rows))
    return tuple(Run(row.segment, row.offset, data[end - row.size:end]) for row, end in zip(rows, ends))


class Module:
    """The module at the start of some bytes; bytes after it are not read. Raises Refused if they do not begin with a well-formed module.

    With refuse_vendor_comments, comments of the classes C0H to FFH are refused. size is the module's size in bytes, and record_count its
    number of records. Each table is made when it is first read, and kept.
    """

    def __init__(self, data: Data, refuse_vendor_comments: bool = False) -> None:
        self._data, self._flag = bytes(data), bool(refuse_vendor_comments)
        answer = _library.omf_check(*self._bytes(), self._flag)
        if answer.status != _DONE:
            raise _fault(answer)
        self.size: int = answer.size
        self.record_count: int = answer.record_count

    def _bytes(self) -> Tuple[bytes, int]:
        return self._data, len(self._data)

    def _rows(self, table: str) -> Any:
        return _made(getattr(_library, f"omf_{table}"), _TABLES[table], *self._bytes(), self._flag)

    def _name(self, place: Any) -> str:
        return self._data[place.offset:place.offset + place.size].decode("latin-1")

    def _name_if(self, place: Any) -> Optional[str]:
        return self._name(place) if place.offset else None

    def _span(self, span: Any) -> bytes:
        return self._data[span.offset:span.offset + span.size]

    @cached_property
    def name(self) -> str:
        """The name in the module's header, a THEADR or an LHEADR."""
        return self._name(self._rows("headers")[0].name)

    @cached_property
    def records(self) -> Tuple[Record, ...]:
        """The records; the one with number n is at n."""
        return tuple(Record(row.type_byte, row.bytes.offset, row.bytes.size) for row in self._rows("records"))

    @cached_property
    def comments(self) -> Tuple[Comment, ...]:
        """The comments, in file order."""
        return tuple(
            Comment(row.class_byte, self._span(row.text), bool(row.flags & 0x80), bool(row.flags & 0x40), row.number) for row in self._rows("comments"))

    @cached_property
    def data(self) -> Tuple[DataRecord, ...]:
        """The data records before relocation, in file order."""
        return tuple(
            DataRecord(row.segment, row.offset, row.size, row.type_byte >= 0xA2, self._span(row.stored), row.number) for row in self._rows("data"))

    def data_of(self, record: DataRecord) -> bytes:
        """The bytes of a data record before relocation; the blocks of an LIDATA are expanded."""
        if not record.is_iterated:
            return record.stored
        return bytes(_made(_library.omf_data_bytes, ctypes.c_uint8, *self._bytes(), self._flag, record.record))

    @cached_property
    def is_main(self) -> bool:
        """Whether it is a main module."""
        return bool(self._rows("start_reference")[0].is_main)

    @cached_property
    def start_reference(self) -> Optional[StartReference]:
        """The start before relocation; None if the module names none."""
        row = self._rows("start_reference")[0]
        if not row.has_start:
            return None
        return StartReference(Method(row.frame_method), row.frame_index, Method(row.target_method), row.target_index, row.displacement, row.bits,
                              row.number, row.within)

    @cached_property
    def segments(self) -> Tuple[Segment, ...]:
        """The segments; the one with index i is at i - 1."""
        return tuple(
            Segment(self._name_if(row.name), self._name_if(row.class_name), self._name_if(row.overlay_name), row.size, row.align, row.combine, row.bits,
                    (row.frame, row.frame_offset) if row.is_absolute else None) for row in self._rows("segments"))

    @cached_property
    def groups(self) -> Tuple[Group, ...]:
        """The groups; the one with index i is at i - 1."""
        members = iter([row.segment for row in self._rows("group_members")])
        return tuple(Group(self._name_if(row.name), tuple(next(members) for _ in range(row.members))) for row in self._rows("groups"))

    @cached_property
    def externals(self) -> Tuple[External, ...]:
        """The external names, of EXTDEFs, COMDEFs, LEXTDEFs and LCOMDEFs; the one with index i is at i - 1."""
        return tuple(
            External(self._name(row.name), row.type_index, bool(row.is_local),
                     Communal(row.communal == 2, row.elements, row.element_size) if row.communal else None) for row in self._rows("externals"))

    @cached_property
    def publics(self) -> Tuple[Public, ...]:
        """The public names, of PUBDEFs and LPUBDEFs, in file order."""
        return tuple(
            Public(self._name(row.name), row.offset, row.segment, row.group, None if row.segment else row.frame, row.type_index, bool(row.is_local))
            for row in self._rows("publics"))

    @cached_property
    def fixups(self) -> Tuple[Fixup, ...]:
        """The fixups, in file order."""
        return tuple(
            Fixup(row.segment, row.offset, row.size, row.location, bool(row.is_self_relative), Method(row.frame_method), row.frame_index,
                  Method(row.target_method), row.target_index, row.displacement, row.bits, row.number, row.within) for row in self._rows("fixups"))

    def _entry_name(self, method: Method, index: int) -> Optional[str]:
        tables: List[Any] = [self.segments, self.groups, self.externals]
        return tables[method][index - 1].name if method < len(tables) else None

    def target_name(self, fixup: Union[Fixup, StartReference]) -> Optional[str]:
        """The name of the segment, group or external that a fixup or the start refers to; None if it has none."""
        return self._entry_name(fixup.target, fixup.target_index)

    def frame_name(self, fixup: Union[Fixup, StartReference]) -> Optional[str]:
        """The name of the segment, group or external whose frame it takes; None if it has none, and at the methods LOCATION and TARGET."""
        return self._entry_name(fixup.frame, fixup.frame_index)

    def relocate(self, placement: Union[str, bytes, Placement]) -> Image:
        """The module's image at a Placement, or at the placement that a text gives (README.md describes it).

        Raises PlacementLine, PlacementTooLong or Unreachable.
        """
        if isinstance(placement, Placement):
            arguments = (*self._bytes(), ctypes.byref(_placement(placement)), self._flag)
            image_of, start_of = _library.omf_image_at, _library.omf_start_at
        else:
            text = placement.encode("utf-8") if isinstance(placement, str) else bytes(placement)
            arguments = (*self._bytes(), text, len(text), self._flag)
            image_of, start_of = _library.omf_image, _library.omf_start
        answer = image_of(*arguments, None, 0, None, 0)
        runs, image = (_Run * answer.record_count)(), (ctypes.c_uint8 * answer.size)()
        if answer.status == _ROOM:
            answer = image_of(*arguments, runs, len(runs), image, len(image))
        if answer.status != _DONE:
            raise _fault(answer)
        starts = _made(start_of, _Start, *arguments)
        return Image(_cut(runs, bytes(image)), (starts[0].selector, starts[0].offset) if len(starts) else None)

    def listing(self) -> str:
        """The lines that `omf list` prints."""
        return bytes(_made(_library.omf_list, ctypes.c_uint8, *self._bytes(), self._flag)).decode("ascii")

    def canonical(self) -> bytes:
        """The canonical bytes: the same for all modules that differ only in encodings, checksums, threads or the division of fixups."""
        return bytes(_made(_library.omf_canon, ctypes.c_uint8, *self._bytes(), self._flag))


class Member(NamedTuple):
    """A member of a library: its offset in the library and its bytes, which are a well-formed module."""

    offset: int
    data: bytes

    @property
    def module(self) -> Module:
        """The module."""
        return Module(self.data)


class Library:
    """A library of modules (TIS OMF 1.1, appendix 2). Raises NoLibrary if the bytes are none, or if a member is not well formed.

    members has the members in order. With refuse_vendor_comments, comments of the classes C0H to FFH are refused.
    """

    def __init__(self, data: Data, refuse_vendor_comments: bool = False) -> None:
        self._data = bytes(data)
        answer, rows = _filled(_library.omf_library_members, _LibraryMember, self._data, len(self._data), bool(refuse_vendor_comments))
        if answer.status == _MEMORY:
            raise MemoryError("out of memory")
        if answer.status != _DONE:
            raise NoLibrary(answer)
        self.members: Tuple[Member, ...] = tuple(Member(row.offset, self._data[row.offset:row.offset + row.size]) for row in rows)

    def find(self, name: str) -> Optional[Member]:
        """The member that the dictionary gives for a public name; None if it has no such entry, or leads to no member.

        All blocks and buckets are looked at, wherever the name's hash is. Raises NoLibrary if the dictionary is not in the bytes.
        """
        spelled = name.encode("latin-1")
        answer = _library.omf_library_find(self._data, len(self._data), spelled, len(spelled))
        if answer.status != _DONE:
            raise NoLibrary(answer)
        if not answer.record_count:
            return None
        return next((member for member in self.members if member.offset == answer.size), None)


_LINES = {1: "not understood", 2: "no M line before it", 3: "names nothing", 4: "names more than one", 5: "a second line for the same",
          6: "no line before it gives the frame", 7: "no C or P line before it", 8: "no room"}
_LINKS = {
    1: "no module and no text at {0.size}", 2: "no modules", 3: "module {0.record_count} external {0.index} is not defined",
    4: "module {0.record_count} external {0.index} is defined twice", 5: "module {0.record_count} external {0.index} has its public at 2^32 or more",
    6: "two starts: module {0.record_count} and module {0.size}", 7: "module {0.record_count} segment {0.index} ends beyond the last address",
    8: "overlap at {0.start:08X}: module {0.record_count} segment {0.index} and module {0.number} segment {0.within}",
    9: "a byte at {0.start:08X} is outside", 10: "the modules end after 1048576",
}


class NotLinked(Error):
    """Modules are not linked. Modules count from 0 here, segments and externals from 1.

    reason is a number of enum omf_not_linked in include/omf.h; 11 means that link_exe makes no program, and the text has the lines of `omf-link`. Or it is
    None: then fault is the Refused or Unreachable of the module, or line is the number
    of the line of the text that does not fit, from 1. module is the module, or None if the fault has none.
    """

    def __init__(self, answer: Any, lines: str = "") -> None:
        self.reason: Optional[int] = answer.reason if answer.status == _NOT_LINKED else None
        self.line: Optional[int] = answer.line if answer.status == _LINE else None
        self.fault: Optional[Error] = None
        is_one = answer.status in (_REFUSED, _REACH) or self.reason in range(3, 9)
        self.module: Optional[int] = answer.record_count if is_one or (self.reason == 9 and answer.index) else None
        if lines:
            super().__init__(lines)
        elif self.reason is not None:
            super().__init__(_LINKS[self.reason].format(answer))
        elif self.line is not None:
            super().__init__(f"text line {self.line}: {_LINES[answer.reason]}")
        else:
            plain = _Answer(*(getattr(answer, name) if name != "record_count" else 0 for name, _ in _Answer._fields_))
            line = _said(_library.omf_fault_line, ctypes.byref(plain))
            self.fault = (Refused if answer.status == _REFUSED else Unreachable)(line, plain)
            super().__init__(f"module {self.module} {line}")


def _linked(call: Any, *arguments: Any) -> bytes:
    """What a link makes."""
    answer, made = _filled(call, ctypes.c_uint8, *arguments)
    if answer.status == _MEMORY:
        raise MemoryError("out of memory")
    if answer.status != _DONE:
        raise NotLinked(answer)
    return bytes(made)


def link(modules: Iterable[Data], text: Union[str, bytes], base: int, size: int, fill: int = 0) -> bytes:
    """The memory of modules: size bytes from the address base on, with fill where no module has a byte.

    text has the address of each segment, by names (docs/ADDRESSES.md). Raises NotLinked.
    """
    spelled = text.encode("latin-1") if isinstance(text, str) else bytes(text)
    joined = b"".join([*map(bytes, modules), spelled])
    return _linked(_library.omf_link_image, joined, len(joined), base, size, fill)


def link_exe(files: Iterable[Union[Data, Tuple[str, Data]]], stack: int = 0, order: Optional[str] = None, is_com: bool = False,
             ignore_case: bool = False, allow: Iterable[str] = ()) -> bytes:
    """A DOS program of files, as `omf-link exe` makes it (docs/DOS.md): an .EXE file, or a .COM file if is_com is true.

    Each file has modules or is a library; a pair gives it the name that lines of faults show, else that is its number. stack, order ("dos", "input"),
    ignore_case and allow ("twice", "group", "near", "mixed") are the options of `omf-link exe`. Libraries that modules ask for are not looked for. What is found
    and allowed, and a program without a stack, is a warning. Raises NotLinked, with the lines of `omf-link`.
    """
    named = [(each if isinstance(each, tuple) else (str(number), each)) for number, each in enumerate(files, 1)]
    rows = (_File * len(named))(*((bytes(data), len(data), name.encode(), len(name.encode())) for name, data in named))
    allowed = set(allow)
    if not (allowed <= {"twice", "group", "near", "mixed"} and order in (None, "dos", "input") and 0 <= stack <= 65534):
        raise ValueError("an option that omf-link does not have")
    asked = _Program(stack, {None: 0, "dos": 1, "input": 2}[order], is_com, ignore_case, *(it in allowed for it in ("twice", "group", "near", "mixed")))
    arguments = (rows, len(rows), ctypes.byref(asked))
    answer = _library.omf_exe(*arguments, None, 0, None, 0)
    program, lines = (ctypes.c_uint8 * answer.size)(), (ctypes.c_uint8 * answer.start)()
    if answer.status in (_ROOM, _NOT_LINKED):
        answer = _library.omf_exe(*arguments, program, len(program), lines, len(lines))
    if answer.status == _MEMORY:
        raise MemoryError("out of memory")
    text = bytes(lines).decode("utf-8", "replace").rstrip("\n")
    if answer.status != _DONE:
        raise NotLinked(answer, text)
    for line in text.splitlines() + ["no stack: SS:SP is 0:0 from the load address"] * answer.record_count:
        warnings.warn(line, stacklevel=2)
    return bytes(program)
