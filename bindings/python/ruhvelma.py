"""The extensible types of DDS (OMG DDS-XTypes 1.3): samples, types and verdicts, over the library libxt.

    import ruhvelma

    with ruhvelma.Types("module geo { @appendable struct Pose { @key string<32> vehicle; long east; long north; }; };") as types:
        with types.reader("geo::Pose") as reader:
            sample = reader.write({"vehicle": "rover-7", "east": 12500, "north": -300})
            print(reader.read(sample)["east"])

A refusal is an exception: Refused, or rather the class of its status, with the status in `status` and the library's words in `text`.

The library is the file that the environment variable RUHVELMA_LIBRARY names, or libxt.so beside this file, or the one that the system finds. It is
loaded by the first call.

Types and readers hold memory of the library until they are closed, by `with`, by close(), or when Python drops them. They may be used on any
thread; calls of several threads are made in turn."""

from __future__ import annotations

import ctypes
import ctypes.util
import enum
import functools
import json
import os
import struct
import threading
from types import TracebackType
from typing import Any, Callable, Iterable, NamedTuple

__all__ = [
    "BadBundle",
    "BadJson",
    "BadTypes",
    "Closed",
    "Discarded",
    "LibraryMissing",
    "Malformed",
    "Memory",
    "MustUnderstand",
    "NoSuchName",
    "NotAssignable",
    "Policy",
    "Reader",
    "Refused",
    "Rep",
    "TooLarge",
    "Types",
    "Verdict",
    "Words",
]

OBJECT, IDL = 1, 3  # kinds of records
OK, NO, ROOM = 0, 1, 14


class Rep(enum.IntEnum):
    """A data representation."""

    XCDR1 = 1
    XCDR2 = 2


class Policy(enum.IntFlag):
    """What a verdict is given under (7.6.3.7), as a sum; 0 is the standard's own."""

    STANDARD = 0
    DISALLOW = 1
    STRING_BOUNDS = 2
    SEQUENCE_BOUNDS = 4
    ANY_NAMES = 8


class Verdict(NamedTuple):
    """Whether one type is assignable from another; if not, the first rule that fails, and where. It is true where it is a yes."""

    assignable: bool
    rule: str = ""
    path: str = ""

    def __bool__(self) -> bool:
        return self.assignable


# ---- refusals


class LibraryMissing(OSError):
    """The library isn't there, or isn't libxt."""


class Refused(Exception):
    """A call was refused. The class tells the status too."""

    def __init__(self, status: int, text: str) -> None:
        super().__init__(f"{text} (status {status})" if text else f"status {status}")
        self.status = status
        self.text = text

    def __reduce__(self) -> tuple[Any, ...]:
        return type(self), (self.status, self.text)


class NotAssignable(Refused):
    """1: a reader was asked for, and its type isn't assignable from the writer's: `no RULE PATH`."""


class Words(Refused):
    """2: a word has no form that names a type, or a number is none of those that the call takes."""


class BadBundle(Refused):
    """3: the octets are no bundle of types: `bundle AT WHY`."""


class Memory(Refused):
    """6: memory was wanting."""


class BadTypes(Refused):
    """7: a text, an object or a type breaks a rule."""


class NoSuchName(Refused):
    """8: no type has the name: `name WORD`."""


class BadJson(Refused):
    """10: the text is no JSON, or no value of the type: `syntax`, or `RULE PATH`."""


class Closed(Refused):
    """13: the handle is closed."""


class Discarded(Refused):
    """16: a part of the sample can't be constructed, and TryConstruct discards it."""


class MustUnderstand(Refused):
    """17: the sample has a member that must be understood, and the reader's type doesn't have it."""


class Malformed(Refused):
    """18: the octets are no sample of the reader's type: `malformed AT WHY`."""


class TooLarge(Refused):
    """19: the sample would pass 1,048,576 octets, or passes them where a key is hashed."""


BY_STATUS: dict[int, type[Refused]] = {
    1: NotAssignable,
    2: Words,
    3: BadBundle,
    6: Memory,
    7: BadTypes,
    8: NoSuchName,
    10: BadJson,
    13: Closed,
    16: Discarded,
    17: MustUnderstand,
    18: Malformed,
    19: TooLarge,
}


def refusal(status: int, text: bytes) -> Refused:
    return BY_STATUS.get(status, Refused)(status, text.decode("utf-8", "replace"))


# ---- the library


class Handle(ctypes.Structure):
    """What the library keeps behind a pointer. It is null where it is closed."""

    _fields_ = [("at", ctypes.c_void_p)]


HANDLE = ctypes.POINTER(Handle)
OCTETS = (ctypes.c_char_p, ctypes.c_size_t)
ANSWER = (ctypes.c_void_p, ctypes.c_size_t, ctypes.POINTER(ctypes.c_size_t))
NUMBER = ctypes.c_uint32

CALLS: dict[str, tuple[Any, ...]] = {
    "xt_types_open": (HANDLE, *OCTETS, *ANSWER),
    "xt_types_close": (HANDLE,),
    "xt_judge": (HANDLE, *OCTETS, *OCTETS, NUMBER, NUMBER, *ANSWER),
    "xt_type_id": (HANDLE, *OCTETS, *ANSWER),
    "xt_minimal_id": (HANDLE, *OCTETS, *ANSWER),
    "xt_print": (HANDLE, *OCTETS, *ANSWER),
    "xt_print_all": (HANDLE, *ANSWER),
    "xt_reader_open": (HANDLE, HANDLE, *OCTETS, *OCTETS, NUMBER, NUMBER, *ANSWER),
    "xt_reader_close": (HANDLE,),
    "xt_read": (HANDLE, *OCTETS, NUMBER, *ANSWER),
    "xt_convert": (HANDLE, *OCTETS, NUMBER, *ANSWER),
    "xt_key_hash": (HANDLE, *OCTETS, *ANSWER),
    "xt_write": (HANDLE, *OCTETS, NUMBER, NUMBER, *ANSWER),
}


def library_path() -> str:
    """Where the library is."""
    named = os.environ.get("RUHVELMA_LIBRARY")
    if named:
        return named
    beside = os.path.join(os.path.dirname(os.path.abspath(__file__)), "libxt.so")
    if os.path.exists(beside):
        return beside
    found = ctypes.util.find_library("xt")
    if found:
        return found
    raise LibraryMissing(f"libxt.so is missing: RUHVELMA_LIBRARY doesn't name it, {beside} isn't there, and the system finds none")


@functools.lru_cache(maxsize=None)
def library() -> ctypes.CDLL:
    """The library, which the first call loads."""
    path = library_path()
    try:
        loaded = ctypes.CDLL(path)
        for name, parameters in CALLS.items():
            call = getattr(loaded, name)
            call.argtypes = parameters
            call.restype = None if name.endswith("_close") else ctypes.c_uint32
    except (OSError, AttributeError) as why:
        raise LibraryMissing(f"{path} can't be loaded as libxt: {why}") from why
    return loaded


def answer(name: str, *arguments: Any, room: int = 512) -> tuple[int, bytes]:
    """The status and the octets that a call answers. Where they don't fit, it is made again with the room that they take."""
    call = getattr(library(), name)
    needed = ctypes.c_size_t()
    while True:
        octets = ctypes.create_string_buffer(room)
        status = call(*arguments, octets, room, ctypes.byref(needed))
        if needed.value <= room:
            return status, octets.raw[: needed.value]
        room = needed.value


def octets_of(octets: bytes | bytearray | memoryview | str) -> tuple[bytes, int]:
    """Octets as two arguments; a text goes as UTF-8."""
    given = octets.encode() if isinstance(octets, str) else bytes(octets)
    return given, len(given)


def record(kind: int, payload: bytes | bytearray | memoryview | str) -> bytes:
    """A record of a bundle: its kind, the length of its payload in four octets, the highest first, and the payload."""
    octets, size = octets_of(payload)
    return struct.pack(">BI", kind, size) + octets


class Held:
    """A handle, for one call at a time."""

    _closes: str

    def __init__(self) -> None:
        self._handle = Handle()
        self._turn = threading.Lock()

    def _own(self) -> ctypes._Pointer[Handle]:
        return ctypes.pointer(self._handle)

    def _answer(self, name: str, *arguments: Any) -> tuple[int, bytes]:
        """The status and the octets that a call on the handle answers, in its turn."""
        with self._turn:
            return answer(name, self._own(), *arguments)

    def _answered(self, name: str, *arguments: Any) -> bytes:
        """The octets that a call on the handle answers, or its refusal."""
        status, octets = self._answer(name, *arguments)
        if status != OK:
            raise refusal(status, octets)
        return octets

    @property
    def closed(self) -> bool:
        """Whether it is closed."""
        return not self._handle.at

    def close(self) -> None:
        """Frees what it holds. A second time does nothing."""
        with self._turn:
            handle = self._own()
            if not self.closed:
                getattr(library(), self._closes)(handle)

    def __exit__(self, kind: type[BaseException] | None, error: BaseException | None, at: TracebackType | None) -> None:
        self.close()

    def __del__(self) -> None:
        if hasattr(self, "_turn"):
            self.close()


class Types(Held):
    """The types of IDL texts, of the octets of TypeObjects, and of a bundle's records, in this order.

    A type is named by a word: `geo::Pose` is the first of that full name, `0/geo::Pose` that of the record of this number, which counts from 0, and
    `#f2..`, an identifier of 30 hexadecimal digits, that of a TypeObject."""

    _closes = "xt_types_close"

    def __init__(self, *texts: str | bytes, objects: Iterable[bytes] = (), bundle: bytes = b"") -> None:
        super().__init__()
        records = [record(IDL, text) for text in texts] + [record(OBJECT, octets) for octets in objects]
        self._answered("xt_types_open", *octets_of(b"".join(records) + bundle))

    def __enter__(self) -> Types:
        return self

    def reader(self, reads: str, writes: str | None = None, rep: int = Rep.XCDR2, policy: int = Policy.STANDARD) -> Reader:
        """A reader of the type `reads`, of samples of the type `writes`, which is the same one unless it is named."""
        return Reader(self, reads, writes, rep, policy)

    def judge(self, reads: str, writes: str, rep: int = Rep.XCDR2, policy: int = Policy.STANDARD) -> Verdict:
        """Whether the type `reads` is assignable from the type `writes`."""
        status, octets = self._answer("xt_judge", *octets_of(reads), *octets_of(writes), rep, policy)
        if status == OK:
            return Verdict(True)
        if status != NO:
            raise refusal(status, octets)
        _, rule, path = octets.decode().split(" ")
        return Verdict(False, rule, path)

    def type_id(self, word: str) -> str:
        """The identifier of a type's complete TypeObject, or of the object that the word names, in 30 hexadecimal digits."""
        return self._answered("xt_type_id", *octets_of(word)).decode()

    def minimal_id(self, word: str) -> str:
        """The identifier of a type's minimal TypeObject, in 30 hexadecimal digits."""
        return self._answered("xt_minimal_id", *octets_of(word)).decode()

    def idl(self, word: str | None = None) -> str:
        """The IDL text of a type, a line; without a word that of all types that the texts declare, a line for each."""
        if word is None:
            return self._answered("xt_print_all").decode()
        return self._answered("xt_print", *octets_of(word)).decode()


class Reader(Held):
    """A reader of samples, as its own type sees them. The types may be closed before it."""

    _closes = "xt_reader_close"

    def __init__(self, types: Types, reads: str, writes: str | None = None, rep: int = Rep.XCDR2, policy: int = Policy.STANDARD) -> None:
        super().__init__()
        words = (*octets_of(reads), *octets_of(reads if writes is None else writes))
        with types._turn:
            self._answered("xt_reader_open", types._own(), *words, rep, policy)

    def __enter__(self) -> Reader:
        return self

    def read_text(self, sample: bytes, numbers: bool = True) -> str:
        """A sample as the text of its JSON. A float that isn't finite, or any float without `numbers`, is a text of its bits."""
        return self._answered("xt_read", *octets_of(sample), numbers).decode()

    def read(self, sample: bytes, loads: Callable[[str], Any] = json.loads, numbers: bool = True) -> Any:
        """A sample as a value of Python: what `loads` makes of its JSON."""
        return loads(self.read_text(sample, numbers))

    def write_text(self, text: str | bytes, rep: int = Rep.XCDR2, numbers: bool = True) -> bytes:
        """A value, given as the text of its JSON, as a sample in little-endian order. A float is a number, or a text of its bits; without
        `numbers` it is the latter."""
        return self._answered("xt_write", *octets_of(text), rep, numbers)

    def write(self, value: Any, rep: int = Rep.XCDR2, dumps: Callable[[Any], str] = json.dumps, numbers: bool = True) -> bytes:
        """A value of Python, of which `dumps` makes JSON, as a sample in little-endian order."""
        return self.write_text(dumps(value), rep, numbers)

    def convert(self, sample: bytes, rep: int) -> bytes:
        """A sample as one of the reader's type in a representation, in little-endian order."""
        return self._answered("xt_convert", *octets_of(sample), rep)

    def key_hash(self, sample: bytes) -> bytes:
        """The hash of the key of a sample's value, as the reader's type sees it: 16 octets."""
        return self._answered("xt_key_hash", *octets_of(sample))
