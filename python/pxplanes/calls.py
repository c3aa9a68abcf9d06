"""The library's calls as C has them (include/pxplanes.h), and what their statuses raise."""
import ctypes
import functools
import os
from ctypes import POINTER, c_char_p, c_int64, c_size_t, c_uint32, c_uint64, c_void_p
from typing import Any, Callable, Protocol, Union

from .arrays import Buffer
from .errors import Limit, Malformed, NoClock, NoCommand, NoLibrary, NoMicro, NoOperation
from .finding import loaded

OK, USAGE, MALFORMED, LIMIT, MEMORY, NO_ROOM, NO_CLOCK, NO_GRID, NO_MICRO, NO_OPERATION = 0, 2, 3, 4, 7, 8, 9, 10, 11, 12
NO_FACE, LONGEST_NAME = 14, 64


class Written(Protocol):
    """A `Scene`, or what else has a text."""

    @property
    def text(self) -> str:
        ...


Text = Union[str, bytes, bytearray, memoryview, Written]


class Found(ctypes.Structure):
    """`struct pxplanes_found`: what a call found."""

    _fields_ = [(name, c_uint32) for name in ("width", "height", "faces", "line", "cause", "kind")] + [("number", c_int64)] + [
        (name, c_uint64) for name in ("operations", "clocks", "room")]


class FoundState(ctypes.Structure):
    """`struct pxplanes_moment`: what comes with the words of a state."""

    _fields_ = [(name, c_uint32) for name in ("grid_width", "grid_height", "words_per_row", "bits", "levels")] + [
        (name, c_uint64) for name in ("clock", "clocks", "operation", "operation_clock", "next_micro")]


class FoundFace(ctypes.Structure):
    """`struct pxplanes_numbered_face`: what a face number means."""

    _fields_ = [(name, c_uint32) for name in ("solid", "kind", "plane", "line", "red", "green", "blue")]


class FoundOperation(ctypes.Structure):
    """`struct pxplanes_operation`: an operation, and what it is for."""

    _fields_ = [("numbers", c_int64 * 5)] + [(name, c_uint64) for name in ("clock", "pass", "literal")] + [
        (name, c_uint32) for name in ("kind", "numbers_count", "role", "solid", "face", "other")]


LIST: list[Any] = [c_void_p, c_size_t]
TEXT: list[Any] = [c_char_p, c_size_t]
FOUND: list[Any] = [POINTER(Found)]
CALLS: dict[str, list[Any]] = {"check": TEXT + FOUND, "render": TEXT + LIST + LIST + FOUND, "colour": TEXT + LIST + FOUND,
         "window": TEXT + [c_uint32] * 4 + LIST + LIST + FOUND, "products": TEXT + LIST + FOUND,
         "face": TEXT + [c_uint32] + LIST + [POINTER(FoundFace)] + FOUND, "state": TEXT + [c_uint64] + LIST + [POINTER(FoundState)] + FOUND,
         "micros": TEXT + [c_uint64] + LIST + FOUND, "course": TEXT + [c_uint64] + LIST + FOUND,
         "clocks": LIST + [c_uint32] * 2 + LIST + FOUND, "run": TEXT + TEXT + LIST + FOUND}
NAMES: dict[str, list[Any]] = {"cause_name": [c_uint32] + LIST, "kind_name": [c_uint32] + LIST, "version": LIST}

library = functools.lru_cache(maxsize=None)(loaded)


@functools.lru_cache(maxsize=None)
def call(name: str) -> Any:
    """A call of the library, with its types."""
    try:
        found = getattr(library(), "pxplanes_" + name)
    except AttributeError:
        raise NoLibrary("%s has no pxplanes_%s" % (library()._name, name)) from None
    found.argtypes, found.restype = (CALLS[name], c_uint32) if name in CALLS else (NAMES[name], c_size_t)
    return found


def from_file(path: Union[str, bytes, "os.PathLike[str]", "os.PathLike[bytes]"]) -> bytes:
    """The text in a file.

    >>> pxplanes.check(pxplanes.from_file("docs/scenes/first.scene")).faces
    10
    """
    with open(path, "rb") as file:
        return file.read()


def content(text: Text) -> bytes:
    """The bytes of a text; of a `str` in UTF-8."""
    text = getattr(text, "text", text)
    if isinstance(text, str):
        return text.encode("utf-8")
    try:
        view = memoryview(text)  # type: ignore[arg-type]
        if view.itemsize == 1:
            return bytes(view)
        hint = " of %d bytes each" % view.itemsize
    except TypeError:
        hint = ("; pxplanes.from_file reads the text in a file" if isinstance(text, os.PathLike) else
                "; what its read() answers is one" if hasattr(text, "read") else "")
    raise TypeError("a text is a str or bytes, and no %s%s" % (type(text).__name__, hint))


def is_name_of_file(text: Text) -> bool:
    """Whether somebody gave the name of a file in place of its text."""
    return isinstance(text, str) and "\n" not in text and (text.endswith(".scene") or os.path.isfile(text))


def asked(name: str, text: Text, *arguments: Any) -> tuple[int, Found]:
    """What a call of a text finds, and its status: `OK` or `NO_ROOM`; the others are raised."""
    data = content(text)
    try:
        return answered(name, data, len(data), *arguments)
    except Malformed as refusal:
        if not is_name_of_file(text):
            raise
        raise Malformed(refusal.line, refusal.cause, "pxplanes.from_file(%r) reads the text in that file" % text) from None


def answered(name: str, *arguments: Any) -> tuple[int, Found]:
    """The same of any call."""
    found = Found()
    return judged(call(name)(*arguments, ctypes.byref(found)), found)


REFUSALS: dict[int, Callable[[Found], Exception]] = {
    USAGE: lambda found: NoCommand(),
    MALFORMED: lambda found: Malformed(found.line, word_of("cause_name", found.cause)),
    LIMIT: lambda found: Limit(found.line, word_of("kind_name", found.kind), found.number),
    MEMORY: lambda found: MemoryError("pxplanes had no memory"),
    NO_CLOCK: lambda found: NoClock(found.clocks),
    NO_OPERATION: lambda found: NoOperation(found.operations),
    NO_FACE: lambda found: ValueError("faces are numbered from 1 to %d" % found.faces),
    NO_MICRO: lambda found: NoMicro(found.number)}


def judged(status: int, found: Found) -> tuple[int, Found]:
    """A status with what was found, where it is `OK` or `NO_ROOM`."""
    if status in (OK, NO_ROOM):
        return status, found
    unknown = NoLibrary("the library answers the unknown status %d" % status)
    raise REFUSALS[status](found) if status in REFUSALS else unknown


def word_of(name: str, *numbers: int) -> str:
    """The word that a call writes."""
    room = Buffer("B", LONGEST_NAME)
    length = call(name)(*numbers, *room.given())
    return room.room[:length].decode("ascii")
