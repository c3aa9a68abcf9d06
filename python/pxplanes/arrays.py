"""Buffers that the library fills, as arrays of NumPy where it is there, and as memoryviews otherwise."""
import ctypes
import importlib
import struct
from typing import Any, List, Optional, Sequence

numpy: Any
try:
    numpy = importlib.import_module("numpy")
except ImportError:
    numpy = None


class Buffer:
    """Room for so many elements of a kind: B, I, i or Q, of 1, 4, 4 and 8 bytes, or another of a size that is given."""

    def __init__(self, kind: str, count: int, size: int = 0):
        self.kind, self.count, self.size = kind, count, size or struct.calcsize("=" + kind)
        self.room = bytearray(self.size * count)

    def given(self) -> tuple[Optional[int], int]:
        """The two words by which C takes it; null where it has no room."""
        return ctypes.addressof(ctypes.c_char.from_buffer(self.room)) if self.count else None, self.count

    @property
    def numbers(self) -> memoryview:
        """Its elements in a row."""
        return memoryview(self.room).cast(self.kind)

    def shaped(self, *shape: int) -> Any:
        """Its elements in rows: an array of this shape."""
        return shaped(memoryview(self.room), self.kind, shape)


def shaped(flat: memoryview, kind: str, shape: Sequence[int]) -> Any:
    """The bytes of a memoryview as an array of a kind and a shape."""
    if numpy is not None:
        return numpy.frombuffer(flat, dtype=kind).reshape(shape)
    return flat.cast(kind, list(shape)) if all(shape) else flat.cast(kind)


def paste(wholes: Sequence[Any], x: int, y: int, parts: Sequence[Any]) -> None:
    """Writes arrays of two dimensions into others, from column x and row y on."""
    high, wide = parts[0].shape
    if numpy is not None:
        for whole, part in zip(wholes, parts):
            whole[y:y + high, x:x + wide] = part
        return
    row = wholes[0].shape[1]
    for target, source in zip(*([each.cast("B").cast("I") for each in side] for side in (wholes, parts))):
        for at in range(high):
            target[(y + at) * row + x:(y + at) * row + x + wide] = source[at * wide:(at + 1) * wide]


def put(wholes: Sequence[Any], x: int, y: int, parts: Sequence[Any]) -> None:
    """The same into arrays of a caller's. Raises `ValueError` if these don't hold the numbers afterwards."""
    if numpy is not None:
        wholes = [numpy.asanyarray(whole) for whole in wholes]
    paste(wholes, x, y, parts)
    high, wide = parts[0].shape
    if numpy is not None and not all(numpy.array_equal(whole[y:y + high, x:x + wide], part) for whole, part in zip(wholes, parts)):
        raise ValueError("the arrays of out overlap, or their type is too small for the numbers")


def spread(words: memoryview, wide: int, high: int, words_per_row: int) -> Any:
    """A plane of bits, 64 in a word from the lowest on, as rows of 0 and 1: an array of shape (high, wide)."""
    if numpy is not None:
        rows = numpy.frombuffer(words, dtype="<u8").reshape(high, words_per_row).view(numpy.uint8)
        return numpy.unpackbits(rows, axis=1, count=wide, bitorder="little")
    flat = bytearray()
    for y in range(high):
        row = int.from_bytes(bytes(words[y * words_per_row:(y + 1) * words_per_row].cast("B")), "little")
        flat += bytes(row >> x & 1 for x in range(wide))
    return shaped(memoryview(flat), "B", (high, wide))


def weighed(planes: Sequence[Any], wide: int, high: int) -> Any:
    """The numbers that planes write, the first the lowest bit: an array of shape (high, wide)."""
    if numpy is not None:
        number = numpy.zeros((high, wide), dtype=numpy.uint64)
        for bit, plane in enumerate(planes):
            number |= plane.astype(numpy.uint64) << numpy.uint64(bit)
        return number
    number = memoryview(bytearray(8 * wide * high)).cast("Q")
    for bit, plane in enumerate(planes):
        for at, value in enumerate(plane.cast("B") if plane.ndim > 1 else plane):
            number[at] |= value << bit
    return number.cast("B").cast("Q", [high, wide])


def rows(numbers: Any) -> List[Any]:
    """The rows of an array, or of a list of rows."""
    found: List[Any] = numbers.tolist() if hasattr(numbers, "tolist") else list(numbers)
    return found
