"""The operations of a text, each with what it is for."""
import ctypes
import operator
from typing import NamedTuple, Optional

from ..arrays import Buffer
from ..calls import FoundOperation, Text, asked
from ..errors import NoOperation
from ..running import done

KINDS = ("all", "keep-sign", "keep-bit", "load-linear", "keep-at-most", "add-linear", "load-const", "set-bit", "toggle", "copy",
         "keep-less")
# An operation that is passed over takes as long as so many clocks that are.
CLOCKS = 4
ROLES = ("start", "open", "candidate", "drop", "clear", "front", "confirm", "begin", "turn", "close", "merge")


class Operation(NamedTuple):
    """A broadcast operation, and what it is for (docs/PASSES.md, "Steps"). `str` of it is its line in a listing.

    `kind` is the word of that line and `numbers` are those after it (docs/LISTINGS.md, "Operations"); `clock` is the
    one at which it begins. Of a scene `pass_` is its step among all steps, from 0 on, and `role` the step's kind;
    `literal` is the literal that the step is of, from 1 on, among those of all that `products` gives, one after
    another, and 0 for the start. Where the step is of a face, `solid` is its solid, from 1 on, and `face` its
    number, 0 for the far limit; where it asks another literal, `other` is which one, from 1 on, of the product's
    literals that are of other solids. What does not apply is 0, and of a listing `role` is None."""

    kind: str
    numbers: tuple[int, ...]
    clock: int
    pass_: int
    literal: int
    role: Optional[str]
    solid: int
    face: int
    other: int

    def __str__(self) -> str:
        return " ".join([self.kind, *map(str, self.numbers)])


def operation_of(found: FoundOperation) -> Operation:
    """What the library wrote of an operation."""
    return Operation(KINDS[found.kind - 1], tuple(found.numbers[:found.numbers_count]), found.clock, getattr(found, "pass"),
                     found.literal, ROLES[found.role - 1] if found.role else None, found.solid, found.face, found.other)


def course(text: Text, first: int = 0, count: Optional[int] = None) -> list[Operation]:
    """The operations of a scene or of a listing: `count` of them from operation `first` on, or all from there.

    Raises `Malformed`, `Limit` and `MemoryError`, and `NoOperation` where the text has fewer.

    >>> [str(each) for each in pxplanes.course(text, 0, 1)], len(pxplanes.course(text))
    (['all'], 186)
    """
    first, operations = operator.index(first), operations_of(text)
    count = operations - first if count is None else operator.index(count)
    if not (0 <= first and 0 <= count and first + count <= operations):
        raise NoOperation(operations)
    room = Buffer("operations", count, ctypes.sizeof(FoundOperation))
    done("course", text, (first,), [room], clocks=CLOCKS * (first + count))
    return [operation_of(found) for found in (FoundOperation * count).from_buffer(room.room)]


def operations_of(text: Text) -> int:
    """How many operations a scene or a listing has. Raises as `check` does."""
    return int(asked("course", text, 0, None, 0)[1].operations)
