"""The machine at any of its clocks."""
import array
import copy
import ctypes
import operator
from typing import Any, Iterable, Iterator, NamedTuple, Optional, Union

from ..arrays import Buffer, spread, weighed
from ..calls import FoundState, Text, answered, asked
from ..errors import NoClock
from ..running import done, filled

REGISTERS = ("enable", "carry", "latch", "leaf")
ACTS = ("nop", "enable-all", "enable-carry", "enable-tree", "enable-bit", "set-carry", "fetch", "store-tree", "store-latch",
        "store-const", "toggle", "carry-tree", "carry-latch", "add-tree")
WITH_PLACE = frozenset(("enable-bit", "fetch", "store-tree", "store-latch", "store-const", "toggle", "carry-tree",
                        "carry-latch", "add-tree"))
WITH_VALUE = frozenset(("enable-carry", "enable-tree", "enable-bit", "set-carry", "store-const"))
TREES = ("hold", "clear", "feed")
ENDLESS = 1 << 64


class Micro(NamedTuple):
    """A microinstruction (docs/MACHINE.md, "The fourteen acts"): the act of every pixel, the place in its memory and
    the bit that it names (0 where it names none), what the tree does (`hold`, `clear` or `feed`), and the bits of the
    lines a, b, c. `str` of it is as the debugger's trace writes it."""

    act: str
    place: int
    value: int
    tree: str
    lines: tuple[int, int, int]

    def __str__(self) -> str:
        words = [self.tree] + ["%d%d%d" % self.lines] * (self.tree == "feed") + [self.act]
        words += [str(self.place)] * (self.act in WITH_PLACE) + [str(self.value)] * (self.act in WITH_VALUE)
        return " ".join(words)


def unpacked(word: int) -> Optional[Micro]:
    """The microinstruction that a word is, by the fields that include/pxplanes.h names; None of 0."""
    if word == 0:
        return None
    lines = word >> 56
    return Micro(ACTS[(word >> 32 & 255) - 1], word & 0xffffffff, word >> 40 & 1, TREES[word >> 48 & 3],
                 (lines & 1, lines >> 1 & 1, lines >> 2 & 1))


def packed(micro: Micro) -> int:
    """The word of a microinstruction. Raises `ValueError` for names and numbers that none has."""
    if not isinstance(micro, tuple) or len(micro) != len(Micro._fields):
        raise TypeError("a Micro is wanted, and no %s" % type(micro).__name__)
    act, place, value, tree, lines = micro
    place, *bits = map(operator.index, (place, value, *lines))
    if act not in ACTS or tree not in TREES or not 0 <= place < 1 << 32 or len(bits) != 4 or not set(bits) <= {0, 1}:
        raise ValueError("%r is no microinstruction" % (micro,))
    word = place | ACTS.index(act) + 1 << 32 | TREES.index(tree) << 48
    return word | sum(bit << at for bit, at in zip(bits, (40, 56, 57, 58)))


class Pixel(NamedTuple):
    """What a pixel holds: its memory as a text of 0 and 1 from bit 0 on, its three registers, and the output of its leaf."""

    memory: str
    enable: int
    carry: int
    latch: int
    leaf: int


class State:
    """The state after `clock` of `clocks` clocks.

    `grid_width` and `grid_height` are the size of the array in pixels; `bits` how many memory bits a pixel has;
    `levels` how many levels the multiplier tree has. `operation` is the index of the broadcast operation that comes
    next or is under way, from 0 on, and `operation_clock` which of its clocks comes next; `next` is its
    microinstruction, None at the end. `words` is what the library writes (include/pxplanes.h): plane after plane, then
    the nodes of the tree."""

    def __init__(self, found: FoundState, words: memoryview):
        self.grid_width, self.grid_height = found.grid_width, found.grid_height
        self.words_per_row, self.bits, self.levels = found.words_per_row, found.bits, found.levels
        self.clock, self.clocks, self.operation = found.clock, found.clocks, found.operation
        self.operation_clock = found.operation_clock
        self.next = unpacked(found.next_micro)
        self.words = words

    def __repr__(self) -> str:
        return "<pxplanes.State: clock %d of %d, %d by %d pixels of %d bits>" % (
            self.clock, self.clocks, self.grid_width, self.grid_height, self.bits)

    def __eq__(self, other: object) -> bool:
        """Whether both grids have one size and all bits are alike, whatever clock of which text either is at."""
        if not isinstance(other, State):
            return NotImplemented
        return ((self.grid_width, self.grid_height) == (other.grid_width, other.grid_height)
                and bytes(self.words) == bytes(other.words))

    def __getstate__(self) -> dict[str, Any]:
        return dict(self.__dict__, words=bytes(self.words))

    def __setstate__(self, kept: dict[str, Any]) -> None:
        self.__dict__.update(kept, words=memoryview(bytearray(kept["words"])).cast("Q"))

    def plane(self, which: Union[int, str]) -> Any:
        """A bit of all pixels: the number of a memory bit, or `enable`, `carry`, `latch` or `leaf`. An array of 0 and 1
        of shape (grid_height, grid_width), rows from the top."""
        return spread(self._words_of(which), self.grid_width, self.grid_height, self.words_per_row)

    def number(self, at: int, length: int) -> Any:
        """The numbers in the field of `length` bits (1 to 64) from bit `at` on, of shape (grid_height, grid_width)."""
        at, length = operator.index(at), operator.index(length)
        if not (1 <= length <= 64 and 0 <= at and at + length <= self.bits):
            raise IndexError("a pixel has the bits 0 to %d" % (self.bits - 1))
        return weighed([self.plane(bit) for bit in range(at, at + length)], self.grid_width, self.grid_height)

    def bit(self, which: Union[int, str], x: int, y: int) -> int:
        """A bit of the pixel at column x and row y."""
        x, y = operator.index(x), operator.index(y)
        if not (0 <= x < self.grid_width and 0 <= y < self.grid_height):
            raise IndexError("the grid has %d columns and %d rows" % (self.grid_width, self.grid_height))
        return int(self._words_of(which)[y * self.words_per_row + x // 64] >> x % 64 & 1)

    def pixel(self, x: int, y: int) -> Pixel:
        """All that the pixel at column x and row y holds."""
        memory = "".join(str(self.bit(at, x, y)) for at in range(self.bits))
        return Pixel(memory, *(self.bit(name, x, y) for name in REGISTERS))

    def memory(self) -> str:
        """A line for each pixel, the rows from the top and each row from the left, as the command `play` writes them
        (docs/LISTINGS.md, "Memory")."""
        lines = []
        for y in range(self.grid_height):
            planes = [self._row_of(which, y) for which in (*range(self.bits), "enable")]
            lines += ["pixel %d %d m %s e %s\n" % (x, y, "".join(pixel[:-1]), pixel[-1]) for x, pixel in enumerate(zip(*planes))]
        return "".join(lines)

    def _row_of(self, which: Union[int, str], y: int) -> str:
        """A row of a plane as 0 and 1."""
        words = self._words_of(which)[y * self.words_per_row:(y + 1) * self.words_per_row]
        return format(int.from_bytes(bytes(words.cast("B")), "little"), "0%db" % self.grid_width)[::-1]

    def node(self, level: int, index: int) -> tuple[int, int]:
        """The output and the carry of a node of the tree: levels from 1 on, a level's nodes from 0 on."""
        level, index = operator.index(level), operator.index(index)
        if not (1 <= level <= self.levels and 0 <= index < 1 << level):
            raise IndexError("level %d of %d has no node %d" % (level, self.levels, index))
        at, wide = (1 << level) + index, -(-(2 << self.levels) // 64)
        first = len(self.words) - 2 * wide
        out, carry = (self.words[first + row * wide + at // 64] >> at % 64 & 1 for row in (0, 1))
        return out, carry

    def nodes(self) -> Iterator[list[tuple[int, int]]]:
        """The nodes of each level, from level 1 on."""
        for level in range(1, self.levels + 1):
            yield [self.node(level, index) for index in range(1 << level)]

    def _words_of(self, which: Union[int, str]) -> memoryview:
        at = self.bits + REGISTERS.index(which) if which in REGISTERS else -1 if isinstance(which, str) else operator.index(which)
        if not (which in REGISTERS or 0 <= at < self.bits):
            raise IndexError("%r is no bit of 0 to %d and no register" % (which, self.bits - 1))
        size = self.grid_height * self.words_per_row
        return self.words[at * size:(at + 1) * size]


def state(text: Text, clock: int) -> State:
    """The state of a scene, or of a listing, after so many clocks, from 0 on.

    Raises `Malformed`, `Limit` and `MemoryError`, and `NoClock` for a clock that is below 0 or past the last. Ctrl-C
    leaves it, as it leaves `run`.

    >>> pxplanes.state(text, 1000)
    <pxplanes.State: clock 1000 of 5396, 64 by 32 pixels of 72 bits>
    >>> pxplanes.clocked(pxplanes.state(text, 1000), pxplanes.micros(text, 1000, 500)) == pxplanes.state(text, 1500)
    True
    """
    found, clock = FoundState(), operator.index(clock)
    if not 0 <= clock < ENDLESS:
        raise NoClock(clocks_of(text))

    words, _ = filled("state", "Q", text, clock, after=(ctypes.byref(found),), clocks=clock)
    return State(found, words.numbers)


def pixels(text: Text, x: int, y: int, first: int, count: int) -> list[Pixel]:
    """What the pixel at column x and row y holds after `first` clocks of a scene or of a listing, and after each of
    the next `count`: one state of the text, and then clock by clock.

    Raises as `state` does, `NoClock` where the text has fewer clocks, and `IndexError` where the grid has no such
    pixel.

    >>> [pixel.enable for pixel in pxplanes.pixels(text, 24, 16, 0, 1)]
    [0, 1]
    """
    broadcast, now = micros(text, first, count), state(text, first)
    found = [now.pixel(x, y)]
    for micro in broadcast:
        now = clocked(now, [micro])
        found.append(now.pixel(x, y))
    return found


def clocked(before: State, micros: Iterable[Micro]) -> State:
    """The state after a clock of each of these microinstructions, which may be your own. `before` stays as it is;
    going back is a state that was kept. What comes next is not known of it: `operation`, `operation_clock` and `next`
    are None.

    Raises `NoMicro` for the first that names a place past the memory.

    >>> pxplanes.clocked(pxplanes.state(text, 0), pxplanes.micros(text, 0, 9)) == pxplanes.state(text, 9)
    True
    """
    if not isinstance(before, State):
        raise TypeError("a State is wanted, and no %s" % type(before).__name__)
    count = list(micros)
    words, given = Buffer("Q", len(before.words)), Buffer("Q", len(count))
    words.numbers[:] = before.words
    given.numbers[:] = array.array("Q", map(packed, count))
    answered("clocks", *words.given(), before.grid_width, before.grid_height, *given.given())
    after = copy.copy(before)
    after.words = words.numbers
    after.clock += len(count)
    after.operation = after.operation_clock = after.next = None
    return after


def micros(text: Text, first: int, count: int) -> list[Micro]:
    """The microinstructions of so many clocks of a scene or of a listing, those from `first` on.

    Raises as `state` does, `NoClock` where the text has fewer clocks.

    >>> str(pxplanes.micros(text, 0, 1)[0])
    'hold enable-all'
    """
    first, count = operator.index(first), operator.index(count)
    if not (0 <= first and 0 <= count and first + count <= clocks_of(text)):
        raise NoClock(clocks_of(text))
    room = Buffer("Q", count)
    done("micros", text, (first,), [room], clocks=first + count)
    return [micro for number in room.numbers if (micro := unpacked(number)) is not None]


def clocks_of(text: Text) -> int:
    """How many clocks a scene or a listing takes. Raises as `check` does."""
    return int(asked("micros", text, 0, *Buffer("Q", 0).given())[1].clocks)
