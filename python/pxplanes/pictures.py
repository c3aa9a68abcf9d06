"""Scenes judged and drawn."""
from __future__ import annotations

import contextlib
import ctypes
import functools
import operator
import os
from typing import TYPE_CHECKING, Any, Callable, NamedTuple, Optional, Sequence, Tuple, Union

from .arrays import Buffer, numpy, paste, put, rows, shaped
from .calls import LONGEST_NAME, FoundFace, Text, asked, content, word_of
from .errors import OverBudget, Refused
from .image import netpbm
from .running import MANY, Progress, done, filled, gathered, heard
from .scene.limits import MAX_PICTURE_SIZE, MAX_WIDE_PICTURE_SIZE

Out = Optional[Tuple[Any, Any]]
# A part of a picture: column, row, width and height.
Window = Tuple[int, int, int, int]

if TYPE_CHECKING:
    import numpy as np
    from numpy.typing import NDArray

    from .compare.comparing import Comparison

# Rows of a window: so many that all windows, each half as wide as the picture, take no more of a processor than the whole.
STRIP = 64
KINDS_OF_FACES = ("near", "front", "back")


class Cost(NamedTuple):
    """What a scene is and takes: `width` and `height` in pixels, how many faces it has, and how many broadcast
    operations and clocks draw it."""

    width: int
    height: int
    faces: int
    operations: int
    clocks: int


class Picture(NamedTuple):
    """The two maps of a picture, each of shape (height, width) and of unsigned numbers of 32 bits, rows from the top.
    Two are equal where their sizes and numbers are; since arrays can be written, none has a hash.

    `depths` counts cells from the eye; the background has the far limit, `2**W - 1`. `faces` has the number of the face
    that shows, from 1 on in the order of the text, and 0 for the background."""

    depths: NDArray[np.uint32]
    faces: NDArray[np.uint32]
    width: int
    height: int

    def __eq__(self, other: object) -> bool:
        """Whether both have the same size and numbers, whatever kind of array holds them."""
        if not isinstance(other, Picture):
            return False
        return (self.width, self.height) == (other.width, other.height) and all(
            rows(ours) == rows(theirs) for ours, theirs in zip(self[:2], other[:2]))

    def __repr__(self) -> str:
        return "<pxplanes.Picture: %d by %d pixels>" % (self.width, self.height)

    def __ne__(self, other: object) -> bool:
        return not self == other

    def __hash__(self) -> int:
        raise TypeError("a Picture has no hash, since its arrays can be written")

    def __reduce__(self) -> Any:
        return restored, (*(bytes(each) if isinstance(each, memoryview) else each for each in self[:2]), *self[2:])

    def compare(self, other: Picture, tolerance: float = 0) -> Comparison:
        """How another picture of this size differs, as `pxplanes.compare` finds it; true if nothing differs.

        >>> bool(pxplanes.render(text).compare(pxplanes.render(text)))
        True
        """
        from .compare import comparing
        return comparing.compare(self, other, tolerance)

    def save(self, path: Union[str, "os.PathLike[str]"], what: str = "depths") -> None:
        """Writes an image, in place of an older file: a PNG of the depths in greys, or of the faces in colours if
        `what` is `faces`. A path that doesn't end in .png gets both `maps()`."""
        from .image import show
        flat = [[number for row in rows(each) for number in row] for each in self[:2]]
        if what not in ("depths", "faces"):
            raise ValueError("what is 'depths' or 'faces', and not %r" % (what,))
        greys = show.greys_of_depths(flat[0], [face != 0 for face in flat[1]])
        colours = show.colours_of_faces(flat[1]) if what == "faces" else greys
        is_png = os.fsdecode(path).lower().endswith(".png")
        with open(path, "wb") as file:
            file.write(netpbm.png(self.width, self.height, colours, 1) if is_png else self.maps())

    def maps(self) -> bytes:
        """Both maps as `pxplanes render` writes them: P6, three bytes a number, highest first."""
        return image(self.depths, self.width, self.height) + image(self.faces, self.width, self.height)


def restored(depths: Any, faces: Any, width: int, height: int) -> Picture:
    """A picture of what pickle kept of it."""
    depths, faces = (shaped(memoryview(bytearray(each)), "I", (height, width)) if isinstance(each, bytes) else each
                     for each in (depths, faces))
    return Picture(depths, faces, width, height)


def image(numbers: Any, width: int, height: int) -> bytes:
    flat = memoryview(numbers if numpy is None else numpy.ascontiguousarray(numbers, "<u4")).cast("B").tobytes()
    body = bytearray(3 * width * height)
    for place, byte in enumerate((2, 1, 0)):
        body[place::3] = flat[byte::4]
    return netpbm.header(width, height) + bytes(body)


def check(text: Text) -> Cost:
    """What a scene is and takes, before anything of it is drawn.

    Raises `Malformed` and `Limit` exactly where the program refuses the scene, and `MemoryError`.

    >>> pxplanes.check(text)
    Cost(width=48, height=32, faces=10, operations=186, clocks=5396)
    """
    _, found = asked("check", text)
    return Cost(found.width, found.height, found.faces, found.operations, found.clocks)


def render(text: Text, clocks: Optional[int] = None, progress: Optional[Progress] = None, threads: int = 1,
           out: Out = None) -> Picture:
    """The depths and the faces of a scene. Raises as `check` does, and `OverBudget`, before anything is drawn, where it
    takes more than so many `clocks`.

    A picture that takes long, or has `progress`, is drawn in windows by so many `threads`. `progress` is called with the
    share that is drawn, from 0 to 1, after each window and ten times a second. What it raises, and Ctrl-C, end the call
    within a second: no other window begins, and one under way ends in its thread.

    `out` is two arrays of NumPy for depths and faces, of shape (height, width) and any numbers and strides: views of
    larger ones, `float32`, or `[::-1]` for rows from the bottom. The picture has these; after an error they may have
    some windows.

    >>> picture = pxplanes.render(text)
    >>> int(picture.depths[16, 24]), int(picture.faces[16, 24])
    (320, 9)
    """
    judges, threads = list[Callable[[], Cost]](), counted(threads)
    if threads > 1 and clocks is None:
        # To plan the whole takes about as long as to draw a window: one thread checks the text while others draw.
        size, judges = size_of(text), [functools.partial(check, text)]
    else:
        due = check(text)
        within(due.clocks, clocks)
        size = due.width, due.height
        if due.clocks < MANY and progress is None:
            return drawn(text, [(0, 0, *size)], size, out)
    try:
        return drawn(text, windows_of(*size), size, out, threads, progress, judges)
    except Refused:
        # The text is; or a plane's constant is past its limit in a window, where the whole picture can be drawn.
        check(text)
        return drawn(text, [(0, 0, *size)], size, out, 1, progress)


def counted(threads: int) -> int:
    """How many threads draw."""
    if operator.index(threads) < 1:
        raise ValueError("%d threads draw nothing" % threads)
    return operator.index(threads)


def size_of(text: Text) -> tuple[int, int]:
    """The columns and rows of a scene. Raises as `tidy` does."""
    _, found = asked("face", text, 1, None, 0, ctypes.byref(FoundFace()))
    return found.width, found.height


def windows_of(width: int, height: int) -> list[Window]:
    """The windows (x, y, width, height) that a picture is cut to."""
    wide = -(-width // 2)
    return [(x, y, min(wide, width - x), min(STRIP, height - y))
            for y in range(0, height, STRIP) for x in range(0, width, wide)]


def drawn(text: Text, windows: Sequence[Window], size: tuple[int, int], out: Out,
          threads: int = 0, progress: Optional[Progress] = None, judges: Sequence[Callable[[], Cost]] = ()) -> Picture:
    """A picture made of windows, each (x, y, width, height), by so many threads, if no judge refuses it meanwhile."""
    maps, area, data = taken(out, *size), 0, content(text)
    # Only this thread writes to arrays of `out`: where the call has ended, a window under way is for nobody.
    draw = functools.partial(pasted, maps, data) if out is None else functools.partial(piece, data)
    calls: list[Callable[[], Any]] = [*judges, *(functools.partial(draw, *each) for each in windows)]
    with contextlib.closing(gathered(calls, threads)) as pieces:
        for found in pieces:
            if found is not None and not isinstance(found, Cost):
                (x, y), part = found
                if out is not None:
                    put(maps, x, y, part[:2])
                area += part.width * part.height
            if progress is not None:
                progress(area / (size[0] * size[1]))
    return Picture(*maps, *size)


def taken(out: Out, width: int, height: int) -> tuple[Any, Any]:
    """The two arrays that a picture is written to."""
    if out is None and numpy is not None:
        # NumPy takes their memory where it is first written to.
        return numpy.empty((height, width), numpy.uint32), numpy.empty((height, width), numpy.uint32)
    if out is None:
        return Buffer("I", width * height).shaped(height, width), Buffer("I", width * height).shaped(height, width)
    found = [getattr(each, "shape", type(each).__name__) for each in out] if isinstance(out, (tuple, list)) else type(out).__name__
    if found != [(height, width)] * 2:
        raise ValueError("out has two arrays of shape (%d, %d), and not %s" % (height, width, found))
    if numpy is not None and numpy.shares_memory(*out):
        raise ValueError("the arrays of out overlap")
    return out


def piece(data: bytes, x: int, y: int, width: int, height: int) -> tuple[tuple[int, int], Picture]:
    """A window, and where it is."""
    depths, faces = Buffer("I", width * height), Buffer("I", width * height)
    asked("window", data, x, y, width, height, *depths.given(), *faces.given())
    return (x, y), Picture(depths.shaped(height, width), faces.shaped(height, width), width, height)


def pasted(maps: tuple[Any, Any], data: bytes, *where: int) -> tuple[tuple[int, int], Picture]:
    """A window that is written into arrays of our own, by the thread that draws it, so that memory is first touched there."""
    found = piece(data, *where)
    paste(maps, *found[0], found[1][:2])
    return found


def window(text: Text, x: int, y: int, width: int, height: int) -> Picture:
    """A part of a picture, `width` by `height` pixels from column `x` and row `y` on, in about the time and memory of a
    picture of its size. It may lie outside of the scene's picture, in the wider one that `tile` draws. Raises as
    `check` does; `Limit` too where a plane's constant at (x, y) is past its limit; `ValueError` where a side is not 1
    to 512, or the window does not end within 4096 by 4096 pixels.

    >>> int(pxplanes.window(text, 20, 10, 8, 8).depths[6, 4])
    320
    """
    x, y, width, height = (operator.index(number) for number in (x, y, width, height))
    for first, count in ((x, width), (y, height)):
        if first < 0 or not 1 <= count <= MAX_PICTURE_SIZE or first + count > MAX_WIDE_PICTURE_SIZE:
            raise ValueError("there is no window of %d by %d pixels at (%d, %d)" % (width, height, x, y))
    data, clocks = content(text), asked("window", text, x, y, width, height, None, 0, None, 0)[1].clocks
    return heard(lambda: piece(data, x, y, width, height)[1], clocks)


class Face(NamedTuple):
    """What a face number means: the solid's number, from 1 in the order of the text, and its name; `kind` is "near",
    "front" or "back"; `plane` says which front or back of the solid it is, from 1, and is 0 for the near face; `line`
    is the line of the text, from 1; and the colour has red, green and blue from 0 to 255."""

    solid: int
    name: str
    kind: str
    plane: int
    line: int
    colour: Tuple[int, int, int]


def face(text: Text, number: int) -> Face:
    """What a face number of a scene's picture means. Raises as `check` does, but for the limits of drawing;
    `ValueError` where the scene has no face of this number, as for 0, the background.

    >>> pxplanes.face(text, 3)
    Face(solid=1, name='pyramid', kind='front', plane=2, line=6, colour=(120, 105, 90))
    """
    name, found = Buffer("B", LONGEST_NAME), FoundFace()
    number = operator.index(number)
    if not 0 <= number < 2 ** 32:
        raise ValueError("face numbers are from 1 on, and not %d" % number)
    asked("face", text, number, *name.given(), ctypes.byref(found))
    return Face(found.solid, bytes(name.room).rstrip(b"\0").decode("ascii"), KINDS_OF_FACES[found.kind - 1],
                found.plane, found.line, (found.red, found.green, found.blue))


def colour(text: Text, clocks: Optional[int] = None, progress: Optional[Progress] = None,
           out: Any = None) -> NDArray[np.uint8]:
    """The picture in the colours of its faces: red, green and blue from 0 to 255, of shape (height, width, 3), rows
    from the top; the background is black. Raises as `render` does. It is drawn in one piece: `progress` is called ten
    times a second with 0, and then with 1.

    `out` is an array of NumPy to write to, of any strides, with 3 numbers a pixel, or 4, whose last is 255 then.

    >>> [int(pxplanes.colour(text)[16, 24, part]) for part in range(3)]
    [200, 60, 40]
    """
    due = check(text)
    within(due.clocks, clocks)
    shape = due.height, due.width
    if out is not None and getattr(out, "shape", None) not in ((*shape, 3), (*shape, 4)):
        raise ValueError("out has the shape (%d, %d, 3 or 4), and not %r" % (*shape, getattr(out, "shape", out)))
    rgb = Buffer("B", 3 * due.width * due.height)
    done("colour", text, (), [rgb], clocks=due.clocks, progress=progress)
    shown: NDArray[np.uint8] = rgb.shaped(*shape, 3)
    if out is None:
        return shown
    colours = [*(shown[..., part] for part in range(3)), numpy.full(shape, 255, numpy.uint8)]
    put([out[..., part] for part in range(out.shape[2])], 0, 0, colours)
    given: NDArray[np.uint8] = out
    return given


def within(clocks: int, budget: Optional[int]) -> None:
    """Refuses what takes more clocks than it may."""
    if budget is not None and clocks > operator.index(budget):
        raise OverBudget(clocks, operator.index(budget))


def products(text: Text) -> list[tuple[int, ...]]:
    """The kept products of a scene (docs/PICTURE.md, "Boxes and pruning"), each with its literals in order: the number
    of a solid, from 1 on in the order of the text, with a minus where it is taken away. Raises as `check` does.

    >>> pxplanes.products(text)
    [(1, -2), (3,)]
    """
    numbers, _ = filled("products", "i", text)
    found: list[tuple[int, ...]] = []
    literals: list[int] = []
    for number in numbers.numbers:
        if number:
            literals.append(number)
        else:
            found.append(tuple(literals))
            literals = []
    return found


def version() -> str:
    """The version of the library, as CHANGES.md counts it.

    >>> pxplanes.version().startswith(pxplanes.__version__)
    True
    """
    return word_of("version")
