"""What a scene shows at any pixels, by docs/PICTURE.md, in NumPy: half-spaces, the ends of the solids on each ray, and
membership by the expression. All in whole numbers of 64 bits. Each way to misread a scene is a field of `Reading`."""
from __future__ import annotations

from dataclasses import dataclass, field, replace
from functools import cached_property
from typing import Any, Callable, Iterator, Sequence

import numpy as np
from numpy.typing import NDArray

from pxplanes.errors import Trouble
from pxplanes.scene import scenes

Whole = NDArray[np.int64]
Reals = NDArray[np.float64]
Bools = NDArray[np.bool_]
Plane = tuple[int, int, int]
Row = tuple[Plane, int]               # a plane, and its face number; that of a side is 0
Node = int | str                      # the index of a solid, or a sign, in postorder
NONE, BEFORE = 1 << 20, -(1 << 50)    # no face; before all depths
KINDS = ("front", "back", "side")
PIECE = 1 << 19                       # so many planes and ends of solids, times samples, are drawn at once


@dataclass(frozen=True)
class Solid:
    near: int
    fronts: list[Row] = field(default_factory=list)
    backs: list[Row] = field(default_factory=list)
    sides: list[Row] = field(default_factory=list)
    order: tuple[str, ...] = ()       # the kinds of its planes, in the order of the text

    def rows(self, kind: str) -> list[Row]:
        found: list[Row] = getattr(self, kind + "s")
        return found

    def with_rows(self, change: Callable[[list[Row], str], list[Row]]) -> Solid:
        """The solid with its planes of each kind changed."""
        fronts, backs, sides = (change(self.rows(kind), kind) for kind in KINDS)
        return Solid(self.near, fronts, backs, sides, self.order)


@dataclass(frozen=True)
class Scene:
    """A scene as numbers alone; `name` is for messages."""

    name: str
    width: int
    height: int
    bits: int
    fraction: int
    solids: list[Solid]
    show: list[Node]

    @property
    def far(self) -> int:
        return (1 << self.bits) - 1

    @cached_property
    def extents(self) -> tuple[Whole, Whole]:
        """Of each solid, where rays meet it: its least column, row and cell, and its greatest column, row and end."""
        x, y = grid(self)
        least, most = np.full((3, len(self.solids)), -BEFORE), np.full((3, len(self.solids)), BEFORE)
        for part in pieces(self, x.size):
            found = ends([self], RIGHT, x[np.newaxis, part], y[np.newaxis, part])
            has = found.has[:, 0]
            least = np.minimum(least, [np.where(has, each, -BEFORE).min(-1) for each in (x[part], y[part], found.first[:, 0])])
            most = np.maximum(most, [np.where(has, each, BEFORE).max(-1) for each in (x[part], y[part], found.end[:, 0])])
        return least, most

    @property
    def work(self) -> int:
        """Planes and ends of solids."""
        return 1 + sum(2 + len(solid.fronts) + len(solid.backs) + len(solid.sides) for solid in self.solids)

    def planes(self, change: Callable[[Plane, str], Plane]) -> Scene:
        """The scene with each plane changed."""
        def changed(solid: Solid) -> Solid:
            return solid.with_rows(lambda rows, kind: [(change(plane, kind), number) for plane, number in rows])
        return replace(self, solids=[changed(solid) for solid in self.solids])


@dataclass(frozen=True)
class Reading:
    """How a scene is read; the values here are right. Samples are `dx / grid` and `dy / grid` of a pixel aside, and
    `wide / grid` and `high / grid` of a pixel farther apart; or, of columns and of rows, `sign / (size + more)`, where
    `stretch` has `more` and the two signs, and the size is that of the picture."""

    dx: int = 0
    dy: int = 0
    grid: int = 1
    wide: int = 0
    high: int = 0
    stretch: tuple[int, int, int] = (0, 0, 0)
    kinds: tuple[str, ...] = KINDS     # the planes that are read at these samples
    real: bool = False           # depths in parts of a cell, and no cells
    fronts: str = "up"           # a front's value to its cell: up, down, half up, half down, half even, next (after it)
    ends: str = "up"             # a back's value to the cell that ends its solid; also next
    thick: int = 0               # so many cells more of each solid that has one
    strict_sides: bool = False
    near: int = 0                # the cell at which solids begin
    far: int = 0                 # how far the far limit is from the right one
    backs: bool = True           # the backs of what is cut away can show
    highest: bool = False        # the highest face in a tie
    farthest: bool = False       # the farthest surface shows
    single: str = ""             # planes in float32, in this order of terms: abc, cab
    bits: int = 64               # values are cut to so many bits

    def of_size(self, width: int, height: int) -> Reading:
        """The same for pictures of a size."""
        more, wide, high = self.stretch
        width, height = max(1, width + more), max(1, height + more)
        return replace(self, grid=width * height, wide=wide * height, high=high * width) if wide or high else self


RIGHT, REAL = Reading(), Reading(real=True)


@dataclass(frozen=True)
class Picture:
    """Depths are whole cells, or, if read as real, parts of cells; faces are 0 in the background. One of each for each
    pixel asked."""

    depths: Reals
    faces: Whole


def of_text(text: bytes, name: str) -> tuple[Scene, Any]:
    """The scene of a text as numbers, and with its names and lines. Raises `Trouble`, with the line, if the text is
    refused."""
    try:
        found = scenes.read(text)
        scenes.pixel_memory(found)
    except scenes.Refusal as refusal:
        raise Trouble("%s: %s" % (name, refusal.note)) from None
    return of_scene(found, name), found


def of_scene(scene: Any, name: str) -> Scene:
    def rows(faces: Any) -> list[Row]:
        return [(face.plane, face.number or 0) for face in faces]

    def order(solid: Any) -> tuple[str, ...]:
        return tuple(kind for _, kind in sorted((face.line, kind) for kind in KINDS for face in getattr(solid, kind + "s")))
    return Scene(name, scene.width, scene.height, scene.depth_bits, scene.fraction_bits,
                 [Solid(solid.near, rows(solid.fronts), rows(solid.backs), rows(solid.sides), order(solid)) for solid in scene.solids],
                 list(scene.show))


def grid(scene: Scene) -> tuple[Whole, Whole]:
    """The columns and the rows of all pixels, row by row from the top."""
    y, x = np.indices((scene.height, scene.width), np.int64)
    return x.ravel(), y.ravel()


def values(planes: Sequence[Whole], x: Whole, y: Whole, how: Reading) -> Whole:
    """The values of planes, given as arrays of A, B and C, at each sample, in parts of 1 / grid."""
    x, y = x * (how.grid + how.wide) + how.dx, y * (how.grid + how.high) + how.dy
    a, b, c = planes
    if how.single:
        ax, by, fc = (np.float32(a) * np.float32(x), np.float32(b) * np.float32(y), np.float32(c * how.grid))
        single: Whole = np.ceil((ax + by) + fc if how.single == "abc" else (fc + ax) + by).astype(np.int64)
        return single
    found: Whole = a * x + b * y + c * how.grid
    return found if how.bits == 64 else (found + (1 << how.bits - 1)) % (1 << how.bits) - (1 << how.bits - 1)


def cells(value: Whole, unit: int, rounds: str) -> Whole:
    """The cell of a value of so many parts."""
    if rounds == "up":
        return -(-value // unit)
    if rounds in ("down", "next"):
        return value // unit + (rounds == "next")
    if rounds == "half up":
        return (2 * value + unit) // (2 * unit)
    if rounds == "half down":
        return -((unit - 2 * value) // (2 * unit))
    down, twice = value // unit, 2 * (value % unit)
    found: Whole = down + ((twice > unit) | ((twice == unit) & (down % 2 == 1)))
    return found


@dataclass(frozen=True)
class Ends:
    """Of each solid at each pixel, in rows by solids: its first cell, the one past its last, and the faces there."""

    first: Whole
    end: Whole
    front: Whole
    back: Whole
    has: Bools


def table(scenes: Sequence[Scene], kind: str) -> Whole:
    """A, B, C, the face number, and whether there is such a plane, each by solids, by planes of a kind, and by scenes."""
    rows = [[solid.rows(kind) for solid in scene.solids] for scene in scenes]
    most = max(len(own) for each in rows for own in each)
    filled = [[[(*plane, number, 1) for plane, number in own] + [(0, 0, 0, 0, 0)] * (most - len(own)) for own in each] for each in rows]
    return np.array(filled, np.int64).reshape(len(rows), len(rows[0]), most, 5).transpose(3, 1, 2, 0)[..., np.newaxis]


def ends(scenes: Sequence[Scene], how: Reading, x: Whole, y: Whole) -> Ends:
    """The ends of the solids of scenes that have as many of them, and as many bits; samples are in a row for each scene."""
    unit = how.grid << scenes[0].fraction
    step, limit = 1 if how.real else unit, (scenes[0].far + how.far) * unit
    at_pixels = how if how.kinds == KINDS else replace(how, dx=0, dy=0, wide=0, high=0)

    def of_kind(kind: str) -> tuple[Whole, Whole, Bools]:
        *planes, numbers, is_there = table(scenes, kind)
        return values(planes, x, y, how if kind in how.kinds else at_pixels), NONE - numbers if how.highest else numbers, is_there != 0

    def bound(kind: str, start: int, face: Any, extreme: np.ufunc) -> tuple[Whole, Whole]:
        """The greatest or the least of the planes' values and the start, and its face: in a tie the least number."""
        value, numbers, is_there = of_kind(kind)
        value = np.where(is_there, value, start)
        found = extreme.reduce(value, 1, initial=start)
        faces = np.where(is_there & (value == found[:, np.newaxis]), numbers, NONE).min(1, initial=NONE)
        return found, np.where(found == start, np.minimum(faces, face), faces)

    near = np.array([[solid.near for solid in scene.solids] for scene in scenes]).T[..., np.newaxis]
    front, face = bound("front", how.near * unit, NONE - near if how.highest else near, np.maximum)
    back, other = bound("back", limit, NONE, np.minimum)
    first, end = cells(front, step, how.fronts), np.minimum(cells(back, step, how.ends), limit // step)
    value, _, is_there = of_kind("side")
    has = (first < end) & ((value >= how.strict_sides) | ~is_there).all(1)
    return Ends(first, np.minimum(end + how.thick, limit // step) if how.thick else end, face, other, has)


def shows(sign: str, member: Bools, left: Bools, right: Bools) -> tuple[Bools, Bools]:
    """Whether the faces of each side show, or are hidden, by docs/PICTURE.md."""
    if sign == "+":
        return left | ~member, right | ~member
    if sign == "*":
        return member | ~left, member | ~right
    if sign == "-":
        return member | ~left, member | right
    return np.ones_like(member), np.ones_like(member)


def joined(sign: str, left: Bools, right: Bools) -> Bools:
    return left | right if sign == "+" else left & right if sign == "*" else left & ~right if sign == "-" else left ^ right


def fold(show: list[Node], found: Ends, z: Whole, with_faces: bool) -> tuple[Bools, Whole]:
    """Which of the cells are members, and the least face that shows there."""
    stack: list[tuple[Bools, Whole]] = []
    for node in show:
        if isinstance(node, int):
            first, end = found.first[node], found.end[node]
            inside = found.has[node] & (first <= z) & (z < end)
            face = np.where(inside & (first == z), found.front[node], np.where(
                ~inside & found.has[node] & (end == z), found.back[node], NONE)) if with_faces else z
            stack.append((inside, face))
            continue
        (right, there), (left, here) = stack.pop(), stack.pop()
        member = joined(node, left, right)
        if with_faces:
            ours, theirs = shows(node, member, left, right)
            here = np.minimum(np.where(ours, here, NONE), np.where(theirs, there, NONE))
        stack.append((member, here))
    return stack.pop()


@dataclass(frozen=True)
class Asked:
    """What is to be drawn: the samples are flat arrays of columns and rows."""

    scene: Scene
    how: Reading
    x: Whole
    y: Whole

    @property
    def form(self) -> tuple[Any, ...]:
        """What those have in common that can be drawn at once."""
        return tuple(self.scene.show), self.how, self.scene.bits, self.scene.fraction, len(self.scene.solids), self.x.size


def pieces(scene: Scene, count: int, size: int = 1) -> Iterator[slice]:
    """So many things, of so many samples each, in pieces that are drawn at once."""
    step = max(1, PIECE // (scene.work * max(size, 1)))
    return (slice(at, at + step) for at in range(0, count, step))


def picture(scene: Scene, how: Reading, x: Whole, y: Whole) -> Picture:
    """The depth and the face at each of the samples, which are flat arrays of columns and rows."""
    parts = [drawn([Asked(scene, how, x[part], y[part])]) for part in pieces(scene, max(x.size, 1))]
    return Picture(np.concatenate([part.depths[0] for part in parts]), np.concatenate([part.faces[0] for part in parts]))


def pictures(asked: Sequence[Asked]) -> list[Picture]:
    """What `picture` gives for each; those of one form are drawn at once."""
    forms: dict[tuple[Any, ...], list[int]] = {}
    for at, each in enumerate(asked):
        forms.setdefault(each.form, []).append(at)
    found: dict[int, Picture] = {}
    for places in forms.values():
        for part in pieces(asked[places[0]].scene, len(places), asked[places[0]].x.size):
            shown = drawn([asked[place] for place in places[part]])
            found.update((place, Picture(*maps)) for place, *maps in zip(places[part], shown.depths, shown.faces))
    return [found[at] for at in range(len(asked))]


def drawn(asked: Sequence[Asked]) -> Picture:
    """The pictures of one form, a row for each."""
    scene, x, y = asked[0].scene, np.stack([each.x for each in asked]), np.stack([each.y for each in asked])
    how = asked[0].how.of_size(scene.width, scene.height)
    found, unit = ends([each.scene for each in asked], how, x, y), how.grid << scene.fraction
    start = np.full((1, *x.shape), min(how.near, 0))
    z = np.concatenate([start, found.first] + ([found.end] if how.backs else []))
    end = scene.far * (unit if how.real else 1)
    inside = fold(scene.show, found, z, False)[0]
    if how.farthest:
        met = np.concatenate([start == start, found.has] + ([found.has] if how.backs else []))
        first: Whole = np.where(inside & met, z, BEFORE).max(0)
    else:
        first = np.where(inside, z, end + 1).min(0)
    shown = inside.any(0) & (first <= end)
    first = np.where(shown, first, end)
    face = fold(scene.show, found, first, True)[1]
    face = np.where(face == NONE, 0, NONE - face if how.highest else face)
    return Picture(np.maximum(first, 0) / (unit if how.real else 1), np.where(shown, face, 0))
