"""The rays of a scene, as docs/PICTURE.md has them: where each solid begins and ends at a pixel, and
what the shown expression shows there. It is no part of the program, and judges no scene."""
import operator
from typing import Any, Callable, Optional, TypeVar

from pxplanes.scene.scenes import Face, Node, Plane, Scene, Solid

Made = TypeVar("Made")

# (they join NumPy's arrays too)
JOINED: dict[str, Callable[[Any, Any], Any]] = {
    "+": operator.or_, "*": operator.and_, "-": operator.gt, "^": operator.ne}

KEPT: dict[str, Callable[[bool, bool, bool], tuple[bool, bool]]] = {"+": lambda member, left, right: (left or not member, right or not member),
        "*": lambda member, left, right: (member or not left, member or not right),
        "-": lambda member, left, right: (member or not left, member or right),
        "^": lambda member, left, right: (True, True)}


class End:
    """An end of a solid on a ray: the plane's value, its face number, kind, which of its kind, line
    and, of planes that are one there, the numbers of them all."""

    def __init__(self, value: int, number: int, kind: str, which: Optional[int] = None, line: int = 0):
        self.value, self.number, self.kind, self.which, self.line = value, number, kind, which, line
        self.numbers = {number} if number else set()


class Crossing:
    """Where a ray is inside a solid: its ends, and the cells from `first` up to `end`, without it."""

    def __init__(self, front: End, back: End, fraction: int):
        self.front, self.back = front, back
        self.first, self.end = cell_of(front.value, fraction), cell_of(back.value, fraction)

    def is_cell(self) -> bool:
        return self.first < self.end

    def has(self, cell: int) -> bool:
        return self.first <= cell < self.end


Crossings = list[Optional[Crossing]]


def cell_of(value: int, fraction: int) -> int:
    """The first cell that stands at the value or behind it."""
    return -(-value >> fraction)


def value(plane: Plane, x: int, y: int) -> int:
    return plane[0] * x + plane[1] * y + plane[2]


def left_out(solid: Solid, x: int, y: int) -> Optional[Face]:
    """The first side that leaves a pixel out, or None."""
    return next((side for side in solid.sides if value(side.plane, x, y) < 0), None)


def ends_of(scene: Scene, solid: Solid, x: int, y: int) -> Crossing:
    """The ends of a solid on a ray by its fronts and backs alone."""
    front = End(0, solid.near, "near", None, solid.line)
    back = End(scene.far() << scene.fraction_bits, 0, "far limit")
    for which, face in enumerate(solid.fronts, 1):
        front = chosen(front, End(value(face.plane, x, y), face.number, "front", which, face.line), 1)
    for which, face in enumerate(solid.backs, 1):
        back = chosen(back, End(value(face.plane, x, y), face.number, "back", which, face.line), -1)
    return Crossing(front, back, scene.fraction_bits)


def chosen(known: End, other: End, way: int) -> End:
    """The end that bounds the solid: the greatest front, the least back."""
    if way * other.value > way * known.value or other.value == known.value and not known.number:
        return other
    if other.value == known.value:
        known.numbers |= other.numbers
    return known


def crossing(scene: Scene, solid: Solid, x: int, y: int) -> Optional[Crossing]:
    """Where the ray of a pixel is inside a solid; None where it meets no cell of it."""
    if left_out(solid, x, y):
        return None
    found = ends_of(scene, solid, x, y)
    return found if found.is_cell() else None


def crossings(scene: Scene, x: int, y: int) -> Crossings:
    return [crossing(scene, solid, x, y) for solid in scene.solids]


def folded(show: list[Node], leaf: Callable[[int], Made], join: Callable[[str, Made, Made], Made]) -> Made:
    """What an expression is made of by its leaves, from the inside out."""
    stack: list[Made] = []
    for node in show:
        if isinstance(node, int):
            stack.append(leaf(node))
        else:
            right, left = stack.pop(), stack.pop()
            stack.append(join(node, left, right))
    return stack.pop()


def is_member(show: list[Node], found: Crossings, cell: int) -> bool:
    has = [each is not None and each.has(cell) for each in found]
    return folded(show, has.__getitem__, lambda sign, left, right: bool(JOINED[sign](left, right)))


def runs(scene: Scene, found: Crossings) -> list[tuple[int, int]]:
    """The runs of cells of the shown expression, nearest first: first cell, and one past the last."""
    ends = sorted({0, scene.far()} | {at for each in found if each for at in (each.first, each.end)})
    out: list[tuple[int, int]] = []
    for at, end in zip(ends, ends[1:]):
        if is_member(scene.show, found, at):
            if out and out[-1][1] == at:
                at = out.pop()[0]
            out.append((at, end))
    return out


def faces_at(scene: Scene, found: Crossings, cell: int) -> set[int]:
    """The numbers of the faces shown at a member of the shown expression."""
    def leaf(at: int) -> tuple[bool, set[int]]:
        own = found[at]
        if own is None:
            return False, set()
        if own.has(cell):
            return True, own.front.numbers if own.first == cell else set()
        return False, own.back.numbers if own.end == cell else set()

    def join(sign: str, left: tuple[bool, set[int]], right: tuple[bool, set[int]]) -> tuple[bool, set[int]]:
        (inside, here), (other, there) = left, right
        member = JOINED[sign](inside, other)
        keeps_here, keeps_there = KEPT[sign](member, inside, other)
        return member, (here if keeps_here else set()) | (there if keeps_there else set())

    return folded(scene.show, leaf, join)[1]


def pixel(scene: Scene, x: int, y: int) -> tuple[int, int]:
    """The depth and the face that a pixel shows: of several faces the least number."""
    return pixel_of(scene, crossings(scene, x, y))


def pixel_of(scene: Scene, found: Crossings) -> tuple[int, int]:
    cells = runs(scene, found)
    if not cells:
        return scene.far(), 0
    return cells[0][0], min(faces_at(scene, found, cells[0][0]))


def depth(scene: Scene, x: int, y: int) -> int:
    return depth_of(scene, crossings(scene, x, y))


def depth_of(scene: Scene, found: Crossings) -> int:
    cells = runs(scene, found)
    return cells[0][0] if cells else scene.far()


def shows_anything(scene: Scene) -> bool:
    """Whether some pixel of the picture shows something; those of a coarse grid are tried first."""
    for step in (max(1, max(scene.width, scene.height) // 16), 1):
        for y in range(0, scene.height, step):
            for x in range(0, scene.width, step):
                if depth(scene, x, y) < scene.far():
                    return True
    return False
