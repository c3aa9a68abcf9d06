"""Which planes of a solid bound it at the pixels of a picture: by those alone it has the same cells and the same faces
at each of them, as docs/PICTURE.md has these. What `model` draws a solid by that has very many facets."""
from typing import Any

from pxplanes.scene import rays

NO_NUMBER = -1
SMALL, FEW = 6, 6


def lines_of(planes: Any, kind: str, near: int) -> list[Any]:
    """A, B, C and number of the planes of a kind, turned so that the greatest bounds; the near face and the far limit
    have none."""
    way = 1 if kind == "front" else -1
    return [(0, 0, near, NO_NUMBER)] + [(way * a, way * b, way * c, number)
                                        for number, (own, (a, b, c)) in enumerate(planes) if own == kind]


def halves(box: Any) -> Any:
    """A box, the columns and the rows from and to, cut across its longer side."""
    (left, right), (top, bottom) = box
    if right - left > bottom - top:
        middle = (left + right) // 2
        return ((left, middle), (top, bottom)), ((middle + 1, right), (top, bottom))
    middle = (top + bottom) // 2
    return ((left, right), (top, middle)), ((left, right), (middle + 1, bottom))


def most_in(a: int, b: int, c: int, box: tuple[tuple[int, int], tuple[int, int]]) -> int:
    """Twice the greatest value of a line in a box."""
    (left, right), (top, bottom) = box
    return a * (left + right) + b * (top + bottom) + 2 * c + abs(a) * (right - left) + abs(b) * (bottom - top)


def possible(lines: Any, box: Any) -> Any:
    """Those that may be greatest at some pixel of a box: all that are not below that one in all of it which is greatest
    in its middle, the first of them."""
    (left, right), (top, bottom) = box
    values = [a * (left + right) + b * (top + bottom) + 2 * c for a, b, c, _ in lines]
    own = lines[values.index(max(values))]
    p, q, r, _ = own
    return [own] + [line for line in lines if line is not own
                    and most_in(line[0] - p, line[1] - q, line[2] - r, box) >= 0]


def greatest(lines: Any, x: float, y: float) -> Any:
    """The greatest value at a pixel, and the numbers of those that have it."""
    values = [a * x + b * y + c for a, b, c, _ in lines]
    most = max(values)
    return most, [line[3] for line, value in zip(lines, values) if value == most]


def visit(fronts: Any, backs: Any, box: Any, report: Any, is_none: Any) -> None:
    """Reports of each pixel of a box its place, and what is greatest there of fronts and of backs; of a whole box in
    which no cell is the numbers of a front and a back that leave none."""
    (left, right), (top, bottom) = box
    if right - left + bottom - top > SMALL and len(fronts) + len(backs) > FEW:
        for half in halves(box):
            own, others = possible(fronts, half), possible(backs, half)
            a, b, c = (-front - back for front, back in zip(own[0][:3], others[0][:3]))
            if most_in(a, b, c, half) <= 0:
                is_none(own[0][3], others[0][3])
            else:
                visit(own, others, half, report, is_none)
        return
    for y in range(top, bottom + 1):
        for x in range(left, right + 1):
            report((x, y), greatest(fronts, x, y), greatest(backs, x, y))


def sided(sides: Any, y: float, columns: Any) -> Any:
    """The columns of a row that a solid's sides leave, and the numbers of the sides that do not leave one more."""
    (low, high), (left, right) = columns, (None, None)
    for number, (a, b, c) in sides:
        rest = b * y + c
        if a == 0 and rest < 0:
            return (0, -1), [number]
        if a > 0 and -(rest // a) > low:
            low, left = -(rest // a), number
        elif a < 0 and rest // -a < high:
            high, right = rest // -a, number
    return (low, high), [number for number in (left, right) if number is not None]


def needed(planes: Any, far: int, fraction: int, box: Any, is_first: bool = False) -> set[int]:
    """The numbers of the planes, (kind, (A, B, C)) each, that bound a solid at some pixel of a box; of pixels at which
    it has no cell, as many as leave none. Where its first cells alone are wanted, of its backs those alone that leave
    none."""
    fronts, backs = lines_of(planes, "front", 0), lines_of(planes, "back", -far << fraction)
    sides = [(number, plane) for number, (kind, plane) in enumerate(planes) if kind == "side"]
    left = {y: sided(sides, y, box[0]) for y in range(box[1][0], box[1][1] + 1)}
    found, empty = {number for _, own in left.values() for number in own}, {}

    def is_empty(first: int, end: int) -> bool:
        return bool(rays.cell_of(first, fraction) >= rays.cell_of(-end, fraction))

    def learn(place: Any, front: Any, back: Any) -> None:
        (low, high), _ = left[place[1]]
        if not low <= place[0] <= high:
            return
        if is_empty(front[0], back[0]):
            empty[place] = front[1][0], back[1][0]
        else:
            found.update(front[1] if is_first else front[1] + back[1])

    def close(place: Any, front: Any, back: Any) -> None:
        if place in empty and not is_empty(front[0], back[0]):
            found.update(empty[place])

    visit(fronts, backs, box, learn, lambda *pair: found.update(pair))
    kept = [[line for line in lines if line[3] in found or line[3] == NO_NUMBER] for lines in (fronts, backs)]
    visit(kept[0], kept[1], box, close, lambda *pair: None)
    return found - {NO_NUMBER}
