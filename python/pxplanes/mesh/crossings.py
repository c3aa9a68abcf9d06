"""Where the rays of a picture meet the triangles of a mesh, clean or not, in double precision: what a
kernel's result has at a pixel. It knows nothing of half-spaces or of the expression."""
import math
from typing import Any

WHOLE, FOREVER = 1e-6, 2.0 ** 40


class Crossings:
    """A mesh as a picture has it. `seen` are its points as column, row (downwards) and depth in cells; a
    facet goes round to the left where it is seen from outside."""

    def __init__(self, seen: Any, sides: Any) -> None:
        self.pieces: dict[float, list[Any]] = {}
        self.lists: dict[int, list[Any]] = {}
        self.spans_at: dict[tuple[float, float], list[tuple[float, float]]] = {}
        for side in sides:
            for i in range(1, len(side) - 1):
                corners = [tuple(seen[at]) for at in (side[0], side[i], side[i + 1])]
                rows = [corner[1] for corner in corners]
                for row in range(math.floor(min(rows)), math.floor(max(rows)) + 1):
                    self.lists.setdefault(row, []).append(corners)

    def row(self, y: float) -> list[Any]:
        """The pieces of triangles on a row: from and to a column, without it, the depths there, and 1
        where a ray goes in, -1 where it comes out."""
        if y not in self.pieces:
            found = (piece_of(corners, y) for corners in self.lists.get(math.floor(y), ()))
            self.pieces[y] = [piece for piece in found if piece]
        return self.pieces[y]

    def spans(self, x: float, y: float) -> list[tuple[float, float]]:
        """Where a ray is inside, from and to: where it went in more often than it came out; to FOREVER where it
        does not come out again."""
        if (x, y) not in self.spans_at:
            ends = sorted((depth + (x - left) * slope, way)
                          for left, right, depth, slope, way in self.row(y) if left <= x < right)
            count, out = 0, []
            for at, way in ends:
                if count <= 0 < count + way:
                    start = at
                elif count + way <= 0 < count:
                    out.append((start, at))
                count += way
            self.spans_at[x, y] = out + ([(start, FOREVER)] if count > 0 else [])
        return self.spans_at[x, y]

    def cells(self, x: float, y: float, far: int, cut: int = 0, grow: float = 0) -> list[tuple[int, int]]:
        """The cells from `cut` up to `far` that are inside, from and to, each span longer by `grow` at both ends."""
        found = ((max(cut, math.ceil(low - grow - WHOLE)), min(far, math.ceil(high + grow - WHOLE)))
                 for low, high in self.spans(x, y))
        return [(first, end) for first, end in found if first < end]

    def depth(self, x: float, y: float, cut: int, far: int, grow: float = 0) -> int:
        """The first of these cells; `far` for none."""
        return next((first for first, _ in self.cells(x, y, far, cut, grow)), far)


def piece_of(corners: Any, y: float) -> Any:
    """The piece of a triangle on a row. Both ends of an edge that two triangles share are taken in one
    order, so that no ray passes between them, nor meets both."""
    ends = {}
    for i, corner in enumerate(corners):
        before = corners[i - 1]
        if (before[1] <= y) != (corner[1] <= y):
            low, high = sorted((before, corner))
            part = (y - low[1]) / (high[1] - low[1])
            ends[before[1] <= y] = low[0] + part * (high[0] - low[0]), low[2] + part * (high[2] - low[2])
    if len(ends) < 2 or ends[True][0] == ends[False][0]:
        return None
    (left, depth), (right, other) = sorted(ends.values())
    return left, right, depth, (other - depth) / (right - left), 1 if ends[True][0] < ends[False][0] else -1
