"""Lays a model into a picture: its turn, its scale, and what of it can show. What `model` draws by."""
from __future__ import annotations

import math
from typing import Any, Sequence

from pxplanes.errors import Trouble
from pxplanes.mesh import exact, facets, kinds, solids, turns

FILLS = 0.92
FIELD = 22.5
FLAT = 1e-9
EDGES = ("left", "right", "bottom", "top")


class View:
    """From the model to the picture: right and down in pixels, and away from the eye in cells.
    `box` bounds what can show, along the picture's right, away and up."""

    def __init__(self, rows: kinds.Points, size: Sequence[int], far: float, tree: kinds.Tree) -> None:
        self.rows, self.size, self.far = rows, size, far
        box = shown(rows, tree)
        self.has_common = box is not None
        low, high = self.box = box or around([box_of(rows, solid.points) for solid, _ in solids.leaves(tree)])
        self.cells = FILLS * far / widths(self.box)[1]
        self.nearest = low[1] - (1 - FILLS) / 2 * far / self.cells

    def placed(self, scale: float, left: float, top: float) -> View:
        """With so many pixels to a unit, and the origin at this place."""
        self.scale, self.left, self.top = scale, left, top
        return self

    def turned(self, point: kinds.Vector) -> list[float]:
        return turns.turned(self.rows, point)

    def places(self, points: kinds.Points) -> list[tuple[float, float]]:
        """The columns and rows of points."""
        seen = [self.turned(point) for point in points]
        return [(self.left + self.scale * right, self.top - self.scale * up) for right, _, up in seen]

    def half_space(self, plane: exact.Plane) -> tuple[str, tuple[float, ...]]:
        """The kind of a half-space, and A, B, C of its plane in cells; of a side, whose plane is along the axis
        exactly, in any unit."""
        right, away, up = plane.along(self.rows)
        form = (-right / self.scale, up / self.scale, plane.far - away * self.nearest
                + (right * self.left - up * self.top) / self.scale)
        if away == 0:
            return "side", form
        return "front" if away < 0 else "back", tuple(self.cells / away * part for part in form)

    def face(self, plane: exact.Plane, corners: kinds.Points) -> Any:
        """The box of a face by its corners: column, row and depth, from and to."""
        places = [(*place, (self.turned(corner)[1] - self.nearest) * self.cells)
                  for place, corner in zip(self.places(corners), corners)]
        return [[end(parts) for parts in zip(*places)] for end in (min, max)]

    def notes(self) -> list[str]:
        """Comments that the scene begins with."""
        return []

    def where(self, plane: exact.Plane) -> Any:
        """Where a plane is to be true: in the middle of these corners, here those of the picture."""
        return (0, 0, 0), (self.size[0] - 1, self.size[1] - 1, 0)

    def cut_off(self) -> list[str]:
        """What the edges of the picture cut off of what can show, in a line for each."""
        return ["the model is cut off at the %s of the picture, by %.1f pixels" % pair for pair in self.beyond()]

    def beyond(self) -> list[tuple[str, float]]:
        """The edges of the picture beyond which what can show goes on, and by how many pixels."""
        low, high = self.box
        beyond = (-self.left - self.scale * low[0], self.left + self.scale * high[0] - (self.size[0] - 1),
                  self.top - self.scale * low[2] - (self.size[1] - 1), self.scale * high[2] - self.top)
        return [pair for pair in zip(EDGES, beyond) if pair[1] >= 1]

    def why_empty(self) -> str:
        if not self.has_common:
            return "what the model intersects has no common part"
        if self.beyond():
            return "the model is beyond its edges"
        return "nothing is left of the model, or the rest is smaller than a pixel"


def box_of(rows: Any, points: Any) -> Any:
    if hasattr(points, "shape"):
        seen = [points @ row for row in rows]
        return [float(own.min()) for own in seen], [float(own.max()) for own in seen]
    return facets.box_of([turns.turned(rows, point) for point in points])


def shown(rows: kinds.Points, tree: Any) -> Any:
    """The box of what can show of a tree: of what is added, and where solids intersect the common
    part of theirs; None where they have none."""
    if not isinstance(tree, tuple):
        return box_of(rows, tree.points)
    boxes = [shown(rows, part) for part in tree[1]]
    if tree[0] == "-":
        return boxes[0]
    if tree[0] == "*":
        return met(boxes) if None not in boxes else None
    return around([box for box in boxes if box])


def met(boxes: Any) -> Any:
    low = [max(low[i] for low, _ in boxes) for i in range(3)]
    high = [min(high[i] for _, high in boxes) for i in range(3)]
    return (low, high) if all(a < b for a, b in zip(low, high)) else None


def around(boxes: Any) -> Any:
    if not boxes:
        return None
    return ([min(low[i] for low, _ in boxes) for i in range(3)], [max(high[i] for _, high in boxes) for i in range(3)])


def widths(box: Any) -> list[float]:
    """The widths of a box; where it is flat, a little of the greatest."""
    wide = [high - low for low, high in zip(*box)]
    return [max(part, FLAT * (max(wide) or 1)) for part in wide]


def fitted(turn: kinds.Vector, size: Sequence[int], scale: Any, far: float, tree: kinds.Tree) -> View:
    """What can show in the middle of the picture, and so large that it fills it."""
    view = View(turns.rows_of(turn), size, far, tree)
    (low, high), room = view.box, widths(view.box)
    scale = scale or FILLS * min(size[0] / room[0], size[1] / room[2])
    return view.placed(scale, size[0] / 2 - scale * (low[0] + high[0]) / 2,
                       size[1] / 2 + scale * (low[2] + high[2]) / 2)


def of_camera(numbers: kinds.Vector, size: Sequence[int], far: float, tree: kinds.Tree) -> View:
    """As OpenSCAD's orthographic camera has it, whose pixels are sampled in their middles."""
    if len(numbers) == 6:
        numbers = turns.between(numbers[:3], numbers[3:])
    place, turn, distance = numbers[:3], numbers[3:6], numbers[6]
    if distance <= 0:
        raise Trouble("--camera needs a distance above 0")
    view = View(turns.rows_of(turn), size, far, tree)
    scale = size[1] / (2 * distance * math.tan(math.radians(FIELD / 2)))
    right, _, up = view.turned(place)
    return view.placed(scale, (size[0] - 1) / 2 - scale * right, (size[1] - 1) / 2 + scale * up)
