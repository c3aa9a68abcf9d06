"""Lays a model before a perspective camera, where each plane is rounded to be true in the middle of its
faces in the picture. What `model --projection p` draws by; cameras.py has the formulas."""
import math
from typing import Any, Optional, Sequence

from pxplanes.errors import Trouble
from pxplanes.mesh import cameras, exact, facets, kinds, solids, turns, views

NEAREST = 0.001
ROOM = 0.02
ONE_PLANE = 1e-6


class Perspective:
    """A model before a perspective camera. `boxes` has of each plane where its faces are in the
    picture: the least and the greatest column, row and depth."""

    def __init__(self, eye: kinds.Vector, turn: kinds.Vector, fov: float, size: Sequence[int], cells: int, ends: Any,
                 tree: kinds.Tree) -> None:
        self.size, self.tree, self.eye = size, tree, eye
        self.rows = turns.rows_of(turn)
        self.has_common = views.shown(self.rows, tree) is not None
        seen_by = [(solid, added, plane, self.seen(corners))
                   for solid, added in solids.leaves(tree) for plane, corners in zip(solid.planes, solid.corners)]
        most = max((seen[1] for *_, polygon in seen_by for seen in polygon), default=0.0)
        if most <= 0:
            raise Trouble("the model is behind the eye")
        edges = edges_of(cameras.focal_of(fov, size), size)
        own = [seen for _, added, _, polygon in seen_by if added for seen in polygon]
        self.passed = [edge for edge, (normal, _) in zip(views.EDGES, edges)
                       if any(facets.dot(normal, seen) > ONE_PLANE * most for seen in own)]
        before = edges + [((0, -1, 0), -NEAREST * most)]
        reached: dict[int, list[float]] = {}
        polygons = [(solid, plane, clipped(polygon, before)) for solid, _, plane, polygon in seen_by]
        for solid, _, polygon in polygons:
            reached.setdefault(id(solid), []).extend(seen[1] for seen in polygon)
        near, far = self.ends(self.reach(tree, reached) or [most], ends)
        self.camera = cameras.Camera(eye, turn, fov, size, cameras.Distances(near, far, cells))
        self.boxes: dict[tuple[int, ...], Any] = {}
        for _, plane, polygon in polygons:
            self.learn(one_key(plane), clipped(polygon, [((0, -1, 0), -near), ((0, 1, 0), far)]))

    def turned(self, point: kinds.Vector) -> list[float]:
        return turns.turned(self.rows, point)

    def places(self, points: kinds.Points) -> Any:
        """The columns and rows of points; none where one is not before the near plane."""
        seen = [self.camera.seen(point) for point in points]
        if any(away < self.camera.distances.near for _, away, _ in seen):
            return []
        return [self.camera.place(point)[:2] for point in seen]

    def half_space(self, plane: exact.Plane) -> Any:
        return self.camera.half_space(plane)

    def notes(self) -> list[str]:
        return [self.camera.line()]

    def seen(self, corners: kinds.Points) -> list[list[float]]:
        """Corners as the eye sees them."""
        return [turns.turned(self.rows, [part - own for part, own in zip(corner, self.eye)]) for corner in corners]

    def reach(self, tree: kinds.Tree, reached: Any) -> list[float]:
        """The distances at which a tree has corners in the picture, of what is taken away those within
        the box of what it is taken from; `reached` has those of each solid."""
        if not isinstance(tree, tuple):
            return list(reached.get(id(tree), []))
        parts = [self.reach(part, reached) for part in tree[1]]
        box = views.shown(self.rows, tree)
        if tree[0] == "+" or not box:
            return [away for part in parts for away in part]
        eye = turns.turned(self.rows, self.eye)[1]
        return [min(max(away, box[0][1] - eye), box[1][1] - eye) for part in parts for away in part]

    def ends(self, reached: Any, said: Any) -> tuple[float, float]:
        """The nearest and the farthest distance: as said, or as faces reach from and to."""
        near, far = ends_of(min(reached), max(reached), said)
        self.passed += ["near plane"] * (min(reached) < near * (1 - ONE_PLANE))
        self.passed += ["far plane"] * (max(reached) > far * (1 + ONE_PLANE))
        return near, far

    def learn(self, key: Any, polygon: Any) -> None:
        if polygon:
            places = [self.camera.place(seen) for seen in polygon]
            box = tuple(map(min, zip(*places))), tuple(map(max, zip(*places)))
            self.boxes[key] = views.around([box, self.boxes.get(key, box)])

    def where(self, plane: exact.Plane) -> Any:
        """Where the faces of a plane are in the picture; of one without any there, the whole picture."""
        return self.boxes.get(one_key(plane)) or (
            (0, 0, 0), (self.size[0] - 1, self.size[1] - 1, self.camera.distances.cells))

    def face(self, plane: exact.Plane, corners: kinds.Points) -> Any:
        """The box of a plane's faces in the picture: column, row and depth, from and to; None for none."""
        return self.boxes.get(one_key(plane))

    def cut_off(self) -> list[str]:
        within = ["the eye is within the model, whose near face hides what is behind it"] * is_inside(
            self.tree, self.eye)
        return within + ["the model goes on beyond %s of the picture" % ", ".join(
            "the " + edge for edge in self.passed)] if self.passed else []

    def why_empty(self) -> str:
        if not self.has_common:
            return "what the model intersects has no common part"
        return "nothing of the model is before the camera, or the rest of it is smaller than a pixel"


def ends_of(least: float, most: float, said: Sequence[Optional[float]]) -> tuple[float, float]:
    """The distances at which depths begin and end: as said, or a little beyond what is in the picture."""
    far = said[1] or (1 + ROOM) * most
    return said[0] or (1 - ROOM) * max(least, NEAREST * far), far


def is_inside(tree: kinds.Tree, point: kinds.Vector) -> bool:
    """Whether a point belongs to what a tree shows."""
    if not isinstance(tree, tuple):
        return tree is not None and all(facets.dot(normal, point) < far for normal, far, _ in tree.planes)
    members = [is_inside(part, point) for part in tree[1]]
    return members[0] and not members[1] if tree[0] == "-" else any(members) if tree[0] == "+" else all(members)


def one_key(plane: exact.Plane) -> tuple[int, ...]:
    """One key for planes that are one, whichever side is kept. What decides between two keys is no
    number that people write."""
    way = next((part for part in plane.normal if abs(part) > ONE_PLANE), 1)
    return tuple(math.floor(math.copysign(1, way) * part / ONE_PLANE + 0.1371) for part in (*plane.normal, plane.far))


def edges_of(focal: float, size: Sequence[int]) -> list[Any]:
    """The half-spaces within the edges of the picture, half a pixel outside of its last places, as the
    eye sees them: the left, the right, below, above."""
    out = []
    for axis, half in ((0, size[0] / 2), (2, size[1] / 2)):
        for way in (-1, 1):
            normal = [0, -half, 0]
            normal[axis] = way * focal
            out.append(([part / facets.lengthwise(normal) for part in normal], 0))
    return out


def clipped(polygon: Any, half_spaces: Any) -> Any:
    """What half-spaces leave of a polygon; it stays where it lies on a plane of theirs."""
    for plane in half_spaces:
        behind, before = facets.divided(polygon, plane, 0) if polygon else (None, None)
        polygon = [] if before and not behind else behind or polygon
    return polygon


def eye_and_turn(numbers: kinds.Vector) -> Any:
    """Where OpenSCAD's perspective camera is, and how it is turned, by its 6 or 7 numbers."""
    eye, is_place = numbers[:3], len(numbers) == 7
    if not is_place:
        numbers = turns.between(eye, numbers[3:])
    turn, distance = numbers[3:6], numbers[6]
    if distance <= 0:
        raise Trouble("--camera needs a distance above 0")
    if is_place:
        eye = [part - distance * own for part, own in zip(eye, turns.rows_of(turn)[1])]
    return eye, turn


def of_camera(numbers: kinds.Vector, fov: Optional[float], size: Sequence[int], cells: int, ends: Any,
              tree: kinds.Tree) -> Perspective:
    """As OpenSCAD's perspective camera has it; `ends` are near and far, None for as the model is."""
    eye, turn = eye_and_turn(numbers)
    return Perspective(eye, turn, fov or views.FIELD, size, cells, ends, tree)


def around(turn: kinds.Vector, fov: Optional[float], size: Sequence[int], tree: kinds.Tree) -> list[float]:
    """The numbers of a camera that has all that can show in the picture: the eye goes back from its middle as far as
    that takes."""
    rows = turns.rows_of(turn)
    low, high = views.shown(rows, tree) or views.around(
        [views.box_of(rows, solid.points) for solid, _ in solids.leaves(tree)])
    half = [part / 2 for part in views.widths((low, high))]
    focal = cameras.focal_of(fov or views.FIELD, size)
    distance = half[1] + max(focal * half[0] / (views.FILLS * size[0] / 2), focal * half[2] / (views.FILLS * size[1] / 2))
    middle = [(a + b) / 2 for a, b in zip(low, high)]
    return [sum(middle[k] * rows[k][i] for k in range(3)) for i in range(3)] + list(turn) + [distance]
