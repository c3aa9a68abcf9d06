"""OpenSCAD's primitives as points and facets: what `model` draws from. A facet is a list of the
numbers of its points."""
import math
from typing import Any, Sequence

from pxplanes.errors import Trouble
from pxplanes.mesh import kinds, turns

MOST_SIDES = 1000
GRID = 2.0 ** -20          # OpenSCAD takes what is less for nothing


def cube(size: kinds.Vector, center: Any) -> Any:
    low = [-side / 2 if center else 0 for side in size]
    points = [[low[0] + size[0] * x, low[1] + size[1] * y, low[2] + size[2] * z]
              for x in (0, 1) for y in (0, 1) for z in (0, 1)]
    return points, [[0, 1, 3, 2], [4, 6, 7, 5], [0, 4, 5, 1], [2, 3, 7, 6], [0, 2, 6, 4], [1, 5, 7, 3]]


def fragments(radius: float, settings: Sequence[float]) -> int:
    """How many sides OpenSCAD gives a circle."""
    count, angle, length = settings
    if radius < GRID:
        return 3
    if count <= 0:
        count = math.ceil(max(min(360 / angle, radius * 2 * math.pi / length), 5))
    if count > MOST_SIDES:
        raise Trouble("has circles of more than %d sides" % MOST_SIDES)
    return int(max(count, 3))


def ring(radius: float, height: float, count: int) -> list[list[float]]:
    ways = [turns.way(360.0 * i / count) for i in range(count)]
    return [[radius * cosine, radius * sine, height] for cosine, sine in ways]


def between(first: Any, second: int, count: int) -> list[list[int]]:
    """The facets between two rings of points that begin at these numbers."""
    return [[first + i, first + (i + 1) % count, second + (i + 1) % count, second + i] for i in range(count)]


def cylinder(height: float, below: float, above: float, center: Any, settings: Sequence[float]) -> Any:
    count = fragments(max(below, above), settings)
    low = -height / 2 if center else 0
    if below <= 0 or above <= 0:
        base, tip = (low + height, low) if below <= 0 else (low, low + height)
        points = ring(max(below, above), base, count) + [[0, 0, tip]]
        return points, [list(range(count))] + [[i, (i + 1) % count, count] for i in range(count)]
    points = ring(below, low, count) + ring(above, low + height, count)
    ends = [list(range(count)), list(range(count, 2 * count))]
    return points, ends + between(0, count, count)


def sphere(radius: float, settings: Sequence[float]) -> Any:
    count = fragments(radius, settings)
    rings = (count + 1) // 2
    points, facets = [], []
    for i in range(rings):
        cosine, sine = turns.way(180.0 * (i + 0.5) / rings)
        points += ring(radius * sine, radius * cosine, count)
        if i:
            facets += between((i - 1) * count, i * count, count)
    return points, facets + [list(range(count)), list(range((rings - 1) * count, rings * count))]


def settings(found: Any) -> tuple[float, float, float]:
    return found.get("$fn", 0), found.get("$fa", 12), found.get("$fs", 2)


def solid(name: str, found: Any) -> Any:
    """The points and facets of a primitive by its arguments; None where it has no inside."""
    if name == "polyhedron":
        return found["points"], [[int(at) for at in facet] for facet in found["faces"]]
    if name == "sphere":
        return sphere(found["r"], settings(found)) if found["r"] > 0 else None
    if name == "cube":
        size = found["size"] if isinstance(found["size"], list) else [found["size"]] * 3
        return cube(size, found.get("center")) if min(size) > 0 else None
    below, above = found["r1"], found["r2"]
    if min(found["h"], max(below, above)) <= 0 or min(below, above) < 0:
        return None
    return cylinder(found["h"], below, above, found.get("center"), settings(found))


def flat(name: str, found: Any) -> Any:
    """The corners of a flat primitive, one after another; None where it has no inside."""
    if name == "polygon":
        return [tuple(point[:2]) for point in found["points"]]
    if name == "circle":
        circle = ring(found["r"], 0, fragments(found["r"], settings(found)))
        return [(x, y) for x, y, _ in circle] if found["r"] > 0 else None
    wide, high = found["size"] if isinstance(found["size"], list) else [found["size"]] * 2
    left, low = (-wide / 2, -high / 2) if found.get("center") else (0.0, 0.0)
    corners: Any = [(left, low), (left + wide, low), (left + wide, low + high), (left, low + high)]
    return corners if min(wide, high) > 0 else None
