"""What OpenSCAD makes of other shapes, where the outcome is convex: hulls, sums, prisms and turned
profiles. Convex flat shapes are their corners in order; convex solids are points and planes."""
import math
from typing import Any

from pxplanes.errors import Trouble
from pxplanes.mesh import exact, facets, kinds, mesh_files, primitives, turns

PACKAGE = "python3-scipy"


def hull(points: kinds.Points) -> Any:
    """The points at the corners of the hull of points in space, its planes, and its triangles; by Qhull."""
    try:
        from scipy.spatial import ConvexHull, QhullError
    except ImportError:
        raise Trouble("needs scipy, which this Python has not (Debian's %s)" % PACKAGE)
    try:
        found = ConvexHull(points)
    except QhullError:
        raise Trouble("is flat")
    places = exact.Points(points)
    planes: dict[Any, exact.Plane] = {}
    for equation, facet in zip(found.equations.tolist(), found.simplices.tolist()):
        planes.setdefault(tuple(round(part, 9) + 0.0 for part in equation),
                          places.plane(equation[:3], -equation[3], facet))
    corners, sides = facets.only(points, found.simplices.tolist())
    return corners, list(planes.values()), sides


def flat_hull(points: kinds.Points) -> Any:
    """The corners of the hull of points of a plane, one after another, to the left."""
    points = sorted({(x, y) for x, y in points})
    if len(points) < 3:
        return []
    sides, flat = [], 1e-12 * math.dist(points[0], points[-1]) ** 2
    for way in (points, points[::-1]):
        side: list[Any] = []
        for point in way:
            while len(side) > 1 and turn(side[-2], side[-1], point) <= flat:
                side.pop()
            side.append(point)
        sides += side[:-1]
    return sides if len(sides) > 2 else []


def turn(a: kinds.Vector, b: kinds.Vector, c: kinds.Vector) -> float:
    return (b[0] - a[0]) * (c[1] - a[1]) - (b[1] - a[1]) * (c[0] - a[0])


def area(corners: Any) -> float:
    """Twice the area of a polygon; below 0 where it goes round to the right."""
    return float(sum(a[0] * b[1] - a[1] * b[0] for a, b in zip(corners, corners[1:] + corners[:1])))


def convex_pieces(corners: kinds.Points) -> Any:
    """A polygon of a plane as convex polygons."""
    if area(corners) < 0:
        corners = corners[::-1]
    count = len(corners)
    if all(turn(corners[i - 2], corners[i - 1], corners[i]) >= 0 for i in range(count)):
        return [flat_hull(corners)]
    points, sides = prism(corners, 1, (1, 1), False)
    return [flat_hull([(point[0], point[1]) for point in found if point[2] < 0.5])
            for _, found in facets.cells(points, sides)]


def prism(corners: kinds.Points, height: float, scale: Any, center: Any) -> Any:
    """The mesh of a polygon that goes up, and is scaled on its way."""
    low = -height / 2 if center else 0
    count = len(corners)
    if max(scale) <= 0:
        points = [[x, y, low] for x, y in corners] + [[0.0, 0.0, low + height]]
        return points, [list(range(count))[::-1]] + [[i, (i + 1) % count, count] for i in range(count)]
    points = [[x, y, low] for x, y in corners]
    points += [[x * scale[0], y * scale[1], low + height] for x, y in corners]
    return points, [list(range(count))[::-1], list(range(count, 2 * count))] + primitives.between(0, count, count)


def is_round(corners: Any) -> bool:
    """Whether a convex polygon right of the axis, turned about it, is convex."""
    whole = flat_hull(corners + [(-x, y) for x, y in corners])
    return abs(area(whole) - 2 * area(corners)) < 1e-9 * area(whole)


def turned(corners: kinds.Points, angle: float, count: int, whole: bool) -> list[Any]:
    """The meshes of a convex polygon of x and z that is turned about the z axis in `count` steps."""
    ways = [turns.way(180.0 * whole + i * angle / count) for i in range(count + (not whole))]
    rings = [[[x * cosine, x * sine, z] for x, z in corners] for cosine, sine in ways]
    around = list(range(len(corners)))
    if whole and count > 2 and is_round(corners):
        points = [point for ring in rings for point in ring]
        of = len(corners)
        quads = [[i * of + k, (i + 1) % count * of + k, (i + 1) % count * of + (k + 1) % of, i * of + (k + 1) % of]
                 for i in range(count) for k in around if corners[k][0] > 0 or corners[(k + 1) % of][0] > 0]
        return [mesh_files.merged(points, quads)]
    quads = [[k, (k + 1) % len(corners), len(corners) + (k + 1) % len(corners), len(corners) + k] for k in around]
    ends = [around[::-1], [len(corners) + k for k in around]]
    return [mesh_files.merged(rings[i] + rings[(i + 1) % len(rings)], quads + ends) for i in range(count)]


def sums(ones: kinds.Points, others: kinds.Points) -> list[list[float]]:
    """Each point of one shape with each of another."""
    return [[a + b for a, b in zip(one, other)] for one in ones for other in others]
