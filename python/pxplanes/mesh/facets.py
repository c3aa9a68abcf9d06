"""From points and facets to convex solids: the planes of a convex one, and the convex parts of one
that is not. A facet is a list of the numbers of its points; a plane is the normal, of length 1 and
out of the solid, and its distance from the origin. Points are as exact as the digits that their file has."""
import collections
import math
from fractions import Fraction
from typing import Any, Optional, Sequence

from pxplanes.errors import Trouble
from pxplanes.mesh import crossings, exact, kinds
from pxplanes.mesh.exact import area_normal as area_normal
from pxplanes.scene import limits

SIX_DIGITS = 5e-6
SINGLE = 6e-8
EXACT = 1e-10
FLAT = 1e-12
NEAR = 6
SLIM = 0.02
TRIED = 24
JUDGES = 60
MOST_EFFORT = 1000000
MOST_CUTS = 400
GRID = 40
FEW = 64
REACH = 1e8
UNDIVIDED = "`pxplanes view` and `pxplanes convert --draw MAPS` draw it undivided"


def dot(one: kinds.Vector, other: kinds.Vector) -> float:
    return one[0] * other[0] + one[1] * other[1] + one[2] * other[2]


def lengthwise(normal: kinds.Vector) -> float:
    return math.sqrt(dot(normal, normal))


def plane_of(points: kinds.Points) -> Optional[tuple[list[float], float, float]]:
    """The plane of a polygon, and its height over its longest edge; None without area."""
    normal = area_normal(points)
    length = lengthwise(normal)
    longest = max(math.dist(a, points[i - 1]) for i, a in enumerate(points))
    if length <= FLAT * longest ** 2:
        return None
    normal = [part / length for part in normal]
    return normal, sum(dot(normal, point) for point in points) / len(points), length / longest


def in_order(corners: kinds.Points, normal: kinds.Vector) -> list[kinds.Vector]:
    """The corners of a convex polygon on a plane, one after another round it."""
    if len(corners) < 3:
        return []
    middle, (along, across) = middle_of(corners), axes_on(normal)

    def turn(corner: kinds.Vector) -> float:
        out = [a - b for a, b in zip(corner, middle)]
        return math.atan2(dot(across, out), dot(along, out))

    return sorted(corners, key=turn)


def extent(points: kinds.Points) -> tuple[float, float]:
    """The greatest coordinate, and the greatest width along an axis."""
    size = max(max(abs(part) for part in point) for point in points) or 1
    return size, max(max(p[i] for p in points) - min(p[i] for p in points) for i in range(3)) or 1


def middle_of(points: kinds.Points) -> list[float]:
    return [sum(point[i] for point in points) / len(points) for i in range(3)]


class Cloud:
    """Points in boxes within boxes, so that the farthest ones along a way are found without asking each."""

    def __init__(self, points: kinds.Points) -> None:
        self.points = points
        self.halves: tuple[Cloud, ...] = ()
        self.low, self.high = box_of(points)
        if len(points) > FEW:
            axis = max(range(3), key=lambda i: self.high[i] - self.low[i])
            own = sorted(points, key=lambda point: point[axis])
            self.halves = Cloud(own[:len(own) // 2]), Cloud(own[len(own) // 2:])

    def room(self, way: kinds.Vector) -> float:
        """No point is farther along a way than this."""
        x, y, z = way
        low, high = self.low, self.high
        return x * (high[0] if x > 0 else low[0]) + y * (high[1] if y > 0 else low[1]) + z * (
            high[2] if z > 0 else low[2])

    def beyond(self, way: kinds.Vector, far: float) -> list[kinds.Vector]:
        """The points that are as far along a way, or farther."""
        if self.room(way) < far:
            return []
        if not self.halves:
            return [point for point in self.points if dot(way, point) >= far]
        return [point for half in self.halves for point in half.beyond(way, far)]

    def farthest(self, way: kinds.Vector, known: float = -math.inf) -> float:
        """How far along a way the farthest point is, or what is known, where that is farther."""
        if self.room(way) <= known:
            return known
        if not self.halves:
            return max(known, max(dot(way, point) for point in self.points))
        for half in sorted(self.halves, key=lambda half: -half.room(way)):
            known = half.farthest(way, known)
        return known


class Found:
    """The planes that are found, each once, with those of like direction next to each other."""

    def __init__(self) -> None:
        self.planes: list[tuple[int, exact.Plane]] = []
        self.by_way: dict[tuple[int, ...], list[exact.Plane]] = {}

    def way(self, normal: kinds.Vector) -> tuple[int, ...]:
        return tuple(round(part * GRID) for part in normal)

    def add(self, number: Any, plane: exact.Plane) -> None:
        self.planes.append((number, plane))
        self.by_way.setdefault(self.way(plane[0]), []).append(plane)

    def has(self, normal: kinds.Vector, corners: kinds.Points, near: float) -> bool:
        """Whether all corners lie on one plane that looks about the same way."""
        x, y, z = self.way(normal)
        return any(all(abs(dot(n, corner) - far) <= near for corner in corners)
                   for i in (-1, 0, 1) for j in (-1, 0, 1) for k in (-1, 0, 1)
                   for n, far, _ in self.by_way.get((x + i, y + j, z + k), ()))


def measured(points: kinds.Points, facets: kinds.Facets, numbers: Any) -> list[Any]:
    """Height, plane, corners and number of each facet with area, the highest first."""
    middle, places, out = middle_of(points), exact.Points(points), []
    for facet, number in zip(facets, numbers):
        corners = [points[at] for at in facet]
        plane = plane_of(corners)
        if plane:
            normal, far, high = plane
            if far < dot(normal, middle):
                normal, far = [-part for part in normal], -far
            out.append((high, places.plane(normal, far, facet), corners, number))
    return sorted(out, key=lambda facet: float(-facet[0]))


def digit_of(points: kinds.Points) -> float:
    """By how much a coordinate may be off, of the greatest: written with six digits, or in single precision."""
    six = all(float("%.6g" % part) == part for point in points for part in point)
    return SIX_DIGITS if six else SINGLE


def distance_aside(point: kinds.Vector, corners: kinds.Points, normal: kinds.Vector) -> float:
    """How far it is, along a facet's plane, from the nearest of its corners to a point."""
    ways = [[a - b for a, b in zip(point, corner)] for corner in corners]
    return math.sqrt(min(max(dot(way, way) - dot(way, normal) ** 2, 0) for way in ways))


def planes(points: kinds.Points, facets: kinds.Facets, numbers: Optional[Sequence[int]] = None,
           is_exact: bool = False) -> list[exact.Plane]:
    """The half-spaces `normal * p <= far` whose common part is the solid, each once, in the order
    of the facets. `Trouble` where it is flat, open or not convex. Where points are not exact, a facet may be off
    by what their last digits leave open, the more the slimmer it is and the farther a point is from it;
    one that is too slim to give its plane is passed over where the others close the solid without it."""
    size, wide = extent(points)
    digit = (EXACT if is_exact else digit_of(points)) * size
    closed(points, facets)
    found, slim, cloud, middle = Found(), [], Cloud(points), middle_of(points)
    for high, plane, corners, number in measured(points, facets, numbers or range(1, len(facets) + 1)):
        normal, far, _ = plane
        if found.has(normal, corners, NEAR * digit):
            continue
        if digit > SLIM * high:
            slim.append((corners, normal, number))
            continue
        if far - dot(normal, middle) <= 2 * digit:
            deepest = far + cloud.farthest([-part for part in normal])
            if deepest <= 2 * digit:
                raise Trouble("is flat: no point is more than %.2g behind its facet %s" % (max(deepest, 0), number))
        for point in cloud.beyond(normal, far + digit):
            before = dot(normal, point) - far
            if before > 2 * digit and before > 2 * digit * (1 + distance_aside(point, corners, normal) / high):
                raise Trouble("is not convex: a point is %.2g before its facet %s"
                              % (cloud.farthest(normal) - far, number))
        found.add(number, plane)
    if len(found.planes) < 4 and slim:
        raise Trouble("is too thin for the digits of its points, which are off by up to %.2g where it is: facet %s; "
                  "write it nearer to the origin, or with more digits" % (
            digit, slim[0][2]))
    if len(found.planes) < 4:
        raise Trouble("has fewer than four planes")
    by_number = [plane for _, plane in sorted(found.planes)]
    for corners, normal, number in slim:
        if bulge(by_number, corners, normal) > SLIM * wide:
            raise Trouble("has a facet too slim to give its plane: facet %s" % number)
    return by_number


def bulge(found: Any, corners: kinds.Points, normal: kinds.Vector) -> float:
    """How far it is from the middle of a facet, along its normal, to where the planes end."""
    middle = middle_of(corners)
    return min(((far - dot(n, middle)) / dot(n, normal) for n, far, _ in found
                if dot(n, normal) > 1e-3), default=math.inf)


def flat_facets(points: kinds.Points, facets: kinds.Facets) -> list[Sequence[int]]:
    """The facets, each that is not flat cut into triangles."""
    size, _ = extent(points)
    near = NEAR * digit_of(points) * size
    out: list[Sequence[int]] = []
    for facet in facets:
        plane = len(facet) > 3 and plane_of([points[at] for at in facet])
        if plane and any(abs(dot(plane[0], points[at]) - plane[1]) > near for at in facet):
            out += [[facet[0], facet[i], facet[i + 1]] for i in range(1, len(facet) - 1)]
        else:
            out.append(facet)
    return out


def closed(points: kinds.Points, facets: kinds.Facets) -> None:
    """`Trouble` where an edge is not between two facets."""
    edges = collections.Counter(frozenset((facet[i - 1], at)) for facet in facets for i, at in enumerate(facet))
    for edge, count in edges.items():
        if count % 2 and len(edge) == 2:
            raise Trouble("is not closed near %.6g %.6g %.6g; " % (*points[min(edge)],) + UNDIVIDED)


def open_edges(facets: kinds.Facets) -> int:
    """How many edges are not passed as often one way as the other."""
    ways = collections.Counter((facet[i - 1], at) for facet in facets for i, at in enumerate(facet))
    return sum(ways[b, a] < count for (a, b), count in ways.items() if a != b)


def volume(points: kinds.Points, facets: kinds.Facets) -> float:
    """Six times the volume; below 0 where the facets look inwards."""
    return sum(dot(points[facet[0]], area_normal([points[facet[0]], points[facet[i]], points[facet[i + 1]]]))
               for facet in facets for i in range(1, len(facet) - 1))


def exact_volume(polygons: Any) -> Fraction:
    """Six times the volume within polygons that look outwards, as a rational number of their coordinates as they are.
    It is counted from a corner of theirs, so that a sliver that is left out between them changes it little."""
    total, origin = Fraction(0), [Fraction(part) for part in polygons[0][0]]
    for polygon in polygons:
        a, *rest = ([Fraction(part) - own for part, own in zip(point, origin)] for point in polygon)
        for b, c in zip(rest, rest[1:]):
            total += a[0] * (b[1] * c[2] - b[2] * c[1]) + a[1] * (b[2] * c[0] - b[0] * c[2]) + a[2] * (
                b[0] * c[1] - b[1] * c[0])
    return total


def same_volume(polygons: Any, found: Any, digit: float) -> None:
    """`Trouble` where convex parts, each as its planes' polygons, do not have the volume of a mesh, within what the
    digits of its points leave open: the area of its surface by twice the last digit, and a part in a million for the
    parts' own corners."""
    whole = exact_volume(polygons)
    inside = sum((exact_volume(outwards(part)) for part in found), Fraction(0))
    area = sum(lengthwise(area_normal(polygon)) for polygon in polygons) / 2
    room = 6 * 2 * digit * area + 1e-6 * abs(float(whole))
    if abs(inside - whole) > room:
        raise Trouble("has a volume of %.6g as convex parts and of %.6g as it is, since its facets are too slim for "
                      "its digits; %s" % (float(inside) / 6, float(whole) / 6, UNDIVIDED))


def outwards(sides: Any) -> list[Any]:
    """The polygons of a convex part, each as its plane looks."""
    return [polygon if dot(area_normal(polygon), plane[0]) > 0 else polygon[::-1] for plane, polygon in sides]


def parts(points: kinds.Points, facets: kinds.Facets) -> list[Any]:
    """The meshes of a mesh, each with its facets' numbers in the file: facets that share a point
    belong together."""
    above = list(range(len(points)))

    def top(at: int) -> int:
        while above[at] != at:
            above[at] = above[above[at]]
            at = above[at]
        return at

    for facet in facets:
        for at in facet[1:]:
            above[top(at)] = top(facet[0])
    found: dict[int, list[Any]] = {}
    for number, facet in enumerate(facets, 1):
        found.setdefault(top(facet[0]), []).append((number, facet))
    return [only(points, [facet for _, facet in own]) + ([number for number, _ in own],) for own in found.values()]


def hollows(shells: Any) -> tuple[list[Any], list[Any]]:
    """Meshes that have shells within them which look inwards, each with these in one; and the other shells."""
    outer = [shell for shell in shells if volume(*shell[:2]) > 0]
    inner: dict[int, list[Any]] = {id(outside): [] for outside in outer}
    alone = []
    for shell in shells:
        if volume(*shell[:2]) > 0:
            continue
        around = [other for other in outer if is_within(shell[0][0], other)]
        if around:
            inner[id(min(around, key=lambda other: volume(*other[:2])))].append(shell)
        else:
            alone.append(shell)
    whole = [together([outside] + inner[id(outside)]) for outside in outer if inner[id(outside)]]
    return whole, [outside for outside in outer if not inner[id(outside)]] + alone


def together(shells: Any) -> tuple[list[Any], list[Any]]:
    """Several meshes as one."""
    points: list[kinds.Vector] = []
    facets: list[list[int]] = []
    for own, turned, _ in shells:
        facets += [[at + len(points) for at in facet] for facet in turned]
        points += own
    return points, facets


def is_within(point: kinds.Vector, shell: Any) -> bool:
    """Whether a point is inside of a closed mesh: what is below it goes in and out an odd number of times."""
    points, facets, _ = shell
    x, y, z = point
    found = (crossings.piece_of([tuple(points[at]) for at in (facet[0], facet[i], facet[i + 1])], y)
             for facet in facets for i in range(1, len(facet) - 1))
    pieces: list[Any] = [piece for piece in found if piece]
    below = sum(left <= x < right and depth + (x - left) * slope < z for left, right, depth, slope, _ in pieces)
    return bool(below % 2)


def only(points: kinds.Points, facets: kinds.Facets) -> Any:
    """The facets, and the points that they name."""
    numbers = {at: i for i, at in enumerate(sorted({at for facet in facets for at in facet}))}
    return [points[at] for at in numbers], [[numbers[at] for at in facet] for facet in facets]


def divided(polygon: Any, plane: Any, near: float) -> Any:
    """The pieces of a polygon behind a plane and before it; None for one that is not there."""
    normal, far = plane[:2]
    rooms = [far - dot(normal, point) for point in polygon]
    if all(abs(room) <= near for room in rooms):
        return None, None
    behind, before = [], []
    for i, point in enumerate(polygon):
        here, back = rooms[i], rooms[i - 1]
        if here * back < 0 and min(abs(here), abs(back)) > near:
            cut = crossing(polygon[i - 1], back, point, here)
            behind.append(cut)
            before.append(cut)
        if here >= -near:
            behind.append(point)
        if here <= near:
            before.append(point)
    return (behind if max(rooms) > near else None), (before if min(rooms) < -near else None)


def crossing(one: kinds.Vector, before: float, other: kinds.Vector, after: float) -> list[float]:
    """Where a plane cuts an edge, by how far its ends are from it: to the last bit the same from either end."""
    if tuple(other) < tuple(one):
        one, before, other, after = other, after, one, before
    part = before / (before - after)
    return [a + part * (b - a) for a, b in zip(one, other)]


def best_plane(polygons: Any, near: float) -> Any:
    """Of some polygons' planes that which divides the fewest of some polygons, and then the most evenly."""
    judges = [polygon for polygon, _ in polygons[::max(1, len(polygons) // JUDGES)]]

    def cost(plane: exact.Plane) -> tuple[int, int]:
        sides = [divided(polygon, plane, near) for polygon in judges]
        behind = sum(one is not None for one, _ in sides)
        before = sum(other is not None for _, other in sides)
        return behind + before, abs(behind - before) * (before > 0)

    tried = polygons[::max(1, len(polygons) // TRIED)]
    return min((plane for _, plane in tried), key=cost)


def crossed(points: kinds.Points, facets: kinds.Facets, near: float) -> Any:
    """A point where two facets pass through one another, along more than a few times `near`; None where none do."""
    found = []
    for facet in facets:
        for i in range(1, len(facet) - 1):
            corners = [points[at] for at in (facet[0], facet[i], facet[i + 1])]
            plane = plane_of(corners)
            if plane and plane[2] > 4 * near:
                found.append((corners, plane[:2], *box_of(corners)))
    found.sort(key=lambda each: each[2][0])
    before: list[Any] = []
    for one in found:
        before = [other for other in before if other[3][0] >= one[2][0]]
        for other in before:
            if all(one[2][i] <= other[3][i] and other[2][i] <= one[3][i] for i in (1, 2)):
                long, point = shared(one, other, near)
                if long > 4 * near:
                    return point
        before.append(one)
    return None


def box_of(points: kinds.Points) -> tuple[list[float], list[float]]:
    return [min(point[i] for point in points) for i in range(3)], [max(point[i] for point in points) for i in range(3)]


def shared(one: Any, other: Any, near: float) -> Any:
    """How long the line is in which two triangles pass through one another, and where it begins; 0 where they do
    not."""
    way = [one[1][0][(i + 1) % 3] * other[1][0][(i + 2) % 3] - one[1][0][(i + 2) % 3] * other[1][0][(i + 1) % 3]
           for i in range(3)]
    long = lengthwise(way)
    spans = long > 1e-3 and [span_of(corners, plane, way, near) for corners,
                             plane in ((one[0], other[1]), (other[0], one[1]))]
    if not spans or None in spans:
        return 0, None
    low, point = max(low for low, _ in spans)
    return (min(high for _, high in spans)[0] - low) / long, point


def span_of(corners: kinds.Points, plane: Any, way: kinds.Vector, near: float) -> Any:
    """Where a plane cuts a triangle that is on both sides of it, the two ends along a way, each as how far
    it is and its point; None where it is not."""
    behind, before = divided(corners, plane, near)
    if not behind or not before:
        return None
    found = sorted((dot(way, point), point) for point in behind if point in before)
    return found[0], found[-1]


def cells(points: kinds.Points, facets: kinds.Facets) -> list[Any]:
    """The convex parts of a solid, each as its planes and points: its facets' planes divide space,
    and what is behind a facet and before none is inside. `Trouble` where the facets do not close it, or pass through
    one another, or where there are more parts than a scene has solids."""
    closed(points, facets)
    if open_edges(facets):
        raise Trouble("is not convex, and its facets are not turned alike, so that its inside is unknown; " + UNDIVIDED)
    turned = facets if volume(points, facets) > 0 else [facet[::-1] for facet in facets]
    size, wide = extent(points)
    digit = digit_of(points) * size
    near = NEAR * digit
    point = crossed(points, turned, near)
    if point:
        raise Trouble("passes through itself, at %.4g %.4g %.4g, so that its inside is unknown; "
                  "write it as a union of parts that do not" % tuple(part + 0.0 for part in point))
    whole = [(facet, plane_of([points[at] for at in facet])) for facet in turned]
    places = exact.Points(points)
    polygons: list[Any] = [([points[at] for at in facet], places.plane(*plane[:2], facet)) for facet, plane in whole
                           if plane and digit * (2 + 2 * wide / plane[2]) <= SLIM * wide]
    out: list[Any] = []
    found: list[Any] = []
    todo: list[Any] = [([], polygons)]
    effort = 0
    while todo:
        path, polygons = todo.pop()
        effort += len(polygons)
        if effort > MOST_EFFORT:
            raise Trouble("has too many facets to be divided into convex parts; " + UNDIVIDED)
        plane = best_plane(polygons, near)
        sides = [(divided(polygon, plane, near), own) for polygon, own in polygons]
        behind = [(side[0], own) for side, own in sides if side[0]]
        before = [(side[1], own) for side, own in sides if side[1]]
        if len(polygons) in (len(behind), len(before)) and min(len(behind), len(before)) == 0 or len(path) > MOST_CUTS:
            raise Trouble("has facets so close to one another that no plane divides them; " + UNDIVIDED)
        if before:
            todo.append((path + [plane.turned()], before))
        if behind:
            todo.append((path + [plane], behind))
        else:
            sides = sides_of(path + [plane], near)
            cell = of_sides(sides, near)
            if cell:
                out.append(cell)
                found.append(sides)
        if len(out) > limits.MAX_SOLIDS:
            raise Trouble("is not convex, and has more than %d convex parts; %s" % (limits.MAX_SOLIDS, UNDIVIDED))
    same_volume([[points[at] for at in facet] for facet in turned], found, digit)
    return out


def sides_of(half_spaces: Any, near: float) -> list[Any]:
    """Each plane that bounds the common part of half-spaces, with the polygon that it has of it."""
    kept = []
    for i, plane in enumerate(half_spaces):
        polygon: Any = square_on(plane, REACH * near)
        for k, other in enumerate(half_spaces):
            if k != i and polygon:
                polygon = divided(polygon, other, near)[0] or (
                    polygon if k > i and is_same(plane, other, near) else None)
        area = plane_of(polygon) if polygon and len(polygon) > 2 else None
        if area and area[2] > near:
            kept.append((plane, polygon))
    return kept


def bounded(half_spaces: Any, near: float) -> Any:
    """The planes of a convex solid that bound it, and its corners; None where nothing is inside."""
    return of_sides(sides_of(half_spaces, near), near)


def of_sides(kept: Any, near: float) -> Any:
    """The same of the planes with their polygons."""
    corners: list[kinds.Vector] = []
    for _, polygon in kept:
        corners += [corner for corner in polygon if not any(math.dist(corner, other) <= near for other in corners)]
    if len(kept) < 4 or any(max(abs(part) for part in corner) > REACH / 2 * near for corner in corners):
        return None
    return [plane for plane, _ in kept], corners


def is_same(one: Any, other: Any, near: float) -> bool:
    return dot(one[0], other[0]) > 1 - 1e-9 and abs(one[1] - other[1]) <= near


def axes_on(normal: kinds.Vector) -> tuple[list[float], list[float]]:
    """Two directions on a plane, square to one another and of length 1."""
    axis = min(range(3), key=lambda i: abs(normal[i]))
    along = [float(i == axis) - normal[axis] * normal[i] for i in range(3)]
    long = lengthwise(along)
    along = [part / long for part in along]
    return along, [normal[(i + 1) % 3] * along[(i + 2) % 3] - normal[(i + 2) % 3] * along[(i + 1) % 3]
                   for i in range(3)]


def square_on(plane: Any, wide: float) -> list[list[float]]:
    """A square of that width, to each side, on a plane."""
    normal, far = plane[:2]
    along, across = ([wide * part for part in axis] for axis in axes_on(normal))
    return [[far * normal[i] + one * along[i] + other * across[i] for i in range(3)]
            for one, other in ((1, 1), (-1, 1), (-1, -1), (1, -1))]
