"""Draws models by columns: what is seen of meshes, without dividing them into convex parts (docs/MODELLING.md,
"Columns").

A column is a triangle's plane as a front and its edges in the picture as sides: what is behind the triangle. 255 of
them make a scene, whose picture is a window around the pixels at which they are seen; the nearer depth of all windows
is the picture. Needs NumPy."""
import concurrent.futures
import itertools
import math
from typing import Any, Iterator, NamedTuple, Optional, Sequence

import numpy as np
import numpy.typing as npt

from pxplanes import ends, program
from pxplanes.errors import Trouble
from pxplanes.image import maps
from pxplanes.mesh import cameras, perspective, shaping, solids, turns, views
from pxplanes.scene import limits, rays

Array = npt.NDArray[Any]
Plane = tuple[str, int, int, int]
Window = tuple[int, int, int, int]

SNAP = 4096          # the coarsest grid of places, in parts of a pixel
FINEST = 1 << 18
GUARD = 1500         # what reaches so many pixels beyond the middle of the picture is clipped
BIG = 48             # columns seen over more pixels than this on a side are in scenes of their own
ROWS = 2000000       # so many rows or pixels of triangles are looked at together
SMALLEST = 64        # pixels on a side of a portrait
TILE = 64            # pixels on a side of a box in which solids are left out together
NONE, JOBS = -1, 2
NEARER = 0.05        # cells by which a column may be nearer than what is seen
FILM = 1e-7          # cells; what is thinner is nothing
SLIM = 1e-4          # of a mesh's extent: a facet may pass through itself by less, as by its digits
LIGHTEST, DULL = np.array((-0.42, -0.53, -0.74)), 0.35


class Lens(NamedTuple):
    """How points come into the picture. `rows` are its right, down and away in the model's axes; `middle` is the pixel
    to which `eye` looks, `focal` pixels are as wide as a unit (in perspective: at the distance 1); `near` is the
    distance at which depths begin. A depth in cells is steep * (Z - near), in perspective steep * (1/near - 1/Z)."""

    rows: Array
    eye: Array
    middle: tuple[float, float]
    focal: float
    near: float
    steep: float
    perspective: bool

    def seen(self, points: Array) -> Array:
        return (points - self.eye) @ self.rows.T

    def placed(self, seen: Array) -> Array:
        away = seen[..., 2]
        zoom = self.focal / away if self.perspective else self.focal
        depth = self.steep * (1 / self.near - 1 / away) if self.perspective else self.steep * (away - self.near)
        return np.stack([self.middle[0] + zoom * seen[..., 0], self.middle[1] + zoom * seen[..., 1], depth], -1)


def corners_of(leaf: Any) -> Array:
    """The triangles of a solid or a mesh: N by 3 corners by 3 numbers."""
    if "triangles" not in leaf.__dict__:
        found = leaf.soup() if isinstance(leaf, solids.Mesh) and leaf.soup else None
        if found is not None:
            matrix = np.array(leaf.matrix, float)
            leaf.triangles = found if leaf.matrix == solids.AS_IS else found @ matrix[:, :3].T + matrix[:, 3]
        elif isinstance(leaf, solids.Mesh):
            leaf.triangles = triangulated(np.array(leaf.points, float), leaf.sides)
        elif leaf.sides is not None:
            leaf.triangles = outwards(triangulated(np.array(leaf.points, float), leaf.sides))
        else:
            leaf.triangles = outwards(np.array(
                [(own[0], own[i], own[i + 1]) for own in leaf.corners for i in range(1, len(own) - 1)], float))
    triangles: Array = leaf.triangles
    return triangles


def outwards(triangles: Array) -> Array:
    """The triangles of a convex solid, each turned so that it looks out."""
    normal = np.cross(triangles[:, 1] - triangles[:, 0], triangles[:, 2] - triangles[:, 0])
    inwards = (normal * (triangles.mean(1) - triangles.reshape(-1, 3).mean(0))).sum(1) < 0
    triangles[inwards] = triangles[inwards][:, ::-1]
    return triangles


def triangulated(points: Array, sides: Sequence[Sequence[int]]) -> Array:
    """The triangles of facets; one that is not convex is cut by its ears. `Trouble` where one passes through itself."""
    numbers, thin = [], SLIM * float(np.ptp(points, axis=0).max())
    for at, side in enumerate(sides, 1):
        if len(side) == 3:
            numbers.append(tuple(side))
            continue
        own = points[list(side)]
        normal = np.cross(own, np.roll(own, -1, 0)).sum(0)
        axis = int(np.abs(normal).argmax())
        flat = (np.delete(own, axis, 1) * ([1, -1] if (normal[axis] > 0) == (axis == 1) else [1, 1])).tolist()
        cut = list(ears(flat))
        turned = [shaping.turn(*(flat[corner] for corner in each)) for each in cut]
        if min(turned) < -thin * np.ptp(flat, axis=0).max():
            raise Trouble("facet %d passes through itself near %.6g %.6g %.6g" % (
                at, *own[cut[turned.index(min(turned))][1]]))
        numbers += [tuple(side[corner] for corner in each) for each in cut]
    out: Array = points[np.array(numbers)]
    return out


def ears(ring: Sequence[Sequence[float]]) -> Iterator[tuple[int, int, int]]:
    """The triangles of a polygon that turns to the left. (At one place two corners are one, as of a slit to a hole.)"""
    left = list(range(len(ring)))
    while len(left) > 3:
        for i, b in enumerate(left):
            a, c = left[i - 1], left[(i + 1) % len(left)]
            own = [ring[a], ring[b], ring[c]]
            if shaping.turn(*own) > 0 and not any(
                    all(shaping.turn(u, v, ring[other]) >= 0 for u, v in zip(own, own[1:] + own[:1]))
                    for other in left if ring[other] not in own):
                break
        else:
            i = min(range(len(left)), key=lambda k: abs(
                shaping.turn(*(ring[left[(k + s) % len(left)]] for s in (-1, 0, 1)))))
            a, b, c = left[i - 1], left[i], left[(i + 1) % len(left)]
        yield a, b, c
        del left[i]
    yield left[0], left[1], left[2]


class Before:
    """A model before a perspective camera; `ends` are near and far, None for as what is added reaches within the
    picture."""

    def __init__(self, numbers: Sequence[float], fov: float, size: Sequence[int], cells: int,
                 ends: Sequence[Optional[float]],
                 leaves: Sequence[tuple[Any, bool]]) -> None:
        eye, turn = perspective.eye_and_turn(numbers)
        self.rows = turns.rows_of(turn)
        right, away, up = (np.array(row) for row in self.rows)
        seen = np.concatenate([corners_of(leaf) for leaf, is_added in leaves if is_added]) - np.array(eye)
        seen = seen @ np.stack([right, -up, away]).T
        most = float(seen[..., 2].max())
        if most <= 0:
            raise Trouble("the model is behind the eye")
        focal = cameras.focal_of(fov, size)
        lens = Lens(np.eye(3), np.zeros(3), (0.0, 0.0), focal, perspective.NEAREST * most, 1.0, True)
        within = in_view(lens, seen, max(size) / 2)[0][..., 2]
        if not within.size:
            within = np.array([most])
        self.least, self.most = float(within.min()), float(within.max())
        ends = perspective.ends_of(self.least, self.most, ends)
        self.camera = cameras.Camera(eye, turn, fov, size, cameras.Distances(*ends, cells))

    def cut_off(self) -> list[str]:
        distances = self.camera.distances
        return ["the near plane cuts the model"] * (self.least < distances.near) + [
            "the model goes on beyond the far plane"] * (self.most > distances.far)

    def why_empty(self) -> str:
        return "nothing of the model is before the camera, or the rest of it is smaller than a pixel"


def portrait(leaves: Sequence[tuple[Any, bool]], turn: Sequence[float], fov: float) -> tuple[
    list[float], tuple[int, int]]:
    """The numbers of a perspective camera, and a size of the picture, so that what is added fills it."""
    right, away, up = (np.array(row) for row in turns.rows_of(turn))
    points = np.concatenate([corners_of(leaf).reshape(-1, 3) for leaf, is_added in leaves if is_added])
    points = points @ np.stack([right, up, away]).T
    middle = (points.min(0) + points.max(0)) / 2
    x, y, z = (points - middle).T
    wide, high, _ = views.widths((points.min(0).tolist(), points.max(0).tolist()))
    longest = limits.MAX_PICTURE_SIZE / max(wide, high)
    size = max(SMALLEST, round(longest * wide)), max(SMALLEST, round(longest * high))
    focal = cameras.focal_of(fov, size)
    distance = max(float((2 * focal * np.abs(part) / (views.FILLS * side) - z).max()) for part,
                   side in ((x, size[0]), (y, size[1])))
    return [*(middle @ np.stack([right, up, away])).tolist(), *turn, distance], size


def lens_of(view: Any) -> Lens:
    """The lens of a view of `views` or `perspective`."""
    right, away, up = (np.array(row) for row in view.rows)
    rows = np.stack([right, -up, away])
    camera = getattr(view, "camera", None)
    if camera is not None:
        distances = camera.distances
        return Lens(rows, np.array(camera.eye), (camera.cx, camera.cy), camera.focal, distances.near, distances.scale,
                    True)
    middle = (view.size[0] - 1) / 2, (view.size[1] - 1) / 2
    at = np.array([(middle[0] - view.left) / view.scale, (middle[1] - view.top) / view.scale, view.nearest])
    return Lens(rows, at @ rows, middle, view.scale, 0.0, view.cells, False)


def open_place(corners: Array) -> str:
    """What is wrong at the first edge that is not passed as often one way as the other; nothing for a closed mesh.
    Parts that meet without sharing corners are open."""
    points = corners.reshape(-1, 3) + 0.0
    _, numbers = np.unique(hashed(points), return_inverse=True)
    edges = numbers.reshape(-1, 3)
    ways = np.stack([edges, np.roll(edges, -1, 1)], -1).reshape(-1, 2)
    _, which, counts = np.unique(ways.min(1) * len(points) + ways.max(1), return_inverse=True, return_counts=True)
    odd = np.flatnonzero(np.bincount(which, np.sign(ways[:, 1] - ways[:, 0]))[which])
    if not len(odd):
        return ""
    what = "is not closed" if counts[which[odd[0]]] % 2 else "has facets that are not turned alike"
    return what + " near %.6g %.6g %.6g" % tuple(points[odd[0]])


def hashed(points: Array) -> Array:
    """A number of 64 bits for each point, so that sorting takes a fifth of the time of points themselves."""
    out = np.zeros(len(points), np.uint64)
    for part in points.view(np.uint64).T:
        out = (out ^ part) * np.uint64(0x9E3779B97F4A7C15)
        out ^= out >> np.uint64(29)
    return out


def in_view(lens: Lens, seen: Array, guard: float = GUARD) -> tuple[Array, Array, bool]:
    """The triangles of `seen` in the picture's axes with their numbers, and whether the near plane cuts any: what
    reaches beyond the guard band or before the near plane is clipped."""
    reach = guard / lens.focal
    flat = np.abs(seen[..., :2]) > (reach * seen[..., 2:] if lens.perspective else reach)
    before = (seen[..., 2] < lens.near) if lens.perspective else np.zeros(seen.shape[:2], bool)
    bad = flat.any((1, 2)) | before.any(1)
    numbers = np.arange(len(seen))
    slope, far = (reach, 0.0) if lens.perspective else (0.0, reach)
    planes = [((*way, -slope), far) for way in ((1.0, 0.0), (-1.0, 0.0), (0.0, 1.0), (0.0, -1.0))]
    planes += [((0.0, 0.0, -1.0), -lens.near)] if lens.perspective else []
    more, own = [], []
    beyond = np.stack([(seen @ np.array(normal) > far).all(1) for normal, far in planes]).any(0)
    for number in np.flatnonzero(bad & ~beyond):
        ring = perspective.clipped(seen[number].tolist(), planes)
        more += [(ring[0], ring[i], ring[i + 1]) for i in range(1, len(ring) - 1)]
        own += [number] * max(0, len(ring) - 2)
    kept = seen[~bad]
    if more:
        kept = np.concatenate([kept, np.array(more)])
    return kept, np.concatenate([numbers[~bad], np.array(own, int)]), bool(before.any())


class Triangles:
    """Of triangles in the picture those that may cover a pixel: their sides and planes of depth. `way` has -1 for what
    looks to the eye and 1 for what looks away. Closed sides hold pixels on an edge in both neighbours; half-open ones
    in one of them, as if the pixel were a little to the right and below."""

    def __init__(self, places: Array, numbers: Array, size: Sequence[int], is_closed: bool) -> None:
        low = np.ceil(places[..., :2].min(1) - 1 / SNAP)
        high = np.floor(places[..., :2].max(1) + 1 / SNAP)
        ok = (low <= high).all(1) & (low[:, 0] < size[0]) & (low[:, 1] < size[1]) & (high >= 0).all(1)
        places, numbers = places[ok], numbers[ok]
        spans = (places[..., :2].max(1) - places[..., :2].min(1)).max() if len(places) else 1
        self.grid = min(FINEST, 1 << int(math.log2((limits.MAX_SLOPE - 2) / (spans + 1))))
        whole = np.rint(places[..., :2] * self.grid).astype(np.int64)
        a, b, c = whole[:, 0], whole[:, 1], whole[:, 2]
        area = (b[:, 0] - a[:, 0]) * (c[:, 1] - a[:, 1]) - (b[:, 1] - a[:, 1]) * (c[:, 0] - a[:, 0])
        ok = area != 0
        whole, area, places, self.numbers = whole[ok], area[ok], places[ok], numbers[ok]
        turn = area < 0                          # y grows downwards: what looks to the eye turns the other way
        self.way = np.where(turn, -1, 1)
        whole[turn] = whole[turn][:, ::-1]
        z = places[..., 2].copy()
        z[turn] = z[turn][:, ::-1]
        self.whole, self.z, self.area = whole, z, np.abs(area)
        nexts = np.roll(whole, -1, 1)
        a = -(nexts[..., 1] - whole[..., 1])
        b = nexts[..., 0] - whole[..., 0]
        c = -a * whole[..., 0] - b * whole[..., 1]
        strict = np.zeros(a.shape, bool) if is_closed else ~((a > 0) | ((a == 0) & (b > 0)))
        # a x + b y + c / grid >= 0 at whole x and y is the same with c rounded down; above 0, rounded up and less one
        self.sides = np.stack([a, b, np.where(strict, -(-c // self.grid) - 1, c // self.grid)], -1)
        p, q, r = whole[:, 0].astype(float), whole[:, 1].astype(float), whole[:, 2].astype(float)
        u, v, zu, zv = q - p, r - p, z[:, 1] - z[:, 0], z[:, 2] - z[:, 0]
        self.slope = np.stack([zu * v[:, 1] - zv * u[:, 1], zv * u[:, 0] - zu * v[:, 0]], -1) / self.area[
            :, None] * self.grid
        self.base = p / self.grid
        self.low = np.maximum(-(-whole.min(1) // self.grid), 0)
        self.high = np.minimum(whole.max(1) // self.grid, np.array(size) - 1)

    def depth(self, which: Array, x: Array, y: Array) -> Array:
        value = self.z[which, 0] + self.slope[which, 0] * (x - self.base[which, 0]) + self.slope[which, 1] * (
            y - self.base[which, 1])
        depth: Array = np.clip(value, self.z[which].min(-1), self.z[which].max(-1))
        return depth

    def spans(self) -> Iterator[tuple[Array, Array, Array]]:
        """Triangle, x and y of each pixel that is covered, a batch at a time. Exact, by division of whole numbers."""
        live = np.flatnonzero((self.low <= self.high).all(1))
        tall = (self.high - self.low)[live, 1] + 1
        for rows in cuts_of(tall):
            own, count = live[rows], tall[rows]
            which = np.repeat(own, count)
            y = np.arange(len(which)) - np.repeat(np.cumsum(count) - count, count) + self.low[which, 1]
            left, right = self.low[which, 0].copy(), self.high[which, 0].copy()
            for k in range(3):
                a, rest = self.sides[which, k, 0], self.sides[which, k, 1] * y + self.sides[which, k, 2]
                safe = np.where(a == 0, 1, a)
                left = np.where(a > 0, np.maximum(left, -(rest // safe)), left)
                right = np.where(a < 0, np.minimum(right, rest // -safe), np.where((a == 0) & (rest < 0), -1, right))
            wide = np.maximum(right - left + 1, 0)
            for cut in cuts_of(wide):
                w, n = which[cut], wide[cut]
                x = np.arange(n.sum()) - np.repeat(np.cumsum(n) - n, n) + np.repeat(left[cut], n)
                yield np.repeat(w, n), x, np.repeat(y[cut], n)


def cuts_of(wide: Array) -> Iterator[slice]:
    ends, start = np.cumsum(wide), 0
    while start < len(wide):
        base = ends[start - 1] if start else 0
        stop = max(start + 1, int(np.searchsorted(ends, base + ROWS, "right")))
        yield slice(start, stop)
        start = stop


# ---- what is seen ----
def nearest(triangles: Triangles, size: Sequence[int]) -> tuple[Array, Array]:
    """The depth of the nearest triangle at each pixel, infinite for none, and its place in `triangles`; of two with one
    depth that which looks to the eye."""
    best, who = np.full(size[0] * size[1], np.inf), np.full(size[0] * size[1], NONE)
    for which, x, y in triangles.spans():
        z, at = triangles.depth(which, x, y) + FILM * (triangles.way[which] > 0), y * size[0] + x
        order = np.lexsort((z, at))
        first = order[np.flatnonzero(np.diff(at[order], prepend=-1))] if len(order) else order
        won = first[z[first] < best[at[first]]]
        best[at[won]], who[at[won]] = z[won], which[won]
    return best, who


def first_inside(tree: Any, leaves: Sequence[Any], owner: Array, triangles: Triangles, size: Sequence[int]) -> tuple[
    Array, Array, Array]:
    """The same for an expression of closed meshes: at each pixel the first crossing after which the expression holds.
    A mesh is where its surface winds around a point. The third is the leaf that is at the near plane where the
    expression holds there, otherwise none."""
    parts = [(which, y * size[0] + x, triangles.depth(which, x, y)) for which, x, y in triangles.spans()]
    which, at, z = (np.concatenate(part) for part in zip(*parts)) if parts else (np.zeros(0, int),) * 3
    order = np.lexsort((triangles.way[which], z, at))
    which, at, z = which[order], at[order], z[order]
    starts = np.flatnonzero(np.diff(at, prepend=-1))
    count = np.diff(np.append(starts, len(at)))
    ends = starts + count - 1
    way, leaf = -triangles.way[which], owner[triangles.numbers[which]]
    after: dict[int, Array] = {}
    at_start: dict[int, Array] = {}
    for number, own in enumerate(leaves):
        total = np.cumsum(np.where(leaf == number, way, 0))
        last = np.repeat(total[ends], count)
        # after the last crossing a closed mesh is over: the winding there is 0
        after[id(own)] = total != last
        at_start[id(own)] = np.append(0, total[ends[:-1]])[:len(starts)] != total[ends]
    holds, begins = holding(tree, after), holding(tree, at_start)
    slack = (np.abs(triangles.slope).sum(1) / triangles.grid)[which] + FILM
    room = np.append(z[1:] - z[:-1], np.inf)
    room[ends] = np.inf
    holds &= room > slack + np.append(slack[1:], 0)
    found = np.flatnonzero(holds)
    best, who = np.full(size[0] * size[1], np.inf), np.full(size[0] * size[1], NONE)
    best[at[found[::-1]]], who[at[found[::-1]]] = z[found[::-1]], which[found[::-1]]
    caps = np.full(size[0] * size[1], NONE)
    for number, own in enumerate(leaves):
        caps[at[starts[begins & at_start[id(own)] & (caps[at[starts]] == NONE)]]] = number
    return best, who, caps


def holding(tree: Any, states: dict[int, Array]) -> Array:
    """Where an expression holds, by where its leaves do."""
    if not isinstance(tree, tuple):
        return states[id(tree)].copy()
    out = holding(tree[1][0], states)
    for part in tree[1][1:]:
        if tree[0] == "+":
            out |= holding(part, states)
        elif tree[0] == "*":
            out &= holding(part, states)
        else:
            out &= ~holding(part, states)
    return out


class Model:
    """An expression of leaves before a view: what is seen of it in a picture of a size."""

    def __init__(self, tree: Any, view: Any, size: Sequence[int]) -> None:
        self.tree, self.size, self.lens = tree, size, lens_of(view)
        self.leaves = [leaf for leaf, _ in solids.leaves(tree)]
        own = [corners_of(leaf) for leaf in self.leaves]
        self.corners, self.owner = np.concatenate(own), np.repeat(np.arange(len(own)), list(map(len, own)))
        seen, self.numbers, is_before = in_view(self.lens, self.lens.seen(self.corners))
        self.places, self.is_cut = self.lens.placed(seen), is_before or bool(solids.signs(tree) - {"+"})

    def gaps(self) -> list[str]:
        """What is not closed, and where."""
        found = ((leaf.name(), open_place(corners_of(leaf))) for leaf in self.leaves)
        return ["%s %s" % pair for pair in found if pair[1]]

    def check(self) -> None:
        """Says what is not closed; `Trouble` where it must be."""
        for gap in self.gaps():
            if self.is_cut:
                raise Trouble(gap + ", and what is cut or intersected must be closed")
            ends.say("pxplanes convert", gap + "; it is drawn from both sides")

    def triangles(self, right: float = 0, down: float = 0) -> Triangles:
        """Its triangles in the picture, which is so many pixels aside."""
        return Triangles(self.places + np.array((right, down, 0)), self.numbers, self.size, not self.is_cut)

    def seen(self, triangles: Triangles) -> tuple[Array, Array, Array]:
        """At each pixel the depth that is seen, its place in `triangles`, and the leaf of a cap."""
        if not self.is_cut:
            return *nearest(triangles, self.size), np.full(self.size[0] * self.size[1], NONE)
        best, who, caps = first_inside(self.tree, self.leaves, self.owner, triangles, self.size)
        best[caps != NONE], who[caps != NONE] = 0, NONE
        return best, who, caps


def shown_by(scene: Any) -> Array:
    """The first cell that a scene shows at each pixel by the rules of docs/PICTURE.md, in whole numbers; the far limit
    for none. (Values of planes are whole, and below 2^53.)"""
    limit = scene.far() << scene.fraction_bits
    planes = [[np.array([(0, 0, least), *(face.plane for face in faces)], float) for faces, least in (
        (solid.fronts, 0), (solid.backs, limit), (solid.sides, 0))] for solid in scene.solids]
    return np.block([[shown_in(scene, planes, (left, top)) for left in range(0, scene.width, TILE)]
                     for top in range(0, scene.height, TILE)])


def may_meet(planes: Sequence[Array], corners: Array) -> bool:
    """Whether a solid may be within a box of the picture: no side, and no front with a back, keeps it out."""
    fronts, backs, sides = (np.matmul(own, corners) for own in planes)
    return bool(((backs[:, None] - fronts).max(2) > 0).all() and (sides.max(1) >= 0).all())


def shown_in(scene: Any, planes: Sequence[Sequence[Array]], corner: tuple[int, int]) -> Array:
    """The same for the box of the picture that has this corner."""
    high = [min(low + TILE, side) - 1 for low, side in zip(corner, (scene.width, scene.height))]
    x, y = np.meshgrid(*(np.arange(low, last + 1) for low, last in zip(corner, high)))
    far, places = scene.far(), np.stack([x.ravel(), y.ravel(), np.ones(x.size)])
    corners = np.array([(*place, 1) for place in itertools.product(*zip(corner, high))], float).T
    kept = [at for at, own in enumerate(planes) if may_meet(own, corners)]

    first, end, inside = (np.array([reduced(planes[at][kind] @ places, 0) for at in kept]).reshape(-1, x.size)
                          for kind, reduced in enumerate((np.max, np.min, np.min)))
    first, end = (np.ceil(own / (1 << scene.fraction_bits)) for own in (first, end))
    is_met = (first < end) & (inside >= 0)
    first, end = (np.where(is_met, own, far) for own in (first, end))
    row = np.full(len(scene.solids), NONE)
    row[kept] = np.arange(len(kept))
    cells, live, now = np.full(x.size, far), np.arange(x.size), np.zeros(x.size)
    while len(live):
        has = np.concatenate([(first <= now) & (now < end), np.zeros((1, len(live)), bool)])
        holds = rays.folded(scene.show, lambda at: np.asarray(has[row[at]]),
                            lambda sign, left, right: np.asarray(rays.JOINED[sign](left, right)))
        cells[live[holds]] = now[holds]
        later = np.minimum(*(np.where(own > now, own, far).min(0, initial=far) for own in (first, end)))
        goes = ~holds & (later < far)
        live, now, first, end = live[goes], later[goes], first[:, goes], end[:, goes]
    return cells.reshape(x.shape)


def unlike(model: Model, depths: Array, bits: Sequence[int], rounded: float, digit: float) -> tuple[int, Any]:
    """At how many pixels a picture has not what is seen of a model, and the first of them. What is next to an edge by
    less than 0.02 pixels, or by what the digits of its points leave open, is not counted, nor what is beyond the
    depths."""
    lens, cells = model.lens, (1 << bits[0]) - 1
    zoom = lens.focal / lens.near if lens.perspective else lens.focal
    aside, deep = max(0.02, 2 * digit * zoom), 2 * digit * lens.steep / (lens.near ** 2 if lens.perspective else 1)
    around = []
    for right, down in ((0, 0), *itertools.product((aside, -aside), repeat=2)):
        triangles = model.triangles(right, down)
        best, who, _ = model.seen(triangles)
        tilt = 2 * aside * np.append(np.abs(triangles.slope).sum(1), 0)[who]
        around.append((best - tilt, best + tilt))
    low = np.ceil(np.min([least for least, _ in around], 0)).reshape(depths.shape)
    high, room = np.ceil(np.max([most for _, most in around], 0)).reshape(depths.shape), 1 + rounded + deep
    is_judged = np.isinf(low) | (low >= room) & (high < cells - room)
    own = np.where(depths < cells, depths, np.inf)
    with np.errstate(invalid="ignore"):
        wrong = is_judged & ((own < low - room) | (own > high + room))
    found = np.argwhere(wrong)
    return len(found), tuple(found[0][::-1].tolist()) if len(found) else None


# ---- columns and scenes ----
class Column(NamedTuple):
    """The planes of a column in the whole picture, what it shows, and the box of the pixels at which it is seen."""

    planes: list[Plane]
    number: int
    box: Window


def box_planes(box: Window) -> list[Plane]:
    return [("side", 1, 0, -box[0]), ("side", -1, 0, box[2]), ("side", 0, 1, -box[1]), ("side", 0, -1, box[3])]


class Seen:
    """What is seen of triangles: `best` and `who` at each pixel."""

    def __init__(self, triangles: Triangles, best: Array, who: Array, size: Sequence[int], bits: Sequence[int]) -> None:
        self.triangles, self.size, self.parts = triangles, size, 1 << bits[1]
        self.best, self.who = best.reshape(size[1], size[0]), who.reshape(size[1], size[0])

    def boxes(self) -> tuple[Array, Array]:
        """Of each triangle the box of the pixels at which it is seen."""
        y, x = np.nonzero(self.who >= 0)
        own = self.who[y, x]
        low, high = np.full((len(self.triangles.numbers), 2), 1 << 30), np.full((len(self.triangles.numbers), 2), -1)
        for axis, value in ((0, x), (1, y)):
            np.minimum.at(low[:, axis], own, value)
            np.maximum.at(high[:, axis], own, value)
        return low, high

    def columns(self, is_cut: bool) -> tuple[list[Column], float]:
        """The columns, and by how many cells the worst plane is rounded. Where something is cut away or intersected, a
        column is parted until it is nowhere nearer than what is seen."""
        t = self.triangles
        low, high = self.boxes()
        keep = np.flatnonzero(high[:, 0] >= 0)
        middle = (t.low[keep] + t.high[keep]) / 2
        plane = np.rint(t.slope[keep] * self.parts)
        is_steep = (np.abs(plane) > limits.MAX_SLOPE).any(1)
        bound = np.abs(t.slope[keep] * self.parts - plane)
        bound = (bound * np.maximum(middle - t.low[keep], t.high[keep] - middle)).sum(1) + 0.5
        value = t.z[keep, 0] + (t.slope[keep] * (middle - t.base[keep])).sum(1)
        constant = np.rint(value * self.parts - (plane * middle).sum(1))
        out: list[Column] = []
        for i, own in enumerate(keep.tolist()):
            box: Window = (int(low[own, 0]), int(low[own, 1]), int(high[own, 0]), int(high[own, 1]))
            number = int(t.numbers[own])
            if is_steep[i]:
                out += self.of_pixels(own, number, box)
                continue
            planes: list[Plane] = [("front", int(plane[i, 0]), int(plane[i, 1]), int(constant[i]))]
            planes += [("side", a, b, c) for a, b, c in t.sides[own].tolist()]
            if not is_cut:
                out.append(Column(planes, number, box))
            else:
                out += [Column(planes + box_planes(part), number, part) for part in self.parted(own, box)]
        return out, float(bound[~is_steep].max() / self.parts) if (~is_steep).any() else 0.0

    def of_pixels(self, own: int, number: int, box: Window) -> list[Column]:
        """A triangle too steep for a front: a column a pixel, with the depth there."""
        out = []
        y, x = np.nonzero(self.who[box[1]:box[3] + 1, box[0]:box[2] + 1] == own)
        for px, py in zip((x + box[0]).tolist(), (y + box[1]).tolist()):
            pixel = (px, py, px, py)
            out.append(Column([("front", 0, 0, round(float(self.best[py, px]) * self.parts)), *box_planes(pixel)],
                              number, pixel))
        return out

    def parted(self, own: int, box: Window) -> list[Window]:
        """Boxes of a triangle's pixels in which its column is nowhere nearer than what is seen."""
        x0, y0, x1, y1 = box
        who, t = self.who[y0:y1 + 1, x0:x1 + 1], self.triangles
        rows, columns = np.flatnonzero((who == own).any(1)), np.flatnonzero((who == own).any(0))
        if not len(rows):
            return []
        x0, x1, y0, y1 = x0 + int(columns[0]), x0 + int(columns[-1]), y0 + int(rows[0]), y0 + int(rows[-1])
        x, y = np.arange(x0, x1 + 1), np.arange(y0, y1 + 1)[:, None]
        covers = np.ones((y1 - y0 + 1, x1 - x0 + 1), bool)
        for a, b, c in t.sides[own]:
            covers &= a * x + b * y + c >= 0
        value = t.z[own, 0] + t.slope[own, 0] * (x - t.base[own, 0]) + t.slope[own, 1] * (y - t.base[own, 1])
        if not (covers & (value < self.best[y0:y1 + 1, x0:x1 + 1] - NEARER)).any():
            return [(x0, y0, x1, y1)]
        if x1 - x0 >= y1 - y0:
            middle = (x0 + x1) // 2
            halves = [(x0, y0, middle, y1), (middle + 1, y0, x1, y1)]
        else:
            middle = (y0 + y1) // 2
            halves = [(x0, y0, x1, middle), (x0, middle + 1, x1, y1)]
        return [part for half in halves for part in self.parted(own, half)]


class Scene(NamedTuple):
    """The text of a scene in a window of the picture, and what each of its solids shows."""

    window: Window
    text: str
    numbers: Array


def scenes_of(columns: list[Column], bits: Sequence[int]) -> list[Scene]:
    """Scenes of 255 columns each: what is near together in the picture is in one scene, so that its window is small."""
    if not columns:
        return []
    boxes = np.array([column.box for column in columns])
    big = ((boxes[:, 2:] - boxes[:, :2]) > BIG).any(1)
    centre = (boxes[:, :2] + boxes[:, 2:]) // 2
    key = sum((centre[:, axis] >> bit & 1) << 2 * bit + axis for bit in range(10) for axis in (0, 1))
    order, out = np.argsort(key, kind="stable"), []
    for half in (order[~big[order]], order[big[order]]):
        for i in range(0, len(half), limits.MAX_SOLIDS):
            part = half[i:i + limits.MAX_SOLIDS]
            low, high = boxes[part, :2].min(0), boxes[part, 2:].max(0)
            window: Window = (int(low[0]), int(low[1]), int(high[0]), int(high[1]))
            own = [columns[j] for j in part]
            out.append(Scene(window, text_of(window, bits, own), np.array([column.number for column in own])))
    return out


def text_of(window: Window, bits: Sequence[int], columns: list[Column]) -> str:
    x0, y0, x1, y1 = window
    lines = ["pxscene 3", "picture %d %d" % (x1 - x0 + 1, y1 - y0 + 1), "depth %d %d" % tuple(bits)]
    for at, column in enumerate(columns):
        lines.append("solid t%d 200 180 120" % at)
        for kind, a, b, c in column.planes:
            # a side that holds all over the window is left out; one that passes through it keeps C within the limit
            if kind != "side" or c + min(a * x0, a * x1) + min(b * y0, b * y1) < 0:
                lines.append("%s %d %d %d" % (kind, a, b, c + a * x0 + b * y0))
    return "\n".join(lines + ["show " + solids.halved("+", ["t%d" % at for at in range(len(columns))]), "end", ""])


def drawn(scene: Scene, path: str) -> list[Array]:
    """Both maps of a scene by the program."""
    found = maps.of_netpbm(program.output(path, "render", scene.text.encode()))
    return [own.numbers.astype(np.int64) for own in found]


class Drawing(NamedTuple):
    """A picture: `depths` by rows, `cells` for the background; `shown` has the triangle that shows at each pixel, and
    -1 for none; what the near plane cuts shows as a number from the count of triangles on. `rounded` is in cells."""

    depths: Array
    shown: Array
    corners: Array
    owner: Array
    lens: Lens
    rounded: float
    columns: int
    scenes: int

    def maps(self) -> bytes:
        """The depths and the faces as Netpbm's maps, three bytes a pixel; a face is the number of a triangle, from
        1."""
        return b"".join(b"P6\n%d %d\n255\n"
                        % numbers.shape[::-1] + np.stack([numbers >> 16, numbers >> 8, numbers], -1).astype(
            np.uint8).tobytes() for numbers in (self.depths, self.shown + 1))

    def colours(self, of_leaves: Sequence[Sequence[int]], background: tuple[int, int, int] = (255, 255, 255)) -> list[
        tuple[int, ...]]:
        """The colours by rows: that of each triangle's leaf, lighter the more it looks to the light."""
        u, v = self.corners[:, 1] - self.corners[:, 0], self.corners[:, 2] - self.corners[:, 0]
        normal = np.cross(u, v) @ self.lens.rows.T
        seen = self.lens.seen(self.corners[:, 0]) if self.lens.perspective else np.array([0.0, 0.0, 1.0])
        normal *= np.where((normal * seen).sum(1) > 0, -1, 1)[:, None] / np.maximum(
            np.linalg.norm(normal, axis=1), 1e-300)[:, None]
        light = DULL + (1 - DULL) * np.maximum(0, normal @ LIGHTEST)
        own = np.array(of_leaves)
        faces = np.rint(own[self.owner] * light[:, None]).astype(int)
        table = np.concatenate([faces, own, [background]])          # the background is the last: number -1
        return [tuple(colour) for colour in table[self.shown].reshape(-1, 3).tolist()]


def draw(tree: Any, view: Any, size: Sequence[int], bits: Sequence[int]) -> Drawing:
    """The picture of an expression of the leaves of `solids`. `Trouble` where what must be closed is open."""
    model, cells = Model(tree, view, size), (1 << bits[0]) - 1
    model.check()
    triangles = model.triangles()
    best, who, caps = model.seen(triangles)
    columns, rounded = Seen(triangles, best, who, size, bits).columns(model.is_cut)
    scenes = scenes_of(columns, bits)
    cap = caps.reshape(size[::-1])
    depths, shown = np.where(cap == NONE, cells, 0), np.where(cap == NONE, NONE, len(model.corners) + cap)
    place = program.needed(None)
    with concurrent.futures.ThreadPoolExecutor(JOBS) as pool:
        for scene, (deep, face) in zip(scenes, pool.map(lambda one: drawn(one, place), scenes)):
            x0, y0, x1, y1 = scene.window
            at = np.s_[y0:y1 + 1, x0:x1 + 1]
            near = deep < depths[at]
            depths[at][near] = deep[near]
            # each column has two faces: the near one and its front
            shown[at][near] = scene.numbers[(face[near] - 1) // 2]
    return Drawing(depths, shown, model.corners, model.owner, model.lens, rounded, len(columns), len(scenes))
