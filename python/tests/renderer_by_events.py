"""A renderer that marches the cells of a pixel from event to event, with mistakes that can be switched on, and the
table of them."""
from dataclasses import dataclass, field
from typing import Callable

import numpy as np

from pxplanes.compare.picture import Scene, Solid

Table = dict[str, np.ndarray]
Maps = tuple[np.ndarray, np.ndarray]


@dataclass
class Renderer:
    """Hooks of a renderer, each of which can have a mistake."""
    plane: Callable = lambda a, b, c, x, y, kind, scene: a * x + b * y + c
    kept: Callable[[np.ndarray], np.ndarray] = lambda v: v >= 0
    start: Callable = lambda scene, at: 0
    limit: Callable = lambda scene: scene.far
    cell: Callable = lambda v, scene: -((-v) // (1 << scene.fraction))
    solid: Callable = lambda solid, at, scene: solid
    entry: Callable = lambda first, end, has, scene, at: (first, end, has)
    join: dict[str, Callable] = field(default_factory=dict)
    least: bool = True
    after: Callable[[np.ndarray, np.ndarray, Scene], Maps] = lambda d, f, scene: (d, f)
    real: bool = False
    only_depths: bool = False

    def draw(self, scene: Scene) -> Maps:
        y, x = np.mgrid[0:scene.height, 0:scene.width].astype(np.int64)
        parts = 1 << scene.fraction if self.real else 1
        rays: list[Table] = []
        for at, solid in enumerate(scene.solids):
            solid = self.solid(solid, at, scene)
            ahead = [(np.full(x.shape, self.start(scene, at)), solid.near)] + [
                (self.plane(*p, x, y, "front", scene), n) for p, n in solid.fronts]
            behind = [(self.plane(*p, x, y, "back", scene), n) for p, n in solid.backs] + [
                (np.full(x.shape, self.limit(scene) << scene.fraction), 0)]
            first, end = np.max([v for v, _ in ahead], 0), np.min([v for v, _ in behind], 0)
            has = np.ones(x.shape, bool)
            for p, _ in solid.sides:
                has &= self.kept(self.plane(*p, x, y, "side", scene))
            cell = (lambda v: v) if self.real else (lambda v: self.cell(v, scene))
            f, e, has = self.entry(cell(first), cell(end), has, scene, at)
            rays.append({"first": f, "end": e, "has": has & (f < e), **{
                "f%d" % n: v == first for v, n in ahead}, **{"b%d" % n: v == end for v, n in behind if n}})
        events = np.sort(np.stack([np.zeros_like(x)] + [r[k] for r in rays for k in ("first", "end")]), 0)
        depths, numbers, done = np.full(x.shape, float(scene.far * parts)), np.zeros(x.shape, int), np.zeros(x.shape, bool)
        for z in events:
            new = self.at(scene, rays, z, False)[0] & ~done & (z < self.limit(scene) * parts)
            depths[new] = z[new]
            done |= new
        found = self.at(scene, rays, depths, True)[1]
        for n in sorted(found, reverse=self.least):
            numbers[found[n] & done] = n
        return self.after(depths / parts if self.real else depths, numbers, scene)

    def at(self, scene: Scene, rays: list[Table], z: np.ndarray, faces: bool) -> tuple[np.ndarray, dict[int, np.ndarray]]:
        """Membership and the faces that show, as sets, at a cell of each pixel."""
        stack = []
        for node in scene.show:
            if isinstance(node, int):
                r = rays[node]
                inside = r["has"] & (r["first"] <= z) & (z < r["end"])
                stack.append((inside, {int(k[1:]): v & (inside & (r["first"] == z) if k[0] == "f" else r["has"] & ~inside & (r["end"] == z))
                                       for k, v in r.items() if faces and k[1:].isdigit()}))
                continue
            (q, there), (p, here) = stack.pop(), stack.pop()
            node = self.join.get(node, node)
            if callable(node):
                member, node = node(p, q), "-"
            elif node in ("left", "right"):
                stack.append((p, here) if node == "left" else (q, there))
                continue
            else:
                member = {"+": p | q, "*": p & q, "-": p & ~q, "^": p != q}[node]
            ours = {"+": p | ~member, "*": member | ~p, "-": member | ~p, "^": member | True}[node]
            theirs = {"+": q | ~member, "*": member | ~q, "-": member | q, "^": member | True}[node]
            sets = {n: v & ours for n, v in here.items()}
            for n, v in there.items():
                sets[n] = sets.get(n, np.zeros_like(member)) | v & theirs
            stack.append((member, sets))
        return stack.pop()


def f32(order: str) -> Callable:
    def plane(a, b, c, x, y, kind, scene):
        s = np.float32
        v = (s(a) * x.astype(s) + s(b) * y.astype(s)) + s(c) if order == "abc" else (s(c) + s(a) * x.astype(s)) + s(b) * y.astype(s)
        return np.ceil(v).astype(np.int64)
    return plane


def depth(change: Callable) -> Callable:
    return lambda d, f, s: (np.where(f > 0, change(d, s), d), f)


def both(change: Callable) -> Callable:
    return lambda d, f, s: (change(d), change(f))


def cut(solid: Solid, most: int) -> Solid:
    return Solid(solid.near, solid.fronts[:most], solid.backs[:most], solid.sides[:most])


def hidden(solid: Solid) -> Solid:
    return Solid(solid.near, solid.fronts, solid.backs, [((0, 0, -1), 0)])


def noise(size: float) -> Callable:
    lot = np.random.default_rng(7)
    return depth(lambda d, s: (d * (1 + size * lot.standard_normal(d.shape))).astype(np.float32).astype(float))


def bytes_of(v: np.ndarray) -> np.ndarray:
    v = v.astype(np.int64)
    return ((v & 255) << 16) | (v & 65280) | (v >> 16)


def near_cull(first, end, has, scene, at):
    """A solid whose box touches the left or the top of the picture is culled whole."""
    touches = (has & (first < end))[:, 0].any()
    return first, end, has & (not touches)


def depth_cull(first, end, has, scene, at):
    """A solid is culled whole where its first pixel lies behind half of the range."""
    seen = has & (first < end)
    return first, end, has & (not seen.any() or first[seen][0] < scene.far // 2)


def shifted_plane(dx: float, dy: float) -> Callable:
    return lambda a, b, c, x, y, kind, s: a * (x + dx) + b * (y + dy) + c


def ceiled(v, scene):
    return np.ceil(v / (1 << scene.fraction)).astype(np.int64)


def back_hit(v, scene):
    return v >> scene.fraction


# The word that a right name has; None where no cause was written for it.
PLANTS: dict[str, tuple[str | None, Renderer]] = {
    "right": (None, Renderer()),
    "right, real": (None, Renderer(real=True)),
    "rows bottom up": ("the rows are from the bottom up", Renderer(after=lambda d, f, s: (d[::-1], f[::-1]))),
    "transposed data": ("transposed", Renderer(after=lambda d, f, s: (d.T.reshape(d.shape), f.T.reshape(f.shape)))),
    "a column too far right": ("moved by 1 columns and 0 rows", Renderer(after=lambda d, f, s: (np.roll(d, 1, 1), np.roll(f, 1, 1)))),
    "half a pixel": ("samples are +0.5 columns and +0.5 rows aside", Renderer(plane=shifted_plane(.5, .5), cell=ceiled)),
    "half a pixel, real depths": ("samples are +0.5 columns and +0.5 rows aside", Renderer(real=True, plane=shifted_plane(.5, .5))),
    "rounding down": ("rounded down", Renderer(cell=lambda v, s: v >> s.fraction)),
    "halves to even": ("rounded half even", Renderer(cell=lambda v, s: np.rint(v / (1 << s.fraction)).astype(np.int64))),
    "strict sides": ("sides are strict", Renderer(kept=lambda v: v > 0)),
    "^ taken for -": ("^ is taken for -", Renderer(join={"^": "-"})),
    "^ left out": ("^ is taken for its left", Renderer(join={"^": "left"})),
    "- ignored": ("- is taken for its left", Renderer(join={"-": "left"})),
    "* taken for +": ("* is taken for +", Renderer(join={"*": "+"})),
    "+ ignored": ("+ is taken for its left", Renderer(join={"+": "left"})),
    "bytes lowest first": ("the 3 bytes of both maps", Renderer(after=both(bytes_of))),
    "8 solids": ("the first 8 solids", Renderer(solid=lambda o, at, s: o if at < 8 else hidden(o))),
    "2 solids": ("the first 2 solids", Renderer(solid=lambda o, at, s: o if at < 2 else hidden(o))),
    "4 planes": ("the first 4 planes", Renderer(solid=lambda o, at, s: cut(o, 4))),
    "2 planes": ("the first 2 planes", Renderer(solid=lambda o, at, s: cut(o, 2))),
    "C of 32 bits": ("cut to 32 bits", Renderer(plane=lambda a, b, c, x, y, k, s: a * x + b * y + ((c + 2**31) % 2**32 - 2**31))),
    "C of 16 bits": ("cut to 16 bits", Renderer(plane=lambda a, b, c, x, y, k, s: a * x + b * y + ((c + 2**15) % 2**16 - 2**15 if k != "side" else c))),
    "far - 1": ("far - 1 is not", Renderer(limit=lambda s: s.far - 1)),
    "cell far drawn": ("far is drawn", Renderer(limit=lambda s: s.far + 1)),
    "highest in a tie": ("highest face", Renderer(least=False)),
    "no clip at the eye": ("cut off at the eye", Renderer(start=lambda s, at: -(1 << 50), after=lambda d, f, s: (np.maximum(d, 0), f))),
    "float32 planes": ("planes are in float32", Renderer(plane=f32("abc"))),
    "all 0.4 nearer, real": ("off by -0.4", Renderer(real=True, after=depth(lambda d, s: d - 0.4))),
    "background 0": ("the background is 0", Renderer(after=lambda d, f, s: (np.where(f == 0, 0, d), f))),
    "gamma 2.2 to 255": ("from 0 to 255 with a gamma of 2.2", Renderer(after=lambda d, f, s: (np.rint(255 * (d / s.far) ** (1 / 2.2)), f))),
    "16 bits of depth": ("lowest 16 bits", Renderer(after=lambda d, f, s: (d % 65536, f))),
    "only 3 fraction bits": ("only 3 fraction bits", Renderer(plane=lambda a, b, c, x, y, k, s: (
        lambda n: (a >> n << n) * x + (b >> n << n) * y + (c >> n << n))(max(s.fraction - 3, 0) if k != "side" else 0))),
    "faces by solid": ("faces are the numbers of solids", Renderer(after=lambda d, f, s: (d, np.searchsorted([o.near for o in s.solids], f, "right")))),
    # -- what no cause is written for
    "float32, 1e-6 noise": (None, Renderer(real=True, after=noise(1e-6))),
    "float32, 1e-5 noise": (None, Renderer(real=True, after=noise(1e-5))),
    "whole depths, single ones + 1": (None, Renderer(after=depth(lambda d, s: d + (np.random.default_rng(3).random(d.shape) < .1)))),
    "odd rows a column left": ("odd rows are moved by 1 column to the left", Renderer(after=lambda d, f, s: (np.where(np.arange(s.height)[:, None] % 2, np.roll(d, -1, 1), d),
                                                                   np.where(np.arange(s.height)[:, None] % 2, np.roll(f, -1, 1), f)))),
    "0.3 of a pixel": ("samples are +0.3 columns and +0 rows aside", Renderer(plane=shifted_plane(.3, 0), cell=ceiled)),
    "side beyond 8 pixels strict": (None, Renderer(plane=lambda a, b, c, x, y, k, s: a * x + b * y + c - (k == "side" and c < -8))),
    "culled at the left edge": ("touch the left edge", Renderer(entry=near_cull)),
    "culled behind the middle": (None, Renderer(entry=depth_cull)),
    "every third solid left out": ("of each 3 solids number 3", Renderer(solid=lambda o, at, s: hidden(o) if at % 3 == 2 else o)),
    "the last solid left out": ("unless it is the only one", Renderer(solid=lambda o, at, s: hidden(o) if at and at == len(s.solids) - 1 else o)),
    "the last plane of a kind left out": ("all fronts and backs but the last, where there are more", Renderer(solid=lambda o, at, s: Solid(o.near, o.fronts[:-1] or o.fronts, o.backs[:-1] or o.backs, o.sides))),
    "negative A dropped": ("A of fronts 0 for what is below 0", Renderer(plane=lambda a, b, c, x, y, k, s: max(a, 0) * x + b * y + c if k == "front" else a * x + b * y + c)),
    "depth 1 nearer on backs": (None, Renderer(after=None)),
    "the right 4 columns missing": ("the last 4 columns", Renderer(after=lambda d, f, s: (np.where(np.arange(s.width) >= s.width - 4, s.far, d),
                                                                        np.where(np.arange(s.width) >= s.width - 4, 0, f)))),
    "one cell thicker backs": ("solids end a cell later", Renderer(entry=lambda f, e, h, s, at: (f, np.minimum(e + 1, s.far), h & (f < e)))),
    "- within - forgotten": (None, Renderer(join={"-": lambda p, q: p & ~q | (p & q & (np.indices(p.shape)[-1] % 2 > 0))})),
    "slopes doubled": ("A and B of fronts twice as great", Renderer(plane=lambda a, b, c, x, y, k, s: 2 * a * x + 2 * b * y + c if k == "front" else a * x + b * y + c)),
    "x sampled mirrored in B": ("B of fronts and backs with the other sign", Renderer(plane=lambda a, b, c, x, y, k, s: a * x - b * y + c if k != "side" else a * x + b * y + c)),
    "bottom up, and - ignored": ("the rows are from the bottom up & - is taken for its left", Renderer(join={"-": "left"}, after=lambda d, f, s: (d[::-1], f[::-1]))),
    "bottom up, and rounding down": ("the rows are from the bottom up & values are rounded down", Renderer(cell=lambda v, s: v >> s.fraction, after=lambda d, f, s: (d[::-1], f[::-1]))),
    "half a pixel, and rounding down": ("values are rounded down & samples are +0.5 columns and +0.5 rows", Renderer(plane=shifted_plane(.5, .5), cell=lambda v, s: np.floor(v / (1 << s.fraction)).astype(np.int64))),
    "half a pixel of depths alone": ("for fronts and backs alone", Renderer(plane=lambda a, b, c, x, y, k, s: a * (x + .5) + b * (y + .5) + c if k != "side" else a * x + b * y + c, cell=ceiled)),
    "first three bits of fraction of C alone": ("C of fronts and backs: only 3 fraction bits", Renderer(plane=lambda a, b, c, x, y, k, s: a * x + b * y + (
        c if k == "side" else c >> max(s.fraction - 3, 0) << max(s.fraction - 3, 0)))),
    "backs rounded down, fronts up": ("values of backs are rounded down", Renderer(plane=lambda a, b, c, x, y, k, s: (
        a * x + b * y + c if k != "back" else (a * x + b * y + c) >> s.fraction << s.fraction))),
    "least 3 bits of depth lost": ("the lowest 3 bits of depths", Renderer(after=depth(lambda d, s: np.floor(d / 8) * 8))),
    "deeper than 200 is background": ("of far on are the background", Renderer(after=lambda d, f, s: (np.where(d > 200 * s.far // 255, s.far, d), np.where(d > 200 * s.far // 255, 0, f)))),
    "C of 20 bits": ("is cut to 20 bits", Renderer(plane=lambda a, b, c, x, y, k, s: a * x + b * y + (c + 2**19) % 2**20 - 2**19)),
    "C ends at 2^31": ("at the limits of 32 bits", Renderer(plane=lambda a, b, c, x, y, k, s: a * x + b * y + max(-2**31, min(c, 2**31 - 1)))),
    "11 solids": ("the first 11 solids", Renderer(solid=lambda o, at, s: o if at < 11 else hidden(o))),
    "7 planes, the last kept": ("only the last 1 fronts", Renderer(solid=lambda o, at, s: Solid(o.near, o.fronts[-1:], o.backs, o.sides))),
    "solids in two lots, sides of the first": ("sides of a solid are those of the first solid", Renderer(solid=lambda o, at, s: Solid(o.near, o.fronts, o.backs, s.solids[0].sides))),
    "* by the nearer front": (None, Renderer(after=lambda d, f, s: (d + (f % 7 == 3), f))),
    "face 0 of the last solid": (None, Renderer(after=lambda d, f, s: (d, np.where(f >= s.solids[-1].near, 0, f)))),
    "faces mod 4": ("faces are cut to 2 bits", Renderer(after=lambda d, f, s: (d, f % 4))),
    "real, 1.0005 times": ("1.0005 times", Renderer(real=True, after=depth(lambda d, s: d * 1.0005))),
    "real, the depth of a perspective": (None, Renderer(real=True, after=depth(lambda d, s: d / (1 + d / s.far)))),
    "whole, with a dither of 1": (None, Renderer(after=depth(lambda d, s: d + (np.indices(d.shape).sum(0) % 2)))),
    "depth squared scale": ("a power of 2 ", Renderer(after=depth(lambda d, s: d * d // s.far))),
}


def completed() -> dict[str, tuple[str | None, Renderer]]:
    """The plants, with those that need more than a line."""
    def backs(d, f, s):
        numbers = {n for o in s.solids for _, n in o.backs}
        return np.where(np.isin(f, list(numbers)), d - 1, d), f
    out = dict(PLANTS)
    out["depth 1 nearer on backs"] = ("depths of backs are off by -1", Renderer(after=backs))
    return out


