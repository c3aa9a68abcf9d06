"""A renderer by sums of products, as Goldfeather's: each product is drawn alone and the nearest is kept. It reads
scenes itself, works with float64, and shares nothing with pxplanes.compare. With its own mistakes, each with a word of
the cause that must be named; None where none may be."""
import re
from dataclasses import dataclass, field

import numpy as np

FAR_AWAY = 1e18


@dataclass
class Part:
    """A solid: its planes as rows of kind, A, B, C and face number."""

    near: int
    planes: list = field(default_factory=list)

    def of(self, kind):
        return [plane[1:] for plane in self.planes if plane[0] == kind]


@dataclass
class Text:
    width: int = 0
    height: int = 0
    far: int = 0
    unit: int = 1
    parts: list = field(default_factory=list)
    products: list = field(default_factory=list)


def read(text, signs):
    """A scene; `signs` exchanges operators."""
    found, names, number = Text(), {}, 0
    for line in text.splitlines():
        word, *more = line.split("#")[0].split() or [""]
        if word == "picture":
            found.width, found.height = map(int, more)
        elif word == "depth":
            found.far, found.unit = 2 ** int(more[0]) - 1, 2 ** int((more + ["0"])[1])
        elif word == "solid":
            number += 1
            names[more[0]] = len(found.parts)
            found.parts.append(Part(number))
        elif word in ("front", "back", "side"):
            number += word != "side"
            found.parts[-1].planes.append((word, *map(int, more[:3]), number))
        elif word == "show":
            found.products = sum_of(re.findall(r"\w+|\S", " ".join(more)), names, signs)[0]
    return found


def sum_of(tokens, names, signs):
    """The products of an expression and of what is outside of it: pairs of the solids that are in, and out."""
    token = tokens.pop(0)
    if token != "(":
        at = names[token]
        return [({at}, set())], [(set(), {at})]
    left = sum_of(tokens, names, signs)
    sign = tokens.pop(0)
    right = sum_of(tokens, names, signs)
    tokens.pop(0)
    return SIGNS[signs.get(sign, sign)](left, right)


def times(p, q):
    pairs = [(a | c, b | d) for a, b in p for c, d in q]
    kept = []
    for pair in pairs:
        if not pair[0] & pair[1] and pair not in kept:
            kept.append(pair)
    return kept


SIGNS = {"+": lambda l, r: (l[0] + r[0], times(l[1], r[1])), "*": lambda l, r: (times(l[0], r[0]), l[1] + r[1]),
         "-": lambda l, r: (times(l[0], r[1]), l[1] + r[0]), "left": lambda l, r: l, "right": lambda l, r: r,
         "^": lambda l, r: (times(l[0], r[1]) + times(l[1], r[0]), times(l[0], r[0]) + times(l[1], r[1]))}


class Renderer:
    """Draws with one mistake: attributes replace what is right."""

    signs = {}
    closed_backs = highest = False
    far_less = 0
    cell = staticmethod(np.ceil)

    def __init__(self, **mistake):
        self.__dict__.update(mistake)

    def value(self, kind, a, b, c, x, y, scene):
        return a * x + b * y + c

    def prepare(self, scene):
        return scene

    def finish(self, depths, faces, scene):
        return depths, faces

    def spans(self, scene, x, y):
        """Of each solid: where it begins and ends, in cells, and which faces are there."""
        for part in scene.parts:
            begin, end = np.zeros(x.shape), np.full(x.shape, float((scene.far - self.far_less) * scene.unit))
            starts, stops = [(part.near, begin)], []
            for a, b, c, number in part.of("front"):
                value = self.value("front", a, b, c, x, y, scene)
                starts.append((number, value))
                begin = np.maximum(begin, value)
            for a, b, c, number in part.of("back"):
                value = self.value("back", a, b, c, x, y, scene)
                stops.append((number, value))
                end = np.minimum(end, value)
            first, last = self.cell(begin / scene.unit), np.minimum(np.floor(end / scene.unit) + 1, scene.far) if self.closed_backs else self.cell(end / scene.unit)
            exists = first < last
            for a, b, c, _ in part.of("side"):
                exists &= self.value("side", a, b, c, x, y, scene) >= 0
            first = np.where(exists, first, FAR_AWAY)
            last = np.where(exists, last, FAR_AWAY)
            yield first, last, [(n, v == begin) for n, v in starts], [(n, v == end) for n, v in stops]

    def draw(self, text):
        """Depths and faces of a scene's text."""
        scene = self.prepare(read(text, self.signs))
        y, x = np.mgrid[0:scene.height, 0:scene.width].astype(float)
        spans = list(self.spans(scene, x, y))
        depths, faces = np.full(x.shape, float(scene.far)), np.zeros(x.shape, int)
        drawn = [(self.nearest(plain, barred, spans, x), plain, barred) for plain, barred in scene.products]
        for z, _, _ in drawn:
            depths = np.minimum(depths, z)
        for z, plain, barred in drawn:
            for number, shows in self.shown(z, plain, barred, spans):
                here = shows & (z == depths) & (z < scene.far)
                better = here & ((faces == 0) | ((faces < number) if self.highest else (faces > number)))
                faces[better] = number
        return self.finish(depths, faces, scene)

    def nearest(self, plain, barred, spans, x):
        """The nearest cell that is in all of the plain solids, and in none of the barred ones."""
        z = np.zeros(x.shape)
        for _ in range(len(plain) + len(barred) + 1):
            for at in plain:
                z = np.maximum(z, spans[at][0])
            for at in barred:
                z = np.where((spans[at][0] <= z) & (z < spans[at][1]), spans[at][1], z)
        for at in plain:
            z = np.where(z < spans[at][1], z, FAR_AWAY)
        return z

    def shown(self, z, plain, barred, spans):
        """The faces at a cell of a product: of plain solids that begin there, and of barred ones that end there."""
        for at in plain:
            for number, is_first in spans[at][2]:
                yield number, (spans[at][0] == z) & is_first
        for at in barred:
            for number, is_last in spans[at][3]:
                yield number, (spans[at][1] == z) & is_last


def planes(change):
    """A mistake in each plane of a scene: `change` gets kind, A, B, C and gives them."""
    def prepare(scene):
        for part in scene.parts:
            part.planes = [(*change(*plane[:4], scene), plane[4]) for plane in part.planes]
        return scene
    return Renderer(prepare=prepare)


def scenes(change):
    def prepare(scene):
        change(scene)
        return scene
    return Renderer(prepare=prepare)


def maps(change):
    return Renderer(finish=change)


def wrapped(number, bits):
    return (number + 2 ** (bits - 1)) % 2 ** bits - 2 ** (bits - 1)


def only(count):
    def change(scene):
        scene.products = [(p, b - set(range(count, 1000))) for p, b in scene.products if not any(at >= count for at in p)]
    return scenes(change)


def without(kind):
    return scenes(lambda scene: [setattr(part, "planes", [plane for plane in part.planes if plane[0] != kind]) for part in scene.parts])


def first_of_each_kind(scene):
    for part in scene.parts:
        part.planes = [plane for kind in ("front", "back", "side") for plane in [p for p in part.planes if p[0] == kind][:1]]


def shifted(dx, dy):
    return Renderer(value=lambda kind, a, b, c, x, y, scene: a * (x + dx) + b * (y + dy) + c)


def without_near_numbers(depths, faces, scene):
    near = sorted(part.near for part in scene.parts)
    return depths, np.where(np.isin(faces, near), 0, faces - np.searchsorted(near, faces))


def bytes_turned(depths):
    whole = depths.astype(int)
    return (whole % 256 * 65536 + whole // 256 % 256 * 256 + whole // 65536).astype(float)


class CullsBottom(Renderer):
    def spans(self, scene, x, y):
        for first, last, starts, stops in super().spans(scene, x, y):
            out = (first[-1] < FAR_AWAY).any()
            yield (np.full_like(first, FAR_AWAY), np.full_like(last, FAR_AWAY), starts, stops) if out else (first, last, starts, stops)


class OneCut(Renderer):
    def nearest(self, plain, barred, spans, x):
        return super().nearest(plain, set(sorted(barred)[:1]), spans, x)


def averaged(depths, faces, scene):
    return (np.where((faces[:, :1] >= 0), (depths + np.roll(depths, 1, 1)) // 2, depths), faces)


def doubled_rows(depths, faces, scene):
    return depths[np.arange(scene.height) // 2 * 2], faces[np.arange(scene.height) // 2 * 2]


MISTAKES = {
    "upside down": ("the rows are from the bottom up", maps(lambda d, f, s: (np.flipud(d), np.flipud(f)))),
    "mirrored": ("the columns are from the right", maps(lambda d, f, s: (np.fliplr(d), np.fliplr(f)))),
    "turned about": ("rows and columns are turned about", maps(lambda d, f, s: (np.rot90(d, 2), np.rot90(f, 2)))),
    "a row lower": ("the map is moved by 0 columns and 1 rows", maps(lambda d, f, s: (np.vstack([d[:1], d[:-1]]), np.vstack([f[:1], f[:-1]])))),
    "reversed depth": ("near and far are exchanged", maps(lambda d, f, s: (s.far - d, f))),
    "depths from 0 to 1": ("depths are from 0 to 1", maps(lambda d, f, s: ((d / s.far).astype(np.float32).astype(float), f))),
    "sixteen bits": ("depths are from 0 to 65535", maps(lambda d, f, s: (np.floor(d / s.far * 65535 + 0.5), f))),
    "eight bits": ("depths are from 0 to 255", maps(lambda d, f, s: (np.floor(d / s.far * 255), f))),
    "the last product is forgotten": ("the last product is left out", scenes(lambda s: s.products.pop() if len(s.products) > 1 else None)),
    "no backs": ("backs are left out", without("back")),
    "no sides": ("sides are left out", without("side")),
    "no fronts": ("fronts are left out", without("front")),
    "sides with x and y exchanged": ("A and B of sides are exchanged", planes(lambda k, a, b, c, s: (k, b, a, c) if k == "side" else (k, a, b, c))),
    "faces from 0": ("faces are counted from 0", maps(lambda d, f, s: (d, np.maximum(f - 1, 0)))),
    "near faces are the background": ("near faces have no number", maps(without_near_numbers)),
    "half a pixel the other way": ("samples are -0.5 columns and -0.5 rows aside", shifted(-0.5, -0.5)),
    "rounding to the nearest": ("values are rounded half up", Renderer(cell=lambda v: np.floor(v + 0.5))),
    "cuts by ^": ("- is taken for ^", Renderer(signs={"-": "^"})),
    "* cuts": ("* is taken for -", Renderer(signs={"*": "-"})),
    "^ joins": ("^ is taken for +", Renderer(signs={"^": "+"})),
    "short constants": ("cut to 16 bits", planes(lambda k, a, b, c, s: (k, a, b, wrapped(c, 16)))),
    "int constants": ("cut to 32 bits", planes(lambda k, a, b, c, s: (k, a, b, wrapped(c, 32)))),
    "four solids": ("only the first 4 solids", only(4)),
    "eight solids": ("only the first 8 solids", only(8)),
    "a plane of each kind": ("only the first 1 planes of a kind", scenes(first_of_each_kind)),
    "depths as little-endian": ("the 3 bytes of depths are lowest first", maps(lambda d, f, s: (bytes_turned(d), f))),
    "the far cell is lost": ("the cell far - 1 is not drawn", Renderer(far_less=1)),
    "backs are inside": ("backs belong to their solid", Renderer(closed_backs=True)),
    "the last face wins": ("the highest face shows in a tie", Renderer(highest=True)),
    "half floats": ("depths are half floats", maps(lambda d, f, s: (np.minimum(d, 65504).astype(np.float16).astype(float), f))),
    "culled at the bottom": ("touch the bottom edge", CullsBottom()),
    "background -1": ("the background is -1", maps(lambda d, f, s: (np.where(f == 0, -1, d), f))),
    "cells, and 0.25 farther": ("off by 0.25, from whole cells", maps(lambda d, f, s: (np.where(f == 0, d, d + 0.25), f))),
    # what no cause is written for
    "backs of cuts are a cell farther": ("depths of backs are off by 1", maps(lambda d, f, s: (np.where(np.isin(f, [n for p in s.parts for *_, n in p.of("back")]), d + 1, d), f))),
    "faces by a table of 7": (None, maps(lambda d, f, s: (d, f * 3 % 7))),
    "rows are doubled": ("every second row repeats", maps(doubled_rows)),
    "a near limit of 10": ("depths begin at 10", Renderer(finish=lambda d, f, s: (np.maximum(d, 10), f))),
    "one cut of each product": ("only one solid is cut, the first", OneCut()),
    "slopes in half floats": ("A and B of planes as half floats", planes(lambda k, a, b, c, s: (k, *(int(np.float16(v)) if abs(v) < 60000 else v for v in (a, b)), c))),
    "depths of two columns averaged": (None, maps(averaged)),
    "rows a hundredth too far apart": (None, Renderer(value=lambda k, a, b, c, x, y, s: a * x + b * 1.01 * y + c)),
    "sides of 1 are outside": ("C of sides is -2", planes(lambda k, a, b, c, s: (k, a, b, c - (2 if k == "side" else 0)))),
    "five solids, the last one kept": (None, scenes(lambda s: setattr(s, "products", [row for row in s.products if not {5, 6, 7} & row[0]]))),
    "seven bits of depth": (None, maps(lambda d, f, s: (np.floor(d / 2) * 2 + (d % 4 == 3), f))),
    "a constant is read without its last digit": (None, planes(lambda k, a, b, c, s: (k, a, b, int(c / 10) * 10))),
    "the second product is drawn twice as far": (None, maps(lambda d, f, s: (np.where(f % 2 == 1, np.minimum(2 * d, s.far), d), f))),
}
