"""A caster of rays, one a pixel: it crosses each ray with the planes of each solid, sorts where solids begin and end,
and evaluates the expression there. It reads scenes itself and shares nothing with pxplanes.compare. Its mistakes are
those that authors of renderers make; they were chosen before any cause was read."""
import re
from collections import namedtuple
from types import SimpleNamespace

import numpy as np

NOWHERE = 2 ** 60
CEILED = lambda value, unit, kind: np.ceil(value / unit)  # noqa: E731
Plane = namedtuple("Plane", "kind a b c face")


def read(text):
    world, names, faces = SimpleNamespace(bodies=[]), {}, 0
    for words in (line.split("#")[0].split() for line in text.splitlines()):
        word, more = (words or [""])[0], words[1:]
        if word == "picture":
            world.width, world.height = map(int, more)
        elif word == "depth":
            world.far, world.fraction = 2 ** int(more[0]) - 1, int(more[1]) if more[1:] else 0
        elif word == "solid":
            faces += 1
            names[more[0]] = len(world.bodies)
            world.bodies.append(SimpleNamespace(near=faces, planes=[]))
        elif word in ("front", "back", "side"):
            faces += word != "side"
            world.bodies[-1].planes.append(Plane(word, *map(int, more[:3]), 0 if word == "side" else faces))
        elif word == "show":
            world.tree = tree_of(iter(re.findall(r"\w+|\S", " ".join(more))), names)
    return world


def tree_of(tokens, names):
    """An index of a solid, or a sign and two sides."""
    token = next(tokens)
    if token != "(":
        return names[token]
    left, sign, right = tree_of(tokens, names), next(tokens), tree_of(tokens, names)
    next(tokens)
    return sign, left, right


class Renderer:
    """What is right; a mistake replaces some of it."""

    sample = staticmethod(lambda x, y, world: (x, y))
    value = staticmethod(lambda plane, x, y, world: plane.a * x + plane.b * y + plane.c)
    keeps = staticmethod(lambda value: value >= 0)
    cell = staticmethod(lambda value, unit, kind: -(-value // unit))
    far = staticmethod(lambda world: world.far)
    eye = 0
    span = staticmethod(lambda first, last, out, x, y, world: (first, last, out))
    signs = {}
    change = staticmethod(lambda world: None)
    least = staticmethod(np.minimum)
    nobody = NOWHERE
    pick = staticmethod(lambda inside: inside.argmax(0))
    finish = staticmethod(lambda depths, faces, world: (depths, faces))

    def __init__(self, **mistake):
        self.__dict__.update(mistake)

    def draw(self, text):
        """The depths and faces of a scene's text."""
        world = read(text)
        self.change(world)
        y, x = np.divmod(np.arange(world.width * world.height), world.width)
        hits = [self.hit(body, *self.sample(x, y, world), world) for body in world.bodies]
        events = np.sort(np.stack([0 * x] + [edge for first, last, *_ in hits for edge in (first, last)]), 0)
        inside = self.member(world.tree, hits, events)[0] & (events >= min(self.eye, 0)) & (events < self.far(world))
        depths = np.where(inside.any(0), np.take_along_axis(events, self.pick(inside)[None], 0)[0], world.far)
        shown = self.member(world.tree, hits, depths)[1]
        faces = np.where(inside.any(0) & (np.abs(shown) != NOWHERE), shown, 0)
        return self.finish(depths.reshape(world.height, -1), faces.reshape(world.height, -1), world)

    def hit(self, body, x, y, world):
        """Where a ray enters and leaves a solid, and through which face."""
        unit, out = 2 ** world.fraction, np.zeros(x.shape, bool)
        enter, leave = np.full(x.shape, self.eye), np.full(x.shape, self.far(world) * unit)
        front, back = np.full(x.shape, body.near), np.full(x.shape, self.nobody)
        for plane in body.planes:
            value = self.value(plane, x, y, world)
            if plane.kind == "side":
                out |= ~self.keeps(value)
            elif plane.kind == "front":
                tied = np.where(value == enter, self.least(front, plane.face), front)
                front, enter = np.where(value > enter, plane.face, tied), np.maximum(enter, value)
            else:
                tied = np.where(value == leave, self.least(back, plane.face), back)
                back, leave = np.where(value < leave, plane.face, tied), np.minimum(leave, value)
        first, last = (self.cell(edge, unit, kind).astype(int) for edge, kind in ((enter, "front"), (leave, "back")))
        first, last, out = self.span(first, last, out | (first >= last), x, y, world)
        return np.where(out, NOWHERE, first), np.where(out, NOWHERE, last), front, back

    def member(self, tree, hits, z):
        """Whether z is inside, and the face shown there, or at the end of what is taken away."""
        if isinstance(tree, int):
            first, last, front, back = hits[tree]
            return (first <= z) & (z < last), np.where(z == first, front, np.where(z == last, back, self.nobody))
        sign, left, right = self.signs.get(tree[0], tree[0]), *tree[1:]
        if sign in ("left", "right"):
            return self.member({"left": left, "right": right}[sign], hits, z)
        if sign == "reversed":
            sign, left, right = "-", right, left
        (p, f), (q, g) = self.member(left, hits, z), self.member(right, hits, z)
        inside = {"+": p | q, "*": p & q, "-": p & ~q, "^": p ^ q}[sign]
        f = np.where((p == inside) | (sign == "^"), f, self.nobody)
        g = np.where((q == (inside ^ (sign == "-"))) | (sign == "^"), g, self.nobody)
        return inside, self.least(f, g)


def bodies(change):
    return Renderer(change=lambda w: [setattr(b, "planes", change(b.planes, at)) for at, b in enumerate(w.bodies)])


def planes(change):
    return Renderer(change=lambda w: [setattr(b, "planes", [change(p, w) for p in b.planes]) for b in w.bodies])


def without(keep):
    return bodies(lambda rows, at: rows if keep(at) else [Plane("side", 0, 0, -1, 0)])


def first_of(kind, rows, at):
    return [p for p in rows if p.kind != kind] + [p for p in rows if p.kind == kind][at:][:1]


def sides_of(rows):
    return [p for p in rows if p.kind == "side"]


def maps(depths=lambda d, w: d, faces=lambda f, w: f):
    return Renderer(finish=lambda d, f, w: (depths(d, w), faces(f, w)))


def low_first(v):
    return (v & 255) << 16 | v & 65280 | v >> 16


def left_to_right(world, first=""):
    """Parentheses are skipped, and some signs bind first."""
    def row(tree):
        return [tree] if isinstance(tree, int) else row(tree[1]) + [tree[0]] + row(tree[2])
    terms = row(world.tree)
    for signs in (first, "+-*^"):
        rest, terms = terms, terms[:1]
        for sign, right in zip(rest[1::2], rest[2::2]):
            terms[-1:] = [(sign, terms[-1], right)] if sign in signs else [terms[-1], sign, right]
    world.tree = terms[0]


def boxed(first, last, out, x, y, world):
    """Bounding boxes end a column and a row early."""
    return first, last, out | (not out.all() and (x == x[~out].max()) | (y == y[~out].max()))


def culls(seen):
    return Renderer(span=lambda first, last, out, x, y, w: (first, last, out | (~out & seen(first, x, w)).any()))


def wrapped(number, bits):
    return (number + 2 ** (bits - 1)) % 2 ** bits - 2 ** (bits - 1)


def per_body(faces, world):
    starts = np.array([body.near for body in world.bodies])
    return np.where(faces > 0, faces - starts[np.maximum(np.searchsorted(starts, faces, "right") - 1, 0)] + 1, 0)


def with_sides(faces, world):
    rows = [face for body in world.bodies for face in (body.near, *(plane.face for plane in body.planes))]
    return np.array([0] + [rows.index(face) + 1 for face in range(1, max(rows) + 1)])[faces]


MISTAKES = {
    "what is to be cut is added": Renderer(signs={"-": "+"}),
    "what is to be cut is kept alone": Renderer(signs={"-": "*"}),
    "the sides of - are exchanged": Renderer(signs={"-": "reversed"}),
    "* shows its left side": Renderer(signs={"*": "left"}),
    "^ is *": Renderer(signs={"^": "*"}),
    "+ is ^": Renderer(signs={"+": "^"}),
    "parentheses are skipped": Renderer(change=left_to_right),
    "six solids": without(lambda at: at < 6),
    "solids from 1": without(lambda at: at > 0),
    "six planes a solid": bodies(lambda rows, at: rows[:6]),
    "the last front replaces the others": bodies(lambda rows, at: first_of("front", rows, -1)),
    "one side a solid": bodies(lambda rows, at: first_of("side", rows, 0)),
    "sides are ignored": bodies(lambda rows, at: [p for p in rows if p.kind != "side"]),
    "backs are ignored": bodies(lambda rows, at: [p for p in rows if p.kind != "back"]),
    "cells in front of the eye": Renderer(eye=-2 ** 40),
    "a hit at 0 is none": Renderer(eye=1),
    "the cell far is drawn": Renderer(far=lambda w: w.far + 1),
    "the background is far + 1": Renderer(finish=lambda d, f, w: (np.where(f == 0, w.far + 1, d), f)),
    "the background is 0": Renderer(finish=lambda d, f, w: (np.where(f == 0, 0, d), f)),
    "cells by floor": Renderer(cell=lambda v, unit, kind: v // unit),
    "cells by round half up": Renderer(cell=lambda v, unit, kind: (v + unit // 2) // unit),
    "always the next cell": Renderer(cell=lambda v, unit, kind: v // unit + 1),
    "backs by floor": Renderer(cell=lambda v, unit, kind: v // unit if kind == "back" else -(-v // unit)),
    "fraction bits are ignored": Renderer(cell=lambda v, unit, kind: v),
    "planes are divided before they are used": planes(lambda p, w: p if p.kind == "side" else Plane(
        p.kind, *(each >> w.fraction << w.fraction for each in (p.a, p.b, p.c)), p.face)),
    "sides without 0": Renderer(keeps=lambda v: v > 0),
    "the cell of a back is inside": Renderer(span=lambda a, b, out, x, y, w: (a, np.minimum(b + 1, w.far), out)),
    "the highest face wins": Renderer(least=np.maximum, nobody=-NOWHERE),
    "the last hit is kept": Renderer(pick=lambda inside: inside.shape[0] - 1 - inside[::-1].argmax(0)),
    "middles of pixels": Renderer(sample=lambda x, y, w: (x + .5, y + .5), cell=CEILED),
    "y upward, from height": Renderer(sample=lambda x, y, w: (x, w.height - y)),
    "y upward": Renderer(sample=lambda x, y, w: (x, w.height - 1 - y)),
    "x leftward": Renderer(sample=lambda x, y, w: (w.width - 1 - x, y)),
    "x and y exchanged": Renderer(sample=lambda x, y, w: (y, x)),
    "the last column is at width": Renderer(sample=lambda x, y, w: (x * w.width / (w.width - 1), y), cell=CEILED),
    "columns first": Renderer(finish=lambda d, f, w: (d.T.reshape(d.shape), f.T.reshape(f.shape))),
    "24 bits, lowest byte first": Renderer(finish=lambda d, f, w: (low_first(d), low_first(f))),
    "depths of 16 bits": maps(lambda d, w: d % 65536),
    "half floats": maps(lambda d, w: np.minimum(d, 65504).astype(np.float16).astype(float)),
    "gamma 2.2": maps(lambda d, w: np.rint(255 * (d / w.far) ** (1 / 2.2))),
    "white is near": maps(lambda d, w: w.far - d),
    "0 to 1 by 2^W": maps(lambda d, w: d / (w.far + 1)),
    "the last row is not drawn": Renderer(finish=lambda d, f, w: (
        np.vstack([d[:-1], d[-1:] * 0 + w.far]), np.vstack([f[:-1], f[-1:] * 0]))),
    "faces from 0": maps(faces=lambda f, w: np.maximum(f - 1, 0)),
    "faces from 1 in each solid": maps(faces=per_body),
    "faces of 8 bits": maps(faces=lambda f, w: f % 256),
    "sides have numbers": maps(faces=with_sides),
    "faces are solids": maps(faces=lambda f, w: np.searchsorted([body.near for body in w.bodies], f, "right")),
    "boxes are a pixel short": Renderer(span=boxed),
    "solids at the right edge are culled": culls(lambda first, x, w: x == w.width - 1),
    "solids that begin at the eye are culled": culls(lambda first, x, w: first <= 0),
    "C of 16 bits": planes(lambda p, w: p._replace(c=wrapped(p.c, 16))),
    "C of 32 bits without a sign": planes(lambda p, w: p._replace(c=p.c % 2 ** 32)),
    "values of 32 bits": Renderer(value=lambda p, x, y, w: wrapped(p.a * x + p.b * y + p.c, 32)),
    "the sign of B is lost": planes(lambda p, w: p._replace(b=abs(p.b))),
}

# Planted after the causes of these had been added, all at once, and before any of them was tried.
HELD_OUT = {
    "- is ^": Renderer(signs={"-": "^"}),
    "+ shows its right side": Renderer(signs={"+": "right"}),
    "twelve solids": without(lambda at: at < 12),
    "the last solid is lost": Renderer(change=lambda w: w.bodies[-1].planes.append(Plane("side", 0, 0, -1, 0))),
    "three sides a solid": bodies(lambda rows, at: [p for p in rows if p not in sides_of(rows)[3:]]),
    "the first side is skipped": bodies(lambda rows, at: [p for p in rows if p not in sides_of(rows)[:1]]),
    "fronts by floor": Renderer(cell=lambda v, unit, kind: v // unit if kind == "front" else -(-v // unit)),
    "rows from 1": Renderer(sample=lambda x, y, w: (x, y + 1)),
    "x leftward, from width": Renderer(sample=lambda x, y, w: (w.width - x, y)),
    "C of 24 bits without a sign": planes(lambda p, w: p._replace(c=p.c % 2 ** 24)),
    "gamma the other way": maps(lambda d, w: np.rint(65535 * (d / w.far) ** 2.2)),
    "y upward, and cells by floor": Renderer(
        sample=lambda x, y, w: (x, w.height - 1 - y), cell=lambda v, unit, kind: v // unit),
    "middles of pixels, and faces from 0": Renderer(
        sample=lambda x, y, w: (x + .5, y + .5), cell=CEILED, finish=lambda d, f, w: (d, np.maximum(f - 1, 0))),
    "* binds before the others": Renderer(change=lambda w: left_to_right(w, "*")),
    "boxes are a column short": Renderer(span=lambda first, last, out, x, y, w: (
        first, last, out | (not out.all() and x == x[~out].max()))),
    "solids that reach far are culled": Renderer(span=lambda first, last, out, x, y, w: (
        first, last, out | (~out & (last >= w.far)).any())),
    "the cells 0 and 1 are lost": Renderer(eye=2),
    "a quarter of a pixel": Renderer(sample=lambda x, y, w: (x + .25, y + .25), cell=CEILED),
    "values of 24 bits": Renderer(value=lambda p, x, y, w: wrapped(p.a * x + p.b * y + p.c, 24)),
    "the first row and column are not drawn": Renderer(sample=lambda x, y, w: (x, y), finish=lambda d, f, w: (
        np.pad(d[1:, 1:], ((1, 0), (1, 0)), constant_values=w.far), np.pad(f[1:, 1:], ((1, 0), (1, 0))))),
}

# A word of the cause that each must be named by. The others have none.
CAUSES = {
    "what is to be cut is added": "- is taken for +",
    "what is to be cut is kept alone": "- is taken for *",
    "the sides of - are exchanged": "- is taken for the right side less the left",
    "* shows its left side": "* is taken for its left side",
    "^ is *": "^ is taken for *",
    "+ is ^": "+ is taken for ^",
    "parentheses are skipped": "without parentheses",
    "six solids": "the first 6 solids",
    "solids from 1": "solid 1 is not drawn",
    "the last front replaces the others": "only the last 1 fronts",
    "one side a solid": "the first 1 sides",
    "sides are ignored": "sides are left out",
    "backs are ignored": "backs are left out",
    "a hit at 0 is none": "the cell 0 is not drawn",
    "the cell far is drawn": "the cell far is drawn",
    "the background is far + 1": "the background is far +1",
    "the background is 0": "the background is 0",
    "cells by floor": "values are rounded down",
    "cells by round half up": "values are rounded half up",
    "always the next cell": "surfaces show at the next cell",
    "backs by floor": "values of backs are rounded down",
    "fraction bits are ignored": "fraction bits are taken for cells",
    "planes are divided before they are used": "only 0 fraction bits",
    "sides without 0": "sides are strict",
    "the highest face wins": "the highest face",
    "middles of pixels": "+0.5 columns and +0.5 rows aside",
    "y upward, from height": "the rows are from the bottom up, counted from 1",
    "y upward": "the rows are from the bottom up",
    "x leftward": "the columns are from the right",
    "x and y exchanged": "x and y are exchanged",
    "columns first": "transposed",
    "24 bits, lowest byte first": "the 3 bytes of both maps",
    "depths of 16 bits": "the lowest 16 bits",
    "half floats": "half floats",
    "gamma 2.2": "from 0 to 255 with a gamma of 2.2",
    "white is near": "near and far are exchanged",
    "0 to 1 by 2^W": "1 / 2^W times",
    "the last row is not drawn": "not drawn of the picture: the last row",
    "faces from 0": "faces are counted from 0",
    "faces from 1 in each solid": "from 1 in each solid",
    "faces of 8 bits": "cut to 8 bits",
    "faces are solids": "the numbers of solids",
    "boxes are a pixel short": "of each solid: the last row and the last column",
    "solids at the right edge are culled": "touch the right edge",
    "solids that begin at the eye are culled": "begin at the eye",
    "C of 16 bits": "cut to 16 bits",
    "C of 32 bits without a sign": "32 bits without a sign",
    "values of 32 bits": "values of planes are cut to 32 bits",
    "the sign of B is lost": "B of planes without minus signs",
    # of those held out
    "- is ^": "- is taken for ^",
    "+ shows its right side": "+ is taken for its right side",
    "twelve solids": "the first 12 solids",
    "the last solid is lost": "the last solid is not drawn",
    "three sides a solid": "the first 3 sides",
    "the first side is skipped": "all sides but the first",
    "fronts by floor": "values of fronts are rounded down",
    "rows from 1": "moved by 0 columns and -1 rows",
    "x leftward, from width": "the columns are from the right, counted from 1",
    "C of 24 bits without a sign": "24 bits without a sign",
    "gamma the other way": "from 0 to 65535 with a gamma of 1 / 2.2",
    # causes that were added when both tables had been tried
    "the cell of a back is inside": "solids end a cell later",
    "the last hit is kept": "the farthest surface",
    "the last column is at width": "the last is at the size of the picture",
    "sides have numbers": "sides have face numbers too",
    "y upward, and cells by floor": "the rows are from the bottom up & values are rounded down",
    "middles of pixels, and faces from 0": "samples are +0.5 columns and +0.5 rows aside & faces are counted from 0",
    "* binds before the others": "* first",
    "boxes are a column short": "of each solid: the last column",
    "solids that reach far are culled": "reach the far limit",
    "a quarter of a pixel": "+0.25 columns and +0.25 rows aside",
    "values of 24 bits": "values of planes are cut to 24 bits",
    "the first row and column are not drawn": "the first row and the first column",
}
