"""Mistakes planted in the caster of rays after all causes were written, all at once, and before any of them was tried:
each with a word of the cause that it is named by, or None. Three more had a cause, and are not named: one shows in a single
scene, one counts parts of a cell, and one is two of which neither is usual."""
import numpy as np

from renderer_by_rays import CEILED, Plane, Renderer, bodies, boxed, culls, left_to_right, low_first, maps, planes, sides_of, without, wrapped


def both(change):
    return Renderer(finish=lambda d, f, w: (change(d), change(f)))


def blank(hidden):
    """A renderer that does not draw some pixels: `hidden` gets rows, columns and the world."""
    def finish(d, f, w):
        out = hidden(*np.indices(d.shape), w)
        return np.where(out, w.far, d), np.where(out, 0, f)
    return Renderer(finish=finish)


def kept_lists(world, kinds):
    """Lists of planes that are not emptied between solids."""
    kept = []
    for body in world.bodies:
        kept += [plane for plane in body.planes if plane.kind in kinds]
        body.planes = [plane for plane in body.planes if plane.kind not in kinds] + kept


def by_kind(faces, world, near, front, back):
    table = np.zeros(faces.max() + 4096, int)
    for body in world.bodies:
        table[body.near] = near(body.near)
        for plane in body.planes:
            if plane.face:
                table[plane.face] = (front if plane.kind == "front" else back)(plane.face)
    return table[faces]


def count_of(world):
    return max(face for body in world.bodies for face in (body.near, *(plane.face for plane in body.planes)))


def right_to_left(world):
    def row(tree):
        return [tree] if isinstance(tree, int) else row(tree[1]) + [tree[0]] + row(tree[2])
    terms = row(world.tree)
    tree = terms.pop()
    while terms:
        sign = terms.pop()
        tree = (sign, terms.pop(), tree)
    world.tree = tree


def painted(world):
    """The solids one over the other in the order of the text, whatever the expression is."""
    tree = 0
    for at in range(1, len(world.bodies)):
        tree = ("+", tree, at)
    world.tree = tree


def slopes_of_front(rows, at):
    front = next((plane for plane in rows if plane.kind == "front"), None)
    return [plane._replace(a=front.a) if front and plane.kind == "back" else plane for plane in rows]


def least_of_three(d, w):
    wide = np.pad(d, ((0, 0), (1, 1)), mode="edge")
    return np.minimum(np.minimum(wide[:, :-2], wide[:, 1:-1]), wide[:, 2:])


def tiles_turned(d):
    out = d.copy()
    for top in range(0, d.shape[0] - 7, 8):
        for left in range(0, d.shape[1] - 7, 8):
            out[top:top + 8, left:left + 8] = d[top:top + 8, left:left + 8].T
    return out


LATER = {
    "nine solids": ("first 9 solids", without(lambda at: at < 9)),
    "every second solid is skipped": ("of each 2 solids number 2", without(lambda at: at % 2 == 0)),
    "the second solid is lost": ("solid 2 is not drawn", without(lambda at: at != 1)),
    "ten planes a solid": (None, bodies(lambda rows, at: rows[:10])),
    "two backs a solid": ("only the first 2 backs", bodies(lambda rows, at: [p for p in rows if p not in [q for q in rows if q.kind == "back"][2:]])),
    "the last side is lost": ("all sides but the last", bodies(lambda rows, at: [p for p in rows if p not in sides_of(rows)[-1:]])),
    "the list of sides is not emptied": ("those of all solids before", Renderer(change=lambda w: kept_lists(w, ("side",)))),
    "a quarter of a column": ("+0.25 columns and +0 rows", Renderer(sample=lambda x, y, w: (x + .25, y), cell=CEILED)),
    "a quarter to the left and up": ("-0.25 columns and -0.25 rows", Renderer(sample=lambda x, y, w: (x - .25, y - .25), cell=CEILED)),
    "half a row of fronts and backs": ("+0 columns and +0.5 rows aside for fronts and backs", Renderer(
        value=lambda p, x, y, w: p.a * x + p.b * (y + .5 * (p.kind != "side")) + p.c, cell=CEILED)),
    "rows over height + 1": (None, Renderer(sample=lambda x, y, w: (x, y * w.height / (w.height + 1)), cell=CEILED)),
    "round half down": ("values are rounded half down", Renderer(cell=lambda v, unit, kind: -((unit - 2 * v) // (2 * unit)))),
    "fronts by round half up": ("values of fronts are rounded half up", Renderer(
        cell=lambda v, unit, kind: (2 * v + unit) // (2 * unit) if kind == "front" else -(-v // unit))),
    "the eye at cell 3": (None, Renderer(eye=3)),
    "the far limit is 2 short": ("the last 2 cells", Renderer(far=lambda w: w.far - 2)),
    "values of 20 bits": ("values of planes are cut to 20 bits", Renderer(value=lambda p, x, y, w: wrapped(p.a * x + p.b * y + p.c, 20))),
    "C of 18 bits": ("is cut to 18 bits", planes(lambda p, w: p._replace(c=wrapped(p.c, 18)))),
    "numbers end at 32767": ("ends at the limits of 16 bits", planes(lambda p, w: p._replace(**{
        name: max(-32768, min(32767, getattr(p, name))) for name in "abc"}))),
    "C of 20 bits without a sign": ("20 bits without a sign", planes(lambda p, w: p._replace(c=p.c % 2 ** 20))),
    "the sign of A is lost": ("A of planes without minus signs", planes(lambda p, w: p._replace(a=abs(p.a)))),
    "B of sides is forgotten": ("B of sides left out", planes(lambda p, w: p._replace(b=0) if p.kind == "side" else p)),
    "backs lean the other way": ("A of backs with the other sign", planes(lambda p, w: p._replace(a=-p.a) if p.kind == "back" else p)),
    "slopes are twice too steep": ("A and B of fronts and backs twice", planes(lambda p, w: p if p.kind == "side" else p._replace(a=2 * p.a, b=2 * p.b))),
    "sides have 2 too much": ("C of sides is +2", planes(lambda p, w: p._replace(c=p.c + 2) if p.kind == "side" else p)),
    "signs from the right": ("from right to left", Renderer(change=right_to_left)),
    "+ binds first": ("+ first", Renderer(change=lambda w: left_to_right(w, "+"))),
    "- shows what is cut": ("- is taken for its right side", Renderer(signs={"-": "right"})),
    "* is ^": ("* is taken for ^", Renderer(signs={"*": "^"})),
    "+ is *": ("+ is taken for *", Renderer(signs={"+": "*"})),
    "^ shows its right side": ("^ is taken for its right side", Renderer(signs={"^": "right"})),
    "the highest 8 bits": ("highest 8 bits", maps(lambda d, w: d >> max(0, int(w.far).bit_length() - 8))),
    "steps of 4": ("the lowest 2 bits of depths", maps(lambda d, w: d & ~3)),
    "square roots": ("a power of 0.5", maps(lambda d, w: np.rint(w.far * np.sqrt(d / w.far)))),
    "depths up to 4095": (None, maps(lambda d, w: np.rint(d / w.far * 4095))),
    "the background is 10 to the 10th": ("the background is 1", Renderer(finish=lambda d, f, w: (np.where(f == 0, 1e10, d), f))),
    "white is near, without the background": ("cells counted from far - 1", Renderer(finish=lambda d, f, w: (np.where(f > 0, w.far - 1 - d, d), f))),
    "faces are kinds": ("faces are kinds", maps(faces=lambda f, w: by_kind(f, w, lambda n: 1, lambda n: 2, lambda n: 3))),
    "faces from the last": ("counted from the last", maps(faces=lambda f, w: np.where(f > 0, count_of(w) + 1 - f, 0))),
    "fronts have no face": ("fronts are face 0", maps(faces=lambda f, w: by_kind(f, w, lambda n: n, lambda n: 0, lambda n: n))),
    "faces of 4 bits": ("faces are cut to 4 bits", maps(faces=lambda f, w: f % 16)),
    "two columns at the left are lost": ("the first 2 columns", blank(lambda y, x, w: x < 2)),
    "three rows at the bottom are lost": ("the last 3 rows", blank(lambda y, x, w: y >= w.height - 3)),
    "a frame is lost": ("the last row and the last column and the first row and the first column", blank(
        lambda y, x, w: (x == 0) | (y == 0) | (x == w.width - 1) | (y == w.height - 1))),
    "boxes begin a row late": ("of each solid: the first row", Renderer(span=lambda first, last, out, x, y, w: (
        first, last, out | (not out.all() and y == y[~out].min())))),
    "solids at the left or right edge are culled": ("the left or right edge", culls(lambda first, x, w: (x == 0) | (x == w.width - 1))),
    "mirrored, and faces from 0": ("the columns are from the right & faces are counted from 0", Renderer(
        sample=lambda x, y, w: (w.width - 1 - x, y), finish=lambda d, f, w: (d, np.maximum(f - 1, 0)))),
    "upside down, and middles of pixels": ("from the bottom up & +0.5 columns", Renderer(sample=lambda x, y, w: (x + .5, w.height - 1 - y + .5), cell=CEILED)),
    "cells by floor, and ^ is +": ("values are rounded down & ^ is taken for +", Renderer(signs={"^": "+"}, cell=lambda v, unit, kind: v // unit)),
    "upside down, and white is near": ("from the bottom up & near and far are exchanged", Renderer(finish=lambda d, f, w: (w.far - d[::-1], f[::-1]))),
    "sides without 0, and bytes turned": ("sides are strict & the 3 bytes of both maps", Renderer(
        keeps=lambda value: value > 0, finish=lambda d, f, w: (low_first(d), low_first(f)))),
    "boxes short, and - is +": (None, Renderer(signs={"-": "+"}, span=boxed)),
    "single precision": ("planes are in float32", Renderer(value=lambda p, x, y, w: np.float32(p.a) * x.astype(np.float32) + np.float32(p.b) * y.astype(
        np.float32) + np.float32(p.c), cell=lambda v, unit, kind: np.ceil(v.astype(float) / unit))),
    "even rows a column to the right": (None, Renderer(finish=lambda d, f, w: tuple(
        np.where(np.arange(w.height)[:, None] % 2, each, np.roll(each, 1, 1)) for each in (d, f)))),
    "a dead column": (None, blank(lambda y, x, w: x == 5)),
    "the least of three columns": (None, maps(least_of_three)),
    "painted in the order of the text": (None, Renderer(change=painted)),
    "a perspective": (None, maps(lambda d, w: d * w.far // (d + w.far))),
    "backs with the slope of their front": (None, bodies(slopes_of_front)),
    "tiles of 8 are turned": (None, both(tiles_turned)),
    "columns from 32 on are lost": (None, blank(lambda y, x, w: x >= 32)),
    "sides of a count below 4 are lost": (None, bodies(lambda rows, at: [p for p in rows if p.kind != "side" or len(sides_of(rows)) >= 4])),
    "a nearest cell that is odd is one farther": (None, maps(lambda d, w: np.where(d < w.far - 1, d + d % 2, d))),
    "the last solid is drawn twice as deep": (None, Renderer(finish=lambda d, f, w: (np.where(f >= w.bodies[-1].near, np.minimum(2 * d, w.far - 1), d), f))),
    "a slab of ten cells is lost": (None, Renderer(finish=lambda d, f, w: (np.where((d > 40) & (d < 50), w.far, d), np.where((d > 40) & (d < 50), 0, f)))),
}

# A plane that a renderer takes for one of another kind.
LATER["sides are fronts"] = None, planes(lambda p, w: Plane("front", p.a, p.b, p.c, 0) if p.kind == "side" else p)
