"""The mistakes that people make, as hypotheses. Each predicts whole maps, and is judged by the pixels that differ and
that it explains, and by the right ones that it contradicts. It is named only by the thresholds below; otherwise `facts`
says what can be said.

Why these thresholds (docs/COMPARE.md, "Causes", has the measurements):
- Contradictions are counted against what differs: counted against all that is right, "only 11 solids" is named "only the
  first 10".
- The right cause of a planted mistake had no error at all, the nearest wrong one 1 %: so 0.5 %.
- Few scenes show the same by many causes: what counts is how much theirs shows there, as different pairs of a depth and
  a face.
- Causes of one kind may be as good as one another ("the first 7 solids", "8"); they are named together, the best first."""
from __future__ import annotations

import itertools
import re
from dataclasses import dataclass, field, fields, replace
from typing import Any, Callable, Iterable, Iterator, Optional, Sequence

import numpy as np

from pxplanes.compare.picture import (
    BEFORE, KINDS, RIGHT, Asked, Bools, Node, Picture, Plane, Reading, Reals, Row, Scene, Solid, Whole, picture)
from pxplanes.compare.verdict import FACES, Sample
from pxplanes.scene.rays import folded

PIXELS, SCENES = 20, 3     # so many pixels must differ, in so many scenes, to name a cause;
ALONE, PAIRS = 200, 16     # in fewer scenes so many, without an error, in which theirs has so many pairs of a depth and a
                           # face, to call it possible
ERRORS = 0.005             # the most errors: what is not explained and what is contradicted, as a share of what differs
EXPLAINED = 0.9            # the least share of what differs that is explained; of the rest nothing is predicted
MARGIN = 10                # every cause of another kind has so many times the errors, and PIXELS of them at least
ASIDE = MARGIN * ERRORS    # a cause with more errors than this share is followed no further
UNIT = 0.999               # less than a whole number
NAMED = 4                  # so many of causes that are as good are listed
PRODUCTS = 200             # so many products of an expression are looked at
FEW, SOME = 8, 30          # in so many scenes, of so many pixels that differ in each, all causes are tried first, and
ROUGH = 0.25               # those left out that have more errors than this share
FIRST, OF_A_KIND = 8, 2    # so many causes, the best alone, may be one of two, and so many of a kind
MADE = ("change", "how", "place", "write")
NUMBERS, POWERS = (1, 2, 3, 4, 5, 6, 8, 10, 16), (1, 2, 4, 8, 16, 32)
FIRST_SOLIDS = "only the first %d solids are drawn"
FACE_KINDS = ("near faces", "fronts", "backs")
AROUND = ((1, 0), (-1, 0), (0, 1), (0, -1), (1, 1), (-1, -1), (1, -1), (-1, 1))

Change = Callable[[Scene], Scene]
Place = Callable[[Whole, Whole, Scene], tuple[Whole, Whole]]
Write = Callable[[Picture, Scene], Picture]
Rows = Callable[[list[Row]], list[Row]]
Term = Callable[[int, int], Any]      # a term of a plane changed, and the fraction bits


@dataclass(frozen=True)
class Cause:
    """What is read of a scene, from where a pixel gets its numbers, and what is written. Depths may be off by `slack`;
    so may whole numbers, by `rounding`, since one may be rounded in any way."""

    said: str
    kind: str
    change: Optional[Change] = None
    how: Reading = RIGHT
    place: Optional[Place] = None
    write: Optional[Write] = None
    slack: float = 0.0
    rounding: float = 0.0
    paint: Optional[Callable[[Whole], Whole]] = None     # what is shown in place of a face's colour
    real: Optional[bool] = None      # depths as real numbers, or as cells, whatever the maps have

    @property
    def shows(self) -> tuple[Any, ...]:
        """What decides what is drawn of a scene: two mistakes in one way are drawn once."""
        return self.change, self.how, self.place, self.real

    def and_also(self, other: Cause) -> Optional[Cause]:
        """Both mistakes at once; None if they are of one kind, or about one thing."""
        def both(one: Any, after: Any, join: Callable[[Any, Any], Any]) -> Any:
            return join(one, after) if one and after else one or after
        if self.kind == other.kind or self.real is not None and other.real is not None:
            return None
        return Cause(
            "%s, and %s" % (self.said, other.said), "%s, and %s" % (self.kind, other.kind),
            both(self.change, other.change, lambda one, after: lambda s: after(one(s))),
            with_both(self.how, other.how),
            both(self.place, other.place, lambda one, after: lambda x, y, s: one(*after(x, y, s), s)),
            both(self.write, other.write, lambda one, after: lambda shown, s: after(one(shown, s), s)),
            self.slack + other.slack, self.rounding + other.rounding,
            both(self.paint, other.paint, lambda one, after: lambda rgb: after(one(rgb))),
            other.real if self.real is None else self.real)

    def asked(self, sample: Sample) -> Asked:
        """What is drawn of a scene for it."""
        scene, x, y = self.change(sample.scene) if self.change else sample.scene, sample.x, sample.y
        if self.place:
            x, y = self.place(x, y, scene)
        real = not sample.whole if self.real is None else self.real
        return Asked(scene, self.how if self.how.real == real else replace(self.how, real=real), x, y)

    def fits(self, sample: Sample, asked: Asked, shown: Picture) -> tuple[Bools, Bools]:
        """Where theirs is as predicted, and where anything is predicted."""
        scene, x, y = asked.scene, asked.x, asked.y
        known = (x >= 0) & (x < scene.width) & (y >= 0) & (y < scene.height) if self.place else np.ones(x.shape, bool)
        if self.paint and sample.labels is not None:
            sample = replace(sample, labels=self.paint(sample.labels))
        depths, faces, off = self.predicted(sample, scene, shown, x, y)
        fits = sample.fits(depths, faces, off)
        if self.rounding and sample.whole:
            # A prediction that is as near to ours as rounding may take it is no evidence.
            known &= (np.abs(depths - sample.ours.depths) > 2 * off) | ~fits & ~sample.right
        return fits, known

    def predicted(self, sample: Sample, scene: Scene, shown: Picture, x: Whole, y: Whole) -> tuple[Reals, Whole, Reals]:
        """The depths and faces that would be written, and how far the depths may be off."""
        off = sample.epsilon(scene, shown.faces, x, y)
        slack = self.slack + self.rounding * sample.whole
        if not self.write:
            return shown.depths, shown.faces, off + slack
        written = self.write(shown, sample.scene)
        if off.any():
            off = np.maximum(*(np.abs(self.write(Picture(depths, shown.faces), sample.scene).depths - written.depths)
                               for depths in (shown.depths - off, shown.depths + off)))
        return written.depths, written.faces, off + slack


def with_both(one: Reading, other: Reading) -> Reading:
    """A reading with the mistakes of both; where both have one, that of the other."""
    return replace(one, **{each.name: getattr(other, each.name) for each in fields(Reading)
                           if getattr(other, each.name) != getattr(RIGHT, each.name)})


@dataclass(frozen=True)
class Found:
    """The causes that were found, best first, or none: what they were tested with, and how much the best explains. In
    fewer than SCENES scenes another mistake may show the same, so that a cause is no more than possible."""

    causes: list[str]
    differ: int
    scenes: int
    explained: int
    errors: int
    equals: list[str] = field(default_factory=list)

    def said(self) -> list[str]:
        """The cause with its evidence; or that none was found, and which ones the maps cannot separate."""
        if self.equals:
            return ["no cause found: these explain all %d pixels equally well: %s" % (self.differ, "; ".join(self.equals))]
        if not self.causes:
            return ["no cause found"]
        names = together(self.causes)
        names = names[:NAMED] + ["%d more of this kind" % (len(names) - NAMED)] * (len(names) > NAMED)
        return ["%s: %s; it explains %d of %d pixels that differ in %d scene%s, with %d error%s" % (
            "cause" if self.is_sure else "possible cause", " or ".join(names), self.explained, self.differ, self.scenes,
            "s"[self.scenes == 1:], self.errors, "s"[self.errors == 1:])]

    @property
    def is_sure(self) -> bool:
        return bool(self.causes) and self.scenes >= SCENES


def together(names: Sequence[str]) -> list[str]:
    """Names of causes, in one those that differ in a number alone."""
    groups: dict[tuple[str, ...], list[int]] = {}
    for name in names:
        parts = re.split(r"(\d+)", name)
        own = next(((*parts[:at], "#", *parts[at + 1:]) for at in range(1, len(parts), 2) if (*parts[:at], "#", *parts[at + 1:]) in groups),
                   (*parts[:-2], "#", *parts[-1:]) if len(parts) > 1 else (name,))
        groups.setdefault(own, []).append(int(parts[own.index("#")]) if "#" in own else 0)
    return ["".join(group).replace("#", " or ".join(map(str, sorted(numbers)))) for group, numbers in groups.items()]


@dataclass
class Judged:
    """The errors of a cause, what it does not explain and what it contradicts; and the pixels that it explains."""

    cause: Cause
    errors: float = 0.0
    explained: int = 0


def judged(causes: Sequence[Cause], samples: Sequence[Sample], most: float = np.inf) -> list[Judged]:
    """The causes that have at most so many errors. A cause with more is tried no further."""
    found = [Judged(cause) for cause in causes]
    for sample in samples:
        asked = {shows: cause.asked(sample) for shows, cause in {each.cause.shows: each.cause for each in found}.items()}
        drawn = dict(zip(asked, sample.shown(list(asked.values()))))
        for each in found:
            fits, known = each.cause.fits(sample, asked[each.cause.shows], drawn[each.cause.shows])
            each.explained += int((known & fits & sample.differs).sum())
            each.errors += int((known & ~fits & sample.differs).sum()) + sample.weight * int((known & ~fits & sample.right).sum())
        found = [each for each in found if each.errors <= most]
    return found


def find(samples: Sequence[Sample]) -> Found:
    """The cause of all that differs, where there is one that the thresholds let be named."""
    total = sum(int(each.differs.sum()) for each in samples)
    where = sum(bool(each.differs.any()) for each in samples)
    if total == 0:
        return Found([], 0, 0, 0, 0)
    # Those scenes come first that show most in least time.
    order = sorted(samples, key=lambda each: float(len(each.scene.solids) * each.x.size / (1 + each.differs.sum())))
    few = sorted([each.some(SOME) for each in order if each.differs.any()][:FEW], key=lambda each: len(each.scene.solids))
    found = chosen([*usual(), *rare(), *fitted(samples)], few, samples, order)
    if found.causes or found.equals or where < SCENES or total < PIXELS:
        return found
    pairs = chosen(two_at_once([*usual(), *fitted(samples)], few), few, samples, order)
    return pairs if pairs.causes else found


def chosen(causes: Sequence[Cause], few: Sequence[Sample], samples: Sequence[Sample], order: Sequence[Sample]) -> Found:
    """What of some causes is named. Some pixels of a few scenes leave most causes out."""
    total, where = (sum(numbers) for numbers in zip(*((int(each.differs.sum()), bool(each.differs.any())) for each in samples)))
    most = ROUGH * sum(int(each.differs.sum()) for each in few)
    rows = [each for cause in judged(causes, few, most) for each in judged([cause.cause], order, ASIDE * total)]
    rows = sorted((row for row in rows if row.explained >= EXPLAINED * total), key=lambda row: row.errors)
    if not rows:
        return Found([], total, where, 0, 0)
    best, errors = rows[0].cause, rows[0].errors
    close = min(max(MARGIN * errors, PIXELS), ASIDE * total)
    alike = [row.cause for row in rows if row.errors < close] or [best]
    enough = total >= PIXELS and where >= SCENES or total >= ALONE and errors == 0 and pairs(samples) >= PAIRS
    is_named = enough and errors <= ERRORS * total and all(cause.kind == best.kind for cause in alike)
    equals = {row.cause.kind: row.cause.said for row in rows[::-1] if row.errors == 0} if enough and not is_named else {}
    names = [cause.said for cause in alike] if is_named else []
    return Found(names, total, where, rows[0].explained, int(errors), list(equals.values())[::-1][:NAMED])


def two_at_once(causes: Sequence[Cause], few: Sequence[Sample]) -> list[Cause]:
    """The pairs of causes one of which alone explains most in a few scenes."""
    first: list[Cause] = []
    for cause in (row.cause for row in sorted(judged(causes, few), key=lambda row: row.errors)):
        if len(first) < FIRST and sum(cause.kind == each.kind for each in first) < OF_A_KIND:
            first.append(cause)
    made = (one.and_also(other) for at, one in enumerate(first) for other in causes if other not in first[:at])
    return [each for each in made if each]


def pairs(samples: Sequence[Sample]) -> int:
    """How many different pairs of a depth and a face theirs has where it differs."""
    found: set[tuple[float, int]] = set()
    for each in samples:
        at = each.differs
        depths = each.ours.depths if each.depths is None else each.depths
        found |= set(zip(depths[at].tolist(), (each.ours.faces if each.faces is None else each.faces)[at].tolist()))
    return len(found)


# ---- what is read of a scene otherwise

def alone(at: int) -> list[Node]:
    return [at]


def sign_as(sign: str, other: str) -> Change:
    """A sign taken for another one, or for one of its sides."""
    def join(found: str, left: list[Node], right: list[Node]) -> list[Node]:
        if found != sign:
            return left + right + [found]
        return {"left": left, "right": right, "turned": right + left + [sign]}.get(other, left + right + [other])
    return lambda scene: replace(scene, show=folded(scene.show, alone, join)) if sign in scene.show else scene


Product = tuple[frozenset[int], frozenset[int]]
Products = list[Product]
Both = tuple[Products, Products]      # those of an expression, and of all that is outside of it


def products(show: list[Node]) -> Products:
    """The sum of products of an expression: which solids are in, and which are out, of each; without those that
    contradict themselves."""
    def each(p: Products, q: Products) -> Products:
        found = [(a | c, b | d) for a, b in p[:PRODUCTS] for c, d in q[:PRODUCTS]]
        return list(dict.fromkeys(product for product in found if not product[0] & product[1]))[:PRODUCTS]

    def leaf(at: int) -> Both:
        return [(frozenset([at]), frozenset())], [(frozenset(), frozenset([at]))]

    def join(sign: str, left: Both, right: Both) -> Both:
        (l, not_l), (r, not_r) = left, right
        if sign == "+":
            return l + r, each(not_l, not_r)
        if sign == "*":
            return each(l, r), not_l + not_r
        if sign == "-":
            return each(l, not_r), not_l + r
        return each(l, not_r) + each(not_l, r), each(l, r) + each(not_l, not_r)

    return folded(show, leaf, join)[0]


def on_products(change: Callable[[Products], Products]) -> Change:
    """The sum of products changed; not if nothing is left of it."""
    def of_scene(scene: Scene) -> Scene:
        found = products(scene.show)
        new = change(found)
        out: list[Node] = []
        for at, (plain, barred) in enumerate(new):
            own = sorted(plain)
            out += own[:1]
            for sign, numbers in (("*", own[1:]), ("-", sorted(barred))):
                for number in numbers:
                    out += [number, sign]
            out += ["+"] if at else []
        return scene if new == found or not new else replace(scene, show=out)
    return of_scene


def unnested(first: str = "", backwards: bool = False) -> Change:
    """All signs from left to right, or from right to left, without parentheses; some bind first."""
    join: Callable[[str, list[Node], list[Node]], list[Node]] = lambda sign, left, right: left + [sign] + right

    def change(scene: Scene) -> Scene:
        row = folded(scene.show, alone, join)
        if backwards:
            return replace(scene, show=row[::2] + row[1::2][::-1])
        out, held = row[:1], row[:0]
        for sign, at in zip(row[1::2], row[2::2]):
            out, held = (out + [at, sign], held) if sign in list(first) else (out + held + [at], [sign])
        return replace(scene, show=out + held)
    return change


def with_sides(scene: Scene, sides: Sequence[list[Plane]]) -> Scene:
    """The scene with more sides of each solid."""
    return replace(scene, solids=[replace(solid, sides=solid.sides + [(plane, 0) for plane in own])
                                  for solid, own in zip(scene.solids, sides)]) if any(sides) else scene


def hidden(out: Callable[[int, int], Any]) -> Change:
    """Solids left out by their place, from 0, and the count of them all."""
    return lambda scene: with_sides(scene, [[(0, 0, -1)] * bool(out(at, len(scene.solids))) for at in range(len(scene.solids))])


def planes_at(part: Rows, kinds: Sequence[str] = KINDS) -> Change:
    """Some of the planes of each kind of a solid."""
    def change(scene: Scene) -> Scene:
        new = [solid.with_rows(lambda rows, kind: part(rows) if kind in kinds else rows) for solid in scene.solids]
        return scene if new == scene.solids else replace(scene, solids=new)
    return change


def planes_of_others(others: Callable[[list[Solid], int], list[Solid]], kinds: Sequence[str]) -> Change:
    """The planes of other solids in the place of a solid's own."""
    return lambda scene: replace(scene, solids=[
        solid.with_rows(lambda rows, kind: [row for each in others(scene.solids, at) for row in each.rows(kind)] if kind in kinds else rows)
        for at, solid in enumerate(scene.solids)])


def short_boxes(edges: str) -> Change:
    """Some of the outermost rows and columns of each solid are left out."""
    own = edges.split(" and the ")

    def change(scene: Scene) -> Scene:
        (left, top, _), (right, low, _) = (each.tolist() for each in scene.extents)
        return with_sides(scene, [[plane for edge, plane in {
            "last column": (-1, 0, right[at] - 1), "last row": (0, -1, low[at] - 1),
            "first column": (1, 0, -1 - left[at]), "first row": (0, 1, -1 - top[at])}.items() if edge in own]
            if left[at] <= right[at] else [] for at in range(len(scene.solids))])
    return change


def culled(edges: str) -> Change:
    """Solids left out whole that touch an edge of the picture, the eye or the far limit, by the pixels there."""
    def change(scene: Scene) -> Scene:
        (left, top, first), (right, low, end) = scene.extents
        touch = {"left": left == 0, "right": right == scene.width - 1, "top": top == 0, "bottom": low == scene.height - 1,
                 "eye": first <= 0, "far": end >= scene.far}
        return hidden(lambda at, _: any(touch[each][at] for each in edges.split(" or ")))(scene)
    return change


def on_planes(change: Term, terms: str = "abc", kinds: Sequence[str] = ("front", "back")) -> Change:
    """Terms of planes changed; `change` gets the term and the fraction bits."""
    def of_scene(scene: Scene) -> Scene:
        def of_plane(plane: Plane, kind: str) -> Plane:
            a, b, c = (change(v, scene.fraction) if n in terms and kind in kinds else v for n, v in zip("abc", plane))
            return a, b, c
        new = scene.planes(of_plane)
        return scene if new == scene else new
    return of_scene


def exchanged(*kinds: str) -> Change:
    return lambda scene: scene.planes(lambda plane, own: (plane[1], plane[0], plane[2]) if own in kinds else plane)


def dropped(keep: int) -> Term:
    return lambda v, fraction: v >> max(fraction - keep, 0) << max(fraction - keep, 0)


def rounded(keep: int) -> Term:
    return lambda v, fraction: v if fraction <= keep else (v + (1 << fraction - keep - 1)) >> fraction - keep << fraction - keep


def wider(more: float) -> Change:
    """Sides so many pixels farther outside, along the greater of A and B."""
    return lambda scene: scene.planes(lambda plane, kind: plane if kind != "side" else (
        2 * plane[0], 2 * plane[1], 2 * plane[2] + int(2 * more) * max(abs(plane[0]), abs(plane[1]))))


# ---- where a pixel's numbers come from

def moved(dx: int, dy: int) -> Place:
    """The map moved; what comes in at the edge is predicted by nothing."""
    return lambda x, y, scene: (x - dx, y - dy)


# ---- what is written

def swapped(size: int, numbers: Whole) -> Whole:
    out: Whole = numbers >> 8 * size << 8 * size
    for at in range(size):
        out = out + ((numbers >> 8 * at & 255) << 8 * (size - 1 - at))
    return out


def depths(value: Callable[[Reals, Scene], Any], background: bool = True) -> Write:
    """Depths written otherwise, the background among them or not."""
    def write(shown: Picture, scene: Scene) -> Picture:
        new = value(shown.depths, scene)
        return Picture(new if background else np.where(shown.faces == 0, scene.far, new), shown.faces)
    return write


def by(function: Callable[[Reals], Any]) -> Write:
    return depths(lambda v, scene: function(v))


def behind(value: Callable[[Scene], float]) -> Write:
    """Another number for the background."""
    return lambda shown, scene: Picture(np.where(shown.faces == 0, value(scene), shown.depths), shown.faces)


def unseen(out: Callable[[Reals, Scene], Bools]) -> Write:
    """Some depths taken for the background."""
    return lambda shown, scene: Picture(np.where(out(shown.depths, scene), scene.far, shown.depths),
                                        np.where(out(shown.depths, scene), 0, shown.faces))


def lowest_first(size: int, faces: bool) -> Write:
    """The bytes of depths, or of both maps, in the other order."""
    return lambda shown, scene: Picture(swapped(size, shown.depths.astype(np.int64)).astype(np.float64),
                                        swapped(size, shown.faces) if faces else shown.faces)


def rows_of(scene: Scene) -> list[tuple[int, int, int]]:
    """Solid, kind and number of each face."""
    return [(at, kind, number) for at, solid in enumerate(scene.solids, 1) for kind, numbers in enumerate(
        ([solid.near], [n for _, n in solid.fronts], [n for _, n in solid.backs])) for number in numbers]


def looked_up(new: dict[int, int], faces: Whole) -> Whole:
    """New numbers of faces, 0 for those that have none."""
    table = np.zeros(FACES, np.int64)
    table[list(new)] = list(new.values())
    return np.where(faces < FACES, table[np.clip(faces, 0, FACES - 1)], 0)


def renumbered(order: Callable[[list[tuple[int, int, int]]], Any]) -> Write:
    return lambda shown, scene: Picture(shown.depths, looked_up(order(rows_of(scene)), shown.faces))


def with_sides_counted(shown: Picture, scene: Scene) -> Picture:
    """Faces numbered as if sides had numbers too, in the order of the text."""
    new: dict[int, int] = {}
    before = 0
    for solid in scene.solids:
        own = [0] + [at for at, kind in enumerate(solid.order, 1) if kind != "side"]
        new.update((solid.near + which, solid.near + before + at) for which, at in enumerate(own))
        before += len(solid.sides)
    return Picture(shown.depths, looked_up(new, shown.faces))


def from_0_to(top: float, gamma: float, more: int = 0) -> Write:
    return depths(lambda v, scene: v if (scene.far, gamma, more) == (top, 1, 0) else
                  top * np.clip(v / (scene.far + more), 0, 1) ** gamma)


# ---- the causes

def family(said: str, kind: str, values: Iterable[Any], **made: Any) -> Iterator[Cause]:
    """A cause for each value, or tuple of values, which is in its name; what else it has is the same or a function of these."""
    for value in values:
        own = value if isinstance(value, tuple) else (value,)
        yield Cause(said % own[:said.count("%")], kind, **{name: make(*own) if name in MADE else make for name, make in made.items()})


def tables(kind: str, what: str, rows: dict[str, Any], **more: Any) -> Iterator[Cause]:
    """A cause for each name, by what it does."""
    return (Cause(said, kind or said, **{what: how}, **more) for said, how in rows.items())


def usual() -> Iterator[Cause]:
    """The causes that have no number to be found, two of which may come together."""
    yield from tables("place", "place", {
        "the rows are from the bottom up": lambda x, y, s: (x, s.height - 1 - y),
        "the columns are from the right": lambda x, y, s: (s.width - 1 - x, y),
        "rows and columns are turned about": lambda x, y, s: (s.width - 1 - x, s.height - 1 - y),
        "the rows are from the bottom up, counted from 1": lambda x, y, s: (x, s.height - y),
        "the columns are from the right, counted from 1": lambda x, y, s: (s.width - x, y),
        "the data is transposed under a right header": lambda x, y, s: divmod(y * s.width + x, s.height)})
    yield from family("the map is moved by %d columns and %d rows", "place", AROUND, place=moved)
    yield from aside((1, 2))
    yield from roundings()
    yield from tables("", "how", {
        "sides are strict": Reading(strict_sides=True), "fronts are strict": Reading(fronts="next"),
        "backs belong to their solid": Reading(ends="next"), "solids end a cell later": Reading(thick=1),
        "nothing is cut off at the eye": Reading(near=BEFORE), "backs of cuts are left out": Reading(backs=False),
        "the cell far - 1 is not drawn": Reading(far=-1), "the cell far is drawn": Reading(far=1),
        "the highest face shows in a tie": Reading(highest=True), "the farthest surface shows": Reading(farthest=True)})
    yield from tables("float32", "how", {"planes are in float32, (Ax + By) + C": Reading(single="abc"),
                                         "planes are in float32, (C + Ax) + By": Reading(single="cab")})
    yield Cause("the cell 0 is not drawn", "near", how=Reading(near=1))
    yield from signs()
    for kind in KINDS:
        yield Cause("%ss are left out" % kind, "no " + kind, planes_at(lambda rows: [], (kind,)))
        yield Cause("A and B of %ss are exchanged" % kind, "turned " + kind, exchanged(kind))
    yield Cause("x and y are exchanged", "turned", exchanged(*KINDS))
    yield from family(FIRST_SOLIDS, "solids", POWERS, change=lambda most: hidden(lambda at, count: at >= most))
    yield from numbers_written()
    yield from painted()


def aside(*parts: tuple[int, int], kinds: tuple[str, ...] = KINDS) -> Iterator[Cause]:
    which = "" if kinds == KINDS else " for %ss alone" % "s and ".join(kinds)
    for part, of in parts:
        for dx, dy in AROUND:
            yield Cause("samples are %+.3g columns and %+.3g rows aside%s" % (dx * part / of, dy * part / of, which), "sample",
                        how=Reading(dx * part, dy * part, of, kinds=kinds))


def roundings() -> Iterator[Cause]:
    ways = ("down", "half up", "half down", "half even")
    said = " are rounded %s to cells before they are compared"
    yield from family("values" + said, "round", ways, how=lambda way: Reading(fronts=way, ends=way), real=False)
    yield from family("values of fronts" + said, "round", ways, how=lambda way: Reading(fronts=way), real=False)
    yield from family("values of backs" + said, "round", ways, how=lambda way: Reading(ends=way), real=False)
    yield Cause("surfaces show at the next cell", "off", how=Reading(fronts="next", ends="next"), real=False)
    yield from tables("round", "write", {
        "depths are rounded down at the end": by(np.floor), "depths are rounded to the nearest, halves to even at the end": by(np.rint),
        "depths are rounded to the nearest, halves up at the end": by(lambda v: (v + 0.5) // 1),
        "there are no cells: what passes between two depths is drawn": by(np.ceil)}, real=True)


def signs() -> Iterator[Cause]:
    sides = {"left": "its left side alone", "right": "its right side alone", "turned": "the right side less the left"}
    for sign in "+-*^":
        for other in [*"+-*^".replace(sign, ""), "left", "right"] + ["turned"] * (sign == "-"):
            yield Cause("%s is taken for %s" % (sign, sides.get(other, other)), "sign " + sign, sign_as(sign, other))
    yield Cause("signs are taken from left to right, without parentheses", "nesting", unnested())
    yield Cause("signs are taken from right to left, without parentheses", "nesting", unnested(backwards=True))
    yield from family("signs are taken without parentheses, %s first", "nesting", ("*", "-", "*-", "+", "^"), change=unnested)
    yield from tables("product", "change", {
        "the first product is left out": on_products(lambda found: found[1:]),
        "the second product is left out": on_products(lambda found: found[:1] + found[2:]),
        "the last product is left out": on_products(lambda found: found[:-1]),
        "only the first product is drawn": on_products(lambda found: found[:1]),
        "only the last product is drawn": on_products(lambda found: found[-1:]),
        "of each product only one solid is cut, the first": on_products(lambda found: [(own, frozenset(sorted(out)[:1])) for own, out in found]),
        "of each product only one solid is cut, the last": on_products(lambda found: [(own, frozenset(sorted(out)[-1:])) for own, out in found])})


def rare() -> Iterator[Cause]:
    """Causes that come alone."""
    yield from places()
    yield from frames()
    yield from counted()
    yield from planes_counted()
    yield from terms()
    yield from family("the first %d cells are not drawn", "near", NUMBERS[1:], how=lambda most: Reading(near=most))
    yield from family("the last %d cells are not drawn", "far", NUMBERS[1:], how=lambda most: Reading(far=-most))
    yield from family("values of planes are cut to %d bits", "bits of values", range(8, 48), how=lambda bits: Reading(bits=bits))
    yield from family("the lowest %d bits of depths are 0", "steps", range(1, 13), write=lambda bits: by(lambda v: v // 2 ** bits * 2 ** bits))
    yield from family("the lowest %d bits of depths of faces are 0", "steps", range(1, 13),
                      write=lambda bits: depths(lambda v, s: v // 2 ** bits * 2 ** bits, False))
    yield from family("faces are cut to %d bits", "faces", range(1, 13),
                      write=lambda bits: renumbered(lambda rows: {n: n % 2 ** bits for _, _, n in rows}))


def places() -> Iterator[Cause]:
    yield from aside((1, 4), (1, 3), (3, 10), (1, 8), (1, 10), (1, 5), (2, 5), (3, 4), (1, 16))
    for kinds in (KINDS[:2], *((kind,) for kind in KINDS)):
        yield from aside((1, 2), (1, 1), kinds=kinds)
    axes = [("columns", 1, 0), ("rows", 0, 1), ("columns and rows", 1, 1)]
    yield from family("samples of %s are apart so that the last is at the size of the picture", "stretch", axes,
                      how=lambda _, x, y: Reading(stretch=(-1, x, y)))
    yield from family("samples of %s are apart so that all are one less", "stretch", axes,
                      how=lambda _, x, y: Reading(stretch=(0, -x, -y)))
    yield from tables("place", "place", {
        "every second row repeats the one before": lambda x, y, s: (x, y - y % 2),
        "every second column repeats the one before": lambda x, y, s: (x - x % 2, y),
        "every second row and column repeats the one before": lambda x, y, s: (x - x % 2, y - y % 2),
        "odd rows are moved by 1 column to the left": lambda x, y, s: (x + y % 2, y),
        "odd rows are moved by 1 column to the right": lambda x, y, s: (x - y % 2, y),
        "the left and the right half are exchanged": lambda x, y, s: ((x + s.width // 2) % s.width, y),
        "the upper and the lower half are exchanged": lambda x, y, s: (x, (y + s.height // 2) % s.height),
        "the quarters are exchanged across": lambda x, y, s: ((x + s.width // 2) % s.width, (y + s.height // 2) % s.height),
        "each two rows are exchanged": lambda x, y, s: (x, y ^ 1), "each two columns are exchanged": lambda x, y, s: (x ^ 1, y)})
    yield from family("the map is moved by %d columns and %d rows", "place", ((n * dx, n * dy) for dx, dy in AROUND for n in (2, 3, 4)), place=moved)


EDGES: dict[str, Callable[[Scene, int], Plane]] = {
    "last row": lambda s, n: (0, -1, s.height - 1 - n), "last column": lambda s, n: (-1, 0, s.width - 1 - n),
    "first row": lambda s, n: (0, 1, -n), "first column": lambda s, n: (1, 0, -n)}


def frames() -> Iterator[Cause]:
    for names in (*((each,) for each in EDGES), *itertools.combinations(EDGES, 2), tuple(EDGES)):
        for most in NUMBERS:
            yield Cause("not drawn of the picture: %s" % " and ".join(
                "the " + (each if most == 1 else each.replace(" ", " %d " % most) + "s") for each in names), "frame", framed(names, most))
        yield Cause("left out of each solid: the %s" % " and the ".join(names), "box", short_boxes(" and the ".join(names)))


def framed(names: Sequence[str], most: int) -> Change:
    return lambda scene: with_sides(scene, [[EDGES[each](scene, most) for each in names]] * len(scene.solids))


def counted() -> Iterator[Cause]:
    yield from family(FIRST_SOLIDS, "solids", (n for n in range(3, 129) if n not in POWERS), change=lambda most: hidden(lambda at, count: at >= most))
    yield from family("only the last %d solids are drawn", "solids", range(1, 12), change=lambda most: hidden(lambda at, count: at < count - most))
    yield from family("solid %d is not drawn", "solid", range(1, 12), change=lambda own: hidden(lambda at, count: at == own - 1))
    yield from family("of each %d solids number %d is not drawn", "solids", ((n, k + 1) for n in (2, 3, 4) for k in range(n)),
                      change=lambda n, own: hidden(lambda at, count: at % n == own - 1))
    yield from tables("solid", "change", {
        "the last solid is not drawn": hidden(lambda at, count: at == count - 1),
        "the last solid is not drawn, unless it is the only one": hidden(lambda at, count: 0 < at == count - 1)})
    yield from family("solids that touch the %s edge of the picture are left out", "cull", (
        "left", "right", "top", "bottom", "left or right", "top or bottom", "left or right or top or bottom"), change=culled)
    yield Cause("solids that begin at the eye are left out", "cull", culled("eye"))
    yield Cause("solids that reach the far limit are left out", "cull", culled("far"))


def planes_counted() -> Iterator[Cause]:
    parts: dict[str, Rows] = {
        "all %s but the last": lambda rows: rows[:-1], "all %s but the first": lambda rows: rows[1:],
        "all %s but the second": lambda rows: rows[:1] + rows[2:], "every second one of %s": lambda rows: rows[::2],
        "all %s but the last, where there are more,": lambda rows: rows[:-1] or rows,
        "all %s but the first, where there are more,": lambda rows: rows[1:] or rows}
    others: dict[str, Callable[[list[Solid], int], list[Solid]]] = {
        "those of the first solid": lambda solids, at: solids[:1], "those of the last solid": lambda solids, at: solids[-1:],
        "those of the solid before": lambda solids, at: solids[max(at - 1, 0):][:1],
        "those of all solids before, too": lambda solids, at: solids[:at + 1],
        "those of the solid before, too": lambda solids, at: solids[max(at - 1, 0):at + 1]}
    for kinds, word in ((KINDS, "planes of a kind"), (KINDS[:2], "fronts and backs"), *(((kind,), kind + "s") for kind in KINDS)):
        yield from tables("planes", "change", {said % word + " of a solid are taken": planes_at(part, kinds) for said, part in parts.items()})
        yield from family("only the first %%d %s of a solid are taken" % word, "planes", range(1, 17),
                          change=lambda most, kinds=kinds: planes_at(lambda rows: rows[:most], kinds))
        yield from family("only the last %%d %s of a solid are taken" % word, "planes", (1, 2),
                          change=lambda most, kinds=kinds: planes_at(lambda rows: rows[-most:], kinds))
        yield from tables("others", "change", {"%s of a solid are %s" % (word, said): planes_of_others(which, kinds) for said, which in others.items()})
    yield from family("only the first %d planes of a solid are taken, in the order of the text", "planes", range(1, 33),
                      change=lambda most: lambda scene: replace(scene, solids=[solid.with_rows(
                          lambda rows, kind, order=solid.order[:most]: rows[:order.count(kind)]) for solid in scene.solids]))


def terms() -> Iterator[Cause]:
    changes: dict[str, tuple[Term, str]] = {
        "left out": (lambda v, _: 0, "a b c ab"), "without minus signs": (lambda v, _: abs(v), "a b c ab"),
        "with the other sign": (lambda v, _: -v, "a b c ab abc"), "0 for what is below 0": (lambda v, _: max(v, 0), "a b c ab"),
        "0 for what is above 0": (lambda v, _: min(v, 0), "a b c ab"), "twice as great": (lambda v, _: 2 * v, "a b c ab"),
        "halved": (lambda v, _: v // 2, "a b c ab"), "as half floats": (lambda v, _: int(np.float16(v)) if abs(v) <= 65504 else v, "a b c ab abc")}
    for kinds, word in ((KINDS, "planes"), (KINDS[:2], "fronts and backs"), *(((kind,), kind + "s") for kind in KINDS)):
        for said, (change, owns) in changes.items():
            for own in owns.split():
                yield Cause("%s of %s %s" % (" and ".join(own.upper()), word, said), "terms", on_planes(change, own, kinds))
    yield from family("C of fronts and backs is %+d", "off", (-2, -1, 1, 2), change=lambda more: on_planes(lambda v, _: v + more, "c"))
    # C - 1 of sides is the same as strict sides.
    yield from family("C of sides is %+d", "outline", (-2, 1, 2), change=lambda more: on_planes(lambda v, _: v + more, "c", ("side",)))
    yield from family("sides are %+g pixels farther outside", "outline", (-1, -0.5, 0.5, 1), change=wider)
    for own, word in (("abc", "coefficients"), ("c", "C of fronts and backs"), ("ab", "A and B of fronts and backs")):
        yield from family(word + ": only %d fraction bits, the rest is dropped", "fraction", range(8),
                          change=lambda keep, own=own: on_planes(dropped(keep), own))
        yield from family(word + ": rounded to %d fraction bits", "fraction", range(8), change=lambda keep, own=own: on_planes(rounded(keep), own))
    limits: dict[str, Callable[[int, int], int]] = {
        "is cut to %d bits": lambda v, bits: (v + (1 << bits - 1)) % (1 << bits) - (1 << bits - 1),
        "is read as %d bits without a sign": lambda v, bits: v % (1 << bits),
        "ends at the limits of %d bits": lambda v, bits: max(-1 << bits - 1, min(v, (1 << bits - 1) - 1))}
    yield Cause("fraction bits are taken for cells", "fraction", lambda s: replace(s, fraction=0) if s.fraction else s)
    for word, own, kinds in (("C of fronts and backs", "c", KINDS[:2]), ("C of all planes", "c", KINDS), ("each of A, B and C", "abc", KINDS)):
        for said, to in limits.items():
            yield from family("%s %s" % (word, said), "bits", range(8, 41), change=lambda bits, to=to, own=own, kinds=kinds: on_planes(
                lambda v, _: to(v, bits), own, kinds))


def numbers_written() -> Iterator[Cause]:
    yield from family("the %d bytes of both maps are lowest first", "bytes", (2, 3), write=lambda size: lowest_first(size, True))
    yield from family("the %d bytes of depths are lowest first", "bytes", (2, 3), write=lambda size: lowest_first(size, False))
    for top in (255, 65535, (1 << 24) - 1, 1):
        for said, gamma in (("", 1.0), (" with a gamma of 2.2", 1 / 2.2), (" with a gamma of 1 / 2.2", 2.2)):
            yield Cause("depths are from 0 to %d%s" % (top, said), "scale", write=from_0_to(top, gamma), slack=1e-6,
                        rounding=UNIT * (top > 1))
    yield Cause("depths are from 0 to 1, by whole cells", "scale", write=from_0_to(1, 1.0), slack=1e-6, real=False)
    for top, real in ((1, None), (1, False), (256, None)):
        yield Cause("depths are %d / 2^W times as great" % top, "scale", write=from_0_to(top, 1.0, 1), slack=1e-6,
                    rounding=UNIT * (top > 1), real=real)
    yield Cause("near and far are exchanged", "turned", write=depths(lambda v, s: s.far - v))
    yield Cause("near and far are exchanged, cells counted from far - 1", "turned", write=depths(lambda v, s: s.far - 1 - v, False))
    yield from family("near and far are exchanged, from 0 to %d", "turned", (255, 65535), rounding=UNIT, write=lambda top: depths(
        lambda v, s: v if s.far == top else top - top * v / s.far))
    yield from family("depths keep the lowest %d bits", "lowest", (8, 12, 16), write=lambda bits: by(lambda v: v % 2 ** bits))
    yield from family("depths keep the highest %d bits", "scale", (8, 12, 16), write=lambda bits: depths(lambda v, s: v // 2 ** max(s.bits - bits, 0)))
    yield from family("depths end at %d", "ends", (255, 4095, 65535), write=lambda top: by(lambda v: np.minimum(v, top)))
    yield Cause("depths are in parts of a cell", "parts", real=True, write=depths(
        lambda v, s: (v * (1 << s.fraction)).round(), False))
    yield Cause("depths are half floats", "half floats", write=by(
        lambda v: np.clip(v, -65504, 65504).astype(np.float16).astype(np.float64)))
    orders: dict[str, Callable[[list[tuple[int, int, int]]], Any]] = {
        "faces are counted from 0": lambda rows: {n: n - 1 for _, _, n in rows},
        "faces are counted from 2": lambda rows: {n: n + 1 for _, _, n in rows},
        "faces are counted from the last one": lambda rows: {n: len(rows) + 1 - n for _, _, n in rows},
        "faces are the numbers of solids": lambda rows: {n: at for at, _, n in rows},
        "faces are the numbers of solids, from 0": lambda rows: {n: at - 1 for at, _, n in rows},
        "faces are kinds: 1 near, 2 front, 3 back": lambda rows: {n: 1 + kind for _, kind, n in rows},
        "faces are counted from 1 in each solid": lambda rows: {n: 1 + sum(at == own and m < n for at, _, m in rows) for own, _, n in rows},
        "near faces have no number": lambda rows: {n: i for i, n in enumerate(sorted(n for _, k, n in rows if k), 1)},
        "backs have the face of their solid": lambda rows: {
            n: n if kind != 2 else next(m for own, k, m in rows if own == at and k == 0) for at, kind, n in rows},
        "faces are numbered by kind": lambda rows: {n: i for i, (_, n) in enumerate(sorted((k, n) for _, k, n in rows), 1)},
        "near faces are face 0": lambda rows: {n: n for _, k, n in rows if k != 0},
        "fronts are face 0": lambda rows: {n: n for _, k, n in rows if k != 1},
        "backs are face 0": lambda rows: {n: n for _, k, n in rows if k != 2}}
    yield from tables("faces", "write", {said: renumbered(order) for said, order in orders.items()})
    yield Cause("sides have face numbers too", "faces", write=with_sides_counted)


def painted() -> Iterator[Cause]:
    """The causes of pictures of colours."""
    yield Cause("red and blue are exchanged", "colours", paint=lambda rgb: swapped(3, rgb))
    for said, gamma in (("a gamma of 2.2", 1 / 2.2), ("a gamma of 1 / 2.2", 2.2)):
        yield Cause("colours have %s" % said, "colours", paint=bent(gamma))


def bent(gamma: float) -> Callable[[Whole], Whole]:
    """Colours as they look with a gamma, rounded to the nearest byte."""
    table = np.rint(255 * (np.arange(256) / 255) ** gamma).astype(np.int64)

    def paint(rgb: Whole) -> Whole:
        found: Whole = table[rgb >> 16 & 255] << 16 | table[rgb >> 8 & 255] << 8 | table[rgb & 255]
        return found

    return paint


def fitted(samples: Sequence[Sample]) -> Iterator[Cause]:
    """The causes with one number, which the maps give: the same in all scenes."""
    rows = [(each, each.depths) for each in samples if each.depths is not None]
    shown = [(s, s.ours.faces > 0, theirs) for s, theirs in rows if s.scene.bits <= 16]
    if any(there.any() for _, there, _ in shown):
        theirs, ours = (np.concatenate(each) for each in zip(*((own[there], s.ours.depths[there]) for s, there, own in shown)))
        for real in (None, False):
            base = ours if real is None else np.concatenate([s.cells.depths[there] for s, there, _ in shown])
            gap = float("%.5g" % np.median(theirs - base))
            yield from family("depths are off by %g%s" + ", from whole cells" * (real is False), "off", [
                (gap, "", False), (gap, ", the background too", True)] if gap else [], slack=1e-5 * abs(gap), real=real,
                write=lambda gap, _, also: depths(lambda v, s: v + gap, also))
        times = float("%.9g" % np.median(theirs[ours > 0] / ours[ours > 0])) if (ours > 0).any() else 0.0
        yield from family("depths are %g times as great%s", "scale", [
            (times, "", False), (times, ", the background too", True)] if times not in (0, 1) else [],
            rounding=UNIT if times != round(times) else 0.0, write=lambda times, _, also: depths(lambda v, s: v * times, also))
        far = np.concatenate([np.full(int(there.sum()), s.scene.far) for s, there, _ in shown])
        inner = (ours > 0) & (ours < far) & (theirs > 0) & (theirs < far)
        power = float(np.median(np.log(theirs[inner] / far[inner]) / np.log(ours[inner] / far[inner]))) if inner.any() else 1.0
        yield from family("depths are bent by a power of %g of their share of far", "scale", {
            float("%.3g" % power), round(2 * power) / 2} - {0.0, 1.0}, rounding=UNIT, slack=1e-6, write=lambda power: depths(
                lambda v, s: s.far * np.clip(v / s.far, 0, 1) ** power))
        ends_at, begins_at = float(theirs.max()), float(theirs.min())
        yield Cause("depths end at %g" % ends_at, "ends", write=depths(lambda v, s: np.minimum(v, ends_at), False))
        yield Cause("depths begin at %g" % begins_at, "near", write=by(lambda v: np.maximum(v, begins_at)))
        gone = (theirs == far) & (ours < far)
        if gone.any():
            least, share = float(ours[gone].min()), float((ours[gone] / far[gone]).min())
            yield Cause("depths from %g on are the background" % least, "range", write=unseen(lambda v, s: v >= least))
            yield Cause("depths from %.4g of far on are the background" % share, "range", write=unseen(lambda v, s: v / s.far >= share))
            most = float(ours[gone].max())
            yield Cause("depths up to %g are the background" % most, "range", write=unseen(lambda v, s: v <= most))
    for kind, word in enumerate(FACE_KINDS):
        gaps = [theirs[at] - s.ours.depths[at] for s, theirs in rows for at in [
            np.isin(s.ours.faces, [n for _, k, n in rows_of(s.scene) if k == kind])]]
        gap = commonest(np.concatenate(gaps)) if sum(each.size for each in gaps) else 0.0
        yield from family("depths of %s are off by %g", "off" if kind else "near", [(word, gap, kind)] if gap else [],
                          slack=1e-5 * abs(gap), write=lambda _, gap, kind: lambda shown, scene: Picture(
            shown.depths + gap * looked_up({n: 1 for _, k, n in rows_of(scene) if k == kind}, shown.faces), shown.faces))
    empty = [(theirs[s.ours.faces == 0], s.scene.far) for s, theirs in rows if (s.ours.faces == 0).any()]
    if empty:
        own = commonest(np.concatenate([theirs for theirs, _ in empty]))
        yield Cause("the background is %.9g" % own, "background", write=behind(lambda s: own))
        more = commonest(np.concatenate([theirs - far for theirs, far in empty]))
        if more:
            yield Cause("the background is far %+.9g" % more, "background", write=behind(lambda s: s.far + more))


def commonest(numbers: Reals) -> float:
    found, counts = np.unique(numbers, return_counts=True)
    return float(found[counts.argmax()])

# ---- what can be said without a cause

def facts(samples: Sequence[Sample]) -> list[str]:
    """What the pixels that differ have in common: where, how much, near or far, which faces, which signs."""
    rows = [each for each in samples if each.differs.any()]
    shown = np.concatenate([(each.ours.faces > 0)[each.differs] for each in rows])
    out = ["%d where ours shows a face, %d in our background, %d beside an edge of one of our faces" % (
        shown.sum(), (~shown).sum(), sum(int((edges(each) & each.differs).sum()) for each in rows))]
    empty = np.concatenate([np.zeros(0)] + [
        each.depths[(each.ours.faces == 0) & each.differs] for each in rows if each.depths is not None])
    if empty.size > 1 and (empty == empty[0]).all():
        is_all = not any((each.right & (each.ours.faces == 0)).any() for each in rows)
        out.append("theirs is %.9g at all of those in our background%s" % (
            empty[0], " (--far %.9g)" % empty[0] if is_all else ", and right at the rest of it"))
    off = np.concatenate([np.zeros(0)] + [
        (each.depths - each.ours.depths)[each.differs] for each in rows if each.depths is not None])
    if off.size:
        out.append("%d nearer, %d farther, %d of the same depth; half of them are off by %.6g or less, the most by %.6g" % (
            (off < 0).sum(), (off > 0).sum(), (off == 0).sum(), np.median(abs(off)), abs(off).max()))
    if len(samples) < 2:
        faces, counts = np.unique(rows[0].ours.faces[rows[0].differs], return_counts=True)
        most = sorted(zip(counts.tolist(), faces.tolist()), key=lambda row: (-row[0], row[1]))[:5]
        return out + ["most differ where our face is " + ", ".join("%d (%d)" % (face, count) for count, face in most)]
    for sign in "+-*^":
        own = [each for each in samples if sign in each.scene.show]
        bad = sum(bool(each.differs.any()) for each in own)
        if own:
            out.append("scenes that differ: %d of %d with %s, %d of %d without" % (
                bad, len(own), sign, len(rows) - bad, len(samples) - len(own)))
    sizes, others = ([len(each.scene.solids) for each in samples if each.differs.any() == differs] for differs in (True, False))
    return out + ["solids of the scenes that differ: %d to %d; of the others: %s" % (
        min(sizes), max(sizes), "%d to %d" % (min(others), max(others)) if others else "there is none")]


def edges(sample: Sample) -> Bools:
    """Pixels with another face of ours in the row or the column next to them."""
    out = np.zeros(sample.x.shape, bool)
    for dx, dy in ((1, 0), (-1, 0), (0, 1), (0, -1)):
        x, y = np.clip(sample.x + dx, 0, sample.scene.width - 1), np.clip(sample.y + dy, 0, sample.scene.height - 1)
        out |= picture(sample.scene, RIGHT, x, y).faces != sample.cells.faces
    return out
