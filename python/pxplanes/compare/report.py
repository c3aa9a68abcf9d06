"""What is said of two maps: how many pixels differ, why, in which ways, and where; in lines, as JSON, and as a
picture."""
from __future__ import annotations

import itertools
from collections import Counter
from dataclasses import dataclass
from typing import Any, Iterator, Optional, Sequence

import numpy as np
from numpy.typing import NDArray

from pxplanes.compare import causes
from pxplanes.compare.comparing import Comparison
from pxplanes.compare.picture import RIGHT, Scene, grid, picture
from pxplanes.compare.verdict import WRONG, Allowed, Sample, filled
from pxplanes.image import maps
from pxplanes.image.maps import Map

Numbers = NDArray[Any]
# So many pixels times the ends of solids there are judged for a cause; of a larger picture so many that differ, and so
# many that do not.
MOST, TAKEN = 1 << 21, 8192
RED, BLUE = (128, 32, 32), (64, 96, 255)


@dataclass(frozen=True)
class Maps:
    """Depths in cells and faces, of shape (height, width); None is not compared."""

    depths: Optional[Numbers]
    faces: Optional[Numbers]

    @property
    def shape(self) -> tuple[int, int]:
        found = self.depths if self.depths is not None else self.faces
        assert found is not None
        return int(found.shape[0]), int(found.shape[1])

    def band(self, rows: slice) -> Maps:
        return Maps(*(None if each is None else each[rows] for each in (self.depths, self.faces)))


def maps_of(found: Sequence[Map], only: Optional[str], times: float) -> Maps:
    """Depths and faces of a file's maps, as far as they are compared."""
    depths, faces = found[0].numbers, found[-1].numbers
    if found[0].kind == "real" and times != 1:
        depths = depths * times
    has_faces = only == "faces" or len(found) == 2 and only is None
    return Maps(None if only == "faces" else depths, faces if has_faces else None)


def is_picture_of(maps: Maps, scene: Scene) -> bool:
    """Whether maps are what a scene shows."""
    if maps.shape != (scene.height, scene.width):
        return False
    shown = picture(scene, RIGHT, *grid(scene))
    return all(found is None or bool((found.ravel() == own).all()) for found, own in ((maps.depths, shown.depths), (maps.faces, shown.faces)))


def sample_of(scene: Scene, theirs: Maps, found: Comparison, allowed: Allowed,
              labels: Optional[Numbers] = None) -> Sample:
    """What a cause is sought by: all pixels, or, of a large picture, some that differ and some that do not."""
    x, y = grid(scene)
    weight = 1.0
    if x.size * (2 * len(scene.solids) + 1) > MOST:
        lots = np.random.default_rng(1)
        bad, good = (np.flatnonzero(each) for each in ((found.state == WRONG).ravel(), (found.state != WRONG).ravel()))
        taken = [lots.permutation(each)[:TAKEN] for each in (bad, good)]
        weight = good.size / max(taken[1].size, 1)
        at = np.sort(np.concatenate(taken))
        x, y = x[at], y[at]
    depths = None if theirs.depths is None else filled(theirs.depths[y, x].astype(np.float64), scene.far)
    faces = None if theirs.faces is None else theirs.faces[y, x].astype(np.int64)
    return Sample(scene, x, y, depths, faces, found.is_whole, allowed, labels, weight)


def counted(found: Comparison, allowed: Allowed) -> str:
    """The first line: how many pixels differ, and of real numbers how the others are right."""
    line = "%d of %d pixels differ" % (found.differ, found.pixels)
    if found.is_whole:
        return line
    score = found.score
    return line + ": %d exact, %d within %s, %d near an edge" % (score.exact, score.within, said(allowed), score.near_edge)


def said(allowed: Allowed) -> str:
    """What is let pass, as 64 roundings, or 64 roundings or 1 cell."""
    words = ["%g roundings" % allowed.epsilon] * (not allowed.in_cells)
    for number in [allowed.epsilon] * allowed.in_cells + [allowed.tolerance] * (allowed.tolerance > 0):
        words.append("%g cell%s" % (number, "s"[number == 1:]))
    return " or ".join(words)


def why(scene: Scene, theirs: Maps, found: Comparison, allowed: Allowed) -> list[str]:
    """The cause of what differs, with its evidence, or that none was found, with facts."""
    sample = sample_of(scene, theirs, found, allowed)
    if not sample.differs.any():
        return []
    cause = causes.find([sample])
    return cause.said() + ["  " + line for line in causes.facts([sample])]


def shows_colours(theirs: Numbers, faces: Optional[Numbers], colours: Sequence[tuple[int, int, int]]) -> Optional[str]:
    """A line, if numbers are the colours of the faces, three bytes each, by the colours of all faces in order from that
    of face 0."""
    table = np.array([red << 16 | green << 8 | blue for red, green, blue in colours])
    shown = np.unique(theirs)
    if faces is None or shown.size < 2 or not np.isin(shown, table).all():
        return None
    own = int((table[faces] == theirs).sum())
    return "theirs is a picture of the faces' colours, and no map of depths: %d of %d pixels have the colour of our face" % (
        own, theirs.size)


def side(whose: str, face: int, words: Sequence[str]) -> str:
    if face == 0:
        return whose + " background"
    return "%s %s" % (whose, words[face] if face < len(words) else "face %d" % face)


def bands(found: Comparison) -> Iterator[tuple[slice, NDArray[np.bool_]]]:
    """The bands of rows in which pixels are wrong, each with which of them are."""
    for rows in maps.bands(found.state.shape):
        wrong = found.state[rows] == WRONG
        if wrong.any():
            yield rows, wrong


def ways(ours: Maps, theirs: Maps, found: Comparison, words: Sequence[str], far: Optional[int]) -> list[str]:
    """A line for each way to differ, the most frequent first: which faces, or, without faces, which is the background at
    depth `far`; nearer or farther. `words` has the solid and the kind of each face."""
    counts: Counter[str] = Counter()
    for rows, wrong in bands(found):
        counts.update(ways_in(ours.band(rows), theirs.band(rows), wrong, words, far))
    return ["  %d pixel%s: %s" % (count, "s"[count == 1:], said)
            for said, count in sorted(counts.items(), key=lambda each: (-each[1], each[0]))]


def ways_in(ours: Maps, theirs: Maps, wrong: NDArray[np.bool_], words: Sequence[str], far: Optional[int]) -> Counter[str]:
    """How many of the wrong pixels differ in each way."""
    parts: list[tuple[Sequence[str], Numbers]] = []
    for whose, own in (("ours", ours), ("theirs", theirs)):
        shown = own.faces
        if shown is None and own.depths is not None and far is not None:
            shown = np.where(own.depths == far, 0, -1)
        if shown is not None:
            numbers, back = np.unique(shown[wrong], return_inverse=True)
            parts.append(([side(whose, int(n), words) if n >= 0 else "" for n in numbers], back))
    if ours.depths is not None and theirs.depths is not None:
        gaps = theirs.depths[wrong].astype(np.float64) - ours.depths[wrong].astype(np.float64)
        parts.append((("theirs nearer", "same depth", "theirs farther"), np.sign(gaps).astype(np.int64) + 1))
    counts: Counter[str] = Counter()
    if parts:
        found, how_often = np.unique(np.stack([at for _, at in parts]), axis=1, return_counts=True)
        for row, count in zip(found.T.tolist(), how_often.tolist()):
            counts[", ".join(filter(None, (said[n] for (said, _), n in zip(parts, row))))] += count
    return counts


def greatest(ours: Maps, theirs: Maps, found: Comparison) -> list[str]:
    """The greatest difference of depths where pixels differ, and the first pixel that has it."""
    most, place = 0.0, (0, 0)
    for rows, wrong in bands(found) if ours.depths is not None and theirs.depths is not None else ():
        one, other = ours.band(rows).depths, theirs.band(rows).depths
        assert one is not None and other is not None
        gaps = np.abs(other[wrong].astype(np.float64) - one[wrong])
        at = int(gaps.argmax())
        if gaps[at] > most:
            most, place = float(gaps[at]), (int(wrong.nonzero()[1][at]), rows.start + int(wrong.nonzero()[0][at]))
    return ["greatest difference of depths: %.9g, at %d %d" % (most, *place)] if most else []


def listed(lines: list[str], most: int, what: str) -> list[str]:
    more = len(lines) - most
    return lines[:most] + ["  and %d more %s%s" % (more, what, "s"[more == 1:])] * (more > 0)


def first(ours: Maps, theirs: Maps, found: Comparison, names: Sequence[str], most: int) -> list[str]:
    """A line for each of the first pixels that differ. `names` has the name of each face."""
    places = ((int(x), rows.start + int(y)) for rows, wrong in bands(found) for y, x in zip(*wrong.nonzero()))
    return ["  at %d %d: %s" % (x, y, pixel(ours, theirs, x, y, names)) for x, y in itertools.islice(places, most)]


def pixel(ours: Maps, theirs: Maps, x: int, y: int, names: Sequence[str]) -> str:
    def named(face: int) -> str:
        if face == 0:
            return "0 (background)"
        return "%d (%s)" % (face, names[face] if face < len(names) else "no face of the scene") if names else "%d" % face

    parts = []
    if ours.depths is not None and theirs.depths is not None:
        parts.append("depths %.9g and %.9g" % (ours.depths[y, x], theirs.depths[y, x]))
    if ours.faces is not None and theirs.faces is not None:
        parts.append("faces %s and %s" % (named(int(ours.faces[y, x])), named(int(theirs.faces[y, x]))))
    elif ours.faces is not None:
        parts.append("our face %s" % named(int(ours.faces[y, x])))
    elif theirs.faces is not None:
        parts.append("their face %s" % named(int(theirs.faces[y, x])))
    return ", ".join(parts)


def differences(ours: Maps, theirs: Maps, found: Comparison) -> Numbers:
    """A picture, uint8 of shape (height, width, 3): grey where alike, lighter for nearer; red where depths differ, the
    brighter the more; blue where only the faces do."""
    depths = np.zeros(found.state.shape) if ours.depths is None else ours.depths.astype(np.float64)
    near, far = depths.min(), depths.max()
    grey = (200 - 140 * (depths - near) / max(far - near, 1)).astype(np.uint8)
    out: Numbers = np.stack([grey] * 3, -1)
    wrong = found.state == WRONG
    out[wrong] = BLUE
    if ours.depths is not None and theirs.depths is not None:
        gap = np.abs(theirs.depths - depths) * wrong
        red = gap > 0
        out[red] = RED
        out[red, 0] = (128 + 127 * gap[red] / gap.max()).astype(np.uint8)
    return out


def as_json(found: Comparison, lines: list[str], cause: list[str]) -> dict[str, Any]:
    return {"pixels": found.pixels, "differ": found.differ, "exact": found.score.exact, "within": found.score.within,
            "near_edge": found.score.near_edge, "greatest": found.greatest, "whole": found.is_whole, "cause": cause,
            "lines": lines}
