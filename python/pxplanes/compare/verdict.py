"""Whether another renderer's maps of a scene are right, pixel by pixel.

Whole numbers must be ours. A real number is compared with the exact value of the surface at the pixel's centre:

    |theirs - exact| <= 64 * 2^-24 * max(|A x| + |B y| + |C|, far)     in cells, for the plane of the face at that pixel

because a renderer in single precision adds up such terms, whatever comes out: an epsilon relative to the depth is
wrong, since a steep plane cancels, and a depth near 0 has all of the error. docs/COMPARE.md, "Real numbers", has what
was measured."""
from __future__ import annotations

from dataclasses import dataclass, field, replace
from functools import cached_property
from typing import Any, Optional, Sequence

import numpy as np

from pxplanes.compare.picture import REAL, RIGHT, Asked, Bools, Picture, Reading, Reals, Scene, Whole, picture, pictures

ROUNDING = 2.0 ** -24      # half of the last bit of a float32, relative
ROUNDINGS = 64.0           # so many of them are let pass
EDGE = 64                  # an edge within a 64th of a pixel of a sample: the face on either side is right
FACES = 4096               # more than a scene can have
WRONG, EXACT, WITHIN, NEAR_EDGE = range(4)


@dataclass(frozen=True)
class Allowed:
    """What is let pass: `epsilon` in roundings of single precision, or in cells, for real numbers; `tolerance`, in
    cells, for all depths."""

    epsilon: float = ROUNDINGS
    in_cells: bool = False
    tolerance: float = 0.0


def plane_values(scene: Scene, faces: Whole, x: Whole, y: Whole, absolute: bool = False) -> Reals:
    """The exact depth, in cells, of each pixel's face; that of the background is the far limit. Or the sum of the sizes
    of its terms."""
    planes = np.zeros((FACES, 3), np.int64)
    planes[0, 2] = scene.far << scene.fraction
    for solid in scene.solids:
        for plane, number in solid.fronts + solid.backs:
            planes[number] = plane
    a, b, c = (np.abs(planes) if absolute else planes)[np.clip(faces, 0, FACES - 1)].T
    found: Reals = (a * x + b * y + c) / (1 << scene.fraction)
    return found


@dataclass
class Sample:
    """Some pixels of a scene, with their maps there: `depths`, `faces` or both; None is not compared.

    `whole` says that depths are compared as whole numbers. `labels` has what is shown in place of a face, for pictures
    of colours; `weight` is how many right pixels each right one stands for, where not all are taken."""

    scene: Scene
    x: Whole
    y: Whole
    depths: Optional[Reals]
    faces: Optional[Whole]
    whole: bool
    allowed: Allowed = field(default_factory=Allowed)
    labels: Optional[Whole] = None
    weight: float = 1.0

    @cached_property
    def cells(self) -> Picture:
        return picture(self.scene, RIGHT, self.x, self.y)

    @cached_property
    def real(self) -> Picture:
        return picture(self.scene, REAL, self.x, self.y)

    def shown(self, asked: Sequence[Asked]) -> list[Picture]:
        """What is asked of this scene, or of it changed."""
        is_own = [each.scene is self.scene and each.x is self.x and each.y is self.y for each in asked]
        known = [self.cells if own and each.how == RIGHT else self.real if own and each.how == REAL else None
                 for own, each in zip(is_own, asked)]
        new = iter(pictures([each for each, own in zip(asked, known) if own is None]))
        return [next(new) if own is None else own for own in known]

    @property
    def ours(self) -> Picture:
        return self.cells if self.whole else self.real

    def epsilon(self, scene: Scene, faces: Whole, x: Whole, y: Whole) -> Reals:
        """How far a depth may be from the exact one of a face; nothing of whole numbers."""
        if self.whole:
            return np.full(faces.shape, self.allowed.tolerance)
        if self.allowed.in_cells:
            return np.full(faces.shape, max(self.allowed.epsilon, self.allowed.tolerance))
        terms = np.maximum(plane_values(scene, faces, x, y, absolute=True), scene.far)
        found: Reals = np.maximum(self.allowed.epsilon * ROUNDING * terms * (faces != 0), self.allowed.tolerance)
        return found

    def fits(self, depths: Reals, faces: Whole, epsilon: Reals) -> Bools:
        """Where theirs is a depth, within an epsilon, and a face."""
        found = np.ones(faces.shape, bool)
        if self.depths is not None:
            found &= (np.abs(self.depths - depths) <= epsilon)
        if self.faces is not None:
            found &= self.faces == (faces if self.labels is None else self.labels[np.clip(faces, 0, FACES - 1)])
        return found

    def fits_faces(self, faces: Whole) -> Bools:
        """Where theirs is a face at its own plane's depth."""
        return self.fits(plane_values(self.scene, faces, self.x, self.y), faces, self.epsilon(self.scene, faces, self.x, self.y))

    @cached_property
    def right(self) -> Bools:
        """Pixels that are right at the sample itself. If two real surfaces are in one cell, either is right."""
        found = self.fits(self.ours.depths, self.ours.faces, self.epsilon(self.scene, self.ours.faces, self.x, self.y))
        return found if self.whole or not self.scene.fraction else found | self.fits_faces(self.cells.faces)

    @cached_property
    def state(self) -> Whole:
        """WRONG, EXACT, WITHIN or NEAR_EDGE of each pixel."""
        exact = self.right if self.depths is None else self.right & (self.depths == self.ours.depths)
        found = np.where(exact, EXACT, np.where(self.right, WITHIN, WRONG))
        if not self.whole and not self.right.all():
            beside = np.zeros_like(self.right)
            for dx, dy in ((-1, -1), (-1, 1), (1, -1), (1, 1)):
                beside |= self.fits_faces(picture(self.scene, Reading(dx, dy, EDGE, real=True), self.x, self.y).faces)
            found[beside & ~self.right] = NEAR_EDGE
        return found

    @cached_property
    def differs(self) -> Bools:
        """Pixels that are wrong; those near an edge are neither right nor wrong to a cause."""
        found: Bools = self.state == WRONG
        return found

    def some(self, most: int) -> Sample:
        """So many of the pixels that differ, and half as many of the right ones, evenly over the picture."""
        at = np.sort(np.concatenate([every[::max(1, every.size // many)][:many] for every, many in (
            (np.flatnonzero(self.differs), most), (np.flatnonzero(self.right), most // 2))]))
        return replace(self, x=self.x[at], y=self.y[at], depths=None if self.depths is None else self.depths[at],
                       faces=None if self.faces is None else self.faces[at])

    def room(self) -> float:
        """The greatest error, in cells, that single precision has room for at a face of this scene."""
        return float(self.epsilon(self.scene, self.real.faces, self.x, self.y).max()) if not self.whole else 0.0


@dataclass(frozen=True)
class Score:
    """How many pixels are exact, within epsilon, near an edge, and wrong."""

    exact: int
    within: int
    near_edge: int
    wrong: int

    @staticmethod
    def of(states: Sequence[Whole]) -> Score:
        return Score(*(sum(int(np.count_nonzero(state == each)) for state in states) for each in (EXACT, WITHIN, NEAR_EDGE, WRONG)))

    @property
    def pixels(self) -> int:
        return self.exact + self.within + self.near_edge + self.wrong


def filled(depths: Any, far: float) -> Any:
    """Depths with the background where they are not finite."""
    return depths if depths.dtype.kind != "f" or np.isfinite(depths).all() else np.where(np.isfinite(depths), depths, far)


def is_whole(maps: Sequence[Optional[Reals]]) -> bool:
    """Whether all depths of a run are whole numbers, so that they are compared as such."""
    return all(depths is None or depths.dtype.kind != "f" or bool((depths == np.rint(depths)).all()) for depths in maps)
