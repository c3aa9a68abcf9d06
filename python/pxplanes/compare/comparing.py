"""Two renderers' maps, compared pixel by pixel: the call `pxplanes.compare`, and what the command `compare` needs of
it."""
from __future__ import annotations

from dataclasses import dataclass
from typing import TYPE_CHECKING, Any, Optional

from ..errors import Trouble
from ..image.libraries import needed
from ..pictures import Picture

if TYPE_CHECKING:
    import numpy as np
    from numpy.typing import NDArray

    from .verdict import Allowed, Score

# Pixels of one piece of work times the ends of solids in it: what the exact picture of a large scene is drawn by.
PIECE = 1 << 22


@dataclass(frozen=True, eq=False)
class Comparison:
    """How two maps of a scene differ.

    `score` counts the pixels that are exact, within epsilon, near an edge, and wrong. `state` has that of each pixel,
    of shape (height, width), as WRONG, EXACT, WITHIN and NEAR_EDGE of pxplanes.compare.verdict. `greatest` is the
    greatest difference of depths, in cells, over all pixels, and `is_whole` says whether depths were compared as whole
    numbers."""

    score: Score
    state: NDArray[np.int64]
    greatest: float
    is_whole: bool

    @property
    def differ(self) -> int:
        """How many pixels are wrong."""
        return self.score.wrong

    @property
    def pixels(self) -> int:
        return self.score.pixels

    @property
    def at(self) -> list[tuple[int, int]]:
        """The column and the row of each wrong pixel, row by row."""
        rows, columns = (self.state == 0).nonzero()
        return list(zip(columns.tolist(), rows.tolist()))

    def __bool__(self) -> bool:
        """Whether nothing differs."""
        return self.differ == 0


def compare(ours: Any, theirs: Any, tolerance: float = 0, scene: Optional[str | bytes] = None,
            epsilon: float = 64) -> Comparison:
    """Compares two pictures, or two maps of one size: arrays of shape (height, width), or lists of rows, rows from the
    top.

    Of two pictures depths and faces are compared, of a picture and a map its depths, in cells, which may differ by
    `tolerance`. What is not finite is the background. Whole depths are compared as they are. Depths with parts of a
    cell are compared with the exact surfaces of the scene, whose text is given, and may be off by `epsilon` roundings
    of single precision (docs/COMPARE.md); without a scene it is only known in which cell they must be.

    Raises `ValueError` if the sizes differ or a number is below 0, and `Trouble` if NumPy is missing or the scene's text is refused.

    >>> pxplanes.compare([[1, 2]], [[1, 3]]).differ
    1
    """
    if not (tolerance >= 0 and epsilon >= 0):
        raise ValueError("tolerance is %s and epsilon %s; both are 0 or more" % (tolerance, epsilon))
    numpy = needed("numpy")
    from . import picture, verdict
    both = isinstance(ours, Picture) and isinstance(theirs, Picture)
    one, other = (numpy.asarray(each.depths if isinstance(each, Picture) else each) for each in (ours, theirs))
    if one.shape != other.shape or one.ndim != 2 or not one.size:
        raise ValueError("the sizes differ, or are no rows of equal length: %s and %s" % (one.shape, other.shape))
    faces = tuple(numpy.asarray(each.faces) for each in (ours, theirs)) if both else (None, None)
    text = scene.encode() if isinstance(scene, str) else scene
    known = None if text is None else picture.of_text(text, "the scene")[0]
    return compared((one, faces[0]), (other, faces[1]), verdict.Allowed(epsilon, False, tolerance), known)


def compared(ours: tuple[Any, Any], theirs: tuple[Any, Any], allowed: Allowed, scene: Any = None,
             whole: Optional[bool] = None) -> Comparison:
    """Compares depths and faces, each an array or None, in bands of rows. A scene must be that of ours; `whole` says
    whether depths are compared as whole numbers, where the maps alone do not decide that."""
    from . import verdict
    numpy = needed("numpy")
    high, wide = next(each for each in theirs if each is not None).shape
    step = max(1, PIECE // (2 * len(scene.solids) + 1 if scene else 3) // wide)
    bands = [slice(top, top + step) for top in range(0, high, step)]
    # Without a scene the greatest of our depths that is finite is taken for the far limit.
    has_depths = ours[0] is not None and theirs[0] is not None
    far = scene.far if scene else max(
        float(verdict.filled(ours[0][rows], 0).max()) for rows in bands) if has_depths else 0
    is_whole = not has_depths or (whole if whole is not None else all(
        verdict.is_whole([verdict.filled(maps[0][rows], far)]) for maps in (theirs, ours) for rows in bands))
    if scene is not None and (high, wide) != (scene.height, scene.width):
        raise Trouble("the maps are %d by %d, and the scene %d by %d" % (wide, high, scene.width, scene.height))

    def held(by_scene: bool) -> Comparison:
        state, most = numpy.empty((high, wide), numpy.uint8), 0.0
        for rows in bands:
            own, other = ([None if each is None else each[rows] for each in maps] for maps in (ours, theirs))
            if has_depths:
                own[0], other[0] = verdict.filled(own[0], far), verdict.filled(other[0], far)
            state[rows], gap = by_surfaces(numpy, scene, rows.start, other, allowed) if by_scene else by_numbers(
                numpy, own, other, allowed, is_whole, far)
            most = max(most, gap)
        return Comparison(verdict.Score.of([state]), state, most, is_whole and not by_scene)

    found = held(scene is not None and not is_whole)
    if whole is None and found.differ and is_whole and has_depths and scene is not None and theirs[0].dtype.kind == "f":
        return min(found, held(True), key=lambda each: each.differ)    # real numbers may all be whole by chance
    return found


def by_numbers(numpy: Any, ours: Any, theirs: Any, allowed: Allowed, is_whole: bool, far: float) -> tuple[Any, float]:
    """The state of each pixel by the numbers of both maps alone, and the greatest difference of depths.

    Of whole depths of ours and real ones of theirs it is known alone that a surface lies in the cell of ours, so that
    one there is right; of two real maps, that both are within epsilon of the surface."""
    from .verdict import EXACT, ROUNDING, WITHIN, WRONG
    state, gap = numpy.full(numpy.shape(theirs[0] if theirs[0] is not None else theirs[1]), EXACT, numpy.uint8), 0.0
    if ours[0] is not None and theirs[0] is not None:
        at = numpy.nonzero(ours[0] != theirs[0])
        own, depths = ours[0][at].astype(numpy.float64), theirs[0][at].astype(numpy.float64)
        off = numpy.abs(depths - own)
        gap = float(off.max(initial=0))
        right = off <= allowed.tolerance
        if not is_whole:
            unit = 1.0 if allowed.in_cells else ROUNDING * numpy.maximum(numpy.abs(own), far)
            epsilon = allowed.epsilon * unit
            right |= (off <= epsilon) | (own == numpy.rint(own)) & (own - 1 < depths) & (depths < own)
        state[at] = numpy.where(right, WITHIN, WRONG)
    if ours[1] is not None and theirs[1] is not None:
        state[ours[1] != theirs[1]] = WRONG
    return state, gap


def by_surfaces(numpy: Any, scene: Any, top: int, theirs: Any, allowed: Allowed) -> tuple[Any, float]:
    """The state of each pixel by the scene's exact surfaces, and the greatest difference of depths."""
    from . import verdict
    shape = theirs[0].shape
    y, x = (each.ravel() for each in numpy.indices(shape, numpy.int64))
    depths = theirs[0].ravel().astype(numpy.float64)
    faces = None if theirs[1] is None else theirs[1].ravel().astype(numpy.int64)
    sample = verdict.Sample(scene, x, y + top, depths, faces, False, allowed)
    return sample.state.reshape(shape), float(numpy.abs(depths - sample.ours.depths).max())
