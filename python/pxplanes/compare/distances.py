"""Depths from a renderer's distances, by a perspective camera whose near and far distances are known
(docs/MODELLING.md)."""
import math

import numpy as np

from pxplanes.compare.picture import Reals
from pxplanes.errors import Trouble
from pxplanes.mesh import cameras

FORM = "NEAR,FAR, or NEAR,FAR,inverse, or NEAR,FAR,ray,FOV"


def depths_of(word: str, numbers: Reals, far: int) -> Reals:
    """The depths, in cells, of numbers of shape (height, width); infinite for the background.

    The word says what the numbers are: `NEAR,FAR` distances along the axis, `NEAR,FAR,inverse` 1 divided by these, and
    `NEAR,FAR,ray,FOV` distances along each ray, where the picture is FOV degrees high. Raises `Trouble` for other
    words."""
    near, limit, form, fov = parted(word)
    ends = cameras.Distances(near, limit, far)
    high, wide = numbers.shape
    with np.errstate(divide="ignore", invalid="ignore"):
        if form == "inverse":
            numbers = 1 / numbers
        elif form == "ray":
            y, x = np.indices(numbers.shape)
            focal = cameras.focal_of(fov, (wide, high))
            numbers = numbers / np.sqrt(1 + ((x - (wide - 1) / 2) ** 2 + (y - (high - 1) / 2) ** 2) / focal ** 2)
        depths = ends.scale * (1 / near - 1 / numbers)
    return np.where((numbers > 0) & (numbers < limit), depths, np.inf)


def parted(word: str) -> tuple[float, float, str, float]:
    """Near, far, the form and, for rays, the degrees of a word."""
    words = word.split(",")
    form = words[2] if len(words) > 2 else "axis"
    try:
        near, limit, *fov = map(float, words[:2] + words[3:])
    except ValueError:
        raise Trouble("--distance is %s, not %s" % (FORM, word)) from None
    if form not in ("axis", "inverse", "ray") or len(fov) != (form == "ray") or not all(map(math.isfinite, (near, limit, *fov))):
        raise Trouble("--distance is %s, not %s" % (FORM, word))
    return near, limit, form, fov[0] if fov else 0.0
