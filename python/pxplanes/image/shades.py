"""The pictures of show.py in NumPy, for maps of any size."""
from typing import Any, Callable, Iterable, Sequence

import numpy as np
import numpy.typing as npt

from pxplanes.image import maps, show

Numbers = npt.NDArray[Any]
Pixels = npt.NDArray[np.uint8]


def colours_of_numbers(numbers: Numbers) -> Pixels:
    """Red, green and blue of numbers of three bytes, of shape (height, width, 3)."""
    pixels: Pixels = np.stack([numbers >> 16 & 255, numbers >> 8 & 255, numbers & 255], -1).astype(np.uint8)
    return pixels


Band = Callable[[slice], Pixels]


def of_maps(found: Sequence[maps.Map], what: str) -> Band:
    """How a band of rows is made of a picture of one or two maps: their depths, faces, colours or lights."""
    first, last, rows_of = found[0].numbers, found[-1].numbers, list(maps.bands(found[0].numbers.shape))
    if what == "colours":
        return lambda rows: colours_of_numbers(first[rows])
    if what != "depths":
        return lambda rows: by_table(last[rows], show.colours_of_faces if what == "faces" else show.colours_of_lights)
    far = extent(first[rows] for rows in rows_of)[1]

    def is_shown(rows: slice) -> npt.NDArray[np.bool_]:
        shown: npt.NDArray[np.bool_] = last[rows] != (0 if len(found) == 2 else far)
        return shown

    ends = extent(first[rows][is_shown(rows)] for rows in rows_of)
    return lambda rows: greys_of_depths(first[rows], is_shown(rows), *ends)


def extent(parts: Iterable[Numbers]) -> tuple[int, int]:
    """The least and the greatest of numbers in parts; 0 and 0 if there are none."""
    ends = [(int(each.min()), int(each.max())) for each in parts if each.size]
    return min((least for least, _ in ends), default=0), max((most for _, most in ends), default=0)


def greys_of_depths(depths: Numbers, is_shown: npt.NDArray[np.bool_], near: int, far: int) -> Pixels:
    """Greys of what is seen, light for the nearest depth and dark for the farthest; dark blue for the background."""
    levels: Numbers = np.subtract(depths, near, dtype=np.int64)
    levels *= show.RANGE
    levels //= max(far - near, 1)
    levels = np.uint8(show.LIGHTEST) - levels.astype(np.uint8)
    pixels: Pixels = np.where(is_shown[..., None], levels[..., None], np.array(show.BACKGROUND, np.uint8))
    return pixels


def by_table(numbers: Numbers, colours: Callable[[list[int]], list[show.Colour]]) -> Pixels:
    """A colour for each number of at most three bytes, by one of the tables of show.py."""
    is_there = np.zeros(int(numbers.max()) + 1, np.bool_)
    is_there[numbers] = True
    found = np.flatnonzero(is_there)
    table = np.zeros((is_there.size, 3), np.uint8)
    table[found] = [colours([int(number)])[0] for number in found]
    return table[numbers]


def enlarged(pixels: Pixels, wanted_side: int = 512) -> Pixels:
    """A small picture enlarged by a whole factor, up to the wanted side."""
    factor = wanted_side // max(pixels.shape[:2])
    return pixels.repeat(factor, 0).repeat(factor, 1) if factor > 1 else pixels
