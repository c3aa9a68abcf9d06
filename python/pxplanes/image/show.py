"""Colours for maps of numbers: depths, faces, lights and distances as pictures that a person can look at."""
import colorsys
import math
import os
import struct
from typing import Iterable, Sequence

Colour = tuple[int, int, int]
BACKGROUND: Colour = (24, 24, 64)
LIGHTS = ((235, 70, 60), (60, 190, 70), (70, 90, 235), (120, 120, 0), (0, 120, 120), (120, 0, 120), (100, 60, 0), (60, 60, 60))
# The lightest and the darkest grey of what is seen.
LIGHTEST, RANGE = 240, 180
GOLDEN_RATIO = 0.618034
# Characters from dark to light, for a terminal without colours.
DENSER = " .:-=+*#%@"


def greys_of_depths(depths: Sequence[float], is_shown: Sequence[bool]) -> list[Colour]:
    """Greys of what is seen, light for the nearest and dark for the farthest; dark blue for the background."""
    seen = [depth for depth, shown in zip(depths, is_shown) if shown]
    near = min(seen, default=0)
    room = max(seen, default=0) - near or 1

    def grey(depth: float) -> Colour:
        level = int(LIGHTEST - RANGE * (depth - near) // room)
        return level, level, level

    return [grey(depth) if shown else BACKGROUND for depth, shown in zip(depths, is_shown)]


def colours_of_faces(faces: Iterable[int]) -> list[Colour]:
    """A colour for each face number; neighbouring numbers are far apart on the colour wheel. The background is black."""
    def colour(face: int) -> Colour:
        if not face:
            return 0, 0, 0
        red, green, blue = colorsys.hsv_to_rgb(face * GOLDEN_RATIO % 1, 0.55 + 0.15 * (face % 3), 0.95)
        return int(255 * red), int(255 * green), int(255 * blue)

    faces = list(faces)
    table = {face: colour(face) for face in set(faces)}
    return [table[face] for face in faces]


def colours_of_lights(masks: Iterable[int]) -> list[Colour]:
    """The sum of the colours of the lights in each mask, bit 0 for the first light; black where no light reaches."""
    def colour(mask: int) -> Colour:
        lit = [light for bit, light in enumerate(LIGHTS) if mask >> bit & 1]
        red, green, blue = (min(sum(light[part] for light in lit), 255) for part in range(3))
        return red, green, blue

    masks = list(masks)
    table = {mask: colour(mask) for mask in set(masks)}
    return [table[mask] for mask in masks]


def pfm(width: int, height: int, numbers: Sequence[float]) -> bytes:
    """A PFM file of one number a pixel, given by rows from the top; PFM begins with the bottom row."""
    rows = [numbers[y * width:(y + 1) * width] for y in range(height)]
    return b"Pf\n%d %d\n-1.0\n" % (width, height) + b"".join(struct.pack("<%df" % width, *row) for row in rows[::-1])


def in_terminal(width: int, height: int, colours: Sequence[Colour], columns: int) -> str:
    """A picture of half blocks for a terminal that is so many columns wide, two pixels in a character. With NO_COLOR
    set, a character is as dense as its two pixels are light."""
    step = max(1, math.ceil(width / columns))
    lines = []
    for y in range(0, height, 2 * step):
        upper, lower = (colours[row * width:(row + 1) * width:step] for row in (y, min(y + step, height - 1)))
        if os.environ.get("NO_COLOR"):
            lines.append("".join(DENSER[(sum(above) + sum(below)) * len(DENSER) // 1531] for above, below in zip(upper, lower)))
            continue
        lines.append("".join("\x1b[38;2;%d;%d;%d;48;2;%d;%d;%dm\u2580" % (*above, *below) for above, below in zip(upper, lower)))
    end = "\n" if os.environ.get("NO_COLOR") else "\x1b[0m\n"
    return end.join(lines) + end
