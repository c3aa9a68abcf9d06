"""Writes the text of a scene, and of scenes made of one: coarser, finer, or a tile of it. A plane
keeps its values where the pixels are the same (docs/PICTURE.md, "Refinement" and "Tiles")."""
import copy
from typing import Callable

from pxplanes.scene import limits, rays
from pxplanes.scene.scenes import Plane, Scene, Solid


def expression(scene: Scene) -> str:
    return rays.folded(scene.show, lambda at: scene.solids[at].name,
                       lambda sign, left, right: "(%s %s %s)" % (left, sign, right))


def lines_of(solid: Solid) -> list[str]:
    faces = sorted([(face.number, "front", face) for face in solid.fronts]
                   + [(face.number, "back", face) for face in solid.backs])
    rows = [("solid", solid.name, *solid.colour), *((kind, *face.plane, *face.colour) for _, kind, face in faces),
            *(("side", *side.plane) for side in solid.sides)]
    return [" ".join(map(str, row)) for row in rows]


def text_of(scene: Scene) -> str:
    """The canonical text of a scene (docs/SCENES.md)."""
    version = 3 if scene.fraction_bits else 2 if "^" in scene.show else 1
    depth = "depth %d %d" % (scene.depth_bits, scene.fraction_bits) if version == 3 else "depth %d" % scene.depth_bits
    lines = ["pxscene %d" % version, "picture %d %d" % (scene.width, scene.height), depth]
    lines += [line for solid in scene.solids for line in lines_of(solid)]
    return "\n".join(lines + ["show " + expression(scene), "end", ""])


def changed(scene: Scene, width: int, height: int, plane_of: Callable[[int, int, int], Plane], fraction: int = 0) -> Scene:
    """The scene of another size, with what `plane_of` makes of each plane."""
    other = copy.deepcopy(scene)
    other.width, other.height, other.fraction_bits = width, height, scene.fraction_bits + fraction
    for solid in other.solids:
        for face in solid.fronts + solid.backs + solid.sides:
            face.plane = plane_of(*face.plane)
    return other


def within(number: int, most: int) -> int:
    return max(-most, min(most, number))


def coarser(scene: Scene, factor: int) -> Scene:
    """The scene with the pixels alone whose column and row are multiples of the factor; a slope that
    is past a scene's limits ends there."""
    most = limits.MAX_SLOPE
    return changed(scene, -(-scene.width // factor), -(-scene.height // factor),
                   lambda a, b, c: (within(factor * a, most), within(factor * b, most), c))


def finer(scene: Scene, factor: int) -> Scene:
    return changed(scene, factor * scene.width, factor * scene.height, lambda a, b, c: (a, b, factor * c),
                   factor.bit_length() - 1)


def tile(scene: Scene, left: int, top: int, width: int, height: int) -> Scene:
    return changed(scene, width, height, lambda a, b, c: (a, b, a * left + b * top + c))
