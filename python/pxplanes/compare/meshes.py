"""Compares what a modelling kernel made with the expression that it was made of.

The expression is a model (.csg, .scad or a mesh) or a scene; the result is a mesh in the same axes; of a scene in those of
`pxplanes convert`. The program draws the expression from several sides, whole and through cuts across the axis; rays pass through
the mesh at each pixel. How much is inside along all rays is compared too. What is smaller than a pixel of every picture is not seen."""
import os
from typing import Any, NamedTuple, Optional

import numpy as np

from pxplanes import ends, program
from pxplanes.compare import picture
from pxplanes.errors import Trouble
from pxplanes.mesh import mesh_files, modelling, verifying
from pxplanes.mesh.verifying import ALIKE, MISSING, ROUNDING, TOO_MUCH

COUNTS = (ALIKE, ROUNDING, MISSING, TOO_MUCH)


def kind_of(path: str) -> str:
    return os.path.splitext(path)[1][1:].lower()


def mesh_of(path: str) -> Any:
    if kind_of(path) not in mesh_files.READERS:
        raise Trouble("%s is no mesh: %s are read" % (path, mesh_files.ENDINGS))
    return verifying.Mesh(*mesh_files.read(kind_of(path), ends.content(path), os.path.dirname(path) or "."))


def sides_of(path: str, mesh: Any, count: int, size: tuple[int, int]) -> Any:
    """The sides of an expression: of a scene its picture, of a model so many."""
    if kind_of(path) == "scene":
        return verifying.of_scene(ends.content(path), mesh)
    if kind_of(path) not in modelling.KINDS:
        raise Trouble("%s is no scene and no model: .scene, .csg, .scad and meshes are read" % path)
    tree = modelling.tree_of(path, kind_of(path))
    if tree is None:
        raise Trouble("the model has no solid")
    return verifying.of_tree(tree, mesh, count, size)


class Volume(NamedTuple):
    """How many cells are inside along the rays of a side, of the expression and of the mesh, and by how many these may differ:
    at each end of what is inside on a ray by what is rounded there."""

    ours: int
    theirs: int
    room: float


def volume_of(side: Any) -> Volume:
    """The volume along the rays of a side."""
    scene, ours = picture.of_scene(side.scene, side.name), 0
    for row in range(scene.height):
        x = np.arange(scene.width)[np.newaxis]
        found = picture.ends([scene], picture.RIGHT, x, np.full_like(x, row))
        marks = np.sort(np.concatenate([found.first, found.end]).clip(0, scene.far), 0)
        ours += int(np.diff(marks, axis=0)[picture.fold(scene.show, found, marks[:-1], False)[0]].sum())
    spans = [span for y in range(scene.height) for x in range(scene.width) for span in side.crossings.cells(x, y, scene.far)]
    return Volume(ours, sum(end - first for first, end in spans), 2 * side.near * len(spans))


def first_wrong(found: Any) -> str:
    """The first pixel of a picture that is wrong."""
    at = next(at for at, word in enumerate(found.words) if word in (MISSING, TOO_MUCH))
    width, far = found.side.scene.width, found.side.scene.far()
    ours, theirs = ("nothing" if depth >= far else "depth %d" % depth for depth in (found.ours[at], found.theirs[at]))
    return "%s at x %d, y %d of side %s%s: ours %s, theirs %s" % (
        found.words[at], at % width, at // width, found.side.name, " cut at %d" % found.cut if found.cut else "", ours, theirs)


def is_mesh(path: str) -> bool:
    """Whether a file is a mesh, by its name."""
    return kind_of(path) in mesh_files.READERS


def report(expression: str, result: str, sides: int = verifying.SIDES, cuts: int = verifying.CUTS, size: tuple[int, int] = verifying.SIZE,
           out: Optional[str] = None) -> int:
    """Prints a row for each picture, the volumes, and the verdict: right, or wrong with the first such pixel or by the volume;
    the exit status.

    A model is drawn from so many sides, 1 to 100, and so many cuts from each, 0 to 100, in pictures of `size` pixels, 8 to 512 a
    side. A PNG of each picture with something wrong goes into the folder `out`: ours, theirs, and where the result misses
    something (red) or has too much (blue)."""
    draw, mesh = verifying.drawer(program.needed(None)), mesh_of(result)
    first, volumes = None, list[Volume]()
    print("%-10s %5s  %s" % ("side", "cut", " ".join("%8s" % word for word in COUNTS)))
    for found in verifying.seen(sides_of(expression, mesh, sides, size), cuts, draw):
        counts = {word: found.words.count(word) for word in COUNTS}
        print("%-10s %5s  %s" % (found.side.name, found.cut or "-", " ".join("%8d" % counts[word] for word in COUNTS)))
        if verifying.is_wrong(counts):
            first = first or first_wrong(found)
            if out:
                verifying.leave(out, found)
        if not found.cut:
            volumes.append(volume_of(found.side))
    ours, theirs, room = (sum(each) for each in zip(*volumes))
    print("the volume: %d cells of ours, %d of theirs, which may differ by %.0f" % (ours, theirs, room))
    for note in mesh.notes():
        print("the mesh: " + note)
    if not first and abs(ours - theirs) > room:
        first = "the volumes differ"
    print("wrong: " + first if first else "right")
    return 1 if first else 0
