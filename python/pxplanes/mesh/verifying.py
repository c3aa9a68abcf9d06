"""Compares a mesh with the expression that it was made of: the program's pictures of the expression, from several sides
and through cuts, with rays through the mesh. `pxplanes compare` and `tools/dev/league` judge by it."""
import collections
import math
import os
from typing import Any, Iterator, Sequence, Union

from pxplanes import program
from pxplanes.errors import Trouble
from pxplanes.image import netpbm
from pxplanes.mesh import facets, kinds, modelling, solids, views
from pxplanes.mesh.crossings import Crossings
from pxplanes.scene import scenes, texts

SIZE, BITS, SIDES, CUTS = (64, 48), (12, 6), 6, 3
GOLDEN = 180 * (3 - math.sqrt(5))
ASIDE = 0.05
AROUND = [(i * ASIDE, j * ASIDE) for i in (0, -1, 1) for j in (0, -1, 1)]
RED, BLUE, GREY, BLACK = (214, 40, 40), (40, 80, 220), (160, 160, 160), (0, 0, 0)
ALIKE, ROUNDING, MISSING, TOO_MUCH = "alike", "rounding", "missing", "too much"

# A picture of the expression, and where the mesh's points are in it; `near` is by how many cells a depth
# may be off, by what was rounded of the planes and of the mesh's points.
Side = collections.namedtuple("Side", "name scene text crossings near")
# What is at the pixels of a side through a cut: ours and theirs row by row, and a word for each pixel.
Seen = collections.namedtuple("Seen", "side cut ours theirs words")


class Mesh:
    """A kernel's result; without facets it is nothing."""

    def __init__(self, points: kinds.Points, sides: Any) -> None:
        self.points, self.is_inwards = points, bool(sides) and facets.volume(points, sides) < 0
        self.sides = [side[::-1] for side in sides] if self.is_inwards else sides
        self.open_edges = facets.open_edges(sides)
        self.digit = 2 * facets.digit_of(points) * facets.extent(points)[0] if points else 0

    def seen(self, place: Any, cells: float) -> tuple[Crossings, float]:
        return Crossings([place(point) for point in self.points], self.sides), self.digit * cells

    def notes(self) -> list[str]:
        """What is to be reported of the mesh itself."""
        return ["its facets look inwards, and are taken the other way round"] * self.is_inwards + [
            "it is not closed: %d edges are not passed as often one way as the other" % self.open_edges
        ] * bool(self.open_edges)


def turn_of(at: int, count: int) -> tuple[float, float, float]:
    """The turn of one of so many sides, which are spread evenly over the sphere."""
    return math.degrees(math.acos(1 - (2 * at + 1) / count)), 0.0, GOLDEN * at % 360


def of_tree(tree: kinds.Tree, mesh: Any, count: int, size: Sequence[int] = SIZE) -> Iterator[Side]:
    """The sides of a model's tree. Both the model and the mesh are within each picture."""
    far = 2 ** BITS[0] - 1
    both = ("+", [tree, solids.Solid("result", 0, mesh.points, [], None)]) if mesh.points else tree
    for at in range(count):
        turn = turn_of(at, count)
        view = views.fitted(turn, size, None, far, both)
        text, (off, _) = modelling.scene_of(tree, view, modelling.Choices(size=size, depth=BITS, flat=True))

        def place(point: kinds.Vector) -> Any:
            column, row = view.places([point])[0]
            return column, row, (view.turned(point)[1] - view.nearest) * view.cells

        crossings, digits = mesh.seen(place, view.cells)
        yield Side("%.0f %.0f" % (turn[0], turn[2]), modelling.checked(text), text, crossings, 1 + 2 * off + digits)


def of_scene(content: bytes, mesh: Any) -> Iterator[Side]:
    """The one side of a scene's bytes, whose mesh is as `export` writes it."""
    try:
        scene = scenes.read(content)
    except scenes.Refusal as refusal:
        raise Trouble("the scene is refused: %s" % refusal.note)
    crossings, digits = mesh.seen(lambda point: (point[0], -point[1], -point[2]), 1)
    yield Side("picture", scene, texts.text_of(scene), crossings, 1 + digits)


def through(text: str, cut: int, scene: Any) -> str:
    """The text of a scene without what is nearer than a cut."""
    if not cut:
        return text
    head, _, show = text.rstrip().rpartition("\nshow ")
    name = "cut" + "_" * max(len(solid.name) for solid in scene.solids)
    return "%s\nsolid %s 0 0 0\nfront 0 0 %d\nshow (%s * %s)\nend\n" % (
        head, name[:16], cut << scene.fraction_bits, show.rsplit("\n", 1)[0], name[:16])


def is_beside(side: Any, x: float, y: float, cut: int, ours: Any, right: float, down: float, grow: float) -> bool:
    """Whether the mesh has a depth a little away from a pixel, or what is there goes on to it in a straight line; its
    spans are longer by `grow` at both ends."""
    far, room = side.scene.far(), side.near + abs(grow)
    other = side.crossings.depth(x + right, y + down, cut, far, grow)
    if abs(ours - other) <= room:
        return True
    further = side.crossings.depth(x + 2 * right, y + 2 * down, cut, far, grow)
    return max(other, further) < far and bool(abs(ours - (2 * other - further)) <= room + 1)


def word_of(side: Any, x: float, y: float, cut: int, ours: Any) -> tuple[str, int]:
    """What is at a pixel, and the mesh's depth there."""
    far = side.scene.far()
    theirs = side.crossings.depth(x, y, cut, far)
    if abs(ours - theirs) <= side.near:
        return ALIKE, theirs
    if any(is_beside(side, x, y, cut, ours, *way, grow) for way in AROUND for grow in (0, side.near, -side.near)):
        return ROUNDING, theirs
    return (MISSING if theirs > ours else TOO_MUCH), theirs


def looked(side: Any, cut: int, depths: Any) -> Seen:
    """A side through a cut, with the program's depths of it."""
    found = [word_of(side, at % side.scene.width, at // side.scene.width, cut, ours) for at, ours in enumerate(depths)]
    return Seen(side, cut, depths, [theirs for _, theirs in found], [word for word, _ in found])


def seen(sides: Any, cuts: int, draw: Any) -> Iterator[Seen]:
    """Each side, whole and through so many cuts; `draw` gives the depths of a scene's text."""
    for side in sides:
        for which in range(cuts + 1):
            cut = side.scene.far() * which // (cuts + 1)
            yield looked(side, cut, draw(through(side.text, cut, side.scene)))


def is_wrong(counts: Any) -> bool:
    """Whether a pixel differs by more than rounding."""
    return bool(counts[MISSING] or counts[TOO_MUCH])


def picture(found: Any) -> Any:
    """Ours, theirs and what is missing (red) or too much (blue) side by side, as PNG."""
    width, height, far = found.side.scene.width, found.side.scene.height, found.side.scene.far()

    def grey(depth: int) -> Any:
        return (255, 255, 255) if depth >= far else (round(20 + 200 * depth / far),) * 3

    colours, marks = [], {MISSING: RED, TOO_MUCH: BLUE, ROUNDING: GREY}
    for y in range(height):
        row = slice(y * width, (y + 1) * width)
        colours += [grey(depth) for depth in found.ours[row]] + [BLACK] + [grey(depth) for depth in found.theirs[row]]
        colours += [BLACK] + [marks.get(word, (255, 255, 255)) for word in found.words[row]]
    return netpbm.png(3 * width + 2, height, colours, 768)


def leave(folder: str, found: Any) -> None:
    """Puts a picture of what is wrong into a folder."""
    os.makedirs(folder, exist_ok=True)
    leaf = "%s-cut%d.png" % (found.side.name.replace(" ", "-"), found.cut)
    with open(os.path.join(folder, leaf), "wb") as file:
        file.write(picture(found))


def drawer(path: str) -> Any:
    """What draws the depths of a scene's text, by the program at a path."""
    def draw(text: Union[str, bytes]) -> Any:
        text = text if isinstance(text, bytes) else text.encode()
        return netpbm.images(program.output(path, "render", text))[0].numbers()

    return draw
