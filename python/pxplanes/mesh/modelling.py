"""Makes a scene's text of a model; docs/MODELLING.md explains each step."""
from __future__ import annotations

import copy
import math
import os
from dataclasses import dataclass
from typing import Any, Optional, Sequence

from pxplanes import ends
from pxplanes.errors import Trouble
from pxplanes.mesh import bounding, csg, facets, kinds, mesh_files, openscad, perspective, solids, views
from pxplanes.scene import limits, rays, scenes

# The bits of a depth and its fraction bits, where the model is not in perspective and no others are asked.
USUAL_DEPTH = (12, 8)
SIDE_SIZE = 2 ** 20
LIGHT = (-0.42, -0.74, 0.53)
DULL = 0.35
KINDS_OF_PLANES = ("front", "back", "side")
KINDS = ("csg", "scad", *mesh_files.READERS)
# The matrices that put the y axis of a file upwards, and the z axis of one whose y axis is.
UPWARDS = {"y": [[1, 0, 0, 0], [0, 0, -1, 0], [0, 1, 0, 0]], "z": [[1, 0, 0, 0], [0, 0, 1, 0], [0, -1, 0, 0]]}
UNITS = {"um": 0.001, "mm": 1, "cm": 10, "in": 25.4, "ft": 304.8, "m": 1000}
OF_UNITS = ("3mf", "glb", "gltf")
PROJECTIONS = {"o": False, "ortho": False, "p": True, "perspective": True}
OF_PERSPECTIVE = ("eye", "at", "fov", "near", "far")
LEAST_DEPTH_BITS = 12
ASIDE = 0.001
LEAST_COLUMNS = 8


def say(line: str) -> None:
    ends.say("pxplanes convert", line)


def spelled(tree: kinds.Tree, names: Any) -> str:
    """The expression of a tree; long unions and intersections become balanced."""
    if not isinstance(tree, tuple):
        return str(names[id(tree)])
    sign, trees = tree
    return solids.halved(sign, [spelled(part, names) for part in trees])


def value(form: kinds.Form, place: kinds.Vector) -> float:
    return form[0] * place[0] + form[1] * place[1] + form[2]


def rounded(form: kinds.Form, parts: int, low: Any, high: Any) -> tuple[tuple[int, int, int], float]:
    """A plane in whole parts of a cell, true in the middle of these corners; and by how many cells
    it is off at the worst of them, without the last digits, which differ where it is off by as many."""
    a, b = (round(part * parts) for part in form[:2])
    middle = [(one + other) / 2 for one, other in zip(low[:2], high)]
    c = round(value(form, middle) * parts - a * middle[0] - b * middle[1])
    corners = [(x, y) for x in (low[0], high[0]) for y in (low[1], high[1])]
    off = max(abs(value((a, b, c), corner) / parts - value(form, corner)) for corner in corners)
    return (a, b, c), round(off, 9)


def whole_side(form: kinds.Form) -> tuple[int, ...]:
    """A side in whole numbers, as exact as they may be."""
    factor = SIDE_SIZE / max(abs(form[0]), abs(form[1]))
    factor = min(factor, (limits.MAX_CONSTANT - 1) / max(abs(form[2]), 1e-9))
    return tuple(round(part * factor) for part in form)


def shaded(colour: Sequence[int], normal: kinds.Vector, view: Any) -> tuple[int, ...]:
    """A colour by the way that a surface looks: light comes from the upper left."""
    right, away, up = view.turned(normal)
    light = max(0, right * LIGHT[0] + away * LIGHT[1] + up * LIGHT[2])
    return tuple(round(part * (DULL + (1 - DULL) * light)) for part in colour)


class Steep(Trouble):
    """A plane too steep for a front or a back, whose face is at some pixel."""


def steepness(form: kinds.Form, parts: int) -> float:
    """By how many times a plane is too steep for a front or a back, above 1."""
    return max(abs(form[0]), abs(form[1])) * parts / limits.MAX_SLOPE


def pixel_of(form: kinds.Form, face: Any, size: Sequence[int]) -> Optional[tuple[int, int]]:
    """A pixel at which a steep plane passes through the box of its face in the picture; None for none."""
    low, high = face
    along = 0 if abs(form[0]) >= abs(form[1]) else 1
    other = 1 - along
    for at in range(max(0, math.ceil(low[other])), min(size[other] - 1, math.floor(high[other])) + 1):
        ends = sorted((depth - form[other] * at - form[2]) / form[along] for depth in (low[2], high[2]))
        first = math.ceil(max(ends[0], low[along], 0))
        if first <= min(ends[1], high[along], size[along] - 1):
            return (first, at) if along == 0 else (at, first)
    return None


def planes_of(solid: Any, view: Any, parts: int, flat: bool) -> Any:
    """Kind, plane and colour of each of a solid's planes, and the worst rounding of one with what it is."""
    out: list[Any] = []
    worst: tuple[float, str] = (0, "")
    counts: dict[str, int] = {}
    for number, half in enumerate(solid.planes):
        kind, form = view.half_space(half)
        low, high = view.where(half)
        if kind != "side" and steepness(form, parts) > 1:
            face = view.face(half, solid.corners[number] or solid.points)
            at = face and pixel_of(form, face, view.size)
            if at:
                raise Steep("%s: a plane that is too steep for a %s is seen at x %d, y %d; --depth W F with fewer bits "
                            "makes it less steep, and `pxplanes convert --draw MAPS` draws it at any depth" % (
                                solid.name(), kind, *at))
            a, b, c = form[0], form[1], form[2] - sum(end[2] for end in face or (low, high)) / 2
            kind, form = "side", (-a, -b, -c) if kind == "front" else (a, b, c)
        counts[kind] = counts.get(kind, 0) + 1
        if kind == "side":
            out.append((kind, whole_side(form), ()))
            continue
        plane, off = rounded(form, parts, low, high)
        worst = max(worst, (off, "%s %d" % (kind, counts[kind])))
        outward = half.normal if kind == "front" else half.turned().normal
        out.append((kind, plane, solid.colour if flat else shaded(solid.colour, outward, view)))
    return out, worst


def box_of(places: Any) -> Any:
    """The columns and the rows of the box of a solid's corners in the picture, from and to; None where it
    is too far away to be written."""
    if not places or max(abs(part) for place in places for part in place) > limits.MAX_SLOPE:
        return None
    return [(math.ceil(min(parts) - ASIDE), math.floor(max(parts) + ASIDE)) for parts in zip(*places)]


def sides_of_box(box: Any) -> list[Any]:
    """The sides of a box, where planes that are nearly one would leave it far away."""
    (left, right), (top, bottom) = box
    return [("side", side, ()) for side in ((1, 0, -left), (-1, 0, right), (0, 1, -top), (0, -1, bottom))]


class Laid:
    """A solid as a scene has it: its planes, the box that is kept around it, if any, and its worst rounding
    of a plane with what that is. `counts` says how many planes of each kind are written."""

    def __init__(self, solid: Any, planes: Any, worst: Any, box: Any) -> None:
        self.solid, self.planes, self.worst = solid, planes + (sides_of_box(box) if box else []), worst
        self.counts = {kind: sum(own == kind for own, _, _ in self.planes) for kind in KINDS_OF_PLANES}
        self.parts = max(1, *(-(-count // limits.MAX_PLANES_OF_A_KIND) for count in self.counts.values()))
        self.faces = self.parts + self.counts["front"] + self.counts["back"]

    def lines(self, name: str) -> tuple[list[str], str]:
        """Its lines, and how its names are joined. One with more planes of a kind than a solid may have is
        the common part of several, each with some of the planes of every way."""
        names = [name] if self.parts == 1 else ["%s_%d" % (name, part + 1) for part in range(self.parts)]
        own = [["solid %s %d %d %d" % ((each,) + self.solid.colour)] for each in names]
        given = dict.fromkeys(self.counts, 0)
        for kind, plane, colour in self.planes:
            own[given[kind] % self.parts].append(" ".join(map(str, (kind,) + plane + colour)))
            given[kind] += 1
        return [line for lines in own for line in lines], solids.halved("*", names)

    def met(self, view: Any, choices: Any, columns: Any, is_first: bool) -> Optional[Laid]:
        """The same by the planes alone that bound it, or its first cell, at some pixel of these columns; None where it
        is next to them."""
        (width, height), (depth, fraction) = choices.size, choices.bits
        box = box_of(view.places(self.solid.points)) or [(0, width - 1), (0, height - 1)]
        box = [(max(low, least), min(high, most)) for (low, high),
               (least, most) in zip(box, (columns, (0, height - 1)))]
        if any(low > high for low, high in box):
            return None
        needed = bounding.needed([plane[:2] for plane in self.planes], 2 ** depth - 1, fraction, box, is_first)
        return Laid(self.solid, [plane for number, plane in enumerate(self.planes) if number in needed], self.worst,
                    box)


def laid_out(tree: kinds.Tree, view: Any, choices: Any) -> dict[int, Laid]:
    """How each solid of a tree is drawn, by its identity."""
    out = {}
    for solid, _ in solids.leaves(tree):
        planes, worst = planes_of(solid, view, 2 ** choices.bits[1], choices.flat)
        out[id(solid)] = Laid(solid, planes, worst, box_of(view.places(solid.points)) if solid.is_part else None)
    return out


def most_faces(choices: Any) -> int:
    """How many faces a scene of these depths may have."""
    return min(limits.MAX_FACES, int(1 << ((scenes.BITS - 2) // 2 - sum(choices.bits))) - 1)


def is_within(tree: kinds.Tree, laid: Any, choices: Any) -> bool:
    """Whether one scene may have all solids of a tree, and their products."""
    own = [laid[id(solid)] for solid, _ in solids.leaves(tree)]
    return (sum(each.parts for each in own) <= limits.MAX_SOLIDS
            and sum(each.faces for each in own) <= most_faces(choices)
            and products(tree, laid) <= limits.MAX_PRODUCTS)


def products(tree: kinds.Tree, laid: Any, added: bool = True) -> int:
    """How many products a tree has, or where it is taken away its complement (docs/PICTURE.md, "Sums of products")."""
    if not isinstance(tree, tuple):
        return 1 if added else int(laid[id(tree)].parts)
    counts = [products(part, laid, added != (tree[0] == "-" and at > 0)) for at, part in enumerate(tree[1])]
    return sum(counts) if (tree[0] == "+") == added else math.prod(counts)


def restricted(tree: kinds.Tree, laid: Any, view: Any, choices: Any, columns: Any, is_seen: bool) -> Any:
    """A tree by the planes that bound its solids at the pixels of these columns, and how it is laid out. Where what is
    seen is enough, the operands of a union are bounded by what they have in front."""
    firsts, out = set(map(id, operands(tree))) if is_seen else (), {}

    def within(solid: Any) -> Any:
        own = laid[id(solid)].met(view, choices, columns, id(solid) in firsts)
        if own:
            solid = copy.copy(solid)
            out[id(solid)] = own
        return solid if own else None

    return solids.each(tree, within), out


def operands(tree: kinds.Tree) -> list[Any]:
    """The operands of a union, and of unions in it; the tree itself where it is none."""
    if isinstance(tree, tuple) and tree[0] == "+":
        return [own for part in tree[1] for own in operands(part)]
    return [tree]


def as_one(tree: kinds.Tree, view: Any, choices: Any, is_seen: bool = False) -> Any:
    """A tree as one scene has it, and how it is laid out: by all planes of its solids, or where these are too many, by
    those that bound them at some pixel, and at last, where what is seen is enough, by those that bound what is."""
    laid = laid_out(tree, view, choices)
    if is_within(tree, laid, choices):
        return tree, laid
    for way, what in ((False, "a solid"), (True, "what is seen of a solid"))[:1 + is_seen]:
        fewer, met = restricted(tree, laid, view, choices, (0, choices.size[0] - 1), way)
        if fewer and is_within(fewer, met, choices):
            say("of %d planes, too many for a scene, those %d are drawn that bound %s at some pixel, as %d solids; "
                "the picture is the same, and finer or wider ones are not" % (
                    count_of(laid), count_of(met), what, sum(own.parts for own in met.values())))
            return fewer, met
    if fewer and products(fewer, met) > limits.MAX_PRODUCTS:
        parts = in_windows(fewer, met, view, choices)
        whole = solids.joined("+", [part for part, _ in parts])
        own = {key: each for _, laid in parts for key, each in laid.items()}
        if whole and is_within(whole, own, choices):
            say("its %d products are too many for a scene, so that it is drawn as the union of what it is in %d parts "
                "of the picture; the picture is the same, and finer or wider ones are not" % (
                    products(fewer, met), len(parts)))
            return whole, own
    raise Trouble("the model makes no scene: %s; fewer facets or a smaller picture take less, and `--draw MAPS` draws "
                  "it by columns" % too_much(fewer or tree, met if fewer else laid, choices))


def too_much(tree: kinds.Tree, laid: Any, choices: Any) -> str:
    if products(tree, laid) > limits.MAX_PRODUCTS:
        return "it has %d products, and a scene has at most %d" % (products(tree, laid), limits.MAX_PRODUCTS)
    return "at the pixels of the picture it has %d solids of %d faces, and a scene has at most %d of %d" % (
        sum(own.parts for own in laid.values()), sum(own.faces for own in laid.values()),
        limits.MAX_SOLIDS, most_faces(choices))


def count_of(laid: Any) -> int:
    return sum(len(own.planes) for own in laid.values())


def in_windows(tree: kinds.Tree, laid: Any, view: Any, choices: Any, columns: Any = None) -> list[Any]:
    """Trees whose union has the picture of a tree, each with how it is laid out: the operands of a union, and what has
    too many products by the planes that bound what is seen, then by halves of the picture."""
    if is_within(tree, laid, choices):
        return [(tree, {id(solid): laid[id(solid)] for solid, _ in solids.leaves(tree)})]
    if isinstance(tree, tuple) and tree[0] == "+" and not columns:
        return [own for part in operands(tree) for own in in_windows(part, laid, view, choices)]
    low, high = columns or (0, choices.size[0] - 1)
    part, own = restricted(tree, laid, view, choices, (low, high), True)
    if part is None or is_within(part, own, choices):
        return [(part, own)] if part else []
    if high - low < LEAST_COLUMNS:
        raise Trouble("the model makes no scene: in columns %d to %d alone, %s; fewer facets or a smaller picture "
                      "take less" % (low, high, too_much(part, own, choices)))
    middle = (low + high) // 2
    halves = ((low, middle), (middle + 1, high))
    return [each for half in halves for each in in_windows(tree, laid, view, choices, half)]


def text_of(tree: kinds.Tree, laid: Any, view: Any, choices: Any) -> tuple[str, Any]:
    """The text of a tree's scene, and the worst rounding."""
    (width, height), (depth, fraction) = choices.size, choices.bits
    lines = view.notes() + ["pxscene 3" if fraction else "pxscene 1", "picture %d %d" % (width, height),
                            "depth %d %d" % (depth, fraction) if fraction else "depth %d" % depth]
    counts: dict[str, int] = {}
    names, worst = {}, (0, "")
    for solid, _ in solids.leaves(tree):
        counts[solid.kind] = counts.get(solid.kind, 0) + 1
        name = "%s_%d" % (solid.kind, counts[solid.kind])
        own, names[id(solid)] = laid[id(solid)].lines(name)
        off, where = laid[id(solid)].worst
        lines, worst = lines + own, max(worst, (off, where and "%s of %s" % (where, name)))
    return "\n".join(lines + ["show " + spelled(tree, names), "end", ""]), worst


def scene_of(tree: kinds.Tree, view: Any, choices: Any) -> tuple[str, Any]:
    """The text of the scene, and the worst rounding."""
    tree, laid = as_one(tree, view, choices)
    return text_of(tree, laid, view, choices)


def checked(text: str) -> Any:
    try:
        scene = scenes.read(text.encode())
        scenes.pixel_memory(scene)
        return scene
    except scenes.Refusal as refusal:
        raise Trouble("the model makes no scene: %s%s" % (refusal.note, "; " + refusal.limit if refusal.limit else ""))


@dataclass
class Choices:
    """How a model becomes a scene: what the options of `pxplanes convert` say.

    `size` is the picture in pixels, 1 to 512 a side; `depth` has the bits of a depth and its fraction bits; `view`
    turns the model as OpenSCAD's $vpr does, in degrees; `scale` is pixels to a unit. `camera` has the numbers of
    OpenSCAD's --camera, 6 or 7; `unit` is that of a file that says none, which becomes millimetres, and `up` the axis
    that is upwards in it. `eye` and `at` are points of the model; `fov` is the picture's height in degrees; `near` and
    `far` are distances along the axis."""

    view: Sequence[float] = (55.0, 0.0, 25.0)
    size: Sequence[int] = (128, 96)
    depth: Optional[Sequence[int]] = None
    scale: Optional[float] = None
    camera: Optional[Sequence[float]] = None
    projection: Optional[str] = None
    eye: Optional[Sequence[float]] = None
    at: Optional[Sequence[float]] = None
    fov: Optional[float] = None
    near: Optional[float] = None
    far: Optional[float] = None
    flat: bool = False
    kind: Optional[str] = None
    unit: Optional[str] = None
    up: Optional[str] = None
    bits: Sequence[int] = USUAL_DEPTH

    def __post_init__(self) -> None:
        """Raises `Trouble` for what does not go together, or is out of range."""
        for name, count in (("size", 2), ("depth", 2), ("view", 3)):
            given = getattr(self, name)
            if given is not None and len(given) != count:
                raise Trouble("%s needs %d numbers" % (name, count))
        own = [name for name in OF_PERSPECTIVE if getattr(self, name) is not None]
        word = self.projection or ("p" if own else "o")
        if own and not PROJECTIONS[word]:
            raise Trouble("--%s is for --projection p" % own[0])
        if (self.eye is None) != (self.at is None) or self.eye is not None and self.camera is not None:
            raise Trouble("--eye and --at go together, and without --camera")
        if self.eye is not None and self.at is not None:
            self.camera = [*self.eye, *self.at]
        if self.camera is not None and self.scale is not None:
            raise Trouble("--camera says the scale and what the picture has; --scale does not go with it")
        self.in_perspective = PROJECTIONS[word]
        if self.in_perspective and self.scale is not None:
            raise Trouble("--scale is for --projection o")
        self.bits = list(self.depth or USUAL_DEPTH)
        depth, fraction = self.bits
        if not (all(1 <= side <= limits.MAX_PICTURE_SIZE for side in self.size) and 1 <= depth <= limits.MAX_DEPTH_BITS
                and 0 <= fraction <= min(limits.MAX_FRACTION_BITS, limits.MAX_DEPTH_BITS - depth)
                and (self.scale is None or self.scale > 0)):
            raise Trouble("the picture is from 1 to 512 pixels a side, --depth W from 1 to 24, F from 0 to "
                          "8, both to 24, and a scale above 0")


def tree_of(name: str, kind: str) -> Any:
    """The tree of the convex solids of the model in a file."""
    return solids.divided(whole_tree(name, kind))


def whole_tree(name: str, kind: str) -> Any:
    """The tree of the model in a file, in which meshes are not divided."""
    if kind == "scad":
        return csg.read(openscad.csg_of(name), os.path.dirname(name))
    if kind == "csg":
        return csg.read(ends.content(name), os.path.dirname(name))
    return csg.of_mesh_file(kind, ends.content(name), folder=os.path.dirname(name) or ".")


def wanted_bits(size: Sequence[int], faces: int) -> list[int]:
    """Depth and fraction bits by which no plane is off by more than a cell, and distances are best."""
    off = (size[0] + size[1] - 2) / 4 + 0.5
    fraction = min(limits.MAX_FRACTION_BITS, math.ceil(math.log2(off)))
    return [min(limits.MAX_DEPTH_BITS, (scenes.BITS - 2) // 2 - faces.bit_length()) - fraction, fraction]


def before_camera(choices: Any, bits: Any, tree: kinds.Tree) -> Any:
    """The view of the perspective camera that is choices, or of one that has the whole model."""
    numbers = choices.camera or perspective.around(choices.view, choices.fov, choices.size, tree)
    return perspective.of_camera(numbers, choices.fov, choices.size, 2 ** bits[0] - 1, (choices.near, choices.far), tree)


def in_perspective(choices: Any, tree: kinds.Tree) -> Any:
    """The view of a perspective camera, and the bits that it needs: so few of depth that no plane is
    too steep which has a face in the picture. They are taken where no others are said."""
    planes = [plane for solid, _ in solids.leaves(tree) for plane in solid.planes]
    bits = wanted_bits(choices.size, min(limits.MAX_FACES, len(solids.leaves(tree)) + len(planes)))
    view = before_camera(choices, bits, tree)
    halves = [view.half_space(plane) for plane in planes if view.face(plane, ())]
    times = [steepness(form, 2 ** bits[1]) for kind, form in halves if kind != "side"]
    # (what fewer bits do not help is a side, or refused)
    steepest = max((own for own in times if own <= 2 ** (bits[0] - LEAST_DEPTH_BITS)), default=1)
    if steepest > 1:
        bits[0] = max(LEAST_DEPTH_BITS, bits[0] - math.ceil(math.log2(steepest)))
        view = before_camera(choices, bits, tree)
    if not choices.depth:
        choices.bits = bits
        return view, bits
    return before_camera(choices, choices.bits, tree), bits


def tell(shown: Any, view: Any, worst: Any, choices: Any, wanted: Any) -> None:
    """Says how the planes were rounded, and what of the model the picture does not have."""
    off, where = worst
    if where:
        say("the worst plane is rounded by %.2g cells of %d within %s: %s" % (
            off, 2 ** choices.bits[0] - 1, "its face" if wanted else "the picture", where))
    if wanted:
        distances = view.camera.distances
        say("near %.4g, far %.4g; a distance is off by at most %.2g, at far; the picture needs --depth %d %d" % (
            distances.near, distances.far, (off + 1) * distances.far ** 2 / distances.scale, *wanted))
    tell_of_edges(view, not rays.shows_anything(shown))


def tell_of_edges(view: Any, is_empty: bool) -> None:
    """Says what the edges of the picture cut off, and why a picture is empty."""
    for line in view.cut_off() + ["the picture is empty: %s" % view.why_empty()] * is_empty:
        say(line)


def is_model(name: str) -> bool:
    """Whether a file is a model, by its ending."""
    kind = os.path.splitext(name)[1][1:].lower()
    return kind in KINDS or kind in mesh_files.more_kinds()


def read(name: str, choices: Any) -> Any:
    """The tree of the model in a file, in which meshes are not divided."""
    kind = choices.kind or os.path.splitext(name)[1][1:].lower() or "csg"
    if kind not in KINDS and kind not in mesh_files.more_kinds() or kind == "scad" and name == "-":
        raise Trouble("%s is no %s; --kind says what it is, and more is read with the Python package trimesh" % (
            name, ", ".join("." + each for each in KINDS)))
    if choices.unit and kind in OF_UNITS:
        raise Trouble("a .%s file says its unit, which becomes millimetres; --unit is for the others" % kind)
    tree, up = there(whole_tree(name, kind)), "y" if kind in ("glb", "gltf") else "z"
    if (choices.unit, choices.up or up) == (None, up):
        return tree
    turn = UPWARDS[choices.up] if choices.up not in (None, up) else solids.AS_IS
    factor = UNITS[choices.unit or "mm"]
    matrix = [[factor * part for part in row] for row in turn]
    return solids.each(tree, lambda leaf: leaf.moved(matrix, leaf.colour))


def there(tree: kinds.Tree) -> Any:
    if tree is None:
        raise Trouble("the model has no solid")
    return tree


def seen(tree: kinds.Tree, choices: Any) -> Any:
    """How a tree of convex solids is laid into the picture, and the bits that perspective needs."""
    if choices.in_perspective:
        return in_perspective(choices, tree)
    return parallel(tree, choices), None


def parallel(tree: kinds.Tree, choices: Any) -> Any:
    """How a tree is laid into the picture without perspective."""
    far = 2 ** choices.bits[0] - 1
    if choices.camera is not None:
        return views.of_camera(choices.camera, choices.size, far, tree)
    return views.fitted(choices.view, choices.size, choices.scale, far, tree)


def made(name: str, choices: Any) -> tuple[str, Any]:
    """The text of the scene of the model in a file, and what `tell` is handed to say what there is to say of it."""
    whole = read(name, choices)
    tree = there(solids.divided(whole))
    view, wanted = flatter(tree, choices)
    tree, laid = as_one(tree, view, choices, True)
    text, worst = text_of(tree, laid, view, choices)
    scene = checked(text)
    looked_at(whole, scene, view, choices, worst[0])
    return text, (scene, view, worst, choices, wanted)


def flatter(tree: kinds.Tree, choices: Any) -> Any:
    """How a tree is laid into the picture; where no depth is asked for, with so few fraction bits that no plane is too
    steep."""
    while True:
        found = seen(tree, choices)
        try:
            laid_out(tree, found[0], choices)
            return found
        except Steep:
            if choices.depth or choices.in_perspective or choices.bits[1] == 0:
                raise
            choices.bits[1] -= 1


def looked_at(whole: kinds.Tree, scene: Any, view: Any, choices: Any, rounded: float) -> None:
    """`Trouble` where the scene of meshes does not show what they have at the pixels of the picture; of other solids
    this is said. It needs NumPy; that the pixels of meshes are not compared is said."""
    meshes = [leaf for leaf, _ in solids.leaves(whole) if isinstance(leaf, solids.Mesh)]
    try:
        columns = columns_module()
    except Trouble as trouble:
        if meshes:
            say("the pixels of the scene are not compared with the model: %s" % trouble)
        return
    model = columns.Model(whole, view, choices.size)
    if model.is_cut and model.gaps():
        say("the pixels of the scene are not compared with the model: %s" % model.gaps()[0])
        return
    digits = [facets.digit_of(leaf.mesh[0]) * facets.extent(leaf.mesh[0])[0] * solids.growth(leaf.matrix) for leaf in meshes]
    count, at = columns.unlike(model, columns.shown_by(scene), choices.bits, rounded, max(digits, default=0))
    if count:
        why = ("the scene is not what the model is at %d pixels, the first x %d, y %d, as where a solid is thinner than a "
               "cell: --depth with more bits may make it so, and %s" % (count, *at, facets.UNDIVIDED))
        if digits:
            raise Trouble(why)
        say(why)


def columns_module() -> Any:
    """The module `columns`; `Trouble` where NumPy is not there."""
    try:
        from pxplanes.mesh import columns
    except ImportError:
        raise Trouble("this needs NumPy, which this Python has not (Debian's python3-numpy)") from None
    return columns


def by_columns(tree: kinds.Tree, choices: Any) -> Any:
    """The picture of a tree by columns (docs/MODELLING.md, "Columns"). `Trouble` where NumPy is not there."""
    columns = columns_module()
    if choices.in_perspective:
        choices.bits = list(choices.depth or wanted_bits(choices.size, 2 * limits.MAX_SOLIDS + 2))
        fov = choices.fov or views.FIELD
        numbers = choices.camera or perspective.around(choices.view, fov, choices.size, tree)
        view = columns.Before(numbers, fov, choices.size, 2 ** choices.bits[0] - 1, (choices.near, choices.far),
                              solids.leaves(tree))
    else:
        view = parallel(tree, choices)
    drawing = columns.draw(tree, view, choices.size, choices.bits)
    say("drawn by columns: %d triangles, %d columns in %d scenes; a depth is rounded by at most %.2g cells of %d" % (
        len(drawing.corners), drawing.columns, drawing.scenes, drawing.rounded, 2 ** choices.bits[0] - 1))
    tell_of_edges(view, not (drawing.shown >= 0).any())
    return drawing


def portrait(name: str, up: Optional[str] = None) -> Any:
    """The picture of the model in a file by columns, in perspective, so that it fills the picture; and the colours of
    its leaves."""
    choices = Choices(projection="p", up=up)
    tree = read(name, choices)
    choices.camera, choices.size = columns_module().portrait(solids.leaves(tree), choices.view, views.FIELD)
    return by_columns(tree, choices), [leaf.colour for leaf, _ in solids.leaves(tree)]
