"""Reads what OpenSCAD exports as .csg into a tree of convex solids: what `model` draws from."""
from __future__ import annotations

import functools
import os
import re
from typing import Any, Callable, Iterator, NamedTuple, Optional, Sequence

from pxplanes import ends
from pxplanes.errors import Trouble
from pxplanes.mesh import exact, facets, kinds, mesh_files, openscad, primitives, shaping, solids
from pxplanes.mesh.solids import AS_IS, joined

TOKEN = re.compile(r'\s+|//[^\n]*|/\*.*?\*/|([A-Za-z_$][A-Za-z0-9_$]*)|'
                   r'([-+]?(?:\d+\.?\d*|\.\d+)(?:[eE][-+]?\d+)?)|("(?:[^"\\]|\\.)*")|(.)', re.S)
DEEPEST = 200
MARKS = "%*#!"
JOINS = {"union": "+", "group": "+", "render": "+", "color": "+", "multmatrix": "+",
         "difference": "-", "intersection": "*"}
SOLIDS = ("cube", "cylinder", "sphere", "polyhedron", "import")
FLAT = ("square", "circle", "polygon")
SHAPERS = ("hull", "minkowski", "linear_extrude", "rotate_extrude", "resize")
YELLOW = (249, 215, 44)
LEFT_OUT = object()


class Untaken(Trouble):
    """A node that is not taken here, though OpenSCAD may make a mesh of what it is in."""


class Flat:
    """A convex flat shape by its corners."""

    def __init__(self, corners: kinds.Points) -> None:
        self.corners = corners
        self.points = [(x, y, 0.0) for x, y in corners]


class Place(NamedTuple):
    """Where a statement is: its matrix and colour, whether shapes are flat there, how deep it
    is, and whether another node makes a shape of it."""

    matrix: kinds.Matrix = AS_IS
    colour: kinds.Colour = None
    flat: bool = False
    depth: int = 0
    is_inside: bool = False

    def below(self, **changes: Any) -> Place:
        return self._replace(depth=self.depth + 1, **changes)

    def inside(self, flat: bool) -> Place:
        return self.below(matrix=AS_IS, flat=flat, is_inside=True)


class Reader:
    """Reads statements into trees, as solids.py has them."""

    def __init__(self, text: str, folder: Optional[str]) -> None:
        self.text, self.folder = text, folder or "."
        self.tokens, self.at = [], 0
        line = 1
        for match in TOKEN.finditer(text):
            if match.lastindex:
                self.tokens.append((match.lastindex, match.group(), line, match.start()))
            line += match.group().count("\n")
        self.last = line

    def line(self) -> int:
        return self.tokens[self.at][2] if self.at < len(self.tokens) else self.last

    def bad(self, what: str, line: Optional[int] = None, kind: type[Trouble] = Trouble) -> Trouble:
        return kind("line %d: %s" % (line or self.line(), what))

    def peek(self) -> str:
        return self.tokens[self.at][1] if self.at < len(self.tokens) else ""

    def take(self, wanted: Optional[str] = None) -> str:
        word = self.peek()
        if not word or wanted and word != wanted:
            raise self.bad("%s is expected, and not %s" % (wanted or "more", word or "the end"))
        self.at += 1
        return word

    def value(self, depth: int = 0, is_time: bool = False) -> Any:
        kind, word = self.tokens[self.at][:2] if self.at < len(self.tokens) else (0, "")
        self.take()
        if word == "[" and depth < DEEPEST:
            return list(self.listed("]", lambda: self.value(depth + 1)))
        if kind == 2:
            number = float(word)
            if not abs(number) <= 1e9 and not is_time:
                raise self.bad("%s is too large" % word)
            return number
        if kind == 3 or word in ("true", "false", "undef"):
            return {"true": True, "false": False, "undef": None}.get(word, word)
        raise self.bad("a value is expected, and not %s" % word)

    def listed(self, end: str, item: Callable[[], Any]) -> Iterator[Any]:
        """The items up to an end, with commas between them."""
        while self.peek() != end:
            yield item()
            if self.peek() != end:
                self.take(",")
        self.take(end)

    def argument(self) -> tuple[str, Any]:
        name = ""
        if self.at + 1 < len(self.tokens) and self.tokens[self.at + 1][1] == "=":
            name = self.take()
            self.take("=")
        return name, self.value(is_time=name == "timestamp")

    def arguments(self) -> dict[Any, Any]:
        """The arguments by name; those without one by their place."""
        self.take("(")
        return {name or at: value for at, (name, value) in enumerate(self.listed(")", self.argument))}

    def statements(self, end: Any, place: Any) -> list[Any]:
        trees = []
        while self.peek() != end:
            if self.peek() == ";":
                self.take()
            else:
                tree = self.statement(place)
                trees += [tree] if tree is not LEFT_OUT else []
        return trees

    def statement(self, place: Any) -> Any:
        if place.depth > DEEPEST:
            raise self.bad("it nests deeper than %d" % DEEPEST)
        marks = ""
        while self.peek() and self.peek() in MARKS:
            marks += self.take()
        line, start = self.line(), self.at
        if "%" in marks or "*" in marks:
            self.take()
            self.skipped()
            return LEFT_OUT
        if "!" in marks:
            raise self.bad("the mark ! is not read", line)
        try:
            return self.node(place, line)
        except Untaken as untaken:
            if place.is_inside or place.flat or self.tokens[start + 1:start + 2] and self.tokens[start + 1][1] != "(":
                raise
            return self.by_openscad(start, place, line, untaken)

    def by_openscad(self, start: int, place: Any, line: int, why: Any) -> Any:
        """The tree of a node's mesh, where OpenSCAD makes one."""
        self.at = start
        name = self.take()
        self.skipped()
        if not openscad.is_there():
            raise Trouble("%s; openscad could make a mesh of it, and is not there" % why)
        stop = self.tokens[self.at][3] if self.at < len(self.tokens) else len(self.text)
        try:
            mesh = openscad.mesh_of(self.text[self.tokens[start][3]:stop], self.folder)
            tree = solids.Mesh("part", line, lambda: mesh, YELLOW,
                               "%s; of the mesh of %s: %%s" % (str(why).replace("%", "%%"), name))
            ends.say("pxplanes convert", "line %d: %s is drawn as the mesh that openscad makes of it" % (line, name))
            return self.put(tree, place)
        except Trouble as bad:
            raise Trouble("%s; of the mesh of %s: %s" % (why, name, bad))

    def node(self, place: Any, line: int) -> Any:
        name = self.take()
        known = FLAT if place.flat else SOLIDS
        if name not in JOINS and name not in SHAPERS and name not in known:
            kind = Trouble if name in FLAT or re.match(r"[^A-Za-z_$]", name) else Untaken
            say = "is flat, and linear_extrude makes a solid of it" if name in FLAT else (
                "is not read here: only %s are" % ", ".join(list(JOINS) + list(SHAPERS) + list(known)))
            raise self.bad("%s %s" % (name, say), line, kind)
        found = self.arguments()
        try:
            if name in known:
                self.take(";")
                return self.primitive(name, found, place, line)
            if name in SHAPERS:
                return self.shaped(name, found, place, line)
            return joined(JOINS[name], self.body(self.changed(name, found, place)))
        except (KeyError, TypeError, ValueError, IndexError, AttributeError, ZeroDivisionError):
            raise self.bad("%s has arguments that are not understood" % name, line)

    def body(self, place: Any) -> list[Any]:
        if self.peek() == ";":
            self.take()
            return []
        self.take("{")
        trees = self.statements("}", place)
        self.take("}")
        return trees

    def skipped(self) -> None:
        """Passes over the arguments and the body of a node, whose name is taken."""
        depth, word = 0, ""
        while depth or word not in (";", "}"):
            word = self.take()
            depth += {"(": 1, "{": 1, ")": -1, "}": -1}.get(word, 0)

    def changed(self, name: str, found: Any, place: Place) -> Place:
        if name == "multmatrix":
            own = [exact.rationals(row[:4]) for row in found[0][:3]]
            return place.below(matrix=solids.times(place.matrix, own))
        if name == "color" and place.colour is None and found.get(0) is not None:
            return place.below(colour=tuple(min(255, max(0, round(255 * part))) for part in found[0][:3]))
        return place.below()

    def put(self, tree: kinds.Tree, place: Any) -> Any:
        """A tree at its place, in its colour."""
        return solids.each(tree, lambda solid: solid.moved(place.matrix, place.colour or YELLOW))

    def primitive(self, name: str, found: Any, place: Any, line: int) -> Any:
        try:
            if place.flat:
                return self.flat(name, found, place, line)
            if name == "import":
                tree = self.imported(found, line)
            else:
                shape = primitives.solid(name, found)
                tree = shape and (self.polyhedron(shape, line) if name == "polyhedron" else solids.of_mesh(
                    name, line, shape[0], shape[1], YELLOW, is_exact=True))
            return self.put(tree, place)
        except Untaken:
            raise
        except Trouble as bad:
            raise self.bad("%s %s" % (name, bad), line, Untaken if place.flat else Trouble)

    def imported(self, found: Any, line: int) -> Any:
        path = os.path.join(self.folder, found["file"][1:-1])
        kind = os.path.splitext(path)[1][1:].lower()
        if kind not in mesh_files.READERS:
            raise self.bad("import of .%s is not read here: only %s are" % (kind, mesh_files.ENDINGS), line, Untaken)
        try:
            data = ends.content(path)
        except OSError:
            raise Trouble("of %s, which cannot be read" % path)
        return of_mesh_file(kind, data, line, "line %d: import %%s" % line)

    def polyhedron(self, shape: Any, line: int) -> solids.Mesh:
        return solids.Mesh("polyhedron", line, lambda: shape, YELLOW, "line %d: polyhedron %%s" % line,
                           divide=lambda points, sides, colour,
                           line: solids.of_mesh("polyhedron", line, points, sides, colour))

    def flat(self, name: str, found: Any, place: Any, line: int) -> Any:
        if name == "polygon" and found.get("paths") and len(found["paths"]) > 1:
            raise self.bad("polygon of several paths is not read here", line, Untaken)
        if name == "polygon" and found.get("paths"):
            found["points"] = [found["points"][int(at)] for at in found["paths"][0]]
        corners = primitives.flat(name, found)
        pieces = shaping.convex_pieces(corners) if corners else []
        return joined("+", [flat_at(Flat(piece), place.matrix) for piece in pieces if piece])

    def shaped(self, name: str, found: Any, place: Any, line: int) -> Any:
        """The tree of a node that makes other shapes of those in it."""
        of_flat = place.flat or name.endswith("extrude")
        if place.flat and name.endswith("extrude"):
            raise self.bad("%s is no flat shape" % name, line)
        trees = self.body(place.inside(of_flat))
        try:
            tree = getattr(self, name)(trees, found, place, line)
        except Untaken:
            raise
        except Trouble as bad:
            kind = Untaken if "scipy" in str(bad) else Trouble
            raise self.bad("%s %s" % (name, bad), line, kind)
        return solids.each(tree, lambda flat: flat_at(flat, place.matrix)) if place.flat else self.put(tree, place)

    def convex(self, name: str, tree: kinds.Tree, flat: bool, line: int) -> list[Any]:
        """The convex shapes that a tree is the union of; a hull needs the points of its meshes alone."""
        if not flat and (name == "minkowski" or "*" in solids.signs(tree)):
            tree = solids.divided(tree)
        if "-" in solids.signs(tree) or flat and "*" in solids.signs(tree):
            raise self.bad("%s of a difference, or of flat shapes that intersect, is not read here" % name,
                           line, Untaken)
        return solids.convex_parts(tree, solids.met)

    def hull(self, trees: list[Any], found: Any, place: Any, line: int) -> Any:
        parts = self.convex("hull", joined("+", trees), place.flat, line)
        return self.hulled("hull", [point for part in parts for point in part.points], place, line)

    def hulled(self, name: str, points: kinds.Points, place: Any, line: int) -> Any:
        if not points:
            return None
        if place.flat:
            corners = shaping.flat_hull([point[:2] for point in points])
            return Flat(corners) if corners else None
        corners, planes, sides = shaping.hull(points)
        return solids.Solid(name, line, corners, planes, YELLOW, sides=sides)

    def minkowski(self, trees: list[Any], found: Any, place: Any, line: int) -> Any:
        parts: Optional[list[Any]] = None
        for tree in trees:
            own = self.convex("minkowski", tree, place.flat, line)
            if tree is None:
                continue
            parts = own if parts is None else [
                self.hulled("minkowski", shaping.sums(one.points, other.points), place, line)
                for one in parts for other in own]
        return joined("+", parts or [])

    def resize(self, trees: list[Any], found: Any, place: Any, line: int) -> Any:
        tree = joined("+", trees)
        parts = self.convex("resize", tree, place.flat, line)
        if not parts:
            return None
        low, high = facets.box_of([point for part in parts for point in part.points])
        factors = resized(found["newsize"], found["auto"], [b - a for a, b in zip(low, high)])
        matrix = [[factors[i] * (i == j) for j in range(3)] + [0] for i in range(3)]
        return solids.each(tree, lambda part: flat_at(part, matrix) if place.flat else part.moved(matrix, part.colour))

    def linear_extrude(self, trees: list[Any], found: Any, place: Any, line: int) -> Any:
        scale = found.get("scale", [1, 1])
        scale = scale if isinstance(scale, list) else [scale, scale]
        if found.get("twist") or scale[0] != scale[1]:
            raise self.bad("linear_extrude with a twist, or with two scales, is not read here", line, Untaken)
        if found["height"] <= 0:
            return None

        def prism(flat: Flat) -> Any:
            points, sides = shaping.prism(flat.corners, found["height"], scale, found.get("center"))
            return solids.of_mesh("prism", line, points, sides, YELLOW)

        return solids.each(joined("+", trees), prism)

    def rotate_extrude(self, trees: list[Any], found: Any, place: Any, line: int) -> Any:
        tree = joined("+", trees)
        flats = [flat for flat, _ in solids.leaves(tree)]
        least = min((x for flat in flats for x, _ in flat.corners), default=0)
        most = max((x for flat in flats for x, _ in flat.corners), default=0)
        angle = max(-360.0, min(360.0, found.get("angle", 360)))
        if least < 0:
            raise self.bad("rotate_extrude of what is at the left of the axis is not read here", line, Untaken)
        count = primitives.fragments(most, primitives.settings(found))
        count = max(int(count * abs(angle) / 360), 1)
        return solids.each(tree, lambda flat: joined("+", [
            solids.of_mesh("turned", line, points, sides, YELLOW)
            for points, sides in shaping.turned(flat.corners, angle, count, abs(angle) == 360)]))


def resized(wanted: kinds.Vector, auto: Sequence[bool], size: kinds.Vector) -> list[float]:
    """By how much each axis grows, as OpenSCAD's resize has it."""
    wanted, auto = [*wanted, 0, 0], [*auto, False, False]
    factors = [wish / have if wish > 0 and have > 0 else None for wish, have in zip(wanted, size)]
    free = factors[max(range(3), key=lambda i: wanted[i])] or 1
    return [factor or (free if by_itself else 1) for factor, by_itself in zip(factors, auto)]


def flat_at(flat: Any, matrix: kinds.Matrix) -> Flat:
    """A flat shape under a matrix."""
    points = solids.placed(matrix, flat.points)
    corners = [(x, y) for x, y, _ in points]
    return Flat(corners if shaping.area(corners) > 0 else corners[::-1])


def read(data: bytes, folder: Optional[str]) -> Any:
    """The tree of a .csg file of that folder."""
    reader = Reader(data.decode("latin-1"), folder)
    return joined("+", reader.statements("", Place()))


def of_mesh_file(kind: str, data: bytes, line: int = 0, words: str = "%s", folder: Optional[str] = None) -> solids.Mesh:
    """The mesh of a file's bytes."""
    return solids.Mesh("part", line, functools.cache(lambda: mesh_files.read(kind, data, folder)), YELLOW, words,
                       functools.cache(lambda: mesh_files.soup(kind, data)))
