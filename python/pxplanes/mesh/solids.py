"""Convex solids as `model` places them, and the trees that they are joined to. A tree is None for
nothing, a solid, or (sign, trees)."""
from __future__ import annotations

import functools
import itertools
import math
from typing import Any, Optional, Sequence

from pxplanes import ends
from pxplanes.errors import Trouble
from pxplanes.mesh import exact, facets, kinds

AS_IS = [[1, 0, 0, 0], [0, 1, 0, 0], [0, 0, 1, 0]]


class Solid:
    """`points` are its corners, and perhaps others of it; `planes` as in facets.py. One that is a part of
    another, whose planes may be nearly one, is kept within the box of its corners in the picture."""

    def __init__(self, kind: str, line: int, points: kinds.Points, planes: Any, colour: kinds.Colour,
                 is_part: bool = False, sides: Any = None) -> None:
        self.kind, self.line, self.colour, self.is_part = kind, line, colour, is_part
        self.points, self.planes, self.sides = points, planes, sides

    def name(self) -> str:
        return "line %d: %s" % (self.line, self.kind) if self.line else "the file"

    @functools.cached_property
    def corners(self) -> list[list[kinds.Vector]]:
        """Of each of its planes the corners on it, in order round it."""
        cloud = facets.Cloud(self.points)
        near = min(facets.NEAR * facets.SIX_DIGITS * max(abs(part) for part in cloud.low + cloud.high),
                   facets.SLIM * min(high - low for low, high in zip(cloud.low, cloud.high)))
        return [facets.in_order([point for point in cloud.beyond(normal, far - near)
                                 if facets.dot(normal, point) - far <= near], normal)
                for normal, far, _ in self.planes]

    def moved(self, matrix: kinds.Matrix, colour: kinds.Colour) -> Solid:
        """The solid under a matrix, in this colour; `Trouble` where the matrix makes it flat."""
        if matrix == AS_IS:
            return Solid(self.kind, self.line, self.points, self.planes, colour, self.is_part, self.sides)
        turned, sign = cofactors(floating(matrix))
        points = placed(matrix, self.points)
        cloud, planes = facets.Cloud(points), []
        for plane in self.planes:
            way = [sign * facets.dot(row, plane.normal) for row in turned]
            long = facets.lengthwise(way)
            way = [part / long for part in way]
            source = functools.cache(functools.partial(under, matrix, plane))
            planes.append(exact.Plane(way, cloud.farthest(way), source))
        return Solid(self.kind, self.line, points, planes, colour, self.is_part, self.sides)


class Mesh:
    """A mesh at its place, which is divided into convex parts only where these are needed. `read` gives its points and
    facets, `soup` its triangles as an array, where that is quicker, and `words` says where the mesh is in a refusal."""

    is_part, planes = False, ()
    triangles: Any        # an array, as columns.py keeps it

    def __init__(self, kind: str, line: int, read: Any, colour: kinds.Colour, words: Any = "%s", soup: Any = None,
                 matrix: kinds.Matrix = AS_IS, divide: Any = None) -> None:
        self.kind, self.line, self.read, self.colour, self.words, self.soup = kind, line, read, colour, words, soup
        self.matrix, self.divide = matrix, divide or of_file

    def name(self) -> str:
        return "line %d: %s" % (self.line, self.kind) if self.line else "the file"

    @functools.cached_property
    def mesh(self) -> Any:
        try:
            return self.read()
        except Trouble as bad:
            raise Trouble(self.words % bad)

    @functools.cached_property
    def points(self) -> Any:
        found = self.soup and self.soup()
        if found is not None:
            from pxplanes.mesh import columns
            return columns.corners_of(self).reshape(-1, 3)
        return placed(self.matrix, self.mesh[0])

    @property
    def sides(self) -> Any:
        return self.mesh[1]

    def moved(self, matrix: kinds.Matrix, colour: kinds.Colour) -> Mesh:
        """The mesh under a matrix, in this colour."""
        return Mesh(self.kind, self.line, self.read, colour, self.words, self.soup, times(matrix, self.matrix),
                    self.divide)

    def divided(self) -> Any:
        """The tree of its convex parts."""
        try:
            tree = self.divide(self.mesh[0], self.mesh[1], self.colour, self.line)
            self.parts = each(tree, lambda solid: solid.moved(self.matrix, self.colour))
            return self.parts
        except Trouble as bad:
            raise Trouble(self.words % bad)


def divided(tree: kinds.Tree) -> Any:
    """The tree in which each mesh is its convex parts."""
    return each(tree, lambda leaf: leaf.divided() if isinstance(leaf, Mesh) else leaf)


def placed(matrix: kinds.Matrix, points: kinds.Points) -> list[list[float]]:
    """The points under a matrix of three rows of four."""
    rows = floating(matrix)
    return [[facets.dot(row, point) + row[3] for row in rows] for point in points]


def floating(matrix: kinds.Matrix) -> list[list[float]]:
    return [[float(part) for part in row] for row in matrix]


def cofactors(matrix: kinds.Matrix) -> tuple[list[list[Any]], int]:
    """What turns normals as the matrix turns points, and the sign of its determinant."""
    rows = [[matrix[(i + 1) % 3][(j + 1) % 3] * matrix[(i + 2) % 3][(j + 2) % 3]
             - matrix[(i + 1) % 3][(j + 2) % 3] * matrix[(i + 2) % 3][(j + 1) % 3] for j in range(3)]
            for i in range(3)]
    size = facets.dot(matrix[0], rows[0])
    longest = max(abs(part) for row in matrix for part in row[:3])
    if abs(size) <= 1e-12 * longest ** 3:
        raise Trouble("is flat")
    return rows, 1 if size > 0 else -1


def under(matrix: kinds.Matrix, plane: exact.Plane) -> exact.Whole:
    """A plane under a matrix, in whole numbers."""
    parts, unit = exact.scaled([part for row in matrix for part in row])
    rows, whole = [parts[at:at + 4] for at in (0, 4, 8)], plane.whole()
    turned, _ = cofactors(rows)
    way = [sum(part * own for part, own in zip(row, whole)) for row in turned]
    size = sum(part * own for part, own in zip(rows[0], turned[0]))
    return [part * unit for part in way] + [size * whole[3] + sum(part * row[3] for part, row in zip(way, rows))]


def growth(matrix: kinds.Matrix) -> float:
    """By how much a matrix makes lengths greater, at most."""
    return max(1e-300, math.sqrt(sum(part * part for row in matrix for part in row[:3])))


def times(outer: kinds.Matrix, inner: kinds.Matrix) -> list[list[float]]:
    inner = [*inner, [0, 0, 0, 1]]
    return [[sum(outer[row][k] * inner[k][column] for k in range(4)) for column in range(4)] for row in range(3)]


def of_mesh(kind: str, line: int, points: kinds.Points, sides: Any, colour: kinds.Colour,
            numbers: Optional[Sequence[int]] = None, is_exact: bool = False) -> Any:
    """The tree of a mesh: one solid where it is convex, and otherwise the convex parts of it."""
    flat = facets.flat_facets(points, sides)
    if len(flat) > len(sides):
        sides, numbers = flat, None
    try:
        return Solid(kind, line, points, planes_of(points, sides, numbers, is_exact), colour, sides=sides)
    except Trouble as bad:
        if not str(bad).startswith("is not convex"):
            raise
        try:
            found = facets.cells(points, sides)
        except Trouble as why:
            raise Trouble("%s, and its parts are not taken: it %s" % (bad, why))
        if not found:
            raise Trouble("%s, and nothing is inside of it" % bad)
        ends.say("pxplanes convert", "%s: %s %s; it is drawn as %d convex solids" % (
            "line %d" % line if line else "the file", kind, bad, len(found)))
    return joined("+", [Solid(kind, line, corners, planes, colour, True) for planes, corners in found])


def planes_of(points: kinds.Points, sides: Any, numbers: Optional[Sequence[int]], is_exact: bool) -> list[exact.Plane]:
    """The planes of a convex solid, whose points may be exact although they have six digits."""
    try:
        return facets.planes(points, sides, numbers, is_exact)
    except Trouble as bad:
        if "too thin for the digits" not in str(bad):
            raise
        try:
            return facets.planes(points, sides, numbers, True)
        except Trouble:
            raise bad


def of_file(points: Any, sides: Any, colour: Any, line: int = 0) -> Any:
    """The tree of a mesh that may have several parts, or shells within others; `line` is that of
    the node which has it, if any."""
    shells = facets.parts(points, sides)
    if len({facets.volume(*shell[:2]) > 0 for shell in shells}) > 1:
        hollows, others = facets.hollows(shells)
        shells = [(*own, None) for own in hollows] + others if hollows else shells
    trees = []
    for number, (own, turned, numbers) in enumerate(shells, 1):
        try:
            trees.append(of_mesh("part", line, own, turned, colour, numbers))
        except Trouble as bad:
            raise Trouble("solid %d of the file %s" % (number, bad))
    return joined("+", trees)


def joined(sign: str, trees: list[Any]) -> Any:
    """Trees under a sign, where a tree without solids is the empty set."""
    if sign == "*" and None in trees or sign == "-" and trees[:1] == [None]:
        return None
    trees = [tree for tree in trees if tree is not None]
    if len(trees) < 2:
        return trees[0] if trees else None
    if sign == "-":
        return "-", [trees[0], joined("+", trees[1:])]
    return sign, trees


def halved(sign: str, words: list[str]) -> str:
    """Operands joined by a sign, as nearly in halves as may be."""
    if len(words) == 1:
        return words[0]
    half = len(words) // 2
    return "(%s %s %s)" % (halved(sign, words[:half]), sign, halved(sign, words[half:]))


def each(tree: kinds.Tree, change: Any) -> Any:
    """The tree with what `change` makes of each of its leaves."""
    if tree is None or not isinstance(tree, tuple):
        return None if tree is None else change(tree)
    return joined(tree[0], [each(part, change) for part in tree[1]])


def leaves(tree: kinds.Tree, added: bool = True) -> list[tuple[Any, bool]]:
    """The leaves of a tree in their order, each with whether it is added."""
    if tree is None or not isinstance(tree, tuple):
        return [] if tree is None else [(tree, added)]
    sign, trees = tree
    return [pair for i, part in enumerate(trees) for pair in leaves(part, added != (sign == "-" and i == 1))]


def signs(tree: kinds.Tree) -> set[str]:
    return {tree[0]}.union(*map(signs, tree[1])) if isinstance(tree, tuple) else set()


def convex_parts(tree: kinds.Tree, meet: Any) -> list[Any]:
    """The convex shapes whose union a tree without a difference is; `meet` makes one of several."""
    if tree is None or not isinstance(tree, tuple):
        return [] if tree is None else [tree]
    lists = [convex_parts(part, meet) for part in tree[1]]
    if tree[0] == "+":
        return [part for parts in lists for part in parts]
    return [found for found in map(meet, itertools.product(*lists)) if found]


def met(parts: Any) -> Any:
    """The common part of convex solids; None where there is none."""
    size, _ = facets.extent([point for part in parts for point in part.points])
    found = facets.bounded([plane for part in parts for plane in part.planes], facets.NEAR * facets.SIX_DIGITS * size)
    return found and Solid(parts[0].kind, parts[0].line, found[1], found[0], parts[0].colour)
