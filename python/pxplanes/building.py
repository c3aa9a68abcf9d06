"""Scenes by calls: solids, expressions by operators, and the canonical text of it all (docs/SCENES.md)."""
from __future__ import annotations

import itertools
import operator
import re
from typing import Any, Iterable, Iterator, List, NoReturn, Optional, Sequence, Tuple, Union

from . import pictures
from .scene import limits

NAME = re.compile(r"[A-Za-z_][A-Za-z0-9_]{0,31}")
GREY = (200, 200, 200)
MOST_PART = 255
FIRST_HEADER, HEADER_OF_SIGN, HEADER_OF_FRACTION = 1, 2, 3

Numbers = Sequence[int]
Plane = Tuple[int, ...]


class Expression:
    """A set of cells. `a + b` has the cells of either side, `a * b` of both, `a - b` those of a that b lacks, and `a
    ^ b` those of exactly one side."""

    _tokens: Tuple[Union[str, Solid], ...]

    def __add__(self, other: Expression) -> Expression:
        return joined(self, "+", other)

    def __mul__(self, other: Expression) -> Expression:
        return joined(self, "*", other)

    def __sub__(self, other: Expression) -> Expression:
        return joined(self, "-", other)

    def __xor__(self, other: Expression) -> Expression:
        return joined(self, "^", other)

    def __bool__(self) -> NoReturn:
        raise TypeError("%r is neither true nor false; the signs + * - ^ join it with another" % self)

    def __repr__(self) -> str:
        return "".join(token if isinstance(token, str) else token.name or "?" for token in self._tokens)

    @property
    def solids(self) -> List[Solid]:
        """Its solids, each once, in their order in it."""
        return list(dict.fromkeys(token for token in self._tokens if isinstance(token, Solid)))


def joined(left: Expression, sign: str, right: Expression) -> Expression:
    if not isinstance(right, Expression):
        raise TypeError("%r %s ..: a solid or an expression is wanted, and no %s" % (left, sign, type(right).__name__))
    found = Expression()
    found._tokens = ("(",) + left._tokens + (" %s " % sign,) + right._tokens + (")",)
    return found


class Solid(Expression):
    """A convex solid. Each plane is `(A, B, C)`; one of `fronts` or `backs` may have a colour of its own, as
    `(A, B, C, R, G, B)`. Without a name it gets one from its scene. What is given is not changed any more.

    Face numbers go over the fronts and then the backs; `faces`, in place of both, has them in your own order, as
    `("back", A, B, C)`. Raises `ValueError` and `TypeError`, which name the solid and the plane."""

    def __init__(self, *, fronts: Iterable[Numbers] = (), sides: Iterable[Numbers] = (), backs: Iterable[Numbers] = (),
                 colour: Numbers = GREY, name: Optional[str] = None, faces: Iterable[Sequence[Any]] = ()):
        if name is not None and not isinstance(name, str):
            raise TypeError("a solid's name is a str, and no %s" % type(name).__name__)
        if name is not None and NAME.fullmatch(name) is None:
            raise ValueError("%r is no name of a solid: 1 to 32 letters, digits and _, and no digit first" % name)
        self.name = name
        self._tokens = (self,)
        self.colour = colour_of(colour, self.called("colour"))
        kinds = [("front", plane, "fronts[%d]" % at) for at, plane in enumerate(listed(fronts, self.called("fronts")))]
        kinds += [("back", plane, "backs[%d]" % at) for at, plane in enumerate(listed(backs, self.called("backs")))]
        own = listed(faces, self.called("faces"))
        if own and kinds:
            raise ValueError("%s are given together with fronts or backs" % self.called("faces"))
        for at, face in enumerate(own):
            kind, *plane = listed(face, self.called("faces[%d]" % at)) or [None]
            if kind not in ("front", "back"):
                raise ValueError("%s begins with %r, and not with 'front' or 'back'" % (self.called("faces[%d]" % at), kind))
            kinds.append((kind, plane, "faces[%d]" % at))
        self.faces = tuple((kind, self.plane_of(plane, word, True)) for kind, plane, word in kinds)
        self.sides = tuple(self.plane_of(plane, "sides[%d]" % at, False)
                           for at, plane in enumerate(listed(sides, self.called("sides"))))
        counts = {kind + "s": sum(each == kind for each, _ in self.faces) for kind in ("front", "back")}
        for word, count in dict(counts, sides=len(self.sides)).items():
            if count > limits.MAX_PLANES_OF_A_KIND:
                raise ValueError("%s are %d; there may be %d" % (self.called(word), count, limits.MAX_PLANES_OF_A_KIND))

    def called(self, word: str) -> str:
        """What a part of it is called in an error."""
        return "solid %s: %s" % (self.name or "without a name", word)

    def plane_of(self, plane: Any, word: str, has_colour: bool) -> Plane:
        """The numbers of a plane; of a face with its colour."""
        what = self.called(word)
        numbers = whole(plane, what)
        if len(numbers) not in ((3, 6) if has_colour else (3,)):
            raise ValueError("%s has %d numbers in place of 3%s" % (what, len(numbers), ", or 6 with a colour" * has_colour))
        for letter, number, most in zip("ABC", numbers, (limits.MAX_SLOPE, limits.MAX_SLOPE, limits.MAX_CONSTANT)):
            within(number, -most, most, "%s: %s" % (what, letter))
        if not has_colour:
            return tuple(numbers)
        return (*numbers[:3], *colour_of(numbers[3:] or self.colour, what))

    def lines(self, name: str) -> Iterator[str]:
        """Its lines, under a name."""
        yield line("solid", name, *self.colour)
        for kind, plane in self.faces:
            yield line(kind, *plane)
        for plane in self.sides:
            yield line("side", *plane)


class Scene:
    """A picture of `size` (width, height) that shows an expression. `depth` is the bits of a depth, or these and the fraction
    bits. `solids` are all solids in the order of the text; where they are not given, those of the expression as they come there.

    `text` is the canonical text: `tidy` of the program gives it back. What a single solid does not show, as too deep an
    expression, `render` refuses as it does with any text. Raises `ValueError` and `TypeError`, which name what is wrong."""

    def __init__(self, size: Numbers, depth: Union[int, Numbers], show: Expression, solids: Optional[Iterable[Solid]] = None):
        if not isinstance(show, Expression):
            raise TypeError("show is a solid or an expression, and no %s" % type(show).__name__)
        self.size = tuple(whole(size, "size"))
        if len(self.size) != 2:
            raise ValueError("size has %d numbers in place of 2, width and height" % len(self.size))
        for word, number in zip(("width", "height"), self.size):
            within(number, 1, limits.MAX_PICTURE_SIZE, word)
        bits = whole(depth if hasattr(depth, "__iter__") else (depth,), "depth")
        if len(bits) not in (1, 2):
            raise ValueError("depth has %d numbers in place of 1, or 2 with fraction bits" % len(bits))
        within(bits[0], 1, limits.MAX_DEPTH_BITS, "depth")
        within(sum(bits[1:]), 0, min(limits.MAX_FRACTION_BITS, limits.MAX_DEPTH_BITS - bits[0]), "fraction bits")
        self.depth = bits[0], sum(bits[1:])
        self.show = show
        self.solids = show.solids if solids is None else listed(solids, "solids")
        self.names = named(self.solids)
        for solid in show.solids:
            if solid not in self.names:
                raise ValueError("solid %s is shown, and is not in solids" % (solid.name or "without a name"))

    @staticmethod
    def union(parts: Iterable[Expression]) -> Expression:
        """The cells of any part, as the signs + join them, nested as little as they can be: the language nests 64 deep.

        >>> pxplanes.Scene.union(pxplanes.Solid(name=name) for name in "abcde")
        (((a + b) + (c + d)) + e)
        """
        level: List[Expression] = listed(parts, "parts")
        if not level or not all(isinstance(part, Expression) for part in level):
            raise TypeError("parts: one solid or expression is wanted, or more, and nothing else")
        while len(level) > 1:
            pairs = [joined(left, "+", right) for left, right in zip(level[::2], level[1::2])]
            level = pairs + level[2 * len(pairs):]
        return level[0]

    @property
    def text(self) -> str:
        """The canonical text."""
        show = "".join(token if isinstance(token, str) else self.names[token] for token in self.show._tokens)
        header = HEADER_OF_FRACTION if self.depth[1] else HEADER_OF_SIGN if "^" in show else FIRST_HEADER
        lines = [line("pxscene", header), line("picture", *self.size), line("depth", *self.depth[:1 + (self.depth[1] > 0)])]
        for solid in self.solids:
            lines += solid.lines(self.names[solid])
        return "".join(lines) + line("show", show) + line("end")

    def render(self) -> pictures.Picture:
        """Its depths and faces. Raises `Limit` where a limit of the whole is passed."""
        return pictures.render(self.text)


def named(solids: Sequence[Solid]) -> dict[Solid, str]:
    """The names of solids: s1, s2 and so on for those that have none, past the names that are given."""
    for at, solid in enumerate(solids):
        if not isinstance(solid, Solid):
            raise TypeError("solids[%d] is no solid: %r" % (at, solid))
    given = [solid.name for solid in dict.fromkeys(solids) if solid.name]
    twice = next((name for at, name in enumerate(given) if name in given[:at]), None)
    if twice or len(dict.fromkeys(solids)) < len(solids):
        raise ValueError("two solids are named %s" % twice if twice else "a solid comes twice in solids")
    free = (name for name in map("s%d".__mod__, itertools.count(1)) if name not in given)
    return {solid: solid.name or next(free) for solid in solids}


def listed(things: Any, what: str) -> List[Any]:
    if isinstance(things, (str, bytes)) or not hasattr(things, "__iter__"):
        raise TypeError("%s: a list is wanted, and no %s" % (what, type(things).__name__))
    return list(things)


def whole(numbers: Any, what: str) -> List[int]:
    """A list of whole numbers."""
    found = listed(numbers, what)
    try:
        return [int(operator.index(number)) for number in found]
    except TypeError as error:
        raise TypeError("%s: %s" % (what, error)) from None


def colour_of(numbers: Any, what: str) -> Plane:
    parts = whole(numbers, what)
    if len(parts) != 3:
        raise ValueError("%s has %d numbers in place of 3" % (what, len(parts)))
    for word, part in zip(("red", "green", "blue"), parts):
        within(part, 0, MOST_PART, "%s: %s" % (what, word))
    return tuple(parts)


def within(number: int, least: int, most: int, what: str) -> None:
    if not least <= number <= most:
        raise ValueError("%s is %d; it may be %d to %d" % (what, number, least, most))


def line(*words: object) -> str:
    return " ".join(map(str, words)) + "\n"
