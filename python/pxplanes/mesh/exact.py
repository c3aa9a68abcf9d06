"""Planes in whole numbers, so that it is exact whether a plane is seen from before, from behind or from its edge."""
from __future__ import annotations

import functools
import math
from fractions import Fraction
from typing import Any, Callable, NamedTuple, Optional, Sequence

from pxplanes.mesh import kinds

DIGITS = 15
SURE = 1e-9
# p, q, r and d of the plane p x + q y + r z = d, times any number but 0.
Whole = Sequence[int]


class Plane(NamedTuple):
    """A half-space `normal * p <= far`: a normal of length 1, out of the solid, and its distance from the origin; and
    what gives its plane in whole numbers, facing either way."""

    normal: kinds.Vector
    far: float
    source: Optional[Callable[[], Whole]] = None

    def turned(self) -> Plane:
        """The half-space on the other side."""
        return Plane([-part for part in self.normal], -self.far, self.source)

    def whole(self) -> Whole:
        return self.source() if self.source else scaled([*self.normal, self.far])[0]

    def along(self, ways: Sequence[kinds.Vector]) -> list[float]:
        """How far the normal goes along some ways, each with its exact sign."""
        whole = self.whole()
        return [signed(way, whole) / signed(self.normal, whole) for way in ways]

    def room(self, point: kinds.Vector) -> float:
        """How far a point is inside, with its exact sign: below 0 where it is outside."""
        whole = self.whole()
        return -signed([*rationals(point), -1], whole) / signed(self.normal, whole)


def signed(way: Sequence[kinds.Number], whole: Whole) -> float:
    """The sum of products, in the greatest of the first three whole numbers: in double precision if that leaves its
    sign in no doubt, and otherwise by rational numbers."""
    size = max(abs(part) for part in whole[:3])
    parts = [float(part) * (own / size) for part, own in zip(way, whole)]
    if abs(sum(parts)) > SURE * sum(abs(part) for part in parts):
        return sum(parts)
    return float(sum((Fraction(part) * own for part, own in zip(way, whole)), Fraction(0)) / size)


def rationals(numbers: Sequence[kinds.Number]) -> list[Fraction]:
    """Numbers as rational ones. If all are decimals of at most 15 digits, they are taken for these decimals, and
    otherwise for what they are in double precision."""
    words = [str(number) for number in numbers]
    long = any(len(word.split("e")[0].replace(".", "").lstrip("-0")) > DIGITS for word in words if "/" not in word)
    return [Fraction(number) if long else Fraction(word) for number, word in zip(numbers, words)]


def scaled(numbers: Sequence[kinds.Number]) -> tuple[list[int], int]:
    """Numbers times the least whole number that makes all of them whole; and that one."""
    exact = rationals(numbers)
    unit = math.lcm(*(number.denominator for number in exact))
    return [number.numerator * (unit // number.denominator) for number in exact], unit


def area_normal(points: Sequence[Sequence[Any]]) -> list[Any]:
    """The normal of a polygon, as long as twice its area (Newell's sum)."""
    pairs = list(zip(points, [*points[1:], points[0]]))
    return [sum((a[i] - b[i]) * (a[j] + b[j]) for a, b in pairs) for i, j in ((1, 2), (2, 0), (0, 1))]


class Points:
    """The points of a mesh as whole numbers, which are found when a plane is first asked for its own."""

    def __init__(self, points: kinds.Points) -> None:
        self.points = points

    @functools.cached_property
    def whole(self) -> tuple[list[Whole], int]:
        parts, unit = scaled([part for point in self.points for part in point])
        return [parts[at:at + 3] for at in range(0, len(parts), 3)], unit

    def plane(self, normal: kinds.Vector, far: float, facet: Sequence[int]) -> Plane:
        """The plane of a facet, which has this normal and distance."""
        return Plane(normal, far, functools.cache(lambda: self.of_facet(facet)))

    def of_facet(self, facet: Sequence[int]) -> Whole:
        """The plane of a facet, through the middle of its corners."""
        points, unit = self.whole
        corners = [points[at] for at in facet]
        normal = area_normal(corners)
        far = sum(part * sum(own) for part, own in zip(normal, zip(*corners)))
        return [part * len(facet) * unit for part in normal] + [far]
