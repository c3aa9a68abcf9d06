"""What the modules of this folder pass to one another, by name."""
from fractions import Fraction
from typing import Any, Optional, Sequence, Union

Number = Union[float, Fraction]
Vector = Sequence[float]
Points = Sequence[Vector]
Facets = Sequence[Sequence[int]]              # the numbers of the points of each facet
Form = Sequence[float]                        # A, B and C of a plane in the picture
Matrix = Sequence[Sequence[Any]]              # three rows of four, in double precision or rational
Colour = Optional[Sequence[int]]
Tree = Union[Any, tuple[str, list[Any]], None]  # a leaf, an expression, or nothing
