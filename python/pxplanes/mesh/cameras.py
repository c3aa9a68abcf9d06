"""A perspective camera: where a point of the model is in the picture, which depth it has there, and
back. `model` draws by it and notes it in the scene as a comment; `export`, `show` and `compare` read
that, or two distances, and turn depths into distances along the axis.

A depth is K (1/near - 1/Z), with K cells from near to far: in it a plane of the model is linear on
the screen, so that the machine draws it as it is (docs/MODELLING.md, "Perspective")."""
import math
import re
from typing import Any, Optional, Sequence

from pxplanes.errors import Trouble
from pxplanes.mesh import exact, facets, kinds, turns

FORM = "# camera eye %s turn %s fov %s near %s far %s"
NUMBER = rb"([-+.0-9eE]+)"
LINE = re.compile(rb"^# camera eye %s turn %s fov %s near %s far %s[ \t\r]*$" % (
    rb" ".join([NUMBER] * 3), rb" ".join([NUMBER] * 3), NUMBER, NUMBER, NUMBER), re.M)


class Distances:
    """What is seen of the distances along the axis, from near to far, in so many cells."""

    def __init__(self, near: float, far: float, cells: int) -> None:
        if not 0 < near < far < math.inf:
            raise Trouble("near is above 0 and far beyond it, and not %g and %g" % (near, far))
        self.near, self.far, self.cells = near, far, cells
        self.scale = cells / (1 / near - 1 / far)

    def depth_at(self, distance: float) -> float:
        return self.scale * (1 / self.near - 1 / distance)

    def distance_at(self, depth: int) -> float:
        return 1 / (1 / self.near - depth / self.scale)


class Camera:
    """`rows` are the picture's right, away and up in the model's axes, `focal` is in pixels; `cx`
    and `cy` are the middle of the picture, whose pixels are sampled at their whole places."""

    def __init__(self, eye: kinds.Vector, turned: kinds.Vector, fov: float, size: Sequence[int],
                 distances: Any) -> None:
        self.eye, self.turn, self.fov, self.distances = list(eye), list(turned), fov, distances
        self.rows, self.focal = turns.rows_of(turned), focal_of(fov, size)
        self.cx, self.cy = (size[0] - 1) / 2, (size[1] - 1) / 2

    def line(self) -> str:
        """The comment that a scene has of it."""
        return FORM % tuple(" ".join(map(repr, map(float, each))) for each in (
            self.eye, self.turn, [self.fov], [self.distances.near], [self.distances.far]))

    def seen(self, point: kinds.Vector) -> list[float]:
        """A point of the model from the eye: to the right, away, up."""
        return turns.turned(self.rows, [part - own for part, own in zip(point, self.eye)])

    def place(self, seen: Any) -> tuple[float, float, float]:
        """The pixel and the depth of a point before the eye."""
        right, away, up = seen
        return (self.cx + self.focal * right / away, self.cy - self.focal * up / away, self.distances.depth_at(away))

    def point(self, x: float, y: float, depth: float) -> list[float]:
        """The point of the model at a pixel's depth."""
        away = self.distances.distance_at(depth)
        seen = (x - self.cx) * away / self.focal, away, (self.cy - y) * away / self.focal
        return [own + facets.dot(seen, [row[i] for row in self.rows]) for i, own in enumerate(self.eye)]

    def half_space(self, plane: exact.Plane) -> tuple[str, tuple[float, ...]]:
        """The kind of a half-space of the model, and A, B, C of its plane in cells. One whose plane the eye is on,
        exactly, is a side, in any unit."""
        right, away, up = plane.along(self.rows)
        room = plane.room(self.eye)
        a, b = right / self.focal, -up / self.focal
        form = a, b, away - a * self.cx - b * self.cy
        if room == 0:
            return "side", tuple(-part for part in form)
        a, b, c = (-self.distances.scale / room * part for part in form)
        return "back" if room > 0 else "front", (a, b, c + self.distances.scale / self.distances.near)


def focal_of(fov: float, size: Sequence[int]) -> float:
    """How many pixels wide is what is as wide as it is away; `fov` is the picture's height in degrees."""
    if not 0 < fov < 180:
        raise Trouble("--fov is between 0 and 180 degrees, and not %g" % fov)
    return size[1] / 2 / math.tan(math.radians(fov) / 2)


def of_scene(text: bytes, scene: Any) -> Optional[Camera]:
    """The camera that a scene's text notes; None where it notes none."""
    found = LINE.search(text)
    if not found:
        return None
    try:
        numbers = [float(word) for word in found.groups()]
    except ValueError:
        raise Trouble("the line of the camera has a word that is no number")
    return Camera(numbers[:3], numbers[3:6], numbers[6], (scene.width, scene.height),
                  Distances(numbers[7], numbers[8], scene.far()))
