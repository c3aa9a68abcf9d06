"""Turns of a model, as OpenSCAD's $vpr has them: three rows, the picture's right, away and up in
the model's axes."""
import math

from pxplanes.mesh import kinds

def turned(rows: kinds.Points, point: kinds.Vector) -> list[float]:
    return [sum(row[i] * point[i] for i in range(3)) for row in rows]


def way(angle: float) -> tuple[float, float]:
    """Cosine and sine of an angle in degrees, exact where they are rational, and alike in all quarters."""
    whole = math.remainder(angle, 360)
    half = min(abs(whole), 180 - abs(whole))
    least = min(half, 90 - half)
    cosine = math.cos(math.radians(least))
    sine = 0.5 if least == 30 else cosine if least == 45 else math.sin(math.radians(least))
    cosine, sine = (cosine, sine) if half <= 45 else (sine, cosine)
    return math.copysign(cosine, 90 - abs(whole)) + 0.0, math.copysign(sine, whole) + 0.0


def about(axis: int, turn: float) -> list[list[float]]:
    """The matrix that turns points about an axis, by an angle in degrees."""
    i, j = [each for each in range(3) if each != axis]
    rows = [[float(row == column) for column in range(3)] for row in range(3)]
    cosine, sine = way(turn if axis != 1 else -turn)
    rows[i][i] = rows[j][j] = cosine
    rows[i][j], rows[j][i] = -sine, sine
    return rows


def multiplied(one: kinds.Matrix, two: kinds.Matrix) -> list[list[float]]:
    return [[sum(one[i][k] * two[k][j] for k in range(3)) for j in range(3)] for i in range(3)]


def rows_of(turns: kinds.Vector) -> list[list[float]]:
    """What turns a point of the model as $vpr does."""
    return multiplied(about(0, 90 - turns[0]), multiplied(about(1, -turns[1]), about(2, -turns[2])))


def between(eye: kinds.Vector, center: kinds.Vector) -> list[float]:
    """Place, turns and distance of a camera that looks from one point to another."""
    x, y, z = (a - b for a, b in zip(eye, center))
    flat = math.hypot(x, y)
    turns = [math.degrees(math.atan2(flat, z)), 0.0, math.degrees(math.atan2(x, -y)) if flat else 0.0]
    return list(center) + turns + [math.dist(eye, center)]
