"""Balls of 100 sides as OpenSCAD's manual has them, as a mesh, and rays through it from an eye: `balls.py mesh` writes the
mesh; `balls.py ball SCENE MAPS` compares the depths that a scene's maps have with the rays of the camera that it notes,
at some pixels; `balls.py bowl SCENE MAPS` those of a cube without the ball."""
import math
import random
import sys

COUNT, RADIUS, HALF, NEAR_EDGE, SAMPLES = 100, 10, 9, 0.05, 120
RINGS = COUNT // 2


def point(ring, at):
    polar, turn = math.pi * (ring + 0.5) / RINGS, 2 * math.pi * at / COUNT
    return (RADIUS * math.sin(polar) * math.cos(turn), RADIUS * math.sin(polar) * math.sin(turn), RADIUS * math.cos(polar))


def facets():
    """Each facet by its corners, round to the left from outside."""
    yield [(0, at) for at in range(COUNT)]
    for ring in range(1, RINGS):
        for at in range(COUNT):
            after = (at + 1) % COUNT
            yield [(ring, at), (ring, after), (ring - 1, after), (ring - 1, at)]
    yield [(RINGS - 1, at) for at in reversed(range(COUNT))]


def mesh():
    print("OFF\n%d %d 0" % (COUNT * RINGS, COUNT * (RINGS - 1) + 2))
    for ring in range(RINGS):
        for at in range(COUNT):
            print("%.12g %.12g %.12g" % point(ring, at))
    for facet in facets():
        print(len(facet), *[ring * COUNT + at for ring, at in facet])


def minus(a, b):
    return [x - y for x, y in zip(a, b)]


def cross(a, b):
    return [a[1] * b[2] - a[2] * b[1], a[2] * b[0] - a[0] * b[2], a[0] * b[1] - a[1] * b[0]]


def dot(a, b):
    return sum(x * y for x, y in zip(a, b))


def triangles():
    """Each triangle by a corner, and the ways from it to the others."""
    for facet in facets():
        corners = [point(*at) for at in facet]
        for i in range(1, len(corners) - 1):
            yield corners[0], minus(corners[i], corners[0]), minus(corners[i + 1], corners[0])


def in_ball(eye, way, triangles=list(triangles())):
    """Where a ray goes into the ball and out of it; None where it does not."""
    found = []
    # (the ball is within its sphere, which a ray misses that passes farther from the middle)
    if dot(cross(eye, way), cross(eye, way)) > RADIUS ** 2 * dot(way, way):
        return None
    for corner, one, other in triangles:
        across = cross(way, other)
        size = dot(one, across)
        if abs(size) > 1e-12:
            out = minus(eye, corner)
            u, back = dot(out, across) / size, cross(out, one)
            v = dot(way, back) / size
            if u >= -1e-12 and v >= -1e-12 and u + v <= 1 + 1e-12:
                found.append(dot(other, back) / size)
    return (min(found), max(found)) if found else None


def in_cube(eye, way):
    low, high = -math.inf, math.inf
    for at, step in zip(eye, way):
        if step:
            near, far = sorted(((-HALF - at) / step, (HALF - at) / step))
            low, high = max(low, near), min(high, far)
        elif abs(at) > HALF:
            return None
    return (low, high) if low < high else None


def first_of_ball(eye, way):
    """The distance along the axis at which a ray first meets the ball; None where it does not."""
    ball = in_ball(eye, way)
    return ball and ball[0]


def first_of_bowl(eye, way):
    """The same of the cube without the ball."""
    ball, cube = in_ball(eye, way), in_cube(eye, way)
    if cube and ball and ball[0] <= cube[0] < ball[1]:
        return ball[1] if ball[1] < cube[1] else None
    return cube and cube[0]


def compare(scene, maps, first, samples):
    """Compares the depths of a scene's maps with the rays of the camera that it notes."""
    lines = [line.split() for line in open(scene)]
    camera = lines[0]
    eye, turn = [list(map(float, camera[i:i + 3])) for i in (3, 7)]
    fov, near, far = (float(camera[i]) for i in (11, 13, 15))
    width, height = (int(word) for word in next(line for line in lines if line[0] == "picture")[1:3])
    cells = 2 ** int(next(line for line in lines if line[0] == "depth")[1]) - 1
    a, b, c = (math.radians(angle) for angle in turn)
    right = [math.cos(c) * math.cos(b), math.sin(c) * math.cos(b), -math.sin(b)]
    up = [math.cos(c) * math.sin(b) * math.sin(a) - math.sin(c) * math.cos(a),
          math.sin(c) * math.sin(b) * math.sin(a) + math.cos(c) * math.cos(a), math.cos(b) * math.sin(a)]
    away = cross(up, right)
    focal = height / 2 / math.tan(math.radians(fov) / 2)
    data = open(maps, "rb").read()
    numbers = data[len(data) // 2 - 3 * width * height:]
    draw, counts = random.Random(1), [0, 0, 0]

    def depth(x, y):
        way = [w + (x - (width - 1) / 2) / focal * r - (y - (height - 1) / 2) / focal * u for w, r, u in zip(away, right, up)]
        distance = first(eye, way)
        return cells if distance is None else cells * (1 / near - 1 / distance) / (1 / near - 1 / far)

    for _ in range(samples):
        x, y = draw.randrange(width), draw.randrange(height)
        ours = int.from_bytes(numbers[3 * (y * width + x):][:3], "big")
        if abs(ours - depth(x, y)) <= 2:
            counts[0] += 1
        elif any(abs(ours - depth(x + i, y + j)) <= 2 for i in (-NEAR_EDGE, NEAR_EDGE) for j in (-NEAR_EDGE, NEAR_EDGE)):
            counts[1] += 1
        else:
            counts[2] += 1
    print("%d of %d pixels as the rays have them, %d near an edge, %d wrong" % (counts[0], samples, *counts[1:]))


if __name__ == "__main__":
    if sys.argv[1] == "mesh":
        mesh()
    else:
        compare(*sys.argv[2:], first_of_bowl if sys.argv[1] == "bowl" else first_of_ball, SAMPLES)
