"""Draws a mesh, OFF or OBJ, from above: at the middle of each pixel the least depth of a triangle, as
text, or else the far limit."""
import sys

path, width, height, far = sys.argv[1], *map(int, sys.argv[2:5])
points, facets = [], []
words = open(path).read().split("\n")
if words[0].startswith("OFF"):
    rows = [line.split() for line in words[1:] if line.split()]
    count = int(words[0].split()[1])
    points = [tuple(map(float, row[:3])) for row in rows[:count]]
    facets = [list(map(int, row[1:1 + int(row[0])])) for row in rows[count:]]
for line in words:
    if line.startswith("v "):
        points.append(tuple(map(float, line.split()[1:])))
    if line.startswith("f "):
        facets.append([int(at) - 1 for at in line.split()[1:]])
depths = [[far] * width for _ in range(height)]
for facet in facets:
    for i in range(1, len(facet) - 1):
        (ax, ay, az), (bx, by, bz), (cx, cy, cz) = (points[facet[k]] for k in (0, i, i + 1))
        size = (bx - ax) * (cy - ay) - (by - ay) * (cx - ax)
        if abs(size) < 1e-9:
            continue
        for x in range(max(0, int(min(ax, bx, cx)) - 1), min(width, int(max(ax, bx, cx)) + 2)):
            for y in range(max(0, int(-max(ay, by, cy)) - 1), min(height, int(-min(ay, by, cy)) + 2)):
                one = ((bx - x) * (cy + y) - (by + y) * (cx - x)) / size
                two = ((cx - x) * (ay + y) - (cy + y) * (ax - x)) / size
                if min(one, two, 1 - one - two) >= -1e-9:
                    depth = -(one * az + two * bz + (1 - one - two) * cz)
                    depths[y][x] = min(depths[y][x], depth)
for row in depths:
    print(" ".join("%.3f" % depth for depth in row))
