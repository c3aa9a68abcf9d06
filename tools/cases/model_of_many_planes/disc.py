"""The outline of a regular polygon of 100 sides and radius 30, seen along its axis: a number for each
pixel of 80 by 64, 1 where the polygon has it, with the pixel (39.5, 31.5) as its middle."""
import math
import sys

sides = [math.pi * (2 * i + 1) / 100 for i in range(100)]
reach = 30 * math.cos(math.pi / 100)
for y in range(64):
    print(*[int(all((x - 39.5) * math.cos(at) + (31.5 - y) * math.sin(at) <= reach for at in sides)) for x in range(80)])
