# The distances of a floor 3 below an eye that looks level, 16 by 12 pixels and 90 degrees high, up to 40 away; by hand:
# a pixel's ray falls by (y - 5.5) / 6 where it goes on by 1.
import sys
form = sys.argv[1]
for y in range(12):
    row = []
    for x in range(16):
        fall = (y - 5.5) / 6
        z = 3 / fall if fall > 0 else 1e10
        z = z if z < 40 else 1e10
        ray = (1 + fall ** 2 + ((x - 7.5) / 6) ** 2) ** 0.5
        row.append({"Z": z, "inverse": 1 / z if z < 1e10 else 0, "ray": z * ray,
                    "window": (1 / 3 - 1 / z) / (1 / 3 - 1 / 40) if z < 1e10 else 1}[form])
    print(*row)
