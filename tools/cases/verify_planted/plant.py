"""A square frame with a bar in it, as an expression and as meshes of boxes, right ones and wrong ones."""
import os
import subprocess
import sys

FRAME = """difference() {
  cube(size = [20, 20, 6], center = false);
  multmatrix([[1, 0, 0, 5], [0, 1, 0, 5], [0, 0, 1, -1], [0, 0, 0, 1]]) { cube(size = [10, 10, 8], center = false); }
}
multmatrix([[1, 0, 0, 5], [0, 1, 0, 9], [0, 0, 1, 2], [0, 0, 0, 1]]) { cube(size = [10, 2, 2], center = false); }
"""
LEFT, RIGHT, BELOW, ABOVE = ((0, 0, 0), (5, 20, 6)), ((15, 0, 0), (20, 20, 6)), ((5, 0, 0), (15, 5, 6)), ((5, 15, 0), (15, 20, 6))
BAR = ((5, 9, 2), (15, 11, 4))
WHOLE = [LEFT, RIGHT, BELOW, ABOVE, BAR]
VOID = ((1, 1, 1), (4, 19, 5))
SIDES = ((0, 2, 3, 1), (4, 5, 7, 6), (0, 1, 5, 4), (2, 6, 7, 3), (0, 4, 6, 2), (1, 3, 7, 5))


def mesh(boxes, inwards=()):
    """Points and facets of boxes, those of `inwards` with their facets turned."""
    points, facets = [], []
    for box in list(boxes) + list(inwards):
        first = len(points)
        points += [[box[at >> i & 1][i] for i in range(3)] for at in range(8)]
        sides = [[first + at for at in side] for side in SIDES]
        facets += [side[::-1] for side in sides] if box in inwards else sides
    return points, facets


def moved(by):
    """The frame with its left box's upper face moved up; its corners alone are at 0 and 5, and 6 high."""
    points, facets = mesh(WHOLE)
    return [[x, y, z + by * (z == 6 and at < 8)] for at, (x, y, z) in enumerate(points)], facets


def changed(name):
    points, facets = mesh(WHOLE)
    return {"right": (points, facets), "turned inwards": (points, [side[::-1] for side in facets]),
            "in halves that touch": mesh(WHOLE[1:] + [((0, 0, 0), (5, 20, 3)), ((0, 0, 3), (5, 20, 6))]),
            "face moved by 0.00002": moved(0.00002), "face moved up": moved(0.3), "face moved down": moved(-0.3),
            "missing": mesh(WHOLE[:2] + WHOLE[3:]), "bar missing": mesh(WHOLE[:4]),
            "too much": mesh(WHOLE + [((12, 5, 0), (15, 9, 6))]), "not taken away": mesh([((0, 0, 0), (20, 20, 6))]),
            "hole": (points, facets[:1] + facets[2:]), "a facet turned": (points, [facets[0], facets[1][::-1]] + facets[2:]),
            "void": mesh(WHOLE, [VOID]), "void, no cuts": mesh(WHOLE, [VOID])}[name]


def written(name, own):
    path = name.replace(" ", "_").replace(",", "") + ".off"
    with open(path, "w") as file:
        file.write("OFF\n%d %d 0\n" % tuple(map(len, own)) + "".join("%.17g %.17g %.17g\n" % tuple(point) for point in own[0])
                   + "".join("%d %s\n" % (len(side), " ".join(map(str, side))) for side in own[1]))
    return path


def main():
    with open("frame.csg", "w") as file:
        file.write(FRAME)
    with open("note.txt", "w") as file:
        file.write("no mesh\n")
    # (two boxes of a scene, one before the other and apart, as `export` has them: x, -y, -z, a half beyond the sides)
    with open("two.scene", "w") as file:
        file.write("pxscene 1\npicture 16 12\ndepth 6\n" + "".join(
            "solid %s 200 0 0\nfront 0 0 %d\nback 0 0 %d\nside 1 0 %d\nside -1 0 %d\n" % own for own in
            (("a", 5, 9, -2, 8), ("b", 20, 30, -6, 12))) + "show (a + b)\nend\n")
    written("two", mesh([((1.5, -11.5, -9), (8.5, 0.5, -5)), ((5.5, -11.5, -30), (12.5, 0.5, -20))]))
    for name in ("right", "turned inwards", "in halves that touch", "face moved by 0.00002", "face moved up", "face moved down",
                 "missing", "bar missing", "too much", "not taken away", "hole", "a facet turned", "void", "void, no cuts"):
        words = ["compare", "frame.csg", written(name, changed(name)), "--size", "32", "24"] + ["--cuts", "0"] * name.endswith("cuts")
        done = subprocess.run(["./pxplanes"] + words, capture_output=True, text=True)
        lines = done.stdout.strip().split("\n")
        rows = [list(map(int, line.split()[-4:])) for line in lines[1:-1] if not line.startswith("the ")]
        missing, much = (any(row[at] for row in rows) for at in (2, 3))
        print("%s: %s%s%s%s, status %d" % (name, lines[-1].split(":")[0], ", missing" * missing, ", too much" * much, "".join(
            ", " + line.split(":")[1].split(",")[0].strip() for line in lines if line.startswith("the mesh")), done.returncode))


main()
