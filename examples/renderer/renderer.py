"""A renderer in fifty lines: reads a scene as JSON, and writes its depths as floats (PFM). Use: renderer.py SCENE.json
OUT

`pxplanes convert SCENE -o SCENE.json` makes the JSON, and docs/COMPARE.md says what each pixel must be."""
import json
import sys

import numpy as np


def ends(solid, x, y, scene):
    """Where the rays enter and leave a solid; infinite where they miss it."""
    def depth(plane):
        a, b, c = plane
        return (a * x + b * y + c) / 2.0 ** scene["fraction_bits"]

    first = np.max([0 * x] + [depth(front["plane"]) for front in solid["fronts"]], axis=0)
    end = np.min([0 * x + scene["far"]] + [depth(back["plane"]) for back in solid["backs"]], axis=0)
    hit = first < end
    for side in solid["sides"]:
        hit &= depth(side) >= 0
    return np.where(hit, first, np.inf), np.where(hit, end, np.inf)


def inside(node, z, solids):
    """Whether a depth of each ray is inside of an expression: a name, or a sign and two sides."""
    if isinstance(node, str):
        first, end = solids[node]
        return (first <= z) & (z < end)
    sign, left, right = node
    p, q = inside(left, z, solids), inside(right, z, solids)
    return {"+": p | q, "*": p & q, "-": p & ~q, "^": p ^ q}[sign]


def render(scene):
    """The depth of each pixel, infinite for the background: the nearest end of a solid that is inside of the
    expression."""
    width, height = scene["picture"]
    y, x = np.mgrid[0:height, 0:width].astype(float)
    solids = {solid["name"]: ends(solid, x, y, scene) for solid in scene["solids"]}
    nearest = np.full(x.shape, np.inf)
    for z in [0 * x] + [z for pair in solids.values() for z in pair]:
        nearest = np.where(inside(scene["show"], z, solids) & (z < nearest) & (z < scene["far"]), z, nearest)
    return nearest


def main(source, out):
    with open(source) as file:
        depths = render(json.load(file))
    with open(out, "wb") as file:
        file.write(b"Pf\n%d %d\n-1.0\n" % depths.shape[::-1] + depths[::-1].astype("<f4").tobytes())


if __name__ == "__main__":
    main(*sys.argv[1:])
