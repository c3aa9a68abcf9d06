"""Compares what `pxplanes convert` makes of models as people have them with rays through the mesh that OpenSCAD makes of each:
`right`, `refused` with the reason, or `WRONG`. Each model is a .scad text, here; its meshes are OpenSCAD's.

Use: models.py PART OF [times]    every OFth model from the PARTth on; `times` prints a line for each, with the seconds
of processor that its scene took, as times.txt has them."""
import concurrent.futures
import contextlib
import io
import math
import os
import random
import subprocess
import sys
import time

sys.dont_write_bytecode = True
sys.path[:0] = [os.path.realpath(os.path.join("tools", "lib")), os.path.realpath("python")]
from pxplanes.errors import Trouble
from pxplanes import ends
from pxplanes.mesh import facets
from pxplanes.mesh import mesh_files
from pxplanes.mesh import modelling
from pxplanes.scene import rays
from pxplanes.mesh import solids

MODELS = """
cube: cube(10);
cube in the middle: cube([10, 4, 7], center = true);
cylinder: cylinder(h = 10, r = 4);
cone: cylinder(h = 10, r1 = 5, r2 = 0, $fn = 12);
frustum: cylinder(h = 10, r1 = 5, r2 = 2, $fn = 7);
sphere: sphere(6);
fine sphere: sphere(r = 10, $fn = 48);
far away: translate([1000, 200, -50]) rotate([10, 20, 30]) cube([8, 5, 3]);
thin bar: rotate([20, 10, 30]) cube([200, 0.2, 0.2]);
thin plate: cube([100, 60, 0.1]);
tiny: scale(0.0001) cube([10, 20, 30]);
huge: scale(100000) cylinder(h = 10, r = 4, $fn = 8);
mirrored: mirror([1, 1, 0]) cylinder(h = 10, r1 = 5, r2 = 1, $fn = 5);
sheared: multmatrix([[1, 0.4, 0, 0], [0, 1, 0.3, 0], [0, 0, 1, 0], [0, 0, 0, 1]]) cube(10);
not evenly scaled: scale([1, 2, 0.5]) sphere(6, $fn = 10);
drilled: difference() { cube(20, center = true); cylinder(h = 30, r = 5, center = true); }
drilled thrice: difference() { cube(20, center = true); for (r = [[0, 0, 0], [90, 0, 0], [0, 90, 0]]) rotate(r) cylinder(h = 30, r = 5, center = true, $fn = 12); }
lens: intersection() { translate([-6, 0, 0]) sphere(10, $fn = 16); translate([6, 0, 0]) sphere(10, $fn = 16); }
stairs: for (i = [0 : 9]) translate([i * 3, 0, 0]) cube([3, 10, i + 1]);
comb: union() { cube([40, 5, 2]); for (i = [0 : 9]) translate([i * 4, 0, 0]) cube([2, 20, 2]); }
cut of a union: difference() { union() { cube(10); translate([5, 5, 0]) cylinder(h = 15, r = 4, $fn = 9); } translate([-1, 3, 3]) cube([20, 4, 4]); }
cut of a cut: difference() { cube(20); difference() { translate([5, 5, 5]) cube(20); translate([10, 10, 10]) cube(20); } }
nothing taken away: difference() { cube(10); translate([20, 0, 0]) cube(5); }
mark for the background: difference() { %translate([20, 0, 0]) cube(5); cube(10); translate([2, 2, 5]) cube(8); }
mark to look at: difference() { cube(10); #translate([2, 2, 5]) cube(8); }
mark to leave out: union() { cube(10); *translate([12, 0, 0]) cube(8); }
colours: color("red") cube(5); color([0, 1, 0, 0.5]) translate([6, 0, 0]) cube(5);
hull: hull() { sphere(4, $fn = 8); translate([15, 3, 2]) cube(4); }
hull of three: hull() { for (x = [0, 10], y = [0, 8]) translate([x, y, 0]) cylinder(h = 3, r = 2, $fn = 12); }
round box: minkowski() { cube([10, 8, 3]); sphere(1.5, $fn = 8); }
prism: linear_extrude(height = 5) polygon([[0, 0], [10, 0], [7, 6], [2, 5]]);
concave prism: linear_extrude(height = 4) polygon([[0, 0], [12, 0], [12, 4], [4, 4], [4, 12], [0, 12]]);
star: linear_extrude(height = 3) polygon([for (i = [0 : 9]) (i % 2 ? 4 : 10) * [cos(i * 36), sin(i * 36)]]);
tapered: linear_extrude(height = 10, scale = 0.4) square(8, center = true);
twisted: linear_extrude(height = 10, twist = 60, slices = 6) square(8, center = true);
ring: rotate_extrude($fn = 24) translate([8, 0]) circle(2, $fn = 8);
part of a ring: rotate_extrude(angle = 120, $fn = 24) translate([8, 0]) square(3);
vase: rotate_extrude($fn = 16) polygon([[0, 0], [5, 0], [7, 8], [3, 12], [0, 12]]);
rounded: linear_extrude(height = 3) offset(r = 2, $fn = 12) square([8, 5]);
letters: linear_extrude(height = 3) text("L", size = 10);
a flat part: linear_extrude(height = 2) difference() { square(20, center = true); circle(5, $fn = 12); }
resized: resize([20, 5, 8]) sphere(5, $fn = 12);
flat quads: polyhedron(points = [[0, 0, 0], [10, 0, 0], [10, 10, 0], [0, 10, 0], [5, 5, 8]], faces = [[3, 2, 1, 0], [0, 1, 4], [1, 2, 4], [2, 3, 4], [3, 0, 4]]);
a dent: polyhedron(points = [[0, 0, 0], [10, 0, 0], [10, 10, 0], [0, 10, 0], [5, 5, 2], [0, 0, 8], [10, 0, 8], [10, 10, 8], [0, 10, 8]], faces = [[0, 1, 2, 3], [1, 0, 5, 6], [2, 1, 6, 7], [3, 2, 7, 8], [0, 3, 8, 5], [4, 6, 5], [4, 7, 6], [4, 8, 7], [4, 5, 8]]);
snowman: for (i = [0 : 2]) translate([0, 0, i * 9]) sphere(7 - i * 1.5, $fn = 14);
bracket: difference() { union() { cube([40, 30, 5]); translate([0, 25, 0]) cube([40, 5, 30]); } for (x = [8, 32]) translate([x, 11, -1]) cylinder(h = 7, r = 4, $fn = 12); }
gear: difference() { union() { cylinder(h = 4, r = 10, $fn = 24); for (i = [0 : 11]) rotate(i * 30) translate([9, -1, 0]) cube([4, 2, 4]); } translate([0, 0, -1]) cylinder(h = 6, r = 3, $fn = 12); }
box with a lid: difference() { cube([30, 20, 10]); translate([2, 2, 2]) cube([26, 16, 10]); } translate([0, 25, 0]) cube([30, 20, 2]);
rooms: difference() { cube([40, 30, 10]); for (x = [2, 21], y = [2, 16]) translate([x, y, 2]) cube([17, 12, 10]); }
coplanar cut: difference() { cube(10); translate([2, 2, 0]) cube([6, 6, 10]); }
two that touch: cube(10); translate([10, 0, 0]) cube(10);
one within another: cube(10); translate([2, 2, 2]) cube(5);
pyramid: cylinder(h = 8, r1 = 6, r2 = 0, $fn = 4);
octahedron: sphere(6, $fn = 4);
tilted tray: rotate([15, 25, 35]) difference() { cube([20, 12, 8]); translate([3, 3, 3]) cube([14, 6, 8]); }
washers: for (i = [0 : 3]) translate([0, 0, i * 3]) difference() { cylinder(h = 2, r = 8 - i, $fn = 16); translate([0, 0, -1]) cylinder(h = 4, r = 3, $fn = 8); }
three cubes in common: intersection() { cube(12, center = true); rotate([45, 0, 0]) cube(12, center = true); rotate([0, 45, 0]) cube(12, center = true); }
die: difference() { intersection() { cube(10, center = true); sphere(7, $fn = 16); } for (z = [-5, 5]) translate([0, 0, z]) sphere(1.5, $fn = 8); }
house: union() { cube([12, 8, 6]); translate([0, 0, 6]) rotate([90, 0, 90]) linear_extrude(height = 12) polygon([[0, 0], [8, 0], [4, 4]]); }
arrow: linear_extrude(height = 2) polygon([[0, 2], [8, 2], [8, 0], [12, 3], [8, 6], [8, 4], [0, 4]]);
slotted cylinder: difference() { cylinder(h = 12, r = 6, $fn = 12); translate([-1, -10, 4]) cube([2, 20, 10]); }
frames: for (i = [0 : 2]) translate([i * 8, 0, 0]) rotate([i * 90, 0, 0]) difference() { cube([12, 8, 3], center = true); cube([8, 4, 4], center = true); }
a ball of many facets: sphere(10, $fn = 100);
"""
AS_MESHES = ("cube", "cone", "drilled", "concave prism", "a dent", "two that touch", "snowman", "box with a lid", "rooms", "star", "colours", "house", "tilted tray")
SIZE, CELLS, SAMPLES, SECONDS = (64, 48), 4095, 300, 60
ASIDE = 0.05
TURN = (55.0, 0.0, 25.0)


def openscad(source, out):
    done = subprocess.run(["openscad", "-o", out, source], capture_output=True, timeout=SECONDS)
    if done.returncode != 0:
        raise Trouble("openscad: " + done.stderr.decode("latin-1").strip().split("\n")[-1])


class Rays:
    """Rays through the triangles of a mesh, as the view has them."""

    def __init__(self, mesh, view):
        points, own = mesh
        self.view = view
        # (the mesh has six digits, by which each of its points is off)
        self.off = 2 * facets.SIX_DIGITS * facets.extent(points)[0] * view.cells
        seen = [view.turned(point) for point in points]
        self.triangles = [[seen[facet[k]] for k in (0, i, i + 1)] for facet in own for i in range(1, len(facet) - 1)]

    def depth(self, x, y):
        """The depth in cells of the nearest triangle that a ray meets; None for none."""
        right, up = (x - self.view.left) / self.view.scale, (self.view.top - y) / self.view.scale
        nearest = math.inf
        for a, b, c in self.triangles:
            one = (b[0] - a[0]) * (up - a[2]) - (b[2] - a[2]) * (right - a[0])
            two = (c[0] - b[0]) * (up - b[2]) - (c[2] - b[2]) * (right - b[0])
            three = (a[0] - c[0]) * (up - c[2]) - (a[2] - c[2]) * (right - c[0])
            whole = one + two + three
            if whole and (one >= 0) == (two >= 0) == (three >= 0):
                nearest = min(nearest, (two * a[1] + three * b[1] + one * c[1]) / whole)
        return None if math.isinf(nearest) else (nearest - self.view.nearest) * self.view.cells


def judged(model, path, kind, mesh):
    """`right`, or what is refused or wrong, of a file; and the seconds that its scene took."""
    notes, start = io.StringIO(), time.process_time()
    try:
        with contextlib.redirect_stderr(notes):
            tree = model.tree_of(path, kind)
            if tree is None:
                return "refused: the model has no solid", time.process_time() - start
            choices = modelling.Choices(view=TURN, size=SIZE)
            view, _ = modelling.flatter(tree, choices)
            text, (off, _) = model.scene_of(tree, view, choices)
            scene = model.checked(text)
    except Trouble as bad:
        return "refused: %s" % bad, time.process_time() - start
    taken = time.process_time() - start
    traced, wrong, draw = Rays(mesh, view), [], random.Random(1)
    for _ in range(SAMPLES):
        x, y = draw.randrange(SIZE[0]), draw.randrange(SIZE[1])
        shown = rays.depth(scene, x, y)
        about = [traced.depth(x + i * ASIDE, y + j * ASIDE) for i, j in ((0, 0), (1, 1), (1, -1), (-1, 1), (-1, -1))]
        if not any(depth is None and shown == CELLS or depth is not None and abs(shown - depth) <= 4 + off + traced.off for depth in about):
            wrong.append((x, y, shown, about[0]))
    return "right" if not wrong else "WRONG at %d of %d: %s" % (len(wrong), SAMPLES, wrong[0]), taken


def of_model(model, name, text):
    """A line and the seconds of a model, and of its meshes."""
    base = name.replace(" ", "_")
    with open(base + ".scad", "w") as file:
        file.write(text + "\n")
    for kind in ("csg", "off", "stl"):
        openscad(base + ".scad", base + "." + kind)
    mesh = mesh_files.read_off(ends.content(base + ".off"))
    out = [line_of(name, *judged(model, base + ".csg", "csg", mesh))]
    if name in AS_MESHES:
        points, own = mesh
        with open(base + ".obj", "w") as file:
            file.write("".join("v %.6g %.6g %.6g\n" % tuple(point) for point in points))
            file.write("".join("f %s\n" % " ".join("%d//1" % (at + 1) for at in facet) for facet in own))
        with open(base + ".ply", "w") as file:
            file.write("ply\nformat ascii 1.0\nelement vertex %d\nproperty float x\nproperty float y\nproperty float z\n"
                       "element face %d\nproperty list uchar int vertex_indices\nend_header\n" % (len(points), len(own)))
            file.write("".join("%.6g %.6g %.6g\n" % tuple(point) for point in points))
            file.write("".join("%d %s\n" % (len(facet), " ".join(map(str, facet))) for facet in own))
        openscad(base + ".scad", base + ".3mf")
        turned = [facet[::-1] for facet in own]
        with open(base + "_inwards.off", "w") as file:
            file.write("COFF\n%d %d 0\n" % (len(points), len(own)) + "".join("%.6g %.6g %.6g\n" % tuple(point) for point in points)
                       + "".join("%d %s 255 0 0\n" % (len(facet), " ".join(map(str, facet))) for facet in turned))
        for leaf, kind in ((base + ".off", "off"), (base + ".stl", "stl"), (base + ".obj", "obj"), (base + ".ply", "ply"),
                           (base + ".3mf", "3mf"), (base + "_inwards.off", "off")):
            out.append(line_of("%s as %s%s" % (name, kind, ", inwards" * ("inwards" in leaf)), *judged(model, leaf, kind, mesh)))
    return out


def line_of(name, word, seconds):
    return "%s: %s" % (name, word), seconds


def main(part, count, is_timed=False):
    rows = [line.split(": ", 1) for line in MODELS.strip().split("\n")][int(part) - 1::int(count)]
    with concurrent.futures.ProcessPoolExecutor(3) as pool:
        found = [pair for own in pool.map(of_model_alone, rows) for pair in own]
    if is_timed:
        print("\n".join("%6.2f  %s" % (seconds, line) for line, seconds in found))
    lines = [line for line, _ in found]
    for line in lines:
        if not line.endswith(": right"):
            print(line[:240])
    counts = [sum(word in line for line in lines) for word in (": right", ": refused", ": WRONG")]
    print("%d models: %d right, %d refused, %d wrong" % (len(lines), *counts))


def of_model_alone(row):
    return of_model(modelling, *row)


main(*sys.argv[1:])
