"""Pictures of models, pixel by pixel against rays that share no code with the tool."""
import itertools
import math
import os
import random
import shutil
import subprocess
from fractions import Fraction

import pytest
import support

numpy = pytest.importorskip("numpy")
import judged as judged_models
import ray_judge
from pxplanes.errors import Trouble
from pxplanes.image import netpbm
from pxplanes.mesh import columns, csg, exact, exports, facets, modelling, shaping, solids, turns
from pxplanes import program as programs
from pxplanes.scene import scenes

SIZE = (36, 27)
assert modelling.__file__.startswith(support.TOP)
NEEDS_OPENSCAD = pytest.mark.skipif(shutil.which("openscad") is None, reason="no openscad")
CUBE = "multmatrix([[%g,0,0,%g],[0,%g,0,%g],[0,0,%g,%g],[0,0,0,1]]) { cube(size = [1, 1, 1], center = true); }\n"


@pytest.fixture(autouse=True)
def named(built, monkeypatch):
    monkeypatch.setenv("PXPLANES_PROGRAM", built)


def tree_of(text):
    return csg.read(text.encode(), ".")


def judged(tree, **options):
    """The wrong pixels of a tree by columns, and how many pixels the rays have."""
    choices = modelling.Choices(**{"size": SIZE, **options})
    drawing = modelling.by_columns(tree, choices)
    leaves = [leaf for leaf, _ in solids.leaves(tree)]
    away = ray_judge.distances(tree, leaves, [columns.corners_of(leaf) for leaf in leaves], drawing.lens, choices.size)
    return ray_judge.wrong_pixels(drawing.depths, 2 ** choices.bits[0] - 1, away, drawing.lens)


def judged_scene(tree, text, choices, view, rounded=0.0):
    """The same of a tree's one scene, drawn by the program; its depths, and what the rays have."""
    output = programs.output(programs.needed(None), "render", text.encode())
    lens = columns.lens_of(view)
    leaves = [leaf for leaf, _ in solids.leaves(tree)]
    away = ray_judge.distances(tree, leaves, [columns.corners_of(leaf) for leaf in leaves], lens, choices.size)
    depths = netpbm.images(output)[0].numbers()
    return ray_judge.wrong_pixels(depths, 2 ** choices.bits[0] - 1, away, lens, 1 + rounded), depths, away


def ball(radius, place, rounds=8):
    """A ball as a mesh, so that it is no solid of OpenSCAD's own: points, facets, as `polyhedron` has them."""
    rings = [[(radius * numpy.sin(a) * numpy.cos(b), radius * numpy.sin(a) * numpy.sin(b), radius * numpy.cos(a))
              for b in numpy.arange(rounds) * 2 * numpy.pi / rounds]
             for a in numpy.arange(1, rounds) * numpy.pi / rounds]
    points = [(0.0, 0.0, radius)] + [p for ring in rings for p in ring] + [(0.0, 0.0, -radius)]
    last, out = len(points) - 1, []
    for j in range(rounds):
        k = (j + 1) % rounds
        out += [[0, 1 + j, 1 + k], [last, last - rounds + k, last - rounds + j]]
        for i in range(rounds - 2):
            a, b = 1 + i * rounds, 1 + (i + 1) * rounds
            out += [[a + j, b + j, b + k], [a + j, b + k, a + k]]
    return [[float(p + q) for p, q in zip(point, place)] for point in points], out


def dented(radius, place):
    """A ball with dents, which is not convex."""
    points, sides = ball(radius, (0, 0, 0))
    return [[part * (0.6 if at % 3 == 0 else 1) + own for part, own in zip(point, place)] for at,
            point in enumerate(points)], sides


def mesh(points, sides):
    return solids.Mesh("part", 0, lambda: (points, sides), (200, 100, 50))


@pytest.mark.parametrize("projection", ["o", "p"])
@pytest.mark.parametrize("what", ["one", "union", "minus convex", "minus a mesh", "common", "hollow"])
def test_meshes_by_columns_are_as_rays_have_them(what, projection):
    one, other = mesh(*dented(10, (0, 0, 0))), mesh(*dented(6, (5, -6, 4)))
    box = tree_of(CUBE % (8, 3, 8, -4, 30, 2))
    points, sides = ball(10, (0, 0, 0))
    inner, turned = ball(7, (0, 0, 0))
    hollow = mesh(points + inner, sides + [[at + len(points) for at in side[::-1]] for side in turned])
    tree = {"one": one, "union": ("+", [one, other]), "minus convex": ("-", [one, box]),
            "minus a mesh": ("-", [one, other]),
            "common": ("*", [one, other]), "hollow": ("-", [hollow, box])}[what]
    bad, there = judged(tree, projection=projection)
    assert not bad and there > 40


@pytest.mark.parametrize("seed", range(10))
def test_random_expressions_by_columns_are_as_rays_have_them(seed):
    draw = random.Random(seed)

    def leaf():
        place = [draw.uniform(-6, 6) for _ in range(3)]
        if draw.random() < 0.4:
            return mesh(*dented(draw.uniform(4, 8), place))
        words = [part for i in range(3) for part in (draw.uniform(4, 14), place[i])]
        return tree_of("multmatrix([[0.8,-0.6,0,0],[0.6,0.8,0,0],[0,0,1,0],[0,0,0,1]]) { %s }" % (CUBE % tuple(words)))

    tree = leaf()
    for _ in range(draw.randint(2, 5)):
        tree = (draw.choice("+-*-+"), [tree, leaf()])
    options = {"projection": draw.choice("op"), "view": [draw.uniform(0, 180), 0, draw.uniform(0, 360)]}
    assert judged(tree, **options)[0] == []


def test_faces_that_are_one_leave_no_film():
    plate = CUBE % (20, 0, 20, 0, 4, 0)
    tree = tree_of("difference() { %s %s %s }" % (plate, CUBE % (6, 4, 6, 4, 4, 0), CUBE % (6, -5, 6, -5, 2, 1)))
    for options in ({}, {"projection": "p"}, {"view": [0, 0, 0]}):
        bad, there = judged(tree, **options)
        assert not bad and there > 60


def test_what_the_near_plane_cuts_has_a_cap():
    tree = mesh(*ball(10, (0, 0, 0)))
    choices = modelling.Choices(size=SIZE, eye=(0, -30, 0), at=(0, 0, 0), near=25)
    drawing = modelling.by_columns(tree, choices)
    depths = drawing.depths
    assert depths[SIZE[1] // 2, SIZE[0] // 2] == 0 and drawing.shown[SIZE[1] // 2, SIZE[0] // 2] == len(drawing.corners)
    away = ray_judge.distances(tree, [tree], [drawing.corners], drawing.lens, SIZE)
    assert ray_judge.wrong_pixels(depths, 2 ** choices.bits[0] - 1, away, drawing.lens)[0] == []


def test_an_open_mesh_shows_both_sides_and_is_refused_in_a_difference():
    points, sides = ball(10, (0, 0, 0))
    torn = mesh(points, sides[:len(sides) // 2])
    assert judged(torn, view=[120, 0, 30])[0] == []
    assert "facets that are not turned alike near" in columns.open_place(numpy.array([
        [points[at] for at in (side[::-1] if at == 3 else side)] for at, side in enumerate(sides)]))
    with pytest.raises(Trouble, match="is not closed near .* must be closed"):
        modelling.by_columns(("-", [torn, tree_of(CUBE % (8, 0, 8, 0, 30, 0))]), modelling.Choices(size=SIZE))


# A square of 4 by 4 with a hole of 2 by 2, to which a slit leads: 16 - 4 = 12.
KEYHOLE = [(0, 0), (4, 0), (4, 4), (0, 4), (0, 0), (1, 1), (1, 3), (3, 3), (3, 1), (1, 1)]


@pytest.mark.parametrize("axis", range(3))
@pytest.mark.parametrize("way", [1, -1])
def test_a_facet_with_a_slit_to_its_hole_has_its_own_area(axis, way):
    points = numpy.insert(numpy.array(KEYHOLE, float), axis, 7, axis=1)
    found = columns.triangulated(points, [list(range(len(points)))[::way]])
    areas = numpy.cross(found[:, 1] - found[:, 0], found[:, 2] - found[:, 0])[:, axis] / 2
    assert numpy.abs(areas).sum() == pytest.approx(12) and abs(areas.sum()) == pytest.approx(12)


def test_a_facet_that_passes_through_itself_is_refused_with_its_place():
    bow = [[0.0, 0.0, 0.0], [4.0, 3.0, 0.0], [4.0, 0.0, 0.0], [0.0, 1.0, 0.0]]
    with pytest.raises(Trouble, match="facet 2 passes through itself near"):
        columns.triangulated(numpy.array(bow), [[0, 1, 2], [0, 1, 2, 3]])
    # Corners of a sliver are where their digits leave them, on either side of a line.
    thin = numpy.array([[0, 0, 0], [100, 1e-6, 0], [200, -1e-6, 0], [300, 0, 0], [100, 0, 0]], float)
    assert len(columns.triangulated(thin, [[0, 1, 2, 3, 4]])) == 3


SIGNS = """pxscene 3\npicture 40 30\ndepth 8 4\nsolid a 9 9 9\nfront 40 9 100\nback 3 40 900\nside 1 0 -3\nside -1 1 30
solid b 9 9 9\nfront -50 3 2000\nback 0 -20 3000\nsolid c 9 9 9\nfront 0 0 900\nfront 7 60 0\nshow %s\nend\n"""


@pytest.mark.parametrize("show", ("((a + b) - c)", "((a ^ b) * c)", "(a - (b - c))", "((a + b) + c)"))
def test_the_rules_of_a_scene_in_numpy_have_the_programs_depths(show):
    text = SIGNS % show
    by_program, _ = columns.drawn(columns.Scene((0, 0, 0, 0), text, ()), programs.needed(None))
    assert len(numpy.unique(by_program)) > 9
    assert (columns.shown_by(scenes.read(text.encode())) == by_program).all()


STEP = """OFF
12 8 0
0 0 0
2 0 0
2 1 0
1 1 0
1 2 0
0 2 0
0 0 1
2 0 1
2 1 1
1 1 1
1 2 1
0 2 1
6 5 4 3 2 1 0
6 6 7 8 9 10 11
4 0 1 7 6
4 1 2 8 7
4 2 3 9 8
4 3 4 10 9
4 4 5 11 10
4 5 0 6 11
"""


def test_meshes_that_are_not_compared_are_said(tmp_path, monkeypatch, capsys):
    """Without NumPy that is said of a mesh that is divided."""
    def without():
        raise Trouble("this needs NumPy")

    path = tmp_path / "step.off"
    path.write_text(STEP)
    monkeypatch.setattr(modelling, "columns_module", without)
    modelling.made(str(path), modelling.Choices(size=SIZE))
    assert "the pixels of the scene are not compared with the model: this needs NumPy" in capsys.readouterr().err


@pytest.mark.parametrize("text", ["multmatrix([[1,0,0,0],[0,0.94,-0.34,0],[0,0.34,0.94,0],[0,0,0,1]]) { cube(size = [100, "
                                  "100, 0.01], center = false); }",
                                  "difference() { %s %s }" % (CUBE % (100, 0, 100, 0, 20, 0), CUBE % (102, 0, 102, 0, 20.99, -.5))])
def test_a_sheet_thinner_than_a_cell_is_drawn_and_said_of_a_scene(text, tmp_path, capsys):
    """A scene has slits where both sides of it are between two depths."""
    bad, there = judged(tree_of(text))
    assert not bad and there > 200
    (tmp_path / "sheet.csg").write_text(text)
    for depth, is_said in (None, True), ((18, 6), False):
        capsys.readouterr()
        modelling.made(str(tmp_path / "sheet.csg"), modelling.Choices(size=SIZE, depth=depth))
        assert ("the scene is not what the model is at" in capsys.readouterr().err) == is_said


@pytest.mark.parametrize("bits", [-63, -36, -17, 27])
def test_units_may_be_as_small_or_large_as_numbers_are(bits):
    """A picture is that of a model of size 1, which rays judge, to the last depth."""
    size = 2.0 ** bits
    for options in ({}, {"projection": "p"}):
        bad, there = judged(mesh(*dented(1, (1, 0, 0))), **options)
        assert not bad and there > 200
        pictures = [modelling.by_columns(mesh(*dented(own, (own, 0, 0))), modelling.Choices(size=SIZE, **options)).depths
                    for own in (1, size)]
        assert (pictures[0] == pictures[1]).all()
    assert len(facets.planes([[size * part for part in point] for point in itertools.product((0, 1), repeat=3)], [
        [0, 1, 3, 2], [4, 6, 7, 5], [0, 4, 5, 1], [2, 3, 7, 6], [0, 2, 6, 4], [1, 5, 7, 3]])) == 6


def test_hulls_are_closed():
    """Planes that are nearly one have each other's corners, but triangles that are not (random program 191)."""
    for seed in range(30):
        draw = random.Random(seed)
        points = [[draw.choice((draw.randint(0, 4), draw.uniform(0, 4))) for _ in range(3)] for _ in range(40)]
        corners, planes, sides = shaping.hull(points)
        assert not columns.open_place(columns.corners_of(solids.Solid("hull", 1, corners, planes, None, sides=sides)))


def test_a_wall_too_steep_for_a_front_is_no_side():
    text = "cylinder($fn = 12, $fa = 12, $fs = 2, h = 30, r1 = 10, r2 = 9.9, center = false);"
    tree = tree_of(text)
    with pytest.raises(modelling.Steep, match="is seen at x .* fewer bits"):
        modelling.laid_out(tree, modelling.seen(tree, modelling.Choices(view=(0, 0, 0), depth=(16, 7)))[0],
                           modelling.Choices(view=(0, 0, 0), depth=(16, 7)))
    bad, there = judged(tree, view=(0, 0, 0), depth=(16, 7), size=(128, 96))
    assert not bad and there > 2000


def test_a_long_wall_that_is_nearly_a_side_is_none():
    """It leans by 0.064 over a length of 10^8, which is 1.4 pixels."""
    tree = tree_of("cylinder($fn = 4, $fa = 12, $fs = 2, h = 100000000, r1 = 2, r2 = 1.91, center = false);")
    for turn in ((0, 0, 0), (180, 0, 0)):
        choices = modelling.Choices(view=turn, size=(128, 96))
        view = modelling.parallel(tree, choices)
        text, (rounded, _) = modelling.scene_of(tree, view, choices)
        (bad, there), *_ = judged_scene(tree, text, choices, view, rounded)
        assert not bad and there > 3000


@pytest.mark.parametrize("radius", [8, 8.2])
def test_a_steep_wall_at_no_pixel_is_a_side_where_its_face_is(radius):
    """Straight from above, `--depth 16 7`: the wall leans by a tenth of a pixel far from the eye. Its plane, continued
    to the eye, is most of a pixel away."""
    tree = tree_of("union() { multmatrix([[1,0,0,14],[0,1,0,0],[0,0,1,99],[0,0,0,1]]) { cube(size = [1, 1, 1], center "
                   "= false); } cylinder($fn = 4, $fa = 12, $fs = 2, h = 10, r1 = %r, r2 = %r, center = false); }"
                   % (radius, radius - 0.03))
    choices = modelling.Choices(view=(0, 0, 45), size=(128, 96), depth=(16, 7), scale=4)
    view = modelling.parallel(tree, choices)
    text, (rounded, _) = modelling.scene_of(tree, view, choices)
    (bad, there), *_ = judged_scene(tree, text, choices, view, rounded)
    assert text.count("\nside ") == 8 and not bad and there > 2000


def test_a_face_just_below_the_eye_is_no_side():
    """Ten million away from the origin the eye is 0.009 above a box, which is 1.5 pixels."""
    tree = tree_of(CUBE % (10, 1e7, 10, 5.5, 10, -5))
    choices = modelling.Choices(eye=(1e7, 0, 0.009), at=(1e7, 1, 0.009), fov=60, near=0.4, far=20, size=(128, 97))
    view, _ = modelling.in_perspective(choices, tree)
    text, (rounded, _) = modelling.scene_of(tree, view, choices)
    (bad, there), *_ = judged_scene(tree, text, choices, view, rounded)
    assert not bad and there > 3000


def test_decimals_and_doubles_are_taken_exactly():
    """Three points above a line of decimals, whose doubles are not on one; and the doubles themselves as they are."""
    wall = [[0.1, 0.3, 0.0], [0.3, 0.9, 0.0], [0.2, 0.6, 1.0]]
    normal = [0.9486832980505138, -0.31622776601683794, 0.0]
    assert exact.Points(wall).plane(normal, 0.0, (0, 1, 2)).along([(0, 0, 1)]) == [0]
    bent = wall + [[0.1 + 0.2, 0, 0]]                    # a number of 17 digits: all are doubles
    way, = exact.Points(bent).plane(normal, 0.0, (0, 1, 2)).along([(0, 0, 1)])
    p, q, r = [[Fraction(part) for part in point] for point in wall]
    assert 0 < abs(way) < 1e-15 and (way > 0) == ((q[0] - p[0]) * (r[1] - p[1]) > (q[1] - p[1]) * (r[0] - p[0]))
    assert abs(exact.Points(wall).plane(normal, 0.0, (0, 1, 2)).room((1.0, 3.0, 9.0))) == 0


@pytest.mark.parametrize("three", [(3, 4, 5), (20, 21, 29), (696, 697, 985)])
def test_a_turned_plane_is_exact(three):
    """A cube that is turned by decimals, or by what 985 has of them, and stretched, from the way of one of its
    walls."""
    sine, cosine, whole = three
    cube = tree_of("multmatrix([[%r,%r,0,7.3],[%r,%r,0,0.1],[0,0,3.7,0],[0,0,0,1]]) { cube(size = [1, 2, 3], center = "
                   "true); }" % (cosine / whole, -sine / whole, sine / whole, cosine / whole))
    ways = [plane.along([(-sine, cosine, 0), (0, 0, 1)]) for plane in cube.planes]
    is_decimal = whole == 5
    assert sum(way[0] == 0 for way in ways) == (4 if is_decimal else 2) and sum(way[1] == 0 for way in ways) == 4
    assert all(min(abs(way[0]), abs(abs(way[0]) - whole)) < 1e-12 * whole for way in ways)


def test_a_bar_with_many_holes_is_one_scene(tmp_path):
    holes = "".join("multmatrix([[1,0,0,%g],[0,1,0,5],[0,0,1,-1],[0,0,0,1]]) { cylinder($fn = 64, $fa = 12, $fs = 2, "
                    "h = 12, r1 = 3, r2 = 3, "
                    "center = false); }\n" % (6 + 10.5 * i) for i in range(11))
    path = tmp_path / "bar.csg"
    path.write_text("difference() { cube(size = [120, 10, 10], center = false); %s }" % holes)
    choices = modelling.Choices(size=(96, 72))
    text, (_, view, *_) = modelling.made(str(path), choices)
    tree = modelling.tree_of(str(path), "csg")
    laid = modelling.laid_out(tree, view, choices)
    assert modelling.products(tree, laid) > 1024
    (bad, there), *_ = judged_scene(tree, text, choices, view)
    assert not bad and there > 500


def test_products_are_those_of_docs():
    """(a - (b - c)) is (a and not b) or (a and c): two products; taken away, what has parts is as many."""
    a, b, c = (tree_of(CUBE % (1, i, 1, 0, 1, 0)) for i in range(3))
    laid = {id(own): type("Laid", (), {"parts": parts}) for own, parts in ((a, 1), (b, 1), (c, 3))}
    assert modelling.products(("-", [a, ("-", [b, c])]), laid) == 2
    assert modelling.products(("-", [a, c]), laid) == 3
    assert modelling.products(("-", [a, ("+", [c, c])]), laid) == 9
    assert modelling.products(("*", [("+", [a, b]), ("+", [a, b, c])]), laid) == 6


def test_the_volume_of_parts_is_compared():
    cube = [[x, y, z] for x in (0, 2) for y in (0, 2) for z in (0, 2)]
    sides = [[0, 1, 3, 2], [4, 6, 7, 5], [0, 4, 5, 1], [2, 3, 7, 6], [0, 2, 6, 4], [1, 5, 7, 3]]
    polygons = [[cube[at] for at in side] for side in sides]
    assert facets.exact_volume(polygons) == 6 * 8
    planes = facets.planes(cube, sides)
    facets.same_volume(polygons, [facets.sides_of(planes, 1e-6)], 1e-6)
    half = [(normal, min(far, 1) if normal[0] > 0.5 else far) for normal, far, _ in planes]
    with pytest.raises(Trouble, match="a volume of 4 as convex parts and of 8 as it is"):
        facets.same_volume(polygons, [facets.sides_of(half, 1e-6)], 1e-6)


@NEEDS_OPENSCAD
def test_a_text_of_slim_facets_is_refused_as_parts_and_right_by_columns(tmp_path):
    path = tmp_path / "sage.scad"
    path.write_text('linear_extrude(2) translate([300,200]) text("Sage", size=10, $fn=64);')
    with pytest.raises(Trouble, match="a volume of .* draw it undivided|convex parts are at .* pixels"):
        modelling.made(str(path), modelling.Choices())
    tree = modelling.read(str(path), modelling.Choices())
    for projection in "op":
        bad, there = judged(tree, projection=projection, size=(96, 40))
        assert not bad and there > 300


@NEEDS_OPENSCAD
@pytest.mark.parametrize("seed", range(1, 21))
def test_random_programs_are_as_rays_through_openscads_mesh(seed):
    row, = judged_models.judged(judged_models.subject_of_program(seed), judged_models.WAYS[:1])
    assert row["word"] == "right", row


@pytest.mark.parametrize("seed", [0, 1])
def test_the_judge_finds_what_a_picture_lacks(seed, tmp_path):
    triangles = numpy.array(ball(10, (0, 0, 0))[0])[ball(10, (0, 0, 0))[1]]
    path = tmp_path / "ball.stl"
    path.write_bytes(judged_models.raw_stl(triangles))
    dent = triangles.copy()
    dent[numpy.abs(dent) == 10] = 9
    for other, word in ((triangles, "right"), (triangles * 1.04, "wrong"), (triangles[::3], "wrong"), (dent, "wrong"),
                        (triangles + (0.5, 0, 0), "wrong")):
        row, = judged_models.judged(judged_models.Subject("ball", lambda _: (str(path), other), seed), ["--draw"])
        assert row["word"] == word, row


def boxes(count, hole):
    """Boxes of the size of a hole at places in a square."""
    side = math.ceil(math.sqrt(count))
    return "".join(CUBE % (hole, 5 * (i % side) + 2.5, hole, 5 * (i // side) + 2.5, hole, 2) for i in range(count))


@pytest.mark.parametrize("what", ["boxes", "plate"])
def test_more_solids_than_a_scene_may_have_are_drawn_by_columns(what):
    tree = tree_of({"boxes": "union() { %s }" % boxes(300, 3),
                    "plate": "difference() { %s %s }" % (CUBE % (85, 42.5, 85, 42.5, 4, 2), boxes(289, 4.5))}[what])
    bad, there = judged(tree, projection="p")
    assert not bad and there > 100


TEN = (("gallery/temple.csg", {"eye": (-62, -118, 11), "at": (1, 0, 12.5), "fov": 31}),
       ("gallery/temple.csg", {"eye": (0, -30, 9), "at": (0, 10, 9), "fov": 75}),
       ("gallery/drilled_cube.csg", {"eye": (19, -35, 20), "at": (-1, 0, -0.5), "fov": 42}),
       ("gallery/drilled_cube.csg", {"eye": (0.3, -0.2, 0.1), "at": (5, 9, 2), "fov": 110}),
       ("gallery/cornell_box.csg", {"eye": (-278, -800, 273), "at": (-278, 0, 273), "fov": 39.3}),
       ("gallery/cornell_box.csg", {"eye": (-500, 30, 500), "at": (-200, 400, 100), "fov": 70}),
       ("docs/scenes/bracket.csg", {"projection": "p"}),
       ("docs/scenes/bracket.csg", {"camera": (10, -5, 3, 60, 10, 30, 150), "projection": "p"}),
       ("docs/scenes/bracket.csg", {"eye": (20, 14, 21), "at": (8, 11, 0), "fov": 90}),
       ("docs/scenes/bracket.csg", {"projection": "p", "view": (90, 0, 0), "fov": 60}))


@pytest.mark.parametrize("path, camera", TEN)
def test_scenes_in_perspective_are_as_rays_and_povray_have_them(path, camera, tmp_path):
    tree = modelling.tree_of(os.path.join(support.TOP, path), "csg")
    choices = modelling.Choices(size=(64, 48), depth=(16, 4), **camera)
    view, _ = modelling.in_perspective(choices, tree)
    text, (rounded, _) = modelling.scene_of(tree, view, choices)
    (bad, there), depths, away = judged_scene(tree, text, choices, view, rounded)
    assert not bad and there > 200
    if shutil.which("povray") is None:
        return
    (tmp_path / "scene.pov").write_text(exports.pov(modelling.checked(text), view.camera)[0])
    subprocess.run(["povray", "+Iscene.pov", "+Omap.ppm", "+W64", "+H48", "+FP16", "Grayscale_Output=on",
                    "File_Gamma=1", "-D", "-A"],
                   cwd=tmp_path, check=True, capture_output=True)
    image = netpbm.images((tmp_path / "map.ppm").read_bytes())[0]
    theirs = numpy.array(list(image.samples[::image.channels]))
    # At an edge, where the five rays of a pixel do not agree, POV-Ray's ray may meet another solid.
    differ = numpy.abs(theirs - numpy.array(depths)) > 1
    with numpy.errstate(invalid="ignore"):
        spread = numpy.ptp(view.camera.distances.scale / away, axis=1)
    agreed = numpy.isinf(away).all(1) | (spread <= 2)
    assert not (differ & agreed).any() and differ.sum() <= 6


def turned_solid(draw):
    matrix = [row + [draw.uniform(-6, 6)] for row in turns.rows_of([draw.uniform(0, 360) for _ in range(3)])]
    sizes = [draw.uniform(2, 9) for _ in range(3)]
    shape = draw.choice(("cube(size = %s, center = true)" % sizes,
                         "cylinder($fn = %d, h = %r, r1 = %r, r2 = %r, center = true)" % (draw.randint(3, 9), *sizes),
                         "sphere($fn = %d, r = %r)" % (draw.randint(4, 8), sizes[0])))
    return "multmatrix(%s) { %s; }" % (matrix + [[0, 0, 0, 1]], shape)


@pytest.mark.parametrize("first", range(0, 120, 30))
def test_random_cameras_from_within_to_far_away(first):
    """By one scene and by columns; a camera that has the model behind it is refused."""
    shows = 0
    for seed in range(first, first + 30):
        draw = random.Random(seed)
        tree = tree_of(" ".join("%s() { %s }"
                                % (draw.choice(("union", "difference", "difference", "intersection")), " ".join(
            turned_solid(draw) for _ in range(draw.randint(1, 3)))) for _ in range(draw.randint(1, 3))))
        camera = {"eye": [draw.uniform(-30, 30) for _ in range(3)], "at": [draw.uniform(-5, 5) for _ in range(3)],
                  "fov": draw.randint(20, 100)}
        choices = modelling.Choices(size=(24, 18), **camera)
        try:
            view, _ = modelling.in_perspective(choices, tree)
        except Trouble as bad:
            assert "behind the eye" in str(bad)
            continue
        text, (rounded, _) = modelling.scene_of(tree, view, choices)
        (bad, there), *_ = judged_scene(tree, text, choices, view, rounded)
        assert not bad and judged(tree, size=(24, 18), **camera)[0] == []
        shows += there > 0
    assert shows > 20
