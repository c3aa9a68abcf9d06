"""The command and the call `compare`: what is right, what differs, and why. Maps of scenes are worked out here, by hand."""
import json
from types import SimpleNamespace

import numpy as np
import pytest

import pxplanes
from calling import TOP, call, path
from pxplanes.compare import causes, picture, report, verdict
from pxplanes.compare.verdict import WRONG
from pxplanes.image import maps

OURS = TOP + "/cases/drilled_block_and_post/stdout"
SCENE = TOP + "/cases/drilled_block_and_post/stdin"
ONE = TOP + "/cases/one_solid/stdout"
FAR = 4095


def two(file):
    depths, faces = maps.read(file)
    return depths.numbers.astype(int), faces.numbers.astype(int)


def write(file, *numbers):
    """Maps as P6, three bytes a number."""
    file.write_bytes(b"".join(b"P6\n%d %d\n255\n" % each.shape[::-1] + np.stack([each >> 16 & 255, each >> 8 & 255, each & 255], -1).astype(
        np.uint8).tobytes() for each in numbers))
    return file


def grey(file, numbers, order=">u2"):
    file.write_bytes(b"P5\n%d %d\n65535\n" % numbers.shape[::-1] + numbers.astype(order).tobytes())
    return file


def real(file, numbers):
    np.save(file.with_suffix(".npy"), numbers)
    return file.with_suffix(".npy")


# ---- whole numbers

@pytest.mark.parametrize("words", [[ONE], [path("plain.ppm")], [path("plain.pgm")]])
def test_alike_in_each_form(words):
    assert call("compare", ONE, *words) == (0, ["0 of 1 pixels differ"])
    assert call("compare", "--only", "faces", ONE, path("faces.pgm")) == (0, ["0 of 1 pixels differ"])


def test_what_differs_is_counted_by_ways_and_listed(tmp_path):
    file = tmp_path / "difference.png"
    status, lines = call("compare", "--scene", path("three.scene"), "-o", file, path("ours.ppm"), path("theirs.ppm"))
    assert (status, lines) == (1, [
        "4 of 6 pixels differ",
        "OURS is not the picture of %s: no cause is sought, and depths are compared by their cells" % path("three.scene"),
        "greatest difference of depths: 6, at 2 1",
        "  1 pixel: ours near_one front, theirs near_one front, theirs farther",
        "  1 pixel: ours other front, theirs background, theirs farther",
        "  1 pixel: ours other front, theirs other front, theirs farther",
        "  1 pixel: ours other front, theirs other near, same depth",
        "  at 1 0: depths 5 and 6, faces 2 (near_one front 1) and 2 (near_one front 1)",
        "  at 2 0: depths 9 and 9, faces 4 (other front 1) and 3 (other near)",
        "  at 1 1: depths 9 and 12, faces 4 (other front 1) and 4 (other front 1)",
        "  at 2 1: depths 9 and 15, faces 4 (other front 1) and 0 (background)"])
    shown = maps.read(str(file))[0].numbers
    # grey is lightest at 5 and darkest at 9; a difference of 6 is 255 red, of 1 149, of 3 191; of the faces alone it is blue
    assert [["%06x" % n for n in row] for row in shown] == [["c8c8c8", "952020", "4060ff"], ["3c3c3c", "bf2020", "ff2020"]]
    assert np.array_equal(maps.read(path("difference.png"))[0].numbers[::170, ::170], shown)


def test_large_files_are_compared_in_bands(tmp_path, monkeypatch):
    """Three pixels differ, in the first, a middle and the last band of rows: worked out by hand."""
    monkeypatch.setattr(maps, "LARGE_FILE", 0)
    monkeypatch.setattr(maps, "BAND", 30)
    files = [np.full((2, 20, 10, 3), (1, 0, 1), np.uint8) for _ in range(2)]
    for row, column, more in ((0, 3, 2), (11, 9, 5), (19, 0, 1)):
        files[1][0, row, column, 2] += more
    files[1][1, 11, 9] = 0
    for leaf, both in zip("ab", files):
        (tmp_path / leaf).write_bytes(b"".join(b"P6\n10 20\n255\n" + each.tobytes() for each in both))
    assert isinstance(maps.large(str(tmp_path / "a"))[1].numbers, maps.Rows)
    assert call("compare", tmp_path / "a", tmp_path / "b") == (1, [
        "3 of 200 pixels differ",
        "greatest difference of depths: 5, at 9 11",
        "  2 pixels: ours face 65537, theirs face 65537, theirs farther",
        "  1 pixel: ours face 65537, theirs background, theirs farther",
        "  at 3 0: depths 65537 and 65539, faces 65537 and 65537",
        "  at 9 11: depths 65537 and 65542, faces 65537 and 0 (background)",
        "  at 0 19: depths 65537 and 65538, faces 65537 and 65537"])
    assert call("compare", tmp_path / "a", tmp_path / "a") == (0, ["0 of 200 pixels differ"])


def uint32(*rows):
    return np.array(rows, np.uint32)


def test_ways_by_hand():
    """Faces of one solid and kind are one way; a number past all faces is said; without faces the background is known by the far limit."""
    wrong, words = np.ones((1, 4), np.bool_), ["", "front of a", "front of a", "b"]
    ours, theirs = (report.Maps(None, uint32(each)) for each in ((1, 2, 3, 0), (3, 3, 4, 1)))
    assert report.ways_in(ours, theirs, wrong, words, None) == {
        "ours front of a, theirs b": 2, "ours b, theirs face 4": 1, "ours background, theirs front of a": 1}
    ours, theirs = (report.Maps(uint32(each), None) for each in ((15, 3, 5, 5), (3, 15, 4, 0)))
    assert report.ways_in(ours, theirs, wrong, words, 15) == {
        "ours background, theirs nearer": 1, "theirs background, theirs farther": 1, "theirs nearer": 2}
    assert report.ways_in(ours, theirs, wrong & (uint32((1, 0, 0, 0)) > 0), words, None) == {"theirs nearer": 1}


@pytest.mark.parametrize("theirs, said", [
    ({(1, 0): 7, (2, 3): 13, (0, 5): 9}, "3, at 1 0"), ({(0, 5): 9}, "1, at 0 5"), ({(2, 1): 9, (0, 4): 0, (1, 4): 20}, "10, at 0 4"), ({}, None)])
def test_greatest_difference_by_hand(monkeypatch, theirs, said):
    """Nearer or farther, the first pixel of the greatest difference; of bands of two rows of three pixels."""
    monkeypatch.setattr(maps, "BAND", 6)
    ours, other = np.full((6, 3), 10, np.uint32), np.full((6, 3), 10, np.uint32)
    for (x, y), depth in theirs.items():
        other[y, x] = depth
    found = SimpleNamespace(state=np.where(ours == other, WRONG + 1, WRONG))
    assert report.greatest(report.Maps(ours, None), report.Maps(other, None), found) == (
        ["greatest difference of depths: " + said] if said else [])


def test_a_tolerance_in_cells_and_the_first_of_many():
    status, lines = call("compare", "--depth-tolerance", "3", "--first", "1", path("ours.ppm"), path("theirs.ppm"))
    assert (status, lines[0].split(":")[0], lines[1:]) == (1, "2 of 6 pixels differ", [
        "greatest difference of depths: 6, at 2 1", "  1 pixel: ours face 4, theirs background, theirs farther", "  and 1 more way",
        "  at 2 0: depths 9 and 9, faces 4 and 3"])
    status, lines = call("compare", "--only", "depths", "--depth-tolerance", "3", path("ours.ppm"), path("theirs.ppm"))
    assert status == 1 and lines[1:] == ["greatest difference of depths: 6, at 2 1", "  1 pixel: theirs farther", "  at 2 1: depths 9 and 15"][:1] + [
        "  at 2 1: depths 9 and 15"]


def test_another_number_for_the_background():
    status, lines = call("compare", "--scene", path("three.scene"), "--far", "65535", "--only", "depths", path("ours.ppm"), path("far.pgm"))
    assert (status, lines[0]) == (0, "0 of 6 pixels differ")


def test_other_sizes():
    assert call("compare", path("ours.ppm"), ONE) == (1, ["the sizes differ: 3 by 2 and 1 by 1"])


@pytest.mark.parametrize("words, message", [
    (["missing.ppm", ONE], "missing.ppm: No such file or directory"), ([TOP + "/cases/one_solid/stdin", ONE], "this is a scene, and not a map"),
    ([ONE], "required: THEIRS"), (["-", "-"], "one of the two files alone"), (["--only", "colours", "a", "b"], "invalid choice"),
    (["--far", "5", ONE, ONE], "--far needs --scene"), (["--first", "x", ONE, ONE], "a whole number from 0"), (["--wrong", "a", "b"], "--wrong"),
    (["--scene", TOP + "/cases/no_end/stdin", ONE, ONE], "malformed line 7: missing-end"), (["--epsilon", "much", ONE, ONE], "a number is expected"),
    (["--depth-tolerance", "-1", ONE, ONE], "a number from 0 on"), (["--distance", "1", "--scene", SCENE, OURS, OURS], "--distance is NEAR,FAR"),
    (["--distance", "1,2", OURS, OURS], "--distance needs --scene")])
def test_trouble_is_one_line(words, message):
    status, lines = call("compare", *words)
    assert status == 2 and len(lines) == 1 and message in lines[0]


def test_json():
    status, lines = call("compare", "--json", path("ours.ppm"), path("theirs.ppm"))
    found = json.loads("\n".join(lines))
    assert status == 1 and (found["pixels"], found["differ"], found["exact"], found["greatest"], found["whole"]) == (6, 4, 2, 6, True)


# ---- causes of one scene

def planted(tmp_path):
    """Maps of the scene with one mistake each, and a word of what must be said."""
    depths, faces = two(OURS)
    shown = faces > 0
    yield "bottom up", write(tmp_path / "flipped", depths[::-1], faces[::-1]), "the rows are from the bottom up"
    yield "from the right", write(tmp_path / "mirrored", depths[:, ::-1], faces[:, ::-1]), "the columns are from the right"
    swapped = (depths & 255) << 16 | (depths & 65280) | depths >> 16
    yield "bytes", write(tmp_path / "bytes", swapped), "the 3 bytes of depths are lowest first"
    yield "two bytes", grey(tmp_path / "two", depths, "<u2"), "the 2 bytes of depths are lowest first"
    yield "scaled", grey(tmp_path / "scaled", np.rint(depths * 65535 / FAR)), "depths are from 0 to 65535"
    yield "turned", grey(tmp_path / "turned", FAR - depths), "near and far are exchanged"
    yield "turned and scaled", grey(tmp_path / "both", 65535 - np.rint(depths * 65535 / FAR)), "near and far are exchanged, from 0 to 65535"
    yield "more", grey(tmp_path / "more", depths + shown), "depths are off by 1"
    right = [np.concatenate([each[:, :1] * 0 + other, each[:, :-1]], 1) for each, other in ((depths, FAR), (faces, 0))]
    yield "moved", write(tmp_path / "moved", *right), "the map is moved by 1 columns and 0 rows"
    yield "from 0", write(tmp_path / "from_0", depths, faces - shown), "faces are counted from 0"
    yield "to 1", real(tmp_path / "to_1", depths / FAR), "depths are from 0 to 1"
    greys = 255 - depths * 255 // FAR
    yield "picture", write(tmp_path / "picture", greys * 0x10101), "near and far are exchanged, from 0 to 255"


def test_causes_of_one_scene(tmp_path):
    for name, file, said in planted(tmp_path):
        status, lines = call("compare", "--scene", SCENE, "--first", "0", OURS, file)
        cause = next((line for line in lines if line.startswith("possible cause: ")), "none")
        assert status == 1 and said in cause and cause.endswith("in 1 scene, with 0 errors"), (name, lines)


def test_a_factor_is_no_cause_of_what_rounding_hides(tmp_path):
    """Depths one more in odd rows are no multiple of ours, though each is within a cell of one."""
    depths, faces = two(OURS)
    odd = np.where((faces > 0) & (np.arange(len(depths)) % 2 == 1)[:, None], depths + 1, depths)
    assert "no cause found" in call("compare", "--scene", SCENE, OURS, write(tmp_path / "odd", odd, faces))[1]


def test_no_cause_without_evidence_but_facts(tmp_path):
    depths, faces = two(OURS)
    empty = int((faces == 0).sum())
    status, lines = call("compare", "--scene", SCENE, OURS, grey(tmp_path / "background", np.where(faces == 0, 65535, depths)))
    assert lines[:4] == ["%d of 3072 pixels differ" % empty, "no cause found",
                         "  0 where ours shows a face, %d in our background, 244 beside an edge of one of our faces" % empty,
                         "  theirs is 65535 at all of those in our background (--far 65535)"]
    flat = write(tmp_path / "two_mistakes", np.where(faces == 0, FAR, depths - 1)[::-1], faces[::-1])
    status, lines = call("compare", "--scene", SCENE, OURS, flat)
    assert lines[1] == "no cause found"
    other = TOP + "/cases/drilled_block/stdout"
    status, lines = call("compare", "--scene", SCENE, "--first", "4", OURS, other)
    assert "no cause found" in lines and lines[0] == "1504 of 3072 pixels differ" and lines[-9:-4] == [
        "  644 pixels: ours cut back, theirs cut back, theirs farther", "  292 pixels: ours block front, theirs cut back, theirs farther",
        "  224 pixels: ours post front, theirs background, theirs farther", "  156 pixels: ours block front, theirs cut back, theirs nearer",
        "  and 3 more ways"]


def shown_by(scene_file, how=picture.RIGHT):
    with open(scene_file, "rb") as file:
        scene = picture.of_text(file.read(), str(scene_file))[0]
    found = picture.picture(scene, how, *picture.grid(scene))
    return [each.reshape(scene.height, scene.width) for each in (found.depths, found.faces)]


def test_half_a_pixel_of_a_scene_that_is_twice_as_large(tmp_path):
    ours = write(tmp_path / "ours", *(each.astype(int) for each in shown_by(path("once.scene"))))
    theirs = write(tmp_path / "theirs", shown_by(path("twice.scene"))[0][1::2, 1::2].astype(int))
    status, lines = call("compare", "--only", "depths", "--scene", path("once.scene"), "--first", "0", ours, theirs)
    # one slope alone cannot separate half a pixel from 6 cells
    assert lines[:2] == ["1536 of 3072 pixels differ", "no cause found: these explain all 1536 pixels equally well: "
                         "samples are +0.5 columns and +0.5 rows aside; depths are off by 6"]


def test_rounding_down_in_place_of_up(tmp_path):
    y, x = np.mgrid[0:16, 0:16]
    exact = (5 * x + 3 * y + 20) / 16
    ours, theirs = grey(tmp_path / "ours", np.ceil(exact)), grey(tmp_path / "theirs", np.floor(exact))
    status, lines = call("compare", "--only", "depths", "--scene", path("slope.scene"), "--first", "0", ours, theirs)
    # 240 pixels differ, but theirs has few depths: that alone is no evidence
    assert lines[0] == "240 of 256 pixels differ" and lines[1] == "no cause found"


def test_a_picture_of_the_colours(tmp_path):
    with open(SCENE, "rb") as file:
        colours = np.array([0] + [r << 16 | g << 8 | b for _, _, _, _, (r, g, b), _ in picture.of_text(file.read(), SCENE)[1].faces()])
    status, lines = call("compare", "--scene", SCENE, OURS, write(tmp_path / "colours", colours[two(OURS)[1]]))
    assert "theirs is a picture of the faces' colours, and no map of depths: 3072 of 3072 pixels have the colour of our face" in lines


# ---- real numbers

def slope(tmp_path):
    """The scene of one slope with fraction bits, our maps of it, and its exact depths."""
    y, x = np.mgrid[0:16, 0:16]
    exact = (5 * x + 3 * y + 20) / 16
    return write(tmp_path / "ours", np.ceil(exact).astype(int), np.full((16, 16), 2)), exact


@pytest.mark.parametrize("change, wrong", [(0, 0), (64 * 2.0 ** -24 * 255, 0), (65 * 2.0 ** -24 * 255, 256), (-0.4, 256), (0.01, 256)])
def test_real_depths_are_held_to_the_exact_surface(tmp_path, change, wrong):
    ours, exact = slope(tmp_path)
    status, lines = call("compare", "--only", "depths", "--scene", path("slope.scene"), ours, real(tmp_path / "theirs", exact + change))
    assert (status, lines[0].split(" differ")[0]) == (wrong > 0, "%d of 256 pixels" % wrong)


def test_epsilon_in_cells_and_the_counts(tmp_path):
    ours, exact = slope(tmp_path)
    theirs = real(tmp_path / "theirs", exact + np.where(np.arange(16) < 4, 0.01, 0))
    status, lines = call("compare", "--only", "depths", "--epsilon", "0.02cells", "--scene", path("slope.scene"), ours, theirs)
    assert (status, lines) == (0, ["0 of 256 pixels differ: 192 exact, 64 within 0.02 cells, 0 near an edge"])


def test_without_a_scene_a_depth_is_held_to_its_cell(tmp_path):
    ours, exact = slope(tmp_path)
    status, lines = call("compare", "--only", "depths", ours, real(tmp_path / "theirs", exact + 0.01))
    assert status == 1 and lines[0].startswith("16 of 256 pixels differ")      # one in each row is whole, and 0.01 more is another cell
    assert lines[1] == "without --scene a depth with parts is only known to lie in its cell or not"
    assert call("compare", "--only", "depths", ours, real(tmp_path / "theirs", exact))[0] == 0


def test_numbers_with_parts_are_multiplied(tmp_path):
    ours, exact = slope(tmp_path)
    file = real(tmp_path / "theirs", exact / 255)
    assert call("compare", "--only", "depths", "--scene", path("slope.scene"), "--times", "255", ours, file)[0] == 0
    assert call("compare", "--only", "depths", "--scene", path("slope.scene"), "--times", "254.9", ours, file)[0] == 1


def test_what_is_not_finite_is_the_background(tmp_path):
    (tmp_path / "holes.txt").write_text("1 2 inf\n3 nan 9\n")
    assert call("compare", grey(tmp_path / "holes.pgm", np.array([[1, 2, 9], [3, 9, 9]])), tmp_path / "holes.txt")[0] == 0


EDGE = b"pxscene 1\npicture 8 4\ndepth 8\nsolid a 1 2 3\nside 1 0 -3\nfront 0 0 40\nback 0 0 90\nshow a\nend\n"


def test_an_edge_through_a_sample_may_go_either_way_and_is_counted(tmp_path):
    (tmp_path / "edge.scene").write_bytes(EDGE)
    right = np.where(np.arange(8) >= 3, 40.0, 255.0) * np.ones((4, 1))
    ours = write(tmp_path / "ours", right.astype(int), (right == 40) * 2)
    for column, said in ((3, "0 of 32 pixels differ: 28 exact, 0 within 64 roundings, 4 near an edge"), (4, "4 of 32 pixels differ: 28 exact")):
        theirs = right + 0.0
        theirs[:, column] = 255
        theirs[0, 7] = 40.00001
        line = call("compare", "--only", "depths", "--scene", tmp_path / "edge.scene", ours, real(tmp_path / "theirs", theirs))[1][0]
        assert line.startswith(said.replace("28 exact, 0 within", "27 exact, 1 within").replace("28 exact", "27 exact"))


def test_whole_numbers_have_no_edges(tmp_path):
    (tmp_path / "edge.scene").write_bytes(EDGE)
    right = np.where(np.arange(8) >= 3, 40, 255) * np.ones((4, 1), int)
    ours = write(tmp_path / "ours", right, (right == 40) * 2)
    status, lines = call("compare", "--scene", tmp_path / "edge.scene", "--only", "depths", ours, grey(tmp_path / "b", np.where(np.arange(8) == 3, 255, right)))
    assert (status, lines[0]) == (1, "4 of 32 pixels differ")


@pytest.mark.parametrize("word, numbers", [("2,50", lambda z, ray: z), ("2,50,inverse", lambda z, ray: 1 / z), ("2,50,ray,60", lambda z, ray: z * ray)])
def test_distances_of_a_perspective_camera(tmp_path, word, numbers):
    scene = b"pxscene 1\npicture 8 6\ndepth 16\nsolid a 1 2 3\nfront 100 50 9000\nshow a\nend\n"
    (tmp_path / "a.scene").write_bytes(scene)
    y, x = np.mgrid[0:6, 0:8]
    depth = 100 * x + 50 * y + 9000
    z = 1 / (1 / 2 - depth * (1 / 2 - 1 / 50) / 65535)
    focal = 3 / np.tan(np.radians(30))
    ray = np.sqrt(1 + ((x - 3.5) / focal) ** 2 + ((y - 2.5) / focal) ** 2)
    ours = write(tmp_path / "ours", depth, depth * 0 + 2)
    theirs = real(tmp_path / "theirs", numbers(z, ray).astype(np.float32).astype(float))
    assert call("compare", "--only", "depths", "--scene", tmp_path / "a.scene", "--distance", word, ours, theirs)[0] == 0


def test_the_picture_by_numpy_is_the_program_s():
    for name in ("drilled_block", "drilled_block_and_post", "one_solid"):
        depths, faces = two("%s/cases/%s/stdout" % (TOP, name))
        shown = shown_by("%s/cases/%s/stdin" % (TOP, name))
        assert np.array_equal(shown[0], depths) and np.array_equal(shown[1], faces)


def test_a_large_picture_is_judged_by_some_of_its_pixels(monkeypatch, tmp_path):
    from pxplanes.compare import report
    monkeypatch.setattr(report, "MOST", 1000)
    monkeypatch.setattr(report, "TAKEN", 500)
    depths, faces = two(OURS)
    status, lines = call("compare", "--scene", SCENE, OURS, write(tmp_path / "flipped", depths[::-1], faces[::-1]))
    assert lines[1] == "possible cause: the rows are from the bottom up; it explains 500 of 500 pixels that differ in 1 scene, with 0 errors"


# ---- the call

def test_the_call_by_arrays_and_lists():
    ours = memoryview(bytes([10, 20, 255, 30, 40, 255])).cast("B", (2, 3))
    assert pxplanes.compare(ours, ours) and pxplanes.compare(ours, ours).pixels == 6
    other = [[10, 20, 255], [30, 43, 255]]
    found = pxplanes.compare(ours, other)
    assert not found and (found.differ, found.pixels, found.greatest, found.at) == (1, 6, 3, [(1, 1)])
    assert pxplanes.compare(ours, other, tolerance=3)
    assert pxplanes.compare(ours, [[9.2, 20.0000001, float("inf")], [30.0, 39.5, float("nan")]])
    found = pxplanes.compare(ours, [[9, 20.1, 255], [30, 40, 255]])
    assert (found.differ, found.at) == (2, [(0, 0), (1, 0)])
    for wrong in ([[1, 2, 3]], [[1, 2], [3, 4]], []):
        with pytest.raises(ValueError):
            pxplanes.compare(ours, wrong)


def test_the_call_by_pictures_and_a_scene():
    depths = np.array([[5, 5, 9], [5, 9, 9]])
    one = pxplanes.Picture(depths, [[1, 2, 0], [1, 1, 0]], 3, 2)
    other = pxplanes.Picture(depths, [[1, 2, 0], [1, 2, 0]], 3, 2)
    assert pxplanes.compare(one, one) and pxplanes.compare(one, other).at == [(1, 1)] and pxplanes.compare(one, depths)
    with open(path("slope.scene")) as file:
        scene = file.read()
    y, x = np.mgrid[0:16, 0:16]
    exact = (5 * x + 3 * y + 20) / 16
    assert pxplanes.compare(np.ceil(exact).astype(int), exact, scene=scene)
    assert pxplanes.compare(np.ceil(exact).astype(int), exact - 0.01, scene=scene).differ == 256
    assert pxplanes.compare(np.ceil(exact).astype(int), exact - 0.01, scene=scene, epsilon=1e4)
    assert callable(pxplanes.compare)


def test_thresholds_are_what_the_document_says():
    with open(TOP + "/docs/COMPARE.md") as file:
        words = file.read()
    for number in (causes.PIXELS, causes.SCENES, causes.ALONE, causes.PAIRS, causes.MARGIN, "%g %%" % (100 * causes.ERRORS), int(verdict.ROUNDINGS)):
        assert str(number) in words


class Whole:
    """A number of a caller's own, which is a whole number to Python."""

    def __init__(self, number):
        self.number = number

    def __index__(self):
        return self.number


def test_numbers_of_a_caller_s_own():
    """The greatest depth is alike, and the next one is not."""
    alike, other = (pxplanes.compare([[Whole(2 ** 24 - 1)]], [[depth]]) for depth in (2 ** 24 - 1, 2 ** 24 - 2))
    assert (alike.differ, alike.pixels, alike.greatest, list(alike.at)) == (0, 1, 0, []) and not other
