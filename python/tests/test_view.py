"""The pictures that `pxplanes view` makes: NumPy's are those of plain Python, and small maps have the colours worked out by hand."""
import random
import tracemalloc
from types import SimpleNamespace

import numpy as np
import pytest

from pxplanes.cli import frame, view
from pxplanes.image import maps, netpbm, shades, show


@pytest.mark.parametrize("seed", range(5))
def test_numpy_makes_the_same(seed):
    draw = random.Random(seed)
    depths = [draw.choice((draw.randrange(1 << 24), 511, 0)) for _ in range(7 * 5)]
    faces = [draw.choice((0, draw.randrange(4096))) for _ in range(7 * 5)]
    shape = lambda numbers: np.array(numbers, np.uint32).reshape(5, 7)
    pixels = lambda colours: np.array(colours, np.uint8).reshape(5, 7, 3)
    both = [maps.Map(shape(numbers), "bytes") for numbers in (depths, faces)]
    pairs = {"depths": show.greys_of_depths(depths, [face != 0 for face in faces]), "faces": show.colours_of_faces(faces)}
    for what, colours in pairs.items():
        assert (shades.of_maps(both, what)(slice(None)) == pixels(colours)).all()
    singles = {"depths": show.greys_of_depths(depths, [depth != max(depths) for depth in depths]), "lights": show.colours_of_lights(depths)}
    for what, colours in singles.items():
        assert (shades.of_maps(both[:1], what)(slice(None)) == pixels(colours)).all()


@pytest.mark.parametrize("what", ["depths", "faces", None])
def test_a_large_file_is_read_in_bands_into_the_same_picture(what, tmp_path, monkeypatch):
    draw, wide, high = random.Random(7), 13, 29
    head = b"P6\n%d %d\n255\n" % (wide, high)
    path = tmp_path / "maps.ppm"
    path.write_bytes(b"".join(head + draw.randbytes(3 * wide * high) for _ in range(2)))
    words = ["view", str(path), "-o", str(tmp_path / "whole.png")] + (["--show", what] if what else [])
    monkeypatch.setattr(shades, "enlarged", lambda pixels: pixels)
    assert frame.answered(words) == 0
    monkeypatch.setattr(maps, "LARGE_FILE", 0)
    monkeypatch.setattr(maps, "BAND", 4 * wide)
    assert frame.answered([word.replace("whole", "banded") for word in words]) == 0
    made = sorted(tmp_path.glob("banded*.png"))
    assert len(made) == (1 if what else 2)
    assert [each.read_bytes() for each in made] == [each.read_bytes() for each in sorted(tmp_path.glob("whole*.png"))]


def test_large_files_by_hand(tmp_path, monkeypatch):
    """Bands of 4 pixels, or of a row; raw greys, in bands too; samples to 100 are read whole; greys are known by any band of a picture."""
    monkeypatch.setattr(maps, "LARGE_FILE", 0)
    monkeypatch.setattr(maps, "BAND", 4)
    assert [(rows.start, rows.stop) for rows in maps.bands((5, 2))] == [(0, 2), (2, 4), (4, 6)]
    assert [(rows.start, rows.stop) for rows in maps.bands((2, 9))] == [(0, 1), (1, 2)]

    def large(head, *samples):
        (tmp_path / "map").write_bytes(head + bytes(samples))
        return maps.large(str(tmp_path / "map"))

    grey, = large(b"P5\n2 3\n255\n", 7, 8, 9, 10, 11, 12)
    assert grey.kind == "grey" and not grey.is_grey_picture and grey.numbers[2, 0] == 11
    assert np.asarray(grey.numbers).tolist() == [[7, 8], [9, 10], [11, 12]] and np.asarray(grey.numbers, np.float64).dtype == np.float64
    assert large(b"P5\n2 3\n100\n", 7, 8, 9, 10, 11, 12) == []
    black_and_white = (0, 0, 0, 255, 255, 255)
    assert large(b"P6\n2 3\n255\n", 5, 5, 5, *black_and_white, *black_and_white, 0, 0, 0)[0].is_grey_picture
    assert not large(b"P6\n2 3\n255\n", *black_and_white * 3)[0].is_grey_picture
    options = SimpleNamespace(out="a.png", page=None, show="distances", file=str(tmp_path / "map"))
    assert view.large(options) == [] and len(view.large(SimpleNamespace(**{**vars(options), "show": "faces"}))) == 1


def test_a_band_without_a_face_is_background(monkeypatch):
    monkeypatch.setattr(maps, "BAND", 2)
    both = [maps.Map(np.array(numbers, np.uint32), "bytes") for numbers in ([[15, 15], [4, 9]], [[0, 0], [1, 2]])]
    make = shades.of_maps(both, "depths")
    assert make(slice(0, 1)).tolist() == [[[24, 24, 64]] * 2] and make(slice(1, 2)).tolist() == [[[240] * 3, [60] * 3]]


def test_greys_of_two_pixels_need_the_memory_of_two():
    """The nearest depth is 240, the farthest 60, and no table has all depths between."""
    tracemalloc.start()
    greys = shades.greys_of_depths(np.array([[5, 2 ** 24 - 1, 0]], np.uint32), np.array([[True, True, False]]), 5, 2 ** 24 - 1)
    peak = tracemalloc.get_traced_memory()[1]
    tracemalloc.stop()
    assert greys.tolist() == [[[240] * 3, [60] * 3, [24, 24, 64]]] and peak < 1 << 20


def test_a_small_map_by_hand():
    """Depths 10, 20 and the background 31: the nearest is 240, the farthest 60, and the background dark blue."""
    head, numbers = b"P6\n3 1\n255\n", b"\0\0\x0a\0\0\x14\0\0\x1f"
    found = view.of_maps(head + numbers + head + b"\0\0\1\0\0\2\0\0\0", "depths")[0]
    assert [list(map(int, pixel)) for pixel in np.array(found.colours).reshape(-1, 3)] == [[240] * 3, [60] * 3, [24, 24, 64]]
    picture = netpbm.png_content(view.png(found))
    assert picture == netpbm.png_content(netpbm.png(3, 1, [(240,) * 3, (60,) * 3, (24, 24, 64)]))


def test_colours_in_the_light(tmp_path, capsys):
    """Of two lights none, one and both reach a pixel: it keeps 0.3, 0.65 and all of its colour; the background is black."""
    scene = ("pxscene 1\npicture 4 1\ndepth 4\nsolid wall 200 100 0\nfront 0 0 5\nside -1 0 2\n"
             "solid s 0 0 0\nside -1 0 0\nsolid t 0 0 0\nside -1 0 1\nshow wall\nend\n")
    (tmp_path / "a.scene").write_text(scene)
    (tmp_path / "lights").write_text("light s\nlight t\n")
    options = frame.parser_of("view").parse_args([str(tmp_path / "a.scene"), "--lights", str(tmp_path / "lights")])
    assert view.of_scene(scene.encode(), options).colours == [(60, 30, 0), (130, 65, 0), (200, 100, 0), (0, 0, 0)]
