"""Maps from the files of other programs: each form, the channel that is taken, windows, and what is refused."""
import io
import sys

import numpy as np
import pytest

from calling import path
from pxplanes.errors import Trouble
from pxplanes.image import maps

oiio = pytest.importorskip("OpenImageIO")
OF_SIXTEEN_BITS = ["text.txt", "grey16.png", "rgb16.png", "sixteen.pam", "sixteen.npy", "floats.npy", "fortran.npy", "none.tif", "packbits.tif",
                   "deflate.tif", "lzw.tif", "lzw_predicted.tif", "tiles.tif", "float_predicted.tif", "float_words.tif", "plain.f32", "plain.f64",
                   "big.pfm", "bytes.ppm", "rgb8.png", "rgba8.png", "filters.png", "bytes.pam", "rgb.tif", "rgb_tiles.tif", "woven.png", "palette.tif"]
SIZE = 20, 12
Y, X = np.mgrid[0:12, 0:20]


def read(leaf, *more):
    return maps.read(path("formats", leaf), *more)


def numbers(leaf, size=None):
    found = read(leaf, size)
    assert len(found) == 1
    return found[0].numbers


@pytest.mark.parametrize("leaf", OF_SIXTEEN_BITS)
def test_forms_have_the_same_numbers(leaf):
    own = numbers(leaf, SIZE if leaf.startswith("plain") else None)
    assert own.shape == (12, 20)
    assert np.array_equal(own, numbers("sixteen.pgm"))
    assert own.dtype == (np.float64 if "f32" in leaf or "f64" in leaf or "float" in leaf or "pfm" in leaf else np.uint32)


def test_parts_are_kept():
    assert np.array_equal(numbers("float.pfm"), numbers("sixteen.pgm") - 0.25)
    assert np.array_equal(numbers("commas.csv"), numbers("sixteen.pgm") - 0.75)


@pytest.mark.parametrize("one, other", [("eight.pgm", "grey8.png"), ("palette.ppm", "palette.png"), ("one.pgm", "one.png")])
def test_forms_of_eight_bits_and_fewer(one, other):
    assert np.array_equal(numbers(one), numbers(other))


def test_tiff_that_lzw_packs_has_more_words_than_its_table():
    y, x = np.mgrid[0:60, 0:100]
    assert np.array_equal(numbers("noise.tif"), (x * x * 7 + y * y * x * 13 + x * y * 5) % 251)


def test_exr_of_pov_ray_is_grey():
    assert np.array_equal(numbers("slope.exr"), (3 * X + 16 * Y) / 256)


def test_two_maps_plain_and_raw():
    depths, faces = maps.maps_of(b"P3 2 1 255 0 1 2 # a comment\n 3 4 5\nP2\n2 1\n9\n1 9\n")
    assert depths.numbers.tolist() == [[258, 197637]] and faces.numbers.tolist() == [[1, 9]]
    depths, faces = maps.maps_of(b"P6 # one\n1 1\n255\n\1\2\3P5\n1 1\n65535\n\1\2")
    assert depths.numbers.tolist() == [[0x10203]] and faces.numbers.tolist() == [[0x102]]
    assert (depths.kind, faces.kind) == ("bytes", "grey")


def exr(file, names, pixels, window=None, forms=None):
    """Writes an EXR file; the window is the left, top, whole width and whole height of what has pixels."""
    spec = oiio.ImageSpec(pixels.shape[1], pixels.shape[0], pixels.shape[2], "float")
    spec.channelnames = names
    if window:
        spec.x, spec.y, spec.full_width, spec.full_height = window
    out = oiio.ImageOutput.create(str(file))
    assert out.open(str(file), spec), oiio.geterror()
    assert out.write_image(pixels.astype(np.float32))
    out.close()
    return str(file)


COLOURS_AND_MORE = np.dstack([X, X + 1, X + 2, 10 * X + Y + 0.5, 5 * X])


@pytest.mark.parametrize("name", ["depth.Z", "Z", "ViewLayer.Depth.Z", "depth", "layer.depth", "a.depth.V"])
def test_the_channel_that_has_depths_is_taken_and_never_red(tmp_path, name):
    file = exr(tmp_path / "a.exr", ("R", "G", "B", name), COLOURS_AND_MORE[:, :, :4])
    assert np.array_equal(maps.read(file)[0].numbers, 10 * X + Y + 0.5)
    assert np.array_equal(maps.read(file, None, "R")[0].numbers, X)


def test_several_channels_that_may_have_depths_are_listed(tmp_path):
    file = exr(tmp_path / "a.exr", ("R", "G", "B", "near.Z", "far.Z"), COLOURS_AND_MORE)
    with pytest.raises(Trouble, match=r"several channels may be the depths: far.Z, near.Z; name one with --channel"):
        maps.read(file)
    assert np.array_equal(maps.read(file, None, "near.z")[0].numbers, 10 * X + Y + 0.5)
    with pytest.raises(Trouble, match="there is no channel middle; it has"):
        maps.read(file, None, "middle")


def test_channels_of_which_none_has_depths_are_listed(tmp_path):
    with pytest.raises(Trouble, match=r"no channel is named as depths are .*it has .*normal.X"):
        maps.read(exr(tmp_path / "a.exr", ("R", "G", "B", "normal.X"), COLOURS_AND_MORE[:, :, :4]))
    with pytest.raises(Trouble, match="colours and no depths"):
        maps.read(exr(tmp_path / "b.exr", ("R", "G", "B"), COLOURS_AND_MORE[:, :, :3]))


def test_a_data_window_is_padded_with_background(tmp_path):
    found = maps.read(exr(tmp_path / "a.exr", ("Z",), COLOURS_AND_MORE[:, :, 3:4], (4, 2, 30, 16)))[0].numbers
    whole = np.full((16, 30), np.inf)
    whole[2:14, 4:24] = 10 * X + Y + 0.5
    assert np.array_equal(found, whole)


def test_radiance_hdr_is_read(tmp_path):
    file = exr(tmp_path / "a.hdr", ("R", "G", "B"), np.dstack([2.0 ** (X % 4)] * 3))
    assert np.array_equal(maps.read(file)[0].numbers, 2.0 ** (X % 4))


def test_grey_pictures_and_numbers_of_three_bytes_differ():
    def of(body):
        return maps.maps_of(b"P6\n2 1\n255\n" + body)[0].is_grey_picture
    assert of(b"\7\7\7\x30\x30\x30") and not of(b"\0\0\7\x30\x30\x30") and not of(b"\0\0\0\xff\xff\xff")


@pytest.mark.parametrize("most", [65535, 2 ** 24 - 1])
def test_numbers_written_as_png_are_read_back(tmp_path, most):
    own = (X * 7919 + Y * 104729) % (most + 1)
    (tmp_path / "a.png").write_bytes(maps.png_of_numbers(own))
    assert np.array_equal(maps.read(str(tmp_path / "a.png"))[0].numbers, own)


def refused(data, leaf="file", size=None):
    with pytest.raises(Trouble) as found:
        maps.maps_of(data, leaf, size)
    return str(found.value)


@pytest.mark.parametrize("leaf, message", [
    ("short.ppm", "the image ends early: 3 bytes of 6"), ("three.ppm", "there is more after two images"),
    ("sixteen.ppm", "a picture of colours with samples to 65535 holds no numbers: 255 is expected"),
    ("wide.ppm", "the width is no number from 1 to 65536"), ("word.pgm", "sample 2 of the image is no number to 15"),
    ("two_sizes.ppm", "the two images differ in size")])
def test_damaged_netpbm(leaf, message):
    with pytest.raises(Trouble) as found:
        maps.read(path("bad", leaf))
    assert str(found.value) == "%s: %s" % (path("bad", leaf), message)


def bytes_of(leaf):
    with open(path("formats", leaf), "rb") as file:
        return file.read()


@pytest.mark.parametrize("leaf, size", [("rgb8.png", 300), ("rgb8.png", 20), ("none.tif", 200), ("noise.tif", 2000), ("sixteen.npy", 100),
                                        ("sixteen.pam", 90), ("sixteen.pam", 30), ("float.pfm", 500), ("slope.exr", 8), ("slope.exr", 400)])
def test_files_that_end_early(tmp_path, leaf, size):
    file = tmp_path / leaf
    file.write_bytes(bytes_of(leaf)[:size])
    with pytest.raises(Trouble, match="damaged|ends early|not whole|not a picture"):
        maps.read(str(file))


@pytest.mark.parametrize("leaf, message", [("float_other.tif", "predicted floats is not read"), ("flat.npy", "real numbers by rows and columns")])
def test_forms_that_are_not_read(leaf, message):
    with pytest.raises(Trouble, match=message):
        read(leaf)


def test_bare_floats_need_a_size_and_all_their_bytes():
    assert "not a picture" in refused(bytes_of("plain.f32"))
    assert "not a picture" in refused(bytes_of("plain.f32")[:-1], "odd.f32", SIZE)


def test_text_that_is_no_map():
    assert refused(b"1 2\n3\n") == "the lines of numbers have different lengths"
    assert refused(b"1 2\n3 x\n") == "the text has a word that is no number"
    assert maps.maps_of(b"1 inf\n-3 nan\n")[0].numbers[0].tolist() == [1, np.inf]


@pytest.mark.parametrize("data, kind", [
    (b"# a scene\npxscene 1\npicture 1 1\n", "this is a scene, and not a map"), (b"solid a\n facet normal 0 0 1\n", "an STL file, and not a picture"),
    (b"\x1f\x8b\x08\0", "a gzip file"), (b"%PDF-1.4", "a PDF document"), (b"PK\3\4....", "a ZIP archive"), (b"<!doctype html>", "XML or HTML"),
    (b"", "the file is empty"), (b"what is this?", "not a picture that can be read")])
def test_what_is_no_picture_is_refused_by_its_kind(data, kind, tmp_path):
    (tmp_path / "file").write_bytes(data)
    with pytest.raises(Trouble) as found:
        maps.read(str(tmp_path / "file"))
    assert kind in str(found.value)


def test_a_missing_library_is_named_with_its_package(monkeypatch):
    monkeypatch.setitem(sys.modules, "OpenImageIO", None)
    with pytest.raises(Trouble, match="OpenImageIO is not installed: install Debian's python3-openimageio"):
        read("grey16.png")


def test_a_name_that_ends_like_a_film_does_not_matter(tmp_path):
    for name in ("maps_qt", "maps.qt", "mapsmov", "maps.xavi"):
        (tmp_path / name).write_bytes(bytes_of("grey16.png"))
        assert np.array_equal(maps.read(str(tmp_path / name))[0].numbers, numbers("sixteen.pgm"))


def test_standard_input_is_read_by_content(monkeypatch):
    class Standard:
        buffer = io.BytesIO(bytes_of("grey16.png"))
    monkeypatch.setattr("sys.stdin", Standard)
    assert np.array_equal(maps.read("-")[0].numbers, numbers("sixteen.pgm"))
