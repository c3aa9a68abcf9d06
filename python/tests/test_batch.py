"""Batches: without GNU parallel, one run at a time, a reference that is not there, a disk that is full, words with numbers."""
import io
import os
import struct
import subprocess
import sys

import pytest
import support
from pxplanes.batch import poster, tiff
from pxplanes.errors import Trouble
from pxplanes.scene import scenes

FIRST = os.path.join(support.TOP, "docs", "scenes", "first.scene")
TRIANGLE = os.path.join(support.TOP, "docs", "scenes", "triangle.scene")


def words(*more):
    return [sys.executable, "-m", "pxplanes", "batch", *map(str, more)]


@pytest.fixture
def batch(built):
    environment = dict(os.environ, PYTHONPATH=os.path.join(support.TOP, "python"), PXPLANES_PROGRAM=built, PYTHONDONTWRITEBYTECODE="1")
    return lambda *more, **others: subprocess.run(words(*more), capture_output=True, text=True, env={**environment, **others})


def content(path):
    with open(path, "rb") as file:
        return file.read()


def test_without_parallel(built, batch, tmp_path):
    """Several jobs need no other program, and give what the program gives."""
    done = batch("render", FIRST, TRIANGLE, "-o", tmp_path, "--jobs", 2, PATH="/none")
    assert done.returncode == 0 and done.stdout == "2 scenes: 2 drawn, 0 refused, 0 differ, 0 failed\n"
    for path in (FIRST, TRIANGLE):
        wanted = subprocess.run([built, "render"], stdin=open(path, "rb"), capture_output=True).stdout
        assert content(tmp_path / os.path.basename(path).replace(".scene", ".ppm")) == wanted


def test_words_with_numbers(built, batch, tmp_path):
    """A word may have its numbers."""
    assert batch("tile 40 30", FIRST, "-o", tmp_path).returncode == 0
    wanted = subprocess.run([built, "tile", "40", "30"], stdin=open(FIRST, "rb"), capture_output=True).stdout
    assert content(tmp_path / "first.ppm") == wanted
    assert "is none of" in batch("draw", FIRST, "-o", tmp_path).stderr


@pytest.mark.parametrize("word, wanted", [("view", ["view"]), *(("view --show " + what, ["view", "--show", what]) for what in ("depths", "faces"))])
def test_view(built, batch, tmp_path, word, wanted):
    """PNG pictures, which are those of `pxplanes view`; of a refused scene none."""
    bad = tmp_path / "bad.scene"
    bad.write_text("pxscene 1\n")
    done = batch(word, FIRST, bad, "-o", tmp_path / "out", "--jobs", 2)
    assert done.returncode == 1 and "bad.scene: refused: malformed line 1: missing-end" in done.stdout
    subprocess.run([sys.executable, "-m", "pxplanes", *wanted, FIRST, "-o", tmp_path / "wanted.png"], check=True, capture_output=True, env=dict(
        os.environ, PYTHONPATH=os.path.join(support.TOP, "python"), PXPLANES_PROGRAM=built))
    assert content(tmp_path / "out" / "first.png") == content(tmp_path / "wanted.png")
    assert sorted(os.listdir(tmp_path / "out")) == ["first.png", "many.tsv"]


@pytest.mark.parametrize("word, said", [("refine 3", "2 or 4 is expected, and not 3"), ("tile 640", "required: H"), ("tile 0 5", "1 to 4096"),
                                        ("view --show distances", "view has --show and one of"), ("colour 3", "numbers alone"), ("colour -o x", "numbers alone"), ("sample 3", "none of")])
def test_wrong_words(batch, tmp_path, word, said):
    """Wrong numbers are named before anything is drawn."""
    done = batch(word, FIRST, "-o", tmp_path / "out")
    assert done.returncode == 2 and said in done.stderr and not (tmp_path / "out").exists()


def test_no_reference(batch, tmp_path):
    """A folder to compare with that is not there is an error at once: nothing is drawn."""
    done = batch("compare", FIRST, "-o", tmp_path / "out", "--against", tmp_path / "none")
    assert done.returncode == 2 and "no such folder" in done.stderr and not (tmp_path / "out").exists()


def test_one_run_at_a_time(built, batch, tmp_path):
    """While a run works in a folder a second one says so, and changes nothing."""
    slow = tmp_path / "slow"
    slow.write_text("#!/bin/sh\ntouch %s/begun\nuntil [ -e %s/go ]; do sleep 0.1; done\nexec %s \"$@\"\n" % (tmp_path, tmp_path, built))
    slow.chmod(0o755)
    environment = dict(os.environ, PYTHONPATH=os.path.join(support.TOP, "python"), PXPLANES_PROGRAM=str(slow))
    with subprocess.Popen(words("render", FIRST, "-o", tmp_path / "out"), env=environment, stdout=subprocess.PIPE, text=True) as first:
        while not (tmp_path / "begun").exists():
            assert first.poll() is None
        second = batch("render", TRIANGLE, "-o", tmp_path / "out")
        (tmp_path / "go").touch()
        assert second.returncode == 2 and "another run works in" in second.stderr
        assert "1 drawn" in first.communicate()[0] and first.returncode == 0


@pytest.mark.skipif(os.geteuid() != 0, reason="only root mounts a small disk")
def test_full_disk(built, tmp_path):
    """A scene that has no room is named, and drawn by the next run once there is some."""
    disk, lines = tmp_path / "disk", "mount -t tmpfs -o size=2m none %s && %s; "
    disk.mkdir()
    run = " ".join(words("'tile 400 300'", FIRST, "-o", disk, "--jobs", 1))
    script = lines % (disk, "head -c 1600000 /dev/zero > %s/fill" % disk) + run + "; rm %s/fill; " % disk + run
    done = subprocess.run(["unshare", "--mount", "sh", "-c", script], capture_output=True, text=True, env=dict(
        os.environ, PYTHONPATH=os.path.join(support.TOP, "python"), PXPLANES_PROGRAM=built, PYTHONDONTWRITEBYTECODE="1"))
    if "mount" in done.stderr or "unshare" in done.stderr:
        pytest.skip("no mount here")
    lines = done.stdout.splitlines()
    assert "first.scene: failed: No space left on device" in lines[0] and lines[-1].startswith("1 scenes: 1 drawn"), done.stdout + done.stderr


def numbers(data):
    """The depths and the faces of two maps, by rows."""
    head = data.index(b"255\n") + 4
    wide, high = map(int, data.split()[1:3])
    out = []
    for part in (data[head:len(data) // 2], data[len(data) // 2 + head:]):
        found = [int.from_bytes(part[at:at + 3], "big") for at in range(0, len(part), 3)]
        out.append([found[y * wide:(y + 1) * wide] for y in range(high)])
    return out


@pytest.mark.parametrize("wide, high", [(96, 64), (192, 32), (768, 512)])
def test_enlarged(built, batch, tmp_path, wide, high):
    """Each pixel of the scene is where it belongs in the poster, with its depth and its face; between them is what the planes say."""
    assert batch("poster", FIRST, wide, high, "--tile", 100, "-o", tmp_path / "poster.ppm").returncode == 0
    ours = numbers(subprocess.run([built, "render"], stdin=open(FIRST, "rb"), capture_output=True).stdout)
    for small, large in zip(ours, numbers(content(tmp_path / "poster.ppm"))):
        assert [row[::wide // 48] for row in large[::high // 32]] == small


def test_enlarged_by_a_third(batch, tmp_path):
    """Edges may be at any fraction of a pixel; a slope of a third of a cell is refused, with its line."""
    scene = "pxscene 1\npicture 2 1\ndepth 4\nsolid a 1 2 3\nfront %s\nside -1 0 0\nshow a\nend\n"
    (tmp_path / "flat.scene").write_text(scene % "3 0 5")
    (tmp_path / "steep.scene").write_text(scene % "1 0 5")
    assert batch("poster", tmp_path / "flat.scene", 6, 1, "-o", tmp_path / "flat.ppm").returncode == 0
    assert numbers(content(tmp_path / "flat.ppm")) == [[[5, 15, 15, 15, 15, 15]], [[2, 0, 0, 0, 0, 0]]]
    done = batch("poster", tmp_path / "steep.scene", 6, 1, "-o", tmp_path / "steep.ppm")
    assert done.returncode == 1 and "line 5 has no exact enlargement to 6 by 1" in done.stderr and not (tmp_path / "steep.ppm").exists()


def test_poster_as_tiff(built, batch, tmp_path):
    """Another reader of TIFF has the colours, the depths and the faces that the program draws, also after a run that was broken off."""
    oiio = pytest.importorskip("OpenImageIO")
    counting = tmp_path / "counting"
    counting.write_text("#!/bin/sh\n[ \"$1\" = tile ] && echo >> %s/count && [ $(wc -l < %s/count) = 4 ] && exit 9\nexec %s \"$@\"\n" % (
        tmp_path, tmp_path, built))
    counting.chmod(0o755)
    run = ["poster", FIRST, 96, 64, "--tile", 48, "--jobs", 1, "-o", tmp_path / "p.tif"]
    assert batch(*run, PXPLANES_PROGRAM=str(counting)).returncode == 2 and not (tmp_path / "p.tif").exists()
    assert batch(*run, PXPLANES_PROGRAM=str(counting)).returncode == 0 and content(tmp_path / "count").count(b"\n") == 5
    assert sorted(path.name for path in tmp_path.iterdir() if path.name != "count") == ["counting", "p-depth.tif", "p-faces.tif", "p.tif"]
    depths, faces = numbers(subprocess.run([built, "render"], stdin=open(FIRST, "rb"), capture_output=True).stdout)
    colours = subprocess.run([built, "colour"], stdin=open(FIRST, "rb"), capture_output=True).stdout
    def read(name):
        file = oiio.ImageInput.open(str(tmp_path / name))
        return file.read_image(file.spec().format)[::2, ::2]

    assert read("p-depth.tif")[:, :, 0].tolist() == depths and read("p-faces.tif")[:, :, 0].tolist() == faces
    assert read("p.tif").tobytes() == colours[-3 * 48 * 32:]
    assert "multiples of 16" in batch("poster", FIRST, 96, 64, "--tile", 50, "-o", tmp_path / "q.tif").stderr
    assert not list(tmp_path.glob("q*"))


def test_poster_as_tiff_of_many_faces(built, batch, tmp_path):
    """Another reader of TIFF has depths of more than 16 bits, faces of more than 8, and tiles past the edges, of which no side is like another."""
    oiio = pytest.importorskip("OpenImageIO")
    solids = "".join("solid s%d %d 7 200\n%sfront 900 5000 %d\nside 1 0 %d\nside -1 0 %d\n" % (
        at, 20 * at, "front 0 0 0\n" * 31, 60000 + 9 * at, -4 * at, 4 * at + 3) for at in range(10))
    shown = "s0"
    for at in range(1, 10):
        shown = "(%s + s%d)" % (shown, at)
    text = "pxscene 2\npicture 40 20\ndepth 20\n%sshow %s\nend\n" % (solids, shown)
    (tmp_path / "many.scene").write_text(text)
    done = batch("poster", tmp_path / "many.scene", 40, 20, "--tile", 16, "--jobs", 1, "-o", tmp_path / "p.TIFF")
    assert done.returncode == 0, done.stderr
    render, colour = (subprocess.run([built, word], input=text.encode(), capture_output=True).stdout for word in ("render", "colour"))
    depths, faces = numbers(render)
    assert max(map(max, depths)) > 65535 + 5000 * 19 and max(map(max, faces)) == 330

    def read(name):
        file = oiio.ImageInput.open(str(tmp_path / name))
        return file.read_image(file.spec().format)

    assert read("p-depth.TIFF")[:, :, 0].tolist() == depths and read("p-faces.TIFF")[:, :, 0].tolist() == faces
    assert read("p.TIFF").tobytes() == colour[-3 * 40 * 20:]
    assert sorted(path.name for path in tmp_path.iterdir()) == ["many.scene", "p-depth.TIFF", "p-faces.TIFF", "p.TIFF"]


def test_refused_poster_leaves_no_tiff(built, batch, tmp_path):
    pytest.importorskip("numpy")
    refusing = tmp_path / "refusing"
    refusing.write_text("#!/bin/sh\n[ \"$1\" = tile ] && echo 'limit line 0: products 9' >&2 && exit 4\nexec %s \"$@\"\n" % built)
    refusing.chmod(0o755)
    done = batch("poster", FIRST, 96, 64, "--tile", 48, "-o", tmp_path / "p.tif", PXPLANES_PROGRAM=str(refusing))
    assert done.returncode == 1 and "products 9" in done.stderr and [path.name for path in tmp_path.iterdir()] == ["refusing"]


def test_a_tiff_file_has_an_end(tmp_path, monkeypatch):
    """What would reach over 4 GiB is refused before it is written; a tile is put after all others, wherever the file was read."""
    monkeypatch.setattr(tiff, "LARGEST", 20)
    with open(tmp_path / "a.tif", "w+b") as file:
        file.write(bytes(8))
        assert tiff.put(file, b"12345") == (8, 5)
        file.seek(2)
        assert tiff.put(file, b"123456") == (13, 6)
        with pytest.raises(Trouble, match="ends at 4 GiB"):
            tiff.put(file, b"1")
    assert content(tmp_path / "a.tif") == bytes(8) + b"12345123456"


def test_tags_of_a_tiff_file():
    """By TIFF 6.0 the tags begin at an even place, and 262 says that three samples are red, green and blue, or that 0 of one is black."""
    numpy = pytest.importorskip("numpy")
    for samples, wanted in ((3, 2), (1, 1)):
        file = io.BytesIO(b"12345678odd")
        tiff.finish(file, 16, 16, 16, numpy.dtype("u1"), samples, [(8, 3)])
        data = file.getvalue()
        count, = struct.unpack_from("<H", data, 12)
        tags = dict(struct.unpack_from("<H6xH", data, 14 + 12 * at) for at in range(count))
        assert data[:8] == b"II*\0\x0c\0\0\0" and data[11] == 0 and tags[262] == wanted and list(tags) == sorted(tags)


def test_tiles_of_another_poster_are_not_taken(tmp_path):
    """Tiles are kept for a poster of the same scene, size and program alone, and only if all three files are there."""
    pytest.importorskip("numpy")
    piece, scene = next(poster.pieces_of(32, 16, 16)), scenes.read(content(FIRST))

    def tiled(total):
        made = poster.Tiled(str(tmp_path / "p.tif"), 32, 16, 16, total, scene)
        had = made.has(piece)
        if not had:
            made.put(piece, 2 * (b"P6\n16 16\n255\n" + bytes(3 * 16 * 16)))
        for file in made.files:
            file.close()
        return had

    assert [tiled(total) for total in ("one", "one", "two", "two")] == [False, True, False, True]
    (tmp_path / "p-faces.tif.part").unlink()
    assert [tiled("two"), tiled("two")] == [False, True]
