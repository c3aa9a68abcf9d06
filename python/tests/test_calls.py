"""The calls of the library from Python: their examples, and arguments of each wrong kind in each place."""
import concurrent.futures
import doctest
import functools
import glob
import importlib
import os
import pickle
import random
import resource
import shutil
import signal
import subprocess
import sysconfig
import threading
import time

import pytest

import support
import pxplanes
from pxplanes import pictures, running
from pxplanes.scene import scenes

FIRST = pxplanes.from_file(os.path.join(support.TOP, "docs", "scenes", "first.scene"))
HOUSE = pxplanes.from_file(os.path.join(support.TOP, "gallery", "house.scene"))
MODULES = ("building", "calls", "commands", "compare.comparing", "explain.explained", "machine.operations",
           "machine.states", "pictures", "running")
SCENES = sorted(path for folder in ("docs/scenes", "gallery")
                for path in glob.glob(os.path.join(support.TOP, folder, "*.scene")))
# What a wrong call may raise.
NAMED = (TypeError, ValueError, IndexError, MemoryError, OverflowError, pxplanes.OverBudget)
pytestmark = pytest.mark.after_build


@pytest.fixture(autouse=True)
def need_library(library):
    if not os.environ.get(support.SHARED):
        pytest.skip(support.NO_LIBRARY)


@pytest.mark.parametrize("name", MODULES)
def test_examples_in_docstrings(name, monkeypatch):
    if name.startswith("compare"):
        pytest.importorskip("numpy")
    monkeypatch.chdir(support.TOP)
    module = importlib.import_module("pxplanes." + name)
    done = doctest.testmod(module, extraglobs={"pxplanes": pxplanes, "text": FIRST, **vars(pxplanes)})
    assert done.attempted and not done.failed


def test_each_call_has_an_example():
    calls = [getattr(pxplanes, name) for name in pxplanes.__all__ if name.islower()]
    assert len(calls) > 20 and [call.__name__ for call in calls if ">>>" not in call.__doc__] == []


@pytest.mark.parametrize("path", SCENES, ids=[os.path.basename(path) for path in SCENES])
def test_each_face_is_that_of_a_reader_written_apart(path):
    text, due = pxplanes.from_file(path), {}
    for at, solid in enumerate(scenes.read(text).solids, 1):
        due[solid.near] = at, solid.name, "near", 0, solid.line, tuple(solid.colour)
        for kind, faces in (("front", solid.fronts), ("back", solid.backs)):
            due.update({face.number: (at, solid.name, kind, plane, face.line, tuple(face.colour))
                        for plane, face in enumerate(faces, 1)})
    assert {number: tuple(pxplanes.face(text, number)) for number in due} == due and max(due) == pxplanes.check(text).faces
    for number in (0, len(due) + 1, 2 ** 32 - 1):
        with pytest.raises(ValueError, match="from 1 to %d" % len(due)):
            pxplanes.face(text, number)


def test_hostile_arguments():
    lot = random.Random(83)
    state = pxplanes.state(FIRST, 100)
    micro = pxplanes.micros(FIRST, 0, 1)[0]
    things = [None, True, -1, 0, 1, 7, 4096, 1 << 31, 1 << 63, 1 << 64, -1 << 70, 1.5, float("nan"), "", "7", b"", b"\0", "\ud800",
              bytearray(5), memoryview(bytes(8)).cast("Q"), [], [1], {}, set(), object(), len, state, micro, [micro], [None], FIRST[:99],
              FIRST + b"x", FIRST.replace(b"64", b"99999999999999999999"), "render", "tile 0 0", "sample 1"]
    each = [(pxplanes.check, [FIRST]), (pxplanes.render, [FIRST, None, None, 1, None]),
            (pxplanes.colour, [FIRST, None, None, None]),
            (pxplanes.window, [FIRST, 1, 1, 5, 5]), (pxplanes.products, [FIRST]), (pxplanes.face, [FIRST, 1]),
            (pxplanes.state, [FIRST, 5]), (pxplanes.micros, [FIRST, 5, 5]), (pxplanes.pixels, [FIRST, 1, 1, 5, 2]),
            (pxplanes.course, [FIRST, 0, 5]), (pxplanes.clocked, [state, [micro]]), (pxplanes.run, [FIRST, "cost"]),
            (pxplanes.tidy, [FIRST]), (pxplanes.tile, [FIRST, 9, 9]), (pxplanes.refine, [FIRST, 2]), (pxplanes.shadow, [FIRST]),
            (pxplanes.listing, [FIRST]), (pxplanes.play, [FIRST]), (pxplanes.Scene, [(5, 5), 9, pxplanes.Solid()]),
            (state.plane, [3]), (state.number, [3, 4]), (state.bit, [3, 1, 1]), (state.node, [1, 1]), (pxplanes.Scene.union, [[]])]
    before, due = bytes(state.words), pxplanes.render(FIRST)
    raised = 0
    for _ in range(10000):
        call, words = lot.choice(each)
        words = list(words)
        for place in lot.sample(range(len(words)), lot.randint(1, len(words))):
            words[place] = lot.choice(things)
        try:
            call(*words)
        except NAMED as error:
            raised += 1
            assert str(error) or isinstance(error, MemoryError), (call, words)
    assert raised > 5000 and bytes(state.words) == before and pxplanes.render(FIRST) == due


def test_memory_stays_flat():
    small = "pxscene 1\npicture 4 2\ndepth 4\nsolid a 1 2 3\nfront 1 0 0\nback 0 0 9\nshow a\nend\n"
    for _ in range(500):
        pxplanes.render(small)
    before = resource.getrusage(resource.RUSAGE_SELF).ru_maxrss
    for at in range(100000):
        pxplanes.render(small)
        if at % 50 == 0:
            pxplanes.run(FIRST, "tile %d 7" % (1 + at % 90))
            pxplanes.render(FIRST, threads=2, progress=lambda share: None)
    assert resource.getrusage(resource.RUSAGE_SELF).ru_maxrss - before < 2048


def test_runs_share_a_buffer_and_keep_their_answers(monkeypatch):
    """A listing of more than the first room makes the kept buffer grow; an answer stays, whatever comes after it."""
    monkeypatch.setattr(running, "ROOM", 1000)
    monkeypatch.setattr(running, "KEPT", {})
    words = ["list", "tidy", "cost", "list", "tile 70 40", "sample 3", "plan"]
    house = pxplanes.from_file(os.path.join(support.TOP, "gallery", "pawn.scene"))
    with concurrent.futures.ThreadPoolExecutor(4) as pool:
        answers = list(pool.map(lambda each: pxplanes.run(*each), [(text, word) for text in (house, FIRST) for word in words] * 3))
    assert answers[:14] * 3 == answers and answers[0] == answers[3]
    assert answers[1] == pxplanes.tidy(house).encode() and answers[8] == pxplanes.tidy(FIRST).encode() != answers[1]
    pxplanes.run(house, "list")
    assert running.KEPT["out"].count >= len(answers[0]) > running.ROOM and pxplanes.run(FIRST, "sample 3") == answers[12]


def test_windows_by_hand():
    """Windows are 64 rows high and half as wide as the picture, and all pixels are in one."""
    assert pictures.windows_of(1, 1) == [(0, 0, 1, 1)] and pictures.windows_of(2, 64) == [(0, 0, 1, 64), (1, 0, 1, 64)]
    assert pictures.windows_of(7, 65) == [(0, 0, 4, 64), (4, 0, 3, 64), (0, 64, 4, 1), (4, 64, 3, 1)]


@pytest.mark.parametrize("wide, high", [(1, 1), (1, 130), (131, 1), (67, 65), (30, 200)])
def test_pictures_of_windows_are_whole(wide, high):
    """No window is missing, or in another's place, and the share that is drawn grows to 1."""
    text, shares = "pxscene 2\npicture %d %d\ndepth 24\nsolid a 1 2 3\nfront 1000 7000 90000\nsolid b 4 5 6\nside 3 -2 0\nshow (b + a)\nend\n" % (wide, high), []
    assert pxplanes.render(text, threads=3, progress=shares.append).maps() == pxplanes.run(text)
    assert shares == sorted(shares) and shares[-1] == 1


def test_threads_are_kept_and_a_forked_child_has_its_own():
    due, before = pxplanes.render(FIRST), threading.active_count()
    for _ in range(200):
        assert pxplanes.render(FIRST, threads=3) == due
    assert threading.active_count() - before <= 2 * 3
    child = os.fork()
    if child == 0:
        signal.alarm(100)
        os._exit(int(pxplanes.render(FIRST, threads=3) != due))
    assert os.waitpid(child, 0)[1] == 0


def test_calls_that_have_ended_draw_nothing(monkeypatch):
    """Two windows of four are under way, side by side, when `progress` raises: no other begins, and the caller's arrays don't get those two."""
    numpy = pytest.importorskip("numpy")
    maps, begun, may_end, piece = numpy.full((2, 128, 128), 7), [], threading.Event(), pictures.piece
    monkeypatch.setattr(running, "IDLE", [])

    def waiting(*words):
        begun.append(words)
        may_end.wait()
        return piece(*words)

    def progress(share):
        looks.append(share)
        if len(begun) == 2 or len(looks) > 100:
            raise KeyError("enough")

    monkeypatch.setattr(pictures, "piece", waiting)
    for draw in (functools.partial(pxplanes.render, HOUSE, out=(*maps,)), functools.partial(pxplanes.render, HOUSE),
                 functools.partial(pxplanes.tile, HOUSE, 256, 256)):
        looks = []
        with pytest.raises(KeyError, match="enough"):
            draw(threads=2, progress=progress)
        assert len(begun) == 2
        may_end.set()
        for _ in range(6000):
            if len(running.IDLE) == 2:
                break
            time.sleep(0.01)
        assert len(begun) == len(running.IDLE) == 2 and (maps == 7).all()
        begun.clear()
        may_end.clear()


def test_out_of_memory_in_a_thread(monkeypatch):
    """What a window raises in its thread, the call raises; and the thread draws on in later calls."""
    piece, looks = pictures.piece, []

    def short(data, x, *words):
        if x > 0:
            raise MemoryError("no memory")
        return piece(data, x, *words)

    def progress(share):
        looks.append(share)
        assert len(looks) < 100

    with monkeypatch.context() as patch:
        patch.setattr(pictures, "piece", short)
        for threads in 1, 3:
            with pytest.raises(MemoryError, match="no memory"):
                pxplanes.render(HOUSE, threads=threads, progress=progress)
    assert pxplanes.render(HOUSE, threads=3).maps() == pxplanes.run(HOUSE)


def test_pictures_are_refused_as_a_whole():
    """A budget is kept by each number of threads. A picture of 2 * 23 * 23 products, above 1024, is refused though each half of it has half of
    them, and is drawn."""
    numpy, takes = pytest.importorskip("numpy"), pxplanes.check(HOUSE).clocks
    left, right = ([pxplanes.Scene.union([pxplanes.Solid(sides=[side]) for _ in range(23)]) for _ in range(2)] for side in ((-1, 0, 31), (1, 0, -32)))
    many = pxplanes.Scene((64, 1), 4, left[0] * left[1] + right[0] * right[1])
    half = pxplanes.window(many, 0, 0, 32, 1)
    for threads in 1, 2:
        with pytest.raises(pxplanes.OverBudget):
            pxplanes.render(HOUSE, threads=threads, clocks=takes - 1)
        with pytest.raises(pxplanes.Limit, match="products 1058"):
            pxplanes.render(many, threads=threads)
        maps = numpy.zeros((2, 1, 32))
        assert pxplanes.tile(many, 32, 1, threads=threads, out=(*maps,)) == pxplanes.Picture(*maps, 32, 1) == half


STEEP = "pxscene 1\npicture 64 64\ndepth 4\nsolid a 1 2 3\nfront 8388608 0 8589934592\nback 0 0 9\nshow a\nend\n"


def test_a_window_is_refused_but_not_the_picture(monkeypatch):
    """The constant of a plane is past its limit in the right window alone. The picture is then drawn in one piece, and `progress` is called
    meanwhile."""
    numpy = pytest.importorskip("numpy")
    maps, shares, is_heard, piece = numpy.full((2, 64, 64), 7), [], threading.Event(), pictures.piece

    def progress(share):
        shares.append(share)
        is_heard.set()

    def slow(data, x, y, wide, high):
        if wide == 64:
            is_heard.clear()
            is_heard.wait(60)
        return piece(data, x, y, wide, high)

    monkeypatch.setattr(pictures, "piece", slow)
    assert pxplanes.render(STEEP, threads=2, progress=progress, out=(*maps,)).maps() == pxplanes.run(STEEP)
    assert (maps[0] == 15).all() and (maps[1] == 0).all() and shares[-2:] == [0, 1]


# A program that has Python inside, begins it twice, and runs the lines in its first word by both.
HOST = r"""
#include <Python.h>
int main(int count, char **words)
{
    for (int round = 0; round < 2; round++) {
        Py_Initialize();
        if (PyRun_SimpleString(words[count - 1]) || Py_FinalizeEx())
            return 1;
    }
    return 0;
}
"""
INSIDE = """import sys; sys.path[:0] = ['python']
import pxplanes
text, shares = pxplanes.from_file('gallery/near_face.scene'), []
due = pxplanes.run(text)
print(pxplanes.render(text, threads=4, progress=shares.append).maps() == due == pxplanes.run(text, progress=shares.append), shares[-1])
"""


def test_an_interpreter_in_another_program(tmp_path):
    include, library = sysconfig.get_path("include"), sysconfig.get_config_var("LIBDIR")
    if shutil.which("gcc") is None or not os.path.exists(os.path.join(include, "Python.h")):
        pytest.skip("there is no gcc, or no Python.h")
    (tmp_path / "host.c").write_text(HOST)
    name = "python" + sysconfig.get_config_var("LDVERSION")
    subprocess.run(["gcc", "-I" + include, "host.c", "-L" + library, "-Wl,-rpath," + library, "-l" + name, "-o", "host"], cwd=tmp_path, check=True)
    # (without NumPy, which warns if it begins twice in one process)
    lines = "import sys; sys.modules['numpy'] = None\n" + INSIDE
    run = subprocess.run([str(tmp_path / "host"), lines], cwd=support.TOP, capture_output=True, text=True)
    assert (run.returncode, run.stdout) == (0, "True 1.0\n" * 2), run.stderr


def test_pictures_in_the_callers_arrays():
    numpy = pytest.importorskip("numpy")
    due, colours = pxplanes.render(FIRST), pxplanes.colour(FIRST)
    wide = pxplanes.tile(FIRST, 70, 40)
    for threads, progress in (1, None), (3, lambda share: None):
        depths = numpy.zeros((32, 2 * 48), numpy.float32)[:, ::2]
        faces = numpy.zeros((34, 50), numpy.uint16)
        given = pxplanes.render(FIRST, threads=threads, progress=progress, out=(depths[::-1], faces[1:33, 1:49]))
        assert (depths[::-1] == due.depths).all() and (faces[1:33, 1:49] == due.faces).all()
        assert faces.sum() == due.faces.sum()
        assert numpy.shares_memory(given.depths, depths)
    maps = numpy.zeros((40, 70)), numpy.zeros((40, 70), numpy.int64)
    assert pxplanes.tile(FIRST, 70, 40, threads=2, out=maps) == pxplanes.Picture(*maps, 70, 40) == wide
    rgba = numpy.zeros((32, 48, 4), numpy.uint8)
    assert pxplanes.colour(FIRST, out=rgba[::-1]).base is rgba
    assert (rgba[::-1, :, :3] == colours).all() and (rgba[..., 3] == 255).all()
    wrong = ((pxplanes.render, maps), (pxplanes.render, (1, 2)), (pxplanes.colour, rgba[1:]), (pxplanes.colour, 5),
             (pxplanes.render, ()), (pxplanes.render, (due.depths, due.faces, due.faces)), (pxplanes.render, due.depths))
    for call, out in wrong:
        with pytest.raises(ValueError, match="out has .* shape"):
            call(FIRST, out=out)
    given = pxplanes.render(FIRST, out=(depths[::-1], numpy.zeros((32, 48), numpy.int64)))
    assert given.maps() == due.maps()
    one = numpy.zeros((33, 48), numpy.uint32)
    rows_in_one = numpy.lib.stride_tricks.as_strided(one, (32, 48), (0, 4))
    for first, second in (numpy.zeros((32, 48), numpy.uint8), faces[1:33, 1:49]), (one[:32], one[1:]), (rows_in_one, due.faces.copy()):
        with pytest.raises(ValueError, match="arrays of out overlap"):
            pxplanes.render(FIRST, out=(first, second))
    rows = numpy.zeros((192, 128), numpy.uint32)
    with pytest.raises(ValueError, match="arrays of out overlap"):
        pxplanes.render(HOUSE, threads=2, out=(rows[:128], rows[64:]))
    woven = numpy.zeros((128, 128, 2), numpy.uint32)
    assert pxplanes.render(HOUSE, threads=2, out=(woven[..., 0], woven[..., 1])).maps() == pxplanes.run(HOUSE)
    with pytest.raises(ValueError, match="too small for the numbers"):
        pxplanes.colour(FIRST, out=numpy.zeros((32, 48, 3), numpy.int8))
    with pytest.raises(ValueError, match="too small for the numbers"):
        pxplanes.render(FIRST, out=(numpy.zeros((32, 48), numpy.uint16), numpy.zeros((32, 48), bool)))
    with pytest.raises(TypeError, match="no ndarray of 2 bytes each"):
        pxplanes.check(numpy.frombuffer(FIRST, numpy.uint8).astype(numpy.uint16))
    for tolerance in -1, float("nan"):
        with pytest.raises(ValueError, match="0 or more"):
            due.compare(due, tolerance)
    for call in pxplanes.render, lambda text, threads: pxplanes.tile(text, 9, 9, threads=threads):
        with pytest.raises(ValueError, match="0 threads"):
            call(FIRST, threads=0)


def test_microinstructions_of_ones_own():
    state = pxplanes.state(FIRST, 100)
    for field, wrong in (("act", "zap"), ("place", -1), ("place", 1 << 32), ("value", 2), ("tree", "grow"), ("lines", (2, 0, 0)), ("lines", (1, 0)),
                         ("lines", (1, 0, 0, 1))):
        with pytest.raises(ValueError, match="is no microinstruction"):
            pxplanes.clocked(state, [pxplanes.Micro("nop", 0, 0, "feed", (1, 0, 1))._replace(**{field: wrong})])
    with pytest.raises(TypeError, match="a Micro is wanted, and no str"):
        pxplanes.clocked(state, "nop")


class Box:
    """A mesh of 12 by 6 by 3, exported as trimesh does it."""

    def export(self, path):
        corner = [(x, y, z) for x in (0, 12) for y in (0, 6) for z in (0, 3)]
        with open(path, "w", encoding="ascii") as file:
            file.write("solid box\n")
            for a, b, c, d in (0, 1, 3, 2), (4, 6, 7, 5), (0, 4, 5, 1), (2, 3, 7, 6), (0, 2, 6, 4), (1, 5, 7, 3):
                for triangle in (a, b, c), (a, c, d):
                    file.write("facet normal 0 0 0\nouter loop\n%sendloop\nendfacet\n" % "".join(
                        "vertex %d %d %d\n" % corner[at] for at in triangle))
            file.write("endsolid\n")


def test_first_use_by_a_user_of_trimesh(monkeypatch):
    pytest.importorskip("numpy")
    monkeypatch.syspath_prepend(os.path.join(support.TOP, "examples", "python"))
    picture, notes = importlib.import_module("mesh_depths").picture_of(Box(), size=(48, 32), scale=2, view=(0, 0, 0))
    shown = picture.depths[picture.faces > 0]
    assert len(shown) == 25 * 13 and len(set(shown.tolist())) == 1 and "rounded" in notes[0]


def test_pictures_and_states_are_values(tmp_path):
    solids = [pxplanes.Solid(backs=[(0, 0, 9)], name="s%d" % at) for at in range(255)]
    scene = pxplanes.Scene((8, 8), 9, pxplanes.Scene.union(solids))
    picture = pxplanes.render(scene)
    assert picture == pxplanes.render(scene.text) == pickle.loads(pickle.dumps(picture)) and picture.compare(picture)
    before = pxplanes.render(FIRST)
    pxplanes.render(FIRST.replace(b"front 0 0 320", b"front 0 0 100"))
    assert before.maps() == pxplanes.run(FIRST)
    assert [(each.format, each.readonly) for each in map(memoryview, before[:2])] == [("I", False)] * 2
    plain = pxplanes.Picture(memoryview(bytes(16)).cast("I", [2, 2]), memoryview(bytes(16)).cast("I", [2, 2]), 2, 2)
    assert pickle.loads(pickle.dumps(plain)) == plain != picture
    picture.save(tmp_path / "a.png")
    picture.save(tmp_path / "a.ppm")
    assert (tmp_path / "a.png").read_bytes()[16:24] == bytes([0, 0, 0, 8, 0, 0, 0, 8])
    assert (tmp_path / "a.ppm").read_bytes() == pxplanes.run(scene)
    state = pxplanes.state(FIRST, 5)
    assert state == pxplanes.state(FIRST, 5) == pickle.loads(pickle.dumps(state)) != pxplanes.state(FIRST, 900)
