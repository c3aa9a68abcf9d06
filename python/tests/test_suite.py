"""The word `suite`: run, shrink and copy, by renderers that are right, wrong, or not there."""
import json
import os
import re
import shlex
import subprocess
import sys
import xml.dom.minidom

import numpy as np
import pytest

import pxplanes.suite
from calling import TOP, call, path
from pxplanes.compare import picture
from pxplanes.errors import Trouble
from pxplanes.suite import copying, golden, shrinking

RENDERER = "%s %s {scene} {out}" % (shlex.quote(sys.executable), shlex.quote(path("renderer.py")))
HEAD = "level        scenes  alike   differ  not compared  pixels  first difference"


def run(*words):
    return call("suite", "run", "--golden", *words)


def row(level, *numbers):
    return ("%-11s  %6d  %5d  %7d  %12d  %6d" % (level, *numbers)).rstrip()


@pytest.mark.parametrize("kind, level, count", [("one_solid", "one solid", 7), ("unions", "unions", 5), ("fractions", "fractions", 9)])
def test_a_right_renderer_is_alike_without_a_program(kind, level, count, monkeypatch):
    monkeypatch.setenv("PXPLANES_PROGRAM", "/nowhere")
    assert run("--scenes", kind + "/*", RENDERER) == (0, [HEAD, row(level, count, count, 0, 0, 0), "%d of %d scenes are alike" % (count, count)])


def test_a_map_without_faces():
    assert run("--without", "csg", "--scenes", "one solid", RENDERER + " text")[1][-1] == "11 of 11 scenes are alike, in their depths alone"
    assert run("--scenes", "ties/*", "--without", "csg", RENDERER + " depths")[1][-1].endswith(
        "not compared, since the map has no faces")


def test_one_cause_of_all_that_differs():
    status, lines = run("--scenes", "slivers/*", RENDERER + " above")
    assert (status, lines) == (1, [
        HEAD, row("one solid", 3, 0, 3, 0, 770) + "  slivers/needle: at 7 0: depths 255 and 127, faces 0 (background) and 4 (a front 3)",
        row("unions", 3, 0, 3, 0, 1070) + "  slivers/one_cell: at 4 3: depths 40 and 255, faces 2 (a front 1) and 0 (background)",
        row("CSG", 1, 1, 0, 0, 0),
        "cause: the rows are from the bottom up; it explains 1840 of 1840 pixels that differ in 6 scenes, with 0 errors",
        "1 of 7 scenes are alike"])


def test_expected_differences_and_one_that_no_longer_occurs(tmp_path):
    known = tmp_path / "known"
    known.write_text("# known\nsymmetric/met\nsymmetric/two  # it has no ^\n")
    status, lines = run("--scenes", "symmetric/*", "--expect", known, RENDERER + " stops")
    assert status == 1 and lines[2] == "7 of 7 scenes have no map to compare: no map, and status 1: no words for ^"
    assert lines[3:] == ["not expected to differ: symmetric/" + name for name in ("of_a_cut", "of_unions", "taken_away", "three", "with_itself")] + [
        "0 of 7 scenes are alike"]
    known.write_text("\n".join("symmetric/" + name for name in ("met", "two", "of_a_cut", "of_unions", "taken_away", "three", "with_itself")))
    file = tmp_path / "run.xml"
    status, lines = run("--scenes", "symmetric/*", "--expect", known, "-o", file, RENDERER + " stops")
    assert (status, lines[-1]) == (0, "0 of 7 scenes are alike")
    suite = xml.dom.minidom.parse(str(file)).documentElement.getElementsByTagName("testsuite")[0]
    assert (suite.getAttribute("failures"), suite.getAttribute("skipped")) == ("0", "7")
    with open(known, "a") as more:
        more.write("\nunions/four\n")
    status, lines = run("--scenes", "symmetric/*", "--scenes", "unions/four", "--expect", known, "-o", file, RENDERER + " stops")
    assert status == 1 and "expected to differ, and alike: unions/four" in lines
    assert [each.getAttribute("message") for each in xml.dom.minidom.parse(str(file)).getElementsByTagName("failure")] == [
        "it is expected to differ, and is alike"]


def test_the_outcome_in_files(tmp_path):
    files = [tmp_path / ("run" + end) for end in (".json", ".xml", ".html")]
    run("--scenes", "unions/*", *(word for file in files for word in ("-o", file)), RENDERER + " above")
    found = json.loads(files[0].read_text())
    assert (found["version"], found["alike"], found["scenes_tried"]) == (golden.VERSION, 0, 5)
    assert found["cause"][0].startswith("cause: the rows are from the bottom up") and {each["status"] for each in found["scenes"]} == {"differs"}
    assert found["levels"] == [{"level": "unions", "scenes": 5, "alike": 0, "differ": 5, "not_compared": 0}]
    assert found["scenes"][0]["kills"] == "backs that are shown, and gaps that are filled"
    assert xml.dom.minidom.parse(str(files[1])).documentElement.tagName == "testsuites"
    page = files[2].read_text()
    assert (page.count("<section>"), page.count("ours, depths"), page.count("cause: the rows")) == (5, 10, 1)


@pytest.mark.parametrize("words, message", [
    (["--without", "eyes", RENDERER], "invalid choice"), (["--scenes", "easy", RENDERER], "no scene is chosen"),
    (["--random", "3", RENDERER], "--random needs the program"), (["nothing"], "with {scene} and {out}"), (["--random", "x", RENDERER], "whole number"),
    (["-o", "run.txt", RENDERER], "-o takes .json"), (["no_such_renderer {scene} {out}"], "the renderer cannot be started: "),
    (["--suite", "/nowhere", RENDERER], "/nowhere/manifest.json")])
def test_trouble(words, message):
    status, lines = run(*words)
    assert status == 2 and len(lines) == 1 and message in lines[0]


def test_a_renderer_that_cannot_be_started_is_found_out_at_once(tmp_path):
    assert run("echo x >> %s; exit 127 # {scene} {out}" % (tmp_path / "tries"))[0] == 2
    assert (tmp_path / "tries").read_text().count("x") <= 2


def test_a_renderer_that_takes_too_long_or_writes_something_else(tmp_path):
    status, lines = run("--scenes", "unions/four", "--seconds", "0.2", "sleep 5 # {scene} {out}")
    assert (status, lines[1].split("unions/")[1]) == (1, "four: no answer in 0.2 seconds")
    status, lines = run("--scenes", "unions/four", "printf '1 2\\n' > {out}; cat {scene} > /dev/null")
    assert "four: the sizes differ: 32 by 24 and 2 by 1" in lines[1]
    status, lines = run("--scenes", "unions/four", "cp {scene} {out}")
    assert "this is a scene, and not a map" in lines[1]


def test_by_the_program_as_it_is_built(built, monkeypatch):
    monkeypatch.setenv("PXPLANES_PROGRAM", built)
    line = "%s < {scene} > {out}" % shlex.quote(built)
    assert call("suite", "run", "--scenes", "ties/*", "--scenes", "far/*", "--scenes", "many/*", line)[1][-1] == "15 of 15 scenes are alike"
    assert call("suite", "run", "--scenes", "random/seed_?", "--random", "3", "--seed", "7", "--only", "depths", line)[1][-1] == (
        "9 of 9 scenes are alike, in their depths alone")
    wrong = "%s %s %s {scene} {out} " % (sys.executable, path("wrong.py"), shlex.quote(built))
    for how, said in (("rows", "cause: the rows are from the bottom up"), ("stops", "9 of 9 scenes have no map to compare"),
                      ("faces", "no cause found")):
        status, lines = call("suite", "run", "--scenes", "ties/*", wrong + how)
        assert status == 1 and any(line.startswith(said) for line in lines), lines
    assert call("suite", "run", "--scenes", "ties/*", wrong + "depths")[1][-1] == "0 of 9 scenes are alike, and 9 not compared, since the map has no faces"


# A renderer of one slab that writes floats: by -1e-9, exact but for rounding, or too near, or colours.
REAL = """import sys, numpy as np
sys.path.insert(0, {python!r})
from pxplanes.compare import picture
scene, named = picture.of_text(open(sys.argv[1], "rb").read(), "x")
shown = picture.picture(scene, picture.REAL, *picture.grid(scene))
size = scene.height, scene.width
if sys.argv[3] == "colours":
    table = np.array([(0, 0, 0)] + [colour for _, _, _, _, colour, _ in named.faces()])
    table = np.rint(255 * (table / 255) ** float(sys.argv[4])).astype(np.uint8)
    open(sys.argv[2], "wb").write(b"P6\\n%d %d\\n255\\n" % size[::-1] + table[shown.faces].tobytes())
else:
    depths = np.where(shown.faces > 0, shown.depths - float(sys.argv[3]), np.inf).reshape(size).astype(np.float32)
    np.save(sys.argv[2], depths)
    import os
    os.rename(sys.argv[2] + ".npy", sys.argv[2])
""".format(python=os.path.join(TOP, "python"))


@pytest.fixture
def real(tmp_path):
    (tmp_path / "real.py").write_text(REAL)
    return "%s %s {scene} {out} " % (shlex.quote(sys.executable), tmp_path / "real.py")


def test_real_numbers_are_scored_and_what_is_not_seen_is_said(real):
    kinds = ["--scenes", "fractions/*", "--scenes", "bits/*", "--without", "faces"]
    status, lines = run(*kinds, real + "0")
    assert status == 0 and lines[-1].endswith("scenes are alike, in their depths alone")
    counts = re.fullmatch(r"(\d+) pixels: (\d+) exact, (\d+) within 64 roundings, 0 near an edge, 0 wrong", lines[-3])
    assert counts and int(counts[1]) == int(counts[2]) + int(counts[3])
    assert lines[-2].startswith("an error of half a cell is not seen in ") and "bits/deep" in lines[-2]
    status, lines = run("--scenes", "fractions/*", "--scenes", "unions/*", real + "0.4")
    assert status == 1 and any(line.startswith("cause: depths are off by -0.4;") for line in lines)
    assert run("--scenes", "unions/*", "--epsilon", "0.41cells", real + "0.4")[0] == 0
    assert run("--scenes", "unions/*", "--depth-tolerance", "0.41", real + "0.4")[0] == 0


def test_pictures_of_colours(real):
    assert run("--colours", "--scenes", "unions/*", real + "colours 1")[0] == 0
    status, lines = run("--colours", "--scenes", "unions/*", "--scenes", "one_solid/*", real + "colours 0.45454545454545453")
    assert status == 1 and any(line.startswith("cause: colours have a gamma of 2.2;") for line in lines)


def test_several_at_once_give_the_same():
    words = ["--scenes", "unions/*", RENDERER + " above"]
    assert run("--jobs", "2", *words) == run(*words)


# ---- shrink

def small(tmp_path, scene, how):
    out = tmp_path / "small.scene"
    status, lines = call("suite", "shrink", "-o", out, "%s/suite/%s.scene" % (TOP, scene), RENDERER + " " + how)
    return status, out.read_text() if out.exists() else None


def test_shrink_to_one_pixel(tmp_path, capsys):
    status, text = small(tmp_path, "slivers/needle", "above")
    assert status == 0 and text.count("solid") == 1 and re.search(r"picture (1 2|2 1|1 1)\n", text)
    steps = [line.split(": ", 2)[1] for line in capsys.readouterr().err.splitlines() if ": after " in line]
    assert steps[:2] == ["after windows", "after planes"]     # it is one solid


def test_shrink_where_no_map_is_written(tmp_path):
    status, text = small(tmp_path, "symmetric/of_unions", "stops")
    assert status == 0 and text == "pxscene 2\npicture 1 1\ndepth 1\nsolid a 200 60 40\nsolid b 60 160 70\nshow (a ^ b)\nend\n"


def test_shrink_where_nothing_differs(tmp_path, capsys):
    assert small(tmp_path, "unions/four", "")[0] == 1
    assert "nothing differs" in capsys.readouterr().err


def test_windows_come_first_so_that_a_large_picture_takes_few_draws(tmp_path, monkeypatch):
    monkeypatch.setenv("PXPLANES_PROGRAM", "/nowhere")
    solids = "".join("solid s%d 9 9 9\nside 1 0 -%d\nside -1 0 %d\nfront 1 0 %d\n" % (at, 40 * at, 40 * at + 39, 9 * at) for at in range(12))
    show = "s0"
    for at in range(1, 12):
        show = "(%s + s%d)" % (show, at)
    scene = "pxscene 1\npicture 512 384\ndepth 12\n%sshow %s\nend\n" % (solids, show)
    (tmp_path / "eight.py").write_text(
        "import sys\nsys.path[:0] = [%r, %r]\nimport renderer_by_products as r, numpy as np\nd, f = r.only(8).draw(open(sys.argv[1]).read())\n"
        "open(sys.argv[2], 'wb').write(b''.join(b'P6 %%d %%d 255\\n' %% m.shape[::-1] + np.stack([m.astype(int) >> s & 255 for s in (16, 8, 0)], -1)"
        ".astype(np.uint8).tobytes() for m in (d, f)))\n" % (os.path.join(TOP, "python", "tests"), os.path.join(TOP, "python")))
    said = []
    line = "%s %s {scene} {out}" % (shlex.quote(sys.executable), tmp_path / "eight.py")
    text, last = shrinking.shrink(scene.encode(), line, seconds=600, say=said.append)
    assert said[0] == "after windows: 12 solids, 36 planes, 1 by 1 pixels" and "picture 1 1" in text and text.count("solid") == 9
    assert int(re.search(r"after (\d+) pictures", last)[1]) < 400


@pytest.mark.parametrize("words, message", [
    (["suite/ties/three.scene"], "required"), (["missing.scene", "a {scene} {out}"], "missing.scene"), (["x", "a {scene}"], "x"),
    ([TOP + "/README.md", "a {scene} {out}"], "README.md: malformed line 3"), ([TOP + "/suite/ties/three.scene", "a {scene}"], "with {scene} and {out}")])
def test_shrink_trouble(words, message):
    status, lines = call("suite", "shrink", *words)
    assert status == 2 and len(lines) == 1 and message in lines[0]


# ---- copy, the calls, and the suite itself

def test_copy_stands_alone(tmp_path):
    folder = tmp_path / "copied"
    assert call("suite", "copy", folder)[0] == 0
    assert {"README.md", "suite", ".github", ".gitlab-ci.yml"} <= set(os.listdir(folder))
    assert copying.COMMAND in (folder / ".github" / "workflows" / "suite.yml").read_text() and copying.COMMAND in (folder / ".gitlab-ci.yml").read_text()
    line = copying.COMMAND.replace("pxplanes ", "%s -m pxplanes " % sys.executable, 1).replace("./mine {scene} {out}", RENDERER.replace("'", ""))
    done = subprocess.run(line.replace("--golden", "--golden --scenes unions/four"), shell=True, cwd=folder, capture_output=True, text=True,
                          env=dict(os.environ, PYTHONPATH=os.path.join(TOP, "python"), PXPLANES_PROGRAM="/nowhere"))
    assert (done.returncode, done.stdout.splitlines()[-1]) == (0, "1 of 1 scenes are alike"), done.stderr
    assert (folder / "suite.xml").exists()
    assert call("suite", "copy", folder) == (2, ["%s is not empty: nothing there is overwritten" % folder])


def test_the_calls():
    outcome = pxplanes.suite.run(RENDERER, pxplanes.suite.Settings(golden=True, scenes=["unions/four"]))
    assert outcome.is_well and [each.status for each in outcome.rows] == ["alike"]
    with pytest.raises(Trouble):
        pxplanes.suite.run("nothing")
    with pytest.raises(AttributeError):
        pxplanes.suite.nothing


def test_the_manifest_has_every_scene_and_the_scenes_that_causes_need():
    manifest, version = golden.read_manifest(golden.SUITE)
    cases = list(golden.scenes_of(golden.SUITE))
    assert [(each.kind, each.name) for each in cases] == list(manifest) and version == golden.VERSION and len(cases) == 88
    assert sum(len(each.scene.solids) > 8 for each in cases) >= 4
    far = [each for each in cases if each.kind == "far"]
    for each in far:
        depths = golden.maps_of(golden.SUITE, each.kind, each.name).depths
        assert (depths == each.scene.far - 1).sum() >= 8 and (depths == each.scene.far).sum() >= 8
    past = [each for each in cases if any(abs(c) >= 2 ** 31 for solid in each.scene.solids for kind in picture.KINDS for (_, _, c), _ in solid.rows(kind))]
    assert len(past) >= 4 and len(far) == 3 and np.all([each.scene.bits == 24 for each in past])
