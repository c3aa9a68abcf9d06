"""What `explain --fix` mends, and what it leaves: slips drawn from a seed, files of other kinds, and what it does with files."""
import glob
import json
import os
import pty
import subprocess
import sys

import pytest
import slips
import support
from pxplanes import program
from pxplanes.explain import after_end, explaining, kinds, looks, readings
from pxplanes.machine import sessions
from pxplanes.scene import scenes

SEED = 1
TEXTS = sorted((text for text in (open(path).read() for folder in ("docs/scenes", "gallery") for path in sorted(glob.glob(
    os.path.join(support.TOP, folder, "*.scene")))) if slips.drawn(text.encode())), key=len)[:20]
OTHERS = {
    "POV-Ray": "camera { location <0, 2, -3> look_at <0, 1, 2> }\nsphere { <0, 1, 2>, 2 }\n", "OpenSCAD": "difference() { cube(9); sphere(5); }\n",
    "OBJ": "v 0 0 0\nv 1 0 0\nv 0 1 0\nf 1 2 3\n", "STL": "solid cube\n  facet normal 0 0 1\n    outer loop\n", "OFF": "OFF\n4 4 0\n0 0 0\n",
    "PLY": "ply\nformat ascii 1.0\n", "a listing": "pxlist 1\ngrid 3 3\nall\nend\n", "debugger": "step 3\npixel 1 2\nuntil 40\nat\nrun\nquit\n",
    "a letter": "Dear Ann,\n\nthe end is near. We show you the house,\nfront and back.\nside by side,\nBob\n", "empty": "", "blank": "\n \n\t\n",
    "only comments": "# one\n# two\n", "NUL": "\0" * 3000, "binary": "\x7fELF\2\1\1\0\0\0\0end\nshow\n", "CSV": "x,y,z\n1,2,3\n4,5,6\n",
    "JSON": '{"front": [0, 0, 5], "back": 3}\n', "XML": "<?xml version='1.0'?>\n<end/>\n", "HTML": "<!DOCTYPE html>\n<p>solid</p>\n",
    "C": "#include <stdio.h>\nint main(void) { return 0; }\n", "Python": "import os\n\ndef front():\n    return 5\n", "shell": "#!/bin/sh\nset -e\nend=5\n",
    "JavaScript": "const front = 5;\nfunction show() { return front; }\n", "Markdown": "# Scenes\n\nA scene has solids.\n\n* one\n* two\n",
    "INI": "[house]\nwalls=5\n[garden]\ntrees=9\n", "YAML": "front:\n  - 1\nshape: cube\n", "Verilog": "module m(input a);\nassign b = a;\nendmodule\n",
    "a poem": "We met\nat the gate,\nand the end\nwas near.\n", "numbers": "1 2 3\n4 5 6\n7 8 9\n", "Makefile": "all: show\n\tcc -o show show.c\n",
    "SQL": "select front from solid;\nshow tables;\nuse house;\n", "TeX": "\\begin{document}\nfront\n\\end{document}\n", "a diff": "--- a\n+++ b\n@@ -1 +1 @@\n-front\n+back\n",
    "PGM": "P2\n2 2\n255\n0 1 2 3\n", "PPM": "P6\n1 1\n255\nabc", "PNG": "\x89PNG\r\n\x1a\n", "EXR": "\x76\x2f\x31\x01\2\0\0\0", "gcode": "G1 X10 Y20\nG1 X0\nM30\n",
    "a table": "name\tage\nAnn\t50\nBob\t60\n", "dictionary": "apple\nbanana\ncherry\n", "a log": "12:00 front door open\n12:05 back door shut\n"}


def test_one_key():
    """Of 200 refused texts with one slip none becomes another picture, and of those with one reading 70 in 100 are mended as meant."""
    counts, wrong, _ = slips.counted(TEXTS, 200, 1, SEED)
    assert len(TEXTS) == 20 and counts["refused"] == 200 and not wrong
    assert counts["as meant"] >= 0.7 * counts["one reading"] and counts["as meant"] > 50


def test_two_or_three_slips():
    """Of 60 texts with two or three mistakes none is mended otherwise than meant."""
    counts, wrong, _ = slips.counted(TEXTS, 60, 3, SEED)
    assert counts["refused"] == 60 and not wrong and counts["as meant"] >= 5


def test_two_or_three_slips_that_are_mended_alone():
    """Of 60 texts with two or three mistakes, each of which alone has one reading, at least 45 are mended as meant, and none otherwise."""
    counts, wrong, _ = slips.counted(TEXTS, 60, 3, SEED, plain=True)
    assert counts["refused"] == 60 and not wrong and counts["as meant"] >= 45


@pytest.mark.parametrize("name", OTHERS)
def test_other_files(name, tmp_path):
    """What is no scene is declined, and stays as it is."""
    data = OTHERS[name].encode("latin-1")
    assert len(OTHERS) == 40 and kinds.cure(data) and "scene" in kinds.cure(data)
    if name in ("a letter", "binary", "Python", "debugger"):
        path = tmp_path / "file"
        path.write_bytes(data)
        done = fix(path, "--in-place")
        assert done.returncode == 2 and path.read_bytes() == data and len(list(tmp_path.iterdir())) == 1


def fix(path, *words):
    return explained(path, "--fix", *words)


# Each is a mistake that is mended in no way: a sign, a number, the structure, a line, a name that may be another one.
LEFT = {"a sign": ("(pyramid - shaft)", "(pyramid _ shaft)"), "no sign": ("(pyramid - shaft)", "(pyramid shaft)"), "a number": ("0 0 320", "0 0 -14a34"),
        "a comma": ("0 0 320", "0 0 1,900"), "two brackets": ("((pyramid - shaft) + bar)", "(pyramid - shaft + bar)"), "a range": ("bar 200", "bar 2000"),
        "a solid's line": ("solid shaft 0 0 0 ", "# "), "a plane": ("front 0 0 320", "wall 0 0 320"), "a colour": ("bar 200 60 40", "bar"),
        "no show": ("show ((pyramid - shaft) + bar)\n", ""), "a mark of a comment": ("(pyramid - shaft)", "(pyramid # shaft)"),
        "a word more": ("bar)\n", "bar) bar\n"), "an exclusive or": ("- shaft", "^ shaft"), "a number that is two": ("picture 48 32", "picture 48"),
        "one of two like numbers": ("back 0 0 400", "back 25 0 -5 25 9"), "a negative number": ("side -1 0 29", "side 0 -29")}


@pytest.mark.parametrize("name", LEFT)
def test_left(name):
    """Nothing is written of a mistake that has several readings, or none."""
    first = open(os.path.join(support.TOP, "docs", "scenes", "first.scene")).read()
    old, new = LEFT[name]
    assert first.count(old) == 1
    assert not readings.mended(first.replace(old, new).encode()).is_whole


def test_number_without_its_space():
    """A number that comes with its word is no other number: it gets its space back."""
    for old, new in ("depth 5", "depth5"), ("side 1 0", "side1 0"):
        assert readings.mended(WALLS.replace(old, new).encode()).text.decode() == WALLS != WALLS.replace(old, new)


def test_names_that_come_together():
    """A name is not taken for one that the expression has already: the line of its solid may be lost."""
    text = b"pxscene 1\npicture 8 8\ndepth 4\nsolid wall1 1 2 3\nfront 0 0 5\nshow (wall1 + wall2)\nend\n"
    assert not readings.mended(text).is_whole
    glued = b"pxscene 1\npicture 8 8\ndepth 4\nsolid whole2 30 60 40\nshow whole\nend\n"
    assert not readings.mended(glued).is_whole


def test_first_cure_is_what_fix_writes():
    """The line of the first cure is in the mended text."""
    text = open(os.path.join(support.TOP, "docs", "scenes", "first.scene")).read().replace("\nside 0 1 -13", "\nsdie 0 1 -13").encode()
    answer = explaining.answer_about(explaining.Judge(), text, "a.scene")
    cure = next(line for line in answer.lines if line.startswith("cure: "))
    assert answer.lines[0] == "a.scene:16:1: 'sdie' is not expected here (did you mean 'side'?) [unexpected]"
    assert cure == "cure: write side 0 1 -13" and b"\nside 0 1 -13\n" in readings.mended(text).text


def test_faces_as_json(tmp_path):
    """Of each face what it is, by hand: with two fraction bits the normals have -4 along the depth."""
    path = tmp_path / "a.scene"
    path.write_text("pxscene 3\npicture 8 4\ndepth 10 2\nsolid a 1 2 3\nback 0 -4 300\nfront 3 0 40 9 8 7\nside 1 0 0\n"
                    "solid b 4 5 6\nfront 0 0 8\nshow (a - b)\nend\n")
    found = json.loads(explained(path, "--json").stdout)
    assert (found["picture"], found["depth_bits"], found["fraction_bits"], found["far"]) == ([8, 4], 10, 2, 1023)
    keys = ("face", "solid", "name", "kind", "which", "line", "colour", "plane", "normal")
    assert [[each[key] for key in keys] for each in found["faces"]] == [
        [1, 1, "a", "near", None, 4, [1, 2, 3], [0, 0, 0], [0, 0, -4]], [2, 1, "a", "back", 1, 5, [1, 2, 3], [0, -4, 300], [0, -4, -4]],
        [3, 1, "a", "front", 1, 6, [9, 8, 7], [3, 0, 40], [3, 0, -4]], [4, 2, "b", "near", None, 8, [4, 5, 6], [0, 0, 0], [0, 0, -4]],
        [5, 2, "b", "front", 1, 9, [4, 5, 6], [0, 0, 8], [0, 0, -4]]]


def test_sarif(tmp_path):
    """A mistake with its rule and its place."""
    path = tmp_path / "a.scene"
    path.write_text("pxscene 1\npicture 8 8\ndepth 4\nsolid a 1 2 3\nshow c\nend\n")
    result = json.loads(explained(path, "--sarif").stdout)["runs"][0]["results"][0]
    assert result["ruleId"] == "unknown-name" and result["locations"][0]["physicalLocation"]["region"] == {
        "startLine": 5, "startColumn": 6, "endColumn": 7}


def test_choice(tmp_path):
    """At a terminal a person chooses what is meant, mistake by mistake: in the scene, and in a light line. Nothing else is no choice."""
    path, text = tmp_path / "a.scene", WALLS.replace("(wall2 - a)", "(wallx - a)") + "light roof\nlight b\n"
    for answers, status in ((b"9\n", 1), (b"\n", 1), (b"2\n\n", 1), (b"2\n1\n", 0)):
        path.write_text(text)
        ours, theirs = pty.openpty()
        os.write(ours, answers)
        done = subprocess.run([sys.executable, "-m", "pxplanes", "explain", "--fix", str(path)], stdin=theirs, stdout=subprocess.PIPE, stderr=theirs,
                              env=dict(os.environ, PYTHONPATH=os.path.join(support.TOP, "python")), text=True)
        os.close(theirs)
        os.close(ours)
        assert done.returncode == status and done.stdout == (text.replace("wallx", "wall2").replace("light b", "light a") if status == 0 else "")


def test_no_room_in_place(tmp_path):
    """If there is no room, the scene and its folder stay as they are. A limit of a file's size stands for a full disk."""
    path = tmp_path / "a.scene"
    path.write_text(WALLS.replace("side", "sdie"))
    done = subprocess.run(["bash", "-c", "ulimit -f 0; exec \"$@\"", "-", sys.executable, "-B", "-m", "pxplanes", "explain", "--fix", "--in-place", str(path)],
                          capture_output=True, text=True, env=dict(os.environ, PYTHONPATH=os.path.join(support.TOP, "python")))
    assert done.returncode == 2 and "File too large" in done.stderr
    assert path.read_text() == WALLS.replace("side", "sdie") and [each.name for each in tmp_path.iterdir()] == ["a.scene"]


def explained(path, *words):
    return subprocess.run([sys.executable, "-m", "pxplanes", "explain", *words, str(path)], capture_output=True, text=True,
                          env=dict(os.environ, PYTHONPATH=os.path.join(support.TOP, "python"), PYTHONDONTWRITEBYTECODE="1"))


# Of a scene of 8 by 8 pixels with ^ the planes of two solids, by hand, and whether some cell is in both: one next to the other; farther than it;
# from the very depth where the other ends; a cell before that; on both sides of a diagonal, where their boxes are one; and one pixel of it
# more; a solid without cells, of which something else is said.
MET = {"next to it": (("side -1 0 2",), ("side 1 0 -5",), False), "farther": (("back 0 0 4",), ("front 0 0 9",), False),
       "touching": (("back 0 0 5",), ("front 0 0 5",), False), "a cell": (("back 0 0 6",), ("front 0 0 5",), True),
       "a diagonal": (("side 1 -1 -1",), ("side -1 1 0",), False), "on it": (("side 1 -1 0",), ("side -1 1 0",), True),
       "off the diagonal": (("side 1 0 -5", "side 0 -1 2"), ("side 1 0 -5", "side 0 -1 2"), True),
       "nowhere": (("side 1 0 -99",), ("side 1 0 -5",), True)}


@pytest.mark.parametrize("name", MET)
def test_exclusive_or_that_is_a_union(name):
    """^ whose sides have no common cell is worth a look, and no other one."""
    one, other, meet = MET[name]
    text = "\n".join(["pxscene 2", "picture 8 8", "depth 4", "solid a 1 2 3", *one, "solid b 1 2 3", *other, "show (b ^ a)", "end", ""])
    said = "worth a look: no cell of the picture is on both sides of ^ in (b ^ a): + has the same cells"
    lines = explaining.answer_about(explaining.Judge(), text.encode()).lines
    assert (said not in lines) == meet
    assert not any("both sides" in line for line in explaining.answer_about(explaining.Judge(), text.replace("^", "+").encode()).lines)


def test_some_of_many_exclusive_ors(monkeypatch):
    """Of three ^ of 8 by 8 pixels, one is named, and the others are counted, as far as the budget goes. Both sides of a diagonal reach over all
    columns and rows but one: 7 by 7 pixels with 3 planes of each of 6 solids."""
    halves = "".join("solid %s 1 2 3\nside 1 -1 -1\nsolid %s 1 2 3\nside -1 1 0\n" % tuple(pair) for pair in ("ab", "cd", "ef"))
    text = "pxscene 2\npicture 8 8\ndepth 4\n%sshow (((a ^ b) + (c ^ d)) + (e ^ f))\nend\n" % halves
    for budget, said in ((3 * 49 * 18, " and in 2 more:"), (3 * 49 * 18 - 1, " and in 1 more:"), (49 * 18, "(a ^ b):"), (49 * 18 - 1, None)):
        monkeypatch.setattr(looks, "BUDGET", budget)
        hints = looks.without_meeting(scenes.read(text.encode()), looks.all_looks(scenes.read(text.encode())))
        assert len(hints) == (said is not None) and all("in (a ^ b)" in hint and said in hint for _, hint in hints), budget


WALLS = ("pxscene 1\npicture 16 8\ndepth 5\nsolid wall 1 2 3\nfront 0 0 9\nsolid wall2 1 2 3\nside 1 0 -3\nsolid roof 4 5 6\nfront 1 0 3\n"
         "solid a 7 8 9\nback 0 0 4\nshow ((wall + roof) + (wall2 - a))\nend\n")
TAILS = {"shadow": "light wall\nlight roof wall2   # the second\nlight a roof\nlight wall2 wall roof\n",
         "debug": "step 3\nmacro 12\nat\npixel 10 7\nfield 2 1\ntree 2 3\ntrace\nuntil 140\nback 25\nrun\nat\nquit\n"}


def said_by(built, word, tail, text):
    """What the program says of the lines after a scene, as far as it does."""
    if word == "shadow":
        return [program.answer(built, ["shadow"], text)[2]]
    bare = [line.partition(b"#")[0] for line in tail.lines]
    return [line.decode() for lines in sessions.held(built, tail.scene, bare) for line in lines if line.startswith(b"?")]


@pytest.mark.parametrize("word", TAILS)
def test_slips_after_the_end(built, word):
    """Of 200 slips in light lines and in command lines, `end` too, none is mended otherwise than meant, 70 in 100 are, and the program says of
    each line what `explain` does."""
    text, counts = WALLS + TAILS[word], {"as meant": 0, "left": 0}
    for new in slips.in_tails(text, WALLS.count("\n") - 1, word, 200, SEED):
        tail, mending = after_end.cut(new), after_end.mended(new)
        counts["as meant" if mending.is_whole else "left"] += 1
        assert not mending.is_whole or slips.of_tail(mending.text, word) == slips.of_tail(text.encode(), word), new
        if slips.drawn(tail.scene):
            own = [str(refusal.note) for _, refusal in after_end.refusals(tail, scenes.read(tail.scene))]
            said = said_by(built, word, tail, new)
            assert own and said == own[:len(said)], new
    assert counts["as meant"] >= 140, counts


# Lines after a scene with a mistake of another kind, and what `--fix` writes of it; None if it writes nothing. Two names are one key away; a
# name would come twice; a number or a sign would change; the place of a number is open; a capital; a tab; a wide digit; a dash; a comma; a unit.
AFTER = {"light wal": "light wall", "light wall3": None, "light wall wal": None, "light wall wall wall2": "", "light": None, "light wal roof wall": None, "LIGHT wall": "light wall",
         "light,wall roof": "light wall roof", "lights roof": "light roof", "light\troff": "light\troof", "light b": None, "light roof;": "light roof",
         "light 1 roof": None, "lamp roof": None, "Step 3": "step 3", "AT": "at", "At 3": None, "step\t\uff13": "step\t3", "step -3": None, "step \u20133": None,
         "pixel 3": None, "pixel 3,4": "pixel 3 4", "pixel 34": None, "step 3k": None, "step 1,000": None, "step 0x10": None, "step three": None, "tree": None,
         "tree 0 1": None, "stpe 3": "step 3", "back": None, "run 5": None, "field 1 2 3": None, "step 3 # three": "", "stpe 3 # three": None, "stop 3": "step 3", "quit\nstpe 3": "",
         "watch 1 1": None, "until 5\r": "", "Until 5\r": "until 5\r", "pixel(3,4)": None, "quit now": None, "step +3": None, "step3": "step 3"}


@pytest.mark.parametrize("line", AFTER)
def test_after_the_end(line):
    """A line has one reading, which is what it is mended to, or stays as it is."""
    before = "light roof\nlight wall\n" if line[:2].lower() in ("li", "la") else "step 1\nback 1\n"
    mending = after_end.mended((WALLS + before + line + "\n").encode())
    assert mending.is_whole == (AFTER[line] is not None)
    if mending.is_whole:
        assert mending.text.decode() == WALLS + before + (AFTER[line] or line) + "\n"


def test_answer_about_lights(tmp_path):
    """Mistakes of the scene and of its lights, with file, line, column, cause and cure; and what is usual for lights is not worth a look."""
    path = tmp_path / "room.scene"
    path.write_text(WALLS.replace("side", "sdie").replace("- a)", "- roof)") + "light a\nlight wall2 roff\n")
    done = explained(path)
    heads = [line for line in done.stdout.splitlines() if line.startswith(str(path))]
    assert heads == [str(path) + ":7:1: 'sdie' is not expected here (did you mean 'side'?) [unexpected]",
                     str(path) + ":15:13: unknown name 'roff' (did you mean 'roof'?) [unknown-name]"]
    assert done.returncode == 1 and "cure: write light wall2 roof" in done.stdout and "; --fix writes the mended text" in done.stdout
    assert [each["line"] for each in json.loads(explained(path, "--json").stdout)["mistakes"]] == [7, 15]
    fixed = explained(path, "--fix")
    assert fixed.returncode == 0 and fixed.stdout == path.read_text().replace("sdie", "side").replace("roff", "roof")
    path.write_text(fixed.stdout)
    done = explained(path)
    assert done.returncode == 0 and "`pxplanes shadow` takes the 2 lines after the scene" in done.stdout and "not in the shown" not in done.stdout


def test_answer_about_command_lines(tmp_path):
    """The cause in brackets is the program's answer."""
    path = tmp_path / "a.session"
    path.write_text(WALLS + "step 3\ntree 9 0\n\nstpe 4\n")
    done = explained(path)
    assert [line for line in done.stdout.splitlines() if line.startswith(str(path))] == [
        str(path) + ":15:6: there is no level 9 [? line 2]", str(path) + ":17:1: 'stpe' is no command (did you mean 'step'?) [? line 4]"]
    result = json.loads(explained(path, "--sarif").stdout)["runs"][0]["results"][1]
    assert result["ruleId"] == "? line 4" and result["locations"][0]["physicalLocation"]["region"]["startLine"] == 17
    assert explained(path, "--fix").returncode == 1


def test_mark_before_a_scene_with_lights():
    """A byte-order mark, and a mistake in a light line, are two mistakes in their places."""
    text = b"\xef\xbb\xbf" + WALLS.encode() + b"ligth roof"
    places = explaining.answer_about(explaining.Judge(), text).places
    assert [(place.line, place.cause) for place in places] == [(1, "not-header"), (14, "unexpected")]
    assert after_end.mended(text).text == WALLS.encode() + b"light roof"


# Lines after a scene of 13 lines, and what `pxplanes shadow` says of the first wrong one, by docs/SCENES.md, with its columns.
LIGHTS = {"light": ("malformed line 14: word-count", (0, 5)), "light wall\n\nlight wall 1a roof": ("malformed line 16: bad-name", (11, 13)),
          "light walk 1a": ("malformed line 14: bad-name", (11, 13)), "light wall walk": ("malformed line 14: unknown-name", (11, 15)),
          "light wall\nlamp 1a": ("malformed line 15: unexpected", (0, 4)), "light wall # light 1a": None, "light wall\n" * 8 + "# no light": None,
          "light wall\n" * 9 + "lamp": ("limit line 22: lights 9", (0, 10)), "light wall\n" * 8 + "light 1a": ("malformed line 22: bad-name", (6, 8))}


@pytest.mark.parametrize("lines", LIGHTS)
def test_refusals_of_lights(built, lines):
    text = (WALLS + lines + "\n").encode()
    tail = after_end.cut(text)
    found = [(str(refusal.note), refusal.span) for _, refusal in after_end.refusals(tail, scenes.read(tail.scene))]
    assert found[:1] == ([LIGHTS[lines]] if LIGHTS[lines] else []) and program.answer(built, ["shadow"], text)[2] == (LIGHTS[lines] or ("",))[0]
    assert after_end.mended(text).is_whole == (LIGHTS[lines] is None)


# 2 * (24 bits of depth, and 12 of the number of 2079 faces) and 2 are 74; and a bit more for each light.
@pytest.mark.parametrize("lights", (6, 7))
def test_memory_of_lights(built, lights):
    """A scene that fits the memory of `shadow` alone, 80 bits, is accepted exactly if `shadow` draws it."""
    text = "pxscene 2\npicture 8 8\ndepth 24\n%sshow s0\nend\n" % "".join("solid s%d 1 2 3\n" % at + "front 0 0 9\n" * 32 for at in range(63))
    text = (text + "light s0\n" * lights).encode()
    said, own = explaining.answer_about(explaining.Judge(), text), program.answer(built, ["shadow"], text)
    assert said.is_accepted == (own[0] == 0) == (lights < 7), own
    assert lights > 6 or said.lines == ["accepted by `pxplanes shadow` alone, whose pixels have 80 memory bits: it needs %d" % (74 + lights)]
    wrong = explaining.answer_about(explaining.Judge(), text.replace(b"light s0", b"light s99", 1))
    assert not wrong.is_accepted


# Texts whose lines after `end` are none of a command: they are a scene's with a mistake.
NO_TAILS = ("back 0 0 9\n", "light wall\nfront 0 0 9\n", "show wall\nend\n", "hello\nlight wall\nthere\nhow are you\n", "# light wall\n")


@pytest.mark.parametrize("lines", NO_TAILS)
def test_no_lines_of_a_command(lines):
    assert after_end.cut((WALLS + lines).encode()) is None


def test_lines_are_counted_from_the_scenes_first():
    """A scene of 13 lines: its second line after `end` is line 15 of the text."""
    tail = after_end.cut((WALLS + "step 3\nat # where\nrun # on\n").encode())
    assert after_end.notes(tail) == ["`pxplanes debug` takes the 3 lines after the scene", "worth a look: line 15 has a comment: `pxplanes trace` drops it, "
                                     "and `pxplanes debug` answers `? line 2`"]
    assert after_end.notes(after_end.cut((WALLS + "light a # b\n").encode())) == ["`pxplanes shadow` takes the 1 line after the scene"]
    assert after_end.mended((WALLS + "light a\nligth roof\n").encode()).changes == [(15, "write light roof")]


def test_half_of_the_lines_are_enough():
    for lines, word in (("light wall\nhello you\n", "shadow"), ("\nhello\n\nstpe 3\n", "debug")):
        assert after_end.cut((WALLS + lines).encode()).word == word


def test_bytes_stay():
    """All but the mended line stays byte for byte: line ends, comments, bytes that are no text, a last line without its end."""
    text = b"pxscene 1\r\npicture 8 8 # \xff\xe4\r\ndpeth 4\t# d\r\nsolid a 1 2 3\r\nshow a\r\nend"
    assert readings.mended(text).text == text.replace(b"dpeth", b"depth")
