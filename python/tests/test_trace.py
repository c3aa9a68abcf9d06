"""The debugger of `pxplanes trace`: its answers from a pipe and on a terminal, against what `pxplanes debug` answers clock by clock."""
import os
import pty
import random
import subprocess
import sys

import pytest
import support
from pxplanes import program
from pxplanes.machine import debugger, sessions
from pxplanes.scene import scenes

TRIANGLE = os.path.join(support.TOP, "docs", "scenes", "triangle.scene")
FACE_BITS, KEY = 2, 6
PIXELS = ((7, 8), (0, 0), (3, 3))


def content(path):
    with open(path, "rb") as file:
        return file.read()


def environment(built):
    return dict(os.environ, PYTHONPATH=os.path.join(support.TOP, "python"), PXPLANES_PROGRAM=built, PYTHONDONTWRITEBYTECODE="1")


@pytest.fixture
def session(built, monkeypatch):
    monkeypatch.setenv("PXPLANES_PROGRAM", built)
    return debugger.Debugger(content(TRIANGLE))


def every_clock(built, x, y):
    """The words of a pixel's answer at each clock from 0 on."""
    total = 561
    commands = [line for clock in range(total + 1) for line in (b"until %d" % clock, b"pixel %d %d" % (x, y))]
    return [each[0].split() for each in sessions.held(built, content(TRIANGLE), commands)[1::2]]


@pytest.mark.parametrize("pixel", PIXELS)
@pytest.mark.parametrize("thing", ("enable", "carry", "latch", "bit 0", "bit 9"))
def test_until_changes(built, session, thing, pixel):
    """Each change of a register or a bit is met, in order, with the old and the new value, and no other one."""
    words = every_clock(built, *pixel)
    bit = int(thing.split()[1]) if " " in thing else None
    at = {"enable": 6, "carry": 8, "latch": 10}.get(thing)
    values = [int(each[at]) if bit is None else int(each[4][bit:bit + 1]) for each in words]
    wanted = [(clock, values[clock], values[clock - 1]) for clock in range(1, len(values)) if values[clock] != values[clock - 1]]
    found = []
    while True:
        lines = session.obey("until %s %d %d" % (thing, *pixel))
        if "any more" in lines[0]:
            break
        new, old = lines[0].split(": ")[1].split(", and ")
        found.append((session.now, int(new), int(old.split()[0])))
    assert found == wanted


def test_until_rises(built, session):
    """Only rises are met, if those alone are asked for."""
    values = [int(each[6]) for each in every_clock(built, 7, 8)]
    rises = [clock for clock in range(1, len(values)) if values[clock] > values[clock - 1]]
    found = []
    while "any more" not in session.obey("until enable 7 8 rises")[0]:
        found.append(session.now)
    assert found == rises


def test_face_and_depth(session):
    """A face wins with its depth: docs/PICTURE.md's picture of this scene has face 2 and depth 5 at 7 8."""
    assert session.obey("until face 7 8")[0] == "face of pixel 7 8: 2, and 0 before"
    session.obey("watch 7 8")
    session.obey("run")
    assert "best key depth 5 face 2" in session.obey("where")[-1]


def test_back(session):
    """`back` goes clocks back, and alone takes back the last move."""
    session.obey("until 300")
    session.obey("step 7")
    assert session.now == 307
    session.obey("back")
    assert session.now == 300
    session.obey("back 40")
    assert session.now == 260 and "clock 260 of 561" in session.obey("where")[0]


def test_plane(session):
    """A bit plane has a block for each pixel: enable after the sides is the triangle that the sides leave."""
    session.obey("until 536")
    scene = scenes.read(content(TRIANGLE))
    sides = [side.plane for side in scene.solids[0].sides]
    lines = session.obey("plane enable")[:-1]
    shown = {(x, 2 * row + low) for row, line in enumerate(lines) for x, block in enumerate(line) for low in (0, 1)
             if block in ("\u2580\u2588", "\u2584\u2588")[low]}
    assert shown == {(x, y) for x in range(16) for y in range(16) if all(a * x + b * y + c >= 0 for a, b, c in sides)}


@pytest.mark.parametrize("line, said", (
    ("hello", "is no command"), ("stpe 3", "did you mean step?"), ("step x", "is no number"), ("pixel 99 0", "there is no x 99; expected: x from 0 to 15"), ("until depth", "unless a pixel"), ("watch 1", "takes"),
    ("until bit 99 0 0", "bits 0 to"), ("tree 0 0", "level from 1 to 8"), ("until colour 1 1", "until takes"), ("run 3", "takes")))
def test_mistakes(session, line, said):
    """A line that asks for nothing that there is moves nothing, and its answer says why."""
    assert said in session.obey(line)[0] and session.now == 0


BLANKS, WORDS = (" ", "  ", "\t", " \r"), (*(word for word in sessions.FORMS if word != "quit"), "Step", "hello", "", "step#", "#", "quit 1")
NUMBERS = ("0", "1", "2", "5", "6", "15", "16", "31", "32", "63", "64", "-1", "+1", "x", "1" * 18, "1" * 19, "0" * 18, "007", "\uff13")


@pytest.mark.parametrize("size", ((16, 16), (48, 32), (1, 1), (3, 100)))
def test_faults(built, size):
    """A line has a fault exactly if the program answers it with `? line N`: 600 lines from a seed, some of more than 255 bytes."""
    chance = random.Random(7)
    lines = [chance.choice(BLANKS).join([chance.choice(WORDS), *chance.choices(NUMBERS, k=chance.choice((0, 1, 2, 2, 2, 3)))]).encode()
             + b" " * chance.choice((0, 0, 0, 0, 245, 250, 255)) for _ in range(600)]
    head = b"pxscene 1\npicture %d %d\ndepth 3\nsolid a 1 2 3\nshow a\nend\n" % size
    for line, answer in zip(lines, sessions.held(built, head, lines)):
        assert (answer[:1] != [] and answer[0].startswith(b"? line")) == (sessions.fault(line, *program.grid(*size)) is not None), line


# Of lines over 16 by 16 pixels, a listing's last, by hand: where the fault is, what is wrong, and what is expected.
COMMANDS = "step, macro, run, until, back, at, pixel, %stree, trace, quit"
PLACES = {b"at" + b" " * 260: ((255, 262), "it has 262 bytes", "a line of at most 255 bytes"), b"step " + b"1" * 18: None,
          b"back " + b"1" * 19: ((5, 24), "'%s' is no number" % ("1" * 19), "n of 1 to 18 digits, without a sign"),
          b" pixel 1 2 3 44": ((11, 12), "pixel has a word too many", "pixel x y"), b"  tree 3": ((7, 8), "tree has too few words", "tree level index"),
          b"pixel 15 16": ((9, 11), "there is no y 16", "y from 0 to 15"), b"tree 2 4": ((7, 8), "there is no index 4", "index from 0 to 3"),
          b"stop": ((0, 4), "'stop' is no command", "one of " + COMMANDS % "field, ")}


@pytest.mark.parametrize("line", PLACES)
def test_places_of_faults(line):
    assert sessions.fault(line, 16, 16) == PLACES[line]
    assert sessions.fault(b" field 1 2", 16, 16) is None
    assert sessions.fault(b" field 1 2", 16, 16, is_listing=True) == ((1, 6), "a listing has no keys", "one of " + COMMANDS % "")
    assert sessions.fault(b"stop", 16, 16, is_listing=True) == ((0, 4), "'stop' is no command", "one of " + COMMANDS % "")


def test_faults_of_a_file(built, tmp_path):
    """`trace FILE` says why a line is answered `? line N`."""
    path = tmp_path / "a.session"
    path.write_bytes(content(TRIANGLE) + b"step\ntree 9 0 # a node\n")
    done = subprocess.run([sys.executable, "-m", "pxplanes", "trace", str(path)], capture_output=True, text=True, env=environment(built))
    assert done.stdout.splitlines() == ["> step", "? line 1: step has too few words; expected: step n", "> tree 9 0",
                                        "? line 2: there is no level 9; expected: level from 1 to 8"]


def test_pipe(built):
    """From a pipe each line is answered before the next is given."""
    process = subprocess.Popen([sys.executable, "-m", "pxplanes", "trace", TRIANGLE], stdin=subprocess.PIPE, stdout=subprocess.PIPE, text=True,
                               env=environment(built), bufsize=1)
    process.stdin.write("until 553\n")
    assert process.stdout.readline().startswith("clock 553 of 561, pass 5 of 5")
    process.stdout.readline()
    process.stdin.write("watch 7 8\n")
    assert process.stdout.readline().startswith("pixel 7 8: enable 1")
    process.stdin.close()
    assert process.wait(30) == 0 and not process.stdout.read()


def test_terminal(built):
    """On a terminal there is a prompt, and `help`; the end of the input ends it."""
    master, slave = pty.openpty()
    process = subprocess.Popen([sys.executable, "-m", "pxplanes", "trace", TRIANGLE], stdin=slave, stdout=slave, stderr=slave,
                               env=dict(environment(built), TERM="dumb"), start_new_session=True)
    os.close(slave)
    seen = b""
    for line, wanted in ((None, b"(pxplanes) "), (b"help\n", b"takes back the last move"), (b"step\n", b"clock 1 of 561"), (b"quit\n", None)):
        if line:
            os.write(master, line)
        while wanted and wanted not in seen:
            seen += os.read(master, 10000)
    assert process.wait(30) == 0
    os.close(master)
