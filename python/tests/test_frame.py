"""The frame of the command: its statuses, its messages, and what happens to a closed pipe or a full disk."""
import contextlib
import os
import pty
import subprocess
import sys

import pytest
from support import TOP, skip_without

from pxplanes.cli import frame

SCENE = os.path.join(TOP, "docs", "scenes", "first.scene")
MOST_OPTIONS = 90


def run(*words, **more):
    """A run of the command in the checkout."""
    return subprocess.run([os.path.join(TOP, "pxplanes"), *words], text=True, **{"capture_output": True, **more})


def test_at_most_so_many_options():
    """All words of users together have at most 90 options, without --help."""
    def options(parser):
        below = [each for action in parser._actions if isinstance(action.choices, dict) for each in action.choices.values()]
        own = {option for action in parser._actions for option in action.option_strings if option.startswith("--")}
        return own.union(*map(options, below))

    assert sum(len(options(frame.parser_of(word)) - {"--help"}) for word in frame.WORDS) <= MOST_OPTIONS


@pytest.mark.parametrize("word", frame.WORDS)
def test_help_of_a_word(word):
    done = run(word, "--help")
    assert (done.returncode, done.stderr) == (0, "") and done.stdout.startswith("usage: pxplanes " + word)


@pytest.mark.parametrize("word", frame.PROGRAM_WORDS)
def test_help_of_a_word_of_the_program(word):
    """It is the help of that word, with the numbers that docs/SCENES.md admits, also after --unproved, and the same without a checkout."""
    admitted = {"tile": "W H", "refine": "2 or 4", "sample": "1 to 200"}.get(word, "[FILE]")
    for words in ([word, "--help"], ["--unproved", word, "-h"], [word, "3", "--help"]):
        done = run(*words)
        assert (done.returncode, done.stderr) == (0, "") and done.stdout.startswith("usage: pxplanes %s [-h]" % word) and admitted in done.stdout
    module = subprocess.run([sys.executable, "-m", "pxplanes", word, "--help"], capture_output=True, text=True, cwd="/",
                            env=dict(os.environ, PYTHONPATH=os.path.join(TOP, "python")))
    assert module.stdout == done.stdout


def test_numbers_that_are_admitted(built):
    """At a terminal the numbers of a word are named, if a wrong one is given."""
    for words, said in ((["refine", "3"], b"2 or 4"), (["sample", "999"], b"1 to 200"), (["tile", "3", "0"], b"1 to 4096")):
        ours, theirs = pty.openpty()
        done = subprocess.run([sys.executable, "-m", "pxplanes", *words, SCENE], stdout=subprocess.DEVNULL, stderr=theirs,
                              env=dict(os.environ, PXPLANES_PROGRAM=built, PYTHONPATH=os.path.join(TOP, "python")))
        os.close(theirs)
        found = os.read(ours, 9999)
        os.close(ours)
        assert done.returncode == 2 and found.startswith(b"usage: pxplanes [render|") and said in found.replace(b"\r\n", b" ")


def test_an_option_that_is_nearly_one():
    done = run("explain", "--fixx", SCENE)
    assert done.returncode == 2 and "did you mean --fix?" in done.stderr and done.stderr.count("\n") == 1


def test_a_file_that_is_not_there():
    done = run("explain", "missing.scene")
    assert (done.returncode, done.stderr) == (2, "pxplanes explain: missing.scene: No such file or directory\n")


def test_a_full_disk_is_reported():
    with open("/dev/full", "w", encoding="ascii") as full:
        done = run("explain", SCENE, capture_output=False, stdout=full, stderr=subprocess.PIPE)
    assert done.returncode == 2 and "No space left on device" in done.stderr


def test_a_closed_pipe_is_silent(built):
    done = subprocess.run(["bash", "-c", '"$0" explain "$1" | true', os.path.join(TOP, "pxplanes"), SCENE], capture_output=True,
                          env=dict(os.environ, PXPLANES_PROGRAM=built))
    assert done.stderr == b""


def test_numbers_below_0_are_no_options():
    assert frame.glued(["--eye", "-1,2,3", "--view", "-5", "a"]) == ["--eye=-1,2,3", "--view", "-5", "a"]


def on_a_terminal(*words, **settings):
    """What a command writes to a terminal, and its status."""
    ours, theirs = pty.openpty()
    done = subprocess.Popen(words, stdin=subprocess.DEVNULL, stdout=theirs, stderr=subprocess.PIPE, env=dict(os.environ, **settings))
    os.close(theirs)
    found = b""
    with contextlib.suppress(OSError):
        while piece := os.read(ours, 65536):
            found += piece
    os.close(ours)
    return found, done.stderr.read(), done.wait()


def test_no_raw_pixels_go_to_a_terminal(built):
    command = os.path.join(TOP, "pxplanes")
    for words in ([command, "--as-built", "colour", SCENE], [sys.executable, "-m", "pxplanes", "render"]):
        found, note, status = on_a_terminal(*words, PXPLANES_PROGRAM=built, PYTHONPATH=os.path.join(TOP, "python"))
        assert found == b"" and b"no terminal shows raw pixels" in note and status in (1, 2)


def test_no_colours_if_nobody_wants_them(built):
    view = [os.path.join(TOP, "pxplanes"), "view", SCENE]
    assert b"\x1b[38" in on_a_terminal(*view, PXPLANES_PROGRAM=built)[0]
    found, _, status = on_a_terminal(*view, PXPLANES_PROGRAM=built, NO_COLOR="1")
    assert b"\x1b" not in found and b"#" in found and status == 0


def test_the_file_that_has_no_room_is_named(tmp_path, built):
    """A limit of a file's size stands for a full disk."""
    picture = str(tmp_path / "first.png")
    limit = "ulimit -f 0; exec \"$0\" view \"$1\" -o \"$2\""
    done = subprocess.run(["bash", "-c", limit, os.path.join(TOP, "pxplanes"), SCENE, picture], capture_output=True, text=True,
                          env=dict(os.environ, PXPLANES_PROGRAM=built))
    assert (done.returncode, done.stderr) == (2, "pxplanes view: %s: File too large\n" % picture)


def test_a_shell_completes_words_and_options():
    skip_without(["register-python-argcomplete"])
    asked = {"pxplanes ex": ["explain"], "pxplanes ti": ["tidy", "tile"], "pxplanes explain --in": ["--in-place"]}
    for line, expected in asked.items():
        settings = {"_ARGCOMPLETE": "1", "_ARGCOMPLETE_IFS": "\n", "COMP_LINE": line, "COMP_POINT": str(len(line)), "PATH": "/usr/bin:/bin"}
        done = subprocess.run(["bash", "-c", '"$0" 8>&1 >/dev/null', os.path.join(TOP, "pxplanes")], capture_output=True, text=True,
                              env=dict(os.environ, **settings))
        assert sorted(done.stdout.split()) == expected


@pytest.mark.parametrize("words, is_so", [
    (["view", "a.stl", "-o", "a.png"], True), (["view", "a.scene"], False), (["convert", "a.csg", "--draw", "maps"], True),
    (["convert", "a.csg", "--draw=maps"], True), (["convert", "a.csg", "-o", "a.scene"], False), (["compare", "a", "b"], True)])
def test_words_go_on_in_a_python_with_numpy_if_they_need_it(words, is_so):
    assert frame.is_by_numpy(words) is is_so
