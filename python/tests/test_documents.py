"""The documents: the runs that they show, the files, pictures and numbers that they quote, and their links."""
import os
import re
import subprocess
import tempfile

import pytest
import support
from support import TOP, content, difference

import documents
from pxplanes import ends
from pxplanes.machine import sessions

README = documents.README
DEBUGGER = os.path.join("docs", "DEBUGGER.md")
QUOTED = ((README, "scenes/first.scene"), (os.path.join("docs", "MODELLING.md"), "scenes/bracket.scad"))
TEXT = re.compile(r"^```(?:text|rust)\n(.*?)^```$", re.M | re.S)
PASSES = os.path.join("docs", "PASSES.md")
LESSON, ANSWERS, HANDOUT = (os.path.join("docs", leaf) for leaf in ("LESSON.md", "LESSON_ANSWERS.md", "LESSON_HANDOUT.md"))
EXERCISE = re.compile(r"^\*\*Exercise (\d+)\.\*\*.*?(?=\n\n|\n*\Z)", re.M | re.S)
CLAP = re.compile(r"^\| (\d) \| \d \d \d \| ([01] [01]/[01]) \| (.*) \| ([01] [01]/[01]) \| (.*) \|$", re.M)
STEP = re.compile(r"^\| (\d+) \| .* \| \((\d+), (\d+)\) \| \((\d+), (\d+)\) \| (\d) \| (\d) \|$", re.M)


def documented():
    """A parameter for each document with runs; those that need a build are marked."""
    for leaf in documents.with_runs():
        commands = [command for block in documents.runs(leaf) for command, _ in support.steps(block)]
        needs = {need for command in commands for need in support.needs_of(command)}
        yield pytest.param(leaf, marks=[pytest.mark.after_build] * bool(support.OF_BUILDS & needs))


@pytest.mark.parametrize("leaf", documented())
def test_runs(leaf, built):
    """Each block of commands writes what the document shows; the blocks are made in order, in one folder."""
    lacking = set()
    with tempfile.TemporaryDirectory(prefix="px-document-") as folder:
        support.prepare(folder)
        support.prepare_built(folder, built)
        before = set(os.listdir(folder))
        for number, block in enumerate(documents.runs(leaf), 1):
            wrong, need = support.wrong_in_block(block, folder, built)
            assert wrong is None, "run %d: %s" % (number, wrong)
            lacking.add(need)
        if leaf == README:
            assert set(os.listdir(folder)) == before, "the runs of %s leave files outside of pictures/" % leaf
    if lacking - {None}:
        pytest.skip(", ".join(map(support.why_skipped, sorted(lacking - {None}))))


@pytest.mark.parametrize("name", documents.CHECKS)
def test_check(name):
    wrong = next(documents.CHECKS[name](), None)
    assert wrong is None, wrong


def test_site(tmp_path):
    """The documents become a site: every link leads somewhere, the page and the pictures of its states are in it, and
    the search knows the words."""
    pytest.importorskip("myst_parser", reason="python3-myst-parser is not installed")
    done = subprocess.run([os.path.join(TOP, "tools", "docs"), "--html", str(tmp_path)], capture_output=True, text=True, check=False)
    assert done.returncode == 0, done.stderr
    assert content(str(tmp_path), "page/pxplanes.html") == content(TOP, "page/pxplanes.html")
    frames = re.findall(r'<iframe class="live" src="\.\./(page/pxplanes\.html)\?embed#[^"]+"[^>]*></iframe><img class="still" src="([^"]+)"',
                        content(str(tmp_path), "docs/MACHINE.html").decode())
    assert frames and all((tmp_path / "docs" / still).is_file() for _, still in frames)
    assert b'"docs/GLOSSARY"' in content(str(tmp_path), "searchindex.js")


@pytest.mark.parametrize("leaf, quoted", QUOTED)
def test_quote(leaf, quoted):
    """The document has the file as its first block of text."""
    block = TEXT.search(content(TOP, leaf).decode())
    wrong = difference(quoted, content(os.path.join(TOP, "docs"), quoted), block.group(1).encode() if block else b"")
    assert wrong is None, wrong


def test_examples_of_the_debugger():
    """Each kind of command line of the table is shown in a session."""
    text = content(TOP, DEBUGGER).decode()
    kinds = re.findall(r"^\| `(\w+)[^`|]*` \|", text, re.M)
    shown = re.findall(r"^> (\w+)", "".join(documents.runs(DEBUGGER)), re.M)
    assert kinds and set(kinds) <= set(shown)


def test_steps_of_the_passes(built):
    """A session answers what the table of passes says after each step."""
    steps = STEP.findall(content(TOP, PASSES).decode())
    scene = content(TOP, os.path.join("cases", "drilled_block", "stdin"))
    commands = [line for clock, *_ in steps for line in (b"until %d" % int(clock), b"field 20 20")]
    answers = sessions.held(built, scene, commands)[1::2]
    assert steps
    for (clock, *numbers), lines in zip(steps, answers):
        assert lines == [("field 20 20 b %s %s t %s %s alive %s par %s" % tuple(numbers)).encode()], "clock %s" % clock


def test_claps_of_the_lesson(built):
    """The sheet of claps has the nodes of the load in cases/lesson_comparison."""
    claps = CLAP.findall(content(TOP, LESSON).decode())
    scene, _ = sessions.parted(content(TOP, os.path.join("cases", "lesson_comparison", "stdin")))
    nodes = [(level, index) for level in (1, 2) for index in range(2 ** level)]
    commands = [line for clock in range(722, 723 + len(claps))
                for line in [b"until %d" % clock] + [b"tree %d %d" % node for node in nodes]]
    found = [lines[0].decode().split() for lines in sessions.held(built, scene, commands)]
    found = [found[at + 1:at + 1 + len(nodes)] for at in range(0, len(found), 1 + len(nodes))]
    cards = [[words[4] + "/" + words[6] if int(words[2]) % 2 else words[4] for words in row] for row in found]
    rows = [(" ".join(row[:2]), " ".join(row[2:])) for row in cards]
    assert len(claps) == 6
    for number, (clap, *shown) in enumerate(claps):
        assert (int(clap), tuple(shown)) == (number + 1, rows[number] + rows[number + 1])


def test_exercises_of_the_handout():
    """Each exercise has its number, and an answer."""
    texts = [content(TOP, leaf).decode() for leaf in (HANDOUT, ANSWERS)]
    numbers = [[int(number) for number in re.findall(pattern, text, re.M)]
               for pattern, text in zip((r"^\*\*Exercise (\d+)\.", r"^(\d+)\. "), texts)]
    wanted = list(range(1, len(EXERCISE.findall(texts[0])) + 1))
    assert wanted and numbers == [wanted, wanted]


def quotes_of_the_gallery():
    """Each scene of the gallery with the lines that docs/GALLERY.md quotes under its heading."""
    for part in content(TOP, os.path.join("docs", "GALLERY.md")).decode().split("\n## ")[1:]:
        pictured = re.search(r"\(\.\./(gallery/\w+)\.png\)", part)
        if pictured:
            yield pictured.group(1) + ".scene", TEXT.findall(part)


@pytest.mark.parametrize("scene, blocks", quotes_of_the_gallery())
def test_lines_of_the_gallery(scene, blocks):
    """The scene has the quoted lines, in their order."""
    left = iter(content(TOP, scene).decode().split("\n"))
    assert blocks
    for line in "".join(blocks).split("\n")[:-1]:
        assert line == ".." or line in left, "%r is not there in this order" % line


@pytest.mark.parametrize("path", ends.script("dev/draw_docs").pictures())
def test_picture(path, built):
    wrong = ends.script("dev/draw_docs").wrong(path, built)
    assert wrong is None, wrong


def test_clocks_of_the_gallery(built):
    wrong = ends.script("dev/draw_docs").wrong_counts(built)
    assert wrong is None, wrong


def test_golden_maps_of_the_suite(built):
    pytest.importorskip("numpy")
    wrong = next(iter(ends.script("dev/suite").wrong(built)), None)
    assert wrong is None, wrong


def test_lists_of_the_promises():
    wrong = ends.script("dev/rests_on").wrong()
    assert wrong is None, wrong
