"""The story that the page shows when it is opened: its steps, what each says of the machine, and how it stays closed."""
import pytest

import pages
from browser import Browser

STEP = "document.body.dataset.story"
ONES = """view => {
  const canvas = document.getElementById("array"), {width, height} = canvas;
  const {data} = canvas.getContext("2d").getImageData(0, 0, width, height);
  return [...data].filter((part, at) => at % 4 === 0 && part === 255).length;
}"""


def opened(page: Browser, fragment: str = "") -> None:
    page.open("about:blank")
    page.open("file://" + pages.PAGE + fragment)
    page.until("document.body.dataset.drawn === 'yes' && document.body.dataset.shown")


def at_clock(page: Browser, clock: int) -> None:
    page.until("document.body.dataset.shown === '%d' && document.body.dataset.drawn === 'yes'" % clock)


def test_a_page_opens_with_the_story(page: Browser) -> None:
    opened(page)
    assert page.run(STEP) == "1"
    assert page.run("document.getElementById('about').textContent.includes('Version')")
    assert page.run("document.querySelectorAll('.spot').length") == 1
    page.press("ArrowRight")
    page.until(STEP + " === '2'")
    page.press("ArrowLeft")
    page.until(STEP + " === '1'")
    page.run("document.getElementById('story-next').click()")
    page.until(STEP + " === '2'")
    assert page.run("location.hash") == "#story-2"


@pytest.mark.everywhere
@pytest.mark.parametrize("step, clock, ones", [(2, 321, 207), (3, 419, 112)])
def test_the_pixels_that_a_step_names(page: Browser, step: int, clock: int, ones: int) -> None:
    """207 and 112: counted by hand from 2x - y + 2 >= 0, and with -2x - y + 30 >= 0 and y - 2 >= 0, over 16 by 16
    pixels."""
    sides = [(2, -1, 2), (-2, -1, 30), (0, 1, -2)][:1 if step == 2 else 3]
    assert sum(all(a * x + b * y + c >= 0 for a, b, c in sides) for x in range(16) for y in range(16)) == ones
    opened(page, "#story-%d" % step)
    at_clock(page, clock)
    assert pages.called(page, ONES, "enable") == ones
    assert str(ones) in page.run("document.getElementById('story-words').textContent")


def test_every_edge_of_the_triangle_takes_49_clocks(page: Browser) -> None:
    opened(page, "#story-3")
    text = pages.source(page)
    rows = pages.asked(page, "program", {}, text)["operations"]
    begin = [row[3] for row in rows] + [561]
    lengths = [(row[1].split(" ")[0], after - clock) for row, clock, after in zip(rows, begin, begin[1:])]
    assert {length for name, length in lengths if name == "keep-sign"} == {49}


@pytest.mark.everywhere
def test_the_tree_is_shown_and_lit(page: Browser) -> None:
    opened(page, "#story-4")
    at_clock(page, 210)
    assert page.run("document.querySelector('.spot').id") == "tree-part"
    assert page.run("document.querySelectorAll('#tree .node').length") == 2 + 4 + 8 + 16


@pytest.mark.everywhere
def test_where_the_bit_is_1_the_candidate_is_inside_the_shaft(page: Browser) -> None:
    """The shaft is x from 19 to 29 and y from 11 to 21, and from the eye to the back; the pyramid covers all of it."""
    opened(page, "#story-5")
    at_clock(page, 2283)
    width, _, colours = pages.pixels(page, "array")
    ones = {(at % width, at // width) for at, colour in enumerate(colours) if colour == (255, 255, 255)}
    assert ones == {(x, y) for x in range(19, 30) for y in range(11, 22)}


def test_the_letters_clocks_are_the_librarys(page: Browser) -> None:
    opened(page, "#story-6")
    page.until("document.querySelector('#story-words .clocks').textContent !== '…'")
    found = page.run("studio.library().then(px => px.check(studio.editor.text))")
    said = page.run("['operations', 'clocks'].map(name => document.querySelector('#story-words .' + name).textContent)")
    assert said == ["{:,}".format(found[name]) for name in ("operations", "clocks")]
    page.until("document.body.dataset.shown === '%d'" % found["clocks"])


def test_the_story_leaves_an_edited_text_alone(page: Browser) -> None:
    pages.alone(page)
    pages.choose(page, "- shaft)")
    pages.written(page, "+ shaft)")
    page.run("location.hash = '#story-5'")
    at_clock(page, 2283)
    assert "- shaft)" in pages.source(page)
    tabs = page.run("[...document.querySelectorAll('.text-tab')].map(each => each.textContent)")
    assert tabs == ["* first", "first 2"]


def test_it_is_closed_for_good_by_one_key(page: Browser) -> None:
    opened(page)
    assert page.run(STEP) == "1"
    page.press("Escape")
    assert page.run("document.getElementById('story').hidden")
    opened(page)
    assert page.run(STEP) is None
