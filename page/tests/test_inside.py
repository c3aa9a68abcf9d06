"""What the page shows of one pixel against the library: the wires of its circuit, its way through the tree, the
waveform of an operation; and the triangle that is dragged on the array."""
import re
from typing import Any

import pytest

import pages
from browser import Browser
from pages import called, click, go

# Every act comes in one of these operations.
LISTING = """pxlist 1
grid 1 2
all
load-linear 1 2 1 0 3
add-linear -1 1 2 0 3
load-const 3 3 5
keep-at-most 1 0 1 0 3
keep-less 0 3 3
all
copy 3 3 6
set-bit 9 1
toggle 9
keep-bit 9 0
toggle 1
keep-sign 1 -1 0
end
"""
STATE = """(clock, x, y) => studio.library().then(px => {
  const state = px.state(studio.editor.text, clock), {next} = state;
  return {...state.pixel(x, y), act: next && next.act, place: next && next.hasPlace ? next.place : null,
    lines: next && next.tree === "feed" ? next.lines : null};
})"""
ROWS = """() => [...document.querySelectorAll("table.way tr")].slice(1).map(row =>
  [...row.children].map(cell => cell.textContent).concat(row.querySelector(".now")?.textContent ?? ""))"""


# Where the planes that changed between two clocks are not those that differ in the whole states, or lead to another state.
MOVES = """async pairs => {
  const text = studio.editor.text, wrong = [];
  for (const [from, clock] of pairs) {
    const [first, last, moved] = await Promise.all([{clock: from}, {clock}, {clock, from}].map(words => studio.ask("state", words, text)));
    const size = 2 * last.wordsPerRow * last.height, parts = state => Array.from({length: Math.ceil(state.words.length / size)}, (_, plane) => state.words.slice(plane * size, (plane + 1) * size));
    const due = parts(last).map((part, plane) => Number(String(part) !== String(parts(first)[plane])));
    const words = parts(last).filter((_, plane) => due[plane]).flatMap(part => [...part]);
    if (String(due) !== String(moved.changed) || String(words) !== String(moved.words)) wrong.push([from, clock]);
  }
  return wrong;
}"""

CLOCKS = "() => studio.ask('program', {}, studio.editor.text).then(({clocks}) => clocks)"


def opened(page: Browser, fragment: str) -> None:
    page.open("about:blank")
    page.open("file://" + pages.PAGE + fragment)
    page.until("document.body.dataset.drawn === 'yes' && document.body.dataset.shown")


def at_clock(page: Browser, clock: int, x: int, y: int) -> None:
    go(page, clock)
    page.until("document.body.dataset.inside === '%d %d %d'" % (x, y, clock))


def test_a_move_has_the_planes_that_it_changed(page: Browser) -> None:
    """By some thousand clocks of a scene, and by each clock of a listing with all fourteen acts, on and back."""
    assert called(page, MOVES, [(0, 3000), (3000, 20), (1200, 1260), (7, 7)]) == []
    other = pages.source(page)
    pages.pasted(page, LISTING)
    # (after the same clock of another text too)
    pages.asked(page, "state", {"clock": 10}, other)
    moved, whole = (pages.asked(page, "state", words, LISTING) for words in ({"clock": 11, "from": 10}, {"clock": 11}))
    assert [moved[name] for name in ("micro", "operation")] == [whole[name] for name in ("micro", "operation")]
    steps = [(clock, clock + 1) for clock in range(called(page, CLOCKS))]
    assert steps[9:] and called(page, MOVES, steps + [(end, start) for start, end in steps[::7]]) == []


@pytest.mark.parametrize("x, y", [(0, 0), (1, 3)])
def test_the_circuit_leads_to_what_the_library_makes(page: Browser, x: int, y: int) -> None:
    """After each clock of a listing with all fourteen acts."""
    pages.pasted(page, LISTING)
    page.run("document.activeElement.blur()")
    page.press("2")
    page.until("studio.machine.isShown && studio.machine.text === studio.editor.text")
    pages.point(page, "array", x, y)
    click(page, "[data-inside=circuit]")
    clocks = page.run("Number(document.getElementById('clock').max)")
    acts, before = set(), called(page, STATE, 0, x, y)
    for clock in range(clocks):
        at_clock(page, clock, x, y)
        said = page.run("document.querySelector('.circuit').getAttribute('aria-label')").split("; then ")
        after = called(page, STATE, clock + 1, x, y)
        due = "enable %(enable)d carry %(carry)d latch %(latch)d" % after
        due += "" if before["place"] is None else " bit %d %s" % (before["place"], after["memory"][before["place"]])
        assert said[1] == due, "at %d: %s" % (clock, said)
        assert said[0].split(":")[0] == before["act"]
        boxes = page.run("[...document.querySelectorAll('.circuit .register + .small + .value')].map(each => each.textContent[0]).join('')")
        assert boxes == "%(latch)d%(leaf)d%(enable)d%(carry)d" % before
        acts.add(before["act"])
        before = after
    assert len(acts) == 14


def bit(number: int, at: int) -> str:
    return str(number >> at & 1)


@pytest.mark.everywhere
@pytest.mark.parametrize("x, y", [(0, 0), (200, 121)])
def test_the_way_through_the_tree_has_the_bits_of_its_sums(page: Browser, x: int, y: int) -> None:
    """The letters have an array of 256 by 256, so a way has 16 nodes. Each node, which the library has, shows the bit of the
    sum that is marked; each line brings the marked bit of its number; and the last sum is that of the form."""
    opened(page, "#s=letters&c=0&v=enable&p=%d,%d" % (x, y))
    click(page, "[data-inside=way]")
    course = pages.asked(page, "program", {}, pages.source(page))["operations"]
    _, operation, _, start = next(row for row in course if re.match(r"keep-sign -?[1-9]\d* -?[1-9]\d*", row[1]))
    a, b, c = map(int, operation.split()[1:])
    marked = 0
    for clock in range(start, start + 57):
        at_clock(page, clock, x, y)
        rows: list[list[Any]] = called(page, ROWS)
        lines = called(page, STATE, clock, x, y)["lines"]
        assert [row[0] for row in rows] == ["C", "A", *map(str, range(1, 9)), "B", *map(str, range(9, 17))]
        assert int(rows[-1][4]) == a * x + b * y + c
        for name, line, node, _, number, bits, now in rows:
            if name in ("C", "A", "B"):
                assert line == ("" if lines is None else str(lines["ABC".index(name)]))
            if not now:
                continue
            marked += 1
            shown = line if name in ("C", "A", "B") else node[0]
            assert now == shown, "%s at %d" % (name, clock)
            assert bits == "".join(bit(int(number), at) for at in reversed(range(len(bits))))
    assert marked > 500


@pytest.mark.everywhere
def test_the_waveform_is_of_the_whole_operation_with_a_cursor(page: Browser) -> None:
    """An edge of the triangle takes 49 clocks, from 272 on; a click on one goes there."""
    opened(page, "#s=triangle&c=300&v=enable&p=7,8")
    click(page, "[data-inside=waveform]")
    assert page.until("document.querySelectorAll('.clocks').length") == 49
    cursor = "[...document.querySelectorAll('.clocks')].findIndex(each => each.querySelector('.cursor'))"
    assert page.run(cursor) == 28
    page.run("document.querySelectorAll('.clocks')[48].dispatchEvent(new MouseEvent('click', {bubbles: true}))")
    page.until("document.body.dataset.inside === '7 8 320'")
    assert page.run(cursor) == 48


def inside(corners: list[tuple[int, int]], x: int, y: int) -> bool:
    """Whether a pixel is on the inner side of each edge, or on it: on one side of all three, as the corners turn."""
    turns = [(x2 - x1) * (y - y1) - (y2 - y1) * (x - x1) for (x1, y1), (x2, y2) in zip(corners, corners[1:] + corners[:1])]
    return all(turn >= 0 for turn in turns) or all(turn <= 0 for turn in turns)


@pytest.mark.everywhere
def test_a_triangle_is_dragged_and_made_a_scene(page: Browser) -> None:
    page.run("document.activeElement.blur()")
    page.press("2")
    page.until("document.body.dataset.shown")
    click(page, "#triangle")
    page.until("document.body.dataset.triangle")
    left, top = page.run("(() => { const r = document.querySelector('.corner').getBoundingClientRect(); return [r.left + r.width / 2, r.top + r.height / 2] })()")
    side = page.run("document.getElementById('array').clientWidth / 64")
    for kind, x, y in (("mousePressed", left, top), ("mouseMoved", left + 10 * side, top - 7 * side), ("mouseReleased", left + 10 * side, top - 7 * side)):
        page.call("Input.dispatchMouseEvent", type=kind, x=x, y=y, button="left", buttons=1, clickCount=1)
    page.run("document.querySelectorAll('.corner')[1].focus()")
    page.press("ArrowDown", 40)
    corners = [(23, 18), (28, 6), (54, 22)]
    due = {(x, y) for x in range(64) for y in range(32) if inside(corners, x, y)}
    page.until("document.body.dataset.triangle === '23,18 28,6 54,22 %d'" % len(due))
    width, _, colours = pages.pixels(page, "array")
    assert {(at % width, at // width) for at, colour in enumerate(colours) if colour[0] == 255} == due
    assert page.run("document.querySelector('.triangle').checkVisibility()")
    page.run("document.body.dataset.drawn = 'waits'")
    click(page, "#triangle-scene")
    assert page.until(pages.DRAWN) == "yes"
    width, _, colours = pages.pixels(page, "picture")
    assert {(at % width, at // width) for at, colour in enumerate(colours) if colour[:3] == (232, 93, 48)} == due
    page.run("document.activeElement.blur()")
    page.press("2")
    page.until("document.getElementById('array').width === 64 && document.body.dataset.shown")
    assert not page.run("[...document.querySelectorAll('.triangle, .corner, #triangle-part')].some(each => each.checkVisibility())")
