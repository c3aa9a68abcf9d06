"""Parts of the page by themselves: the list of scenes, a frame of another page, files that are taken away, keys, names
for screen readers."""
import functools
import http.server
import os
import threading
from pathlib import Path
from typing import Iterator

import pytest

import pages
from browser import Browser
from conftest import TOP
from pages import click

SHOWN = ("[...document.querySelectorAll('#scenes button')].filter(each => each.checkVisibility())"
         ".map(each => each.textContent)")
NAMED = ("button", "link", "textbox", "searchbox", "combobox", "slider", "checkbox", "radio", "tab", "img",
         "radiogroup", "tablist", "dialog")


def sought(page: Browser, words: str) -> list[str]:
    page.run("(document.getElementById('search').value = %r, document.getElementById('search').dispatchEvent(new "
             "Event('input')))" % words)
    return list(page.run(SHOWN))


def test_the_list_is_searched_by_name_and_by_what_a_scene_teaches(page: Browser) -> None:
    click(page, "#gallery summary")
    page.until("document.activeElement.id === 'search'")
    assert not any("tie" == each for each in sought(page, "temple"))
    assert sought(page, "temple") == ["temple"]
    assert "symmetric difference" in sought(page, "symmetric")
    assert sought(page, "no such scene anywhere") == []
    assert page.run("document.getElementById('none-found').checkVisibility()")
    assert len(sought(page, "")) > 20


def test_the_small_pictures_are_the_scenes(page: Browser) -> None:
    click(page, "#gallery summary")
    sought(page, "die")
    found = page.until("(() => { const c = [...document.querySelectorAll('#scenes button')].find(each => "
                       "each.textContent === 'die').querySelector('canvas');"
                       " return c.width === 32 && [c.width, c.height, [...c.getContext('2d').getImageData(0, 0, 32, "
                       "32).data].slice(0, 4 * 32 * 32)] })()")
    text = open(os.path.join(TOP, "gallery", "die.scene"), encoding="utf-8").read()
    whole = pages.called(page, "text => studio.library().then(px => { const {width, height, rgb} = px.colour(text); "
                               "return [width, height, [...rgb]] })", text)
    step = -(-max(whole[0], whole[1]) // 32)
    width, rgb = whole[0], whole[2]
    due = [rgb[3 * (y * step * width + x * step) + part] for y in range(32) for x in range(32) for part in range(3)]
    assert [part for at, part in enumerate(found[2]) if at % 4 < 3] == due


def test_a_new_scene_is_a_box_that_draws(page: Browser) -> None:
    page.run("document.body.dataset.drawn = 'waits'")
    page.run("document.querySelector('#scenes button').click()")
    assert page.until(pages.DRAWN) == "yes"
    width, _, colours = pages.pixels(page, "picture")
    seen = {(at % width, at // width) for at, colour in enumerate(colours) if colour[:3] == (200, 120, 60)}
    assert seen == {(x, y) for x in range(12, 36) for y in range(8, 24)}


def test_maps_are_taken_away_as_the_library_writes_them(page: Browser) -> None:
    page.run("(globalThis.taken = [], globalThis.own = URL.createObjectURL, URL.createObjectURL = blob => { "
             "taken.push(blob); return own(blob); }, "
             "HTMLAnchorElement.prototype.click = () => {}, 0)")
    for what, words in (("maps", "render"), ("colours", "colour")):
        click(page, "[data-take=%s]" % what)
        page.until("taken.length")
        same = """async words => {
          const blob = taken.pop(), px = await studio.library(), due = px.run(studio.editor.text, words);
          const found = new Uint8Array(await blob.arrayBuffer());
          return found.length === due.length && found.every((byte, at) => byte === due[at]);
        }"""
        assert pages.called(page, same, words)


def test_radio_groups_and_lists_are_one_tab_stop_with_arrows(page: Browser) -> None:
    page.run("document.querySelector('[data-image=colours]').focus()")
    page.press("ArrowRight", 39)
    chosen = "[document.activeElement.dataset.image, document.activeElement.getAttribute('aria-checked')]"
    assert page.run(chosen) == ["depths", "true"]
    page.press("ArrowLeft", 37)
    page.press("ArrowLeft", 37)
    assert page.run("document.activeElement.dataset.image") == "faces"
    assert page.run("[...document.querySelectorAll('#image button')].filter(each => each.tabIndex === 0).length") == 1
    page.run("document.activeElement.blur()")
    page.press("2")
    page.until("document.body.dataset.shown")
    pages.point(page, "array", 24, 16)
    page.until("document.querySelectorAll('#lives button').length > 3")
    assert page.run("[...document.querySelectorAll('#lives button')].filter(each => each.tabIndex === 0).length") == 1


INSIDE = ("circuit", "way", "waveform", "life", "bits")


def shown(page: Browser, tab: str) -> None:
    """Shows a tab; of the machine a part of a pixel, with the triangle, if that is named; and an exercise with its answer."""
    page.run("document.activeElement.blur()")
    if tab == "exercise":
        return exercise(page, 8)
    page.press("2" if tab in INSIDE else tab)
    if tab not in (*INSIDE, "2"):
        return
    page.until("document.body.dataset.shown")
    pages.go(page, 3000)
    pages.point(page, "array", 24, 16)
    if tab in INSIDE:
        click(page, "[data-inside=%s]" % tab)
        page.until("document.body.dataset.inside === '24 16 3000' && document.body.dataset.life")
        click(page, "#triangle")
        page.until("document.body.dataset.triangle")


@pytest.mark.parametrize("tab", ["1", "2", "3", "4", *INSIDE, "exercise"])
def test_everything_that_takes_the_focus_has_a_name(page: Browser, tab: str) -> None:
    shown(page, tab)
    page.call("Accessibility.enable")
    nodes = page.call("Accessibility.getFullAXTree")["nodes"]
    seen = [node for node in nodes if not node.get("ignored")]
    roles = [(node["role"]["value"], node.get("name", {}).get("value", "").strip()) for node in seen]
    assert [role for role, name in roles if role in NAMED and not name] == []


class Quiet(http.server.SimpleHTTPRequestHandler):
    def log_message(self, *words: object) -> None:
        pass


@pytest.fixture
def host(tmp_path: Path) -> Iterator[str]:
    (tmp_path / "pxplanes.html").write_bytes(open(pages.PAGE, "rb").read())
    (tmp_path / "frame.html").write_text('<!DOCTYPE html><iframe src="pxplanes.html?embed#s=house&c=40000&v=enable" '
                                         'width="800" height="500"></iframe>')
    server = http.server.ThreadingHTTPServer(("127.0.0.1", 0), functools.partial(Quiet, directory=str(tmp_path)))
    threading.Thread(target=server.serve_forever, daemon=True).start()
    yield "http://127.0.0.1:%d/" % server.server_address[1]
    server.shutdown()


def test_the_page_in_a_frame_has_no_bars(page: Browser, host: str) -> None:
    page.open(host + "frame.html")
    inner = "document.querySelector('iframe').contentDocument"
    page.until(inner + "?.body?.dataset.shown === '40000'")
    assert page.run("[...%s.querySelectorAll('.bar, #texts')].some(each => each.checkVisibility())" % inner) is False
    assert page.run(inner + ".getElementById('view').value") == "enable"


def test_the_frame_is_copied_with_its_address(page: Browser) -> None:
    page.run("(globalThis.copied = null, Object.defineProperty(navigator, 'clipboard', {value: {writeText: async "
             "text => { copied = text; }}, configurable: true}), 0)")
    click(page, "[data-take=embed]")
    assert page.until("copied").startswith('<iframe src="file:///')
    assert "?embed#" in page.run("copied")


CLICKED = """pixels => {
  const array = document.getElementById("array"), {left, top} = array.getBoundingClientRect();
  const side = array.clientWidth / 16;
  const [x0, y0] = [left + array.clientLeft, top + array.clientTop];
  for (const [x, y] of pixels)
    array.dispatchEvent(new MouseEvent("click", {clientX: x0 + (x + .5) * side, clientY: y0 + (y + .5) * side}));
}"""


def test_a_prediction_marks_itself(page: Browser) -> None:
    """The first side of the triangle, 2x - y + 2 >= 0; two of the pixels are said wrongly."""
    page.open("about:blank")
    page.open("file://" + pages.PAGE + "#s=triangle&c=272&v=enable&t=machine")
    page.until("document.body.dataset.shown === '272'")
    click(page, "#predict")
    inside = {(x, y) for x in range(16) for y in range(16) if 2 * x - y + 2 >= 0}
    said = inside ^ {(0, 0), (0, 15)}
    pages.called(page, CLICKED, sorted(said))
    assert page.run("document.querySelectorAll('.predicted i').length") == len(said)
    click(page, "#predict-done")
    assert page.until("document.body.dataset.predicted") == "2"
    page.until("document.body.dataset.shown === '321'")
    assert "0, 0; 0, 15" in page.run("document.getElementById('predict-says').textContent")
    assert page.run("document.querySelectorAll('.wrong-pixel').length") == 2


def exercise(page: Browser, number: int) -> None:
    page.open("about:blank")
    page.open("file://" + pages.PAGE + "#e=%d" % number)
    page.until("document.body.dataset.drawn === 'yes' && document.body.dataset.shown")


def test_a_number_that_is_typed_is_marked(page: Browser) -> None:
    """Exercise 8: 24 operations, and 317 + 86 = 403 clocks (docs/LESSON_ANSWERS.md); the library counts them too."""
    exercise(page, 8)
    said = []
    for word in ("400", "403", ""):
        page.run("(() => { const field = document.querySelectorAll('#exercise-asks input')[1]; field.value = '%s'; "
                 "field.dispatchEvent(new Event('change')); })()" % word)
        said.append(page.run("document.querySelectorAll('#exercise-asks .marked')[1].textContent"))
    assert said == ["not so", "right", ""]
    text = pages.source(page).replace("front", "side 1 0 0\nfront")
    found = page.run("studio.library().then(px => px.check(%r))" % text)
    assert (found["operations"], found["clocks"]) == (24, 403)


def test_an_answer_goes_to_its_clocks(page: Browser) -> None:
    """Exercise 4 counts its clocks from 393 on, where the comparison begins; after clock 3 the carry of (0, 0) is 0."""
    exercise(page, 4)
    click(page, "#exercise-answer summary")
    assert page.run("document.querySelector('.to-clock').textContent") == "clock 3"
    click(page, ".to-clock")
    page.until("document.body.dataset.shown === '396'")
    assert "next its clock 3 " in pages.text_of(page, "#line")
    page.run("document.activeElement.blur()")
    page.press("s")
    page.until("document.body.dataset.shown === '397'")
    assert page.run("studio.library().then(px => px.state(studio.editor.text, 397).bit('carry', 0, 0))") == 0
    page.press("1")
    exercise(page, 10)
    click(page, "#exercise-answer summary")
    page.press("1")
    page.run("[...document.querySelectorAll('.to-clock')].pop().click()")
    page.until("document.querySelector('main').dataset.tab === 'machine' && document.body.dataset.shown === '7'")


WALKED = """() => {
  const seen = document.activeElement, {left, top, width, height} = seen.getBoundingClientRect();
  return [seen.id || seen.dataset.inside || seen.className || seen.tagName, width > 0 && height > 0, Math.round(left), Math.round(top),
    seen.matches(":focus-visible") && getComputedStyle(seen).outlineStyle !== "none"];
}"""


def test_the_tab_key_goes_through_the_machine_in_order_and_is_seen(page: Browser) -> None:
    """From the choice of a view over the triangle and its corners to the parts of a pixel and the transport; what
    has the focus is in the page, and has an outline. A group of radio buttons is one stop."""
    page.call("Emulation.setFocusEmulationEnabled", enabled=True)
    shown(page, "circuit")
    page.run("document.getElementById('view').focus()")
    walked = []
    for _ in range(40):
        page.press("Tab", 9)
        walked.append(pages.called(page, WALKED))
    names = [each[0] for each in walked]
    for one, other in (("beside", "edges"), ("edges", "triangle"), ("triangle", "triangle-scene"), ("triangle-scene", "array"), ("array", "corner"),
                       ("corner", "circuit"), ("circuit", "clock"), ("clock", "stop"), ("stop", "play")):
        assert names.index(one) < names.index(other), names
    assert names.count("corner") == 3
    assert not {"bits", "way", "waveform", "life"} & set(names)
    assert [each for each in walked[:names.index("play")] if not (each[1] and each[4])] == []


@pytest.mark.parametrize("dark", [False, True], ids=["light", "dark"])
def test_words_stand_out_from_their_ground(page: Browser, dark: bool) -> None:
    with open(os.path.join(os.path.dirname(__file__), "contrast.js"), encoding="utf-8") as file:
        found = file.read()
    page.size(1280, 720, dark)
    for tab in ("1", "2", "3", "4", "circuit", "way", "life", "exercise"):
        shown(page, tab)
        assert pages.called(page, found) == []
        if tab in INSIDE:
            click(page, "#triangle")
    # (and the check finds words that do not)
    page.run("document.getElementById('about').style.color = getComputedStyle(document.body).backgroundColor")
    assert any("Draws solids" in each for each in pages.called(page, found))


def test_small_pictures_are_of_their_own_clocks_and_hatched_until_made(page: Browser) -> None:
    """Each picture is of a clock in its own part of the stretch that the time line shows: key B as the library has it."""
    page.run("document.activeElement.blur()")
    page.press("2")
    page.until("document.querySelectorAll('.thumb').length")
    assert page.run("document.querySelectorAll('.thumb:not(.made)').length") > 0
    for first, last in ((0, 5396), (2678, 3257)):
        pages.go(page, 3000)
        for _ in range(10 if first else 0):
            page.press("c")
        page.until("document.querySelectorAll('.thumb').length && !document.querySelector('.thumb:not(.made)')")
        found = pages.called(page, pages.THUMBS, [[x, 16] for x in range(48)])
        wide = (last - first) / len(found)
        assert len(found) == 40
        assert all(first + at * wide - 1 <= clock <= first + (at + 1) * wide + 1 for at, (clock, _, _, _) in enumerate(found))
        due = pages.called(page, """clocks => studio.library().then(async px => {
          const {facesOf} = await studio.ask("draw", {}, studio.editor.text), red = Object.fromEntries(facesOf.map(face => [face[0], face[3][0]]));
          return clocks.map(clock => { const state = px.state(studio.editor.text, clock), bits = Math.floor(Math.log2(facesOf.length)) + 1;
            return Array.from({length: 48}, (_, x) => red[state.number(0, bits, x, 16)] ?? 0); }); })""", [each[0] for each in found])
        assert [[colour[0] for colour in each[3]] for each in found] == due


def test_at_most_eight_tabs_are_in_sight(page: Browser) -> None:
    for _ in range(9):
        page.run("document.body.dataset.drawn = 'waits'")
        page.run("document.querySelector('#scenes button').click()")
        page.until(pages.DRAWN)
        pages.pasted(page, pages.source(page) + "# another\n")
    tabs = "[...document.querySelectorAll('.text-tab')].map(each => each.textContent)"
    assert page.run(tabs) == ["* new %d" % number for number in range(2, 10)]
    options = "[...document.querySelectorAll('#texts option')].map(each => each.textContent)"
    assert page.run(options) == ["2 more", "first", "* new"]
    page.run("(() => { const more = document.querySelector('#texts select'); more.selectedIndex = 1; "
             "more.dispatchEvent(new Event('change')); })()")
    assert page.run("document.querySelector('.text-tab[aria-selected=true]').textContent") == "first"


ROWS = """clocks => {
  const line = document.getElementById("line-of-passes"), pen = line.getContext("2d"), [from, to] = studio.machine.course.view;
  const hex = ([red, green, blue]) => "#" + [red, green, blue].map(part => part.toString(16).padStart(2, "0")).join("");
  return clocks.map(clock => [0, 1, 2, 3, 4].map(row => hex(pen.getImageData(Math.floor((clock + .5 - from) / (to - from) * line.width),
    Math.floor(line.height * (row + .5) / 5), 1, 1).data)));
}"""


def test_the_time_line_has_rows_of_solids_literals_and_clocks(page: Browser) -> None:
    """The first scene draws pyramid * - shaft and then bar: three literals. A solid's bar has its colour, and of
    neighbours among the literals, and among the clocks, one is darker."""
    page.run("document.activeElement.blur()")
    page.press("2")
    page.until("document.body.dataset.shown")
    found = pages.asked(page, "program", {}, pages.source(page))
    starts = [next(row[3] for row in found["operations"] if row[0] == number) for number in range(len(found["passes"]))]
    # (words are at the left end of a bar)
    last = {each["literal"]: starts[number] + 10 for number, each in enumerate(found["passes"]) if each["literal"]}
    rows = pages.called(page, ROWS, [last[literal] for literal in (1, 2, 3)])
    assert [row[0] for row in rows] == ["#c8b4a0", "#000000", "#c83c28"]
    assert rows[0][1] == rows[2][1] != rows[1][1]
    pages.go(page, 3000)
    for _ in range(20):
        page.press("c")
    row = [each[4] for each in pages.called(page, ROWS, list(range(2996, 3004)))]
    assert row[::2] == [row[0]] * 4 and row[1::2] == [row[1]] * 4 and row[0] != row[1]


def test_the_time_line_shows_fewer_clocks_about_the_one_that_is_shown(page: Browser) -> None:
    """Ten steps, each to 0.8 of the clocks with clock 3000 in its place: from 3000 * (1 - 0.8^10) = 2677.9 to 3257.3 of 5396."""
    page.run("document.activeElement.blur()")
    page.press("2")
    page.until("document.body.dataset.shown")
    pages.go(page, 3000)
    for _ in range(10):
        page.press("c")
    left, top, wide = page.run("(() => { const r = document.getElementById('line-of-passes').getBoundingClientRect(); "
                               "return [r.left, r.top + r.height / 2, r.width] })()")
    page.point(left, top, click=True)
    page.until("document.body.dataset.shown === '2678'")
    page.point(left + wide - 1, top, click=True)
    assert abs(int(page.until("document.body.dataset.shown !== '2678' && document.body.dataset.shown")) - 3257) <= 1
    for _ in range(10):
        page.press("C")
    page.point(left, top, click=True)
    page.until("document.body.dataset.shown < 5")


def test_a_newer_browser_is_asked_for_only_after_some_seconds(page: Browser) -> None:
    heights = page.run("""(() => {
      const needs = document.getElementById('needs');
      needs.hidden = false;
      const [late] = needs.getAnimations();
      late.pause();
      const found = [0, 4900, 5100].map(time => { late.currentTime = time; return needs.getBoundingClientRect().height; });
      needs.hidden = true;
      return found;
    })()""")
    assert heights[:2] == [0, 0] and heights[2] > 20
