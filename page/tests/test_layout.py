"""Whether nothing on the page overlaps, is cut or scrolls sideways: each tab, at each size, light and dark, with larger
letters too; of the machine each part of a pixel, and the triangle.

With PXPLANES_SHOTS=FOLDER a picture of each is written there, to be looked at."""
import os
from typing import Iterator

import pytest

import pages
from browser import Browser
from pages import called, link, point

SIZES = ((1280, 720), (1366, 768), (1920, 1080), (1024, 768), (768, 1024), (640, 360), (390, 844))
PARTS = ("circuit", "way", "waveform", "life", "triangle")
TABS = ("write", "machine", *PARTS, "compare", "lesson", "exercise", "story")
HOUSE = os.path.join(os.path.dirname(pages.FIRST), "..", "..", "gallery", "house.scene")
with open(os.path.join(os.path.dirname(__file__), "layout.js"), encoding="utf-8") as file:
    FOUND = file.read()


def shown(page: Browser, tab: str) -> None:
    """Shows a tab as it is used: the machine with a pixel that is kept, and an exercise with its answer unfolded."""
    if tab == "exercise":
        page.press("4")
        page.run("document.querySelectorAll('.exercise')[5].click()")
        page.until("document.querySelector('main').dataset.tab === 'machine' && document.body.dataset.inside")
        page.run("document.getElementById('exercise-answer').open = true")
        return
    if tab == "story":
        page.run("document.getElementById('exercise-close').click()")
        page.run("location.hash = '#story-5'")
        page.until("document.body.dataset.story === '5' && document.body.dataset.inside === '24 16 2283'")
        return
    if tab in PARTS:
        page.run("document.querySelector('[data-inside=%s], #%s').click()" % (tab, tab))
        page.run("document.querySelector('%s').scrollIntoView({block: 'nearest'})" % ("#array" if tab == "triangle" else ".inside"))
        page.until("document.body.dataset.triangle" if tab == "triangle" else "document.querySelector('.inside').checkVisibility()")
        return
    page.press(str(1 + [each for each in TABS if each not in PARTS].index(tab)))
    if tab == "machine":
        page.until("document.body.dataset.shown === '40000' && document.querySelector('.thumb') && !document.querySelector('.thumb:not(.made)')")
    if tab == "write":
        page.run("document.getElementById('picture').scrollIntoView({block: 'nearest'})")
        point(page, "picture", 60, 60)
        page.until("document.querySelectorAll('.ray-row').length")


def enlarge(page: Browser, button: str, steps: int) -> None:
    for _ in range(steps):
        page.run("document.getElementById(%r).click()" % button)


@pytest.fixture(scope="module")
def browser() -> Iterator[Browser]:
    with Browser() as own:
        own.call("Emulation.setFocusEmulationEnabled", enabled=True)
        yield own


@pytest.mark.parametrize("letters", [0, 3])
@pytest.mark.parametrize("dark", [False, True], ids=["light", "dark"])
@pytest.mark.parametrize("width, height", SIZES)
def test_nothing_overlaps_or_is_cut(browser: Browser, width: int, height: int, dark: bool, letters: int) -> None:
    browser.size(width, height, dark)
    pages.alone(browser, fragment=link(HOUSE, "machine", clock=40000, view="best colours", pixel=[48, 74]))
    browser.run("document.activeElement.blur()")
    enlarge(browser, "larger", letters)
    findings = []
    for tab in TABS:
        shown(browser, tab)
        browser.run("new Promise(done => setTimeout(done, 150))")
        findings += ["%s: %s" % (tab, each) for each in called(browser, FOUND)]
        if "PXPLANES_SHOTS" in os.environ:
            name = "%dx%d%s%s-%s.png" % (width, height, "-dark" if dark else "", "-large" if letters else "", tab)
            browser.screenshot(os.path.join(os.environ["PXPLANES_SHOTS"], name))
    browser.press("Escape")
    enlarge(browser, "smaller", letters)
    assert not findings, "\n".join(["", *findings])


def test_the_wall_becomes_narrow_with_the_window(browser: Browser) -> None:
    browser.size(900, 600)
    pages.alone(browser, fragment=link(HOUSE, "machine", clock=40000))
    browser.until("document.body.dataset.shown === '40000' && document.querySelector('.sheet').offsetWidth")
    browser.size(640, 600)
    browser.until("(({clientWidth, scrollWidth}) => clientWidth < 640 && clientWidth === scrollWidth)(document.getElementById('planes'))", 10)


def test_all_planes_are_in_sight(browser: Browser) -> None:
    """The letters use 64 bits of the memory: with the registers and the numbers of both keys they have 74 images."""
    browser.size(1280, 720)
    pages.alone(browser, fragment="#s=letters&t=machine&c=20000&v=enable&p=60,180")
    browser.until("document.querySelectorAll('.tile').length === 74 && document.body.dataset.shown === '20000'")
    hidden = "[...document.querySelectorAll('.tile')].filter(each => each.getBoundingClientRect().bottom > document.getElementById('planes').getBoundingClientRect().bottom).length"
    browser.until("%s === 0" % hidden, 5)


@pytest.mark.parametrize("width, height", [(1280, 720), (1366, 768)])
def test_the_bits_of_a_kept_pixel_are_in_sight(browser: Browser, width: int, height: int) -> None:
    """All 64 that the letters use, in three rows below the registers and the keys; and the words of quick play lie where they lie, with nothing of
    the names of the parts below them."""
    browser.size(width, height)
    pages.alone(browser, fragment="#s=letters&t=machine&c=20000&v=enable&p=60,180")
    browser.until("document.body.dataset.inside === '60 180 20000'")
    boxes = "[...document.querySelectorAll('.register, .key, .memory td')].map(each => each.getBoundingClientRect())"
    assert browser.run("%s.length" % boxes) == 4 + 2 + 64
    browser.until("(pane => %s.every(({top, bottom}) => top >= pane.top && bottom <= pane.bottom))(document.querySelector('.inside').getBoundingClientRect())" % boxes, 5)
    assert browser.run("document.querySelector('.pixel-bits .quick-words').getBoundingClientRect().top >= document.querySelector('.pixel-head').getBoundingClientRect().bottom")
