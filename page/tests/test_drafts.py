"""Whether nothing that was written is lost: with two tabs, with another program that writes the file, and after the
page is gone."""
from typing import Iterator

import pytest

import pages
from browser import Browser
from pages import choose, source, written

TABS = "[...document.querySelectorAll('.text-tab')].map(each => each.textContent)"
SAVED = """(globalThis.disk = %r, globalThis.showSaveFilePicker = async () => ({name: "first.scene",
  getFile: async () => new Blob([disk]),
  createWritable: async () => {
    let text = null;
    return {write: async given => { text = given; }, close: async () => { disk = text; }};
  }}), 0)"""


class Tab:
    """One of several tabs of a browser; what is done is done in the one that was used last."""

    def __init__(self, browser: Browser) -> None:
        self.browser, self.target = browser, None

    def __enter__(self) -> Browser:
        browser, browser.session = self.browser, None
        self.target = browser.call("Target.createTarget", url="about:blank")["targetId"]
        browser.session = browser.call("Target.attachToTarget", targetId=self.target, flatten=True)["sessionId"]
        browser.call("Page.enable")
        browser.call("Runtime.enable")
        return browser

    def __exit__(self, *error: object) -> None:
        self.browser.session = None
        self.browser.call("Target.closeTarget", targetId=self.target)


@pytest.fixture
def browser() -> Iterator[Browser]:
    with Browser() as own:
        yield own


def edit(page: Browser, words: str, others: str) -> str:
    choose(page, words)
    assert written(page, others) == "yes"
    page.run("new Promise(done => setTimeout(done, 500))")
    return source(page)


def test_two_tabs_keep_a_draft_each(browser: Browser) -> None:
    pages.alone(browser)
    one = edit(browser, "depth 9", "depth 10")
    first = browser.session
    with Tab(browser):
        pages.alone(browser)
        assert browser.run(TABS) == ["first"]
        other = edit(browser, "depth 9", "depth 11")
        # (a page without changes would once have taken the other's draft away)
        browser.press("z", 90, modifiers=2)
        edit(browser, "depth 9", "depth 11")
    browser.session = first
    pages.alone(browser)
    assert browser.until(TABS + ".length === 2 && " + TABS) == ["* first", "* first draft"]
    found = set()
    for at in range(2):
        browser.run("document.querySelectorAll('.text-tab')[%d].click()" % at)
        found.add(source(browser))
    assert found == {one, other}


def test_an_open_tabs_draft_is_its_own(browser: Browser) -> None:
    pages.alone(browser)
    one = edit(browser, "depth 9", "depth 10")
    first = browser.session
    with Tab(browser):
        pages.alone(browser)
        assert browser.run(TABS) == ["first"]
        browser.run("new Promise(done => setTimeout(done, 500))")
    browser.session = first
    pages.alone(browser)
    assert source(browser) == one


def test_a_file_that_another_program_wrote_is_not_overwritten(page: Browser, first: str) -> None:
    page.run(SAVED % first)
    choose(page, "- shaft)")
    written(page, "+ shaft)")
    page.press("s", modifiers=2)
    mine = source(page)
    page.until("disk === %r" % mine)
    page.run("disk += '# by another program\\n'")
    choose(page, "depth 9")
    written(page, "depth 10")
    page.press("s", modifiers=2)
    page.until("!document.getElementById('notice').hidden && document.getElementById('notice').className === 'bad'")
    assert page.run("disk").endswith("# by another program\n")
    assert page.run(TABS) == ["* first", "first on the disk"]
    assert source(page) == mine.replace("depth 9", "depth 10")
    # saving again writes this text, and not the other one
    page.press("s", modifiers=2)
    page.until("disk === %r" % mine.replace("depth 9", "depth 10"))
    page.until(TABS + "[0] === 'first'")
