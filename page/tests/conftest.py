"""What the tests of the page share: a browser, and the page in it with the first scene of the documents."""
import os
import sys
from typing import Iterator

import pytest

TOP = os.path.dirname(os.path.dirname(os.path.dirname(os.path.realpath(__file__))))
sys.path[:0] = [os.path.join(TOP, "tools", "lib"), os.path.join(TOP, "python")]
import pages
from browser import Browser
from pxplanes.errors import Trouble
from webdriver import Firefox, WebKit

FIRST = os.path.join(TOP, "docs", "scenes", "first.scene")
BROWSERS = {"chromium": Browser, "firefox": Firefox, "webkit": WebKit}


def pytest_addoption(parser: pytest.Parser) -> None:
    parser.addoption("--browser", choices=list(BROWSERS), default="chromium", help="in which the tests run that need no protocol of Chromium's own")


def pytest_configure(config: pytest.Config) -> None:
    config.addinivalue_line("markers", "everywhere: it runs in each of the browsers")


def pytest_generate_tests(metafunc: pytest.Metafunc) -> None:
    if "opened" in metafunc.fixturenames:
        is_everywhere = metafunc.definition.get_closest_marker("everywhere") is not None
        names = list(BROWSERS) if is_everywhere else [metafunc.config.getoption("--browser")]
        metafunc.parametrize("opened", names, indirect=True, scope="session")


@pytest.fixture(scope="session")
def opened(request: pytest.FixtureRequest) -> Iterator[pages.AnyBrowser]:
    try:
        browser = BROWSERS[request.param]()
    except Trouble as trouble:
        pytest.skip("%s; tools/dev/peers installs it" % trouble)
    with browser:
        yield browser


@pytest.fixture
def page(opened: Browser) -> Iterator[Browser]:
    """The page as a file, with no drafts, at 1280 by 720, and at the end no faults in it."""
    opened.size(1280, 720)
    pages.alone(opened)
    opened.run("(Storage.prototype.setItem = () => {}, localStorage.clear(), sessionStorage.clear())")
    opened.forget()
    pages.alone(opened)
    yield opened
    assert opened.faults() == []


@pytest.fixture(scope="session")
def first() -> str:
    with open(FIRST, encoding="utf-8") as file:
        return file.read()
