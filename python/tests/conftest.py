"""Options and fixtures of the tests: `pytest python/tests --program PROGRAM` tries another program than the one that is built."""
import importlib.util
import os
import subprocess
import tempfile
from pathlib import Path

import pytest
import support
from pxplanes import program as programs

# Without NumPy the tests of pixels are left out, and the summary says so.
collect_ignore = [] if importlib.util.find_spec("numpy") else [
    path.name for path in Path(__file__).parent.glob("test_*.py") if "\nimport numpy" in path.read_text() or "mistakes" in path.name]


def pytest_terminal_summary(terminalreporter):
    if collect_ignore:
        terminalreporter.write_line("SKIPPED %s: %s" % (", ".join(sorted(collect_ignore)), support.why_skipped("numpy")))


def pytest_addoption(parser):
    parser.addoption("--program", help="the program that is tried (the one that is built)")


def pytest_configure(config):
    config.addinivalue_line("markers", "after_build: it needs what tools/dev/build makes")


# The tests that take long: each is a whole run of a tool, or of several.
SLOW = ("test_case", "test_runs", "test_golden_maps_of_the_suite", "test_only_the_very_same_is_kept", "test_each_number_of_solids")


@pytest.hookimpl(trylast=True)
def pytest_collection_modifyitems(items):
    """Spreads what is slow over the processes, so that each begins with its share. xdist gives each process a piece
    of the list first, of this size, and the rest bit by bit."""
    count = int(os.environ.get("PYTEST_XDIST_WORKER_COUNT", "1"))
    slow, quick = ([item for item in items if (item.originalname in SLOW) == is_slow] for is_slow in (True, False))
    piece, ordered = max(len(items) // count // 4, 2), []
    for number in range(count):
        own = slow[number::count]
        room = max(piece - len(own), 0)
        ordered += own + quick[:room]
        del quick[:room]
    items[:] = ordered + quick


@pytest.fixture(scope="session")
def built(pytestconfig):
    """The program that is tried."""
    return programs.needed(pytestconfig.getoption("--program"))


@pytest.fixture(scope="session", autouse=True)
def library():
    """Makes the library for C of the crate that is built, if none is named, and names it to the tests."""
    if support.SHARED in os.environ or not os.path.isfile(support.ARCHIVE):
        yield
        return
    with tempfile.TemporaryDirectory(prefix="px-library-") as folder:
        subprocess.run([os.path.join(support.TOP, "tools", "package"), "--out", folder], check=True, capture_output=True)
        os.environ[support.SHARED] = os.path.join(folder, "lib", "libpxplanes.so")
        yield
        del os.environ[support.SHARED]
