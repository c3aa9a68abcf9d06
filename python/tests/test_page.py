"""The library in the committed page is what the crates make; page/tests/test_source.py looks at the rest of the page."""
import os
import tempfile

import pytest
from support import skip_without

import building
import gate
import web
import web_page
from pxplanes import ends

STALE = "`tools/package --web --page` makes the page again"
NEEDS = ["page", "esbuild"]


@pytest.fixture
def text():
    skip_without(NEEDS)
    return ends.content(web_page.PAGE).decode("utf-8")


@pytest.mark.after_build
def test_library_is_made_of_the_crates(text):
    held, crates = web_page.library_in(text)
    if not building.is_kept():
        if crates != gate.sum_crates():
            pytest.skip("the page was made of other crates, and no module of these is kept")
        return
    skip_without(["wasm2wat", "wasm-opt"])
    with tempfile.TemporaryDirectory(prefix="px-web-") as folder:
        path = os.path.join(folder, "pxplanes.wasm")
        web.compiled(building.KEPT, path, folder)
        assert ends.content(path) == held, STALE
