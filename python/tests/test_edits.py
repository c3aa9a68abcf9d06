"""Wrong bodies, of crates/NAME/must-fail and crates/NAME/wrong: `rt` drops one in silence if the text that it
replaces is not in its file exactly once."""
import glob
import os

import pytest
from support import TOP

from pxplanes import ends

EDITS = sorted(glob.glob(os.path.join(TOP, "crates", "*", "must-fail", "*.edit")) + glob.glob(os.path.join(TOP, "crates", "*", "wrong", "*.edit")))
FITS = ends.script("dev/prove").fits


def test_each_fits():
    folder = lambda path: os.path.dirname(os.path.dirname(path))
    assert len(EDITS) > 100
    assert [os.path.relpath(path, TOP) for path in EDITS if not FITS(ends.content(path).decode("utf-8"), folder(path))] == []


@pytest.mark.parametrize("old, expected", (("b", True), ("a", False), ("c", False)))
def test_one_that_does_not_fit_is_found(old, expected, tmp_path):
    """Its text is there once, twice, or not at all."""
    (tmp_path / "lib.rt").write_text("a b a")
    assert FITS("file: lib.rt\nold: %s\nnew: d\n" % old, tmp_path) is expected
