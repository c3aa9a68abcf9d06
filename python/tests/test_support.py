"""What the tests share."""
import os

import pytest
import support


def test_a_case_cannot_write_into_the_repository(tmp_path):
    if not support.unwritable():
        pytest.skip("only root can take away what may be written")
    support.prepare(tmp_path)
    done = support.answer("cd missing; touch tools/written; touch own && echo written", tmp_path, "")
    assert (done.stdout, done.returncode) == (b"written\n", 0) and not os.path.exists(os.path.join(support.TOP, "tools", "written"))
