"""The manual pages that are made of the parsers: groff and mandoc find nothing wrong, and each option is there."""
import subprocess

import pytest
from support import skip_without

import installing
import manuals
from pxplanes import version_number
from pxplanes.cli import frame


@pytest.mark.parametrize("word", frame.WORDS)
def test_page_of_a_word(word):
    skip_without(["groff", "mandoc"])
    page = manuals.page(word, "1.0.0")
    drawn = subprocess.run(["groff", "-man", "-ww", "-Tascii", "-P-cbou"], input=page, capture_output=True, text=True)
    linted = subprocess.run(["mandoc", "-Tlint", "-Wwarning"], input=page, capture_output=True, text=True)
    assert (drawn.stderr, linted.stdout, linted.stderr) == ("", "", "")
    for action in frame.parser_of(word)._actions:
        for option in action.option_strings:
            assert option in drawn.stdout


def test_mandoc_would_find_a_mistake():
    skip_without(["mandoc"])
    assert subprocess.run(["mandoc", "-Tlint", "-Wwarning"], input=".TH X 1\n", capture_output=True, text=True).stdout


def test_one_version():
    assert version_number.VERSION == installing.version()
