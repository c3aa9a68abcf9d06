"""Calls a word of the command in this process."""
import argparse
import contextlib
import importlib
import io
import os

from pxplanes.errors import Trouble

DATA = os.path.join(os.path.dirname(os.path.abspath(__file__)), "data")
TOP = os.path.dirname(os.path.dirname(os.path.dirname(os.path.abspath(__file__))))


class Parser(argparse.ArgumentParser):
    """A parser that raises what it finds wrong."""

    def error(self, message):
        raise Trouble(message)


def path(*parts):
    """The path of a file in data/."""
    return os.path.join(DATA, *parts)


def call(word, *words):
    """The status of a word, 2 for trouble, and the lines that it prints."""
    module, out = importlib.import_module("pxplanes.cli." + word), io.StringIO()
    parser = Parser()
    module.add_options(parser)
    try:
        with contextlib.redirect_stdout(out):
            status = module.run(parser.parse_args([str(each) for each in words]))
    except Trouble as trouble:
        return 2, [str(trouble)]
    except OSError as error:
        return 2, ["%s: %s" % (error.filename, error.strerror)]
    return status, out.getvalue().splitlines()
