"""Files of the tests: the lines of *.txt, each an edit of a file of rtl/ by sed, and the files in right/."""
import os
import pathlib
import re
import subprocess
import sys
from typing import NamedTuple

import pytest

TESTS = pathlib.Path(__file__).resolve().parent
RTL = TESTS.parent
sys.dont_write_bytecode = True
sys.path.insert(0, str(RTL))
PROCESSOR_SECONDS = 240


class Edited(NamedTuple):
    """A file that is one of ours with an edit: its name, the module that it has, and the edit."""

    name: str
    module: str
    edit: str

    def written(self, folder: pathlib.Path) -> pathlib.Path:
        """The edited file. An edit that changes nothing is a failure."""
        own = RTL / (self.module + ".v")
        path = folder / (self.name + ".v")
        path.write_bytes(subprocess.run(["sed", self.edit, own], capture_output=True, check=True).stdout)
        assert path.read_bytes() != own.read_bytes(), "%s is as it was" % self.name
        return path

    @property
    def option(self) -> str:
        return "--" + os.path.basename(self.module)


def edited(leaf: str) -> list[Edited]:
    """The edits of a file of lines, by their names."""
    return [Edited(*line.split(" ", 2)) for line in (TESTS / leaf).read_text().splitlines() if line and line[0] != "#"]


def run(*words: object, folder: pathlib.Path) -> tuple[int, str]:
    """The status and the output of `rtl/rtl`, which may take so many seconds of a processor."""
    limited = ["/bin/sh", "-c", 'ulimit -t %d; exec "$@"' % PROCESSOR_SECONDS, "sh", str(RTL / "rtl")]
    done = subprocess.run(limited + [str(word) for word in words], cwd=folder, stdout=subprocess.PIPE,
                          stderr=subprocess.STDOUT, text=True)
    return done.returncode, done.stdout


def option_of(path: pathlib.Path) -> str:
    """The option for a whole file: by the last of our modules that it defines."""
    found = re.findall(r"^module (pixel|node|tree|column|array|sequencer|word)\b", path.read_text(), re.M)
    return "--" + found[-1]


def pytest_addoption(parser: pytest.Parser) -> None:
    parser.addoption("--all-files", action="store_true",
                     help="prove every file of wrong.txt, fooling.txt, right.txt and right/")
