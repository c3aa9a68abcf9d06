"""What tools/check passed last, so that the very same is not checked twice. It is no tool itself."""
import hashlib
import importlib.metadata
import os
import sys

import building
from pxplanes import ends
import gate
import installing
from pxplanes.errors import Trouble

# What is installed here, by Debian.
INSTALLED = "/var/lib/dpkg/status"
# The settings that a check may hear of.
OWN = ("PXPLANES_", "PATH", "PYTHON")


def all_built():
    """All that was built here and may be checked."""
    return (*dict(gate.built(os.path.join(ends.TOP, gate.ARCHIVE), building.KEPT)).values(), gate.PASSED)


def key(tried, built):
    """One checksum of all that checks of a program stand on: the files that git tracks, what was built that they need, what is
    installed, Python with what it has, and the settings. None where a file differs from the last commit, or where what is installed
    is not known."""
    try:
        tree = installing.git("rev-parse", "HEAD^{tree}")
        if installing.git("status", "--porcelain") or not os.path.isfile(INSTALLED):
            return None
    except Trouble:
        return None
    files = {path: hashlib.sha256(ends.content(path)).hexdigest() for path in (INSTALLED, tried, *built) if os.path.isfile(path)}
    modules = sorted((each.name or "", each.version) for each in importlib.metadata.distributions())
    settings = sorted(pair for pair in os.environ.items() if pair[0].startswith(OWN))
    return hashlib.sha256(repr((tried, tree, files, sys.version, modules, settings)).encode()).hexdigest()


def mark_of(part):
    """The file that has the key of what passed last of a part, next to what was built."""
    return os.path.join(building.STORE, "checked-" + part)


def has_passed(part, found):
    """Whether what has this key passed last of a part."""
    return found is not None and os.path.isfile(mark_of(part)) and ends.content(mark_of(part)).decode("ascii") == found


def note(part, found):
    """Notes that what has this key passed of a part."""
    ends.replaced(installing.made(mark_of(part)), found.encode())
