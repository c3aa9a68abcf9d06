"""The libraries that work on pixels. If one is missing, a line names its package."""
import importlib
from typing import Any

from pxplanes.errors import Trouble

PACKAGES = {"numpy": "python3-numpy, or `pip install numpy`", "OpenImageIO": "python3-openimageio, or `pip install OpenImageIO`"}


def needed(module: str) -> Any:
    """A module of PACKAGES. Raises `Trouble` if it is not installed."""
    try:
        return importlib.import_module(module)
    except ImportError:
        raise Trouble("%s is not installed: install Debian's %s" % (module, PACKAGES[module])) from None
