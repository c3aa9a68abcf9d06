"""The suite for renderers: `run` tries one on its scenes, `shrink` finds the smallest scene on which one differs,
`copy` copies the suite.

All three need NumPy, and OpenImageIO to read the golden maps (docs/COMPARE.md)."""
from typing import TYPE_CHECKING, Any

if TYPE_CHECKING:
    from .copying import copy
    from .running import Outcome, Settings, run
    from .shrinking import shrink

__all__ = ["Outcome", "Settings", "copy", "run", "shrink"]
PLACES = {"run": "running", "Outcome": "running", "Settings": "running", "shrink": "shrinking", "copy": "copying"}


def __getattr__(name: str) -> Any:
    """Loads a call when it is first asked for, so that `import pxplanes` needs no NumPy."""
    import importlib
    if name not in PLACES:
        raise AttributeError("there is no pxplanes.suite.%s" % name)
    return getattr(importlib.import_module("pxplanes.suite." + PLACES[name]), name)
