"""Where the library is."""
import ctypes
import ctypes.util
import os
from typing import Iterator

from .errors import NoLibrary

LEAF = "libpxplanes.so"
VARIABLE = "PXPLANES_LIBRARY"
HERE = os.path.dirname(os.path.realpath(__file__))
# Where the system's loader looks for what is built for processors of x86-64-v3, and what these have beyond x86-64-v2.
NEWER = os.path.join("glibc-hwcaps", "x86-64-v3")
NEWER_FLAGS = {"avx", "avx2", "bmi1", "bmi2", "f16c", "fma", "abm", "movbe", "xsave"}


def is_newer() -> bool:
    """Whether the processor has all that x86-64-v3 names."""
    try:
        with open("/proc/cpuinfo", encoding="ascii", errors="replace") as file:
            flags = next((line for line in file if line.startswith("flags")), "")
    except OSError:
        return False
    return NEWER_FLAGS <= set(flags.split())


def for_processor(place: str) -> str:
    """A library, or the one next to it that is built for this processor."""
    newer = os.path.join(os.path.dirname(place), NEWER, os.path.basename(place))
    return newer if os.path.exists(newer) and is_newer() else place


def places() -> Iterator[str]:
    """Where the library may be: as the environment says, next to this module, in the checkout, where
    tools/install puts it, in the system."""
    if os.environ.get(VARIABLE):
        yield os.environ[VARIABLE]
        return
    yield for_processor(os.path.join(HERE, LEAF))
    top = os.path.dirname(os.path.dirname(HERE))
    yield for_processor(os.path.join(top, "package", "lib", LEAF))
    yield for_processor(os.path.join(os.path.dirname(top), LEAF))
    found = ctypes.util.find_library("pxplanes")
    if found:
        yield found


def loaded() -> ctypes.CDLL:
    """The library; `NoLibrary` where there is none."""
    for place in places():
        if os.sep not in place or os.path.exists(place):
            try:
                return ctypes.CDLL(place)
            except OSError as error:
                raise NoLibrary("%s cannot be loaded: %s" % (place, error)) from None
    raise NoLibrary("no %s at %s; ./pxplanes --library makes it, and %s names another"
                    % (LEAF, os.environ.get(VARIABLE) or "package/lib", VARIABLE))
