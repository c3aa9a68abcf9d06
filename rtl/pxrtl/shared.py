"""What this command takes of the package pxplanes."""
import os
import sys

TOP = os.path.dirname(os.path.dirname(os.path.dirname(os.path.realpath(__file__))))
RTL = os.path.join(TOP, "rtl")
sys.path.insert(0, os.path.join(TOP, "python"))

from pxplanes import ends, program  # noqa: E402
from pxplanes.errors import Trouble as Bad  # noqa: E402
from pxplanes.cli import frame  # noqa: E402
from pxplanes.machine import listings, micros, sessions  # noqa: E402
from pxplanes.scene import scenes, texts  # noqa: E402

__all__ = ["Bad", "RTL", "TOP", "ends", "frame", "listings", "micros", "program", "scenes", "sessions", "texts"]
