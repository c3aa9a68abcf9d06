"""Runs the built program for the tools. It is no tool itself."""
import os
import re
import subprocess
from collections.abc import Sequence

from pxplanes.ends import TOP
from pxplanes.errors import Trouble
from pxplanes.finding import is_newer as is_newer

DEFAULT = os.path.join(TOP, "crates", "px_program", "out", "px_program")
# The same for processors of x86-64-v3.
NEWER_END = "-x86-64-v3"
NEWER = DEFAULT + NEWER_END
# Clocks times pixels of the array a second: the slowest scene of the gallery had 2.1 * 10^9, on a machine with ten times more to do.
SLOW = 2 * 10 ** 9


def newer_of(path: str) -> str | None:
    """The build for newer processors next to a program; None where there is none, or an older one."""
    newer = path + NEWER_END
    return newer if os.access(newer, os.X_OK) and os.path.getmtime(path) <= os.path.getmtime(newer) else None


def built() -> str:
    """The program that was built for this processor."""
    return os.path.isfile(DEFAULT) and is_newer() and newer_of(DEFAULT) or DEFAULT


def place_of(path: str | None) -> str:
    """Where the program is: as said, or as the environment's PXPLANES_PROGRAM says, or as built."""
    return os.path.abspath(path or os.environ.get("PXPLANES_PROGRAM") or built())


def find(path: str | None) -> str | None:
    """A program to run; None where there is none."""
    place = place_of(path)
    return place if os.path.isfile(place) and os.access(place, os.X_OK) else None


def needed(path: str | None) -> str:
    program = find(path)
    if program is None:
        raise Trouble("no program at %s; ./pxplanes builds it" % place_of(path))
    return program


def answer(program: str, words: Sequence[str | bytes], text: bytes, seconds: float | None = None) -> tuple[int, bytes, str]:
    """The status, the output and the note, a line without its end, of one run; it may be cut short
    after so many seconds, with `subprocess.TimeoutExpired`."""
    done = subprocess.run([program, *words], input=text, capture_output=True, timeout=seconds)
    return done.returncode, done.stdout, done.stderr.decode("latin-1").strip("\n")


def output(program: str, word: str, text: bytes) -> bytes:
    """What a word writes; `Trouble` with the program's note if the text is refused."""
    status, found, note = answer(program, [word], text)
    if status != 0:
        raise Trouble(note or "the program ends with status %d" % status)
    return found


def cost(program: str, text: bytes) -> tuple[int, int]:
    """How many operations and clocks a scene takes; `Bad` with the program's note, refused."""
    status, output, note = answer(program, ["cost"], text)
    counts = re.match(rb"macros (\d+)\nclocks (\d+)\n\Z", output)
    if status != 0 or counts is None:
        raise Trouble(note or "the program gives no clocks, and status %d" % status)
    return int(counts.group(1)), int(counts.group(2))


def is_quick(clocks: int, width: int, height: int, seconds: float) -> bool:
    """Whether a picture takes less than so many seconds on a slow machine."""
    wide, high = grid(width, height)
    return clocks * wide * high < seconds * SLOW


def grid(width: int, height: int) -> tuple[int, int]:
    """The pixels of the array that draws a picture of this size: powers of two, at least 2."""
    wide, high = (max(2, 1 << (side - 1).bit_length()) for side in (width, height))
    return wide, high
