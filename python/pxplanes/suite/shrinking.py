"""Finds the smallest scene on which a renderer still differs: smaller windows, then solids, planes, rows, bits and
numbers."""
import itertools
import pickle
import time
from typing import Any, Callable, Iterator, Optional

from pxplanes import program
from pxplanes.errors import Trouble
from pxplanes.scene import rays, texts
from pxplanes.suite import golden, running
from pxplanes.suite.running import DIFFERS, Row, Settings

WINDOWS = (1, 2, 4, 8, 16, 32, 64, 128, 256)
KINDS = ("sides", "fronts", "backs")


def plain(scene: Any) -> str:
    """The text of a scene, each face in the colour of its solid, which takes no words."""
    return "\n".join(" ".join(words[:4]) if words[:1] in (["front"], ["back"]) else " ".join(words)
                     for words in (line.split() for line in texts.text_of(scene).split("\n")))


def without_unused(scene: Any) -> Any:
    """The scene with the solids of its expression alone."""
    used = sorted({at for at in scene.show if isinstance(at, int)})
    scene.solids = [scene.solids[at] for at in used]
    scene.show = [used.index(at) if isinstance(at, int) else at for at in scene.show]
    return scene


def parts(show: list[Any]) -> list[list[Any]]:
    """The expressions that have one node less: a side in place of both."""
    def join(sign: str, left: Any, right: Any) -> Any:
        smaller = [left[0], right[0]] + [each + right[0] + [sign] for each in left[1]] + [left[0] + each + [sign] for each in right[1]]
        return left[0] + right[0] + [sign], smaller

    found: list[list[Any]] = rays.folded(show, lambda at: ([at], []), join)[1]
    return found


def copies(scene: Any) -> Iterator[Any]:
    """Copies of a scene without end."""
    return map(pickle.loads, itertools.repeat(pickle.dumps(scene)))


def fewer_solids(scene: Any) -> Iterator[Any]:
    for other, show in zip(copies(scene), sorted(parts(scene.show), key=len)):
        other.show = show
        yield without_unused(other)


def places(scene: Any) -> list[tuple[int, str, int]]:
    """The solid, the kind and the number of each plane."""
    return [(at, kind, which) for at, solid in enumerate(scene.solids) for kind in KINDS for which in range(len(getattr(solid, kind)))]


def fewer_planes(scene: Any) -> Iterator[Any]:
    for other, (at, kind, which) in zip(copies(scene), places(scene)):
        del getattr(other.solids[at], kind)[which]
        yield other


def windows(scene: Any, x: int, y: int) -> Iterator[Any]:
    """Smaller pictures round a pixel that differs, the smallest first."""
    for size in WINDOWS:
        wide, high = min(size, scene.width), min(size, scene.height)
        if (wide, high) != (scene.width, scene.height):
            for left, top in dict.fromkeys(((x - wide // 2, y - high // 2), (x - wide + 1, y - high + 1), (x, y))):
                x, y = max(0, min(left, scene.width - wide)), max(0, min(top, scene.height - high))
                yield texts.tile(scene, x, y, wide, high)


def fewer_rows(scene: Any) -> Iterator[Any]:
    for wide, high in ((1, 0), (0, 1)):
        if (scene.width, scene.height)[high] > 1:
            size = scene.width - wide, scene.height - high
            yield texts.tile(scene, wide, high, *size)
            yield texts.tile(scene, 0, 0, *size)


def fewer_bits(scene: Any) -> Iterator[Any]:
    for other, bits in zip(copies(scene), range(scene.fraction_bits)):
        shift, other.fraction_bits = scene.fraction_bits - bits, bits
        for face in (face for solid in other.solids for face in solid.fronts + solid.backs):
            face.plane = tuple((part + (1 << shift - 1)) >> shift for part in face.plane)
        yield other
    for other, bits in zip(copies(scene), (bits for bits in (1, 2, 3, 4, 6, 8, 12, 16, 20) if bits < scene.depth_bits)):
        other.depth_bits = bits
        yield other


def smaller_numbers(scene: Any) -> Iterator[Any]:
    others = copies(scene)
    for at, kind, which in places(scene):
        plane = getattr(scene.solids[at], kind)[which].plane
        for part, number in enumerate(plane):
            for less in dict.fromkeys((0, number // abs(number or 1), int(number / 16), int(number / 2))):
                if abs(less) < abs(number):
                    other = next(others)
                    getattr(other.solids[at], kind)[which].plane = (*plane[:part], less, *plane[part + 1:])
                    yield other


# Each step with what it is called; windows come first, since all others draw the whole picture each time.
STEPS: tuple[tuple[str, Callable[[Any, Row], Iterator[Any]]], ...] = (
    ("windows", lambda scene, row: windows(scene, *(row.found.at[0] if row.found is not None else (0, 0)))),
    ("solids", lambda scene, row: fewer_solids(scene)), ("planes", lambda scene, row: fewer_planes(scene)),
    ("rows", lambda scene, row: fewer_rows(scene)), ("bits", lambda scene, row: fewer_bits(scene)),
    ("numbers", lambda scene, row: smaller_numbers(scene)))


class Shrinker:
    """Tries scenes with a renderer, and keeps the smallest that still differs as the first one did."""

    def __init__(self, renderer: str, settings: Settings, seconds: float, say: Callable[[str], None]):
        self.renderer, self.settings, self.say = renderer, settings, say
        self.program, self.end = program.find(None), time.monotonic() + seconds
        self.tried, self.has_map = 0, True
        self.lost: set[str] = set()      # the texts that do not differ so

    def row(self, text: str) -> Row:
        """What comes of a scene."""
        row = running.tried(self.renderer, golden.case("scene", "small", text.encode()), self.settings, self.program)
        running.judge([row], self.settings)
        self.tried += 1
        return row

    def still(self, text: str) -> Optional[Row]:
        """What comes of a scene; None if it is none, or does not differ as the first one did."""
        if text in self.lost:
            return None
        row: Optional[Row] = None
        try:
            row = self.row(text)
        except Trouble:
            pass
        if row and row.status == DIFFERS and (row.found is not None) == self.has_map:
            return row
        self.lost.add(text)
        return None

    def step(self, scene: Any, row: Row, way: Callable[[Any, Row], Iterator[Any]]) -> tuple[Any, Row]:
        """The scene after all that one way can drop. After each drop it goes on where it is: what comes before was tried."""
        others, at, failed = list(way(scene, row)), 0, 0
        while failed < len(others) and time.monotonic() <= self.end:
            text = plain(others[at % len(others)])
            less = self.still(text)
            if less:
                scene, row, failed = golden.case("scene", "small", text.encode()).named, less, 0
                others = list(way(scene, row))
            else:
                at, failed = at + 1, failed + 1
        return scene, row

    def shrunk(self, scene: Any, row: Row) -> tuple[Any, Row]:
        before = None
        while before != plain(scene):
            before = plain(scene)
            for name, way in STEPS:
                smaller, row = self.step(scene, row, way)
                if smaller is not scene:
                    scene = smaller
                    self.say("after %s: %s" % (name, size_of(scene)))
        return scene, row


def size_of(scene: Any) -> str:
    def counted(count: int, word: str) -> str:
        return "%d %s%s" % (count, word, "s"[count == 1:])
    planes = sum(len(getattr(solid, kind)) for solid in scene.solids for kind in KINDS)
    return "%s, %s, %d by %d pixels" % (counted(len(scene.solids), "solid"), counted(planes, "plane"), scene.width, scene.height)


def shrink(text: bytes, renderer: str, settings: Settings = Settings(), seconds: float = 60.0,
           say: Callable[[str], None] = lambda line: None) -> Optional[tuple[str, str]]:
    """The text of the smallest scene found on which a renderer still differs, and a line on what differs; None if
    nothing does.

    `say` gets a line after each step. Raises `Trouble` if the text is no scene, and NotStarted if the renderer cannot
    be started."""
    if "{scene}" not in renderer or "{out}" not in renderer:
        raise Trouble("the renderer is one command line with {scene} and {out}, as './mine {scene} {out}'")
    scene = without_unused(golden.case("scene", "small", text).named)
    shrinker = Shrinker(renderer, settings, seconds, say)
    row = shrinker.row(texts.text_of(scene))
    if row.status != DIFFERS:
        return None
    shrinker.has_map = row.found is not None
    scene, row = shrinker.shrunk(scene, row)
    return plain(scene), "%s, after %d pictures; %s" % (size_of(scene), shrinker.tried, row.first)
