"""What the commands tidy, tile, refine, shadow, list and play of the program answer: what the library's `run` writes.

Refusals are those of the commands. A budget of clocks is compared with what the library says of each picture that a
command draws."""
import contextlib
import operator
from typing import Any, Iterator, Optional

from .arrays import Buffer, put, shaped
from .calls import Text, asked, content
from .errors import Limit, Malformed, Refused
from .image import netpbm
from .machine import sessions
from .machine.states import State, clocks_of, state
from .pictures import Out, Picture, Window, check, counted, drawn, taken, within
from .running import Progress, run
from .scene import limits, scenes, texts

FACTORS, WIDEST = (2, 4), limits.MAX_WIDE_PICTURE_SIZE


def scene_of(text: Text) -> Any:
    """The scene of a text. Raises as `tidy` does."""
    try:
        asked("products", text, *Buffer("i", 0).given())
    except Limit as refusal:
        if refusal.kind != "products":
            raise
    return scenes.read(content(text))


def tidy(text: Text) -> str:
    """The canonical text of a scene (docs/SCENES.md, "Canonical text").

    Raises `Malformed` and `Limit` by a bad line alone: not if the whole needs too much memory, or has too many
    products.

    >>> scene = "pxscene 1 # a corner\\npicture 2  2\\ndepth 4\\nsolid a 1 2 3\\nback 0 0 9\\nshow a\\nend"
    >>> pxplanes.tidy(scene).splitlines()[:2]
    ['pxscene 1', 'picture 2 2']
    """
    return run(text, "tidy").decode("ascii")


def tile(text: Text, width: int, height: int, clocks: Optional[int] = None, progress: Optional[Progress] = None,
         threads: int = 1, out: Out = None) -> Picture:
    """The picture of the scene over so many columns and rows, each 1 to 4096, drawn in tiles of the scene's own size
    (docs/PICTURE.md, "Tiles"), by so many threads.

    Raises as `check` does of any tile, `Limit` of `tiles`, and, before anything is drawn, `OverBudget` if all tiles
    together take more than so many clocks. `progress` and `out` are as in `render`, with tiles as windows.

    >>> int(pxplanes.tile(text, 130, 70).depths[16, 24])
    320
    """
    width, height = operator.index(width), operator.index(height)
    if not (1 <= width <= WIDEST and 1 <= height <= WIDEST):
        raise ValueError("a wide picture has 1 to %d columns and rows, and not %d by %d" % (WIDEST, width, height))
    with contextlib.suppress(Refused):
        places = list(places_of(check(text), width, height))
        if clocks is not None:
            within(sum(asked("window", text, *place, None, 0, None, 0)[1].clocks for place in places), clocks)
        return drawn(text, places, (width, height), out, counted(threads), progress)
    # The command refuses by the first tile, or draws where the scene's own picture is refused, and the first tile is
    # smaller.
    maps = taken(out, width, height)
    put(maps, 0, 0, [numbers(each) for each in netpbm.images(run(text, "tile %d %d" % (width, height), progress))])
    return Picture(*maps, width, height)


def places_of(scene: Any, width: int, height: int) -> Iterator[Window]:
    """The windows (x, y, width, height) that tile a wide picture with a scene's own size."""
    count = -(-width // scene.width) * -(-height // scene.height)
    if count > limits.MAX_TILES:
        raise Limit(0, "tiles", count)
    for top in range(0, height, scene.height):
        for left in range(0, width, scene.width):
            yield left, top, min(scene.width, width - left), min(scene.height, height - top)


def refine(text: Text, factor: int, clocks: Optional[int] = None, progress: Optional[Progress] = None) -> Any:
    """The refined image of a scene, each pixel the mean of `factor` by `factor` finer ones, 2 or 4 (docs/PICTURE.md,
    "Refinement"): red, green and blue from 0 to 255, of shape (height, width, 3).

    Raises `Limit` if there is no finer scene, and as `colour` does of that, with the same `progress`.

    >>> pxplanes.refine(text, 2).shape
    (32, 48, 3)
    """
    if operator.index(factor) not in FACTORS:
        raise ValueError("a picture is refined by 2 or 4, and not by %d" % factor)
    with contextlib.suppress(Refused):
        if clocks is not None:
            within(check(texts.text_of(texts.finer(scene_of(text), operator.index(factor)))).clocks, clocks)
    image, = netpbm.images(run(text, "refine %d" % factor, progress))
    return shaped(memoryview(bytearray(image.samples)), "B", (image.height, image.width, 3))


def shadow(text: Text, clocks: Optional[int] = None, progress: Optional[Progress] = None) -> Any:
    """Which lights reach each pixel of a scene that has light lines after its `end` (docs/SCENES.md, "Shadows"):
    numbers of shape (height, width), whose bit l - 1 says whether light l does.

    Raises as the command refuses; `clocks` and `progress` are as in `colour`, and the budget counts the scene's own
    passes.

    >>> int(pxplanes.shadow(text + b"light bar\\n")[16, 24])
    0
    """
    scene, _ = sessions.parted(content(text))
    with contextlib.suppress(Refused):
        within(check(scene).clocks, clocks)
    return numbers(netpbm.images(run(text, "shadow", progress))[0])


def numbers(image: netpbm.Image) -> Any:
    """The numbers of an image with three bytes for each, the highest first."""
    flat = bytearray(4 * image.width * image.height)
    for place, byte in enumerate((2, 1, 0)):
        flat[byte::4] = bytes(image.samples[place::3])
    return shaped(memoryview(flat), "I", (image.height, image.width))


def listing(text: Text) -> str:
    """The listing of a scene's passes (docs/LISTINGS.md). Raises as `check` does.

    >>> pxplanes.listing(text).splitlines()[:3]
    ['pxlist 1', 'grid 6 5', 'all']
    """
    return run(text, "list").decode("ascii")


def play(text: Text) -> State:
    """The array that has played a listing; `memory()` of it is what the command writes. Raises `Malformed` and `Limit`
    as docs/LISTINGS.md says.

    >>> pxplanes.play(pxplanes.listing(text)) == pxplanes.state(text, 5396)
    True
    """
    need_listing(content(text))
    return state(text, clocks_of(text))


def need_listing(text: bytes) -> None:
    """Refuses a text that the library would take for a scene by its first word. One without words, or too long, is
    refused there."""
    if len(text) > limits.MAX_TEXT_BYTES:
        return
    for number, line in enumerate(text.split(b"\n"), 1):
        words = sessions.words_of(line.split(b"#")[0])
        if words:
            if words[0] != b"pxlist":
                raise Malformed(number, "not-header")
            return
