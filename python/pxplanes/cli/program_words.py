"""The words that the program has itself: their numbers, what they read and write, and their help."""
import argparse
from typing import NamedTuple

from pxplanes.scene import limits

SCENE = "a scene"
OF_SCENES = "a picture of %d by %d pixels, %d solids, %d faces, %d products and 72 memory bits a pixel" % (
    limits.MAX_PICTURE_SIZE, limits.MAX_PICTURE_SIZE, limits.MAX_SOLIDS, limits.MAX_FACES, limits.MAX_PRODUCTS)
STATUS = """Status: 0 done, 2 wrong words, 3 malformed, 4 past a limit, 5 read fault, 6 write fault, 7 out of memory. Of a refused text
standard error has one line; `pxplanes explain` says more. docs/SCENES.md has every cause and limit."""


class Number(NamedTuple):
    """A number after a word, and those that are admitted."""

    name: str
    admitted: range | tuple[int, ...]

    def said(self) -> str:
        first, last = self.admitted[0], self.admitted[-1]
        return "%d %s %d" % (first, "to" if isinstance(self.admitted, range) else "or", last)

    def of(self, text: str) -> int:
        if not (text.isascii() and text.isdigit()) or text != str(int(text)) or int(text) not in self.admitted:
            raise argparse.ArgumentTypeError("%s is expected, and not %s" % (self.said(), text))
        return int(text)


class Own(NamedTuple):
    """A word of the program: what it writes, what it reads, what it takes at most, and its numbers."""

    writes: str
    reads: str = SCENE
    limit: str = OF_SCENES
    numbers: tuple[Number, ...] = ()


SIDES = range(1, limits.MAX_WIDE_PICTURE_SIZE + 1)
OWN = {
    "render": Own("the depths and the faces of the picture, as two images"),
    "colour": Own("the picture in its colours, as one image"),
    "tidy": Own("the canonical text of the scene", limit="a text of %d bytes; memory bits and products do not count" % limits.MAX_TEXT_BYTES),
    "plan": Own("`kept K of P`, and a line for each of the K products that can show anything", limit="%d products" % limits.MAX_PRODUCTS),
    "cost": Own("`macros M` and `clocks C`: how many operations and clocks the picture takes"),
    "debug": Own("the answer to each command line; they step through the broadcasts (docs/DEBUGGER.md)",
                 "a scene, and command lines after its `end`", "a text of %d bytes, and a scene that `render` draws" % limits.MAX_TEXT_BYTES),
    "sample": Own("four numbers of a scene of N blocks: pixels, depths, products, clocks", "nothing", "%d blocks" % limits.MAX_BLOCKS,
                  (Number("N", range(1, limits.MAX_BLOCKS + 1)),)),
    "shadow": Own("one image: bit l - 1 of a pixel says whether light l reaches it", "a scene, and light lines after its `end`: light NAME ..",
                  "%d lights, 80 memory bits a pixel, and what `render` takes otherwise" % limits.MAX_LIGHTS),
    "tile": Own("the depths and the faces of a picture of W by H pixels, in tiles of the scene's own size", SCENE,
                "%d tiles" % limits.MAX_TILES, (Number("W", SIDES), Number("H", SIDES))),
    "refine": Own("the picture in colours, each pixel the mean over K by K finer ones", SCENE,
                  "a finer scene, of K times the width and height, that `colour` draws", (Number("K", (2, 4)),)),
    "list": Own("the broadcasts of the scene as a listing (docs/LISTINGS.md)"),
    "play": Own("the memory of each pixel of an array that has played the listing", "a listing, such as `pxplanes list` writes",
                "a grid of at most 512 by 512 pixels (docs/LISTINGS.md, \"Limits\")"),
}


def add_options(parser: argparse.ArgumentParser, name: str) -> None:
    """Gives the parser of a word its help."""
    own = OWN[name]
    parser.description = "Reads %s, and writes %s." % (own.reads, own.writes)
    parser.epilog = "Limit: %s.\n%s" % (own.limit, STATUS)
    for number in own.numbers:
        parser.add_argument(number.name, type=number.of, help="a number: " + number.said())
    if own.reads != "nothing":
        parser.add_argument("file", metavar="FILE", nargs="?", help="%s; without it standard input is read" % own.reads)
    parser.add_argument("-o", metavar="FILE", help="the file that is written, an image as PNG if its name ends in .png; standard output without it")
