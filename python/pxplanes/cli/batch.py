"""Draws many scenes, or a picture of any size, on all processors, and goes on where it was broken off.

WORD is a word of the program, as render or "tile 640 480"; view, or "view --show depths", for PNG pictures; or compare, which renders and
compares each picture with the one of the same name in the folder --against. SCENES are files, folders (all files NAME.scene in them), or -
(a name a line on standard input). DIR gets NAME.ppm, NAME.png of view, or NAME.txt of a word that writes text. WORD poster enlarges one
scene to W by H pixels, also over 4096, and writes its depths and faces into the file -o, as `pxplanes tile` does; or, if that is
NAME.tif, its colours there, and its depths and faces into NAME-depth.tif and NAME-faces.tif. Status: 0 if all were drawn and none differs,
otherwise 1; 2 for trouble."""
import argparse
import os
import sys

from pxplanes import ends, program
from pxplanes.batch import groups, poster, scenes_drawn
from pxplanes.cli import frame, program_words
from pxplanes.errors import Trouble

HELP = "draw many scenes into a folder, or a picture of any size"
LARGEST_SIDE = 10 ** 6


def add_options(parser: argparse.ArgumentParser) -> None:
    parser.add_argument("word", metavar="WORD", type=word_of_program, help="what to do with each scene, with its numbers, as 'tile 640 480', or poster")
    parser.add_argument("scenes", metavar="SCENES", nargs="+", help="files, folders or -; of a poster SCENE W H")
    parser.add_argument("-o", "--out", metavar="DIR", required=True, help="the folder of the pictures, or the file of a poster")
    parser.add_argument("--against", metavar="DIR", help="with compare: the folder of the pictures to compare with")
    parser.add_argument("--tile", metavar="N", type=frame.whole_number(1, poster.LARGEST_PIECE), default=1024,
                        help="the side of a poster's pieces, in pixels")
    parser.add_argument("--jobs", metavar="N", type=frame.whole_number(1, 10 ** 6), default=os.cpu_count() or 1,
                        help="how many run side by side")
    parser.add_argument("--extend", action="store_true", help="of a poster: the scene at its own size, as far as its planes go, as `pxplanes "
                        "tile W H` draws it")


def word_of_program(text: str) -> str:
    """A word that draws scenes, with its numbers."""
    words = text.split()
    known = (*scenes_drawn.ENDINGS, "poster")
    if not words or words[0] not in known:
        raise argparse.ArgumentTypeError("%s is none of %s" % (text, ", ".join(known)))
    if words[0] == "view" and words[1:] and (words[1:-1] != ["--show"] or words[-1] not in scenes_drawn.VIEWED):
        raise argparse.ArgumentTypeError("view has --show and one of %s" % ", ".join(scenes_drawn.VIEWED))
    if words[0] in program_words.OWN:
        try:
            said = frame.parser_of(words[0]).parse_args(words[1:])
            if said.file or said.o:
                raise Trouble("%s takes numbers alone here" % words[0])
        except Trouble as trouble:
            raise argparse.ArgumentTypeError(str(trouble).partition(";")[0]) from None
    return " ".join(words)


def run(options: argparse.Namespace) -> int:
    groups.break_off_once()
    if (options.against is not None) != (options.word == "compare"):
        raise Trouble("--against goes with compare")
    built: str = program.needed(None)
    if options.word == "poster":
        return draw_poster(options, built)
    return scenes_drawn.draw(options.word, options.scenes, options.out, built, options.jobs, options.against)


def draw_poster(options: argparse.Namespace, built: str) -> int:
    """Draws one scene as a picture of any size."""
    if len(options.scenes) != 3:
        raise Trouble("a poster needs SCENE W H")
    if poster.is_tiff(options.out):
        frame.need_numpy(sys.argv[1:])
    scene, wide, high = options.scenes
    if not all(side.isdigit() and 1 <= int(side) <= LARGEST_SIDE for side in (wide, high)):
        raise Trouble("W and H are numbers from 1 to %d, and not %s %s" % (LARGEST_SIDE, wide, high))
    try:
        poster.drawn(ends.content(scene), int(wide), int(high), options.out, options.tile, built, options.jobs, not options.extend)
    except poster.Refused as refused:
        ends.say("pxplanes batch", refused)
        return frame.DIFFERS
    return frame.SUCCESS
