"""Turns a model into a scene, or a scene into another program's language.

A model is OpenSCAD's .csg or .scad (which OpenSCAD itself reads first), or a mesh: OFF, STL, OBJ, PLY, 3MF or glTF, in
which each closed part is a solid; what is not convex becomes several solids. A scene becomes a text for POV-Ray (pov),
OpenSCAD (scad), a mesh of each solid (obj, glb), or JSON. Standard error says by how many cells the worst plane was rounded,
what is cut off, and what a form has no words for. docs/MODELLING.md explains each step."""
import argparse
import os
import signal
import sys
from typing import Any, Callable

from pxplanes import ends
from pxplanes.cli import frame
from pxplanes.errors import Trouble
from pxplanes.machine import listings
from pxplanes.mesh import cameras, exports, mesh_files, modelling
from pxplanes.scene import scenes

HELP = "turn a model into a scene, or a scene into POV-Ray, OpenSCAD, OBJ, glTF or JSON"
# The limit is in seconds of processor, so that a busy machine refuses nothing; ten times as many by the clock end what
# waits.
TIMERS = ((signal.ITIMER_PROF, signal.SIGPROF, 1), (signal.ITIMER_REAL, signal.SIGALRM, 10))


def numbers(*counts: int) -> Callable[[str], list[float]]:
    """A type for an option: numbers with commas between them, one of these counts of them."""
    def read(word: str) -> list[float]:
        try:
            found: list[float] = mesh_files.floats(word.split(","), "it")
        except Trouble as trouble:
            raise argparse.ArgumentTypeError(str(trouble)) from None
        if len(found) not in counts:
            raise argparse.ArgumentTypeError(
                "%s numbers with commas between them are expected" % " or ".join(map(str, counts)))
        return found

    return read


def positive(word: str) -> float:
    """A type for an option: a number above 0."""
    try:
        found: float = mesh_files.floats([word], "it")[0]
    except Trouble as trouble:
        raise argparse.ArgumentTypeError(str(trouble)) from None
    if found <= 0:
        raise argparse.ArgumentTypeError("a number above 0 is expected, not %s" % word)
    return found


def add_options(parser: argparse.ArgumentParser) -> None:
    usual = modelling.Choices()
    parser.add_argument("file", metavar="IN", help="a model or a scene; - is standard input")
    parser.add_argument("-o", "--out", metavar="OUT",
                        help="the file to write; its ending says the form (default: standard output)")
    parser.add_argument("--to", choices=("scene", *exports.FORMS),
                        help="the form of what is written, if OUT does not say it")
    parser.add_argument("--kind", choices=modelling.KINDS, help="what IN is, if its name does not say it")
    parser.add_argument("--unit", choices=tuple(modelling.UNITS),
                        help="what the numbers of a file that says no unit are; they become millimetres "
                        "(default: as they are)")
    parser.add_argument("--up", choices=tuple(modelling.UPWARDS),
                        help="the axis that is upwards in the file (default: y for glTF, z for others)")
    size = frame.whole_number(1, 512)
    parser.add_argument("--size", nargs=2, metavar=("W", "H"), type=size, default=usual.size,
                        help="the picture in pixels")
    parser.add_argument("--depth", nargs=2, metavar=("W", "F"), type=frame.whole_number(0, 24),
                        help="the bits of a depth, and its "
                        "fraction bits (default: 12 8; in perspective as many as the picture needs)")
    parser.add_argument("--view", nargs=3, metavar=("RX", "RY", "RZ"), type=float, default=usual.view,
                        help="turn the model as OpenSCAD's $vpr does, in degrees")
    parser.add_argument("--camera", metavar="NUMBERS", type=numbers(6, 7),
                        help="as OpenSCAD's --camera, so that pictures may be laid "
                        "over one another: X,Y,Z,RX,RY,RZ,DISTANCE, or the X,Y,Z of the eye and of the centre")
    parser.add_argument("--projection", choices=sorted(modelling.PROJECTIONS),
                        help="parallel (o), or in perspective (p) (default: o)")
    parser.add_argument("--eye", metavar="X,Y,Z", type=numbers(3), help="in perspective, from this point; with --at")
    parser.add_argument("--at", metavar="X,Y,Z", type=numbers(3), help="in perspective, to this point; with --eye")
    parser.add_argument("--fov", metavar="DEGREES", type=positive,
                        help="the height of the picture in perspective (default: 22.5)")
    parser.add_argument("--near", metavar="D", type=positive,
                        help="the nearest distance along the axis (default: what the model reaches)")
    parser.add_argument("--far", metavar="D", type=positive, help="the farthest one")
    parser.add_argument("--scale", metavar="S", type=positive,
                        help="pixels to a unit of the model (default: it fills the picture)")
    parser.add_argument("--flat", action="store_true",
                        help="each face has its solid's colour, and not one by the way it looks")
    parser.add_argument("--seconds", metavar="N", type=positive, default=60,
                        help="refuse a model that needs more seconds of processor")
    parser.add_argument("--draw", metavar="MAPS",
                        help="draw the model by columns, and write its depths and faces")


def run(options: argparse.Namespace) -> int:
    form = options.to or os.path.splitext(options.out or "")[1][1:].lower() or None
    text = b"" if options.kind else scene_in(options.file)
    if text:
        return exported(text, form, options)
    if form not in (None, "scene"):
        raise Trouble("a model becomes a scene, and not .%s: convert the scene then" % form)
    return modelled(options)


def scene_in(path: str) -> bytes:
    """The text of a file, if its first word is that of a scene's header; otherwise nothing."""
    if path != "-" and modelling.is_model(path):
        return b""
    text = ends.content(path)
    is_scene = listings.first_word(text) == b"pxscene"
    if not is_scene and path == "-":
        raise Trouble("a model from standard input needs --kind")
    return text if is_scene else b""


def exported(text: bytes, form: Any, options: argparse.Namespace) -> int:
    """Writes a scene in another program's language."""
    if form not in exports.FORMS:
        raise Trouble("a scene becomes one of %s: name it by --to, or by the ending of -o" % ", ".join(exports.FORMS))
    try:
        scene = scenes.read(text)
    except scenes.Refusal as refusal:
        raise Trouble("%s: %s" % (options.file, refusal.note)) from None
    written, lacks = exports.FORMS[form](scene, cameras.of_scene(text, scene))
    if lacks:
        ends.say("pxplanes convert", "%s does not say %s" % (form, "; ".join(lacks)))
    write(options.out, written.encode() if isinstance(written, str) else written)
    return frame.SUCCESS


def choices_of(options: argparse.Namespace) -> modelling.Choices:
    """How the options say that a model becomes a scene."""
    return modelling.Choices(**{name: getattr(options, name) for name in (
        "view", "size", "depth", "scale", "camera", "projection", "eye", "at", "fov", "near", "far", "flat", "kind",
            "unit", "up")})


def modelled(options: argparse.Namespace) -> int:
    """Writes the scene of a model, or its picture."""
    choices = choices_of(options)
    bound(options.seconds)
    if options.draw:
        maps = modelling.by_columns(modelling.read(options.file, choices), choices).maps()
        unbound()
        write(options.draw, maps)
        return frame.SUCCESS
    text, facts = modelling.made(options.file, choices)
    unbound()
    write(options.out, text.encode())
    modelling.tell(*facts)
    return frame.SUCCESS


def bound(seconds: float) -> None:
    """Has the work end with `Trouble` when its seconds are over, wherever it is."""
    def over(*_: object) -> None:
        raise Trouble("it takes more than %g seconds; --seconds allows more, and fewer facets take less" % seconds)

    for kind, at, times in TIMERS:
        signal.signal(at, over)
        signal.setitimer(kind, times * seconds)


def unbound() -> None:
    for kind, _, _ in TIMERS:
        signal.setitimer(kind, 0)


def write(path: Any, content: bytes) -> None:
    """Writes a file, or to standard output."""
    if path in (None, "-"):
        sys.stdout.buffer.write(content)
        return
    with open(path, "wb") as file:
        file.write(content)
