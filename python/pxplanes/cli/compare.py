"""Compares two renderers' maps of a scene, pixel by pixel.

Each file has the depths and then the faces, as `pxplanes render` writes them, or a single image: EXR, TIFF, HDR, PNG,
PFM, Netpbm, NPY, text with a number a pixel, and others that OpenImageIO reads; THEIRS may also be bare float32 or
float64. Whole depths must be alike. Depths with parts of a cell are compared with the exact surfaces of the scene, if
--scene gives it: docs/COMPARE.md says how far they may be off.

Prints how many pixels differ, with --scene the cause that explains them, and the ways in which they differ. Ends with 0
if none differs, with 1 if some do."""
from __future__ import annotations

import argparse
import json
import re
from typing import TYPE_CHECKING, Any

from pxplanes.cli.frame import whole_number
from pxplanes.errors import Trouble

if TYPE_CHECKING:
    from pxplanes.compare.comparing import Comparison
    from pxplanes.compare.verdict import Allowed

HELP = "compare two renderers' maps, and find the cause of what differs"


def number(text: str) -> float:
    """A real number from 0 on."""
    try:
        found = float(text)
    except ValueError:
        found = -1.0
    if not 0 <= found < 1e15:
        raise argparse.ArgumentTypeError("a number from 0 on is expected, not %s" % text)
    return found


def epsilon(text: str) -> tuple[float, bool]:
    """A number of roundings, or of cells."""
    match = re.fullmatch(r"([0-9.eE+-]+) ?(roundings|cells)?", text)
    if not match:
        raise argparse.ArgumentTypeError("a number is expected, as 64, 64roundings or 0.5cells, not %s" % text)
    return number(match.group(1)), match.group(2) == "cells"


def add_shared_options(parser: argparse.ArgumentParser) -> None:
    """The options of every word that compares."""
    parser.add_argument("--only", choices=("depths", "faces"), help="compare these alone; a single image holds them")
    parser.add_argument("--epsilon", type=epsilon, default="64", metavar="E",
                        help="how far a real depth may be from the exact surface: roundings of single precision, or cells, as 0.5cells")
    parser.add_argument("--depth-tolerance", type=number, default=0.0, metavar="D", help="let all depths differ by D cells")
    parser.add_argument("--times", type=number, default=1.0, metavar="N", help="multiply the floating-point numbers of THEIRS by N")
    parser.add_argument("--channel", metavar="NAME", help="the channel with the depths of THEIRS (default: Z, depth, or the only one)")


def add_options(parser: argparse.ArgumentParser) -> None:
    parser.add_argument("ours", metavar="OURS", help="our maps; - is standard input")
    parser.add_argument("theirs", metavar="THEIRS", help="the other maps; - is standard input")
    parser.add_argument("--scene", metavar="SCENE", help="the scene of OURS: names the faces, gives the exact surfaces, and finds causes")
    add_shared_options(parser)
    parser.add_argument("--far", type=number, metavar="N", help="in THEIRS the depth N is the background (needs --scene)")
    parser.add_argument("--distance", metavar="NEAR,FAR[,..]", help="THEIRS has distances along the axis of a perspective camera; "
                        "NEAR,FAR,inverse: 1 divided by these; NEAR,FAR,ray,FOV: along each ray, the picture FOV degrees high")
    parser.add_argument("--first", type=whole_number(0, 10 ** 9), default=5, metavar="N", help="print the first N pixels and at most N ways to differ")
    parser.add_argument("-o", "--out", metavar="PNG", help="write a picture: grey where alike, red where depths differ, blue where only faces do")
    parser.add_argument("--sides", type=whole_number(1, 100), metavar="N", help="with a mesh: how many sides a model is drawn from")
    parser.add_argument("--cuts", type=whole_number(0, 100), metavar="N", help="with a mesh: how many cuts are made from each side")
    parser.add_argument("--size", type=whole_number(8, 512), nargs=2, metavar=("W", "H"), help="with a mesh: the pixels of each picture")
    parser.add_argument("--json", action="store_true", help="print the outcome as JSON")


def of_mesh(options: argparse.Namespace) -> int:
    """Compares a mesh with the model or the scene that it was made of."""
    from pxplanes.compare import meshes
    said = {name: getattr(options, name) for name in ("sides", "cuts", "size", "out") if getattr(options, name) is not None}
    return meshes.report(options.ours, options.theirs, **said)


def allowed_by(options: argparse.Namespace) -> Allowed:
    from pxplanes.compare.verdict import Allowed
    number_of, in_cells = options.epsilon
    return Allowed(number_of, in_cells, options.depth_tolerance)


def names_of(scene: Any) -> tuple[list[str], list[str], list[tuple[int, int, int]]]:
    """For each face number from 0 on: its name, its solid and kind, and its colour."""
    rows = [("", "", (0, 0, 0))] + [("%s %s%s" % (solid.name, kind, "" if which is None else " %d" % which), "%s %s" % (solid.name, kind), colour)
                                   for _, solid, kind, which, colour, _ in scene.faces()]
    names, words, colours = zip(*rows)
    return list(names), list(words), list(colours)


def is_of_mesh(options: argparse.Namespace) -> bool:
    """Whether the files are a model or a scene, and a mesh, by their names."""
    from pxplanes.compare import meshes
    from pxplanes.mesh import modelling
    return meshes.is_mesh(options.theirs) or meshes.kind_of(options.ours) in modelling.KINDS


class Pair:
    """What the two files have, ready to be compared, with the scene where there is one, and what must be said of
    that."""

    def __init__(self, options: argparse.Namespace):
        from pxplanes import ends
        from pxplanes.compare import picture, report
        from pxplanes.image import maps
        self.scene, self.notes = None, []
        self.names: list[str] = []
        self.words: list[str] = []
        self.colours: list[tuple[int, int, int]] = []
        if options.scene is not None:
            self.scene, named = picture.of_text(ends.content(options.scene), options.scene)
            self.names, self.words, self.colours = names_of(named)
        # (without a scene and a picture to write, bands of rows are enough)
        is_in_bands = options.scene is None and not options.out and options.times == 1
        our_maps = is_in_bands and maps.large(options.ours) or maps.read(options.ours)
        self.their_maps = is_in_bands and maps.large(options.theirs) or maps.read(
            options.theirs, (our_maps[0].width, our_maps[0].height), options.channel)
        self.ours = report.maps_of(our_maps, options.only, 1)
        their_maps = self.their_maps
        if their_maps[0].is_grey_picture and options.only != "faces":
            self.notes.append("theirs has three like bytes at each pixel: it is taken for greys, and not for three bytes a number")
            their_maps = [maps.Map(their_maps[0].numbers[:] & 255, "grey")]
        self.theirs = report.maps_of(their_maps, options.only, options.times)
        if self.theirs.depths is not None and self.scene is not None:
            self.theirs = report.Maps(self.depths_of(self.theirs.depths, options), self.theirs.faces)
        self.is_ours = self.scene is not None and report.is_picture_of(self.ours, self.scene)
        if self.scene is not None and not self.is_ours:
            self.notes.append("OURS is not the picture of %s: no cause is sought, and depths are compared by their cells" % options.scene)

    def depths_of(self, numbers: Any, options: argparse.Namespace) -> Any:
        """Their depths, of distances, and with our number for the background."""
        from pxplanes.compare import distances
        assert self.scene is not None
        if options.distance:
            numbers = distances.depths_of(options.distance, numbers.astype(float), self.scene.far)
        if options.far is not None:
            numbers = numbers.copy()
            numbers[numbers == options.far] = self.scene.far
        return numbers

    def reasons(self, found: Comparison, allowed: Allowed) -> list[str]:
        """Why theirs differs, as far as that is known."""
        from pxplanes.compare import report
        if self.scene is None:
            return []
        if self.their_maps[0].kind == "bytes" and self.ours.depths is not None:
            shown = report.shows_colours(self.their_maps[0].numbers, self.ours.faces, self.colours)
            if shown:
                return [shown]
        return report.why(self.scene, self.theirs, found, allowed) if self.is_ours else []


def run(options: argparse.Namespace) -> int:
    if is_of_mesh(options):
        return of_mesh(options)
    from pxplanes.compare import comparing, report
    for option in ("far", "distance"):
        if getattr(options, option) is not None and options.scene is None:
            raise Trouble("--%s needs --scene, which has our far limit" % option)
    if options.ours == options.theirs == "-":
        raise Trouble("one of the two files alone may be standard input")
    pair, allowed = Pair(options), allowed_by(options)
    ours, theirs = pair.ours, pair.theirs
    if ours.shape != theirs.shape:
        print("the sizes differ: %d by %d and %d by %d" % (*ours.shape[::-1], *theirs.shape[::-1]))
        return 1
    found = comparing.compared((ours.depths, ours.faces), (theirs.depths, theirs.faces), allowed, pair.scene if pair.is_ours else None)
    cause = pair.reasons(found, allowed) if found.differ else []
    lines = [report.counted(found, allowed), *pair.notes, *cause]
    if pair.scene is None and not found.is_whole:
        lines.append("without --scene a depth with parts is only known to lie in its cell or not")
    if found.differ:
        lines += report.greatest(ours, theirs, found)
        far = None if pair.scene is None else pair.scene.far
        if ours.faces is not None or theirs.faces is not None or far is not None:
            lines += report.listed(report.ways(ours, theirs, found, pair.words, far), options.first, "way")
        lines += report.first(ours, theirs, found, pair.names, options.first)
    print(json.dumps(report.as_json(found, lines, cause), indent=1) if options.json else "\n".join(lines))
    if options.out:
        from pxplanes.image import maps
        with open(options.out, "wb") as file:
            file.write(maps.png(report.differences(ours, theirs, found)))
    return 1 if found.differ else 0
