"""Shows a scene, a model, or the maps that a run wrote, as a picture, in the browser, or as a page for others.

FILE is a scene, which is drawn in its colours; a model as `pxplanes convert` reads it, which is drawn in perspective so that it fills the
picture; a listing; or pixel maps as `pxplanes render`, `colour` and `shadow` write them.
Without -o, --page or --serve the picture is drawn in the terminal."""
from __future__ import annotations

import argparse
import importlib.util
import math
import os
import shutil
import signal
import sys
import tempfile
import webbrowser
from typing import TYPE_CHECKING, Any, NamedTuple, Optional, Sequence

from pxplanes import ends, program
from pxplanes.cli import frame
from pxplanes.errors import Trouble
from pxplanes.image import netpbm, show
from pxplanes.machine import listings, sessions
from pxplanes.mesh import cameras, modelling
from pxplanes.page import film, studio, studio_server
from pxplanes.scene import scenes

if TYPE_CHECKING:
    from pxplanes.image.maps import Map

HELP = "show a scene, a model or maps: as a PNG picture, in the terminal, in the browser, as a page"
WHATS = ("colours", "depths", "faces", "lights", "distances")
MEANINGS = {"colours": "the colours", "depths": "the depths, near is light", "faces": "a colour for each face",
            "lights": "the lights that reach each pixel", "distances": "the distances, near is light"}
# The program's command that makes what is shown of a scene.
COMMANDS = {"colours": "colour", "depths": "render", "faces": "render", "lights": "shadow", "distances": "render"}
SHADE = 0.3        # the rest of a colour that no light reaches
REDIRECT = """<!DOCTYPE html>
<meta charset="utf-8"><title>pxplanes</title><meta http-equiv="refresh" content="0; url=%s">
"""


class Picture(NamedTuple):
    """A picture: its size, its colours by rows from the top (a list, an array of shape (height, width, 3), or, of a large one, bands of
    such an array), what it shows, and, of distances, the numbers."""

    width: int
    height: int
    colours: Any
    what: str
    numbers: Sequence[float] = ()


def add_options(parser: argparse.ArgumentParser) -> None:
    parser.add_argument("file", metavar="FILE", nargs="?", help="a scene, a model, a listing, or pixel maps; - is standard input")
    parser.add_argument("-o", "--out", metavar="PNG", help="write a PNG picture; of two maps, one with -depth and one with -faces "
                        "in its name; with --show distances a PFM file next to it")
    parser.add_argument("--show", choices=WHATS, help="what to show (default: a scene's colours; both of two maps)")
    parser.add_argument("--lights", metavar="LIGHTS", help="with a scene: its colours in the light of these light lines (docs/SCENES.md, \"Light lines\")")
    parser.add_argument("--up", choices=tuple(modelling.UPWARDS), help="the axis that is upwards in a model's file (default: y for glTF, z for others)")
    parser.add_argument("--scene", metavar="SCENE", help="the scene of the maps, whose camera gives the distances")
    parser.add_argument("--page", metavar="HTML", help="write a page that plays the broadcasts of FILE, for any browser")
    parser.add_argument("--first", metavar="N", type=frame.whole_number(0, 10 ** 11), default=0,
                        help="the operation with which the page begins, from 0")
    parser.add_argument("--serve", action="store_true", help="open FILE in the browser, to edit and save it; it may not exist yet")
    parser.add_argument("--port", metavar="N", type=frame.whole_number(0, 65535), help="the port of --serve (default: one for each file)")
    parser.add_argument("--no-browser", action="store_true", help="print the address, and open no browser")


def run(options: argparse.Namespace) -> int:
    if options.serve:
        return served(studio_server.Server(options.port, studio.Studio(options.file)), not options.no_browser)
    if options.file is None:
        raise Trouble("a file is needed; only --serve goes without one")
    if not options.page and modelling.is_model(options.file):
        return shown([of_model(options)], options)
    if found := large(options):
        return shown(of_arrays(found, options.show), options)
    data = ends.content(options.file)
    if options.page:
        name = "standard input" if options.file == "-" else os.path.splitext(os.path.basename(options.file))[0]
        write(options.page, film.film(name, sessions.parted(data)[0], options.first).encode("utf-8"), "a page")
        return frame.SUCCESS
    return shown(of_maps(data, options.show, options.scene) if is_maps(data) else [of_scene(data, options)], options)


def shown(pictures: list[Picture], options: argparse.Namespace) -> int:
    """Writes pictures as the options say, or draws the first in the terminal."""
    if options.out:
        for picture in pictures:
            leave(picture, options.out, len(pictures) > 1)
        return frame.SUCCESS
    if not sys.stdout.isatty():
        raise Trouble("say where the picture goes: -o PNG, --page HTML or --serve")
    first = pictures[0]
    colours = first.colours if isinstance(first.colours, list) else [tuple(map(int, each)) for each in first.colours.reshape(-1, 3)]
    sys.stdout.write(show.in_terminal(first.width, first.height, colours, shutil.get_terminal_size().columns))
    return frame.SUCCESS


def large(options: argparse.Namespace) -> list[Map]:
    """The maps of a file that is too large to be read whole, if it goes into a PNG file."""
    if not options.out or options.page or options.show == "distances" or not importlib.util.find_spec("numpy"):
        return []
    from pxplanes.image import maps
    return maps.large(options.file)


def is_maps(data: bytes) -> bool:
    """Whether a file begins as Netpbm's maps do."""
    return data[:2] in netpbm.CHANNELS


def of_maps(data: bytes, what: Optional[str], scene: Optional[str] = None) -> list[Picture]:
    """The pictures of one or two maps: of what is asked, or of all that they have. NumPy makes them, if it is there."""
    if what != "distances" and importlib.util.find_spec("numpy"):
        from pxplanes.image import maps
        return of_arrays(maps.maps_of(data), what)
    found = netpbm.images(data)
    if what == "distances":
        if scene is None:
            raise Trouble("--show distances needs --scene, whose camera gives them")
        return [of_distances(found[0], ends.content(scene), scene)]
    return of_images(found, what)


def of_images(found: Sequence[netpbm.Image], what: Optional[str]) -> list[Picture]:
    """The pictures of one or two maps, without NumPy."""
    first = found[0]
    size = first.width, first.height
    if len(found) == 2:
        return of_both(*size, first.numbers(), found[1].numbers(), what)
    if what is None or what == "colours":
        return [Picture(*size, first.colours(), "colours")]
    numbers = first.numbers()
    if what == "depths":
        return [Picture(*size, show.greys_of_depths(numbers, [depth != max(numbers) for depth in numbers]), what)]
    return [Picture(*size, (show.colours_of_faces if what == "faces" else show.colours_of_lights)(numbers), what)]


def of_both(width: int, height: int, depths: Sequence[int], faces: Sequence[int], what: Optional[str]) -> list[Picture]:
    """The pictures of depths and faces: of what is asked, or both."""
    if what not in (None, "depths", "faces"):
        raise Trouble("two maps have no %s: they are depths and faces" % what)
    makers = {"depths": lambda: show.greys_of_depths(depths, [face != 0 for face in faces]),
              "faces": lambda: show.colours_of_faces(faces)}
    return [Picture(width, height, make(), name) for name, make in makers.items() if what in (None, name)]


def of_arrays(found: Sequence[Map], what: Optional[str]) -> list[Picture]:
    """The pictures of one or two maps, made by NumPy; of a large file in bands of rows."""
    from pxplanes.image import maps, shades
    high, wide = found[0].numbers.shape
    whats = [what] if what else ["depths", "faces"] if len(found) == 2 else ["colours"]
    if len(found) == 2 and not {"depths", "faces"}.issuperset(whats):
        raise Trouble("two maps have no %s: they are depths and faces" % what)
    made = [(each, shades.of_maps(found, each)) for each in whats]
    if isinstance(found[0].numbers, maps.Rows):
        return [Picture(wide, high, map(make, maps.bands((high, wide))), each) for each, make in made]
    return [Picture(wide, high, make(slice(None)), each) for each, make in made]


def of_scene(data: bytes, options: argparse.Namespace) -> Picture:
    """The picture of a scene, drawn by the program."""
    if listings.is_listing(data):
        raise Trouble("a listing has no picture; --page shows what it does")
    what = options.show or "colours"
    if options.lights:
        return lit(data, options)
    found = drawn(COMMANDS[what], data, options.file)
    return of_distances(found[0], data, options.file) if what == "distances" else of_images(found, what)[0]


def drawn(word: str, data: bytes, name: str) -> Any:
    """The maps that the program writes of a scene."""
    status, output, note = program.answer(program.needed(None), [word], data)
    if status != 0:
        raise Trouble("%s: %s; `pxplanes explain` says more" % (name, note or "the program ends with status %d" % status))
    return netpbm.images(output)


def lit(data: bytes, options: argparse.Namespace) -> Picture:
    """The colours of a scene, each as bright as the share of the lights that reach its pixel; without any it keeps SHADE of it."""
    lights = ends.content(options.lights)
    count = sum(1 for line in lights.split(b"\n") if line.split(b"#")[0].split())
    if options.show not in (None, "colours") or not count:
        raise Trouble("--lights shows colours, and needs a light line")
    colours, masks = drawn("colour", data, options.file)[0], drawn("shadow", data.rstrip(b"\n") + b"\n" + lights, options.lights)[0].numbers()
    shares = [SHADE + (1 - SHADE) * bin(mask).count("1") / count for mask in masks]
    return Picture(colours.width, colours.height, [tuple(round(part * share) for part in colour) for colour, share in zip(colours.colours(), shares)],
                   "colours")


def of_model(options: argparse.Namespace) -> Picture:
    """The picture of a model, drawn by columns."""
    what = options.show or "colours"
    if what not in ("colours", "depths", "faces"):
        raise Trouble("a model has no %s here: `pxplanes convert` makes a scene of it" % what)
    drawing, colours = modelling.portrait(options.file, options.up)
    height, width = drawing.depths.shape
    if what == "colours":
        return Picture(width, height, drawing.colours(colours), what)
    return of_both(width, height, drawing.depths.ravel().tolist(), (drawing.shown.ravel() + 1).tolist(), what)[0]


def of_distances(depths: Any, text: bytes, name: str) -> Picture:
    """The distance of each pixel along the axis of the camera that a scene notes; infinite for the background."""
    try:
        scene = scenes.read(text)
    except scenes.Refusal as refusal:
        raise Trouble("%s: %s" % (name, refusal.note)) from None
    camera = cameras.of_scene(text, scene)
    if camera is None:
        raise Trouble("%s notes no perspective camera" % name)
    numbers = depths.numbers()
    if len(numbers) != scene.width * scene.height or max(numbers) > scene.far():
        raise Trouble("the depths are not of %s: another size, or beyond its far limit" % name)
    distances = [camera.distances.distance_at(depth) if depth < scene.far() else math.inf for depth in numbers]
    greys = show.greys_of_depths(distances, [math.isfinite(distance) for distance in distances])
    return Picture(scene.width, scene.height, greys, "distances", distances)


def leave(picture: Picture, path: str, is_one_of_two: bool) -> None:
    """Writes a picture as PNG, and distances also as numbers."""
    stem, end = os.path.splitext(path)
    if is_one_of_two:
        path = stem + {"depths": "-depth", "faces": "-faces"}[picture.what] + end
    write(path, png(picture), MEANINGS[picture.what])
    if picture.numbers:
        write(stem + ".pfm", show.pfm(picture.width, picture.height, picture.numbers), "the distances as numbers")


def png(picture: Picture) -> bytes:
    """A picture as PNG; a small one is enlarged by a whole factor."""
    if isinstance(picture.colours, list):
        return netpbm.png(picture.width, picture.height, picture.colours)
    from pxplanes.image import maps, shades
    if isinstance(picture.colours, map):
        return netpbm.png_file(picture.width, picture.height, 8, 2, (b"\0" + row.tobytes() for band in picture.colours for row in band))
    return maps.png(shades.enlarged(picture.colours))


def write(path: str, data: bytes, what: str) -> None:
    with open(path, "wb") as file:
        file.write(data)
    print("wrote %s: %s" % (path, what))


def has_browser() -> bool:
    return any(os.environ.get(name) for name in ("DISPLAY", "WAYLAND_DISPLAY", "BROWSER")) or sys.platform == "darwin"


def open_browser(address: str, folder: str) -> None:
    """Opens the page by a file that only its owner reads: a command line would show the address to everybody."""
    path = os.path.join(folder, "pxplanes.html")
    with os.fdopen(os.open(path, os.O_WRONLY | os.O_CREAT | os.O_EXCL, 0o600), "w", encoding="utf-8") as file:
        file.write(REDIRECT % address)
    webbrowser.open("file://" + path)


def served(server: Any, opens: bool) -> int:
    """Serves the page until it is interrupted."""
    signal.signal(signal.SIGTERM, signal.default_int_handler)
    signal.signal(signal.SIGINT, signal.default_int_handler)
    with tempfile.TemporaryDirectory(prefix="px-studio-") as folder:
        print(server.address, flush=True)
        try:
            if opens and has_browser():
                open_browser(server.address, folder)
            server.serve_forever(0.1)
        except KeyboardInterrupt:
            pass
        finally:
            server.server_close()
    return frame.SUCCESS
