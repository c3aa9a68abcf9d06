"""Draws a picture of any size, piece by piece.

The file gets the two maps that `pxplanes tile W H` writes, the depths and then the faces, also if W or H is over 4096. Each piece is
a scene of its own, whose planes have the values that the scene's have there, and is drawn by `tile`. It is written into its place in
the file as it comes, so that memory does not grow with the picture; the file has its name once it is whole. Until then it is
FILE.part, and FILE.done has the pieces that are in it: the same call goes on where it was broken off."""
import hashlib
import os
import re
import threading
from fractions import Fraction
from math import gcd, lcm
from typing import Any, Iterator, NamedTuple

from pxplanes import ends
from pxplanes.batch import engine, tiff
from pxplanes.batch.scenes_drawn import REFUSALS, drop
from pxplanes.errors import Trouble
from pxplanes.image import netpbm
from pxplanes.scene import limits, scenes, texts

LARGEST_PIECE, SAMPLES = limits.MAX_WIDE_PICTURE_SIZE, 3
PLANE = re.compile(rb"^([ \t\r]*(?:front|back|side)[ \t\r]+)(-?\d+)([ \t\r]+)(-?\d+)([ \t\r]+)(-?\d+)(.*)$", re.S)
Plane = tuple[int, int, int]


class Refused(Exception):
    """The scene is refused, by a line of the program's form, or cannot be enlarged."""


def enlarged(text: bytes, wide: int, high: int) -> bytes:
    """The text of the scene over so many pixels, its picture's size as it was. A plane that rises by A a pixel rises
    by A times the old width over the new one, in parts of a cell; what no fraction bits say exactly is refused."""
    try:
        scene = scenes.read(text)
    except scenes.Refusal as refusal:
        raise Refused(refusal.note) from None
    x, y = Fraction(scene.width, wide), Fraction(scene.height, high)
    surfaces = [face for solid in scene.solids for face in solid.fronts + solid.backs]
    room = min(limits.MAX_FRACTION_BITS - scene.fraction_bits, limits.MAX_DEPTH_BITS - scene.depth_bits - scene.fraction_bits)
    own = {face: max((x * face.plane[0]).denominator, (y * face.plane[1]).denominator) for face in surfaces}
    for face, parts in own.items():
        if parts & parts - 1 or parts.bit_length() - 1 > room:
            raise Refused("the plane in line %d has no exact enlargement to %d by %d: its slope would have parts of 1/%d, and fraction bits "
                          "have room for 1/%d" % (face.line, wide, high, parts, 1 << max(room, 0)))
    bits = max([parts.bit_length() - 1 for parts in own.values()], default=0)

    for solid in scene.solids:
        for face in solid.fronts + solid.backs:
            a, b, c = face.plane
            face.plane = int(x * a * (1 << bits)), int(y * b * (1 << bits)), c << bits
        for side in solid.sides:
            side.plane = smallest(x * side.plane[0], y * side.plane[1], Fraction(side.plane[2]))
    scene.fraction_bits += bits
    return texts.text_of(scene).encode()


def smallest(*plane: Fraction) -> Plane:
    """The least whole numbers in the same proportion: only the sign of a side counts."""
    common = lcm(*(each.denominator for each in plane))
    a, b, c = (int(each * common) for each in plane)
    least = gcd(a, b, c) or 1
    return a // least, b // least, c // least


def moved(text: bytes, x0: int, y0: int) -> bytes:
    """The text of the scene whose pixel (0, 0) is the scene's (x0, y0)."""
    lines = []
    for line in text.split(b"\n"):
        plane = PLANE.match(line.split(b"#")[0])
        if plane:
            head, a, gap, b, space, c, tail = plane.groups()
            constant = int(c) + int(a) * x0 + int(b) * y0
            if abs(constant) > limits.MAX_CONSTANT:
                raise Refused("limit line 0: coefficient %d" % constant)
            line = head + a + gap + b + space + b"%d" % constant + tail
        lines.append(line)
    return b"\n".join(lines)


class Piece(NamedTuple):
    """A part of a picture: its first column and row, and its size."""

    x0: int
    y0: int
    wide: int
    high: int


def pieces_of(wide: int, high: int, side: int) -> Iterator[Piece]:
    """The pieces of a picture, by rows from the top and in each row from the left."""
    for y0 in range(0, high, side):
        for x0 in range(0, wide, side):
            yield Piece(x0, y0, min(side, wide - x0), min(side, high - y0))


class Picture:
    """A file of two images of one size, written row by row wherever a row has its place; and, in a file next to it,
    the pieces that are in it, a line each after the sum of what it is made of."""

    def __init__(self, path: str, wide: int, high: int, total: str):
        self.path, self.wide, self.head = path, wide, netpbm.header(wide, high)
        self.image, self.lock = len(self.head) + SAMPLES * wide * high, threading.Lock()
        self.part, self.list = path + ".part", path + ".done"
        lines = ends.content(self.list).decode().split("\n") if os.path.exists(self.list) else []
        goes_on = lines[:1] == [total] and os.path.exists(self.part)
        self.done = set(lines[1:-1]) if goes_on else set()
        self.file = open(self.part, "r+b" if goes_on else "wb")
        for first in (0, self.image):
            self.file.seek(first)
            self.file.write(self.head)
        self.file.truncate(2 * self.image)
        if not goes_on:
            with open(self.list, "w") as file:
                file.write(total + "\n")

    def has(self, piece: Piece) -> bool:
        return "%dx%d" % piece[:2] in self.done

    def put(self, piece: Piece, data: bytes) -> None:
        """Copies both images of a piece into their places."""
        head, row = netpbm.header(piece.wide, piece.high), SAMPLES * piece.wide
        size = len(head) + row * piece.high
        if len(data) != 2 * size or not data.startswith(head):
            raise Trouble("a piece has not the form of an image")
        with self.lock:
            for first, start in ((0, len(head)), (self.image, size + len(head))):
                for y in range(piece.high):
                    self.file.seek(first + len(self.head) + SAMPLES * ((piece.y0 + y) * self.wide + piece.x0))
                    self.file.write(data[start + y * row:start + (y + 1) * row])
            self.file.flush()
            with open(self.list, "a") as file:
                file.write("%dx%d\n" % piece[:2])

    def finish(self) -> None:
        """Gives the picture its name."""
        self.file.close()
        os.replace(self.part, self.path)
        os.remove(self.list)


def is_tiff(path: str) -> bool:
    return path.lower().endswith((".tif", ".tiff"))


def names_of(path: str) -> list[str]:
    """The files of the colours, the depths and the faces."""
    stem, end = os.path.splitext(path)
    return [path, stem + "-depth" + end, stem + "-faces" + end]


class Tiled:
    """The colours, the depths and the faces of a picture as three TIFF files, and, in a file next to them, where the tiles are that are in
    them, a line each after the sum of what they are made of."""

    def __init__(self, path: str, wide: int, high: int, side: int, total: str, scene: scenes.Scene):
        import numpy
        if side % 16:
            raise Trouble("the tiles of a TIFF file have sides that are multiples of 16, and not %d" % side)
        self.numpy, self.size, self.side, self.lock = numpy, (wide, high), side, threading.Lock()
        self.names, self.list = names_of(path), path + ".done"
        self.kinds: list[tuple[Any, int]] = [(numpy.dtype("u1"), 3), (numpy.dtype("<u4"), 1), (numpy.dtype("<u2"), 1)]
        self.colours = numpy.array([(0, 0, 0), *(row[4] for row in scene.faces())], "u1")
        lines = ends.content(self.list).decode().split("\n") if os.path.exists(self.list) else []
        goes_on = lines[:1] == [total] and all(os.path.exists(name + ".part") for name in self.names)
        self.done = {line.split()[0]: [int(each) for each in line.split()[1:]] for line in lines[1:-1]} if goes_on else {}
        self.files = [open(name + ".part", "r+b" if goes_on else "w+b") for name in self.names]
        if not goes_on:
            for file in self.files:
                file.write(b"\0" * 8)
            with open(self.list, "w") as listed:
                listed.write(total + "\n")

    def has(self, piece: Piece) -> bool:
        return "%dx%d" % piece[:2] in self.done

    def put(self, piece: Piece, data: bytes) -> None:
        """Writes a piece as a tile of each file, with zeros past the picture's edge."""
        maps = [image.samples for image in netpbm.images(data)]
        numbers = [self.numpy.frombuffer(each, "u1").reshape(piece.high, piece.wide, SAMPLES) @ self.numpy.array((65536, 256, 1), "u4") for each in maps]
        tiles, name = [], "%dx%d" % piece[:2]
        for shown, (kind, samples) in zip((self.colours[numbers[1]], *numbers), self.kinds):
            tiles.append(self.numpy.zeros((self.side, self.side, samples), kind))
            tiles[-1][:piece.high, :piece.wide] = shown.reshape(piece.high, piece.wide, samples)
        packed = list(map(tiff.packed, tiles))
        with self.lock:
            self.done[name] = [number for file, tile in zip(self.files, packed) for number in tiff.put(file, tile)]
            with open(self.list, "a") as listed:
                listed.write(" ".join(map(str, [name, *self.done[name]])) + "\n")

    def finish(self) -> None:
        """Gives the pictures their names."""
        order = ["%dx%d" % piece[:2] for piece in pieces_of(*self.size, self.side)]
        for at, (name, file, kind) in enumerate(zip(self.names, self.files, self.kinds)):
            places = [(self.done[piece][2 * at], self.done[piece][2 * at + 1]) for piece in order]
            tiff.finish(file, *self.size, self.side, *kind, places)
            file.close()
            os.replace(name + ".part", name)
        os.remove(self.list)


def drawn(text: bytes, wide: int, high: int, out: str, side: int, built: str, jobs: int, enlarges: bool = True) -> None:
    """Draws a picture of `wide` by `high` pixels in pieces of `side` by `side` into the file `out`: the scene
    enlarged, or as far as its planes go. Raises `Refused`."""
    pieces = list(pieces_of(wide, high, side))
    lock: Any = open(out + ".done", "a")
    engine.locked(lock, out)
    motor = engine.Engine(built, lock)
    try:
        text = enlarged(text, wide, high) if enlarges else text
        for piece in pieces:
            moved(text, piece.x0, piece.y0)
        total = hashlib.sha256(repr((text, wide, high, side)).encode() + ends.content(built)).hexdigest()
        picture: Picture | Tiled = Tiled(out, wide, high, side, total, scenes.read(text)) if is_tiff(out) else Picture(out, wide, high, total)

        def work(piece: Piece) -> None:
            status, data, note = motor.run(["tile", str(piece.wide), str(piece.high)], moved(text, piece.x0, piece.y0))
            if status in REFUSALS:
                raise Refused(note)
            if status != 0:
                raise Trouble("the piece at %d %d: %s" % (piece.x0, piece.y0, note or "status %d" % status))
            picture.put(piece, data)

        for _ in motor.each(jobs, work, [piece for piece in pieces if not picture.has(piece)]):
            pass
        picture.finish()
    except (Refused, Trouble, OSError) as error:
        if isinstance(error, Refused) or not os.path.exists(out + ".done") or ends.content(out + ".done").count(b"\n") < 2:
            for name in names_of(out):
                drop(name + ".part")
            drop(out + ".done")
        raise
