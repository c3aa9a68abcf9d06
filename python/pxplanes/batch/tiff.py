"""Tiled TIFF files, whose tiles come in any order, each compressed by itself: what every reader of TIFF 6.0 takes."""
import struct
import zlib
from typing import IO, Any, Sequence

from pxplanes.errors import Trouble

# Tags of TIFF 6.0, and 8, its compression by Deflate, with the kinds of their numbers.
SHORT, LONG = (3, "H"), (4, "I")
DEFLATE, RGB, GREY = 8, 2, 1
LARGEST = 1 << 32
FASTEST = 1
Place = tuple[int, int]      # where a tile is in the file, and its bytes


def packed(tile: Any) -> bytes:
    return zlib.compress(tile.tobytes(), FASTEST)


def put(file: IO[bytes], data: bytes) -> Place:
    """Writes a packed tile at the end of a file."""
    at = file.seek(0, 2)
    if at + len(data) >= LARGEST:
        raise Trouble("a TIFF file ends at 4 GiB; a name that ends in .ppm has no end")
    file.write(data)
    file.flush()
    return at, len(data)


def finish(file: IO[bytes], wide: int, high: int, side: int, kind: Any, samples: int, places: Sequence[Place]) -> None:
    """Writes what a file is, after its tiles, which are in these places by rows."""
    tags = [(256, LONG, [wide]), (257, LONG, [high]), (258, SHORT, [8 * kind.itemsize] * samples), (259, SHORT, [DEFLATE]),
            (262, SHORT, [RGB if samples == 3 else GREY]), (277, SHORT, [samples]), (284, SHORT, [1]), (322, LONG, [side]), (323, LONG, [side]),
            (324, LONG, [at for at, _ in places]), (325, LONG, [count for _, count in places])]
    at = file.seek(0, 2)
    file.write(b"\0" * (at % 2))
    at += at % 2
    rows, more, after = [], b"", at + 2 + 12 * len(tags) + 4
    for tag, (number, letter), values in tags:
        data = struct.pack("<%d%s" % (len(values), letter), *values)
        rows.append(struct.pack("<HHI", tag, number, len(values)) + (data.ljust(4, b"\0") if len(data) <= 4 else struct.pack("<I", after + len(more))))
        more += data + b"\0" * (len(data) % 2) if len(data) > 4 else b""
    file.write(struct.pack("<H", len(tags)) + b"".join(rows) + b"\0" * 4 + more)
    file.seek(0)
    file.write(struct.pack("<2sHI", b"II", 42, at))
