"""Reads images of Netpbm and writes pictures as PNG: what the tools share. It is no tool itself."""
from __future__ import annotations

import array
import itertools
import re
import struct
import sys
import zlib
from dataclasses import dataclass
from typing import Iterable, Sequence, Union

from pxplanes.errors import Trouble

CHANNELS = {b"P2": 1, b"P3": 3, b"P5": 1, b"P6": 3}
PLAIN = (b"P2", b"P3")
COMMENT = rb"#[^\n]*(?:\n|\Z)"
GAP = rb"(?:\s|%s)" % COMMENT
HEAD = re.compile(rb"%s*(P[2356])%s+(\d{1,9})%s+(\d{1,9})%s+(\d{1,9})(?!\d)" % ((GAP,) * 4))
MORE = re.compile(rb"%s*[^\s#]" % GAP)
WORD = re.compile(rb"%s|[^\s#]+" % COMMENT)
LARGEST_SIDE = 65536
PNG_HEAD = b"\x89PNG\r\n\x1a\n"
Samples = Union["array.array[int]", memoryview]


@dataclass(frozen=True)
class Image:
    """`samples` has one or three numbers a pixel, row by row from the top, each to `largest`: bytes, if that is less than 256."""

    width: int
    height: int
    channels: int
    largest: int
    samples: Samples

    def numbers(self) -> list[int]:
        """One number a pixel: a grey sample, or three bytes, highest byte first."""
        if self.channels == 1:
            return list(self.samples)
        if self.largest != 255:
            raise Trouble("a pixel map with samples to %d holds no numbers; 255 is expected" % self.largest)
        count = self.width * self.height
        padded = bytearray(4 * count)
        for at in range(3):
            padded[at + 1::4] = bytes(self.samples[at::3])
        return list(struct.unpack(">%dI" % count, padded))

    def colours(self) -> list[tuple[int, int, int]]:
        """Red, green and blue to 255 of each pixel."""
        to_byte = [255 * sample // self.largest for sample in range(self.largest + 1)]
        flat = [to_byte[sample] for sample in self.samples]
        if self.channels == 1:
            return [(grey, grey, grey) for grey in flat]
        return list(zip(flat[0::3], flat[1::3], flat[2::3]))


def check_size(width: int, height: int, largest: int) -> None:
    """Refuses an image of no size, or of one that is too large."""
    for what, number, most in (("width", width, LARGEST_SIDE), ("height", height, LARGEST_SIDE), ("greatest sample", largest, 65535)):
        if not 1 <= number <= most:
            raise Trouble("the %s is no number from 1 to %d" % (what, most))


def room_for(largest: int) -> array.array[int]:
    """An empty list of samples."""
    return array.array("H" if largest > 255 else "B")


def plain_samples(data: bytes, at: int, count: int, largest: int) -> tuple[array.array[int], int]:
    """So many samples in digits from a byte on, and the byte after them."""
    samples, words = room_for(largest), (word for word in WORD.finditer(data, at) if word[0][:1] != b"#")
    for word in itertools.islice(words, count):
        if not word[0].isdigit() or len(word[0]) > 9 or int(word[0]) > largest:
            raise Trouble("sample %d of the image is no number to %d" % (len(samples) + 1, largest))
        samples.append(int(word[0]))
        at = word.end()
    if len(samples) < count:
        raise Trouble("the image ends early: %d samples of %d" % (len(samples), count))
    return samples, at


def raw_samples(data: bytes, at: int, count: int, largest: int) -> tuple[Samples, int]:
    """So many samples of one byte or two from a byte on, and the byte after them. Bytes are not copied."""
    size = count * room_for(largest).itemsize
    if at + size > len(data):
        raise Trouble("the image ends early: %d bytes of %d" % (max(len(data) - at, 0), size))
    samples: Samples = memoryview(data)[at:at + size]
    if largest > 255:
        samples = array.array("H", samples.tobytes())
        if sys.byteorder == "little":
            samples.byteswap()
    if largest not in (255, 65535) and max(samples) > largest:
        raise Trouble("a sample is greater than %d" % largest)
    return samples, at + size


def image_at(data: bytes, at: int) -> tuple[Image, int]:
    """The image that begins at a byte, and the byte after it."""
    head = HEAD.match(data, at)
    if head is None:
        raise Trouble("no image begins at byte %d: P2, P3, P5 or P6 with width, height and greatest sample is expected" % at)
    kind, (width, height, largest) = head[1], map(int, head.groups()[1:])
    check_size(width, height, largest)
    take = plain_samples if kind in PLAIN else raw_samples
    samples, at = take(data, head.end() + 1, width * height * CHANNELS[kind], largest)
    return Image(width, height, CHANNELS[kind], largest, samples), at


def images(data: bytes) -> list[Image]:
    """The images of a file, one after another, two at most; blanks and comments may follow the last."""
    found: list[Image] = []
    at = 0
    while not found or MORE.match(data, at):
        if len(found) == 2:
            raise Trouble("there is more after two images")
        image, at = image_at(data, at)
        found.append(image)
    if any((each.width, each.height) != (found[0].width, found[0].height) for each in found):
        raise Trouble("the two images differ in size")
    return found


def header(width: int, height: int) -> bytes:
    """What an image of three bytes a pixel begins with."""
    return b"P6\n%d %d\n255\n" % (width, height)


def png(width: int, height: int, colours: Sequence[Sequence[int]], wanted_side: int = 512) -> bytes:
    """A PNG picture. A small one is enlarged by a whole factor, up to the wanted side."""
    factor = max(1, wanted_side // max(width, height))
    lines = []
    for y in range(height):
        row = colours[y * width:(y + 1) * width]
        line = b"\0" + b"".join(bytes(colour) * factor for colour in row)
        lines.append(line * factor)
    return png_file(width * factor, height * factor, 8, 2, lines)


def png_file(width: int, height: int, bits: int, kind: int, lines: Iterable[bytes]) -> bytes:
    """A PNG file of lines, each with its filter before it."""
    def chunk(name: bytes, body: bytes) -> bytes:
        return struct.pack(">I", len(body)) + name + body + struct.pack(">I", zlib.crc32(name + body))

    packing = zlib.compressobj(9)
    packed = b"".join(map(packing.compress, lines)) + packing.flush()
    return (PNG_HEAD + chunk(b"IHDR", struct.pack(">IIBBBBB", width, height, bits, kind, 0, 0, 0))
            + chunk(b"IDAT", packed) + chunk(b"IEND", b""))


def png_content(data: bytes) -> tuple[bytes, bytes]:
    """The head and the bytes of the pixels of a PNG file as `png` writes it, unpacked, so that
    two libraries that pack differently are no difference."""
    if data[:8] != PNG_HEAD:
        raise Trouble("this is no PNG file")
    at, head, packed = 8, b"", b""
    while at + 8 <= len(data):
        size, kind = struct.unpack(">I4s", data[at:at + 8])
        body = data[at + 8:at + 8 + size]
        head, packed = head + body * (kind == b"IHDR"), packed + body * (kind == b"IDAT")
        at += 12 + size
    try:
        return head, zlib.decompress(packed)
    except zlib.error:
        raise Trouble("the PNG file is damaged")
