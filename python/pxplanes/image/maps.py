"""Reads maps, which have one number a pixel, from the files that renderers write.

OpenImageIO reads EXR, TIFF, HDR, PNG and many more. Netpbm with two images in one file, NPY, text and bare floats are
read here."""
import fnmatch
import io
import mmap
import os
import re
import tempfile
from dataclasses import dataclass
from typing import Any, Iterator, Optional, Sequence, cast

import numpy as np
from numpy.typing import NDArray

from pxplanes import ends
from pxplanes.errors import Trouble
from pxplanes.explain import kinds
from pxplanes.image import netpbm
from pxplanes.image.libraries import needed

Numbers = NDArray[Any]
Size = tuple[int, int]
# Raw maps in a file of more bytes are read in bands of rows, each of at most so many pixels.
LARGE_FILE, BAND = 1 << 28, 1 << 22
PFM = re.compile(rb"P[fF]\s+(\d{1,9})\s+(\d{1,9})\s+[-+.0-9eE]+\s")
PAM = re.compile(rb"P7\n(.*?)ENDHDR\n", re.S)
TEXT = re.compile(rb"\s*(#(?!\?)|[-+.]?[0-9]|[-+]?(inf|nan)\b)", re.I)
SCENE = re.compile(rb"(?:\s|#[^\n]*\n)*pxscene\s")
# Channels that have depths, without regard to capitals; and those of a plain picture.
DEPTHS = ("z", "*.z", "depth", "depth.*", "*.depth*")
PLAIN = {"Y", "I", "A", "R", "G", "B"}
OTHERS = {b"\x1f\x8b": "a gzip file", b"PK\3\4": "a ZIP archive", b"%PDF": "a PDF document", b"\x7fELF": "a program", b"<": "a text in XML or HTML",
          b"{": "a text in JSON"}


class Rows:
    """The numbers of a raw map in a large file, made where they are asked for: a slice of rows, or one pixel."""

    dtype = np.dtype(np.uint32)

    def __init__(self, samples: Numbers, mapped: mmap.mmap):
        self.samples, self.mapped, self.shape = samples, mapped, samples.shape[:2]

    def __getitem__(self, at: Any) -> Any:
        if isinstance(at, tuple):
            return self[at[0]:at[0] + 1][0, at[1]]
        numbers = of_samples(self.samples[at], 255).numbers
        # (what was read stays with the system, and is no memory of this process)
        self.mapped.madvise(mmap.MADV_DONTNEED)
        return numbers

    def __array__(self, dtype: Any = None) -> Numbers:
        numbers: Numbers = self[:]
        return numbers if dtype is None else numbers.astype(dtype)


def bands(shape: Sequence[int]) -> Iterator[slice]:
    """The rows of a map of this shape, from the top, in slices."""
    step = max(1, BAND // shape[1])
    return (slice(top, top + step) for top in range(0, shape[0], step))


@dataclass(frozen=True)
class Map:
    """One number for each pixel: `numbers` has shape (height, width), rows from the top. Its dtype is uint32 if the
    file has whole numbers, and float64 otherwise, where what is not finite is the background.

    `kind` is what the file has for a number: "grey" is one sample, "bytes" three bytes with the highest first, "real" a
    floating-point number."""

    numbers: Numbers
    kind: str

    @property
    def width(self) -> int:
        return int(self.numbers.shape[1])

    @property
    def height(self) -> int:
        return int(self.numbers.shape[0])

    @property
    def is_grey_picture(self) -> bool:
        """Whether its three bytes are alike at every pixel, and not only black or white: a picture of greys, and no
        numbers."""
        if self.kind != "bytes":
            return False
        has_greys = False
        for rows in (slice(0, 1), *bands(self.numbers.shape)):
            numbers = self.numbers[rows]
            low = numbers & 255
            if not (numbers == low * 0x10101).all():
                return False
            has_greys |= bool(((low > 0) & (low < 255)).any())
        return has_greys


def read(name: str, size: Optional[Size] = None, channel: Optional[str] = None) -> list[Map]:
    """The maps of a file, one after another: two at most, which are depths and faces. `-` is standard input.

    If a size is given, a file of so many float32 or float64 without a head is read too. `channel` is the name of the
    one to take. Raises `Trouble` for what is no picture, with its kind, and for a picture without depths, and
    `OSError`."""
    try:
        return maps_of(ends.content(name), name, size, channel)
    except Trouble as trouble:
        raise Trouble("%s: %s" % (name, trouble)) from None


def large(name: str) -> list[Map]:
    """The maps of a large file of raw maps with samples to 255, whose numbers are `Rows`; none of another file."""
    if not os.path.isfile(name) or os.path.getsize(name) <= LARGE_FILE:
        return []
    with open(name, "rb") as file:
        mapped = mmap.mmap(file.fileno(), 0, access=mmap.ACCESS_READ)
    if not re.match(rb"P[56]\s", mapped):
        return []
    found = netpbm.images(cast(bytes, mapped))
    if any(each.largest != 255 for each in found):
        return []
    samples = [np.asarray(each.samples).reshape(each.height, each.width, each.channels) for each in found]
    return [Map(cast(Numbers, Rows(each, mapped)), "grey" if each.shape[2] == 1 else "bytes") for each in samples]


def maps_of(data: bytes, name: str = "-", size: Optional[Size] = None, channel: Optional[str] = None) -> list[Map]:
    """The maps of a file's content."""
    if data[:6] == b"\x93NUMPY":
        return [of_npy(data)]
    if size and len(data) in (4 * size[0] * size[1], 8 * size[0] * size[1]) and not has_head(data):
        form = "<f4" if len(data) == 4 * size[0] * size[1] else "<f8"
        return [Map(np.frombuffer(data, form).reshape(size[1], size[0]).astype(np.float64), "real")]
    if re.match(rb"P7\s", data):
        return [of_pam(data)]
    if re.match(rb"\s*P[2356]\s", data):
        return of_netpbm(data)
    if SCENE.match(data):
        raise Trouble("this is a scene, and not a map: `pxplanes render` draws it")
    if TEXT.match(data[:4096]) and not kinds.kind(data):
        return [of_text(data)]
    return [by_library(data, name, channel)]


def has_head(data: bytes) -> bool:
    """Whether a file begins as one of the forms with a head does, or as text."""
    return data[:8] == netpbm.PNG_HEAD or data[:4] in (b"\x76\x2f\x31\x01", b"II*\0", b"MM\0*") or re.match(
        rb"P[fF23567]\s|\s*[-+.]?[0-9][-+.0-9eE\s,]{7}", data) is not None


def of_samples(samples: Numbers, largest: int) -> Map:
    """The map of samples to `largest`, of shape (height, width, channels); a second or fourth channel, which covers, is
    dropped."""
    channels = samples.shape[2]
    if channels < 3 or samples.dtype != np.uint8 and is_grey(samples):
        return of_numbers(samples[:, :, 0])
    if samples.dtype.kind == "f":
        raise Trouble("it has colours and no depths: R, G and B are not alike")
    if largest != 255:
        raise Trouble("a picture of colours with samples to %d holds no numbers: 255 is expected" % largest)
    four = np.zeros((*samples.shape[:2], 4), np.uint8)
    for at in range(3):
        four[:, :, 2 - at] = samples[:, :, at]
    return Map(four.view("<u4")[:, :, 0], "bytes")


def is_grey(samples: Numbers) -> bool:
    first = samples[:, :, 0]
    return all(bool(np.array_equal(first, samples[:, :, at], samples.dtype.kind == "f")) for at in (1, 2))


def of_numbers(numbers: Numbers) -> Map:
    """The map of one sample a pixel; what is negative, or past 32 bits, becomes float64."""
    if numbers.dtype.kind == "f":
        return Map(numbers.astype(np.float64), "real")
    if numbers.size and (numbers.min() < 0 or numbers.max() >= 2 ** 32):
        return Map(numbers.astype(np.float64), "grey")
    return Map(numbers.astype(np.uint32), "grey")


# ---- what is read here

def of_netpbm(data: bytes) -> list[Map]:
    """The images of a file of P2, P3, P5 or P6, which may follow one another."""
    return [of_samples(np.asarray(each.samples).reshape(each.height, each.width, each.channels), each.largest)
            for each in netpbm.images(data)]


def of_pam(data: bytes) -> Map:
    """A map of P7, of greys or colours, with or without a channel that covers."""
    head = PAM.match(data)
    words = dict(re.findall(rb"^(WIDTH|HEIGHT|DEPTH|MAXVAL)\s+(\d{1,9})\s*$", head.group(1), re.M)) if head else {}
    if head is None or len(words) != 4:
        raise Trouble("the head of the P7 file is not whole")
    width, height, channels, largest = (int(words[name]) for name in (b"WIDTH", b"HEIGHT", b"DEPTH", b"MAXVAL"))
    netpbm.check_size(width, height, largest)
    if not 1 <= channels <= 4:
        raise Trouble("P7 is read with 1 to 4 channels, not %d" % channels)
    samples, _ = netpbm.raw_samples(data, head.end(), width * height * channels, largest)
    return of_samples(np.asarray(samples).reshape(height, width, channels), largest)


def of_npy(data: bytes) -> Map:
    """An array of numpy.save: rows and columns, or these and channels."""
    try:
        found = np.load(io.BytesIO(data), allow_pickle=False)
    except (ValueError, EOFError, OSError) as error:
        raise Trouble("the NPY file is damaged: %s" % str(error).split("\n")[0]) from None
    if found.ndim == 2:
        found = found[:, :, None]
    if found.ndim != 3 or found.dtype.kind not in "buif" or not found.size or found.shape[2] > 4:
        raise Trouble("the NPY file has %s of shape %s: real numbers by rows and columns are expected" % (found.dtype, found.shape))
    return of_samples(found.astype(np.uint8) if found.dtype.kind == "b" else found, 2 ** (8 * found.dtype.itemsize) - 1)


def of_text(data: bytes) -> Map:
    """A number a pixel and a line a row, with blanks or commas between; a comment begins with #."""
    lines = [line.split(b"#")[0].replace(b",", b" ").split() for line in data.split(b"\n")]
    rows = [line for line in lines if line]
    if len({len(row) for row in rows}) != 1:
        raise Trouble("the lines of numbers have different lengths")
    try:
        numbers = np.array([[float(word) for word in row] for row in rows])
    except ValueError:
        raise Trouble("the text has a word that is no number") from None
    is_whole = all(word.isdigit() for row in rows for word in row)
    return of_numbers(numbers.astype(np.int64)) if is_whole else Map(numbers, "real")


# ---- what OpenImageIO reads

def by_library(data: bytes, name: str, channel: Optional[str]) -> Map:
    """A map of any file that OpenImageIO reads."""
    library = needed("OpenImageIO")
    wanted = library.ImageSpec()
    wanted.attribute("oiio:UnassociatedAlpha", 1)
    with tempfile.NamedTemporaryFile(suffix=".picture") as copy:
        image = None if name == "-" else library.ImageInput.open(name, wanted)
        # (the library takes a file for a film without a frame if its name ends like one, as in "maps_qt", whatever it holds)
        if name == "-" or image is not None and not image.seek_subimage(0, 0):
            copy.write(data)
            copy.flush()
            image = library.ImageInput.open(copy.name, wanted)
        if image is None:
            raise Trouble(refused(data, library.geterror()))
        try:
            return of_channels(image, data, channel)
        finally:
            image.close()


def refused(data: bytes, message: str) -> str:
    """What is wrong with a file that is not read: what it is, or why the library refuses it."""
    found = kinds.kind(data)
    kind = found[0] if found and found[1] else next((said for head, said in OTHERS.items() if data.lstrip().startswith(head)), "")
    if kind:
        return "this is %s, and not a picture" % kind
    if not data:
        return "the file is empty"
    if found:
        return "%s that is damaged: %s" % (found[0], message.split("\n")[0])
    return "this is not a picture that can be read: EXR, TIFF, HDR, PNG, PFM, Netpbm, NPY, text and others of OpenImageIO are"


def of_channels(image: Any, data: bytes, channel: Optional[str]) -> Map:
    """The map of the named channel, of the only one that has depths, or of a plain picture."""
    specs: list[Any] = []
    while image.seek_subimage(len(specs), 0):
        specs.append(image.spec())
    if not specs:
        raise Trouble(refused(data, image.geterror()))
    image.geterror()
    found = [(part, at, str(each)) for part, spec in enumerate(specs) for at, each in enumerate(spec.channelnames)]
    part, at = chosen(found, channel)
    spec = specs[part]
    if at is not None:
        form = spec.channelformats[at] if spec.channelformats else spec.format
        return padded(of_numbers(pixels(image, part, at, at + 1, form, spec)[:, :, 0]), spec)
    if data[:2] == b"MM" and has_float_predictor(data):
        raise Trouble("TIFF with the highest byte first and predicted floats is not read: programs disagree about the order of its bytes")
    samples = pixels(image, part, 0, spec.nchannels, spec.format, spec)
    bits = data[24] if data[:8] == netpbm.PNG_HEAD and data[25] == 0 else 8
    if bits < 8:
        samples = samples // (255 // (2 ** bits - 1))
    return padded(of_samples(samples, 2 ** (8 * samples.itemsize) - 1), spec)


def chosen(found: Sequence[tuple[int, int, str]], channel: Optional[str]) -> tuple[int, Optional[int]]:
    """The part of the file and the channel to take; no channel for a plain picture."""
    names = [name for _, _, name in found]
    listed = ", ".join(names[:24]) + (" .." if len(names) > 24 else "")
    if channel is not None:
        fits = [row for row in found if row[2] == channel] or [row for row in found if row[2].lower() == channel.lower()]
        if not fits:
            raise Trouble("there is no channel %s; it has %s" % (channel, listed))
        return fits[0][:2]
    depths = [row for row in found if any(fnmatch.fnmatchcase(row[2].lower(), each) for each in DEPTHS)]
    if len(depths) > 1:
        raise Trouble("several channels may be the depths: %s; name one with --channel" % ", ".join(name for _, _, name in depths))
    if depths:
        return depths[0][:2]
    if {name for part, _, name in found if part == 0} <= PLAIN or len(found) == 1:
        return 0, None
    raise Trouble("no channel is named as depths are (Z, depth): it has %s; name one with --channel" % listed)


def pixels(image: Any, part: int, first: int, end: int, form: Any, spec: Any) -> Numbers:
    """Channels of a part, in their own form; floats as float64."""
    image.seek_subimage(part, 0)
    words = "double" if str(form) in ("half", "float", "double") else str(form)
    found: Any = image.read_image(part, 0, first, end, words)
    if found is None or image.has_error:
        raise Trouble("the file is damaged: %s" % image.geterror().split("\n")[0])
    samples: Numbers = np.asarray(found)
    return samples.reshape(spec.height, spec.width, end - first)


def padded(found: Map, spec: Any) -> Map:
    """The map over the whole picture, where the file has a window of it: the rest is background."""
    x, y, wide, high = spec.x - spec.full_x, spec.y - spec.full_y, spec.full_width, spec.full_height
    if (x, y, wide, high) == (0, 0, found.width, found.height) or not wide or not high:
        return found
    numbers = np.full((high, wide), np.inf)
    left, top, right, bottom = max(x, 0), max(y, 0), min(x + found.width, wide), min(y + found.height, high)
    if left < right and top < bottom:
        numbers[top:bottom, left:right] = found.numbers[top - y:bottom - y, left - x:right - x]
    return Map(numbers, "real")


def has_float_predictor(data: bytes) -> bool:
    """Whether the first picture of a TIFF file with the highest byte first says that its floats are predicted."""
    at = int.from_bytes(data[4:8], "big")
    tags = [data[at + 2 + 12 * i:at + 14 + 12 * i] for i in range(int.from_bytes(data[at:at + 2], "big"))]
    return any(tag[:2] == b"\x01\x3d" and tag[8:10] == b"\0\3" for tag in tags)


# ---- what is written

def png(pixels: Numbers) -> bytes:
    """A PNG file of greys of 16 bits, for uint16 of shape (height, width), or of colours, for uint8 of shape (height,
    width, 3)."""
    lines = [b"\0" + row.tobytes() for row in (pixels.astype(">u2") if pixels.ndim == 2 else pixels)]
    return netpbm.png_file(pixels.shape[1], pixels.shape[0], *((16, 0) if pixels.ndim == 2 else (8, 2)), lines)


def png_of_numbers(numbers: Numbers) -> bytes:
    """Whole numbers as greys of 16 bits, or, if one is greater, as three bytes with the highest first."""
    if numbers.max() < 65536:
        return png(numbers.astype(np.uint16))
    return png(np.stack([numbers >> 16 & 255, numbers >> 8 & 255, numbers & 255], -1).astype(np.uint8))
