"""A board (rtl/boards/), real or in Verilator: scenes sent to its serial port, and the picture that it shows."""
import os
import re
import select
import struct
import subprocess
import termios
import tty
import zlib
from typing import Any, Iterable, Iterator

import numpy as np
import numpy.typing as npt

from pxrtl import ports, programs, proving, simulation
from pxrtl.shared import RTL, Bad, listings, micros, program, scenes, sessions, texts
from pxplanes.image import maps, shades, show

BITS = 72
OPERATIONS = proving.OPERATIONS + ("scan", "paint")
FORMED = ("keep-sign", "keep-at-most", "load-linear", "add-linear")
SHOWN_BITS, TRIES, SECONDS = 7, 5, 1.0
CLOCKS_A_BIT, CLOCKS_A_BIT_OF_BOARDS = 8, 104
# What rtl/bench/run_board.cpp writes of each frame; a monitor shows 60 in a second, and the film its last one for two.
FRAME = np.dtype([("number", "=u4"), ("dots", "=u2", (480, 305))])
FRAMES_A_SECOND, LAST_FRAMES = 60, 120
HEAD, END = 33, 12  # bytes of a PNG file before its pixels and after them
MEMORY = re.compile(rb"^pixel (\d+) (\d+) m ([01]+) e ([01])$", re.M)
SOURCES = list(map(ports.file_of, ("board", "video", "chip", "sequencer", "serial", "word", "tree", "node")))
# A board's FPGA: how yosys, nextpnr and the packer are asked, and its array if no other size is said.
FITTED = {
    "icebreaker": ("synth_ice40", "nextpnr-ice40 --up5k --package sg48 --pcf %s.pcf --asc", "icepack", (2, 3)),
    "hx8k": ("synth_ice40", "nextpnr-ice40 --hx8k --package ct256 --pcf %s.pcf --asc", "icepack", (3, 4)),
    "ulx3s": ("synth_ecp5", "nextpnr-ecp5 --85k --package CABGA381 --lpf %s.lpf --textcfg", "ecppack", (4, 4))}
Grid = npt.NDArray[np.int64]
Pixels = npt.NDArray[np.uint8]


def colours_of(numbers: Any) -> Pixels:
    """Colours of three bytes from numbers of 24 bits."""
    return np.stack([numbers >> 16 & 255, numbers >> 8 & 255, numbers & 255], -1).astype(np.uint8)


def groups(number: int, count: int) -> list[int]:
    """A number in two's complement, seven bits a byte, lowest first."""
    return [number >> 7 * at & 127 for at in range(count)]


def frame(name: str, turn: int, at: int = 0, length: int = 0, to: int = 0, form: Iterable[int] = (0, 0, 0)) -> bytes:
    """The 21 bytes of an operation (rtl/chip/chip.v)."""
    a, b, c = form
    body = [128 | turn << 6 | OPERATIONS.index(name), at, length, to] + groups(a, 5) + groups(b, 5) + groups(c, 6)
    return bytes(body + [sum(body) % 128])


def frame_of(name: str, numbers: list[int], turn: int) -> bytes:
    """The frame of an operation of a listing."""
    if name in FORMED:
        return frame(name, turn, *numbers[3:], form=numbers[:3])
    if name == "load-const":
        return frame(name, turn, numbers[0], numbers[1], form=(0, 0, numbers[2]))
    if name in ("copy", "keep-less"):
        return frame(name, turn, *numbers)
    return frame(name, turn, numbers[0] if numbers else 0, 0, numbers[1] if len(numbers) > 1 else 0)


class Link:
    """The serial line to a board, as two files. Each frame is sent until its echo comes."""

    def __init__(self, reads: int, writes: int):
        self.reads, self.writes, self.turn = reads, writes, 0

    def write(self, sent: bytes) -> None:
        os.write(self.writes, sent)

    def read(self, count: int) -> bytes:
        """So many bytes; fewer if no further one comes for some time."""
        found = b""
        while len(found) < count and select.select([self.reads], [], [], SECONDS)[0]:
            more = os.read(self.reads, count - len(found))
            if not more:
                break
            found += more
        return found

    def send(self, name: str, numbers: list[int]) -> None:
        """Sends an operation of a listing. It is done once, however often its frame is sent."""
        self.turn ^= 1
        self.echoed(frame_of(name, numbers, self.turn))

    def echoed(self, sent: bytes) -> None:
        for _ in range(TRIES):
            self.write(sent)
            if self.read(1) == sent[-1:]:
                return
            self.read(1 << 16)
        raise Bad("the board did not answer %d times" % TRIES)

    def begin(self, colours: dict[int, tuple[int, int, int]], bits: int) -> None:
        """Wipes the memory and sends the colours of the face numbers, which have so many bits."""
        self.turn = 0
        self.echoed(frame("wipe", 0))
        for number, (red, green, blue) in colours.items():
            self.echoed(frame("paint", 0, number, bits, form=(0, 0, red >> 4 << 8 | green & 0xf0 | blue >> 4)))

    def scan(self, nx: int, ny: int) -> list[tuple[str, str]]:
        """Of each pixel, by its number, the memory from bit 0 on, and enable."""
        each = max(1, (1 << nx + ny) // 8)
        for _ in range(TRIES):
            self.echoed(frame("scan", 0))
            found = self.read((BITS + 1) * each + 1)
            if len(found) == (BITS + 1) * each + 1 and not np.bitwise_xor.reduce(np.frombuffer(found, np.uint8)):
                rows = np.frombuffer(found[:-1], np.uint8).reshape(-1, each)
                planes = np.unpackbits(rows, 1, bitorder="little")[:, :1 << nx + ny]
                words = ["".join(map(str, pixel)) for pixel in planes.T]
                return [(word[:BITS], word[BITS]) for word in words]
            self.read(1 << 16)
        raise Bad("the board did not send what %d by %d pixels hold" % (1 << nx, 1 << ny))


class Port(Link):
    """A serial port at 115200 bits a second."""

    def __init__(self, path: str):
        port = os.open(path, os.O_RDWR | os.O_NOCTTY)
        tty.setraw(port)
        settings = termios.tcgetattr(port)
        settings[4] = settings[5] = termios.B115200
        termios.tcsetattr(port, termios.TCSANOW, settings)
        super().__init__(port, port)


class Simulated(Link):
    """A whole board in Verilator. `close` gives what its monitor shows. A film gets the frames of each board, with the
    serial line as slow as that of a real board."""

    def __init__(self, path: str, folder: str, film: "list[tuple[Pixels, int]] | None" = None):
        self.picture, self.film, self.frames = os.path.join(folder, "picture.ppm"), film, os.path.join(folder, "film")
        speed = CLOCKS_A_BIT if film is None else CLOCKS_A_BIT_OF_BOARDS
        words = [path, str(speed), self.picture] + [self.frames] * (film is not None)
        self.process = subprocess.Popen(words, stdin=subprocess.PIPE, stdout=subprocess.PIPE)
        assert self.process.stdin and self.process.stdout
        super().__init__(self.process.stdout.fileno(), self.process.stdin.fileno())

    def close(self) -> Pixels:
        assert self.process.stdin and self.process.stdout
        self.process.stdin.close()
        if self.process.wait() != 0:
            raise Bad("the simulation ended before its time")
        self.process.stdout.close()
        if self.film is not None:
            frames = np.fromfile(self.frames, FRAME)
            lasts = np.append(np.diff(frames["number"]), LAST_FRAMES)
            dots = frames["dots"].repeat(2, 2)
            colours = 17 * np.stack([dots >> 8, dots >> 4 & 15, dots & 15], -1).astype(np.uint8)
            self.film += zip(colours, map(int, lasts))
        with open(self.picture, "rb") as file:
            return colours_of(maps.of_netpbm(file.read())[0].numbers)


def animated(frames: list[tuple[Pixels, int]]) -> bytes:
    """An animated PNG of pictures of one size, each with how many 60ths of a second it is shown. What shows no
    animation shows the last of them."""
    def chunk(name: bytes, body: bytes) -> bytes:
        return struct.pack(">I", len(body)) + name + body + struct.pack(">I", zlib.crc32(name + body))

    still, moving = maps.png(frames[-1][0]), b""
    for at, (picture, shown) in enumerate(frames):
        lines = zlib.compress(b"".join(b"\0" + row.tobytes() for row in picture), 9)
        control = struct.pack(">5I2H2B", 2 * at, picture.shape[1], picture.shape[0], 0, 0, shown, FRAMES_A_SECOND, 0, 0)
        moving += chunk(b"fcTL", control) + chunk(b"fdAT", struct.pack(">I", 2 * at + 1) + lines)
    return still[:HEAD] + chunk(b"acTL", struct.pack(">II", len(frames), 0)) + still[HEAD:-END] + moving + still[-END:]


def built(nx: int, ny: int, clocks_a_bit: int = CLOCKS_A_BIT) -> str:
    """The program that runs a board of this size; it is made if it is not kept."""
    words = ["-GNX=%d" % nx, "-GNY=%d" % ny, "-GCLOCKS_A_BIT=%d" % clocks_a_bit]
    sources = [ports.file_of("icebreaker")] + SOURCES
    return simulation.kept("icebreaker", words, sources, simulation.bench("run_board.cpp"))


class Drawing:
    """A scene or a listing on boards of 2^nx by 2^ny pixels, in windows if it is larger: what each of them is sent, and
    what it must hold."""

    def __init__(self, text: bytes, nx: int, ny: int, every: int, path: str | None):
        self.program, self.nx, self.ny = program.needed(path), nx, ny
        self.size, self.bits, self.scene, self.windows = (1 << nx, 1 << ny), 4, None, [(0, 0)]
        colours = show.colours_of_faces(range(1 << self.bits))
        if not listings.is_listing(text):
            self.accepted("cost", sessions.parted(text)[0])
            self.scene = texts.coarser(scenes.read(sessions.parted(text)[0]), every)
            self.size, self.bits = (self.scene.width, self.scene.height), self.scene.number_bits()
            colours = [(0, 0, 0)] + [colour for _, _, _, _, colour, _ in self.scene.faces()]
            self.windows = [(left, top) for top in range(0, self.size[1], 1 << ny)
                            for left in range(0, self.size[0], 1 << nx)]
        self.text, self.shown_bits = text, min(self.bits, SHOWN_BITS)
        self.colours = dict(enumerate(colours[:1 << self.shown_bits]))
        self.palette = np.array([[part >> 4 << 4 | part >> 4 for part in colour] for colour in self.colours.values()],
                                np.uint8)

    def accepted(self, word: str, text: bytes) -> bytes:
        """What the program writes of a text; its line of refusal as trouble."""
        status, output, note = program.answer(self.program, [word], text)
        if status != 0:
            raise Bad(note)
        return bytes(output)

    def listing(self, left: int, top: int) -> bytes:
        """The operations of a window."""
        if self.scene:
            window = texts.tile(self.scene, left, top, 1 << self.nx, 1 << self.ny)
            return self.accepted("list", texts.text_of(window).encode())
        self.accepted("play", self.text)
        if any(asked > given for asked, given in zip(micros.read_listing(self.text)[:2], (self.nx, self.ny))):
            raise Bad("the grid of the listing is larger than the board's, %d by %d" % (1 << self.nx, 1 << self.ny))
        return re.sub(rb"(?m)^(\s*grid)\s+\d+\s+\d+", rb"\1 %d %d" % (self.nx, self.ny), self.text, count=1)

    def window(self, link: Link, left: int, top: int) -> tuple[Grid, str | None]:
        """Draws a window: its keys B, and the first pixel that does not hold what `play` prints."""
        listing = self.listing(left, top)
        link.begin(self.colours, self.shown_bits)
        for name, numbers in micros.read_listing(listing)[2]:
            link.send(name, numbers)
        found, wrong = link.scan(self.nx, self.ny), None
        for x, y, memory, enable in MEMORY.findall(self.accepted("play", listing)):
            due, held = (memory.decode(), enable.decode()), found[(int(x) << self.ny) + int(y)]
            if held != due and wrong is None:
                wrong = "pixel (%d, %d) holds %s, enable %s; `play` prints %s, enable %s" % (
                    (left + int(x), top + int(y)) + held + due)
        keys = [int(held[0][:self.key_bits][::-1], 2) for held in found]
        return np.array(keys, np.int64).reshape(1 << self.nx, 1 << self.ny).T, wrong

    @property
    def key_bits(self) -> int:
        return self.bits + self.scene.depth_bits + self.scene.fraction_bits if self.scene else self.bits

    def whole(self, parts: dict[tuple[int, int], Any]) -> Any:
        """The windows side by side, as large as the picture."""
        (_, some), *_ = parts.items()
        board = np.zeros((self.size[1] + some.shape[0], self.size[0] + some.shape[1]) + some.shape[2:], some.dtype)
        for (left, top), part in parts.items():
            board[top:top + part.shape[0], left:left + part.shape[1]] = part
        return board[:self.size[1], :self.size[0]]

    def differs(self, keys: Grid) -> str | None:
        """Where the picture is not that of `render`."""
        if not self.scene:
            return None
        drawn = maps.of_netpbm(self.accepted("render", texts.text_of(self.scene).encode()))
        low = self.bits + self.scene.fraction_bits
        for name, found, due in zip(("depth", "face"), (keys >> low, keys & (1 << self.bits) - 1), drawn):
            for y, x in np.argwhere(found != due.numbers)[:1]:
                return "pixel (%d, %d) has %s %d, and %d is rendered" % (x, y, name, found[y, x], due.numbers[y, x])
        return None

    def on_monitor(self, monitor: Pixels) -> Pixels:
        """The colour of each pixel on a monitor, in the midst of its square (rtl/boards/video.v)."""
        side = min(478 >> self.ny, 610 >> self.nx) // 2 * 2
        top, left = (480 - (side << self.ny)) // 2, (305 - (side // 2 << self.nx)) // 2 * 2
        return monitor[top + side // 2:top + (side << self.ny):side, left + side // 2:left + (side << self.nx):side]

    def painted(self, keys: Grid) -> Pixels:
        """The colours of face numbers, as a board has them."""
        numbers = keys & (1 << self.shown_bits) - 1
        return self.palette[np.minimum(numbers, len(self.palette) - 1)]

    def drawn(self, links: Iterator[Link]) -> tuple[list[str], Pixels]:
        """Draws all windows: what is wrong, and the picture."""
        keys, seen, wrong, monitor = {}, {}, [], None
        for (left, top), link in zip(self.windows, links):
            keys[left, top], why = self.window(link, left, top)
            wrong += [why] if why else []
            seen[left, top] = self.painted(keys[left, top])
            if isinstance(link, Simulated):
                monitor = link.close()
                shown = self.on_monitor(monitor)
                for y, x in np.argwhere((shown != seen[left, top]).any(2))[:1]:
                    wrong.append("the monitor shows %s at pixel (%d, %d), and its colour is %s" % (
                        shown[y, x], left + x, top + y, seen[left, top][y, x]))
                seen[left, top] = shown
        other = self.differs(self.whole(keys))
        picture = monitor if monitor is not None and len(keys) == 1 else shades.enlarged(self.whole(seen))
        return wrong + ([other] if other else []), picture

    def describe(self, path: str, board: str) -> str:
        """The line of a drawing in which nothing differs."""
        windows = " in %d windows" % len(self.windows) if len(self.windows) > 1 else ""
        return "%s: %d by %d pixels on %s of %d by %d%s; it holds what `play` prints%s%s" % (
            (path,) + self.size + (board, 1 << self.nx, 1 << self.ny, windows,
                                   ", and `render` draws the same" * bool(self.scene),
                                   "; a colour has 7 bits of a face's number" * (self.bits > SHOWN_BITS)))


def fitted(folder: str, board: str, nx: int, ny: int) -> tuple[list[str], str]:
    """The lines that say what a chip of this size takes of a board's FPGA, and the path of its bitstream."""
    synth, place, pack, size = FITTED[board]
    nx, ny = nx or size[0], ny or size[1]
    placer, *words = (place % os.path.join(RTL, "boards", board)).split()
    commands = [programs.needed(command) for command in ("yosys", placer, pack)]
    script = "read_verilog %s; chparam -set NX %d -set NY %d %s; %s -top %s -json board.json" % (
        " ".join([ports.file_of(board)] + SOURCES), nx, ny, board, synth, board)
    programs.made([commands[0], "-q", "-p", script], folder)
    printed = programs.made([commands[1]] + words + ["board.asc", "--json", "board.json", "--seed", "1"], folder)
    programs.made([commands[2], "board.asc", "board.bin"], folder)
    used = re.findall(r"^Info:\s+(ICESTORM_LC|ICESTORM_RAM|TRELLIS_COMB|TRELLIS_FF|DP16KD):\s+(\d+)/\s*(\d+)", printed,
                      re.M)
    speed = re.findall(r"Max frequency for clock '[^']*': ([0-9.]+) MHz", printed)
    lines = ["%d by %d pixels of %d bits on %s:" % (1 << nx, 1 << ny, BITS, board)]
    lines += ["  %s %s of %s" % it for it in dict((row[0], row) for row in used).values()]
    return lines + ["  %s MHz at the most, by nextpnr" % speed[-1]] * bool(speed), os.path.join(folder, "board.bin")
