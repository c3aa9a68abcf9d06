"""A debugger for people, over the broadcasts of a scene or a listing: it says in words where the machine is, and what changed.

The answers come from `pxplanes debug`, which runs as long as the debugger does, or for a listing from the library."""
import bisect
import difflib
import subprocess
from typing import Callable, Iterator, Optional

from pxplanes import program
from pxplanes.errors import Trouble
from pxplanes.machine import listings, passes, sessions
from pxplanes.scene import scenes

HELP = """Moves:
  step [N], back [N]     N clocks forward or back (1); `back` alone also takes back the last move
  macro [N]              to the end of this operation, or of N of them
  run, until N           to the end, or to clock N
  until WHAT [X Y] [rises]   until that changes, or rises: enable, carry, latch, bit AT, depth, face, of the watched pixel or of X Y
  until OPERATION        until such an operation begins, as keep-less
Looks:
  where                  the pass, the operation, the clock, what it is for, and the watched pixel
  watch X Y              a pixel to watch; `watch` alone ends that
  pixel X Y, field X Y   its memory and registers; the keys of a scene's pixel
  plane AT               a bit of every pixel, as a picture; also enable, carry or latch
  tree LEVEL INDEX, trace    a node of the tree; the last 32 broadcasts
  at                     the clock, the operation and the microinstruction, as `pxplanes debug` answers
  help, quit"""
REGISTERS = {"enable": 6, "carry": 8, "latch": 10}
MOST_ACROSS, MOST_DOWN = 128, 96
BLOCKS = {(0, 0): " ", (1, 0): "\u2580", (0, 1): "\u2584", (1, 1): "\u2588"}
NUMBERED = {"step": (0, 1), "back": (0, 1), "macro": (0, 1), "run": (0, 0), "pixel": (2, 2), "field": (2, 2), "tree": (2, 2), "trace": (0, 0),
            "at": (0, 0), "plane": (1, 1), "watch": (0, 2), "where": (0, 0), "help": (0, 0), "until": (1, 5), "quit": (0, 0)}


class Mistaken(Exception):
    """A line that asks for nothing that there is; its text says why."""


class Machine:
    """Answers lines of the debugger's language over a scene, or a listing, for as long as it is open."""

    def __init__(self, text: bytes):
        self.is_listing = listings.is_listing(text)
        self.keys: Optional[passes.Keys] = None
        listing = listings.Listing(text)
        self.wide, self.high, self.ends = 1 << listing.nx, 1 << listing.ny, [0, *listing.ends]
        if self.is_listing:
            self.rows, self.passes = passes.of_listing(listing.operations)
            self.answer: Callable[[bytes], list[bytes]] = listings.Session(text).answer
        else:
            built, scene = program.needed(None), scenes.read(text)
            self.keys = passes.Keys(scene)
            products = passes.products_of(scene, program.answer(built, ["plan"], text)[1])
            self.rows, self.passes = passes.of_scene(scene, products, listing.operations)
            self.answer = self.process(built, text)

    @staticmethod
    def process(built: str, text: bytes) -> Callable[[bytes], list[bytes]]:
        """One who asks a session of the program, line by line."""
        session = subprocess.Popen([built, "debug"], stdin=subprocess.PIPE, stdout=subprocess.PIPE)
        assert session.stdin and session.stdout
        ask, lines, answers = session.stdin, session.stdout, sessions.Answers()
        ask.write(text if text.endswith(b"\n") else text + b"\n")

        def answer(line: bytes) -> list[bytes]:
            try:
                ask.write(line + b"\n")
                ask.flush()
            except BrokenPipeError:
                raise Trouble("the session ended") from None
            return [each.rstrip(b"\n") for each in answers.taken(line, lines.readline)]

        return answer

    def pixel(self, x: int, y: int) -> list[str]:
        """The words of a pixel's answer."""
        words = self.answer(b"pixel %d %d" % (x, y))[0].decode().split()
        if words[0] == "?":
            raise Mistaken("the array has columns 0 to %d and rows 0 to %d" % (self.wide - 1, self.high - 1))
        return words


class Debugger:
    """The state of a session: `now` is the clock, and `watched` the pixel that is watched."""

    def __init__(self, text: bytes):
        self.machine = Machine(text)
        self.now, self.before, self.watched = 0, [0], (-1, -1)

    def obey(self, line: str) -> list[str]:
        """The lines that answer one; `quit` raises `EOFError`."""
        words = line.partition("#")[0].split()
        if not words:
            return []
        least, most = NUMBERED.get(words[0], (-1, -1))
        if least < 0:
            near = difflib.get_close_matches(words[0].lower(), NUMBERED, 1)
            return ["%s is no command%s; `help` lists them" % (words[0], " (did you mean %s?)" % near[0] if near else "")]
        if not least <= len(words) - 1 <= most or words[0] == "watch" and len(words) == 2:
            return ["%s takes %s; `help` says which" % (words[0], "%s" % (most or "no") + " number" + "s" * (most != 1) if least == most else "%d to %d words" % (least, most))]
        try:
            return list(self.answered(words))
        except Mistaken as mistake:
            return [str(mistake)]

    def answered(self, words: list[str]) -> Iterator[str]:
        word = words[0]
        if word == "quit":
            raise EOFError
        if word == "help":
            yield from HELP.split("\n")
        elif word == "until" and not words[1].isdigit():
            yield from self.until(words[1:])
        elif word == "plane":
            yield from self.plane(words[1])
        else:
            numbers = [number(each) for each in words[1:]]
            if word == "watch":
                if numbers:
                    self.machine.pixel(*numbers)
                self.watched = (numbers[0], numbers[1]) if numbers else (-1, -1)
                yield self.watching() if numbers else "no pixel is watched"
            elif word == "where":
                yield from self.where()
            elif word == "back" and not numbers:
                yield from self.moved(self.before.pop() if len(self.before) > 1 else 0, is_back=True)
            elif word in ("step", "back", "until", "run", "macro"):
                yield from self.moved(self.target(word, numbers))
            else:
                line = " ".join(words).encode()
                fault = sessions.fault(line, self.machine.wide, self.machine.high, self.machine.is_listing)
                if fault:
                    raise Mistaken(fault)
                yield from (said.decode("latin-1") for said in self.machine.answer(line))

    def target(self, word: str, numbers: list[int]) -> int:
        """The clock that a move goes to."""
        ends: list[int] = self.machine.ends
        count = numbers[0] if numbers else 1
        if word == "macro":
            return ends[min(bisect.bisect_right(ends, self.now) - 1 + count, len(ends) - 1)]
        return {"step": self.now + count, "back": self.now - count, "until": count, "run": ends[-1]}[word]

    def to(self, clock: int) -> None:
        """Moves the machine."""
        move = b"until %d" % clock if clock >= self.now else b"back %d" % (self.now - clock)
        self.machine.answer(move)
        self.now = clock

    def moved(self, clock: int, is_back: bool = False) -> Iterator[str]:
        """Moves to a clock within the program, and says where that is."""
        before = self.now
        self.to(max(0, min(clock, self.machine.ends[-1])))
        if not is_back and self.now != before:
            self.before.append(before)
        yield from self.where()

    def where(self) -> Iterator[str]:
        """The place in words, and the watched pixel."""
        machine, total = self.machine, self.machine.ends[-1]
        if self.now == total:
            yield "clock %d of %d: done" % (self.now, total)
        else:
            at = bisect.bisect_right(machine.ends, self.now) - 1
            row = machine.rows[at]
            yield "clock %d of %d, pass %d of %d: %s" % (self.now, total, row.in_pass + 1, len(machine.passes), machine.passes[row.in_pass])
            yield "  operation %d of %d, its clock %d of %d: %s: %s" % (
                at + 1, len(machine.rows), self.now - machine.ends[at] + 1, machine.ends[at + 1] - machine.ends[at],
                " ".join([row.name, *map(str, row.numbers)]), row.words)
        if self.watched[0] >= 0:
            yield "  " + self.watching()

    def watching(self) -> str:
        """The watched pixel in words."""
        x, y = self.watched
        words = self.machine.pixel(x, y)
        said = "pixel %d %d: " % (x, y) + ", ".join("%s %s" % (name, words[at]) for name, at in REGISTERS.items())
        keys = self.machine.keys
        if keys:
            said += ", best key depth %d face %d, candidate depth %d face %d" % tuple(
                keys.number(words[4], key, what) for key in "BT" for what in ("depth", "face"))
        return said

    def until(self, words: list[str]) -> Iterator[str]:
        """Runs until something of a pixel changes, and says from what to what."""
        rises = words[-1] == "rises"
        thing, rest = words[0], words[1:len(words) - rises]
        if thing in passes.OPERATIONS and len(words) == 1:
            begin = [clock for row, clock in zip(self.machine.rows, self.machine.ends) if row.name == thing and clock > self.now]
            yield from self.moved(begin[0]) if begin else ["no %s begins any more" % thing]
            return
        bit = number(rest.pop(0)) if thing == "bit" and rest else 0
        if thing not in (*REGISTERS, "bit", "depth", "face") or len(rest) not in (0, 2) or not rest and self.watched[0] < 0:
            raise Mistaken("until takes a clock, or enable, carry, latch, bit AT, depth or face, and X Y unless a pixel is watched")
        x, y = map(number, rest) if rest else self.watched
        start, old, name = self.now, self.value(thing, bit, x, y), "bit %d" % bit if thing == "bit" else thing
        for clock in self.clocks(thing):
            self.to(clock)
            new = self.value(thing, bit, x, y)
            if new > old if rises else new != old:
                break
            old = new
        else:
            self.to(start)
            yield "%s of pixel %d %d does not %s any more" % (name, x, y, "rise" if rises else "change")
            return
        while thing not in REGISTERS and self.value(thing, bit, x, y) == new:
            self.to(self.now - 1)
        self.to(self.now + (thing not in REGISTERS))
        self.before.append(start)
        yield "%s of pixel %d %d: %d, and %d before" % (name, x, y, new, old)
        yield from self.where()

    def clocks(self, thing: str) -> Iterator[int]:
        """The clocks at which something is looked at: each for a register; for memory the ends of operations, each of which changes a bit
        once at most."""
        if thing in REGISTERS:
            return iter(range(self.now + 1, self.machine.ends[-1] + 1))
        return (end for end in self.machine.ends if end > self.now)

    def value(self, thing: str, bit: int, x: int, y: int) -> int:
        """A value of a pixel."""
        words = self.machine.pixel(x, y)
        if thing in REGISTERS:
            return int(words[REGISTERS[thing]])
        if thing == "bit":
            if bit >= len(words[4]):
                raise Mistaken("a pixel has the bits 0 to %d" % (len(words[4]) - 1))
            return int(words[4][bit])
        if self.machine.keys is None:
            raise Mistaken("a listing has no keys")
        return int(self.machine.keys.number(words[4], "B", thing))

    def plane(self, what: str) -> Iterator[str]:
        """A bit of the pixels in block characters, two rows a line; of a large array each so many pixels alone."""
        if what not in REGISTERS:
            number(what)
        every = max(-(-self.machine.wide // MOST_ACROSS), -(-self.machine.high // MOST_DOWN), 1)
        rows = [[self.value(what, 0, x, y) if what in REGISTERS else self.value("bit", int(what), x, y)
                 for x in range(0, self.machine.wide, every)] for y in range(0, self.machine.high, every)]
        rows += [[0] * len(rows[0])] * (len(rows) % 2)
        for above, below in zip(rows[::2], rows[1::2]):
            yield "".join(BLOCKS[pair] for pair in zip(above, below)).rstrip()
        yield "%s at clock %d%s" % (what if what in REGISTERS else "bit " + what, self.now, ", each %d pixels" % every if every > 1 else "")


def number(word: str) -> int:
    """A number of a line."""
    if not word.isdigit() or len(word) > 18:
        raise Mistaken("%s is no number: 1 to 18 digits are" % word)
    return int(word)
