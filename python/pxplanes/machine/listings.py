"""Listings (docs/LISTINGS.md): what one has, and a session over one.

`pxplanes debug` holds sessions over scenes. Over a listing `held` answers the same lines in the same words, by what the
library says of its states and microinstructions; all but `field`, as a listing has no keys."""
import bisect
import itertools
from typing import Callable, Optional, Sequence

from pxplanes import program
from pxplanes.errors import NoLibrary, Refused, Trouble
from pxplanes.machine import micros, operations, passes, sessions, states
from pxplanes.scene import scenes

# The line of a listing that `list` writes that has its first operation.
FIRST_LINE = 3
Answer = list[str]


def first_word(text: bytes) -> bytes:
    """The first word of a text that is no comment; empty if there is none."""
    lines = (sessions.words_of(line.split(b"#")[0]) for line in text.split(b"\n"))
    return next((words[0] for words in lines if words), b"")


def is_listing(text: bytes) -> bool:
    """Whether a text is meant as one: the first word of all is that of its header."""
    return first_word(text) == b"pxlist"


def grid_of(text: bytes) -> tuple[int, int]:
    """The columns and rows of the array of a listing or a scene."""
    if is_listing(text):
        return 1 << Listing(text).nx, 1 << Listing(text).ny
    scene = scenes.read(text)
    return program.grid(scene.width, scene.height)


class Listing:
    """A listing that the program accepts, or the one that `list` writes of a scene: its grid, its operations with
    their lines, and at which clock each ends."""

    def __init__(self, text: bytes):
        self.text = text
        if not is_listing(text):
            self.of_scene(text)
            return
        try:
            first = states.state(text, 0)
        except (Refused, NoLibrary) as error:
            raise Trouble(error) from None
        self.nx, self.ny = (side.bit_length() - 1 for side in (first.grid_width, first.grid_height))
        course = operations.course(text)
        self.operations = [(each.kind, list(each.numbers)) for each in course]
        lines = [number for number, line in enumerate(text.split(b"\n"), 1) if sessions.words_of(line.split(b"#")[0])]
        self.lines = lines[2:2 + len(self.operations)]
        self.ends: list[int] = [each.clock for each in course[1:]] + [first.clocks] * bool(course)

    def of_scene(self, scene: bytes) -> None:
        self.nx, self.ny, self.operations = micros.read_listing(program.output(program.needed(None), "list", scene))
        self.lines = list(range(FIRST_LINE, FIRST_LINE + len(self.operations)))
        levels = self.nx + self.ny
        self.ends = list(itertools.accumulate(micros.clocks_of(*operation, levels) for operation in self.operations))

    @property
    def clocks(self) -> int:
        return self.ends[-1] if self.ends else 0

    def place_of(self, clock: int) -> Optional[tuple[int, int]]:
        """The operation of a clock, and which of its clocks that is; past the last of all None."""
        if clock >= self.clocks:
            return None
        number = bisect.bisect_right(self.ends, clock)
        return number, clock - (self.ends[number - 1] if number else 0)

    def bits(self) -> int:
        """How many memory bits its operations name, from bit 0 on."""
        places = [place for operation in self.operations for place in passes.places_of(*operation).values()]
        return max([1] + [at + length for at, length in places])


class Session:
    """Answers command lines over a listing."""

    def __init__(self, text: bytes):
        self.listing, self.now, self.count = Listing(text), 0, 0
        self.seen: Optional[states.State] = None

    def answer(self, line: bytes) -> list[bytes]:
        """The lines that answer one, as the program writes them."""
        self.count += 1
        if sessions.fault(line, 1 << self.listing.nx, 1 << self.listing.ny, is_listing=True):
            return [b"? line %d" % self.count]
        words = sessions.words_of(line)
        if not words or sessions.is_quit(line):
            return []
        return [said.encode() for said in ANSWERS[words[0].decode()](self, *map(int, words[1:]))]

    def state(self) -> states.State:
        if self.seen is None or self.seen.clock != self.now:
            self.seen = states.state(self.listing.text, self.now)
        return self.seen

    def to(self, clock: int) -> Answer:
        self.now = max(0, min(clock, self.listing.clocks))
        return ["at %d" % self.now]

    def step(self, count: int) -> Answer:
        return self.to(self.now + count)

    def back(self, count: int) -> Answer:
        return self.to(self.now - count)

    def until(self, clock: int) -> Answer:
        return self.to(max(clock, self.now))

    def run(self) -> Answer:
        return self.to(self.listing.clocks)

    def macro(self, count: int) -> Answer:
        place = self.listing.place_of(self.now)
        if place is None or count == 0:
            return self.to(self.now)
        return self.to(self.listing.ends[min(place[0] + count, len(self.listing.ends)) - 1])

    def at(self) -> Answer:
        place = self.listing.place_of(self.now)
        rest = "done" if place is None else "macro %d micro %d" % place
        return ["at %d of %d %s" % (self.now, self.listing.clocks, rest)]

    def pixel(self, x: int, y: int) -> Answer:
        found = self.state().pixel(x, y)
        registers = found.enable, found.carry, found.latch, found.leaf
        return ["pixel %d %d m %s e %d k %d l %d t %d" % (x, y, found.memory, *registers)]

    def tree(self, level: int, index: int) -> Answer:
        return ["tree %d %d out %d carry %d" % ((level, index) + self.state().node(level, index))]

    def trace(self) -> Answer:
        first = max(0, self.now - sessions.KEPT)
        made = states.micros(self.listing.text, first, self.now - first)
        return ["%d: %s" % pair for pair in enumerate(map(str, made), first)]


# What answers each line.
ANSWERS: dict[str, Callable[..., Answer]] = {
    "step": Session.step, "macro": Session.macro, "run": Session.run, "until": Session.until, "back": Session.back, "at": Session.at,
    "pixel": Session.pixel, "tree": Session.tree, "trace": Session.trace}


def held(path: Optional[str], text: bytes, commands: Sequence[bytes]) -> list[list[bytes]]:
    """The answers of a session over a scene, by the program at a path or as built, or over a listing; each a list of
    lines, and none after a `quit`."""
    if not is_listing(text):
        return sessions.held(program.needed(path), text, commands)
    session = Session(text)
    answers: list[list[bytes]] = []
    for command in commands:
        answers.append(session.answer(command))
        if sessions.is_quit(command):
            break
    return answers
