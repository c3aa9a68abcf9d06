"""Waveforms of the broadcasts of a scene or of a listing, and of what pixels hold: as a VCD file, which GTKWave opens, or as a chart.

A VCD file has a clock of 10 ns; the number of the clock, of the operation (`macro`) and of its micro, and the line of the listing
of the operation; the operation, and what is broadcast, as the tree's operation and the act, with the lines c, a and
b while the tree is fed; of each pixel enable, carry, latch and the bit of its leaf; both keys as numbers, and the bits alive and
par, which a listing does not have. At time 10 n clock n begins: a value is that of the clock, before it is over."""
import re
from typing import Any, Iterable, Iterator, Optional, Sequence

from pxplanes.errors import Trouble
from pxplanes.machine import listings, sessions, vcd
from pxplanes.scene import limits, scenes

CLOCK, SLOT, LABEL, MOST = 10, 7, 14, 12
TRACED = re.compile(r"(\d+): (hold|clear|feed)(?: ([01])([01])([01]))? (.*)")
FIELD = re.compile(r"b (\d+) (\d+) t (\d+) (\d+) alive (\d) par (\d)")
PIXEL = re.compile(r"m ([01]+) e (\d) k (\d) l (\d) t (\d)")
KEYS = ("key_b", "key_b_depth", "key_b_face", "key_t", "key_t_depth", "key_t_face", "alive", "par")
REGISTERS = ("enable", "carry", "latch", "leaf")


class Window:
    """What to look at: pixels, bits of their memory, nodes of the tree, and clocks."""

    def __init__(self, pixels: list[Any], bits: list[int], nodes: list[Any], first: int, last: int):
        self.pixels, self.bits, self.nodes = pixels, bits, nodes
        self.first, self.last = first, last
        self.words: tuple[str, ...] = ("pixel", "field")

    def asked(self) -> list[bytes]:
        """The command lines that ask for a state."""
        lines = [word + " %d %d" % pixel for pixel in self.pixels for word in self.words]
        lines = ["at"] + lines + ["tree %d %d" % node for node in self.nodes]
        return [line.encode() for line in lines]

    def is_too_long(self) -> bool:
        """Whether its command lines are more than a text may have."""
        each = sum(len(line) + 1 for line in [b"step 1"] + self.asked())
        return (self.last - self.first) * each > limits.MAX_TEXT_BYTES

    def commands(self) -> list[bytes]:
        lines = [b"until %d" % self.first] + self.asked()
        for clock in range(self.first, self.last):
            lines += [b"step 1"] + self.asked()
            if (clock + 1 - self.first) % sessions.KEPT == 0 or clock + 1 == self.last:
                lines.append(b"trace")
        return lines


class Pixel:
    """What a pixel holds before a clock: the numbers of a session's answers to `pixel` and `field`."""

    def __init__(self, layout: int, bits: list[int], pixel: str, field: Optional[str] = None):
        if pixel.startswith("?"):
            raise Trouble("the grid has no such pixel")
        words, *registers = matched(PIXEL, pixel)
        if any(at >= len(words) for at in bits):
            raise Trouble("a pixel has the memory bits 0 to %d" % (len(words) - 1))
        self.registers = [int(bit) for bit in registers]
        self.bits = [int(words[at]) for at in bits]
        self.keys: list[int] = []
        if field:
            b_depth, b_face, t_depth, t_face, alive, par = map(int, matched(FIELD, field))
            b_key, t_key = (int(words[at:at + layout][::-1], 2) for at in (0, layout))
            self.keys = [b_key, b_depth, b_face, t_key, t_depth, t_face, alive, par]


class State:
    """What there is before a clock: its place, the pixels and the nodes, by a session's answers."""

    def __init__(self, layout: int, window: Window, answers: list[list[bytes]]):
        place, *reported = (lines[0].decode() for lines in answers)
        moved = re.search(r"macro (\d+) micro (\d+)", place)
        self.macro, self.micro = map(int, moved.groups()) if moved else (None, None)
        self.pixels = []
        for _ in window.pixels:
            count = len(window.words)
            self.pixels.append(Pixel(layout, window.bits, *reported[:count]))
            reported = reported[count:]
        if any(line.startswith("?") for line in reported):
            raise Trouble("the tree has no such node")
        self.nodes = [int(word) for line in reported for word in line.split()[4::2]]


class Broadcast:
    """What is broadcast in a clock: tree and act, and the lines c, a and b where the tree is fed."""

    def __init__(self, tree: Optional[str] = None, lines: Iterable[Optional[int]] = (None, None, None), act: Optional[str] = None):
        self.tree, self.lines, self.act = tree, list(lines), act


def matched(form: re.Pattern[str], line: str) -> tuple[Any, ...]:
    """The parts of an answer of a session."""
    found = form.search(line)
    if found is None:
        raise Trouble("the session answers %s" % line)
    return found.groups()


def spelled(act: str) -> str:
    """An act as one word: `store-const 12 1` is store-const(12,1)."""
    name, _, rest = act.partition(" ")
    return "%s(%s)" % (name, ",".join(rest.split())) if rest else name


def traced(lines: Iterable[bytes]) -> dict[int, Broadcast]:
    """The broadcasts of some lines of a trace, by their clocks."""
    found = {}
    for line in lines:
        clock, tree, a, b, c, act = matched(TRACED, line.decode())
        found[int(clock)] = Broadcast(tree, [None if bit is None else int(bit) for bit in (c, a, b)], act)
    return found


def looked_at(text: bytes, window: Window) -> tuple[list[State], list[Broadcast]]:
    """The states at the window's clocks and after the last, and the broadcasts of its clocks."""
    if listings.is_listing(text):
        window.words = ("pixel",)
    if window.is_too_long():
        raise Trouble("a session has no room for the command lines of so many clocks")
    layout = 0 if listings.is_listing(text) else (scenes.read(text).need() - 2) // 2
    commands = window.commands()
    answers = iter(listings.held(None, text, commands))
    reported: list[list[list[bytes]]] = []
    broadcasts: dict[int, Broadcast] = {}
    for command in commands:
        if command == b"at":
            reported.append([])
        lines = next(answers)
        if command == b"trace":
            broadcasts.update(traced(lines))
        elif not command.startswith((b"until", b"step")):
            reported[-1].append(lines)
    states = [State(layout, window, each) for each in reported]
    clocks = range(window.first, window.last)
    return states, [broadcasts[clock] for clock in clocks] + [Broadcast()]


def listed(text: bytes) -> list[tuple[int, str]]:
    """The operations as a listing has them, or that of a scene, each with the number of its line."""
    seen = listings.Listing(text)
    return [(line, " ".join([name, *map(str, numbers)])) for line, (name, numbers) in zip(seen.lines, seen.operations)]


def widths_of_keys(text: bytes) -> dict[str, int]:
    """How many bits each key and each part of one has; a listing has none."""
    if listings.is_listing(text):
        return {}
    seen = scenes.read(text)
    depth, face = seen.depth_bits, (seen.need() - 2) // 2 - seen.depth_bits - seen.fraction_bits
    whole = depth + seen.fraction_bits + face
    return dict(zip(KEYS, (whole, depth, face) * 2 + (1, 1)))


def signals(text: bytes, window: Window) -> list[vcd.Signal]:
    """The waveforms in their order; the first of them is the clock."""
    widths = widths_of_keys(text)
    found = [vcd.Signal("machine", "clk")]
    found += [vcd.Signal("machine", name, kind="real") for name in ("clock", "macro", "micro", "list_line")]
    found += [vcd.Signal("machine", name, kind="string") for name in ("operation", "tree", "act")]
    found += [vcd.Signal("machine", "line_" + name) for name in "cab"]
    for pixel in window.pixels:
        scope = "pixel_%d_%d" % pixel
        found += [vcd.Signal(scope, name) for name in REGISTERS]
        found += [vcd.Signal(scope, name, width) for name, width in widths.items()]
        found += [vcd.Signal(scope, "bit_%d" % at) for at in window.bits]
    for node in window.nodes:
        found += [vcd.Signal("node_%d_%d" % node, name) for name in ("output", "carry")]
    return found


def values(clock: int, state: State, broadcast: Broadcast, operations: list[tuple[int, str]]) -> list[Any]:
    """What the signals after the clock are in a clock, in their order."""
    act = None if broadcast.act is None else spelled(broadcast.act)
    line = operation = None
    if state.macro is not None:
        line, operation = operations[state.macro]
        operation = spelled(operation)
    pixels = [value for pixel in state.pixels for value in pixel.registers + pixel.keys + pixel.bits]
    return [clock, state.macro, state.micro, line, operation, broadcast.tree, act] + broadcast.lines + pixels + state.nodes


def waveforms(text: bytes, window: Window) -> str:
    """The VCD file of a window."""
    states, broadcasts = looked_at(text, window)
    operations, rows = listed(text), []
    for clock, state, broadcast in zip(range(window.first, window.last + 1), states, broadcasts):
        row = values(clock, state, broadcast, operations)
        rows.append((CLOCK * clock, [1] + row))
        if clock < window.last:
            rows.append((CLOCK * clock + CLOCK // 2, [0] + row))
    comment = "pxplanes: clock n is from %d n to %d (n + 1)" % (CLOCK, CLOCK)
    return vcd.written(signals(text, window), rows, comment)


def in_slots(label: str, words: Iterable[Any]) -> str:
    return (label.ljust(LABEL) + "".join(word.ljust(SLOT) for word in words)).rstrip()


def wave_lines(label: str, bits: Sequence[Optional[int]]) -> list[str]:
    """A bit over the clocks in two lines: high above, low below, dots where it has no value."""
    high, low = " " * LABEL, label.ljust(LABEL)
    for bit, later in zip(bits, [*bits[1:], bits[-1]]):
        turn = "/" if (bit, later) == (0, 1) else "\\" if (bit, later) == (1, 0) else None
        high += ("_" if bit == 1 else " ") * (SLOT - 1) + (" " if turn or bit != 1 else "_")
        low += {0: "_", 1: " ", None: "."}[bit] * (SLOT - 1)
        low += turn or {0: "_", 1: " ", None: "."}[bit]
    return [high.rstrip(), low.rstrip()]


def act_lines(acts: list[str]) -> Iterator[str]:
    """An act's words one below another, its numbers in one line."""
    parts = [act.split(" ")[0].split("-") + ([" ".join(act.split(" ")[1:])] if " " in act else [])
             for act in acts]
    for row in range(max(map(len, parts))):
        yield in_slots("act" if row == 0 else "", [part[row] if row < len(part) else "" for part in parts])


def where_new(numbers: list[int]) -> list[str]:
    """Numbers as words, each where it is not what the one before is."""
    return [str(number) if before != number else "" for before, number in zip([-1, *numbers], numbers)]


def pixel_lines(window: Window, number: int, states: list[State]) -> Iterator[str]:
    """The lines of a pixel; where there are more of them, with its place above."""
    pixels = [state.pixels[number] for state in states]
    if len(window.pixels) > 1:
        yield "pixel %d %d" % window.pixels[number]
    for at, name in ((3, "leaf"), (1, "carry"), (2, "latch"), (0, "enable")):
        yield from wave_lines(name, [each.registers[at] for each in pixels])
    for at, place in enumerate(window.bits):
        yield from wave_lines("bit %d" % place, [each.bits[at] for each in pixels])
    for at, name in ((0, "key B"), (3, "key T")) if pixels[0].keys else ():
        yield in_slots(name, where_new([each.keys[at] for each in pixels]))


def block(window: Window, clocks: Sequence[int], states: list[State], broadcasts: list[Broadcast]) -> str:
    """The chart of some clocks, as many as a line has room for."""
    lines = [in_slots("clock", map(str, clocks)), in_slots("tree", [each.tree for each in broadcasts])]
    lines += act_lines([each.act or "" for each in broadcasts])
    if any(each.tree == "feed" for each in broadcasts):
        for at, name in enumerate("cab"):
            lines += wave_lines("line " + name, [each.lines[at] for each in broadcasts])
    for at, (level, index) in enumerate(window.nodes):
        for part, name in enumerate(("out", "carry")):
            bits = [state.nodes[2 * at + part] for state in states]
            lines += wave_lines("%d %d %s" % (level, index, name), bits)
    for number in range(len(window.pixels)):
        lines += pixel_lines(window, number, states)
    return "\n".join(lines) + "\n"


def chart(text: bytes, window: Window) -> str:
    """The chart of a window: blocks of clocks, one below another."""
    states, broadcasts = looked_at(text, window)
    clocks = range(window.first, window.last)
    parts = [slice(at, min(at + MOST, len(clocks))) for at in range(0, len(clocks), MOST)]
    return "\n".join(block(window, clocks[part], states[part], broadcasts[part]) for part in parts)
