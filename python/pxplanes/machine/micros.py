"""The microinstructions of broadcast operations, by the tables of docs/MACHINE.md, and what each act makes of a pixel.
It is no tool itself. It reads listings (docs/LISTINGS.md) that the program wrote or accepts."""
from typing import Any, Callable, Iterator, Sequence

from pxplanes.errors import Trouble
from pxplanes.machine.states import ACTS as ACTS, WITH_PLACE as HAVE_A_PLACE, WITH_VALUE as HAVE_A_VALUE

SIGN_BIT = 40
Form = tuple[int, int, int]
Words = dict[str, Any]


class Micro:
    """One clock: what the tree does, the bits of its lines in a feed, the act, its place and its value; or `open`."""

    def __init__(self, act: str = "nop", place: int = 0, value: int = 0, tree: str = "hold", lines: Form = (0, 0, 0), opens: bool = False):
        self.act, self.place, self.value, self.tree, self.lines, self.opens = act, place, value, tree, lines, opens

    def text(self) -> str:
        """As the debugger's trace writes it."""
        if self.opens:
            return "open"
        words = [self.tree] + (["%d%d%d" % self.lines] if self.tree == "feed" else []) + [self.act]
        words += [str(self.place)] if self.act in HAVE_A_PLACE else []
        words += [str(self.value)] if self.act in HAVE_A_VALUE else []
        return " ".join(words)

    def code(self) -> int:
        """The number that rtl/bench/bench.v reads: open, value, lines c, b, a, feed, clear, a bit each, act and place."""
        a, b, c = self.lines
        high = self.opens << 6 | self.value << 5 | c << 4 | b << 3 | a << 2 | (self.tree == "feed") << 1 | (self.tree == "clear")
        return high << 12 | ACTS.index(self.act) << 8 | self.place


def micro_of(text: str) -> Micro:
    """The microinstruction of a line, as the debugger's trace writes it, or `open`."""
    words = text.split()
    if words == ["open"]:
        return Micro(opens=True)
    tree = words.pop(0) if words and words[0] in ("hold", "clear", "feed") else "hold"
    lines = words.pop(0) if tree == "feed" and words else "000"
    act, numbers = words[0] if words else "nop", words[1:]
    due = (act in HAVE_A_PLACE) + (act in HAVE_A_VALUE)
    if act not in ACTS or not all(word.isdigit() for word in numbers) or len(numbers) != due or \
            len(lines) != 3 or set(lines) - set("01"):
        raise Trouble("`%s` is no microinstruction, as `feed 101 store-tree 8`" % text.strip())
    found = [int(word) for word in numbers]
    place = found.pop(0) if act in HAVE_A_PLACE else 0
    value = found.pop(0) if found else 0
    if value > 1:
        raise Trouble("`%s`: a value is 0 or 1" % text.strip())
    a, b, c = (int(bit) for bit in lines)
    return Micro(act, place, value, tree, (a, b, c))


def bit(number: int, at: int) -> int:
    return number >> at & 1 if at >= 0 else 0


def fed(form: Form, step: int, nx: int, ny: int) -> Form:
    """The lines a, b and c of a feed."""
    a, b, c = form
    return bit(a, step - (nx - 1)), bit(b, step - (nx + ny - 1)), bit(c, step)


def down_the_tree(form: Form, count: int, first: Words, act_at: Callable[[int], Words], nx: int, ny: int) -> Iterator[Micro]:
    """A clear with the act `first`, and then feeds; the last `count` of them with the acts that `act_at` gives."""
    levels = nx + ny
    yield Micro(tree="clear", **first)
    for step in range(levels + count):
        yield Micro(tree="feed", lines=fed(form, step, nx, ny),
                    **(act_at(step - levels) if step >= levels else {}))


def stepwise(act: str, at: int) -> Callable[[int], Words]:
    return lambda t: {"act": act, "place": at + t}


def micros_of(name: str, numbers: Sequence[int], nx: int, ny: int) -> Iterator[Micro]:
    """The microinstructions of an operation, a line of a listing."""
    form: Any = tuple(numbers[:3])
    if name == "all":
        yield Micro("enable-all")
    elif name == "keep-bit":
        yield Micro("enable-bit", numbers[0], numbers[1])
    elif name == "set-bit":
        yield Micro("store-const", numbers[0], numbers[1])
    elif name == "toggle":
        yield Micro("toggle", numbers[0])
    elif name == "keep-sign":
        yield from down_the_tree(form, SIGN_BIT, {}, lambda t: {"act": "enable-tree", "value": 0} if t == SIGN_BIT - 1 else {}, nx, ny)
    elif name == "load-linear":
        at, length = numbers[3:]
        yield from down_the_tree(form, length, {}, stepwise("store-tree", at), nx, ny)
    elif name == "add-linear":
        at, length = numbers[3:]
        yield from down_the_tree(form, length, {"act": "set-carry"}, stepwise("add-tree", at), nx, ny)
    elif name == "keep-at-most":
        at, length = numbers[3:]
        begun = {"act": "set-carry", "value": 1}
        yield from down_the_tree(form, length, begun, stepwise("carry-tree", at), nx, ny)
        yield Micro("enable-carry", value=1)
    elif name == "load-const":
        at, length, number = numbers
        for t in range(length):
            yield Micro("store-const", at + t, bit(number, t))
    elif name == "copy":
        at, length, to = numbers
        for t in range(length):
            yield Micro("fetch", at + t)
            yield Micro("store-latch", to + t)
    elif name == "keep-less":
        at, length, to = numbers
        yield Micro("set-carry", value=1)
        for t in range(length):
            yield Micro("fetch", to + t)
            yield Micro("carry-latch", at + t)
        yield Micro("enable-carry", value=0)
    else:
        raise Trouble("%s is no operation of a listing" % name)


def clocks_of(name: str, numbers: Sequence[int], levels: int) -> int:
    """How many microinstructions an operation has on a tree of so many levels."""
    one = {"all": 1, "keep-bit": 1, "set-bit": 1, "toggle": 1, "keep-sign": 1 + levels + SIGN_BIT}
    if name in one:
        return one[name]
    length = numbers[1] if name in ("load-const", "copy", "keep-less") else numbers[4]
    return {"load-const": 0, "copy": length, "keep-less": 2 + length, "keep-at-most": 2 + levels}.get(name, 1 + levels) + length


def read_listing(text: bytes) -> tuple[int, int, list[tuple[str, list[int]]]]:
    """The grid of a listing, and its operations, each a name and its numbers."""
    found = [line.split("#")[0].split() for line in text.decode("latin-1").split("\n")]
    lines = [line for line in found if line]
    if lines[:1] != [["pxlist", "1"]] or len(lines) < 3 or lines[1][0] != "grid" or lines[-1] != ["end"]:
        raise Trouble("it is no listing")
    nx, ny = map(int, lines[1][1:])
    return nx, ny, [(line[0], [int(word) for word in line[1:]]) for line in lines[2:-1]]


def majority(p: int, q: int, r: int) -> int:
    return int(p + q + r >= 2)


class Pixel:
    """What a pixel holds, and what an act makes of it, by the table of the fourteen acts."""

    def __init__(self, bits: int):
        self.memory, self.enable, self.carry, self.latch = [0] * bits, 0, 0, 0

    def take(self, micro: Micro, tree: int) -> None:
        """Does an act, where the leaf gave `tree` before the clock."""
        act, at, value = micro.act, micro.place, micro.value
        stored = self.memory[at]
        written = {"store-tree": tree, "store-latch": self.latch, "store-const": value, "toggle": 1 - stored,
                   "add-tree": tree ^ stored ^ self.carry}
        if act in written and self.enable:
            self.memory[at] = written[act]
        kept = {"enable-all": 1, "enable-carry": self.enable and self.carry == value,
                "enable-tree": self.enable and tree == value, "enable-bit": self.enable and stored == value}
        carried = {"set-carry": value, "carry-tree": majority(1 - tree, stored, self.carry),
                   "carry-latch": majority(1 - self.latch, stored, self.carry),
                   "add-tree": majority(tree, stored, self.carry)}
        self.enable = int(kept.get(act, self.enable))
        self.carry = carried.get(act, self.carry)
        self.latch = stored if act == "fetch" else self.latch

    def state(self) -> tuple[str, int, int, int]:
        return "".join(map(str, self.memory)), self.enable, self.carry, self.latch


class Tree:
    """The latches of every node, in heap order, and what a clock makes of them."""

    def __init__(self, nx: int, ny: int):
        self.nx, self.levels = nx, nx + ny
        self.clear()

    def clear(self) -> None:
        self.outs, self.carries = [0] * (2 << self.levels), [0] * (2 << self.levels)

    def take(self, micro: Micro) -> None:
        if micro.tree == "clear":
            self.clear()
        elif micro.tree == "feed":
            outs, carries = [0] * len(self.outs), [0] * len(self.carries)
            for node in range(2, len(outs)):
                outs[node], carries[node] = self.next_of(node, micro.lines)
            self.outs, self.carries = outs, carries

    def next_of(self, node: int, lines: Form) -> tuple[int, int]:
        a, b, c = lines
        level = node.bit_length() - 1
        parent = c if level == 1 else self.outs[node // 2]
        if node % 2 == 0:
            return parent, 0
        line = a if level <= self.nx else b
        return parent ^ line ^ self.carries[node], majority(parent, line, self.carries[node])


class Array:
    """An array of pixels under the tree, by the tables alone: slow and plain."""

    def __init__(self, nx: int, ny: int, bits: int):
        self.tree = Tree(nx, ny)
        self.pixels = [Pixel(bits) for _ in range(1 << nx + ny)]

    def take(self, micro: Micro) -> None:
        if micro.opens:
            self.tree.clear()
            self.pixels = [Pixel(len(pixel.memory)) for pixel in self.pixels]
            return
        leaves = self.tree.outs[len(self.pixels):]
        for pixel, leaf in zip(self.pixels, leaves):
            pixel.take(micro, leaf)
        self.tree.take(micro)

    def state(self) -> list[tuple[str, int, int, int, int]]:
        """Of each pixel its memory, enable, carry, latch and leaf; the outputs and the carries of all nodes."""
        leaves = self.tree.outs[len(self.pixels):]
        return [pixel.state() + (leaf,) for pixel, leaf in zip(self.pixels, leaves)]
