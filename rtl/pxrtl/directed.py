"""Directed and random runs of one module in a simulator, compared with its table.

A pixel is given each act at each place, enabled and not, with both carries and both bits of all that the act reads, and
it is opened in between. After each such act comes a clock in which nothing is done, so that a late result is seen."""
import itertools
import os
import random
import re

from pxrtl import ports, simulation
from pxrtl.shared import micros

BITS, AROUND, WIDE = 72, 12, 8
BETWEEN = "no clock"
ROWS = micros.ACTS + ("open",)
MOVES = ("hold", "clear", "feed")
NODE_ROWS = tuple("%s %s" % (kind, move) for kind in ("even", "odd") for move in MOVES)
# What an act reads or may spoil of a pixel: e(nable), c(arry), s(tored) bit, l(atch), inputs t(ree), v(alue).
READS = {"nop": "ecst", "enable-all": "ec", "enable-carry": "ecv", "enable-tree": "etv", "enable-bit": "esv",
         "set-carry": "ecv", "fetch": "es", "store-tree": "et", "store-latch": "el", "store-const": "ev",
         "toggle": "es", "carry-tree": "ects", "carry-latch": "ecls", "add-tree": "ects"}
ANSWER = re.compile(r"^clock (\d+) row (\d+) found (\S+) due (\S+) before (\S+) late ([01x])$", re.M)
MOVED = re.compile(r"^moved ([01]+)$", re.M)
NODE_ANSWER = re.compile(r"^clock (\d+) row (\d+) node (\d+) found (\S+) due (\S+) before (\S+)$", re.M)


class Input:
    """What a pixel gets in a clock: an act with its place and value, or `open`, and the bit of its leaf."""

    def __init__(self, act="nop", place=0, value=0, tree=0, opens=False):
        self.act, self.place, self.value, self.tree, self.opens = act, place, value, tree, opens

    def code(self):
        act = micros.ACTS.index(self.act)
        return "%04x" % (self.tree << 14 | self.value << 13 | self.opens << 12 | act << 8 | self.place)

    def text(self):
        return "open" if self.opens else micros.Micro(self.act, self.place, self.value).text().split(" ", 1)[1]


def prepared(draw, place, bits):
    """Inputs that bring a pixel into a state: enable, carry, the bit at the place, and the latch."""
    other = (place + 1 + draw.randrange(BITS - 1)) % BITS
    yield Input("enable-all")
    if "l" in bits:
        yield Input("store-const", other, bits["l"])
        yield Input("fetch", other)
    if "s" in bits:
        yield Input("store-const", place, bits["s"])
    if "c" in bits or not bits.get("e", 1):
        carry = bits.get("c", draw.randrange(2))
        yield Input("set-carry", 0, carry)
        if not bits.get("e", 1):
            yield Input("enable-carry", 0, 1 - carry)


def tried(draw, act, place):
    """Each combination of what an act reads, at a place."""
    for values in itertools.product((0, 1), repeat=len(READS[act])):
        bits = dict(zip(READS[act], values))
        for step in prepared(draw, place, bits):
            step.tree = draw.randrange(2)
            yield step
        tree = bits.get("t", draw.randrange(2))
        at = place if act in micros.HAVE_A_PLACE else draw.randrange(256)
        yield Input(act, at, bits.get("v", draw.randrange(2)), tree)
        yield Input(tree=1 - tree, place=draw.randrange(256))


def opened(draw, place):
    """The pixel is opened in the midst of what it gets, twice, from a state of ones."""
    for step in prepared(draw, place, {"s": 1, "c": 1, "l": 1, "e": 1}):
        yield step
    yield Input(draw.choice(micros.ACTS), place, 1, 1, True)
    yield Input()
    yield Input("store-const", place, 1, 1, True)
    yield Input()


def filled(draw):
    """Any bits in the memory."""
    yield Input("enable-all")
    for place in range(BITS):
        yield Input("store-const", place, draw.randrange(2))


def at_random(draw, count):
    """So many random inputs; every second one is at the place of the one before it."""
    place = 0
    for number in range(count):
        act = draw.choice(micros.ACTS + ("enable-all",) * 4)
        place = place if number % 2 else draw.randrange(BITS)
        at = place if act in micros.HAVE_A_PLACE else draw.randrange(256)
        yield Input(act, at, draw.randrange(2), draw.randrange(2), draw.randrange(60) == 0)


def begun(draw):
    """A pixel that was opened, with any bits in its memory."""
    return [Input(opens=True), Input()] + list(filled(draw))


def inputs(seed, count):
    """The directed inputs, and then so many random ones."""
    draw = random.Random(seed)
    made = begun(draw)
    for place in range(BITS):
        for act in micros.ACTS:
            if act in micros.HAVE_A_PLACE or place % 12 == 0:
                made += tried(draw, act, place)
        made += opened(draw, place)
        if place % 8 == 0:
            made += filled(draw)
    return made + list(at_random(draw, count))


class Fault:
    """A row's first difference: at which clock, what is said of it, and the rest of the line."""

    def __init__(self, row, clock, text):
        self.row, self.clock, self.text = row, clock, text

    def line(self):
        return "clock %d, %s: %s" % (self.clock, self.row, self.text)


def parted(bits):
    """Memory from bit 0 on, enable, carry, latch."""
    return [bits[:-3][::-1]] + list(bits[-3:])


def wrong_of(found, due):
    names = ("enable", "carry", "latch")
    at = next((at for at, pair in enumerate(zip(found[0], due[0])) if pair[0] != pair[1]), None)
    wrong = ["memory bit %d is %s, and %s is expected" % (at, found[0][at], due[0][at])] if at is not None else []
    return wrong + ["%s is %s, and %s is expected" % it for it in zip(names, found[1:], due[1:]) if it[1] != it[2]]


def fault_of(match, given):
    """What a line of the bench's answers says, in words."""
    clock, row, found, due, before, late = match
    if int(row) == len(ROWS):
        return Fault(BETWEEN, int(clock), "it changes between two clocks: %s" %
                     "; ".join(wrong_of(parted(found), parted(due))))
    step, found, due, before = given[int(clock)], parted(found), parted(due), parted(before)
    seen = ["tree %d" % step.tree] + ["%s %s" % it for it in zip(("enable", "carry", "latch"), before[1:])]
    if step.act in micros.HAVE_A_PLACE and not step.opens:
        seen.insert(0, "its bit %s" % before[0][step.place])
    unset = "x" in "".join(found) or "z" in "".join(found)
    when = "a bit that is x was never set: does `open` make it 0?" if unset else \
        "it comes one clock late" if late == "1" else "as before" if found == before else ""
    text = "`%s` with %s: %s%s" % (step.text(), ", ".join(seen), "; ".join(wrong_of(found, due)), when and "; " + when)
    return Fault(ROWS[int(row)], int(clock), text)


def unseen(rows, faults):
    """The rows of a node or a tree that were not seen, since a clear does not bring it into a known state."""
    kinds = [fault.row[:-len("clear")] for fault in faults if fault.row.endswith("clear")]
    return [row for row in rows if any(map(row.startswith, kinds)) and all(row != fault.row for fault in faults)]


def shown(bench, faults, waves):
    """Has the bench write the waveforms of the clocks around the first fault."""
    if faults and waves:
        first = min(fault.clock for fault in faults)
        around = "+from=%d" % max(0, first - AROUND), "+to=%d" % (first + 3)
        bench.run("answers.txt", "+vcd=" + os.path.abspath(waves), *around)


def written(folder, codes, texts):
    """Writes what a bench reads: the inputs, and what the waveforms say of each."""
    for leaf, lines in (("inputs.hex", codes), ("texts.hex", [simulation.in_hex(text, 24) for text in texts])):
        with open(os.path.join(folder, leaf), "w") as file:
            file.writelines(line + "\n" for line in lines)


def pixel(folder, files, simulator, seconds, count, seed, waves=None, only_random=False):
    """How many clocks were run, the first fault of each act that has one, and the acts that had nothing to change."""
    draw = random.Random(seed)
    given = begun(draw) + list(at_random(draw, count)) if only_random else inputs(seed, count)
    written(folder, [step.code() for step in given], [step.text() for step in given])
    texts = [simulation.proof("px_acts.v"), simulation.bench("px_pixel_bench.v"), files["pixel"]]
    bench = simulation.Simulation(folder, "px_pixel_bench", texts, {"N": BITS, "CLOCKS": len(given)}, simulator,
                                  seconds=seconds, has_waves=not only_random)
    answers = bench.run("answers.txt")
    faults = [fault_of(match, given) for match in ANSWER.findall(answers)]
    moved = MOVED.search(answers).group(1)[::-1]
    still = [row for row, bit in zip(ROWS, moved) if bit == "0" and row != "nop"]
    shown(bench, faults, waves)
    return len(given), faults, still


def moves(draw, count, levels=1):
    """Inputs of a node or a tree: a clear, feeds until the last level has bits of its own, then any, mostly feeds;
    line, parent, feed, clear from the top."""
    yield 1
    for _ in range(2 * levels):
        yield draw.randrange(4) << 2 | 2
    for _ in range(count):
        yield draw.randrange(4) << 2 | draw.choice((0, 1, 2, 2, 2, 2, 2, 2, 3))


def move_text(code, above):
    """What a node or a tree gets, in words."""
    move = MOVES[1 if code & 1 else 2 if code & 2 else 0]
    return "%s, %s %d, line %d" % (move, above, code >> 2 & 1, code >> 3)


def run_tree(folder, files, simulator, seconds, levels, given, above, has_waves):
    """The bench of a tree, and of its first differences clock, row, node, what was found, due and before."""
    written(folder, ["%x" % it for it in given], [move_text(it, above) for it in given])
    texts = [simulation.bench("px_tree_bench.v"), simulation.proof("px_nodes.v"), files["node"], files["tree"]]
    bench = simulation.Simulation(folder, "px_tree_bench", texts, {"LEVELS": levels, "CLOCKS": len(given)}, simulator,
                                  seconds=seconds, has_waves=has_waves)
    found = NODE_ANSWER.findall(bench.run("answers.txt"))
    return bench, [tuple(map(int, it[:3])) + it[3:] for it in found]


def node(folder, files, simulator, seconds, seed, waves=None, count=400):
    """How many clocks were run on both nodes, as a tree of one level, and the first fault of each row of each kind."""
    given = list(moves(random.Random(seed), count))
    files = dict(files, tree=ports.file_of("tree"))
    bench, found = run_tree(folder, files, simulator, seconds, 1, given, "parent", bool(waves))
    faults = []
    for clock, row, which, got, due, before in found:
        wrong = ["%s is %s, and %s is expected" % it for it in zip(("its output", "its carry"), got[1:], due[1:])
                 if it[1] != it[2]]
        text = "parent %d, line %d, output %s, carry %s: " % (given[clock] >> 2 & 1, given[clock] >> 3, *before)
        faults.append(Fault("%s %s" % (("even", "odd")[which % 2], MOVES[row]), clock, text + "; ".join(wrong)))
    shown(bench, faults, waves)
    return len(given), faults


def tree(folder, files, simulator, seconds, seed, waves=None, sizes=range(1, 10), count=None):
    """The greatest size of a tree that was run, and the first fault of each row of the first size that has one."""
    for levels in sizes:
        given = list(moves(random.Random(seed), count or (100 if levels < WIDE else 14), levels))
        bench, found = run_tree(folder, files, simulator, seconds, levels, given, "root", bool(waves))
        faults = {}
        for clock, row, which, got, due, _ in found:
            at = next(at for at in (1, 2, 0) if got[at] != due[at])
            level = max(1, which).bit_length() - 1
            name = "leaf %d" % (which - (1 << levels)) if at == 0 else "bit %d of %s" % (
                which, ("outs", "carries")[at - 1]) if which < 2 else "node %d of level %d, its %s" % (
                which - (1 << level), level, ("output", "carry")[at - 1])
            faults.setdefault(row, Fault(MOVES[row], clock, "tree of %d levels: %s is %s, and %s is expected" % (
                levels, name, got[at], due[at])))
        if faults:
            shown(bench, list(faults.values()), waves)
            return levels, list(faults.values())
    return max(sizes), []
