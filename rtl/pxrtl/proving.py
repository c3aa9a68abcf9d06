"""Proofs of modules by Yosys: what a module holds after a clock is what its table says, from every state and with
every lawful input.

A proof is a stream of `Line`s, each with a status, so that a line can be printed as soon as it is known."""
import functools
import itertools
import os
import re
import tempfile
from typing import Callable, Iterable, Iterator, NamedTuple

from pxrtl import agreeing, netlist, ports, reading, sources, structure, yosys
from pxrtl.shared import micros
from pxrtl.yosys import Model

PROVED, WRONG, TROUBLE, UNDECIDED = 0, 1, 2, 3
ACTS = micros.ACTS + ("open",)
MOVES = ("hold", "clear", "feed")
DEPTH, BITS = 5, 72
FEW, FIRST = 7, 6
LEVELS, SMALL, ALONE = 9, 5, 7
SECOND = ((1, 1, 8), (2, 1, 8), (1, 2, 8), (2, 2, 4))
SEQUENCED = ((1, 1), (3, 4), (9, 9))
CLAIM = "one.always_holds"
SHOWN_BY_PORTS = ("memory", "enable", "carry", "latch", "out", "outs", "carries", "stored", "enables")
UNSURE = "not decided: a state was assumed that may not be reachable"
VACUOUS = "not decided: a table that is wrong in this row is not refused either"
CURE = ("    the hidden registers may depend on each other in a way that this tool does not know. Say in the module\n"
        "    what always holds of them, as in `wire always_holds = (twin == carry);`: that is proved too, from `%s`\n"
        "    on, and then used")
Files = dict[str, str]


class Line(NamedTuple):
    """A line of a proof, and the status that it alone would end with."""

    text: str
    status: int = PROVED


def worst(statuses: Iterable[int]) -> int:
    """The status of several: trouble, then wrong, then undecided, then proved."""
    return max(statuses, key=(PROVED, UNDECIDED, WRONG, TROUBLE).index, default=PROVED)


class Table(NamedTuple):
    """The text under which a module is asked about."""

    top: str
    files: tuple[str, ...]
    rows: tuple[str, ...]
    row_of: Callable[[dict[str, str]], str]
    opened: str
    case: Callable[[Model, int], tuple[list[str], list[str]]]
    covers: tuple[list[str], list[str]]


def act_of(signals: dict[str, str]) -> str:
    return "open" if signals["open"] == "1" else ACTS[int(signals["act"], 2)]


def move_of(signals: dict[str, str]) -> str:
    return "clear" if signals["clear"] == "1" else "feed" if signals["feed"] == "1" else "hold"


def differing(expected: str, found: str) -> list[int]:
    """The places at which two texts of bits differ, lowest first; bit 0 is the last letter."""
    return [at for at, bits in enumerate(zip(expected[::-1], found[::-1])) if bits[0] != bits[1]]


def wrong_bits(before: dict[str, str], after: dict[str, str], names: Iterable[str]) -> list[str]:
    return ["%s is %s, and %s is expected" % (name, after[name], before["due_" + name]) for name in names
            if after[name] != before["due_" + name]]


def case_of_pixel(case: Model, clocks: int) -> tuple[list[str], list[str]]:
    """A case in words: the inputs and the state before, and what is wrong after."""
    before, after = case[clocks], case[clocks + 1]
    act, place, said = act_of(before), int(before["place"], 2), []
    if act in micros.HAVE_A_PLACE:
        said += ["place %d" % place, "its bit %s" % before["memory"][-1 - place]]
    said += ["%s %s" % (name, before[name]) for name in (("value",) if act in micros.HAVE_A_VALUE else ()) +
             ("tree", "enable", "carry", "latch")]
    found = ["memory bit %d is %s, and %s is expected" % (at, after["memory"][-1 - at], before["due_memory"][-1 - at])
             for at in differing(before["due_memory"], after["memory"])[:1]]
    return said, found + wrong_bits(before, after, ("enable", "carry", "latch"))


def case_of_node(case: Model, clocks: int) -> tuple[list[str], list[str]]:
    before = case[clocks]
    return (["%s %s" % (name, before[name]) for name in ("parent", "line", "out", "carry")],
            wrong_bits(before, case[clocks + 1], ("out", "carry")))


def case_of_tree(case: Model, clocks: int) -> tuple[list[str], list[str]]:
    before, after = case[clocks], case[clocks + 1]
    said = ["%s %s" % (name, before[name]) for name in ("root", "line")]
    for vector, word in (("outs", "output"), ("carries", "carry")):
        for at in differing(before["due_" + vector], after[vector])[:1]:
            level = max(1, at).bit_length() - 1
            name = "node %d of level %d" % (at - (1 << level), level) if at > 1 else "bit %d" % at
            return said, ["the %s of %s is %s, and %s is expected" % (word, name, after[vector][-1 - at],
                    before["due_" + vector][-1 - at])]
    return said, ["a leaf is not its node of the last level"]


def values(**widths: int) -> list[str]:
    """Each combination of these signals, as words for the solver."""
    return [" ".join("-set %s %d" % it for it in zip(widths, numbers))
            for numbers in itertools.product(*(range(n) for n in widths.values()))]


# What the solver must find an example of, under what a proof assumes: of the inputs, and of the state.
COVERS_OF_PIXEL = (
    values(place=BITS, act=1) + values(act=14, place=1, open=1) + values(act=1, open=2, value=2, tree=2) +
    ["-set act %d -set open 0 -set place %d" % (act, place) for act in range(14) for place in (0, BITS - 1)],
    ["-set memory {0}'b{1} -set enable {2} -set carry {2} -set latch {2}".format(BITS, it * BITS, it) for it in "01"])
COVERS_OF_NODE = values(clear=2, feed=2, parent=2, line=2), values(out=2)
COVERS_OF_TREE = values(clear=2, feed=2, root=2, line=2), []


TABLES = {
    "pixel": Table("px_same_pixel", ("px_acts.v", "px_same_pixel.v"), ACTS, act_of, "open", case_of_pixel,
                   COVERS_OF_PIXEL),
    "node": Table("px_same_node", ("px_same_node.v",), MOVES, move_of, "clear", case_of_node, COVERS_OF_NODE),
    "tree": Table("px_same_tree", ("px_nodes.v", "px_same_tree.v"), MOVES, move_of, "clear", case_of_tree,
                  COVERS_OF_TREE)}


class Question:
    """A module under a text that says whether it is, after a clock, the `same` as its table."""

    def __init__(self, folder: str, kind: str, values: dict[str, int], files: list[str], seconds: int):
        self.folder, self.table, self.seconds = folder, TABLES[kind], seconds
        self.rows = self.table.rows
        yosys.alone(folder, kind, files, values)
        self.module = yosys.under_a_table(folder, self.table.top, values, self.table.files)
        names = self.module["netnames"]
        self.has_claim = CLAIM in names
        self.leaf = "whole" if self.has_claim else "asked"
        shown = {bit for name in SHOWN_BY_PORTS if name in names for bit in names[name]["bits"]}
        matters = self.before(shown | (set(names[CLAIM]["bits"]) if self.has_claim else set()))
        self.hidden = sorted({name for name, bit in self.registers() if bit not in shown and bit in matters})

    def registers(self) -> Iterator[tuple[str, int]]:
        """The bits of the module's registers, each with a name."""
        names = {bit: name[4:] for bit, name in structure.names_of(self.module).items() if name.startswith("one.")}
        for name, net in self.module["netnames"].items():
            if name.startswith("one.") and not net["hide_name"]:
                for bit in net["bits"]:
                    names[bit] = name[4:]
        for cell in self.module["cells"].values():
            if structure.STORES.match(cell["type"]):
                yield from ((names[bit], bit) for bit in cell["connections"]["Q"] if bit in names)

    def before(self, bits: set[int]) -> set[int]:
        """These nets and all that they depend on, through registers too."""
        cells, drivers = self.module["cells"], {}
        for name, cell in cells.items():
            for port, driven in cell["connections"].items():
                if cell["port_directions"][port] == "output":
                    drivers.update((bit, name) for bit in driven)
        found, left, seen = set(bits), list(bits), set()
        while left:
            name = drivers.get(left.pop())
            if name is not None and name not in seen:
                seen.add(name)
                more = {bit for bits in cells[name]["connections"].values() for bit in bits} - found
                found |= more
                left += more
        return found

    def asked(self, clocks: int, left_out: Iterable[str], more: Iterable[str] = (), before: Iterable[str] = (),
              claim: bool = False, mutant: bool = False) -> Model | None:
        """A case in which what is asked after so many lawful clocks does not hold; None if there is none.

        The rows of `left_out` are not asked in the last clock; those of `before` do not come in the clocks before it.
        A `mutant` table is wrong in each row."""
        masks = [list(before)] * (clocks - 1) + [list(left_out)] * 2
        words = ["-seq %d -prove same 1 -prove-skip %d -set mutant %d" % (clocks + 1, clocks, mutant)]
        words += ["-prove %s 1" % CLAIM] * claim
        words += ["-set-at %d asked 1" % clock for clock in range(1, clocks + 1)]
        words += ["-set-at 1 %s 1" % signal for signal in more]
        words += ["-set-at %d left_out %d'b%s" % (clock, len(self.rows),
                                                  "".join("01"[row in mask] for row in reversed(self.rows)))
                  for clock, mask in enumerate(masks, 1)]
        return yosys.solved(self.folder, self.leaf, words, self.seconds)

    def others(self, rows: Iterable[str]) -> list[str]:
        return [row for row in self.rows if row not in rows]

    def first_case(self, row: str) -> Model | None:
        """A case of a row, from every state in which the claim holds, if there is one."""
        if not self.has_claim:
            return self.asked(1, self.others([row]))
        case = self.asked(1, self.others([row]), more=[CLAIM], claim=True)
        return case or (self.asked(1, self.others([row]), claim=True) if row == self.table.opened else None)

    def is_seen(self, row: str) -> bool:
        """Whether the same question refuses a table that is wrong in this row."""
        return self.asked(1, self.others([row]), more=[CLAIM] * self.has_claim, claim=self.has_claim,
                          mutant=True) is not None

    def all_right(self) -> bool:
        """Whether no row has a case. If there is no answer in time, the rows are asked one by one."""
        try:
            if self.has_claim:
                return not self.asked(1, [], more=[CLAIM], claim=True) and not self.asked(1,
                        self.others([self.table.opened]), claim=True)
            return not self.asked(1, [])
        except yosys.NoAnswer:
            return False

    def ask(self, row: str, is_right: bool) -> Model | str | None:
        """A case of a row, a reason why it is not decided, or None if it is proved."""
        try:
            case = None if is_right else self.first_case(row)
            return case or (None if self.is_seen(row) else VACUOUS)
        except yosys.NoAnswer as why:
            return "not decided: %s" % why

    def cases(self, clocks: int, left_out: Iterable[str], **how: Iterable[str]) -> dict[str, Model]:
        """A case for each row that is not left out and has one."""
        found: dict[str, Model] = {}
        left = list(left_out)
        while len(left) < len(self.rows):
            case = self.asked(clocks, left, **how)  # type: ignore[arg-type]
            if case is None:
                break
            row = self.table.row_of(case[clocks])
            found[row] = case
            left.append(row)
        return found

    def reached(self, unsure: dict[str, Model]) -> dict[str, tuple[Model, bool, int]]:
        """Looks how each row that is not sure comes about after `opened`: the case, whether it is reached, and in how
        many clocks.

        What is right two clocks on from any state is right."""
        rows, sure = list(unsure), {}
        for clocks in range(1, DEPTH + 1):
            left = self.others([row for row in rows if row not in sure])
            for row, case in self.cases(clocks, left, more=[self.table.opened], before=list(sure)).items():
                sure[row] = (case, True, clocks)
            if self.table.opened in sure:
                break
            if clocks == 1:
                rows = list(self.cases(2, self.others(rows)))
        return dict({row: (unsure[row], False, 1) for row in rows if row in unsure}, **sure)

    def uncovered(self) -> int:
        """How many states and inputs that must be able to occur cannot, under what the proof assumes."""
        assumed = "sat -seq 1 -set mutant 0 -set asked 1 -set left_out 0" + " -set %s 1" % CLAIM * self.has_claim
        inputs, state = ("".join("%s %s\n" % (assumed, words) for words in covers) for covers in self.table.covers)
        script = "read_rtlil %s.il\n%sdelete -output o:* w:asked %%d\nsetattr -set keep 1 w:%s\nopt_clean\n%s" % (
            self.leaf, state, CLAIM, inputs)
        printed = yosys.run(self.folder, script, self.seconds)
        found = re.findall(r"^SAT solving finished - (no )?model found", printed, re.M)
        return sum(map(len, self.table.covers)) - found.count("")


def case_lines(question: Question, row: str, case: Model, reached: bool, clocks: int) -> Iterator[Line]:
    """The lines of a row that is not right."""
    status = WRONG if reached else UNDECIDED
    before, after = question.table.case(case, clocks)
    state = {name: case[clocks].get("one." + name) for name in question.hidden}
    hidden = ["%s %s" % it for it in state.items() if it[1] is not None]
    since = ", in clock %d from `%s` on" % (clocks, question.table.opened) if question.hidden and reached else ""
    yield Line("  %-13s %s" % (row, "WRONG" if reached else UNSURE), status)
    yield Line("    %s%s%s: %s" % (", ".join(before), "; hidden " + ", ".join(hidden) if hidden else "", since,
                                   "; ".join(after) or "what always holds does not hold after it"), status)


def row_lines(question: Question) -> Iterator[Line]:
    """The lines of each row, as it ends."""
    unsure: dict[str, Model] = {}
    is_right = question.all_right()
    for row in question.rows:
        answer = question.ask(row, is_right)
        if isinstance(answer, str):
            yield Line("  %-13s %s" % (row, answer), UNDECIDED)
        elif answer is None:
            yield Line("  %-13s right" % row)
        elif question.hidden:
            unsure[row] = answer
        else:
            yield from case_lines(question, row, answer, True, 1)
    if unsure:
        found = question.reached(unsure)
        for row in unsure:
            if row in found:
                yield from case_lines(question, row, *found[row])
            else:
                yield Line("  %-13s right" % row)
        if any(not reached for _, reached, _ in found.values()):
            yield Line(CURE % question.table.opened, UNDECIDED)
    missing = question.uncovered()
    if missing:
        yield Line("  not decided: %d states or inputs that must be asked about cannot occur" % missing, UNDECIDED)


def of_table(folder: str, kind: str, values: dict[str, int], files: list[str], title: str,
             seconds: int) -> Iterator[Line]:
    """A question about a module at one size, row by row."""
    yield Line(title)
    try:
        yield from row_lines(Question(folder, kind, values, files, seconds))
    except structure.Refused as why:
        yield Line("  REFUSED: %s" % why, WRONG)
    except yosys.NoAnswer as why:
        yield Line("  not decided: %s" % why, UNDECIDED)


def pixel(folder: str, files: Files, seconds: int) -> Iterator[Line]:
    yield from of_table(folder, "pixel", {"N": BITS}, [files["pixel"]],
                        "pixel of %d bits, every state and lawful input:" % BITS, seconds)


def node(folder: str, files: Files, seconds: int) -> Iterator[Line]:
    for odd in (0, 1):
        yield from of_table(folder, "node", {"ODD": odd}, [files["node"]],
                            "%s node, every state and input:" % ("odd" if odd else "even"), seconds)


def is_right(lines: list[Line]) -> bool:
    return worst(line.status for line in lines) == PROVED


def wired(folder: str, files: list[str], top: str, boxes: tuple[str, ...], sizes: list[dict[str, int]],
          check: Callable[..., None]) -> tuple[dict[str, int], str] | None:
    """The first size at which a module's structure or its netlist is wrong, with why; None if there is none."""
    with open(os.path.join(folder, "stubs.v"), "w", encoding="utf-8") as file:
        file.writelines(ports.stub(box) for box in boxes)
    found = (wired_some(folder, files, top, boxes, part, check) for part in (sizes[:FIRST], sizes[FIRST:]) if part)
    return next(filter(None, found), None)


def wired_some(folder: str, files: list[str], top: str, boxes: tuple[str, ...], sizes: list[dict[str, int]],
               check: Callable[..., None]) -> tuple[dict[str, int], str] | None:
    script = yosys.read_of(files) + "read_verilog stubs.v\ndesign -save read\n"
    for number, size in enumerate(sizes):
        chosen = " ".join("-chparam %s %d" % it for it in size.items())
        script += "design -load read\nhierarchy -check -top %s %s\n%scheck\nwrite_json wired%d.json\n" % (
            top, chosen, yosys.FLAT, number)
    conflicts = yosys.CONFLICT.search(yosys.run(folder, script))
    for number, size in enumerate(sizes):
        design = yosys.top_of(folder, "wired%d.json" % number)
        try:
            structure.refuse(design, top, size)
            check(netlist.Netlist(design, boxes), *size.values())
        except (structure.Refused, netlist.Wrong) as why:
            return size, str(why)
        os.remove(os.path.join(folder, "wired%d.json" % number))
    return (sizes[0], "a net is driven twice") if conflicts else None


def wired_lines(found: tuple[dict[str, int], str] | None, title: str,
                named: Callable[[dict[str, int]], str]) -> Iterator[Line]:
    if found is None:
        yield Line("%s right" % title)
    else:
        yield Line(title, WRONG)
        yield Line("  WRONG at %s: %s" % (named(found[0]), found[1]), WRONG)


def tree(folder: str, files: Files, seconds: int, whole_to: int = SMALL) -> Iterator[Line]:
    """Trees up to some levels by their states, and all sizes by their nodes if the tree is made of nodes."""
    has_nodes = sources.has_instance(files["tree"], "node")
    small = whole_to if has_nodes else max(ALONE, whole_to)
    for levels in range(1, small + 1):
        lines = list(of_table(folder, "tree", {"LEVELS": levels}, [files["node"], files["tree"]],
                              "tree of %d levels, every state and input:" % levels, seconds))
        if not is_right(lines):
            yield from lines
            return
        yield Line("tree of %d levels, every state and input: right" % levels)
    if not has_nodes:
        yield Line("tree of more than %d levels: not asked, since it is not made of nodes" % small, UNDECIDED)
        return
    found = wired(folder, [files["tree"]], "tree", ("node",), [{"LEVELS": levels} for levels in range(1, LEVELS + 1)],
                  netlist.tree)
    yield from wired_lines(found, "tree of 1 to %d levels, each node under its parent:" % LEVELS,
                           lambda size: "%(LEVELS)d levels" % size)


def column(folder: str, files: Files, seconds: int) -> Iterator[Line]:
    found = wired(folder, [files["tree"], files["column"]], "column", ("pixel", "node"),
                  [{"NY": levels, "N": BITS} for levels in range(1, LEVELS + 1)], netlist.column)
    yield from wired_lines(found, "column of 2 to %d pixels, each under its leaf:" % (1 << LEVELS),
                           lambda size: "%d pixels" % (1 << size["NY"]))


def pixels_of(size: dict[str, int]) -> str:
    return "%d by %d pixels" % (1 << size["NX"], 1 << size["NY"])


def state_names(found: list[str], done: dict[int, tuple[int, int]], net: netlist.Netlist,
                bits: int) -> Iterator[tuple[str, str]]:
    """The nets of an array's state with those of the second text: each pixel's memory and registers, and both latches
    of each node."""
    for p, cell in enumerate(found):
        yield from (("one.%s.%s" % (cell, port), "due.%s[%d]" % (vector, p)) for vector, port in netlist.REGISTERS)
        yield "one.%s.memory" % cell, "due.memory[%d:%d]" % ((p + 1) * bits - 1, p * bits)
    for bit, (level, index) in done.items():
        cell, at = net.drivers[bit][0], (1 << level) + index
        yield from (("one.%s.%s" % (cell, port), "due.%s[%d]" % (vector, at)) for port,
                    vector in (("out", "node_outs"), ("carry", "node_carries")))


def second_text(folder: str, files: Files, size: dict[str, int], seconds: int) -> Iterator[Line]:
    """An array and a second text of it, in the same state: they are the same after a clock, and a text that does
    nothing is not.

    The text that does nothing is tried with each act and move at the first size, and with a feed at the others."""
    title = "array of %s of %d bits, every state and input:" % (pixels_of(size), size["N"])
    state: list[tuple[str, str]] = []

    def check(net: netlist.Netlist, *sides: int) -> None:
        state.extend(state_names(*netlist.array(net, *sides), net, size["N"]))

    wrong = wired(folder, [files[name] for name in ("tree", "column", "array")], "array", ("pixel", "node"), [size],
                  check)
    if wrong:
        yield from wired_lines(wrong, title, pixels_of)
        return
    try:
        yosys.alone(folder, "array", [files[name] for name in ("pixel", "node", "tree", "column", "array")], size)
        yosys.under_a_table(folder, "px_same_array", size, ("px_acts.v", "px_nodes.v", "px_whole.v", "px_same_array.v"))
        words = ["-seq 2 -prove-skip 1 -prove same 1 -set-at 1 asked 1"]
        words += ["-set-at 1 %s %s" % pair for pair in state] + ["-prove %s %s" % pair for pair in state]
        if yosys.solved(folder, "whole", words + ["-set mutant 0"], seconds):
            wrong = size, "another state than that of the second text"
            yield from wired_lines(wrong, title, pixels_of)
            return
        rows = dict(rows_of_array() if size == dict(zip(size, SECOND[0])) else list(rows_of_array())[-1:])
        yield seen_line(folder, title, words, rows, seconds)
    except structure.Refused as why:
        yield Line("%s REFUSED: %s" % (title, why), WRONG)
    except yosys.NoAnswer as why:
        yield Line("%s not decided: %s" % (title, why), UNDECIDED)


def seen_line(folder: str, title: str, words: list[str], rows: dict[str, str], seconds: int) -> Line:
    """The line of a question that has no case: right, unless it accepts a text that is wrong in some row too."""
    unseen = [row for row, chosen in rows.items()
              if not yosys.solved(folder, "whole", words + ["-set mutant 1", chosen], seconds)]
    return Line("%s %s: %s" % (title, VACUOUS, ", ".join(unseen)), UNDECIDED) if unseen else Line(title + " right")


def rows_of_array() -> Iterator[tuple[str, str]]:
    """Each act and each move of the tree, with what chooses it alone."""
    still = "-set-at 1 clear 0 -set-at 1 feed 0 "
    yield "open", "-set-at 1 open 1"
    for number, act in enumerate(micros.ACTS[1:], 1):
        yield act, "-set-at 1 open 0 -set-at 1 act %d %s" % (number, still)
    yield "clear", "-set-at 1 open 0 -set-at 1 act 0 -set-at 1 clear 1"
    yield "feed", "-set-at 1 open 0 -set-at 1 act 0 -set-at 1 clear 0 -set-at 1 feed 1"


def of_columns(folder: str, files: Files) -> Iterator[Line]:
    """The array as columns under a tree, at every size."""
    if not sources.has_instance(files["array"], "column"):
        yield Line("array of more than %d pixels: not asked, since it is not made of columns" % (1 << FEW), UNDECIDED)
        return
    sizes = [{"NX": nx, "NY": ny, "N": BITS} for nx in range(1, LEVELS + 1) for ny in range(1, LEVELS + 1)]
    wrong = wired(folder, [files["array"]], "array", ("tree", "column"), sizes, netlist.array_of_columns)
    yield from wired_lines(wrong, "array of 2 by 2 to 512 by 512 pixels, each column under its leaf:", pixels_of)


def array(folder: str, files: Files, seconds: int) -> Iterator[Line]:
    sizes = [{"NX": nx, "NY": ny, "N": BITS} for nx in range(1, FEW) for ny in range(1, FEW - nx + 1)]
    parts = [files[name] for name in ("tree", "column", "array")]
    wrong = wired(folder, parts, "array", ("pixel", "node"), sizes, netlist.array)
    lines = list(wired_lines(wrong, "array of 2 by 2 to %d pixels, each under its leaf:" % (1 << FEW), pixels_of))
    if is_right(lines):
        lines += of_columns(folder, files)
    yield from lines
    if worst(line.status for line in lines) != WRONG:
        for nx, ny, bits in SECOND:
            yield from second_text(folder, files, {"NX": nx, "NY": ny, "N": bits}, seconds)


class Stepwise(NamedTuple):
    """A module that is shown to be its table's by induction over its clocks: its registers are tied to names of the
    text that asks."""

    top: str
    files: tuple[str, ...]
    sizes: tuple[dict[str, int], ...]
    title: Callable[[dict[str, int]], str]
    tied: Callable[[dict[str, int]], dict[str, str]]
    steps: tuple[tuple[str, str], ...]
    rows: dict[str, str]


def ties_of_word(size: dict[str, int]) -> dict[str, str]:
    wide = size["W"]
    planes = {"memory_%d" % k: "its_memory[%d:%d]" % (k * wide + wide - 1, k * wide) for k in range(256)}
    return dict(planes, carries="its_carries", latches="its_latches")


HOLDS = "-seq 2 -prove holds 1 -prove-skip 1 -set-at 1 "
OPERATIONS = ("all", "keep-sign", "keep-bit", "keep-at-most", "keep-less", "load-linear", "add-linear", "load-const",
              "copy", "set-bit", "toggle", "wipe")
STEPWISE = {
    "sequencer": Stepwise(
        "px_same_sequencer", ("px_same_sequencer.v",), tuple({"NX": nx, "NY": ny, "N": BITS} for nx,
                ny in SEQUENCED),
        lambda size: "sequencer of an array of %s, every clock of every operation:" % pixels_of(size),
        lambda size: {name: "its_" + name for name in ("i", "count", "doing", "from", "into", "left_a", "left_b",
                                                       "left_c")},
        (("-seq 1 -prove same 1 -set-at 1 holds 1", "a microinstruction is not the table's"),
         (HOLDS + "holds 1 -set-at 1 lawful 1", "it does not go on as it must"),
         (HOLDS + "reset 1", "reset does not end an operation")),
        {name: "-set-at 1 had_operation %d -set-at 1 busy 1" % number for number, name in enumerate(OPERATIONS)}),
    "word": Stepwise(
        "px_same_word", ("px_acts.v", "px_same_word.v"), ({"W": 2},),
        lambda size: "word of %d pixels, every act at every place:" % size["W"], ties_of_word,
        ((HOLDS + "holds 1 -set-at 1 asked 1", "it does not do what the table of acts says"),
         (HOLDS + "begins 1", "a wipe does not make the place and the registers 0")),
        dict({act: "-set-at 1 act %d -set-at 1 wipe 0" % number for number, act in enumerate(micros.ACTS)},
             wipe="-set-at 1 wipe 1"))}


def stepwise(module: str, folder: str, files: Files, seconds: int) -> Iterator[Line]:
    """A module in each of its clocks, by induction, at each of its sizes."""
    proof = STEPWISE[module]
    for size in proof.sizes:
        title = proof.title(size)
        try:
            yield stepwise_at(folder, module, files[module], size, seconds)
        except structure.Refused as why:
            yield Line("%s REFUSED: %s" % (title, why), WRONG)
            return
        except yosys.NoAnswer as why:
            yield Line("%s not decided: %s" % (title, why), UNDECIDED)


def stepwise_at(folder: str, module: str, path: str, size: dict[str, int], seconds: int) -> Line:
    proof = STEPWISE[module]
    title, tied = proof.title(size), proof.tied(size)
    names = yosys.alone(folder, module, [path], size)["netnames"]
    missing = [name for name in tied if name not in names and re.sub(r"_(\d+)$", r"[\1]", name) not in names]
    if missing:
        return Line("%s not decided: the proof needs the registers of ours by their names, and there is no %s" %
                    (title, missing[0]), UNDECIDED)
    yosys.under_a_table(folder, proof.top, size, proof.files)
    ties = ["-set %s one.%s" % (own, name) for name, own in tied.items()]
    wrong = [why for words, why in proof.steps if yosys.solved(folder, "whole", [words, "-set mutant 0"] + ties,
            seconds)]
    if wrong:
        return Line("%s WRONG: %s" % (title, "; ".join(wrong)), WRONG)
    return seen_line(folder, title, [proof.steps[0][0]] + ties, proof.rows, seconds)


PROOFS: dict[str, Callable[..., Iterator[Line]]] = {
    "pixel": pixel, "node": node, "tree": tree, "column": column, "array": array,
    "sequencer": functools.partial(stepwise, "sequencer"), "word": functools.partial(stepwise, "word")}


def proved(module: str, files: Files, seconds: int, only: str | None = None, **how: int) -> Iterator[Line]:
    """The lines of a module's proof, and then whether simulators agree, or only one. A file that tools read
    differently is not called right."""
    notes = [note for path in sorted(set(files.values())) for note in reading.notes(path)]
    lines = []
    with tempfile.TemporaryDirectory(prefix="px-rtl-") as folder:
        for line in PROOFS[module](folder, files, seconds, **how):
            lines.append(line)
            yield line
    if notes:
        yield from (Line("%s: not decided: %s" % (module, note), UNDECIDED) for note in notes)
    if worst(line.status for line in lines) in (PROVED, UNDECIDED):
        yield from agreeing.lines(module, files, seconds, only)
