"""The second reader: what Yosys calls right is also run in simulators, over random clocks, and compared with the
tables."""
import os
import shutil
import tempfile
from typing import TYPE_CHECKING, Callable, Iterator

from pxrtl import against, directed, ports, simulation
from pxrtl.shared import Bad

if TYPE_CHECKING:
    from pxrtl.proving import Line

CLOCKS, SEED, TREES, BITS = 10000, 1, (1, 2, 3, 4, 5), 72


def simulators() -> list[str]:
    """The simulators that are installed, of those that this tool knows."""
    return [name for name in ("iverilog", "verilator") if shutil.which(name)]


def pixel(folder: str, files: dict[str, str], simulator: str, seconds: int) -> str | None:
    _, faults, _ = directed.pixel(folder, files, simulator, seconds, CLOCKS, SEED, only_random=True)
    return faults[0].line() if faults else None


def node(folder: str, files: dict[str, str], simulator: str, seconds: int) -> str | None:
    _, faults = directed.node(folder, files, simulator, seconds, SEED, count=CLOCKS)
    return faults[0].line() if faults else None


def tree(folder: str, files: dict[str, str], simulator: str, seconds: int) -> str | None:
    _, faults = directed.tree(folder, files, simulator, seconds, SEED, sizes=TREES if simulator == "iverilog"
                              else TREES[-1:],
                              count=CLOCKS)
    return faults[0].line() if faults else None


def array(folder: str, files: dict[str, str], simulator: str, seconds: int) -> str | None:
    made = against.at_random(CLOCKS, SEED, BITS)
    bench = simulation.Bench(folder, files, 2, 1, BITS, made, simulator, seconds, has_waves=False)
    clocks = range(0, CLOCKS + 1, 50)
    differs = against.first_difference(bench, clocks, against.tabled(made, 2, 1, BITS, clocks))
    return "clock %d: %s" % (differs[0], differs[1].text("by the tables")) if differs else None


def part_of_chip(module: str, values: dict[str, int], proofs: tuple[str, ...]) -> Callable[[str, dict[str, str], str,
        int], str | None]:
    """A run of a part of the chip: its bench has the text that asks about it, with the file's module in it as
    px_dut."""
    def run(folder: str, files: dict[str, str], simulator: str, seconds: int) -> str | None:
        wrapper = os.path.join(folder, "dut.v")
        with open(wrapper, "w", encoding="utf-8") as file:
            file.write(ports.wrapper("px_dut", module, values))
        top = "px_%s_bench" % module
        texts = [simulation.bench(top + ".v")] + [simulation.proof(leaf) for leaf in proofs] + [wrapper, files[module]]
        bench = simulation.Simulation(folder, top, texts, {"CLOCKS": CLOCKS}, simulator, seconds=seconds,
                                      has_waves=False)
        found = bench.run("answers.txt").strip()
        return found.split("\n")[0] if found else None
    return run


RUNS = {"pixel": pixel, "node": node, "tree": tree, "column": array, "array": array,
        "sequencer": part_of_chip("sequencer", {"NX": 3, "NY": 4, "N": BITS}, ("px_same_sequencer.v",)),
        "word": part_of_chip("word", {"W": 16}, ("px_same_word.v", "px_acts.v"))}


def lines(module: str, files: dict[str, str], seconds: int, only: str | None = None) -> "Iterator[Line]":
    """A line for each simulator, or for only one: it agrees, or what is wrong in it."""
    from pxrtl.proving import UNDECIDED, WRONG, Line
    found = [only] if only else simulators()
    if not found:
        yield Line("%s: not decided: there is no simulator to compare with" % module, UNDECIDED)
    for simulator in found:
        with tempfile.TemporaryDirectory(prefix="px-rtl-") as folder:
            try:
                wrong = RUNS[module](folder, files, simulator, seconds)
            except Bad as why:
                yield Line("%s in %s: not decided: %s" % (module, simulator, why), UNDECIDED)
                continue
        if wrong:
            yield Line("%s: WRONG in a simulator (%s): %s" % (module, simulator, wrong), WRONG)
        else:
            yield Line("%s in %s, %d random clocks: right" % (module, simulator, CLOCKS))
