"""The design for TinyTapeout: its pins over random clocks, a wrong one, and how many cells it has."""
import pathlib
import re
import shutil

import pytest
from conftest import RTL, TESTS, Edited

from pxrtl import ports, simulation, yosys

NAME = "tinytapeout/tt_um_pxplanes"
PARTS = [ports.file_of(module) for module in simulation.MODULES]


def difference(path: pathlib.Path, folder: pathlib.Path) -> str:
    proofs = [simulation.proof(leaf) for leaf in ("px_whole.v", "px_acts.v", "px_nodes.v")]
    texts = [str(TESTS / "px_tt_bench.v"), *proofs, str(path)]
    bench = simulation.Simulation(str(folder), "px_tt_bench", texts + PARTS, {"CLOCKS": 10000}, "iverilog", has_waves=False)
    return str(bench.run("answers.txt"))


@pytest.mark.skipif(not shutil.which("iverilog"), reason="there is no iverilog")
@pytest.mark.parametrize("edit, differs", [
    ("s/zzz//;$a // the same", False), ("s/uio_in\\[6\\] ? shown\\[15:8\\]/uio_in[5] ? shown[15:8]/", True),
    ("s/line_b(uio_in\\[4\\])/line_b(uio_in[3])/", True), ("s/open(!rst_n || /open(/", True)])
def test_pins(edit: str, differs: bool, tmp_path: pathlib.Path) -> None:
    assert bool(difference(Edited("tile", NAME, edit).written(tmp_path), tmp_path)) == differs


@pytest.mark.skipif(not shutil.which("yosys"), reason="there is no yosys")
def test_document_has_the_cells(tmp_path: pathlib.Path) -> None:
    printed = yosys.run(str(tmp_path), yosys.read_of([str(RTL / (NAME + ".v"))] + PARTS) +
                        "hierarchy -top tt_um_pxplanes\nsynth -flatten\nabc -g gates\nopt_clean\nstat\n")
    cells = int(re.findall(r"Number of cells: +(\d+)", printed)[-1])
    stated = int(re.search(r"(\d+) cells", (RTL.parent / "docs" / "RTL.md").read_text().split("TinyTapeout")[-1])[1])
    assert abs(cells - stated) <= cells // 20  # another Yosys counts some others
