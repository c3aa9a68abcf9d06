"""What can be said of the command and its tables without running Yosys."""
import pathlib
import re
import shutil

import pytest
from conftest import RTL, run

from pxrtl import cli, ports, reading, structure


def test_readme_has_the_ports_of_a_pixel() -> None:
    pixel = (RTL / "README.md").read_text().split("## The ports of a pixel")[1].split("\n## ")[0]
    assert re.findall(r"^\| `(\w+)` \| (\w+) \| `?(\w+)`? \|", pixel, re.M) == list(map(tuple, ports.ports("pixel")))


def test_every_module_is_in_the_readme() -> None:
    files = {path.stem for path in RTL.rglob("*.v") if "tests" not in path.parts and not path.stem.startswith("px_")}
    assert files == {*ports.ALL, "pixel_student", "multipliers"}


@pytest.mark.parametrize("line, noted", [
    ("`ifdef YOSYS\n`endif", "defined by some tools"),
    ("`ifndef SYNTHESIS\n`endif", "defined by some tools"),
    ("// synthesis translate_off", "hides text"),
    ("(* full_case *) case (a) endcase", "the attribute `full_case`"),
    ("always @(a) b = a & c;", "does not list c"),
    ("assign #3 b = a;", "a delay"),
    ("initial begin #5 b = 1; end", "a delay"),
    ("wire #5 d = a;", "a delay"),
    ("and #5 g (b, a, c);", "a delay"),
    ("always @(posedge clk) b <= #50 a;", "a delay of 50"),
    ("always @((a)) b = a & c;", "does not list c"),
    ("always @a b = a & c;", "does not list c"),
    ("always @(a or (c & 1'b0)) b = a & c;", "does not list c"),
    ("function f(input x); f = x & c; endfunction wire d = f(a);", "`f` reads c"),
    ("unique case (a) 1: b = 1; endcase", "changes what Yosys makes"),
    ("wire d = 1'b0`YOSYS;", "defined by some tools"),
    ("wire \\/* ; `ifdef YOSYS `endif wire \\*/ ;", "defined by some tools"),
    ("// hidden \r assign b = a;", "carriage return"),
    ("(* keep, init = 1 *) wire d;", "the attribute `init`"),
    ("assign b = $time > 5;", "`$time`"),
    ("`ifdef NONE always @(posedge a) begin `endif always @(a) b = a & c; `ifdef NONE end `endif", "does not list c"),
    ("always @(posedge a) \\begin <= 0; always @(a) b = a & \\c ;", "does not list c"),
    ("assign b = px_bench_t;", "`px_bench_t`"),
    ("assign b = table_of.next_carry;", "`table_of.`"),
    ("reg d = 0; initial d = 1;", "`d` has two first values"),
    ("wire clk; reg d; always @* d <= clk;", "a clock that `<=` makes"),
    ("reg d; always @(posedge clk) d = a; always @(posedge clk) b <= d;", "the order of blocks"),
])
def test_text_that_tools_read_differently(line: str, noted: str) -> None:
    text = "module m (input a, input c, output reg b);\n%s\nendmodule\n" % line
    found = list(reading.notes_of(text))
    assert [at for at, _ in found] == [2] and noted in found[0][1]


@pytest.mark.parametrize("line", ["always @(posedge clk) b <= #1 a;", "always @* b = a;",
                                  "always @(a or c) b = a & c;", "m #(.N(3)) one (a);",
                                  "// `ifdef YOSYS, #5", "`ifdef MINE\n`endif", "m #(3) one (a);",
                                  "`define D #1\nalways @(posedge clk) b <= `D a;", "(* keep = 1, ram_style = x *) reg d;",
                                  "m #(3) one [1:0] (a);", "always @(posedge clk) begin : s reg d; d = a; b <= d; end",
                                  "function f(input x); f = ~x; endfunction always @(a) b = f(a);",
                                  "wire d = a ? 1'bz : c;", "wire [1:0] d = $signed({a, c}) >>> 1;",
                                  "m one (a); defparam one.N = 1;",
                                  "reg d; always @(posedge clk) d = a; always @(posedge clk) begin b = a; end",
                                  "genvar g; generate for (g = 0; g < 2; g = g + 1) begin : h wire d; end endgenerate "
                                  "assign b = h[1].d;",
                                  "integer i; always @(posedge clk) for (i = 0; i < 2; i = i + 1) b <= a;"])
def test_text_that_all_tools_read_alike(line: str) -> None:
    text = "module m (input clk, input a, input c, output reg b);\n%s\nendmodule\n" % line
    assert list(reading.notes_of(text)) == []


def cell(kind: str, **nets: list[object]) -> dict[str, object]:
    ways = {name: "output" if name in ("Y", "Q") else "input" for name in nets}
    return {"type": kind, "connections": nets, "port_directions": ways, "attributes": {}, "parameters": {}}


def node(inputs: dict[str, list[object]], *cells: dict[str, object]) -> dict[str, object]:
    """A node as Yosys writes it, with these nets for its inputs."""
    ins = {name: {"direction": "input", "bits": inputs.get(name, [number])} for number, name in
           enumerate(("clk", "clear", "feed", "parent", "line"), 2)}
    outs = {name: {"direction": "output", "bits": [number]} for number, name in enumerate(("out", "carry"), 10)}
    return {"ports": dict(ins, **outs), "cells": {str(number): it for number, it in enumerate(cells)}, "netnames": {}}


@pytest.mark.parametrize("design, why", [
    (node({"feed": ["0"]}), "the input feed is tied to 0"),
    (node({"feed": [2]}), "the inputs clk and feed are joined"),
    (node({}, cell("$not", A=[2], Y=[4])), "the input feed is driven inside"),
    (node({}, cell("$and", A=[2], B=[3], Y=["1"])), "driven by the constant 1"),
    (node({}, cell("$and", A=[2], Y=[9]), cell("$or", A=[3], Y=[9])), "driven twice"),
    (node({}, cell("$assume", A=[2], EN=["1"])), "an assumption of its own"),
    (node({"line": [6, 7]}), "the port line is an input of 2 bits"),
])
def test_unfit_structure_is_refused(design: dict[str, object], why: str) -> None:
    with pytest.raises(structure.Refused, match=why):
        structure.refuse(design, "node", {"ODD": 0})


def test_fit_structure_is_not_refused() -> None:
    structure.refuse(node({}, cell("$and", A=[2], B=[3], Y=[9])), "node", {"ODD": 0})


def test_help_has_types_and_defaults(tmp_path: pathlib.Path) -> None:
    status, printed = run("prove", "--help", folder=tmp_path)
    assert status == 0 and "(default: 60)" in printed and "Ends with 0" in printed


@pytest.mark.skipif(not shutil.which("yosys"), reason="there is no yosys")
def test_names_of_ours_are_refused(tmp_path: pathlib.Path) -> None:
    path = tmp_path / "own.v"
    path.write_text((RTL / "node.v").read_text() + "\nmodule tree (); endmodule\n")
    status, printed = run("prove", "--node", path, folder=tmp_path)
    assert status == 2 and "it defines `tree` too" in printed and "--tree" in printed


@pytest.mark.skipif(not shutil.which("iverilog"), reason="there is no iverilog")
def test_hint_of_system_verilog(tmp_path: pathlib.Path) -> None:
    path = tmp_path / "own.v"
    path.write_text((RTL / "node.v").read_text().replace("always @(posedge clk)", "always_ff @(posedge clk)"))
    status, printed = run("check", "--node", path, folder=tmp_path)
    assert status == 2 and "files must end with .sv" in printed


@pytest.mark.skipif(not shutil.which("iverilog"), reason="there is no iverilog")
@pytest.mark.parametrize("module", cli.SKELETONS)
def test_skeleton_and_its_mark(module: str, tmp_path: pathlib.Path) -> None:
    """Ours is right in each row; a skeleton is right in none, but a pixel in `nop`, `enable-all`, `set-carry` and
    `open`: a fetch of 0 is not seen."""
    _, text = run("skeleton", module, folder=tmp_path)
    (tmp_path / "class").mkdir()
    (tmp_path / "class" / "skeleton.v").write_text(text)
    (tmp_path / "class" / "ours.v").write_text(pathlib.Path(ports.file_of(module)).read_text())
    status, printed = run("marks", "--module", module, "class", folder=tmp_path)
    ours, skeleton = [line.split()[1:] for line in printed.splitlines()[1:3]]
    assert status == 1 and set(ours) == {"."} and skeleton.count(".") == (4 if module == "pixel" else 0), printed
    assert "X" in skeleton and "2 files, 1 right" in printed


@pytest.mark.skipif(not (shutil.which("yosys") and shutil.which("iverilog")), reason="there is no yosys or no iverilog")
def test_a_path_with_a_space_and_an_included_file(tmp_path: pathlib.Path) -> None:
    folder = tmp_path / "my files"
    folder.mkdir()
    (folder / "names.vh").write_text("`define CLEARED 1'b0\n")
    text = (RTL / "node.v").read_text().replace("<= 1'b0;", "<= `CLEARED;")
    (folder / "my node.v").write_text('`include "names.vh"\n' + text)
    for command in ("prove", "check"):
        status, printed = run(command, "--node", folder / "my node.v", "--simulator", "iverilog", folder=tmp_path)
        assert status == 0, printed
