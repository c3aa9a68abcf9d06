"""Runs Yosys: a module is read alone, refused if its structure is unfit, and kept as `px_dut` for the questions about
it."""
import json
import os
import re
from typing import Any, Iterable

from pxrtl import programs, structure
from pxrtl.shared import RTL, Bad

PROOF = os.path.join(RTL, "proof")
DUT = "px_dut"
CONFLICT = re.compile(r"multiple conflicting drivers|driver-driver conflict|conflict.* driver", re.I)
LOOP = "found logic loop"
FLAT = """setattr -mod -unset keep_hierarchy *
setattr -unset keep_hierarchy c:*
proc -noopt
flatten
tribuf -logic
"""
# A ROM keeps what it holds; all other memories and registers begin with any value.
MAPPED = """opt_expr -keepdc
memory_map -rom-only
delete t:$meminit*
memory_map
"""
# Undefined bits may be anything in each clock. Only then gates are simplified; no register is merged or removed but
# those that nothing reads.
FREE = "setundef -undriven -anyseq"
SIMPLER = "opt_expr -fine\nopt_merge -keepdc\nopt_muxtree\nopt_reduce -full\nopt_merge -keepdc\nopt_expr -fine"
MODEL = re.compile(r"^\s+(\d+) \\(\S+)\s+\S+\s+\S+\s+([01x]+)\s*$", re.M)


class NoAnswer(Exception):
    """Yosys took more of a processor's time than a question may."""


def run(folder: str, script: str, seconds: int | None = None) -> str:
    """What Yosys prints of a script. `NoAnswer` if it needs more seconds of a processor; `Bad` with its line of
    error."""
    path = os.path.join(folder, "script.ys")
    with open(path, "w", encoding="utf-8") as file:
        file.write(script)
    try:
        return programs.made([programs.needed("yosys"), "-Q", "-T", path], folder, seconds)
    except programs.TooLong as error:
        raise NoAnswer("no answer within %d seconds of a processor (--seconds N gives it more)" % error.seconds)


def read_of(sources: Iterable[str]) -> str:
    """The lines of a script that read these files. Yosys looks for what a file includes in the folder of that file."""
    return "".join("read_verilog %s\"%s\"\n" % ("-sv " * path.endswith(".sv"), path) for path in sources)


def top_of(folder: str, leaf: str) -> dict[str, Any]:
    """The top module of a file that Yosys wrote in JSON."""
    with open(os.path.join(folder, leaf), encoding="utf-8") as file:
        modules: dict[str, dict[str, Any]] = json.load(file)["modules"]
    return next(module for module in modules.values() if "top" in module.get("attributes", {}))


def never_written(design: dict[str, Any]) -> dict[str, str]:
    """The registers that have a first value and are never written, with that value: they are constants."""
    driven = {bit for cell in design["cells"].values() for port, bits in cell["connections"].items()
              if cell["port_directions"].get(port) == "output" for bit in bits}
    driven |= {bit for port in design["ports"].values() if port["direction"] != "output" for bit in port["bits"]}
    return {name: net["attributes"]["init"] for name, net in design["netnames"].items()
            if "init" in net["attributes"] and not driven & set(net["bits"])
            and not any(isinstance(bit, str) for bit in net["bits"])}


def alone(folder: str, module: str, sources: list[str], values: dict[str, int]) -> dict[str, Any]:
    """Reads a module alone with these parameters, refuses it if its structure is unfit, and leaves it in the folder as
    dut.il."""
    chosen = "".join(" -chparam %s %d" % it for it in values.items())
    read = "%shierarchy -check -top %s%s\n%s" % (read_of(sources), module, chosen, FLAT)
    try:
        printed = run(folder,
                      read + "check\nwrite_json alone.json\n%swrite_json mapped.json\nwrite_rtlil alone.il\n" % MAPPED)
    except Bad as why:
        raise Bad("%s%s" % (why, programs.hint(list(sources))))
    structure.refuse(top_of(folder, "alone.json"), module, values)
    with open(os.path.join(folder, "alone.il"), encoding="utf-8") as file:
        structure.refuse_two_constants(file.read())
    design = top_of(folder, "mapped.json")
    if CONFLICT.search(printed):
        driven = re.search(r"multiple conflicting drivers for \S+?\.\\?(\S+?)( \S*)?:", printed)
        raise structure.Refused("%s is driven twice" % (driven.group(1) if driven else "a net"))
    if LOOP in printed and LOOP in run(folder, "read_rtlil alone.il\ntechmap\ncheck\n"):
        raise structure.Refused("there is a loop without a register")
    refuse_clocks(design)
    constants = "".join("connect -nounset -set \\%s %d'%s\n" % (name, len(value), value) for name,
                        value in never_written(design).items())
    run(folder, "read_rtlil alone.il\n%ssetattr -unset init w:*\nrename -top %s\nwrite_rtlil dut.il\n" % (constants,
            DUT))
    name_words(os.path.join(folder, "dut.il"))
    return design


def name_words(path: str) -> None:
    """The registers of a memory are named so that a question can name them: memory_5 for memory[5]."""
    with open(path, encoding="utf-8") as file:
        text = file.read()
    with open(path, "w", encoding="utf-8") as file:
        file.write(re.sub(r"\\memory\[(\d+)\]", r"\\memory_\1", text))


def refuse_clocks(design: dict[str, Any]) -> None:
    """Each register must be clocked by the rise of clk and by nothing else; a module without a text is not known."""
    clk, names = design["ports"]["clk"]["bits"], structure.names_of(design)
    for cell in design["cells"].values():
        if not cell["type"].startswith("$"):
            raise structure.Refused("the module %s is a black box%s" % (cell["type"], structure.line_of(cell)))
        if not structure.STORES.match(cell["type"]):
            continue
        name = next((names[bit] for bit in cell["connections"]["Q"] if bit in names), "a register")
        where = structure.line_of(cell)
        if cell["type"] not in ("$dff", "$dffe"):
            kind = "a latch: it keeps its value without a clock" if "latch" in cell["type"] or "sr" in cell["type"] \
                else "a register with an asynchronous reset"
            raise structure.Refused("%s is %s%s" % (name, kind, where))
        if cell["connections"]["CLK"] != clk:
            raise structure.Refused("%s is clocked by something else than clk%s" % (name, where))
        if not int(cell["parameters"]["CLK_POLARITY"], 2):
            raise structure.Refused("%s is clocked by the falling edge of clk%s" % (name, where))


def under_a_table(folder: str, top: str, values: dict[str, int], leaves: Iterable[str]) -> dict[str, Any]:
    """Puts dut.il under a text of rtl/proof/ and leaves both as whole.il, and as asked.il without what no output
    depends on."""
    chosen = "".join("chparam -set %s %d %s\n" % (name, value, top) for name, value in values.items())
    run(folder,
        "read_rtlil dut.il\n%s%shierarchy -check -top %s\nproc\nflatten\nwrite_json asked.json\n"
        "%s\n%s\nwrite_rtlil whole.il\n"
        "opt_clean\nwrite_rtlil asked.il\n" % (read_of(os.path.join(PROOF, leaf) for leaf in leaves), chosen, top,
                                               FREE, SIMPLER))
    return top_of(folder, "asked.json")


class Model(dict[int, dict[str, str]]):
    """An example that the solver found: the public signals of each clock, as texts of bits."""


def solved(folder: str, leaf: str, words: list[str], seconds: int | None) -> Model | None:
    """A case against a proof; None if the solver shows that there is none."""
    printed = run(folder, "read_rtlil %s.il\nsat -show-public %s\n" % (leaf, " ".join(words)), seconds)
    if re.search(r"no model found(: SUCCESS)?[.!]", printed):
        return None
    at = re.search(r"model found: FAIL", printed)
    if not at:
        raise Bad("yosys gives no answer to a question")
    model = Model()
    for clock, name, bits in MODEL.findall(printed[at.start():]):
        model.setdefault(int(clock), {})[name] = bits
    return model
