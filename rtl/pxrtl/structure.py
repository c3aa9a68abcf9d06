"""Refuses a module before anything is asked of the solver: ports that are not as documented, inputs that are tied
inside, nets with
two drivers, and assumptions of the file's own. Each of these could make a proof say nothing about the module."""
import os
import re
from typing import Any

from pxrtl import ports

# Cells that let a file choose what the solver may assume.
ASSUMPTIONS = {"$assume", "$fair", "$anyconst", "$anyseq", "$allconst", "$allseq", "$initstate"}
STORES = re.compile(r"^\$_?(ad|ald|dl|adl|s|ds|d|sd)\w*(ff|latch|sr)\w*$|^\$(sr|ff)$", re.I)


WIRE = re.compile(r"^  wire width (\d+) .*?([\\$]\S+)$", re.M)
CONNECTED = re.compile(r"^  connect (\{.*?\}|[\\$]\S+(?: \[[\d:]+\])?) (.*)$", re.M)
PART = re.compile(r"(?<!\S)(?:\d+'([01xzm-]+)|([\\$]\S+)(?: \[(\d+)(?::(\d+))?\])?|(-?\d+))(?!\S)")


class Refused(Exception):
    """Why a module is not asked at all, in words."""


def line_of(cell: dict[str, Any]) -> str:
    """Where a cell's text is, as Yosys says: the file's name and the line."""
    match = re.match(r"(?:.*/)?([^/:|]+):(\d+)", cell.get("attributes", {}).get("src", "").split("|")[-1])
    return " (%s, line %s)" % (os.path.basename(match.group(1)), match.group(2)) if match else ""


def kind_of(cell: dict[str, Any]) -> str:
    """A cell in words."""
    return "a register" if STORES.match(cell["type"]) else "a gate (%s)" % cell["type"].lstrip("$")


def refuse_ports(design: dict[str, Any], module: str, values: dict[str, int]) -> None:
    """Each port must be there with its documented direction and width."""
    for port in ports.ports(module):
        found = design["ports"].get(port.name)
        if found is None:
            raise Refused("there is no port %s" % port.name)
        got = found["direction"], len(found["bits"])
        if got != (port.direction, port.bits(values)):
            raise Refused("the port %s is an %s of %d bits; it must be an %s of %d" %
                          ((port.name,) + got + (port.direction, port.bits(values))))


def refuse_tied_inputs(design: dict[str, Any], drivers: dict[Any, list[dict[str, Any]]]) -> None:
    """Each bit of an input must be a net of its own that nothing inside drives."""
    owners: dict[Any, str] = {}
    for name, port in design["ports"].items():
        if port["direction"] == "output":
            continue
        for at, bit in enumerate(port["bits"]):
            what = name if len(port["bits"]) == 1 else "%s[%d]" % (name, at)
            if isinstance(bit, str):
                raise Refused("the input %s is tied to %s inside the module" % (what, bit))
            if bit in owners:
                raise Refused("the inputs %s and %s are joined inside the module" % (owners[bit], what))
            owners[bit] = what
            for cell in drivers.get(bit, []):
                raise Refused("the input %s is driven inside the module, by %s%s" % (what, kind_of(cell),
                        line_of(cell)))


def names_of(design: dict[str, Any]) -> dict[Any, str]:
    """A public name for each net."""
    names: dict[Any, str] = {}
    for name, net in design["netnames"].items():
        if not net["hide_name"]:
            for bit in net["bits"]:
                names.setdefault(bit, name)
    return names


def refuse_double_drivers(design: dict[str, Any], drivers: dict[Any, list[dict[str, Any]]]) -> None:
    """No net has two drivers; a constant is one."""
    names = names_of(design)
    for bit, cells in drivers.items():
        if isinstance(bit, str):
            if bit != "x":
                raise Refused("a net is driven by the constant %s and by %s%s" % (bit, kind_of(cells[0]),
                        line_of(cells[0])))
        elif len(cells) > 1:
            raise Refused("%s is driven twice, by %s" % (
                names.get(bit, "a net"), " and by ".join(kind_of(cell) + line_of(cell) for cell in cells[:2])))


def bits_of(text: str, widths: dict[str, int]) -> list[str]:
    """The bits of a signal as Yosys writes it in RTLIL, highest first: a name with a number, or a constant."""
    found: list[str] = []
    for constant, name, high, low, number in PART.findall(text):
        first = int(high or widths.get(name, 1) - 1)
        found += constant or "{:032b}".format(int(number or 0) & 0xffffffff) if not name else [
            "%s %d" % (name, at) for at in range(first, int(low or (high or 0)) - 1, -1)]
    return found


def refuse_two_constants(text: str) -> None:
    """No net is joined to 0 and to 1, in a module as Yosys writes it in RTLIL: no cell would show that."""
    widths = {name: int(width) for width, name in WIRE.findall(text)}
    joined: dict[str, str] = {}

    def root(bit: str) -> str:
        while bit in joined:
            bit = joined[bit]
        return bit

    for target, source in CONNECTED.findall(text):
        for bit, other in zip(bits_of(target, widths), bits_of(source, widths)):
            ends = sorted({root(bit), root(other)}, key=lambda it: it in ("0", "1"))
            if ends == ["0", "1"] or ends == ["1", "0"]:
                raise Refused("%s is driven by the constants 0 and 1" % bit.split()[0].lstrip("\\"))
            if len(ends) == 2:
                joined[ends[0]] = ends[1]


def refuse(design: dict[str, Any], module: str, values: dict[str, int]) -> None:
    """Raises `Refused` if a flattened module, as Yosys writes it in JSON, is not fit to be asked about."""
    refuse_ports(design, module, values)
    drivers: dict[Any, list[dict[str, Any]]] = {}
    for cell in design["cells"].values():
        if cell["type"] in ASSUMPTIONS:
            raise Refused("the file makes an assumption of its own: %s%s" % (cell["type"].lstrip("$"), line_of(cell)))
        for port, bits in cell["connections"].items():
            if cell["port_directions"].get(port) == "output":
                for bit in bits:
                    drivers.setdefault(bit, []).append(cell)
    refuse_tied_inputs(design, drivers)
    refuse_double_drivers(design, drivers)
