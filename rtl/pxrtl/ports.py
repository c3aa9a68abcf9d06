"""The ports of each module, as its file in rtl/ declares them: for stubs, wrappers, and the check of a file's ports."""
import functools
import os
import re
from typing import NamedTuple

from pxrtl.shared import RTL

MODULES = ("pixel", "node", "tree", "column", "array", "sequencer", "word")
ALL = MODULES + ("serial", "chip", "video", "board", "icebreaker", "hx8k", "ulx3s", "tt_um_pxplanes")
HEAD = re.compile(r"^module (\w+) #\((.*?)\) \((.*?)^\);", re.M | re.S)
PORT = re.compile(r"^ *(input|output) +(?:wire|reg) *(?:\[(.+?):0\])? *(\w+)", re.M)


def file_of(module: str) -> str:
    """The file of a module in rtl/."""
    folders = (os.path.join(RTL, folder) for folder in ("", "chip", "boards", "tinytapeout"))
    return next(path for path in (os.path.join(folder, module + ".v") for folder in folders) if os.path.exists(path))


class Port(NamedTuple):
    """A port: its name, `input` or `output`, and its width as an expression over the module's parameters."""

    name: str
    direction: str
    width: str

    def bits(self, values: dict[str, int]) -> int:
        """The width for these values of the parameters."""
        text = re.sub(r"[A-Z_]+", lambda name: str(values[name.group()]), self.width)
        return int(eval(text, {"__builtins__": {}}))  # only digits, brackets, + and << are left


@functools.cache
def head_of(module: str) -> tuple[dict[str, int], tuple[Port, ...]]:
    """The parameters of a module with their defaults, and its ports."""
    with open(file_of(module), encoding="utf-8") as file:
        found = HEAD.search(file.read())
    assert found and found.group(1) == module
    values = {name: int(number) for name, number in re.findall(r"(\w+) = (\d+)", found.group(2))}
    widths = ((way, re.sub(r" *- *1$", "", high) if not high.isdigit() else str(int(high) + 1), name)
              for way, high, name in PORT.findall(found.group(3)))
    return values, tuple(Port(name, way, width or "1") for way, width, name in widths)


def parameters(module: str) -> dict[str, int]:
    """The parameters of a module and their defaults."""
    return head_of(module)[0]


def ports(module: str) -> tuple[Port, ...]:
    """The ports of a module."""
    return head_of(module)[1]


def declared(module: str) -> str:
    """The list of ports as Verilog text, in brackets."""
    return "(%s)" % ", ".join("%s [%s-1:0] %s" % (port.direction, port.width, port.name) if port.width != "1" else
                              "%s %s" % (port.direction, port.name) for port in ports(module))


def head(name: str, module: str, values: dict[str, int]) -> str:
    """The first line of a module with the ports of another and these values of its parameters."""
    return "module %s #(%s) %s;" % (name, ", ".join("parameter %s = %d" % it for it in values.items()),
                                    declared(module))


def skeleton(module: str) -> str:
    """A module with what ours says of itself and its ports, and nothing inside; a pixel has four acts."""
    if module == "pixel":
        with open(os.path.join(RTL, "pixel_student.v"), encoding="utf-8") as file:
            return file.read()
    with open(file_of(module), encoding="utf-8") as file:
        text = file.read()
    head = HEAD.search(text)
    assert head
    return text[:head.end()] + "\n  // What it does is yours to write.\n\nendmodule\n"


def stub(module: str) -> str:
    """A closed box with the ports of a module."""
    return "(* blackbox *) %s endmodule\n" % head(module, module, parameters(module))


def wrapper(name: str, module: str, values: dict[str, int], inner: str = "", renamed: dict[str,
        str] | None = None) -> str:
    """A module with the ports of another that only holds an instance of it, or of `inner`, without parameters."""
    chosen = "" if inner else " #(%s)" % ", ".join(".%s(%s)" % (value, value) for value in values)
    joined = ", ".join(".%s(%s)" % ((renamed or {}).get(port.name, port.name), port.name) for port in ports(module))
    return "%s\n  %s%s one (%s);\nendmodule\n" % (head(name, module, values), inner or module, chosen, joined)
