"""Files in a hardware language, made ready for simulators and Yosys."""
import os
import re

from pxrtl import ports, programs
from pxrtl.reading import plain, text_of
from pxrtl.shared import Bad, ends

OURS = "px_"
VHDL = (".vhd", ".vhdl")
KINDS = (".v", ".sv") + VHDL
GHDL_SECONDS = 60
OPEN = "open_port"


def modules_of(text: str) -> set[str]:
    return set(re.findall(r"\b(?:macro)?module\s+(?:automatic\s+|static\s+)?\\?([^\s#(;]+)", plain(text)))


def has_instance(path: str, module: str) -> bool:
    """Whether a file has an instance of a module, as its text looks."""
    return re.search(r"^\s*(?:[\w ]*[:)]\s*)?%s\s*(#|\w+\s*\()" % module, plain(text_of(path)), re.M) is not None


def from_vhdl(path: str, module: str, folder: str) -> str:
    """A pixel in VHDL as a Verilog file, by ghdl. `open` is a word of VHDL, so its port is written `\\open\\`."""
    if module != "pixel":
        raise Bad("%s: only a pixel may be in VHDL" % path)
    copy = os.path.join(folder, module + ".vhd")
    with open(copy, "wb") as file:
        file.write(ends.content(path).replace(b"\\open\\", OPEN.encode()))
    values = ports.parameters(module)
    words = [programs.needed("ghdl"), "synth", "--std=08", "--out=verilog"] + ["-g%s=%d" % it for it in values.items()]
    try:
        made = programs.made(words + [copy, "-e", module], folder, GHDL_SECONDS)
    except Bad as why:
        raise Bad("%s: %s" % (path, why))
    target = os.path.join(folder, module + ".vhdl.v")
    with open(target, "w", encoding="utf-8") as out:
        out.write(re.sub(r"\bmodule\s+%s\b" % module, "module %s_in_vhdl" % module, made) + "\n" +
                  ports.wrapper(module, module, values, module + "_in_vhdl", {"open": OPEN}))
    return target


def ready(path: str, module: str, folder: str) -> str:
    """A file that has a module, as simulators and Yosys take it. `Bad` if it has none, or names of ours."""
    text = ends.content(path)
    if not text.strip():
        raise Bad("%s: it is empty" % path)
    if path.endswith(VHDL):
        return from_vhdl(path, module, folder)
    found = modules_of(text.decode("latin-1"))
    if module not in found:
        raise Bad("%s: it has no module %s" % (path, module))
    taken = sorted(name for name in found if name.startswith(OURS) or name in ports.MODULES and name != module)
    if taken:
        raise Bad("%s: it defines `%s` too, a name that this tool needs%s" % (
            path, taken[0], "; give that module as --%s" % taken[0] if taken[0] in ports.MODULES else ""))
    if path == "-":
        path = os.path.join(folder, "standard_input.v")
        with open(path, "wb") as file:
            file.write(text)
    return os.path.abspath(path)
