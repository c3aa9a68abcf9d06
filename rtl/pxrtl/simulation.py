"""Benches with modules of a user's, compiled for Icarus or Verilator, and what they answer."""
import hashlib
import os
import re
import shutil
import tempfile

from pxrtl import ports, programs
from pxrtl.shared import RTL, Bad

MODULES = ports.MODULES[:5]
REGISTERS = ("enable", "carry", "latch", "leaf")
END = re.compile(r"^end \d+$", re.M)
SECONDS = 60
# A short run is compiled sooner than it is made fast.
UNHURRIED = ["-MAKEFLAGS", "OPT_FAST=-O0 OPT_SLOW=-O0 OPT_GLOBAL=-O0"]


def bench(leaf):
    return os.path.join(RTL, "bench", leaf)


def proof(leaf):
    return os.path.join(RTL, "proof", leaf)


def kept(top, words, sources, driver):
    """The program that Verilator makes of a top and its driver in C++; it is kept in a folder of our own."""
    verilator, folder = programs.needed("verilator"), os.path.join(tempfile.gettempdir(), "px-rtl-%d" % os.getuid())
    os.makedirs(folder, mode=0o700, exist_ok=True)
    found = os.lstat(folder)
    if os.path.islink(folder) or found.st_uid != os.getuid() or found.st_mode & 0o077:
        raise Bad("%s is not your own" % folder)
    total = hashlib.sha256((programs.made([verilator, "--version"], ".") + " ".join(words)).encode())
    for source in sources + [driver]:
        with open(source, "rb") as file:
            total.update(hashlib.sha256(file.read()).digest())
    path = os.path.join(folder, total.hexdigest()[:32])
    if not os.path.exists(path):
        with tempfile.TemporaryDirectory(prefix="making-", dir=folder) as making:
            programs.made([verilator, "--cc", "--exe", "--build", "-O3", "--x-assign", "fast", "--x-initial", "fast",
                           "-Wno-fatal", "-Wno-lint", "-CFLAGS", "-O2", "--top-module", top, "--Mdir", making] + words +
                          sources + [driver], making)
            os.replace(os.path.join(making, "V" + top), path)
    return path


class Simulation:
    """A bench in a folder with your own modules, compiled for a simulator, ready to run."""

    def __init__(self, folder, top, sources, values, simulator=None, defines=(), seconds=SECONDS, has_waves=True):
        self.folder, self.seconds, self.has_waves = folder, seconds, has_waves
        simulator = simulator or ("verilator" if shutil.which("verilator") and not shutil.which("iverilog")
                                  else "iverilog")
        self.command = self.build(programs.needed(simulator), simulator, top, sources, values, defines)

    def build(self, path, simulator, top, sources, values, defines):
        """Compiles the bench, and answers how it is run."""
        folders = ["-I" + folder for folder in sorted({os.path.dirname(source) for source in sources})]
        if simulator == "verilator":
            words = ["-G%s=%d" % value for value in values.items()] + ["-D" + name for name in defines]
            programs.made([path, "--binary", "--timing", "-Wno-fatal", "-Wno-lint", "--top-module", top] +
                          (["--trace", "-O3"] if self.has_waves else UNHURRIED) +
                          folders + words + sources,
                 self.folder)
            return [os.path.join(self.folder, "obj_dir", "V" + top)]
        form = "-g2012" if any(source.endswith(".sv") for source in sources) else "-g2001"
        words = ["-P%s.%s=%d" % ((top,) + value) for value in values.items()] + ["-D" + name for name in defines]
        try:
            programs.made([path, form, "-o", top, "-s", top] + folders + words + sources, self.folder)
        except Bad as why:
            raise Bad("%s%s" % (why, programs.hint(sources)))
        return [programs.needed("vvp"), "-n", top]

    def run(self, answers, *asked):
        """What the bench writes into a file, without its last line."""
        path = os.path.join(self.folder, answers)
        if os.path.exists(path):
            os.remove(path)
        programs.made(self.command + list(asked), self.folder, self.seconds)
        with open(path) as file:
            text = file.read()
        if not END.search(text[-40:]):
            raise Bad("the simulation ended before its time: a file calls $finish, $stop or $fatal")
        return text[:text.rindex("end ")]


def in_hex(text, width):
    """A text as a number of so many letters, for $readmemh."""
    return text[:width].rjust(width).encode("ascii", "replace").hex()


class State:
    """What a clock left: of each pixel its memory from bit 0 on and its registers; all nodes where they are known."""

    def __init__(self, pixels, outs=None, carries=None):
        self.pixels, self.outs, self.carries = pixels, outs, carries


class Bench:
    """An array of a size with your own modules, ready to run a list of microinstructions in a folder."""

    def __init__(self, folder, files, nx, ny, bits, made_, simulator=None, seconds=SECONDS, has_waves=True):
        self.folder, self.nx, self.ny, self.bits, self.micros, self.clocks = folder, nx, ny, bits, made_, len(made_)
        self.pixels = 1 << nx + ny
        self.ports_alone = any(files[module] != ports.file_of(module) for module in ("array", "column"))
        self.write("program.hex", ["%05x" % micro.code() for micro in made_])
        self.write("texts.hex", [in_hex(micro.text(), 40) for micro in made_] + [in_hex("", 40)])
        values = {"NX": nx, "NY": ny, "N": bits, "CLOCKS": len(made_)}
        self.simulation = Simulation(folder, "px_bench", [bench("px_bench.v")] + [files[module] for module in MODULES],
                                     values, simulator,
                                     ["PORTS_ALONE"] if self.ports_alone else [], seconds, has_waves)

    def write(self, leaf, lines):
        with open(os.path.join(self.folder, leaf), "w") as file:
            file.writelines(line + "\n" for line in lines)

    def run(self, after):
        """The states after so many clocks each, by their clocks."""
        after = set(after)
        self.write("after.hex", ["%d" % (clock in after) for clock in range(self.clocks + 1)])
        return dict(self.read(iter(self.simulation.run("states.txt").split("\n"))))

    def read(self, lines):
        bits = lambda: next(lines)[::-1]
        for line in lines:
            if not line:
                continue
            enables, carries, latches, outs, node_carries = (bits() for _ in range(5))
            memories = map("".join, zip(*(bits() for _ in range(self.bits))))
            leaves = [None] * self.pixels if self.ports_alone else outs[self.pixels:]
            nodes = (None, None) if self.ports_alone else (outs, node_carries)
            yield int(line.split()[1]), State(list(zip(memories, enables, carries, latches, leaves)), *nodes)

    def waves(self, path, first, last, pixel, found, due):
        """Writes the waveforms of some clocks to a file, with a pixel's states as found and as due, by their clocks."""
        for leaf, states in (("found.hex", found), ("due.hex", due)):
            known = lambda clock: states[clock].pixels[pixel] if clock in states else None
            shown = [known(clock) for clock in range(self.clocks + 1)]
            self.write(leaf, [it[0][::-1] + "".join(it[1:4]) if it else "x" * (self.bits + 3) for it in shown])
        self.write("after.hex", ["0"] * (self.clocks + 1))
        self.simulation.run("states.txt", "+vcd=" + os.path.abspath(path), "+from=%d" % first, "+to=%d" % last)


class Difference:
    """The first difference of two states: where, in which pixel, what it is and what was expected."""

    def __init__(self, what, found, due, pixel=0):
        self.what, self.found, self.due, self.pixel = what, found, due, pixel

    def text(self, by):
        unset = "; x is a bit that nothing ever set: does `open` make it 0?" if self.found in ("x", "z") else ""
        return "%s is %s, and %s %s%s" % (self.what, self.found, self.due, by, unset)


def difference(nx, ny, wanted, found):
    """The first difference of two states; None where they are the same. What is not known (None) is not asked."""
    for number, (due, got) in enumerate(zip(wanted.pixels, found.pixels)):
        if due != got:
            place = "pixel (%d, %d)" % (number >> ny, number & (1 << ny) - 1)
            at = next((at for at, bits in enumerate(zip(due[0], got[0])) if bits[0] != bits[1]), None)
            if at is not None:
                return Difference("%s, memory bit %d" % (place, at), got[0][at], due[0][at], number)
            for name, is_, should in zip(REGISTERS, got[1:], due[1:]):
                if None not in (is_, should) and is_ != should:
                    return Difference("%s, %s" % (place, name), is_, should, number)
    for what, due, got in (("output", wanted.outs, found.outs), ("carry", wanted.carries, found.carries)):
        for node in range(2, len(due or "") if got else 0):
            if due[node] != got[node]:
                level = node.bit_length() - 1
                return Difference("node %d of level %d, %s" % (node - (1 << level), level, what), got[node], due[node])
    return None
