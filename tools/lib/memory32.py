"""A module of WebAssembly with a 64-bit memory, made one with an ordinary 32-bit memory, which every engine with SIMD
has.

Pointers stay 64 bits wide in every parameter, local and stored word, so the calls keep their types (BigInt in
JavaScript) and structs their layout. An address is cut to 32 bits only where memory is touched. That changes no access
that the module may make: the memory has at most 1 GiB, so an address past 2^32 would have trapped. Such an access is a
fault of the module; it is not found any more.

The work is done on the text that `wasm2wat` writes (Debian's wabt), one instruction a line, and `wasm-opt` (binaryen)
then removes the moves between locals that it adds."""
import os
import re
from typing import Callable, Iterator

from building import done
from pxplanes.errors import Trouble

MOST_PAGES = 1 << 16
FEATURES = ("--enable-simd", "--enable-bulk-memory", "--enable-nontrapping-float-to-int", "--enable-sign-ext",
            "--enable-mutable-globals")
# The locals that each function gets: one for each kind of value that may lie above an address, and one for a second
# address.
ADDED = "(local i32 i64 v128 i64)"
I32, I64, V128, SECOND = range(4)
KINDS = {"i32": I32, "i64": I64, "v128": V128}
ACCESS = re.compile(r"(i32|i64|v128)\.(load|store)(\S*)")
TYPES = re.compile(r"\((?:param|local) ([^)]*)\)")
MEMORY = re.compile(r"\(memory \(;0;\) i64 (\d+) (\d+)\)")
DATA = re.compile(r"(\(data \(;\d+;\)) \(i64\.const (\d+)\)")
CUT = "i32.wrap_i64"


class Function:
    """Where the locals that a function gets begin: after its own."""

    def __init__(self) -> None:
        self.own, self.begun = 0, False

    def count(self, line: str) -> None:
        self.own += sum(len(types.split()) for types in TYPES.findall(line))

    def set(self, which: int) -> str:
        return "local.set %d" % (self.own + which)

    def get(self, which: int) -> str:
        return "local.get %d" % (self.own + which)


def accessed(function: Function, kind: str, act: str, rest: str, line: str) -> list[str]:
    """A load takes an address; a store, and a load of one lane, also a value above it, which is set aside."""
    if act == "load" and "lane" not in rest:
        return [CUT, line]
    value = V128 if "lane" in rest else KINDS[kind]
    return [function.set(value), CUT, function.get(value), line]


def copied(function: Function, line: str) -> list[str]:
    """`memory.copy` takes two addresses and a length."""
    return [function.set(I64), function.set(SECOND), CUT, function.get(SECOND), CUT, function.get(I64), CUT, line]


def filled(function: Function, line: str) -> list[str]:
    """`memory.fill` takes an address, a byte and a length."""
    return [function.set(I64), function.set(I32), CUT, function.get(I32), function.get(I64), CUT, line]


WHOLE: dict[str, Callable[[Function, str], list[str]]] = {
    "memory.copy": copied, "memory.fill": filled, "memory.grow": lambda _, line: [CUT, line, "i64.extend_i32_s"],
    "memory.size": lambda _, line: [line, "i64.extend_i32_u"]}


def instruction(function: Function, line: str) -> list[str]:
    """The instructions that do with a 32-bit memory what one does with a 64-bit one."""
    bare = line.rstrip(")")
    name = bare.split(" ")[0]
    match = ACCESS.match(name)
    if match is None and name not in WHOLE:
        if name.startswith(("memory.", "data.")) or ".load" in name or ".store" in name or ".atomic." in name:
            raise Trouble("the module touches memory in another way: %s" % name)
        return [line]
    *others, last = accessed(function, match[1], match[2], match[3], bare) if match else WHOLE[name](function, bare)
    # (the last instruction of a function ends with the function's bracket)
    return [*others, last + line[len(bare):]]


def declared(line: str) -> str:
    """The memory, whose places have 32 bits, and what it begins with."""
    if line.startswith("(memory "):
        found = MEMORY.match(line)
        if found is None or int(found.group(2)) > MOST_PAGES:
            raise Trouble("the module has not one 64-bit memory of at most 4 GiB: %s" % line)
        return line.replace(" i64", "")
    if line.startswith("(data "):
        line, count = DATA.subn(r"\1 (i32.const \2)", line)
        if count != 1:
            raise Trouble("the module's data have no fixed place")
    return line


def lines_of(text: str) -> Iterator[str]:
    function = Function()
    for line in map(str.strip, text.split("\n")):
        if line.startswith("(func "):
            function = Function()
            function.count(line)
        elif line.startswith("(local "):
            function.count(line)
        elif line.startswith("("):
            line = declared(line)
        elif line:
            if not function.begun:
                yield ADDED
                function.begun = True
            yield from instruction(function, line)
            continue
        yield line


def lowered(text: str) -> str:
    """The text of a module with a 64-bit memory, as `wasm2wat` writes it, with a 32-bit memory."""
    return "\n".join(lines_of(text)) + "\n"


def make(wide: str, out: str, place: str) -> None:
    """Makes the file `out` of the module in the file `wide`; files on the way are put into the folder `place`."""
    path = lambda leaf: os.path.join(place, leaf)
    done(["wasm2wat", "--enable-memory64", wide, "-o", path("wide.wat")], "wasm2wat")
    with open(path("wide.wat"), encoding="utf-8") as file:
        text = lowered(file.read())
    with open(path("narrow.wat"), "w", encoding="utf-8") as file:
        file.write(text)
    done(["wat2wasm", path("narrow.wat"), "-o", path("narrow.wasm")], "wat2wasm")
    done(["wasm-opt", "-O3", *FEATURES, path("narrow.wasm"), "-o", out], "wasm-opt")
