"""The library as a module of WebAssembly, made of the same module that is compiled to the library for C.

retarget.py gives the module the target wasm64; its one instruction of x86 becomes the same one of WebAssembly. The kit's clang and lld
compile and link it with page/library/heap.c and wide.c, and memory32.py gives it a 32-bit memory. page/library/README.md says what that
rests on."""
import gzip
import io
import json
import os
import re
import tarfile
import tempfile

import building
import builds
from pxplanes import ends
import gate
import memory32
import retarget
from building import done, in_kit
from pxplanes.errors import Trouble

WEB = os.path.join(ends.TOP, "page", "library")
TARGET = "wasm64-unknown-unknown"
FLAGS = ("-O3", "-msimd128", "-mbulk-memory", "-ffreestanding")
# An index of pshufb with its highest bit clear and below 16, as all of the tree's are, is one of swizzle.
CHANGES = ((r'"target-cpu"="[^"]*"( "target-features"="[^"]*")?', '"target-features"="+simd128,+bulk-memory,+sign-ext,+nontrapping-fptoint"'),
           (r"@llvm\.x86\.ssse3\.pshuf\.b\.128\b", "@llvm.wasm.swizzle"))
PARTS = ("heap", "wide")
HEAP_CALLS = ("px_malloc", "px_free")
STACK, LARGEST = 1 << 20, 1 << 30
# The modules over pxplanes.wasm, and their types.
MODULES = ("pxplanes.mjs", "node.mjs", "pxplanes.d.mts")


def compiled(module: str, out: str, place: str) -> None:
    """Compiles a module, module.bc, and links it with the heap; `out` is the file that is made."""
    tools = in_kit("toolchain", "bin")
    path = lambda leaf: os.path.join(place, leaf)
    text = retarget.compiled(module, TARGET, FLAGS, CHANGES, set(), place)
    for part in PARTS:
        retarget.clang("--target=" + TARGET, *FLAGS, "-c", os.path.join(WEB, part + ".c"), "-o", path(part + ".o"))
    os.symlink(os.path.join(tools, "ld.lld"), path("wasm-ld"))
    calls = sorted(set(re.findall(r"(?m)^define [^@]*@(pxplanes_\w+)\(", text)))
    if not calls:
        raise Trouble("the module has no call of the library")
    exported = ["--export=" + name for name in (*calls, *HEAP_CALLS)]
    done([path("wasm-ld"), "-mwasm64", "--no-entry", "--strip-all", "--fatal-warnings", "--stack-first", "-z", "stack-size=%d" % STACK,
          "--max-memory=%d" % LARGEST, *exported, path("library.o"), *(path(part + ".o") for part in PARTS), "-o", path("wide.wasm")], "wasm-ld")
    memory32.make(path("wide.wasm"), out, place)


def make(out: str) -> None:
    """Makes the module of WebAssembly of crates that the gate has passed."""
    gate.need_passed()
    with tempfile.TemporaryDirectory(prefix="px-web-") as place:
        if not building.is_kept():
            building.Proved(ends.TOP, 2).make_library(builds.FIRST)
        compiled(building.KEPT, out, place)


def npm(wasm: bytes, version: str, out: str) -> str:
    """Makes the tarball for npm in a folder, as `npm pack` does, and the same bytes each time; its path."""
    with open(os.path.join(WEB, "package.json"), encoding="utf-8") as file:
        described = {**json.load(file), "version": version}
    files = {leaf: ends.content(os.path.join(WEB, leaf)) for leaf in (*MODULES, "README.md")}
    files.update({"package.json": json.dumps(described, indent=2).encode() + b"\n", "pxplanes.wasm": wasm})
    path = os.path.join(out, "pxplanes-%s.tgz" % version)
    with open(path, "wb") as packed, gzip.GzipFile("", "wb", mtime=0, fileobj=packed) as unpacked:
        with tarfile.open(fileobj=unpacked, mode="w") as tar:
            for leaf, content in sorted(files.items()):
                entry = tarfile.TarInfo("package/" + leaf)
                entry.size = len(content)
                tar.addfile(entry, io.BytesIO(content))
    return path
