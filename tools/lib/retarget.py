"""Gives the module of the library, as it was proved and compiled for x86-64 Linux, another target. It is no tool itself.

tools/dev/build keeps that module, module.bc, which the kit passes to its clang. Its text gets the layout and the name of the target,
and a few changes that the target needs; the kit's clang compiles the result. No proof covers such a change."""
import os
import re

import building
from building import done, in_kit
from builds import FIRST, WINDOWS
from pxplanes import ends
from pxplanes.errors import Trouble

FOREIGN = {"rattle_alloc", "rattle_realloc", "rattle_dealloc"}
PROBES = r'"probe-stack"="inline-asm"|"stack-probe-size"="\d+"'
# What stays the same on every processor of x86-64.
OF_X86 = {"llvm.x86.ssse3.pshuf.b.128"}
WINDOWS_FLAGS = ("-O3", "-ffunction-sections", "-fdata-sections")
# Windows' C gives back a struct of two words in another way than the module expects.
WINDOWS_CHANGES = ((r"\b(declare|call)((?: \w+)* (?:\{ i64, i64 \}|void)) (@rattle_\w+\()", r"\1 x86_64_sysvcc\2 \3"),)


def clang(*words: str) -> None:
    done([in_kit("toolchain", "bin", "clang"), *words], "clang")


def text_of(module: str, text: str) -> str:
    """The text of a module, which is also written to a file."""
    clang("--target=x86_64-unknown-linux-gnu", "-S", "-emit-llvm", "-O0", "-Xclang", "-disable-llvm-passes", "-x", "ir", module, "-o", text)
    return ends.content(text).decode("utf-8")


def head_of(target: str, place: str) -> str:
    """The lines of a text that say the layout and the name of a target."""
    with open(os.path.join(place, "empty.c"), "w") as file:
        file.write("int x;\n")
    clang("--target=" + target, "-S", "-emit-llvm", file.name, "-o", os.path.join(place, "empty.ll"))
    return "\n".join(re.findall(r"(?m)^target .*$", ends.content(os.path.join(place, "empty.ll")).decode("ascii")))


def translated(text: str, head: str, changes: tuple[tuple[str, str], ...], kept: set[str]) -> str:
    """The text for another target, which may still have these instructions of x86."""
    text = re.sub(r"(?m)^target datalayout.*\ntarget triple.*$", lambda _: head, text)
    for pattern, new in ((PROBES, ""), *changes):
        text = re.sub(pattern, new, text)
    other = sorted(set(re.findall(r"@(llvm\.x86\.[\w.]+)", text)) - kept)
    if other or " asm " in text:
        raise Trouble("the module names another instruction of x86: %s" % (", ".join(other) or "in assembly"))
    foreign = set(re.findall(r"(?m)^declare [^@]*@([\w.]+)\(", text))
    others = sorted(name for name in foreign - FOREIGN if not name.startswith("llvm."))
    if others:
        raise Trouble("the module calls another foreign function: %s" % ", ".join(others))
    return text


def compiled(module: str, target: str, flags: tuple[str, ...], changes: tuple[tuple[str, str], ...], kept: set[str], place: str) -> str:
    """Compiles a module for another target, to library.o of a folder; its new text."""
    path = lambda leaf: os.path.join(place, leaf)
    text = translated(text_of(module, path("x86.ll")), head_of(target, place), changes, kept)
    ends.replaced(path("new.ll"), text.encode())
    clang("--target=" + target, *flags, "-c", "-x", "ir", path("new.ll"), "-o", path("library.o"))
    return text


def make_windows(proved: building.Proved) -> tuple[str, str, bool]:
    """Builds the library for Windows of the module that is kept; as `building.Proved.once`."""
    _, line = building.kept_of(building.MODULE)
    if line is None or not building.is_kept():
        raise Trouble("the module of the library is not kept; tools/dev/build library keeps it")

    def make(place: str) -> tuple[str, str]:
        archive = os.path.join(place, "library.a")
        compiled(building.KEPT, WINDOWS.target, WINDOWS_FLAGS, WINDOWS_CHANGES, OF_X86, place)
        done([in_kit("toolchain", "bin", "llvm-ar"), "rcsD", archive, os.path.join(place, "library.o")], "llvm-ar")
        return archive, "changed from %s, where %s" % (FIRST.target, line)

    return proved.once(WINDOWS.of(os.path.join(proved.folder(building.LIBRARY), "out", "libpx_c.a")), make)
