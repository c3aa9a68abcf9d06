"""What the library and the program are built for, and what is proved and tested of each build. It is no tool itself."""
import os
import shutil
from dataclasses import dataclass


@dataclass(frozen=True)
class Build:
    """What the library is built for, and the program where Rattle proves it for that target."""
    # How the names of its files end.
    end: str
    target: str
    processor: str
    # The system by GNU's name, the compiler that links for it, and how the names of its other tools begin.
    system: str
    compiler: str
    tools: str
    # What its proof and its tests are.
    made: str
    # What the program calls besides what the first build calls: the start-up code of that C library.
    calls: frozenset[str] = frozenset()

    def of(self, first: str) -> str:
        """The name of a file of this build, by that of the first."""
        stem, ending = os.path.splitext(first)
        return stem + self.end + ending

    def beside(self, first: str) -> str | None:
        """That file; None where there is none, or one that is older than the first."""
        own = self.of(first)
        are_built = os.path.isfile(first) and os.path.isfile(own)
        return own if are_built and os.path.getmtime(first) <= os.path.getmtime(own) else None

    def is_possible(self) -> bool:
        """Whether a compiler for the system is there, if it is not the kit's own."""
        return self.system == FIRST.system or shutil.which(self.compiler) is not None


LINUX = "x86_64-unknown-linux-gnu"
FIRST = Build("", LINUX, "x86-64-v2", "x86_64-linux-gnu", "cc", "",
              "Proved for x86-64 Linux. The gate tests it.")
SECOND = Build("-x86-64-v3", LINUX, "x86-64-v3", FIRST.system, FIRST.compiler, "", FIRST.made)
ARM = Build("-aarch64", "aarch64-unknown-linux-gnu", "generic", "aarch64-linux-gnu", "aarch64-linux-gnu-gcc", "aarch64-linux-gnu-",
            "Proved for aarch64 Linux, and linked with tools/lib/system.c, which is not proved. The gate tests it under qemu-user, if "
            "that is installed, and on no such processor.", frozenset({"abort"}))
MUSL = Build("", LINUX, FIRST.processor, "x86_64-linux-musl", "musl-gcc", "",
             "The static library for x86-64 Linux with glibc, proved for that. The gate tests it linked with musl, if that is installed.")
WINDOWS = Build("-windows", "x86_64-pc-windows-gnu", FIRST.processor, "x86_64-w64-mingw32", "x86_64-w64-mingw32-gcc",
                "x86_64-w64-mingw32-",
                "Compiled from the module that is proved for x86-64 Linux, with its text changed for Windows. Neither that change nor "
                "tools/lib/system.c is proved. The gate tests it under Wine, if that is installed, and on no Windows.")
# Those with files of their own; and those with a folder of their own.
ALL, SYSTEMS = (FIRST, SECOND, ARM, WINDOWS), (FIRST, ARM, MUSL, WINDOWS)
