"""Puts the library and the page into the wheel; all else about the package is in pyproject.toml."""
import glob
import os
import shutil

from setuptools import Distribution, setup
from setuptools.command.build_py import build_py
from wheel.bdist_wheel import bdist_wheel

HERE = os.path.dirname(os.path.abspath(__file__))
# Where `./pxplanes --library` and tools/package put the library.
LIBRARIES = os.path.join(HERE, "package", "lib")
LIBRARY = "libpxplanes.so"
# By the processor that the header of the library's file says. Each is for Linux with glibc, and for every Python.
PROCESSORS = {62: "x86_64", 183: "aarch64"}


class WithLibrary(build_py):
    """Copies the library, for newer processors too, and the page next to the modules."""

    def run(self):
        super().run()
        if self.editable_mode:
            return
        if not os.path.isfile(os.path.join(LIBRARIES, LIBRARY)):
            raise SystemExit("there is no %s in %s: ./pxplanes --library makes it" % (LIBRARY, LIBRARIES))
        to = os.path.join(self.build_lib, "pxplanes")
        for path in (os.path.join(LIBRARIES, LIBRARY), *glob.glob(os.path.join(LIBRARIES, "glibc-hwcaps", "*", LIBRARY))):
            place = os.path.join(to, os.path.relpath(path, LIBRARIES))
            os.makedirs(os.path.dirname(place), exist_ok=True)
            shutil.copyfile(path, place)
            os.chmod(place, 0o755)
        shutil.copyfile(os.path.join(HERE, "page", "pxplanes.html"), os.path.join(to, "pxplanes.html"))


class ForLinux(bdist_wheel):
    def get_tag(self):
        with open(os.path.join(LIBRARIES, LIBRARY), "rb") as library:
            processor = int.from_bytes(library.read(20)[18:], "little")
        return "py3", "none", "manylinux_2_17_" + PROCESSORS[processor]


class WithBinary(Distribution):
    def has_ext_modules(self):
        return True


setup(cmdclass={"build_py": WithLibrary, "bdist_wheel": ForLinux}, distclass=WithBinary)
