"""A package for Conan 2 of a release's archive, which stands next to this file."""
import os

from conan import ConanFile
from conan.errors import ConanInvalidConfiguration
from conan.tools.files import copy, unzip


class Pxplanes(ConanFile):
    name = "pxplanes"
    version = "1.0.0"
    description = "Pictures of scenes of convex solids, by a proved library"
    settings = "os", "arch"
    exports_sources = "*.tar.xz"

    def validate(self):
        if (self.settings.os, self.settings.arch) != ("Linux", "x86_64"):
            raise ConanInvalidConfiguration("this archive is for x86-64 Linux")

    def build(self):
        unzip(self, os.path.join(self.source_folder, "pxplanes-%s-x86_64-linux-gnu.tar.xz" % self.version), strip_root=True)

    def package(self):
        for folder in ("include", "lib"):
            copy(self, "*", os.path.join(self.build_folder, folder), os.path.join(self.package_folder, folder))

    def package_info(self):
        self.cpp_info.libs = ["pxplanes"]
