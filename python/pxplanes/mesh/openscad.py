"""Has OpenSCAD make what `model` cannot: a .csg of a .scad, and a mesh of a node of a .csg."""
import os
import re
import shutil
import subprocess
import tempfile
from typing import Any, Optional

from pxplanes.errors import Trouble
from pxplanes.mesh import mesh_files

SECONDS = 600
IMPORTED = re.compile(r'(\bfile\s*=\s*")((?:[^"\\]|\\.)*)"')


def is_there() -> bool:
    return shutil.which("openscad") is not None


def made(source: str, folder: Optional[str], kind: str) -> bytes:
    """What OpenSCAD exports of a file, run in its folder; `Trouble` with its own words where nothing."""
    with tempfile.TemporaryDirectory(prefix="px-model-") as place:
        out = os.path.join(place, "out." + kind)
        try:
            done = subprocess.run(["openscad", "-o", out, source], cwd=folder, capture_output=True, timeout=SECONDS)
        except subprocess.TimeoutExpired:
            raise Trouble("openscad takes more than %d seconds for it" % SECONDS)
        if done.returncode != 0 or not os.path.exists(out):
            lines = [line for line in done.stderr.decode("latin-1").split("\n")
                     if line.startswith(("ERROR", "Can't", "Current top level", "WARNING"))]
            raise Trouble("openscad makes nothing of it" + ": %s" % lines[0][:160] if lines else
                      "openscad makes nothing of it")
        with open(out, "rb") as file:
            return file.read()


def csg_of(path: str) -> bytes:
    """The .csg of a .scad file."""
    if not is_there():
        raise Trouble("%s needs the command openscad, which makes a .csg of it" % path)
    path = os.path.abspath(path)
    return made(path, os.path.dirname(path), "csg")


def mesh_of(text: str, folder: str) -> Any:
    """The mesh of a text of .csg, whose imports are found from that folder."""
    def found(match: re.Match[str]) -> str:
        return '%s%s"' % (match.group(1), os.path.join(os.path.abspath(folder), match.group(2)))

    with tempfile.TemporaryDirectory(prefix="px-model-") as place:
        source = os.path.join(place, "node.scad")
        with open(source, "w", encoding="latin-1") as file:
            file.write(IMPORTED.sub(found, text))
        return mesh_files.read_off(made(source, folder, "off"))
