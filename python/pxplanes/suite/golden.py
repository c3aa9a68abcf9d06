"""The suite: its scenes, its manifest and its golden maps."""
import json
import os
from dataclasses import dataclass
from typing import Any, Iterator, Optional

from pxplanes import ends
from pxplanes.compare.picture import Scene, of_text
from pxplanes.compare.report import Maps
from pxplanes.errors import Trouble
from pxplanes.image import maps

SUITE = os.path.join(ends.TOP, "suite")
GALLERY = os.path.join(ends.TOP, "gallery")
MAPS = "maps"
VERSION = "1.1"
LEVELS = ("one solid", "unions", "CSG", "ties", "fractions", "24 bits", "perspective")
NEEDS = ("csg", "faces", "fractions", "bits", "perspective")
KILLS = "# Kills: "
TIES = ("ties", "touching")
FACES = ("ties",)


@dataclass(frozen=True)
class Case:
    """A scene that renderers are tried on: `scene` as numbers, `named` with its names and lines."""

    kind: str
    name: str
    text: bytes
    scene: Scene
    named: Any

    @property
    def title(self) -> str:
        return "%s/%s" % (self.kind, self.name)

    @property
    def needs(self) -> list[str]:
        """What a renderer must be able to do for it."""
        has = {"csg": any(sign in self.scene.show for sign in "-*^"), "faces": self.kind in FACES, "fractions": self.scene.fraction > 0,
               "bits": self.scene.bits + self.scene.fraction > 16, "perspective": self.is_perspective}
        return [need for need in NEEDS if has[need]]

    @property
    def is_perspective(self) -> bool:
        return self.kind == "perspective" or self.kind == "gallery" and b"\n# camera " in b"\n" + self.text

    @property
    def level(self) -> str:
        """The last of LEVELS that it is about."""
        if self.is_perspective:
            return "perspective"
        if self.scene.bits > 16 or self.kind == "bits":
            return "24 bits"
        if self.scene.fraction:
            return "fractions"
        if self.kind in TIES:
            return "ties"
        return "CSG" if "csg" in self.needs else "unions" if "+" in self.scene.show else "one solid"


def case(kind: str, name: str, text: bytes) -> Case:
    return Case(kind, name, text, *of_text(text, "%s/%s" % (kind, name)))


def scenes_of(folder: str) -> Iterator[Case]:
    """The scenes of a suite, by kind and name."""
    kinds = sorted(kind for kind in os.listdir(folder) if os.path.isdir(os.path.join(folder, kind)) and kind != MAPS)
    for kind in kinds:
        yield from scenes_in(os.path.join(folder, kind), kind)


def scenes_in(folder: str, kind: str) -> Iterator[Case]:
    for leaf in sorted(os.listdir(folder)):
        if leaf.endswith(".scene"):
            with open(os.path.join(folder, leaf), "rb") as file:
                yield case(kind, leaf[:-len(".scene")], file.read())


def map_path(folder: str, kind: str, name: str, what: str) -> str:
    return os.path.join(folder, MAPS, kind, "%s-%s.png" % (name, what))


def maps_of(folder: str, kind: str, name: str) -> Maps:
    """The golden maps of a scene."""
    depths, faces = (maps.read(map_path(folder, kind, name, what))[0].numbers for what in ("depths", "faces"))
    return Maps(depths, faces)


def row(found: Case, total: str) -> dict[str, Any]:
    """What the manifest says of a scene, whose maps have this sum. Raises `Trouble` if it does not say what it is there
    to find."""
    lines = found.text.decode().split("\n")
    kills: Optional[str] = next((line[len(KILLS):] for line in lines if line.startswith(KILLS)), None)
    if kills is None:
        raise Trouble("suite/%s.scene does not say what it kills" % found.title)
    scene = found.scene
    return {"name": found.name, "kind": found.kind, "level": found.level, "needs": found.needs, "picture": [scene.width, scene.height],
            "depth_bits": scene.bits, "fraction_bits": scene.fraction, "asks": lines[0].lstrip("# "), "kills": kills,
            "scene": found.title + ".scene", **{what: "%s/%s-%s.png" % (MAPS, found.title, what) for what in ("depths", "faces")},
            "sha256": total}


def manifest(rows: list[dict[str, Any]]) -> bytes:
    return (json.dumps({"suite": "pxplanes", "version": VERSION, "levels": list(LEVELS), "needs": list(NEEDS),
                        "scenes": rows}, indent=1) + "\n").encode()


def read_manifest(folder: str) -> tuple[dict[tuple[str, str], dict[str, Any]], str]:
    """What the manifest of a suite says of each scene, by kind and name, and its version."""
    path = os.path.join(folder, "manifest.json")
    try:
        with open(path, "rb") as file:
            found = json.load(file)
        return {(each["kind"], each["name"]): each for each in found["scenes"]}, found["version"]
    except (ValueError, KeyError, TypeError):
        raise Trouble("%s is no manifest of a suite" % path) from None
