"""Reads glTF 2.0: .glb, and .gltf with its buffers embedded or in files next to it. Its metres and its y axis upwards
become millimetres and a z axis upwards."""
import base64
import json
import os
import struct
from typing import Any, Iterator, Optional

from pxplanes.errors import Trouble
from pxplanes.mesh import kinds, solids, turns

FORMS = {5121: "B", 5123: "H", 5125: "I", 5126: "f"}
WIDTHS = {"SCALAR": 1, "VEC3": 3}
DEEPEST = 64
# How the names of extensions begin that leave the shapes as they are.
SHAPELESS = ("KHR_materials_", "KHR_texture_", "KHR_lights_", "EXT_texture_", "EXT_lights_")
INSTANCES = "EXT_mesh_gpu_instancing"
MILLIMETRES = [[1000.0, 0.0, 0.0, 0.0], [0.0, 0.0, -1000.0, 0.0], [0.0, 1000.0, 0.0, 0.0]]


def read(data: bytes, folder: Optional[str] = None) -> tuple[kinds.Points, list[list[int]]]:
    """The points and triangles of a file's scene. Buffers in files are looked for in the folder; without one they are
    refused."""
    try:
        head, body = chunks(data)
        file = File(understood(json.loads(head)), body, folder)
        points: list[kinds.Vector] = []
        sides: list[list[int]] = []
        for matrix, primitive in file.placed():
            own = list(file.rows(primitive["attributes"]["POSITION"]))
            numbers = [row[0] for row in file.rows(primitive["indices"])] if "indices" in primitive else list(
                range(len(own)))
            sides += [[len(points) + at for at in side] for side in triangles(primitive.get("mode", 4), numbers)]
            points += solids.placed(matrix, own)
        return points, sides
    except (KeyError, IndexError, TypeError, ValueError, AttributeError, struct.error):
        raise Trouble("the glTF file is damaged, or has what is not read: sparse or packed arrays, or other than "
                      "triangles") from None


def understood(said: dict[str, Any]) -> dict[str, Any]:
    """A file's JSON; `Trouble` for what its own words say that is not read."""
    version = str(said.get("asset", {}).get("version", "1.0"))
    if not version.startswith("2."):
        raise Trouble("the file is glTF %s, and 2.0 is read" % version)
    unread = [name for name in said.get("extensionsRequired", ()) if not name.startswith(SHAPELESS)]
    if unread:
        raise Trouble("the glTF file requires %s, which is not read" % unread[0])
    nodes = said.get("nodes", [])
    posed = [what for what, is_there in (
        ("skins", any("skin" in node for node in nodes)),
        ("weighted morph targets", any(any(each.get("weights", ())) for each in (*nodes, *said.get("meshes", ())))),
        (INSTANCES, any(INSTANCES in node.get("extensions", {}) for node in nodes))) if is_there]
    if posed:
        raise Trouble("the glTF file has %s, which are not read: write its meshes as they are seen" % " and ".join(posed))
    return said


def chunks(data: bytes) -> tuple[bytes, bytes]:
    """The JSON of a file, and the bytes that a .glb has after it."""
    if data[:4] != b"glTF":
        return data, b""
    long = struct.unpack_from("<I", data, 12)[0]
    body = data[20 + long:]
    return data[20:20 + long], body[8:8 + struct.unpack_from("<I", body)[0]] if body else b""


def triangles(mode: int, numbers: list[int]) -> list[list[int]]:
    """The triangles of a list, a strip or a fan of corners."""
    if mode == 4:
        return [numbers[i:i + 3] for i in range(0, len(numbers) - 2, 3)]
    if mode == 5:
        return [[numbers[i + i % 2], numbers[i + 1 - i % 2], numbers[i + 2]] for i in range(len(numbers) - 2)]
    if mode == 6:
        return [[numbers[0], numbers[i], numbers[i + 1]] for i in range(1, len(numbers) - 1)]
    raise ValueError("lines and points")


def matrix_of(node: dict[str, Any]) -> kinds.Matrix:
    """How a node is placed in that above it: by its matrix, column by column, or by a scale, a turn and a
    translation."""
    if "matrix" in node:
        return [[float(node["matrix"][4 * column + row]) for column in range(4)] for row in range(3)]
    x, y, z, w = node.get("rotation", (0, 0, 0, 1))
    turned = [[1 - 2 * (y * y + z * z), 2 * (x * y - z * w), 2 * (x * z + y * w)],
              [2 * (x * y + z * w), 1 - 2 * (x * x + z * z), 2 * (y * z - x * w)],
              [2 * (x * z - y * w), 2 * (y * z + x * w), 1 - 2 * (x * x + y * y)]]
    grown = [[float(part) * (i == j) for j in range(3)] for i, part in enumerate(node.get("scale", (1, 1, 1)))]
    return [[*row, float(part)] for row,
            part in zip(turns.multiplied(turned, grown), node.get("translation", (0, 0, 0)))]


class File:
    """A file's JSON with its buffers."""

    def __init__(self, said: dict[str, Any], body: bytes, folder: Optional[str]) -> None:
        self.said, self.body, self.folder = said, body, folder
        self.known: dict[int, bytes] = {}

    def buffer(self, number: int) -> bytes:
        if number not in self.known:
            uri = self.said["buffers"][number].get("uri")
            self.known[number] = self.body if uri is None else self.content(uri)
        return self.known[number]

    def content(self, uri: str) -> bytes:
        """What an address has: bytes in itself, or a file next to the model."""
        if uri.startswith("data:"):
            return base64.b64decode(uri.partition(",")[2])
        if self.folder is None or os.path.basename(uri) != uri:
            raise Trouble("the glTF file has a buffer elsewhere, which is not read: %s" % uri)
        try:
            with open(os.path.join(self.folder, uri), "rb") as file:
                return file.read()
        except OSError:
            raise Trouble("the glTF file has a buffer in %s, which cannot be read" % uri) from None

    def rows(self, number: int) -> Iterator[list[Any]]:
        """The rows of an array."""
        own = self.said["accessors"][number]
        if "sparse" in own:
            raise ValueError("a sparse array")
        view = self.said["bufferViews"][own["bufferView"]]
        form = struct.Struct("<%d%s" % (WIDTHS[own["type"]], FORMS[own["componentType"]]))
        first, step = view.get("byteOffset", 0) + own.get("byteOffset", 0), view.get("byteStride", form.size)
        for at in range(own["count"]):
            yield list(form.unpack_from(self.buffer(view["buffer"]), first + at * step))

    def placed(self) -> Iterator[tuple[kinds.Matrix, dict[str, Any]]]:
        """Each primitive of the scene, with its place in millimetres."""
        held = {child for node in self.said["nodes"] for child in node.get("children", ())}
        roots = self.said["scenes"][self.said.get("scene", 0)]["nodes"] if "scenes" in self.said else [
            number for number in range(len(self.said["nodes"])) if number not in held]
        todo = [(MILLIMETRES, number, 0) for number in roots]
        while todo:
            above, number, depth = todo.pop()
            node = self.said["nodes"][number]
            matrix = solids.times(above, matrix_of(node))
            if depth > DEEPEST:
                raise ValueError("nodes in a ring")
            todo += [(matrix, child, depth + 1) for child in node.get("children", ())]
            for primitive in self.said["meshes"][node["mesh"]]["primitives"] if "mesh" in node else ():
                yield matrix, primitive
