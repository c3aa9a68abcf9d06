"""Reads the files OFF, STL, OBJ, PLY, 3MF and glTF: what `convert` draws from. A mesh is points, and facets as lists of
the numbers of their points. Only 3MF and glTF say their unit: they become millimetres."""
import io
import re
import struct
import xml.etree.ElementTree
import zipfile
from typing import Any, Callable, Optional

from pxplanes.errors import Trouble
from pxplanes.mesh import gltf, kinds, solids

LARGEST, MOST = 4000000, 1e9


def floats(words: Any, what: str, at: Any = ()) -> list[float]:
    """The numbers that words are. A refusal says of what they are, with its number."""
    try:
        numbers = [float(word) for word in words]
    except ValueError:
        raise Trouble(what % at + " has a word that is no number")
    for number in numbers:
        if not abs(number) <= MOST:
            raise Trouble(what % at + " has the number %g, and all are from -1e9 to 1e9" % number)
    return numbers


def wholes(words: Any, what: str, at: Any = ()) -> list[int]:
    numbers = floats(words, what, at)
    if any(number % 1 for number in numbers):
        raise Trouble(what % at + " has a number that is not whole")
    return [int(number) for number in numbers]


def read_off(data: bytes) -> Any:
    """The mesh of an OFF file; colours after points and facets are passed over."""
    lines = [line.split("#")[0].split() for line in data.decode("latin-1").split("\n")]
    lines = [line for line in lines if line]
    if not lines or not re.fullmatch(r"(ST)?C?N?OFF", lines[0][0]):
        raise Trouble("this is no OFF file")
    lines = lines[1:] if len(lines[0]) == 1 else [lines[0][1:]] + lines[1:]
    counts = wholes(lines[0][:2] if lines else [], "the head")
    if len(counts) != 2 or not all(0 < count <= LARGEST for count in counts):
        raise Trouble("the head has no counts of points and facets up to %d" % LARGEST)
    rows = lines[1:1 + counts[0]]
    points = [floats(row[:3], "point %d", at) for at, row in enumerate(rows, 1)]
    if len(points) < counts[0] or any(len(point) < 3 for point in points):
        raise Trouble("the file has fewer points than its head says")
    facets = []
    for at, row in enumerate(lines[1 + counts[0]:1 + sum(counts)], 1):
        count = wholes(row[:1], "facet %d", at)[0]
        facets.append(wholes(row[1:1 + max(count, 0)], "facet %d", at))
        if len(facets[-1]) != count:
            raise Trouble("facet %d has fewer corners than it says" % at)
    if len(facets) < counts[1]:
        raise Trouble("the file has fewer facets than its head says")
    return checked(points, facets)


def checked(points: kinds.Points, facets: kinds.Facets) -> Any:
    """The mesh, where each facet names three points or more, and all of them are there."""
    if not points or not facets or len(points) > LARGEST or len(facets) > LARGEST:
        raise Trouble("the file has no points and facets, or more than %d" % LARGEST)
    for number, facet in enumerate(facets, 1):
        if len(facet) < 3:
            raise Trouble("facet %d has fewer than three corners" % number)
        if not all(0 <= at < len(points) for at in facet):
            raise Trouble("facet %d names a point that is not there" % number)
    return points, facets


def merged(points: kinds.Points, facets: kinds.Facets) -> Any:
    """A mesh in which points at one place have one number."""
    numbers: dict[tuple[float, ...], int] = {}
    own = [numbers.setdefault(tuple(point), len(numbers)) for point in points]
    return [list(point) for point in numbers], [[own[at] for at in facet] for facet in facets]


def read_obj(data: bytes) -> Any:
    """The mesh of an OBJ file: its points and faces; a number below 0 counts from the last point."""
    points: list[list[float]] = []
    facets: list[list[int]] = []
    for line in data.decode("latin-1").replace("\\\n", " ").split("\n"):
        words = line.split("#")[0].split()
        if words[:1] == ["v"]:
            points.append(floats(words[1:4], "point %d", len(points) + 1))
        elif words[:1] == ["f"]:
            numbers = wholes([word.split("/")[0] for word in words[1:]], "face %d", len(facets) + 1)
            facets.append([number - 1 if number > 0 else len(points) + number for number in numbers])
    if any(len(point) < 3 for point in points):
        raise Trouble("a point has fewer than three numbers")
    return merged(*checked(points, facets))


PLY_FORMS = {name: form for form, names in zip("bBhHiIfd", (
    "char int8", "uchar uint8", "short int16", "ushort uint16", "int int32", "uint uint32", "float float32", "double float64"))
             for name in names.split()}


def read_ply(data: bytes) -> Any:
    """The mesh of a PLY file, of words or raw."""
    head, _, body = data.partition(b"end_header")
    lines = [line.split() for line in head.decode("latin-1").replace("\r", "").split("\n")]
    try:
        if lines[0] != ["ply"]:
            raise Trouble("this is no PLY file")
        form = next(line[1] for line in lines if line[:1] == ["format"])
        body = body[body.index(b"\n") + 1:]
        take = ply_words(body) if form == "ascii" else ply_raw(body, "<" if form == "binary_little_endian" else ">")
        found: dict[str, Any] = {}
        own: Any = None
        for line in lines:
            if line[:1] == ["element"]:
                own = found[line[1]] = (int(line[2]), [])
            elif line[:1] == ["property"]:
                own[1].append(line[1:])
        rows = {name: [ply_row(properties, take) for _ in range(min(count, LARGEST + 1))]
                for name, (count, properties) in found.items()}
        points = [floats([row[axis] for axis in "xyz"], "vertex %d", at) for at, row in enumerate(rows["vertex"], 1)]
        facets = [wholes(row.get("vertex_indices", row.get("vertex_index")), "face %d", at)
                  for at, row in enumerate(rows["face"], 1)]
        return merged(*checked(points, facets))
    except (IndexError, KeyError, ValueError, TypeError, StopIteration, struct.error):
        raise Trouble("the PLY file is damaged, or has no points and faces")


def ply_words(body: bytes) -> Any:
    words = iter(body.split())
    return lambda kind: float(next(words))


def ply_raw(body: bytes, order: str) -> Any:
    at = [0]

    def take(kind: str) -> Any:
        number = struct.unpack_from(order + PLY_FORMS[kind], body, at[0])[0]
        at[0] += struct.calcsize(PLY_FORMS[kind])
        return number

    return take


def ply_row(properties: Any, take: Any) -> dict[str, Any]:
    out = {}
    for words in properties:
        if words[0] == "list":
            out[words[3]] = [take(words[2]) for _ in range(int(take(words[1])))]
        else:
            out[words[1]] = take(words[0])
    return out


# How many millimetres a unit of a 3MF file is.
UNITS = {"micron": 0.001, "millimeter": 1, "centimeter": 10, "inch": 25.4, "foot": 304.8, "meter": 1000}
PATH = "{http://schemas.microsoft.com/3dmanufacturing/production/2015/06}path"


def read_3mf(data: bytes) -> Any:
    """The meshes of a 3MF file, each at the place that its build gives it; parts may be in files of their own within
    it."""
    try:
        with zipfile.ZipFile(io.BytesIO(data)) as file:
            names = [name for name in file.namelist() if name.lower().endswith(".model")]
            roots = {"/" + name: xml.etree.ElementTree.fromstring(file.read(name)) for name in names}
    except (zipfile.BadZipFile, xml.etree.ElementTree.ParseError, RuntimeError, KeyError):
        raise Trouble("this is no 3MF file")
    first = next((name for name, root in roots.items() if any(local(each) == "item" for each in root.iter())), None)
    if first is None:
        raise Trouble("this is no 3MF file, or its build has no item")
    objects = {(name, each.get("id")): each for name,
               root in roots.items() for each in root.iter() if local(each) == "object"}
    points: list[list[float]] = []
    facets: list[list[int]] = []
    unit = UNITS.get(roots[first].get("unit", "millimeter"))
    if unit is None:
        raise Trouble("the 3MF file has a unit that is none: %s" % roots[first].get("unit"))
    millimetres = [[unit * part for part in row] for row in solids.AS_IS]

    def add(place: str, name: Optional[str], above: kinds.Matrix, words: Optional[str], depth: int) -> None:
        each = objects.get((place, name))
        if each is None or depth > 16:
            raise Trouble("the 3MF file names an object that is not there")
        first, matrix, own = len(points), solids.times(above, transform(words)), list(each.iter())
        points.extend(solids.placed(matrix, [floats([vertex.get(axis, "x") for axis in "xyz"], "a point")
                                             for vertex in own if local(vertex) == "vertex"]))
        facets.extend([first + int(triangle.get(corner, "-1")) for corner in ("v1", "v2", "v3")]
                      for triangle in own if local(triangle) == "triangle")
        for part in own:
            if local(part) == "component":
                add(part.get(PATH, place), part.get("objectid"), matrix, part.get("transform"), depth + 1)

    try:
        for item in roots[first].iter():
            if local(item) == "item":
                add(item.get(PATH, first), item.get("objectid"), millimetres, item.get("transform"), 0)
    except ValueError:
        raise Trouble("the 3MF file has a triangle that is none")
    return merged(*checked(points, facets))


def local(element: Any) -> str:
    """The name of an element without its namespace."""
    return str(element.tag).rpartition("}")[2]


def transform(words: Optional[str]) -> kinds.Matrix:
    """The matrix of twelve numbers, which 3MF has column by column."""
    numbers = floats(words.split(), "a transform") if words else [1, 0, 0, 0, 1, 0, 0, 0, 1, 0, 0, 0]
    if len(numbers) != 12:
        raise Trouble("a transform has twelve numbers")
    return [numbers[row::3] for row in range(3)]


def raw_triangles(data: bytes) -> int:
    """How many triangles a raw STL file has, whatever its header says and whatever follows them; 0 where it is one of
    words."""
    count = int(struct.unpack("<I", data[80:84])[0]) if len(data) >= 84 else 0
    is_whole = 0 < count and len(data) >= 84 + 50 * count
    is_words = data[:5].lower() == b"solid" and b"vertex" in data[:2000].lower()
    return count if is_whole and (len(data) == 84 + 50 * count or not is_words) else 0


def vertex_rows(data: bytes) -> list[list[bytes]]:
    """The words after each vertex of an STL file of words; none where its last solid has no end."""
    is_whole = data.lower().rfind(b"endsolid") > data.lower().rfind(b"vertex")
    lines = data.split(b"\n") if is_whole else []
    return [line.split()[1:4] for line in lines if line.lstrip()[:6].lower() == b"vertex"]


def soup(kind: str, data: bytes) -> Any:
    """The triangles of STL files and of OFF files of triangles as a NumPy array, N by 3 corners by 3 numbers; None for
    others, or where NumPy is not there."""
    try:
        import numpy
        if kind == "stl" and raw_triangles(data):
            form = numpy.dtype([("normal", "<f4", 3), ("corners", "<f4", (3, 3)), ("more", "<u2")])
            found = numpy.frombuffer(data, form, raw_triangles(data), 84)["corners"].astype(float)
        elif kind == "stl":
            found = numpy.array(vertex_rows(data), dtype=float).reshape(-1, 3, 3)
        elif kind == "off" and data[:4].split() == [b"OFF"] and b"#" not in data:
            _, points, count, _, *words = data.split()
            rest = numpy.array(words, dtype=float)
            rows = rest[3 * int(points):].reshape(int(count), 4).astype(int)
            found = rest[:3 * int(points)].reshape(-1, 3)[rows[:, 1:]]
            if (rows[:, 0] != 3).any() or rows.min() < 0:
                return None
        else:
            return None
    except (ImportError, ValueError, IndexError):
        return None
    return found if found.size and numpy.isfinite(found).all() and abs(found).max() <= MOST else None


def read_stl(data: bytes) -> Any:
    """The mesh of an STL file, of words or raw."""
    if raw_triangles(data):
        count = min(raw_triangles(data), LARGEST + 1)
        rows: Any = (row[i:i + 3] for row in struct.iter_unpack("<12x9f2x", data[84:84 + 50 * count]) for i in (0, 3, 6))
    elif data[:5].lower() == b"solid":
        rows = vertex_rows(data)
        if not rows and b"vertex" in data:
            raise Trouble("the file is cut off: it has no endsolid after its last vertex")
    else:
        said = struct.unpack("<I", data[80:84])[0] if len(data) >= 84 else 0
        raise Trouble("the file is cut off, or no STL file: its head says %d triangles, and %d are there" % (
            said, max(0, len(data) - 84) // 50))
    corners = [floats(row, "triangle %d", at // 3 + 1) for at, row in enumerate(rows)]
    if not corners or len(corners) % 3 or any(len(corner) != 3 for corner in corners):
        raise Trouble("the file has no whole triangles")
    if len(corners) > 3 * LARGEST:
        raise Trouble("the file has more than %d triangles" % LARGEST)
    return merged(corners, [range(i, i + 3) for i in range(0, len(corners), 3)])


def read_gltf(data: bytes, folder: Optional[str] = None) -> Any:
    """The mesh of a .glb or .gltf file; buffers in files of their own are looked for in the folder."""
    points, facets = checked(*gltf.read(data, folder))
    return merged([floats(point, "a point") for point in points], facets)


READERS: dict[str, Callable[..., Any]] = {
    "off": read_off, "stl": read_stl, "obj": read_obj, "ply": read_ply, "3mf": read_3mf, "glb": read_gltf, "gltf": read_gltf}
ENDINGS = ".off, .stl, .obj, .ply, .3mf, .glb and .gltf"


def more_kinds() -> set[str]:
    """The endings that the package trimesh reads beyond these; none where it is not there."""
    try:
        import trimesh
    except ImportError:
        return set()
    return set(trimesh.available_formats()) - set(READERS)


def by_trimesh(kind: str, data: bytes) -> Any:
    """The mesh of a file that trimesh reads: all that its scene has, as its numbers are."""
    import trimesh
    try:
        found = trimesh.load(io.BytesIO(data), file_type=kind, force="mesh", process=False)
        return merged(*checked([floats(point, "a point") for point in found.vertices.tolist()], found.faces.tolist()))
    except Trouble:
        raise
    except Exception as bad:         # (each of its readers has its own)
        raise Trouble("trimesh does not read it: %s" % bad)


def read(kind: str, data: bytes, folder: Optional[str] = None) -> Any:
    """The mesh of a file's bytes; those of a .gltf may be in files of that folder too."""
    if kind not in READERS:
        return by_trimesh(kind, data)
    return READERS[kind](data, folder) if kind == "gltf" else READERS[kind](data)
