"""Random programs of OpenSCAD, and meshes in files, drawn by `pxplanes convert` and judged pixel by pixel: five rays a
pixel through the mesh that OpenSCAD makes, or through the file's own triangles (ray_judge.py). Nothing but the command
is of the tool. Assimp reads the real meshes (real_meshes.txt) for the rays."""
import collections
import concurrent.futures
import functools
import glob
import gzip
import hashlib
import io
import itertools
import json
import math
import os
import random
import re
import resource
import struct
import subprocess
import sys
import tarfile
import tempfile
from typing import NamedTuple

import numpy as np

import ray_judge

TOP = os.path.realpath(os.path.join(os.path.dirname(__file__), "..", ".."))

SIZE, LARGER, SECONDS, NEARER = (96, 72), (288, 216), 60, 0.004
RAW = np.dtype([("normal", "<f4", 3), ("corners", "<f4", (3, 3)), ("more", "<u2")])
EXAMPLES = "/usr/share/openscad/examples"
# Those that make nothing, or flat shapes alone, so that OpenSCAD has no mesh of them; example023 needs the library MCAD.
NO_SOLIDS = ("echo", "example015", "example023", "list_comprehensions", "module_recursion", "polygon_areas",
             "recursion")
WAYS = ("--draw", "scene")
WORDS = ("right", "refused", "wrong", "timed out", "no witness")
KINDS = {"program": "random programs", "mesh": "meshes", "held": "models of this repository", "real": "real meshes"}
# Of each real mesh its package, the version as found, the SHA-256 of the file's bytes, and its path in the package. After
# a "!" is the path in the archive there; what ends in .gz is unpacked first.
REAL = os.path.join(os.path.dirname(os.path.realpath(__file__)), "real_meshes.txt")
# glTF has y upwards and metres; the tool makes z upwards and millimetres of them.
MILLIMETRES, UPRIGHT = 1000, ((1, 0, 0), (0, 0, 1), (0, -1, 0))
MODELS = (".csg", ".scad", ".stl", ".off", ".obj", ".ply", ".3mf", ".glb", ".gltf")


class Subject(NamedTuple):
    """A model: its kind and name, and what writes it into a folder, and gives its path with the triangles that rays
    meet; no path for no witness. The seed draws the camera; the size is that of the picture."""

    name: str
    write: object
    seed: int
    size: tuple = SIZE


# ---- random programs ----
def program_of(seed):
    """The text of a program of a seed, at a scale from 0.001 to 100000."""
    draw = random.Random(seed)
    scale = 10 ** draw.uniform(-3, 5)
    return "$fn = %d;\nscale(%.3g) %s\n" % (draw.randint(4, 14), scale, joined(draw, draw.randint(1, 3)))


def joined(draw, depth):
    if depth == 0 or draw.random() < 0.15:
        return leaf(draw)
    word = draw.choice(("union", "difference", "difference", "intersection", "hull"))
    if word == "hull":
        return "hull() { %s %s }" % (leaf(draw), leaf(draw))
    return "%s%s() { %s }" % (turn(draw), word, " ".join(joined(draw, depth - 1) for _ in range(draw.randint(2, 3))))


def turn(draw):
    """One in three is square, so that faces meet."""
    if draw.random() < 0.34:
        return "rotate([0, 0, %d]) " % draw.choice((0, 90, 180))
    return "rotate([%d, %d, %d]) " % tuple(draw.randint(-90, 90) for _ in range(3))


def leaf(draw):
    a, b, c = (draw.randint(3, 12) for _ in range(3))
    corners = [(draw.uniform(2, 8), 2 * math.pi * (i + draw.uniform(0, 0.8)) / 7) for i in range(7)]
    own = draw.choice((
        "cube([%d, %d, %d], center = true);" % (a, b, c),
        "cylinder(h = %d, r = %d, center = true);" % (2 * a, b // 2 + 1),
        "cylinder(h = %d, r1 = %d, r2 = %d);" % (a, b // 2 + 2, c // 4),
        "sphere(%d);" % (a // 2 + 2),
        "linear_extrude(%d) polygon(%s);"
                       % (a, [[round(r * math.cos(t), 2), round(r * math.sin(t), 2)] for r, t in corners]),
        'linear_extrude(%d) text("%s", size = %d, halign = "center", valign = "center");'
                       % (a, draw.choice(("A", "k&", "8", "Rg")), b + 2)))
    return "translate([%d, %d, %d]) %s%s" % (*(draw.randint(-6, 6) for _ in range(3)), turn(draw), own)


def subject_of_program(seed):
    return Subject("program %d" % seed, functools.partial(write_program, seed), seed)


def write_program(seed, folder):
    with open(os.path.join(folder, "model.scad"), "w") as file:
        file.write(program_of(seed))
    return by_openscad("model.scad", folder, "model.csg"), stl(by_openscad("model.scad", folder, "model.stl"))


# ---- files ----
def by_openscad(source, folder, out):
    """What OpenSCAD exports; None for nothing."""
    done = subprocess.run(["openscad", "-o", os.path.join(folder, out), source], cwd=folder, capture_output=True,
                          preexec_fn=bounded(300))
    path = os.path.join(folder, out)
    return path if done.returncode == 0 and os.path.exists(path) else None


def bounded(seconds):
    return lambda: resource.setrlimit(resource.RLIMIT_CPU, (seconds, seconds + 5))


def stl(path):
    """The triangles of an STL file, of words or raw; none where there is no file."""
    if path is None:
        return np.zeros((0, 3, 3))
    with open(path, "rb") as file:
        data = file.read()
    if data[:5] == b"solid":
        return np.array(re.findall(rb"vertex\s+(\S+)\s+(\S+)\s+(\S+)", data), float).reshape(-1, 3, 3)
    return np.frombuffer(data, RAW, offset=84)["corners"].astype(float)


def points_of(triangles):
    points, numbers = np.unique(triangles.reshape(-1, 3), axis=0, return_inverse=True)
    return points, numbers.reshape(-1, 3)


def raw_stl(triangles):
    rows = np.zeros(len(triangles), RAW)
    rows["corners"] = triangles
    return b"raw".ljust(80) + struct.pack("<I", len(rows)) + rows.tobytes()


def obj(triangles):
    points, sides = points_of(triangles)
    return ("".join("v %.9g %.9g %.9g\n" % tuple(own) for own in points) + "".join(
        "f %d %d %d\n" % tuple(own + 1) for own in sides)).encode()


def off(triangles):
    points, sides = points_of(triangles)
    return ("OFF\n%d %d 0\n" % (len(points), len(sides)) + "".join(
        "%.9g %.9g %.9g\n" % tuple(own) for own in points) + "".join(
        "3 %d %d %d\n" % tuple(own) for own in sides)).encode()


def glb(triangles):
    """With y upwards and in metres, as glTF has it: what is read of it has z upwards, in millimetres."""
    points, sides = points_of(triangles)
    body = sides.astype("<u4").tobytes() + (points[:, (0, 2, 1)] * (0.001, 0.001, -0.001)).astype("<f4").tobytes()
    head = json.dumps({"asset": {"version": "2.0"}, "scene": 0, "scenes": [{"nodes": [0]}], "nodes": [{"mesh": 0}],
                       "meshes": [{"primitives": [{"attributes": {"POSITION": 1}, "indices": 0}]}],
                       "buffers": [{"byteLength": len(body)}],
                       "bufferViews": [{"buffer": 0, "byteLength": sides.size * 4},
                                       {"buffer": 0, "byteOffset": sides.size * 4,
                                                                                 "byteLength": points.size * 4}],
                       "accessors": [{"bufferView": 0, "componentType": 5125, "count": sides.size, "type": "SCALAR"},
                                     {"bufferView": 1, "componentType": 5126, "count": len(points),
                                      "type": "VEC3"}]}).encode()
    head += b" " * (-len(head) % 4)
    return struct.pack("<4sII", b"glTF", 2, 28 + len(head) + len(body)) + struct.pack(
        "<I4s", len(head), b"JSON") + head + struct.pack(
        "<I4s", len(body), b"BIN\0") + body


FORMS = {"stl": raw_stl, "obj": obj, "off": off, "glb": glb}


def write_mesh(path, form, folder):
    """A mesh of a file: an STL as it is, of any other what OpenSCAD makes of it; written in a form, or by OpenSCAD
    itself as words or 3MF."""
    is_mesh = path.endswith(".stl")
    source = imported(path, folder) if is_mesh else path
    words = path if is_mesh else by_openscad(path, os.path.dirname(path), os.path.join(folder, "words.stl"))
    triangles = stl(words)
    if form == "words" or not len(triangles):
        return words, triangles
    if form == "3mf":
        return by_openscad(source, os.path.dirname(path), os.path.join(folder, "model.3mf")), triangles
    with open(os.path.join(folder, "model." + form), "wb") as file:
        file.write(FORMS[form](triangles))
    return file.name, triangles


def imported(path, folder):
    """A program of OpenSCAD's that is the mesh of a file."""
    with open(os.path.join(folder, "import.scad"), "w") as file:
        file.write('import("%s");' % path)
    return file.name


def write_held(path, folder):
    """A model as it is, and the mesh that OpenSCAD makes of it."""
    source = path if path.endswith(("scad", "csg")) else imported(path, folder)
    return path, stl(by_openscad(source, os.path.dirname(path), os.path.join(folder, "witness.stl")))


def subjects_of_meshes(count):
    """So many meshes that OpenSCAD ships or makes of its examples and of those of this repository, in one form after
    another."""
    paths = sorted(glob.glob(EXAMPLES + "/*/*.stl")) + sorted(glob.glob(EXAMPLES + "/*/*.scad"))
    paths += sorted(glob.glob(os.path.join(TOP, "gallery", "*.csg"))) + [os.path.join(TOP, "docs/scenes/bracket.scad")]
    forms = ("words", "obj", "stl", "off", "3mf", "glb")
    every = ((paths[at % len(paths)], forms[(at + at // len(paths)) % len(forms)], at) for at in itertools.count())
    kept = ((path, form, at) for path, form, at in every if os.path.basename(path)[:-5] not in NO_SOLIDS)
    return [Subject("mesh %s as %s" % (os.path.relpath(path, TOP if path.startswith(TOP) else EXAMPLES), form),
                    functools.partial(write_mesh, path, form), at)
            for path, form, at in itertools.islice(kept, count)]


def subjects_held(count):
    """The first so many models of this repository."""
    paths = sorted(path for path in glob.glob(TOP + "/**/*.*", recursive=True) if path.endswith(MODELS))
    return [Subject("held " + os.path.relpath(path, TOP), functools.partial(write_held, path), at)
            for at, path in enumerate(paths[:count])]


# ---- real meshes ----
class Real(NamedTuple):
    package: str
    version: str
    checksum: str
    path: str

    def name(self):
        """The file's name; an STL file of words that has a name of its own ends as others do."""
        return re.split("[/!]", self.path)[-1].removesuffix(".gz").replace(".stla", ".stl")


def real_meshes():
    with open(REAL) as file:
        return [Real(*line.rstrip("\n").split(" ", 3)) for line in file]


def subjects_real(first, last, folder):
    """The real meshes of these numbers, downloaded into a folder."""
    own = list(enumerate(real_meshes()))[first - 1:last]
    return [Subject("real %s" % each.name(), functools.partial(write_real, fetched(each, folder)), at, LARGER)
            for at, each in own]


def fetched(own, folder):
    """The file of a package of Debian's, kept in a folder; an error if it is another one than its checksum says."""
    path = os.path.join(os.path.abspath(folder), "real", own.checksum[:8] + "-" + own.name())
    if not os.path.exists(path):
        os.makedirs(os.path.dirname(path), exist_ok=True)
        data = unpacked(package(own, folder), own.path)
        if hashlib.sha256(data).hexdigest() != own.checksum:
            raise ValueError("%s of %s %s is another file than its checksum says" % (
                own.path, own.package, own.version))
        with open(path, "wb") as file:
            file.write(data)
    return path


def package(own, folder):
    """The bytes of a package's archive of files."""
    pattern = os.path.join(os.path.abspath(folder), own.package + "_*.deb")
    if not glob.glob(pattern):
        subprocess.run(["apt-get", "download", "-q", "%s=%s" % (own.package, own.version)], cwd=folder, check=True)
    return subprocess.run(["dpkg-deb", "--fsys-tarfile", *glob.glob(pattern)], check=True, capture_output=True).stdout


def unpacked(archive, path):
    outer, _, inner = path.partition("!")
    with tarfile.open(fileobj=io.BytesIO(archive)) as file:
        data = file.extractfile("./" + outer if not outer.startswith("data/") else outer).read()
    return unpacked(data, inner) if inner else gzip.decompress(data) if path.endswith(".gz") else data


def write_real(path, folder):
    """A file as it is, and its triangles as Assimp reads them."""
    witness = os.path.join(folder, "witness.stl")
    done = subprocess.run(["assimp", "export", path, witness, "-fstlb", "-ptv"], capture_output=True,
                          preexec_fn=bounded(300))
    triangles = stl(witness if done.returncode == 0 else None)
    return path, triangles @ np.array(UPRIGHT) * MILLIMETRES if path.endswith(("glb", "gltf")) else triangles


def open_edges(triangles):
    """How many edges of a mesh are not met by as many triangles one way as the other."""
    _, sides = points_of(triangles)
    ways = np.concatenate([sides[:, [at, (at + 1) % 3]] for at in range(3)])
    _, numbers = np.unique(np.sort(ways, axis=1), axis=0, return_inverse=True)
    return int((np.bincount(numbers.ravel(), np.where(ways[:, 0] < ways[:, 1], 1, -1)) != 0).sum())


def table_of_real(rows):
    """Lines of a table: each real mesh with its package, its triangles, and what came of it."""
    of_name = {row["name"]: row for row in rows if row["way"] == "--draw"}
    out = ["| File | Package | Triangles | Open edges | Result | Seconds |", "|---" * 6 + "|"]
    for own in real_meshes():
        row = of_name.get("real " + own.name())
        if row:
            out.append("| %s | %s | %d | %d | %s | %.1f |" % (
                own.name(), own.package, row["triangles"], row["open"], row["word"], row["seconds"]))
    return out


# ---- judging ----
def camera_words(triangles, seed, size):
    """A camera from a random side that has all of a mesh in the picture, the words that say it, and near and far."""
    draw = random.Random(seed)
    points = triangles.reshape(-1, 3)
    middle = (points.min(0) + points.max(0)) / 2
    radius = max(np.linalg.norm(points - middle, axis=1).max(), 1e-9)
    turn_, height = draw.uniform(0, 2 * math.pi), draw.uniform(-0.95, 0.95)
    way = np.array([math.cos(turn_) * math.sqrt(1 - height ** 2), math.sin(turn_) * math.sqrt(1 - height ** 2), height])
    is_deep, fov = seed % 2 == 1, draw.uniform(15, 60) if seed % 2 else 22.5
    distance = 1.05 * radius / (math.sin if is_deep else math.tan)(math.radians(fov) / 2)
    eye = middle + distance * way
    words = ["--size", *map(str, size)]
    if is_deep:
        near, far = (distance - radius) * 0.98, (distance + radius) * 1.02
        words += ["--eye=" + listed(eye), "--at=" + listed(middle), "--fov", repr(fov), "--near", repr(near), "--far",
                  repr(far)]
        return ray_judge.camera_of(eye, middle, size, True, fov), words, (near, far)
    return ray_judge.camera_of(eye, middle, size, False), words + ["--camera=" + listed([*eye, *middle])], None


def listed(numbers):
    return ",".join(repr(float(number)) for number in numbers)


def run(words, folder):
    done = subprocess.run([sys.executable, "-m", "pxplanes", *words], cwd=folder, capture_output=True,
                          preexec_fn=bounded(3 * SECONDS), env={
        **os.environ, "PYTHONPATH": os.path.join(TOP, "python")})
    return done.returncode, done.stderr.decode("latin-1").strip().replace(folder + "/", "")


def depths_of(path):
    """The depths of maps as the program writes them: the first image, in three bytes a pixel."""
    with open(path, "rb") as file:
        _, size, _, data = file.read().split(b"\n", 3)
    width, height = map(int, size.split())
    raw = np.frombuffer(data, np.uint8, 3 * width * height).reshape(-1, 3).astype(int)
    return raw[:, 0] << 16 | raw[:, 1] << 8 | raw[:, 2]


class Lens(NamedTuple):
    steep: float
    near: float
    perspective: bool


def lens_of(camera, ends, cells, depths, away):
    """How depths count. Without perspective the tool chooses where they begin and end: the straight line that fits most
    pixels."""
    if camera.perspective:
        return Lens(cells / (1 / ends[0] - 1 / ends[1]), ends[0], True)
    there = np.isfinite(away).all(1) & (depths < cells)
    z, own = away[there].mean(1), depths[there] - 0.5
    spread = np.ptp(away[there], axis=1)
    # (in a picture of steep faces alone, the less steep half of them)
    kept = spread <= max(0.02 * np.ptp(z), np.median(spread)) if len(z) else spread < 0
    for _ in range(8):
        if kept.sum() < 2 or np.ptp(z[kept]) == 0:
            break
        origin = z[kept].mean()
        steep, base = np.polyfit(z[kept] - origin, own[kept], 1)
        near = origin - base / steep if steep else 0.0
        off = np.abs(steep * (z - near) - own)
        kept &= off <= max(1.0, 3 * np.median(off[kept]))
    else:
        return Lens(steep, near, False)
    return Lens(0.0, 0.0, False) if not len(own) else Lens(cells, z[0] - own[0] / cells, False)


def judged(subject, ways=WAYS):
    """A row for each way: its word, and why."""
    with tempfile.TemporaryDirectory(prefix="px-judged-") as folder:
        path, triangles = subject.write(folder)
        if path is None or not np.isfinite(triangles).all():
            return [{"name": subject.name, "way": way, "word": "no witness"} for way in ways]
        is_empty, size = len(triangles) == 0, subject.size
        camera, words, ends = camera_words(np.zeros((1, 3, 3)) if is_empty else triangles, subject.seed, size)
        away = ray_judge.nearest(triangles, camera, size) if not is_empty else np.full((size[0] * size[1], 5), np.inf)
        return [{"name": subject.name, "way": way, "triangles": len(triangles), "open": open_edges(triangles),
                 **word_of(path, way, words, folder, camera, ends, away, triangles, size)}
                for way in ways]


def word_of(path, way, words, folder, camera, ends, away, triangles, size):
    maps, before = os.path.join(folder, "maps"), resource.getrusage(resource.RUSAGE_CHILDREN).ru_utime
    more = ["--draw", maps] if way == "--draw" else ["-o", os.path.join(folder, "out.scene")]
    status, said = run(["convert", *words, "--seconds", str(SECONDS), *more, path], folder)
    row = {"seconds": round(resource.getrusage(resource.RUSAGE_CHILDREN).ru_utime - before, 2)}
    if status:
        why = said.split("\n")[-1]
        if "the model has no solid" in why and not np.isfinite(away).any():
            return {**row, "word": "right", "why": "nothing"}
        return {**row, "word": "timed out" if "more than %d seconds" % SECONDS in why or status < 0 else "refused",
                "why": why}
    if way == "scene":
        with open(os.path.join(folder, "out.scene")) as scene, open(maps, "wb") as file:
            if subprocess.run([os.environ["PXPLANES_PROGRAM"], "render"], stdin=scene, stdout=file,
                              preexec_fn=bounded(SECONDS)).returncode:
                return {**row, "word": "timed out",
                        "why": "the program takes more than %d seconds for its scene" % SECONDS}
            scene.seek(0)
            cells = 2 ** int(re.search(r"^depth (\d+)", scene.read(), re.M).group(1)) - 1
    else:
        cells = int((re.findall(r"cells of (\d+)", said) or [4095])[-1])
    rounded = [float(number) for number in re.findall(r"rounded by (?:at most )?([-+.e\d]+) cells", said)]
    depths = depths_of(maps)
    lens = lens_of(camera, ends, cells, depths, away)
    room = (1 if camera.perspective else 1.6) + sum(rounded)
    bad, there = ray_judge.wrong_pixels(depths, cells, away, lens, room)
    # at a steep face after an edge the rays around a pixel are not near enough: what is wrong is so by nearer ones too
    if bad:
        nearer = ray_judge.nearest(triangles, camera, size, NEARER)
        bad = sorted(set(bad) & set(ray_judge.wrong_pixels(depths, cells, nearer, lens, room)[0]))
    row.update(pixels=there, rounded=sum(rounded), columns="drawn by columns" in said)
    if bad:
        x, y = bad[0] % size[0], bad[0] // size[0]
        return {**row, "word": "wrong", "why": "%d of %d pixels, the first x %d, y %d: %d, and not %s" % (
            len(bad), there, x, y, depths[bad[0]], np.round(away[bad[0]], 4).tolist()), "command": " ".join(words)}
    return {**row, "word": "right"}


def rows_at(subject):
    """The rows of a subject; of every fifth as one scene too. (Real meshes have more parts than a scene has solids.)"""
    return judged(subject, WAYS if subject.seed % 5 == 0 and not subject.name.startswith("real") else WAYS[:1])


def rows_of(subjects, jobs):
    """The rows of subjects, as they come."""
    with concurrent.futures.ProcessPoolExecutor(jobs) as pool:
        for done in concurrent.futures.as_completed([pool.submit(rows_at, subject) for subject in subjects]):
            yield from done.result()


def table(rows):
    """Lines of a table: of each kind and way how many were right, refused, wrong, too slow."""
    counts = collections.Counter((row["name"].split()[0], row["way"], row["word"]) for row in rows)
    out = ["| What | Way | %s |" % " | ".join(WORDS), "|---" * (2 + len(WORDS)) + "|"]
    for kind, what in KINDS.items():
        out += ["| %s | %s | %s |" % (what, way, " | ".join(str(counts[kind, way, word]) for word in WORDS))
                for way in WAYS]
    return out
