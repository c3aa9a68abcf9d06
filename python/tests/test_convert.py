"""What `pxplanes convert` and `view` read and write: forms of meshes as programs write them, maps of models, and
POV-Ray at any depth."""
import base64
import io
import json
import math
import os
import shutil
import struct
import subprocess
import sys
import types
import zipfile

import pytest
import support
from pxplanes.errors import Trouble
from pxplanes.image import netpbm
from pxplanes.mesh import cameras, csg, exports, mesh_files, modelling

CORNERS = [(0, 0, 0), (4, 0, 0), (0, 4, 0), (0, 0, 4)]
SIDES = [(0, 2, 1), (0, 1, 3), (0, 3, 2), (1, 2, 3)]
CORE = "http://schemas.microsoft.com/3dmanufacturing/core/2015/02"
PRODUCTION = "http://schemas.microsoft.com/3dmanufacturing/production/2015/06"


def px(built, *words, **more):
    environment = {**os.environ, "PXPLANES_PROGRAM": built, "PYTHONPATH": os.path.join(support.TOP, "python")}
    return subprocess.run([sys.executable, "-m", "pxplanes", *map(str, words)], capture_output=True, env=environment,
                          **more)


def raw_stl(header, after=b"", far=0.0):
    records = b"".join(struct.pack("<12fH", *(0.0,) * 3, *(part + far for at in side for part in CORNERS[at]), 0)
                       for side in SIDES)
    return header.ljust(80) + struct.pack("<I", len(SIDES)) + records + after


@pytest.mark.parametrize("header, after",
                         [(b"made by hand", b""), (b"solid made by hand", b""),
                          (b"solid made by hand", b"more bytes after")])
def test_raw_stl_is_known_by_its_count(header, after):
    points, sides = mesh_files.READERS["stl"](raw_stl(header, after))
    assert sorted(map(tuple, points)) == sorted(CORNERS) and len(sides) == 4
    numpy = pytest.importorskip("numpy")
    assert numpy.array_equal(mesh_files.soup("stl", raw_stl(header, after)),
                             [[CORNERS[at] for at in side] for side in SIDES])


def test_raw_stl_far_from_the_origin_is_a_scene(built, tmp_path):
    (tmp_path / "far.stl").write_bytes(raw_stl(b"far", far=100000.1))
    done = px(built, "convert", "far.stl", cwd=tmp_path)
    assert done.returncode == 0 and done.stdout.count(b"\nsolid ") == 1, done.stderr


WORDS = b"".join(b"facet\nvertex %d %d %d\nvertex %d %d %d\nvertex %d %d %d\nendfacet\n" % tuple(
    part for at in side for part in CORNERS[at]) for side in SIDES)
OBJ = b"v 0 0 0\nv 4 0 0\nv 0 4 0\nv 0 0 4\nf 1 3 2\nf 1 2 4\nf 1 4 3\nf 2 3 4"
PLY = b"ply\nformat ascii 1.0\nelement vertex 3\n" + b"".join(b"property float %c\n" % axis for axis in b"xyz") + \
    b"element face 1\nproperty list uchar int vertex_index\nend_header\n0 0 nan\n1 0 0\n0 1 0\n3 0 1 2\n"


@pytest.mark.parametrize("kind, data, why", [
    ("stl", raw_stl(b"raw")[:-60], "cut off, .* says 4 triangles, and 2 are there"),
    ("stl", b"solid s\n" + WORDS, "cut off: it has no endsolid"),
    ("stl", raw_stl(b"raw", far=float("nan")), "triangle 1 has the number nan"),
    ("obj", OBJ[:-2], "facet 4 has fewer than three corners"), ("obj", OBJ[:-1] + b"9", "facet 4 names a point"),
    ("obj", OBJ[:-1] + b"2.5", "face 4 has a number that is not whole"), ("obj", b"v 0 0 1e30\n", "point 1 has the number 1e.30"),
    ("off", b"OFF\n3 1 0\n0 0 0\n1 0 0\n0 1 0\n3 0 1", "facet 1 has fewer corners"), ("ply", PLY, "vertex 1 has the number nan")])
def test_what_is_cut_off_or_no_number_is_refused_with_its_place(kind, data, why):
    pytest.importorskip("numpy")
    leaf = csg.of_mesh_file(kind, data)
    with pytest.raises(Trouble, match=why):
        leaf.points


def test_obj_with_groups_has_all_of_them():
    text = "".join("v %d %d %d\n" % point for point in CORNERS) + "".join(
        "g group%d\nusemtl m\ns off\nf %s\n" % (at, " ".join("%d/1/1" % (corner + 1) for corner in side)) for at,
            side in enumerate(SIDES))
    points, sides = mesh_files.READERS["obj"](text.encode())
    assert len(points) == 4 and [tuple(side) for side in sides] == SIDES


def test_3mf_has_parts_in_files_of_their_own():
    part = '<model xmlns="%s"><resources><object id="7"><mesh><vertices>%s</vertices><triangles>%s</triangles></mesh></object></resources></model>' % (
        CORE, "".join('<vertex x="%d" y="%d" z="%d"/>' % point for point in CORNERS),
        "".join('<triangle v1="%d" v2="%d" v3="%d"/>' % side for side in SIDES))
    root = ('<model xmlns="%s" xmlns:p="%s"><resources><object id="1"><components><component '
            'p:path="/3D/Objects/a.model" objectid="7" '
            'transform="1 0 0 0 1 0 0 0 1 10 0 0"/></components></object></resources><build><item '
            'objectid="1"/></build></model>' % (CORE, PRODUCTION))
    file = io.BytesIO()
    with zipfile.ZipFile(file, "w") as archive:
        archive.writestr("3D/Objects/a.model", part)
        archive.writestr("3D/3dmodel.model", root)
    points, sides = mesh_files.READERS["3mf"](file.getvalue())
    assert sorted(map(tuple, points)) == sorted((x + 10, y, z) for x, y, z in CORNERS) and len(sides) == 4


def gltf(uri, node=None, more=0, **primitive):
    """A glTF of the four triangles: numbers of sixteen bits, then corners, each with `more` bytes after it."""
    body = struct.pack("<12H", *(at for side in SIDES for at in side))
    body += b"".join(struct.pack("<3f", *point) + bytes(more) for point in CORNERS)
    view = {"buffer": 0, "byteOffset": 24, "byteLength": len(body) - 24, **({"byteStride": 12 + more} if more else {})}
    said = {"asset": {"version": "2.0"}, "scene": 0, "scenes": [{"nodes": [0]}],
            "nodes": [{"children": [1]}, {"mesh": 0, **(node or {})}],
            "meshes": [{"primitives": [{"attributes": {"POSITION": 1}, "indices": 0, **primitive}]}],
            "buffers": [{"byteLength": len(body),
                         **({"uri": uri % base64.b64encode(body).decode() if "%" in uri else uri} if uri else {})}],
            "bufferViews": [{"buffer": 0, "byteLength": 24}, view],
            "accessors": [{"bufferView": 0, "componentType": 5123, "count": 12, "type": "SCALAR"},
                          {"bufferView": 1, "componentType": 5126, "count": 4, "type": "VEC3"}]}
    return json.dumps(said).encode(), body


def glb(node=None):
    head, body = gltf(None, node)
    head += b" " * (-len(head) % 4)
    return struct.pack("<4sII", b"glTF", 2, 28 + len(head) + len(body)) + struct.pack(
        "<I4s", len(head), b"JSON") + head + struct.pack(
        "<I4s", len(body), b"BIN\0") + body


# In metres with y upwards (4, 0, 0), (0, 4, 0) and (0, 0, 4) are 4000 to the right, 4000 upwards and 4000 towards the
# eye, where y is below 0.
MILLIMETRES = [(0, 0, 0), (4000, 0, 0), (0, 0, 4000), (0, -4000, 0)]


def test_gltf_has_its_buffer_in_it_or_beside_it(tmp_path):
    content, body = gltf("one.bin")
    (tmp_path / "one.bin").write_bytes(body)
    for data in (content, gltf("data:application/octet-stream;base64,%s", more=4)[0], glb()):
        points, sides = mesh_files.read("gltf", data, str(tmp_path))
        assert [tuple(point) for point in points] == MILLIMETRES and [tuple(side) for side in sides] == SIDES
    for uri in ("two.bin", "../one.bin", "/etc/passwd"):
        with pytest.raises(Trouble, match="a buffer .*one.bin|a buffer .*two.bin|a buffer .*passwd"):
            mesh_files.read("gltf", gltf(uri)[0], str(tmp_path))
    with pytest.raises(Trouble, match="a buffer elsewhere"):
        mesh_files.read("gltf", content)


@pytest.mark.parametrize("more, why", [
    ({"asset": {"version": "1.0"}}, "glTF 1.0, and 2.0 is read"), ({"asset": {"version": "20.0"}}, "glTF 20.0, and"), ({"asset": {}}, "glTF 1.0, and 2.0 is read"),
    ({"extensionsRequired": ["KHR_materials_unlit", "KHR_draco_mesh_compression"]}, "KHR_draco_mesh_compression, which")])
def test_gltf_of_another_version_or_packed_is_refused_as_that(more, why):
    content = gltf("data:application/octet-stream;base64,%s")[0]
    assert len(mesh_files.read("gltf", json.dumps({**json.loads(content), "extensionsRequired": [
        "KHR_materials_unlit", "KHR_texture_transform", "KHR_lights_punctual", "EXT_texture_webp", "EXT_lights_ies"]}).encode())[1]) == 4
    with pytest.raises(Trouble, match=why):
        mesh_files.read("gltf", json.dumps({**json.loads(content), **more}).encode())


@pytest.mark.parametrize("node, mesh, why", [
    ({"skin": 0}, {}, "skins, which"), ({"skin": 0}, {"weights": [0, 1]}, "skins and weighted morph targets, which"), ({"weights": [0, 0.5]}, {}, "weighted morph targets"), ({}, {"weights": [1]}, "weighted morph targets"),
    ({"extensions": {"EXT_mesh_gpu_instancing": {}}}, {}, "EXT_mesh_gpu_instancing, which"), ({"weights": [0, 0]}, {"weights": [0]}, None)])
def test_gltf_whose_shapes_are_posed_or_repeated_is_refused(node, mesh, why):
    said = json.loads(gltf("data:application/octet-stream;base64,%s")[0])
    said["nodes"] = [{**said["nodes"][0], **node}, *said["nodes"][1:]]
    said["meshes"] = [{**said["meshes"][0], **mesh}]
    if why is None:
        assert len(mesh_files.read("gltf", json.dumps(said).encode())[1]) == 4
    else:
        with pytest.raises(Trouble, match=why):
            mesh_files.read("gltf", json.dumps(said).encode())


def test_gltf_without_scenes_has_each_shape_once():
    said = json.loads(gltf("data:application/octet-stream;base64,%s")[0])
    del said["scenes"], said["scene"]
    said["nodes"][0]["translation"] = [0, 0, 2]
    points, sides = mesh_files.read("gltf", json.dumps(said).encode())
    # (2 metres along the file's z axis are 2000 millimetres along ours against y)
    assert len(sides) == 4 and [tuple(point) for point in points] == [(x, y - 2000, z) for x, y, z in MILLIMETRES]


def test_gltf_places_its_nodes_and_reads_strips():
    # A quarter turn about the file's y axis takes z to x and x to -z; then twice as large in x, and 1 metre up.
    half = 0.5 ** 0.5
    node = {"rotation": [0, half, 0, half], "scale": [1, 1, 2], "translation": [0, 1, 0]}
    points, _ = mesh_files.read("glb", glb(node))
    assert [tuple(round(part) for part in point) for point in points] == [
        (0, 0, 1000), (0, 4000, 1000), (0, 0, 5000), (8000, 0, 1000)]
    moved, _ = mesh_files.read("glb", glb({"matrix": [1, 0, 0, 0, 0, 1, 0, 0, 0, 0, 1, 0, 7, 8, 9, 1]}))
    assert tuple(moved[0]) == (7000, -9000, 8000)
    _, sides = mesh_files.read("gltf", gltf("data:,%s", mode=5)[0])
    assert [tuple(side) for side in sides[:2]] == [(0, 2, 1), (1, 2, 0)] and len(sides) == 10
    with pytest.raises(Trouble, match="other than triangles"):
        mesh_files.read("gltf", gltf("data:,%s", mode=1)[0])
    with pytest.raises(Trouble, match="glTF file is damaged"):
        mesh_files.read("glb", glb()[:90])


class Trimesh:
    """What acts for trimesh here, by its documented calls: a form of one triangle a line."""

    @staticmethod
    def available_formats():
        return {"tri", "stl"}

    @staticmethod
    def load(file, file_type, force, process):
        numpy = pytest.importorskip("numpy")
        assert (file_type, force, process) == ("tri", "mesh", False)
        corners = numpy.array([line.split() for line in file.read().decode().splitlines()], float).reshape(-1, 3)
        return types.SimpleNamespace(vertices=corners, faces=numpy.arange(len(corners)).reshape(-1, 3))


def test_what_trimesh_reads_is_read_with_it(tmp_path, monkeypatch):
    path = tmp_path / "one.tri"
    path.write_text("".join("%d %d %d " * 3 % tuple(part for at in side for part in CORNERS[at]) + "\n" for side in SIDES))
    monkeypatch.setitem(sys.modules, "trimesh", None)
    with pytest.raises(Trouble, match="one.tri is no .* more is read with the Python package trimesh"):
        modelling.read(str(path), modelling.Choices())
    monkeypatch.setitem(sys.modules, "trimesh", Trimesh)
    assert modelling.is_model(str(path)) and not modelling.is_model("one.scene")
    leaf = modelling.read(str(path), modelling.Choices())
    assert sorted(map(tuple, leaf.points)) == sorted(CORNERS) and len(leaf.sides) == 4
    path.write_text("1 2 word\n")
    with pytest.raises(Trouble, match="trimesh does not read it"):
        modelling.read(str(path), modelling.Choices()).points


def test_glb_has_what_obj_has(tmp_path):
    """A scene without a camera has y upwards in both, and one in perspective its model's z."""
    boxes = "union() { multmatrix([[1,0,0,%d],[0,1,0,0],[0,0,1,0],[0,0,0,1]]) { cube(size = [4, 2, 3], center = false); } color([1, 0.5, 0, 1]) { cylinder($fn = 5, h = 3, r1 = 2, r2 = 1, center = true); } }"
    (tmp_path / "two.csg").write_text(boxes % 5)
    for options in ({}, {"projection": "p"}):
        text, (scene, *_) = modelling.made(str(tmp_path / "two.csg"), modelling.Choices(**options))
        camera = cameras.of_scene(text.encode(), scene)
        data, lacks = exports.glb(scene, camera)
        points, sides = mesh_files.read("glb", data)
        other, facets = mesh_files.read("obj", exports.obj(scene, camera)[0].encode())
        turned = other if camera else [(x, -z, y) for x, y, z in other]
        assert len(points) == len(other) == 18 and len(sides) == sum(len(facet) - 2 for facet in facets) == 12 + 16
        size = max(abs(part) for point in turned for part in point)
        assert all(min(math.dist(a, b) for b in turned) < 1e-6 * size for a in points)
        said = json.loads(data[20:20 + struct.unpack_from("<I", data, 12)[0]])
        assert len(data) % 4 == 0 and struct.unpack_from("<4sII", data) == (b"glTF", 2, len(data))
        assert [node.get("name") for node in said["nodes"][1:]] == [solid.name for solid in scene.solids]
        # Orange is (1, 0.5, 0), whose half is 0.216 in linear light: ((128/255 + 0.055) / 1.055) ^ 2.4.
        assert [round(part, 3) for part in said["materials"][1]["pbrMetallicRoughness"]["baseColorFactor"]] == [1, 0.216, 0, 1]
        assert "the numbers and the colours of the faces" in lacks


def test_units_and_the_axis_that_is_upwards(tmp_path):
    (tmp_path / "one.stl").write_bytes(raw_stl(b"one"))
    (tmp_path / "one.glb").write_bytes(glb())
    for name, unit, up, expected in (
        ("one.stl", None, None, (0, 0, 4)), ("one.stl", "in", None, (0, 0, 4 * 25.4)),
                                     ("one.stl", None, "y", (0, -4, 0)),
                                     ("one.glb", None, None, (0, -4000, 0)), ("one.glb", None, "z", (0, 0, 4000))):
        leaf = modelling.read(str(tmp_path / name), modelling.Choices(unit=unit, up=up))
        assert sorted(tuple(round(float(part), 3) for part in point) for point in leaf.points).count(expected) >= 1, (
            name, unit, up)
    with pytest.raises(Trouble, match="says its unit"):
        modelling.read(str(tmp_path / "one.glb"), modelling.Choices(unit="mm"))


def test_a_model_becomes_maps_by_columns_in_one_step(built, tmp_path):
    pytest.importorskip("numpy")
    (tmp_path / "one.stl").write_bytes(raw_stl(b"one"))
    done = px(built, "convert", "--view", "0", "0", "0", "--size", "40", "40", "--draw", "maps", "one.stl",
              cwd=tmp_path)
    assert done.returncode == 0 and b"drawn by columns: 4 triangles" in done.stderr, done.stderr
    depths, faces = (image.numbers() for image in netpbm.images((tmp_path / "maps").read_bytes()))
    # From above the fourth facet alone is seen: right of x = 0, above y = 0, left of the line from (4, 0) to (0, 4).
    assert set(faces) == {0, 4} and all((face == 0) == (depth == 4095) for face, depth in zip(faces, depths))
    assert 0.4 < faces.count(4) / (0.92 * 40) ** 2 < 0.6


def test_view_draws_a_model_that_fills_the_picture(built, tmp_path):
    numpy = pytest.importorskip("numpy")
    (tmp_path / "one.stl").write_bytes(raw_stl(b"one"))
    done = px(built, "view", "one.stl", "-o", "one.png", cwd=tmp_path)
    assert done.returncode == 0, done.stderr
    (width, height), content = size_and_rows(tmp_path / "one.png")
    shown = numpy.argwhere((content != 255).any(2))
    high, wide = numpy.ptp(shown, axis=0) + 1
    assert max(width, height) == 512 and (wide > 0.75 * width or high > 0.75 * height)


def size_and_rows(path):
    """The pixels of a PNG, by a library that is not ours."""
    image = pytest.importorskip("OpenImageIO").ImageBuf(str(path))
    import numpy
    rows = numpy.rint(image.get_pixels() * 255).astype(int)[..., :3]
    return rows.shape[1::-1], rows


@pytest.mark.skipif(shutil.which("povray") is None, reason="no povray")
@pytest.mark.parametrize("width", [1, 2, 8, 15, 16, 17, 20, 24])
def test_povray_draws_every_depth_as_the_program_does(built, tmp_path, width):
    fraction = min(8, 24 - width)
    most = (2 ** width - 1) << fraction
    slope = min(most // 64, 90000)
    scene = ("pxscene 3\npicture 64 48\ndepth %d %d\nsolid a 200 10 10\nfront %d %d %d\nback %d 0 %d\nside 16 3 -60\nside -9 2 380\n"
             "solid b 10 200 10\nfront %d %d %d\nside 0 1 -5\nside 0 -1 40\nshow (a + b)\nend\n" % (
                 width, fraction, slope, -slope // 4, most // 10, slope, most // 2, -slope // 2, slope // 3, most // 3)).encode()
    (tmp_path / "deep.scene").write_bytes(scene)
    done = px(built, "convert", "deep.scene", "--to", "pov", "-o", "deep.pov", cwd=tmp_path)
    assert done.returncode == 0, done.stderr
    subprocess.run(["povray", "+Ideep.pov", "+Odeep.ppm", "+W64", "+H48", "File_Gamma=1", "-D", "-A",
                    *(["+FP8"] if width > 16 else ["+FP16", "Grayscale_Output=on"])], cwd=tmp_path, check=True,
                   capture_output=True)
    ours = netpbm.images(subprocess.run([built, "render"], input=scene, capture_output=True, check=True).stdout)[
        0].numbers()
    image = netpbm.images((tmp_path / "deep.ppm").read_bytes())[0]
    theirs = image.numbers() if width > 16 else image.samples[::image.channels]
    assert len(set(ours)) > min(100, width) and list(ours) == list(theirs)
