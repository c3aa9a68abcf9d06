"""The scene in other programs' words: POV-Ray, OpenSCAD, a mesh of each solid as OBJ or glTF, and JSON. Each gives
the text or the bytes, and what of the scene it does not say. What `convert` writes of a scene."""
import itertools
import json
import operator
import struct
from typing import Any, Callable, Optional, Sequence, Union

from pxplanes.mesh import facets, kinds
from pxplanes.scene import rays

GROW = 0.1
NEAR = 1e-6
MILLI = 0.001
ONE_DEPTH = "that a solid has no cell where its front and back pass between the same two depths"

TOUCHING = "which side of ^ has a pixel where faces of both are one"

POV_HEAD = """// A scene of pxplanes for POV-Ray, which draws its depths as %(what)s:
// povray +ISCENE.pov +OMAP.ppm +W%(width)d +H%(height)d %(output)s File_Gamma=1 -D -A
#version 3.7;
global_settings { assumed_gamma 1 }
#declare FAR = %(far)d;

%(camera)s
background { rgb %(background)s }

// The half-spaces of docs/PICTURE.md, with A, B and C in cells. Values are whole parts of a cell, PART, so
// a back may pass half of one before its own, and a side half of one outside of the last that it keeps: no
// ray runs along a face. G makes what is taken away a little larger, each plane by another part of it, so
// that no two faces are one, and no ray meets two planes of it at once.
#declare PART = 1 / %(parts)d;
#declare GROW = PART * %(grow)g;
%(halves)s
"""
POV_PARALLEL = """// Rays are parallel, and go through the whole places (x, y). POV-Ray's y grows upwards: \
our y is its -y.
camera {
  orthographic
  location <%(middle)s, -%(centre)s, -1>
  direction z
  right %(width)d * x
  up %(height)d * y
}"""
POV_HALVES = """#macro Half(A, B, D, C) plane { <A, -B, D> / vlength(<A, -B, D>), C / vlength(<A, -B, D>) } #end
#macro Front(A, B, C, G) Half(A, B, -1, G - (C)) #end
#macro Back(A, B, C, G) Half(-(A), -(B), 1, (C) - PART / 2 + G) #end
#macro Side(A, B, C) Half(-(A), -(B), 0, (C) + 0.5) #end"""
POV_PERSPECTIVE = """// The camera of the model that the scene was made of, in the model's own axes. At the \
distance Z along AWAY
// the depth is ZERO - SCALE / Z.
#declare EYE = <%(eye)s>;
#declare RIGHT = <%(right)s>;
#declare AWAY = <%(away)s>;
#declare UP = <%(up)s>;
#declare FOCAL = %(focal)s;
#declare ZERO = %(zero)s;
#declare SCALE = %(scale)s;
camera {
  perspective
  location EYE
  direction FOCAL * AWAY
  right %(width)d * RIGHT
  up %(height)d * UP
}"""
POV_HALVES_IN_PERSPECTIVE = """// Half keeps WAY * (A * x + B * y + C) * Z <= ROOM, which is a half-space of the model.
#macro Half(A, B, C, ROOM, WAY)
  #local N = WAY * (FOCAL * (A) * RIGHT + (C + (A) * %(middle)s + (B) * %(centre)s) * AWAY - FOCAL * (B) * UP);
  plane { N / vlength(N), (ROOM + vdot(N, EYE)) / vlength(N) }
#end
#macro Front(A, B, C, G) Half(A, B, C - G - ZERO, -SCALE, 1) #end
#macro Back(A, B, C, G) Half(A, B, C - PART / 2 + G - ZERO, SCALE, -1) #end
#macro Side(A, B, C) Half(A, B, C + 0.5, 0, -1) #end"""
POV_DEPTH_IN_PERSPECTIVE = "ZERO - SCALE / ((%s) * x + (%s) * y + (%s) * z - (%s))"
POV_TAIL = """
object {
  %(tree)s
  pigment { %(pigment)s }
  finish { ambient 0 diffuse 0 emission 1 }
}
"""


def number(value: int, scene: Any) -> str:
    whole = 1 << scene.fraction_bits
    return "%d" % (value // whole) if value % whole == 0 else repr(value / whole)


def cells(plane: Sequence[int], scene: Any) -> str:
    return ", ".join(number(part, scene) for part in plane)


def signed(scene: Any) -> Any:
    """The expression's tree: (sign, left, right), or the index of a solid."""
    return rays.folded(scene.show, lambda at: at, lambda sign, left, right: (sign, left, right))


def nested(tree: Any, leaf: Any, after: str, indent: str, is_cut: bool = False) -> str:
    """An expression as blocks, each a word with what comes after it; `leaf` has the words of a solid by its number, and
    by whether it is taken away."""
    if isinstance(tree, int):
        return str(leaf(tree, is_cut))
    sign, left, right = tree
    if sign == "^":
        return nested(("+", ("-", left, right), ("-", right, left)), leaf, after, indent, is_cut)
    inner = indent + "  "
    return "%s%s {\n%s%s\n%s%s\n%s}" % (
        {"+": "union", "*": "intersection", "-": "difference"}[sign], after, inner,
        nested(left, leaf, after, inner, is_cut), inner,
        nested(right, leaf, after, inner, is_cut != (sign == "-")), indent)


def pov_side(a: int, b: int, c: int) -> str:
    """A side in POV-Ray's words; one without a slope, which leaves out every pixel, as what ends before the eye."""
    return "Side(%d, %d, %d)" % (a, b, c) if a or b else "plane { z, -1 }"


def pov_name(scene: Any, index: int) -> str:
    return "Solid_%s" % scene.solids[index].name


def pov(scene: Any, camera: Any = None) -> tuple[str, list[str]]:
    """The text for POV-Ray, and what it does not say."""
    said = {"width": scene.width, "height": scene.height, "far": scene.far(), "parts": 1 << scene.fraction_bits,
            "grow": GROW, "middle": "%g" % ((scene.width - 1) / 2), "centre": "%g" % ((scene.height - 1) / 2)}
    if camera:
        said.update(zip(("right", "away", "up"), (listed(row) for row in camera.rows)), eye=listed(camera.eye),
                    focal=repr(camera.focal), scale=repr(camera.distances.scale),
                    zero=repr(camera.distances.scale / camera.distances.near))
    if scene.depth_bits > 16:
        bytes_of_far = [scene.far() >> 16, scene.far() >> 8 & 255, scene.far() & 255]
        said.update(what="the three bytes of a pixel, as the program writes them", output="+FP8",
                    background="<%d, %d, %d> / 255" % tuple(bytes_of_far))
    else:
        said.update(what="grey of sixteen bits", output="+FP16 Grayscale_Output=on", background="FAR / 65535")
    said["camera"] = (POV_PERSPECTIVE if camera else POV_PARALLEL) % said
    said["halves"] = POV_HALVES_IN_PERSPECTIVE % said if camera else POV_HALVES
    text = POV_HEAD % said
    for index, solid in enumerate(scene.solids):
        fronts = ["0, 0, 0"] + [cells(face.plane, scene) for face in solid.fronts]
        backs = ["0, 0, FAR"] + [cells(face.plane, scene) for face in solid.backs]
        planes = ["%s(%s, G * %g)" % (kind, plane, 1 - which / 2 / len(of_kind))
                  for kind, of_kind in (("Front", fronts), ("Back", backs)) for which, plane in enumerate(of_kind)]
        planes += [pov_side(*side.plane) for side in solid.sides if any(side.plane[:2]) or side.plane[2] < 0]
        text += "\n#macro %s(G) intersection {\n  %s\n} #end\n" % (pov_name(scene, index), "\n  ".join(planes))
    lacks = ["the numbers of the faces"] + [ONE_DEPTH] * bool(scene.fraction_bits) + [TOUCHING] * ("^" in scene.show)
    said["tree"] = nested(signed(scene), lambda at, grown: "object { %s(%s) }" % (
        pov_name(scene, at), "GROW" if grown else "0"), "", "  ")
    said["depth"] = POV_DEPTH_IN_PERSPECTIVE % (
        *map(repr, camera.rows[1]), repr(facets.dot(camera.rows[1], camera.eye))) if camera else "z"
    said["pigment"] = pov_pigment("ceil(%s - 2 * GROW)" % said["depth"], scene.depth_bits)
    return text + POV_TAIL % said, lacks


def pov_pigment(depth: str, bits: Any) -> str:
    """The pigment that shows a depth: a grey of sixteen bits, or for more bits the three bytes of the program's own
    maps."""
    if bits <= 16:
        return "function { %s / 65535 } color_map { [0 rgb 0] [1 rgb 1] }" % depth
    channels = ((("floor(%s / 65536)", "x"), ("mod(floor(%s / 256), 256)", "y"), ("mod(%s, 256)", "z")))
    return "average pigment_map {\n%s\n  }" % "\n".join(
        "    [1 function { %s / 256 } color_map { [0 rgb 0] [1 rgb %s * 3 * 256 / 255] }]" % (part % depth, axis)
                                                        for part, axis in channels)


def listed(numbers: kinds.Vector) -> str:
    return ", ".join(repr(float(number)) for number in numbers)


def half_spaces(scene: Any, solid: Any) -> Optional[list[tuple[kinds.Vector, float]]]:
    """The half-spaces of a solid within the picture and the depths: x to the right, y upwards, z to
    the eye, in pixels and in cells."""
    whole = 1 << scene.fraction_bits
    rows = [(-1, 0, 0, 0.5), (1, 0, 0, scene.width - 0.5), (0, 1, 0, 0.5), (0, -1, 0, scene.height - 0.5),
            (0, 0, 1, 0), (0, 0, -1, scene.far())]
    rows += [(a / whole, -b / whole, 1, -c / whole) for a, b, c in (face.plane for face in solid.fronts)]
    rows += [(-a / whole, b / whole, -1, c / whole) for a, b, c in (face.plane for face in solid.backs)]
    rows += [(-a, b, 0, c + 0.5) for a, b, c in (side.plane for side in solid.sides)]
    out: list[tuple[kinds.Vector, float]] = []
    for a, b, c, far in rows:
        length = facets.lengthwise((a, b, c))
        if length:
            out.append(([a / length, b / length, c / length], far / length))
        elif far < 0:
            return None
    return out


def mesh(scene: Any, solid: Any, camera: Any = None) -> Any:
    """Points and facets of a solid, whose facets go round to the left from outside; None for nothing.
    With a camera the points are those of its model."""
    planes = half_spaces(scene, solid)
    found = planes and mesh_of(planes, max(scene.width, scene.height, scene.far()) * NEAR)
    if found and camera:
        return [camera.point(x, -y, -z) for x, y, z in found[0]], found[1]
    return found or None


def mesh_of(planes: Any, near: float) -> Any:
    """Points and facets of what half-spaces leave; None for nothing. Points as near as that are one."""
    numbers: dict[tuple[int, ...], int] = {}
    points: list[kinds.Vector] = []
    out = []
    for plane, polygon in facets.sides_of(planes, near):
        if facets.dot(facets.area_normal(polygon), plane[0]) < 0:
            polygon = polygon[::-1]
        own = [numbered(point, points, numbers, near) for point in polygon]
        own = [at for i, at in enumerate(own) if at != own[i - 1]]
        out += [own] if len(own) > 2 else []
    return (points, out) if len(out) > 3 else None


def numbered(point: kinds.Vector, points: list[kinds.Vector], numbers: dict[tuple[int, ...], int], near: float) -> int:
    """The number of a point; points that are almost one have one number."""
    key = tuple(round(part / near / 8) for part in point)
    around = (tuple(map(operator.add, key, step)) for step in itertools.product((0, -1, 1), repeat=3))
    at = next((numbers[place] for place in around if place in numbers), None)
    if at is not None:
        return at
    numbers[key] = len(points)
    points.append(point)
    return len(points) - 1


def scad(scene: Any, camera: Any = None) -> tuple[str, list[str]]:
    """The text for OpenSCAD, and what it does not say."""
    lines = scad_camera(scene, camera) if camera else [
        "// A scene of pxplanes for OpenSCAD: x to the right, y upwards, z to the eye, in pixels and cells.",
        "// openscad -o SCENE.off SCENE.scad", "depth_scale = 1;", ""]
    for solid in scene.solids:
        found = mesh(scene, solid, camera)
        colour = ", ".join("%.4g" % (part / 255) for part in solid.colour)
        lines.append("module %s() color([%s])" % (solid.name, colour))
        if found is None:
            lines.append("  cube(0);   // it has no part in the picture")
            continue
        points, sides = found
        lines.append("%s polyhedron(\n    points = [%s],\n    faces = [%s]);" % (
            " " if camera else "  scale([1, 1, depth_scale])",
            ", ".join("[%s]" % ", ".join("%.9g" % (part + 0.0) for part in point) for point in points),
            ", ".join("[%s]" % ", ".join(map(str, side[::-1])) for side in sides)))
    lacks = ["the numbers and the colours of single faces", "ties, and rounding to whole depths"]
    tree = nested(signed(scene), lambda at, _: "%s();" % scene.solids[at].name, "()", "")
    return "\n".join(lines + ["", tree, ""]), lacks


def scad_camera(scene: Any, camera: Any) -> list[str]:
    """The head of a scene in the axes of its model, with its camera."""
    distance = camera.distances.near
    place = [own + distance * way for own, way in zip(camera.eye, camera.rows[1])]
    return ["// A scene of pxplanes for OpenSCAD, in the axes of the model that it was made of, with its camera.",
            "// openscad --preview --projection=p --imgsize=%d,%d -o SCENE.png SCENE.scad"
            % (scene.width, scene.height),
            "$vpt = [%s];" % listed(place), "$vpr = [%s];" % listed(camera.turn),
            "$vpd = %r;" % distance, "$vpf = %r;" % camera.fov, ""]


def meshes(scene: Any, camera: Any) -> tuple[list[tuple[Any, Any]], list[str]]:
    """Each solid that has a part in the picture with its mesh, and what meshes do not say."""
    found = [(solid, mesh(scene, solid, camera)) for solid in scene.solids]
    lacks = ["how the solids are joined", "the numbers and the colours of the faces",
             "ties, and rounding to whole depths"]
    lacks += ["solid %s, which has no part in the picture" % solid.name for solid, own in found if own is None]
    return [(solid, own) for solid, own in found if own is not None], lacks


def obj(scene: Any, camera: Any = None) -> tuple[str, list[str]]:
    """A mesh of each solid, and what the file does not say."""
    lines = ["# The solids of a scene of pxplanes: " + (
        "in the axes of the model that it was made of." if camera else
        "x to the right, y upwards, z to the eye, in pixels and cells.")]
    found, lacks = meshes(scene, camera)
    first = 1
    for solid, (points, sides) in found:
        lines += ["o " + solid.name] + ["v %s" % " ".join("%.9g" % (part + 0.0) for part in point) for point in points]
        lines += ["f " + " ".join(str(at + first) for at in side) for side in sides]
        first += len(points)
    return "\n".join(lines + [""]), lacks


def glb(scene: Any, camera: Any = None) -> tuple[bytes, list[str]]:
    """The same in glTF's metres, with y upwards: of a thousandth what a model has, whose z is upwards, or a scene."""
    found, lacks = meshes(scene, camera)
    root = [MILLI, 0, 0, 0, *((0, 0, -MILLI, 0, 0, MILLI, 0, 0) if camera else (0, MILLI, 0, 0, 0, 0, MILLI, 0)),
            0, 0, 0, 1]
    count, body = len(found), b""
    views: list[dict[str, int]] = []
    arrays: list[dict[str, Any]] = []
    for _, (points, sides) in found:
        corners = [part for point in points for part in point]
        numbers = [at for side in sides for i in range(1, len(side) - 1) for at in (side[0], side[i], side[i + 1])]
        for form, kind, width, own in (("f", 5126, "VEC3", corners), ("I", 5125, "SCALAR", numbers)):
            part = struct.pack("<%d%s" % (len(own), form), *own)
            arrays.append({"bufferView": len(views), "componentType": kind, "type": width,
                           "count": len(own) // (3 if form == "f" else 1)})
            views.append({"buffer": 0, "byteOffset": len(body), "byteLength": len(part)})
            body += part
        rows = list(zip(*struct.iter_unpack("<3f", body[views[-2]["byteOffset"]:][:views[-2]["byteLength"]])))
        arrays[-2].update(min=[min(row) for row in rows], max=[max(row) for row in rows])
    said = {"asset": {"version": "2.0"}, "scene": 0, "scenes": [{"nodes": [0]}],
            "nodes": [{"matrix": root, **({"children": list(range(1, count + 1))} if found else {})}]
            + [{"name": solid.name, "mesh": at} for at, (solid, _) in enumerate(found)],
            "meshes": [{"primitives": [{"attributes": {"POSITION": 2 * at}, "indices": 2 * at + 1, "material": at}]}
                       for at in range(count)],
            "materials": [{"name": solid.name, "pbrMetallicRoughness": {
                "baseColorFactor": [*map(linear, solid.colour), 1], "metallicFactor": 0}} for solid, _ in found],
            "buffers": [{"byteLength": len(body)}] if body else [], "bufferViews": views, "accessors": arrays}
    head = json.dumps({key: own for key, own in said.items() if own != []}).encode()
    head += b" " * (-len(head) % 4)
    chunks = struct.pack("<I4s", len(head), b"JSON") + head
    chunks += struct.pack("<I4s", len(body), b"BIN\0") + body if body else b""
    return struct.pack("<4sII", b"glTF", 2, 12 + len(chunks)) + chunks, lacks


def linear(part: int) -> float:
    """A part of an sRGB colour as glTF has it, from 0 to 1."""
    return part / 255 / 12.92 if part <= 10 else float(((part / 255 + 0.055) / 1.055) ** 2.4)


def camera_of(scene: Any, camera: Any) -> dict[str, Any]:
    """A camera as JSON has it: `matrix` takes a point of the model (x, y, z, 1) to OpenGL's clip
    coordinates, and a depth is `zero - scale / Z` at the distance Z along `away`."""
    ends, (width, height) = camera.distances, (scene.width, scene.height)
    right, away, up = ([*row, -facets.dot(row, camera.eye)] for row in camera.rows)
    span = ends.far - ends.near
    return {"projection": "perspective", "eye": camera.eye, "right": camera.rows[0], "away": camera.rows[1],
            "up": camera.rows[2], "fov": camera.fov, "focal": camera.focal, "near": ends.near, "far": ends.far,
            "depth": {"zero": ends.scale / ends.near, "scale": ends.scale},
            "matrix": [[2 * camera.focal / width * part for part in right],
                       [2 * camera.focal / height * part for part in up],
                       [(ends.far + ends.near) / span * part - (i == 3) * 2 * ends.far * ends.near / span
                        for i, part in enumerate(away)],
                       away]}


def json_of(scene: Any, camera: Any = None) -> tuple[str, list[str]]:
    """The whole scene as JSON (docs/COMPARE.md, "Exports")."""
    def face(own: Any) -> dict[str, Any]:
        return {"face": own.number, "plane": list(own.plane), "colour": list(own.colour)}

    def shown(tree: Any) -> Any:
        return scene.solids[tree].name if isinstance(tree, int) else [tree[0], shown(tree[1]), shown(tree[2])]

    return json.dumps({
        "picture": [scene.width, scene.height], "depth_bits": scene.depth_bits,
        "fraction_bits": scene.fraction_bits, "far": scene.far(),
        "solids": [{"name": solid.name, "colour": list(solid.colour), "near_face": solid.near,
                    "fronts": [face(own) for own in solid.fronts], "backs": [face(own) for own in solid.backs],
                    "sides": [list(side.plane) for side in solid.sides]} for solid in scene.solids],
        "show": shown(signed(scene)), **({"camera": camera_of(scene, camera)} if camera else {})}, indent=1) + "\n", []


FORMS: dict[str, Callable[..., tuple[Union[str, bytes], list[str]]]] = {
    "pov": pov, "scad": scad, "obj": obj, "glb": glb, "json": json_of}
