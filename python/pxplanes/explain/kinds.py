"""Names a file that is no scene, and the word of the command that takes it, by how it begins."""
import re
import struct
from typing import Optional

from pxplanes.explain import after_end, readings
from pxplanes.image import netpbm

NETPBM = {b"P1": "PBM", b"P2": "PGM", b"P3": "PPM", b"P4": "PBM", b"P5": "PGM", b"P6": "PPM", b"P7": "PAM", b"Pf": "PFM", b"PF": "PFM"}
OPENSCAD = re.compile(
    rb"\s*(?:(?://[^\n]*\n|/\*.*?\*/|\$?\w+\s*=[^\n;{}]*;|(?:use|include)\s*<[^>\n]*>;?)\s*)*[%#*!]?"
    rb"(?:module\s+\w+\s*\(|function\s+\w+\s*\(|for\s*\(|(?:union|difference|intersection|hull|minkowski|group|render|color|"
    rb"translate|rotate|scale|mirror|multmatrix|resize|linear_extrude|rotate_extrude|cube|sphere|cylinder|polyhedron|import)\s*\()", re.S)
EXR = b"\x76\x2f\x31\x01"
COMPARED = "`pxplanes compare` compares it with another map"
MODELLED = "`pxplanes convert --kind %s` makes a scene of it"


def is_raw_stl(data: bytes) -> bool:
    return len(data) > 84 and bool(len(data) == 84 + 50 * struct.unpack("<I", data[80:84])[0])


def kind(data: bytes) -> Optional[tuple[str, Optional[str]]]:
    """What a file is, with `a` or `an`, and the word that `convert --kind` has for it, None for a picture; or None."""
    head = data[:4096]
    if data[:8] == netpbm.PNG_HEAD:
        return "a PNG picture", None
    if re.match(rb"P[1-7fF]\s+(?:#|WIDTH|\d)", head):
        return "a %s picture" % NETPBM[data[:2]], None
    if data[:4] == EXR:
        return "an EXR picture", None
    if data[:4] == b"PK\3\4" and b"3D/" in data:
        return "a 3MF file", "3mf"
    if is_raw_stl(data) or re.match(rb"(?i)\s*solid\b[^\n]*\n\s*(?:facet\s+normal|endsolid)\b", head):
        return "an STL file", "stl"
    if re.match(rb"ply\r?\n", head):
        return "a PLY file", "ply"
    if re.match(rb"(?:\s*#[^\n]*\n)*\s*(?:ST)?C?N?OFF\s+(?:#[^\n]*\n\s*)*\d+\s+\d+", head):
        return "an OFF file", "off"
    if re.search(rb"(?m)^v(?:\s+[-+.\deE]+){3,}\s*$", head) and re.search(rb"(?m)^f(?:\s+\d+(?:/\d*){0,2}){3,}\s*$", data):
        return "an OBJ file", "obj"
    if OPENSCAD.match(head):
        return "an OpenSCAD file", "scad"
    return None


def cure(data: bytes) -> Optional[str]:
    """What to do with a file that is no scene; None if it may be one."""
    found = kind(data)
    if found:
        return "this is no scene but %s: %s" % (found[0], MODELLED % found[1] if found[1] else COMPARED)
    return "this is no scene but %s" % seems(data) if is_hardly_a_scene(data) else None


def seems(data: bytes) -> str:
    """What a text that is no scene seems to be, and the word of the command that takes it."""
    text = data.decode("utf-8", "replace")
    for what, taken_by, mark in OTHERS:
        if re.search(mark, text):
            return what + taken_by
    return "binary data" if b"\0" in data[:4096] or "\ufffd" in text[:4096] else "another text"


# Marks of texts that people take for scenes, the sure ones first: what it is, the word that takes it, and the mark.
OTHERS = (
    ("an empty text", ": a scene begins with pxscene 1", r"\A\s*\Z"),
    ("a listing", ": `pxplanes play` carries it out, and `pxplanes trace` steps through it", r"\A(?:\s*(?:#.*)?\n)*\s*pxlist\b"),
    ("command lines of the debugger", ": `pxplanes trace` takes them after a scene's `end`",
     r"\A(?:\s*(?:(?:step|macro|run|until|back|at|pixel|field|tree|trace|stop|quit)\b[ \w]*)?(?:#.*)?(?:\n|\Z))+\Z"),
    ("a POV-Ray file", ", which no word of the command reads",
     r"(?m)^\s*(?:#(?:declare|include\s+\"\w+\.inc)|(?:camera|light_source|global_settings|sphere|box|difference|union|background)\s*\{)"),
    ("source code", "", r"(?m)^\s*(?:#!|#include|import |from \w+ import|def |class |function |const |let |var |int |fn |package |module |using )"),
    ("a letter or a document", "", r"(?m)^(?:Dear |#+ |Subject: |From: |\s*<(?:!DOCTYPE|html|\?xml))"),
)


def is_hardly_a_scene(data: bytes) -> bool:
    """Whether fewer than half of the lines with words begin as those of a scene do. What may come after `end` is not counted."""
    if data[:2] not in (b"\xff\xfe", b"\xfe\xff") and 20 * data.count(b"\0") > len(data):
        return True
    tail = after_end.cut(data)
    firsts = [words[0] for words in map(readings.words_of, readings.plain(tail.scene if tail else data)[0].split(b"\n")) if words]
    return 2 * sum(map(readings.begins_like_a_scene, firsts)) < len(firsts) or not firsts
