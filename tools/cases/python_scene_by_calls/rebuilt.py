"""Builds the scenes of the cases and of the gallery by calls of the module, and compares their texts with the program's `tidy`."""
import glob
import operator
import os
import subprocess
import sys

sys.path[:0] = [os.path.realpath(folder) for folder in ("python/tests", "python")]
import pxplanes
from pxplanes.scene import scenes
import run_cases as cases

SIGNS = {"+": operator.add, "*": operator.mul, "-": operator.sub, "^": operator.xor}

def tidied(text):
    """The canonical text of a scene, or None."""
    done = subprocess.run([os.environ["PROGRAM"], "tidy"], input=text, capture_output=True)
    return done.stdout if done.returncode == 0 else None


def built(scene):
    """The same scene by calls: fronts and backs of a solid apart where they are so, and solids left out where they must be."""
    solids = []
    for solid in scene.solids:
        faces = sorted([(face.number, kind, (*face.plane, *face.colour)) for kind, some in (("front", solid.fronts), ("back", solid.backs))
                        for face in some])
        kinds = [kind for _, kind, _ in faces]
        apart = {kind + "s": [plane for _, each, plane in faces if each == kind] for kind in ("front", "back")}
        given = apart if kinds == sorted(kinds, reverse=True) else {"faces": [(kind, *plane) for _, kind, plane in faces]}
        solids.append(pxplanes.Solid(name=solid.name, colour=solid.colour, sides=[side.plane for side in solid.sides], **given))
    stack = []
    for node in scene.show:
        if node in SIGNS:
            right = stack.pop()
            stack.append(SIGNS[node](stack.pop(), right))
        else:
            stack.append(solids[node])
    due = {} if stack[0].solids == solids else {"solids": solids}
    return pxplanes.Scene((scene.width, scene.height), (scene.depth_bits, scene.fraction_bits), stack[0], **due)


texts = [open(path, "rb").read() for path in sorted(glob.glob("gallery/*.scene") + glob.glob("docs/scenes/*.scene"))]
for name in cases.names():
    words, text, wanted = cases.read_case(os.path.join(cases.CASES, name))
    if words in ([], [b"render"], [b"tidy"]) and wanted[0] == 0 and len(text) < 20000:
        texts.append(text)
counts = dict.fromkeys(("compared", "with solids left out", "with faces mixed", "with a header of their own"), 0)
for text in texts:
    tidy = tidied(text)
    if tidy is None:
        continue
    scene = built(scenes.read(text))
    counts["compared"] += 1
    counts["with solids left out"] += scene.solids == scene.show.solids
    kinds = [[kind for kind, _ in solid.faces] for solid in scene.solids]
    counts["with faces mixed"] += any(some != sorted(some, reverse=True) for some in kinds)
    counts["with a header of their own"] += not tidy.startswith(b"pxscene 1\n")
    if scene.text.encode() != tidy or tidied(tidy) != tidy:
        print("they differ:", scene.text[:200], tidy[:200])
for word, count in counts.items():
    print("%s: %s" % (word, "more than a dozen" if count > 12 else "some" if count else "none"))
