"""Prints what is reported as likely wrong of the scenes of the gallery and of the suite, which are all meant as they are; and how many
they are. The pictures of the suite are asked of the program; those of the gallery are there, and are not blank."""
import glob
import os
import sys

sys.path[:0] = [os.path.join(os.getcwd(), "tools", "lib"), os.path.join(os.getcwd(), "python")]
from pxplanes import ends
from pxplanes.explain import looks
from pxplanes.image import netpbm
from pxplanes import program
from pxplanes.scene import scenes

paths = sorted(glob.glob("gallery/*.scene") + glob.glob("suite/*/*.scene"))
for path in paths:
    text = ends.content(path)
    scene = scenes.read(text)
    found = looks.all_looks(scene)
    hints = looks.before_drawing(scene, found)
    if path.startswith("suite"):
        faces = netpbm.images(program.answer(os.environ["PROGRAM"], ["render"], text)[1])[1].numbers()
        hints += looks.from_picture(scene, faces, found)
    for heading, said in hints:
        if heading == looks.LIKELY:
            print("%s: %s" % (path, said))
print("%d scenes" % len(paths))
