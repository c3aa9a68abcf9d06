"""Writes the numbers of scenes for rebuild.c, as the Python reader of scenes has them. Of each line of standard input the first word
is the file of a scene, and the second that of its canonical text."""
import sys

sys.path.insert(0, "python")
from pxplanes.scene import scenes

for line in sys.stdin:
    text, tidied = line.split()
    with open(text, "rb") as file:
        scene = scenes.read(file.read())
    print(tidied, scene.width, scene.height, scene.depth_bits, scene.fraction_bits, len(scene.solids))
    for solid in scene.solids:
        faces = [(face.number, is_front, face) for is_front, each in ((1, solid.fronts), (0, solid.backs)) for face in each]
        print(solid.name, *solid.colour, len(faces), len(solid.sides))
        for _, is_front, face in sorted(faces, key=lambda each: each[0]):
            print(is_front, *face.plane, *face.colour)
        for side in solid.sides:
            print(*side.plane)
    print(*scene.show, ".")
