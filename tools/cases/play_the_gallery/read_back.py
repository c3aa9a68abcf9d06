"""Lists each scene of gallery/, plays the listing, and compares the picture in the printed memory with the drawn one."""
import os
import sys

sys.dont_write_bytecode = True
sys.path[:0] = [os.path.join("tools", "lib"), "python"]
from pxplanes.image import netpbm
from pxplanes import program
from pxplanes.scene import scenes


def number(bits):
    return int(bits[::-1] or "0", 2)


def played(built, text):
    """The memory of each pixel that the scene's listing leaves, by its place."""
    status, listing, note = program.answer(built, ["list"], text)
    assert status == 0, note
    status, output, note = program.answer(built, ["play"], listing)
    assert status == 0, note
    lines = [line.split(" ") for line in output.decode().splitlines()]
    return {(int(x), int(y)): memory for _, x, y, _, memory, _, _ in lines}


def stored(scene, memory):
    """The depths and the faces of a picture in the memory of its pixels."""
    faces = len(scene.faces()).bit_length()
    first = faces + scene.fraction_bits
    pixels = [memory[x, y] for y in range(scene.height) for x in range(scene.width)]
    return ([number(bits[first:first + scene.depth_bits]) for bits in pixels],
            [number(bits[:faces]) for bits in pixels])


built = os.environ["PROGRAM"]
for name in sorted(os.listdir("gallery")):
    if name.endswith(".scene"):
        with open(os.path.join("gallery", name), "rb") as file:
            text = file.read()
        scene = scenes.read(text)
        drawn = [image.numbers() for image in netpbm.images(program.answer(built, [], text)[1])]
        same = list(stored(scene, played(built, text))) == drawn
        print("%s: %s" % (name, "the picture" if same else "ANOTHER PICTURE"))
