"""Writes the maps of a scene by its rays, as `explain --at` has them."""
import os
import sys

sys.dont_write_bytecode = True
sys.path[:0] = [os.path.join("tools", "lib"), "python"]
from pxplanes.scene import rays
from pxplanes.scene import scenes

scene = scenes.read(open(sys.argv[1], "rb").read())
pixels = [rays.pixel(scene, x, y) for y in range(scene.height) for x in range(scene.width)]
head = b"P6\n%d %d\n255\n" % (scene.width, scene.height)
for which in (0, 1):
    sys.stdout.buffer.write(head + b"".join(pixel[which].to_bytes(3, "big") for pixel in pixels))
