"""Compares the wide picture of block.scene with what its planes give, worked out for each pixel."""
import sys

WIDE = 1024


def due(x, y):
    """The depth and the face of a pixel: the front of the block is face 2, and the back of the cut, at depth 10x, face 6."""
    in_block = 8 <= x <= 55 and 8 <= y <= 39
    in_hole = 24 <= x <= 39 and 16 <= y <= 31
    if not in_block or in_hole:
        return 4095, 0
    return (100, 2) if 10 * x <= 100 else (10 * x, 6)


def image(part):
    """The depths are part 0, and the faces part 1."""
    pixels = (due(x, y)[part].to_bytes(3, "big") for y in range(WIDE) for x in range(WIDE))
    return b"P6\n%d %d\n255\n" % (WIDE, WIDE) + b"".join(pixels)


same = sys.stdin.buffer.read() == image(0) + image(1)
print("each pixel is as worked out" if same else "another picture")
