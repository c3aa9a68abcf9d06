"""What the league and its programs share: OFF files, and the expression of such files that a program is called with.

A program is called with OUT.off WORD ..: a postfix expression of OFF files, with + - * for union, difference and intersection.
It writes OUT.off."""
import os
import sys

sys.path.insert(0, os.path.join(os.path.dirname(os.path.realpath(__file__)), "../../../python"))
from pxplanes import ends
from pxplanes.mesh import mesh_files
from pxplanes.scene import rays


def off_of(points, sides):
    """The text of an OFF file."""
    return "OFF\n%d %d 0\n" % (len(points), len(sides)) + "".join("%.12g %.12g %.12g\n" % tuple(
        part + 0.0 for part in point) for point in points) + "".join(
            "%d %s\n" % (len(side), " ".join(map(str, side))) for side in sides)


def folded(words, leaf, join):
    """What an expression is made of by its files, from the inside out; `leaf` takes the points and the facets of one."""
    show = [at if word.endswith(".off") else word for at, word in enumerate(words)]
    return rays.folded(show, lambda at: leaf(*mesh_files.read_off(ends.content(words[at]))), join)


def write(out, points, sides):
    with open(out, "w") as file:
        file.write(off_of(points, sides))
