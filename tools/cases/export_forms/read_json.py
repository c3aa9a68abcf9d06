"""Writes the text of a scene from its JSON."""
import json
import sys

scene = json.load(open(sys.argv[1]))


def shown(tree):
    return tree if isinstance(tree, str) else "(%s %s %s)" % (shown(tree[1]), tree[0], shown(tree[2]))


print("pxscene 3\npicture %d %d" % tuple(scene["picture"]))
print("depth %d %d" % (scene["depth_bits"], scene["fraction_bits"]))
for solid in scene["solids"]:
    print("solid", solid["name"], *solid["colour"])
    faces = [(face["face"], kind, face) for kind in ("front", "back") for face in solid[kind + "s"]]
    for _, kind, face in sorted(faces, key=lambda face: face[0]):
        print(kind, *face["plane"], *face["colour"])
    for side in solid["sides"]:
        print("side", *side)
print("show", shown(scene["show"]))
print("end")
