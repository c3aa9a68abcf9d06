"""The depths of a mesh of trimesh, seen from the front: mesh_depths.py MESH [IMAGE.png]

Any mesh that `export`s a file is drawn, also one that is hollow or bent inwards."""
import os
import sys
import tempfile

import pxplanes
from pxplanes import models


def picture_of(mesh, size=(256, 256), **view):
    """The picture of a mesh, and what was rounded. `view` is what `pxplanes.models.scene` takes, as `view=(60, 0, 30)` or
    `scale=4`."""
    with tempfile.TemporaryDirectory() as folder:
        path = os.path.join(folder, "mesh.stl")
        mesh.export(path)
        made = models.scene(path, size=size, **view)
    return pxplanes.render(made, threads=os.cpu_count() or 1), made.notes


def main(words):
    import trimesh
    picture, notes = picture_of(trimesh.load(words[0], force="mesh"))
    print("\n".join(notes), file=sys.stderr)
    rows = zip(picture.depths.tolist(), picture.faces.tolist())
    shown = [depth for depths, faces in rows for depth, face in zip(depths, faces) if face]
    print("%d of %d pixels, depths %d to %d" % (len(shown), picture.width * picture.height, min(shown), max(shown)))
    if words[1:]:
        picture.save(words[1])


if __name__ == "__main__":
    main(sys.argv[1:])
