"""OpenCASCADE's booleans by gmsh, as its manual has them: volumes of plane surfaces, fused, cut and intersected,
and the surfaces of the rest meshed with triangles. inputs.py says what it reads and writes.

Use: python3 gmsh_boolean.py OUT.off WORD .."""
import sys

import gmsh

import inputs


def volume_of(corners, facets):
    """The volume of a mesh."""
    points = [gmsh.model.occ.addPoint(*corner) for corner in corners]
    lines, surfaces = {}, []

    def line(a, b):
        if (b, a) in lines:
            return -lines[b, a]
        if (a, b) not in lines:
            lines[a, b] = gmsh.model.occ.addLine(points[a], points[b])
        return lines[a, b]

    for own in facets:
        loop = gmsh.model.occ.addCurveLoop([line(a, b) for a, b in zip(own, own[1:] + own[:1])])
        surfaces.append(gmsh.model.occ.addPlaneSurface([loop]))
    return [(3, gmsh.model.occ.addVolume([gmsh.model.occ.addSurfaceLoop(surfaces)]))]


def joined(sign, left, right):
    if not left or not right:
        return [] if sign == "*" or sign == "-" and not left else left + right
    call = {"+": gmsh.model.occ.fuse, "-": gmsh.model.occ.cut, "*": gmsh.model.occ.intersect}[sign]
    return [entity for entity in call(left, right)[0] if entity[0] == 3]


def triangles(volumes):
    """The points by their numbers, and the triangles of the volumes' surfaces, each looking outwards."""
    tags, numbers, _ = gmsh.model.mesh.getNodes()
    points = {tag: numbers[3 * i:3 * i + 3] for i, tag in enumerate(tags)}
    out = []
    for volume in volumes:
        for _, surface in gmsh.model.getBoundary([volume], oriented=False):
            kinds, _, nodes = gmsh.model.mesh.getElements(2, surface)
            for kind, own in zip(kinds, nodes):
                if kind == 2:
                    out += [list(own[i:i + 3]) for i in range(0, len(own), 3)]
    return points, out


gmsh.initialize()
gmsh.option.setNumber("General.Verbosity", 1)
gmsh.option.setNumber("Mesh.MeshSizeMax", 1e9)
gmsh.option.setNumber("Mesh.MeshSizeMin", 1e8)
out, *words = sys.argv[1:]
entities = inputs.folded(words, volume_of, joined)
gmsh.model.occ.synchronize()
for _, tag in entities:
    gmsh.model.mesh.setOutwardOrientation(tag)
gmsh.model.mesh.generate(2)
points, facets = triangles(entities)
own = {tag: i for i, tag in enumerate(sorted({at for facet in facets for at in facet}))}
inputs.write(out, [points[tag] for tag in own], [[own[at] for at in facet] for facet in facets])
