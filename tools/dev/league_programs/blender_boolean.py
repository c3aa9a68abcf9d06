"""Blender's exact boolean: one modifier after another, with the solver EXACT. inputs.py says what it reads and writes.

Use: blender -b --factory-startup --python-exit-code 1 -P blender_boolean.py -- OUT.off WORD .."""
import os
import sys

import bpy

sys.path.insert(0, os.path.dirname(os.path.realpath(__file__)))
import inputs

NAMES = {"+": "UNION", "-": "DIFFERENCE", "*": "INTERSECT"}


def object_of(points, facets):
    mesh = bpy.data.meshes.new("leaf")
    mesh.from_pydata(points, [], facets)
    mesh.update()
    made = bpy.data.objects.new("leaf", mesh)
    bpy.context.collection.objects.link(made)
    return made


def joined(sign, left, right):
    modifier = left.modifiers.new("boolean", "BOOLEAN")
    modifier.operation, modifier.object, modifier.solver = NAMES[sign], right, "EXACT"
    graph = bpy.context.evaluated_depsgraph_get()
    mesh = bpy.data.meshes.new_from_object(left.evaluated_get(graph))
    left.modifiers.clear()
    left.data = mesh
    bpy.data.objects.remove(right)
    return left


out, *words = sys.argv[sys.argv.index("--") + 1:]
bpy.ops.wm.read_factory_settings(use_empty=True)
mesh = inputs.folded(words, object_of, joined).data
mesh.calc_loop_triangles()
inputs.write(out, [point.co for point in mesh.vertices], [facet.vertices for facet in mesh.loop_triangles])
