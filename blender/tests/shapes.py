"""Scenes that the tests share, and what is asked of them."""

import bmesh
import bpy
import numpy as np


def empty_scene():
    """Removes all that is there."""
    if bpy.context.mode != "OBJECT":
        bpy.ops.object.mode_set(mode="OBJECT")
    for it in list(bpy.data.objects):
        if it.type == "MESH" and it.data.shape_keys is not None:
            it.shape_key_clear()
    for kind in (bpy.data.objects, bpy.data.meshes, bpy.data.materials, bpy.data.armatures, bpy.data.actions):
        for it in list(kind):
            kind.remove(it)


def chosen(*objects):
    """Makes these objects the selection."""
    bpy.ops.object.select_all(action="DESELECT")
    for it in objects:
        it.hide_set(False)
        it.select_set(True)
    bpy.context.view_layer.objects.active = objects[0]


def with_mesh(name, points, faces, edges=()):
    data = bpy.data.meshes.new(name)
    data.from_pydata(points, edges, faces)
    it = bpy.data.objects.new(name, data)
    bpy.context.collection.objects.link(it)
    chosen(it)
    return it


def grid(wide, high, size=1.0):
    """A flat grid of so many squares, with a corner at the origin, which is the selection."""
    points = [(size * x, size * y, 0) for y in range(high + 1) for x in range(wide + 1)]
    row = wide + 1
    faces = [(it, it + 1, it + 1 + row, it + row) for y in range(high) for it in range(row * y, row * y + wide)]
    return with_mesh("grid", points, faces)


def suzanne(levels=2):
    """The head of a monkey, of quads alone."""
    bpy.ops.mesh.primitive_monkey_add()
    return applied(bpy.context.object, levels)


def applied(source, levels):
    modifier = source.modifiers.new("fine", "SUBSURF")
    modifier.levels = levels
    chosen(source)
    bpy.ops.object.modifier_apply(modifier="fine")
    return source


def last():
    """The last remesh, as the package has it."""
    import quadq_remesh.operators as operators
    return operators.Last.results[0][1]


def distance(one, other):
    """The greatest distance from the vertices of a mesh to the surface of another."""
    from mathutils.bvhtree import BVHTree
    tree = BVHTree.FromPolygons([it.co for it in other.vertices], [it.vertices[:] for it in other.polygons])
    return max(tree.find_nearest(it.co)[3] for it in one.vertices)


def cube(cuts=7):
    bpy.ops.mesh.primitive_cube_add()
    bpy.ops.object.mode_set(mode="EDIT")
    bpy.ops.mesh.subdivide(number_cuts=cuts)
    bpy.ops.object.mode_set(mode="OBJECT")
    return bpy.context.object


def folded():
    """A grid of 9 by 9 squares with a ridge along x = 4, no line of its patches, and the edges of the ridge."""
    roof = grid(9, 9)
    for it in roof.data.vertices:
        it.co.z = abs(it.co.x - 4)
    ends = [[roof.data.vertices[end].co.x for end in it.vertices] for it in roof.data.edges]
    return roof, [it for it, at in zip(roof.data.edges, ends) if at == [4, 4]]


def body():
    """A cube of 8 by 8 faces a side with two UV maps, of which the first is torn between its sides, colours of vertices
    and of corners, two vertex groups, shape keys, smooth sides and another material above. All that is linear in its
    places on each side."""
    source = cube()
    data = source.data
    for name in ("side", "top"):
        data.materials.append(bpy.data.materials.new(name))
    data.uv_layers.new(name="flat")
    for name, kind, domain in (("points", "FLOAT_COLOR", "POINT"), ("corners", "BYTE_COLOR", "CORNER")):
        data.color_attributes.new(name, kind, domain)
    flat = data.uv_layers["flat"].data
    points, corners = (data.color_attributes[name].data for name in ("points", "corners"))
    for face in data.polygons:
        face.material_index = int(face.normal.z > 0.5)
        face.use_smooth = face.normal.z < 0.5
        for loop in face.loop_indices:
            x, y, z = data.vertices[data.loops[loop].vertex_index].co
            flat[loop].uv = (x / 2, z / 2 + y / 4)
            corners[loop].color = (face.normal.z > 0.5, 1, 0, 1)
    for it in data.vertices:
        points[it.index].color = (it.co.x / 2 + 0.5, it.co.y / 2 + 0.5, 0.25, 1)
    put_groups(source)
    put_keys(source)
    return source


def put_groups(source):
    groups = [source.vertex_groups.new(name=name) for name in ("arm.L", "arm.R", "empty")]
    groups[0].lock_weight = True
    for it in source.data.vertices:
        groups[0].add([it.index], it.co.x / 2 + 0.5, "REPLACE")
        groups[1].add([it.index], it.co.y / 4 + 0.25, "REPLACE")


def put_keys(source):
    """A key that moves the top up and the right to the back, and one below it that is driven."""
    source.shape_key_add(name="Basis")
    up, wide = (source.shape_key_add(name=name, from_mix=False) for name in ("up", "wide"))
    for it, key, other in zip(source.data.vertices, up.data, wide.data):
        key.co = it.co.x, it.co.y + max(it.co.x, 0), 1.5 * it.co.z
        other.co = 2 * it.co.x, it.co.y, it.co.z
    up.slider_max, up.value, up.vertex_group = 2.0, 0.25, "arm.L"
    wide.mute = True
    driver = wide.driver_add("value").driver
    driver.expression = "0.75"


def shape(data):
    """Euler's number, and how many points inside have another number of edges than four."""
    whole = bmesh.new()
    whole.from_mesh(data)
    irregular = sum(not it.is_boundary and len(it.link_edges) != 4 for it in whole.verts)
    return len(whole.verts) - len(whole.edges) + len(whole.faces), irregular


def area(data):
    return sum(it.area for it in data.polygons)


def places_of(data):
    """(vertices, 3)."""
    return np.array([it.co for it in data.vertices])


def uv_area(data, name):
    """(faces,): the area of each face in a UV map."""
    at = np.zeros(2 * len(data.loops), dtype=np.float32)
    data.uv_layers[name].data.foreach_get("uv", at)
    found = []
    for face in data.polygons:
        x, y = at.reshape(-1, 2)[list(face.loop_indices)].T
        found.append(float(np.sum(x * np.roll(y, -1) - y * np.roll(x, -1))) / 2)
    return np.array(found)


MARKS = {"sharp": "use_edge_sharp", "seams": "use_seam", "creases": "crease", "bevels": "bevel_weight",
         "freestyle": "use_freestyle_mark"}
NEW_NAMES = {"creases": "crease_edge", "bevels": "bevel_weight_edge", "freestyle": "freestyle_edge"}
"""What some of them are from 4.0 on."""


def mark(data, edge, kind):
    """Marks an edge, by half where that can be."""
    value = 0.5 if kind in ("creases", "bevels") else True
    if MARKS[kind] in bpy.types.MeshEdge.bl_rna.properties:
        if kind == "freestyle" and not marked(data, kind):
            # The first mark of all goes to the edge 0 in Blender 3.4.
            data.edges[0].use_freestyle_mark = False
        setattr(edge, MARKS[kind], value)
        return
    name = NEW_NAMES[kind]
    made = data.attributes.get(name) or data.attributes.new(name, "FLOAT", "EDGE")
    made.data[edge.index].value = value


def marked(data, kind):
    """How strongly each edge that is marked so is marked."""
    if MARKS[kind] in bpy.types.MeshEdge.bl_rna.properties:
        values = [float(getattr(it, MARKS[kind])) for it in data.edges]
    else:
        made = data.attributes.get(NEW_NAMES[kind])
        values = [float(it.value) for it in made.data] if made else []
    return {at: it for at, it in enumerate(values) if it}


def weights_at(it):
    """For each vertex a dictionary of the weights in its groups, by name."""
    return [{it.vertex_groups[one.group].name: one.weight for one in vertex.groups} for vertex in it.data.vertices]


def messages():
    """What the add-on has said last."""
    import quadq_remesh.operators as operators
    return [it.words for it in operators.Last.messages]
