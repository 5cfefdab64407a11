"""Makes the part and the programs of this folder again, with FreeCAD 0.20:

    freecadcmd make.py

A bracket of 60 by 40 by 8 mm: corners R6, a chamfer of 1 mm round its top, a boss 16 mm across and 4 mm
high, a pocket of 24 by 20 by 4 mm with corners R4, two holes of 5 mm and one of 3.5 mm. The stock is 1 mm
larger all round and on top, and lies on a board.

part.stl is the bracket on its board, with the points of the drills in the board: that is all that may not
be cut. There is a program for each tool, as FreeCAD's posts write it: mill.ngc faces the boss, clears round
it, cuts the pocket and goes round the outline; chamfer.ngc cuts the chamfer; drill-5.nc and drill-3-5.nc
drill. tools.toml tells the tools. The rest of the folder is made of these, by

    camtool-new part.stl mill.ngc chamfer.ngc drill-5.nc drill-3-5.nc --tools=tools.toml --stock=-1,-1,0,61,41,13
    camtool rest job.toml part.stl list.toml
    camtool-page job.toml part.stl list.toml -o page.html
    camtool-sheet job.toml part.stl list.toml -o sheet.html
"""
import importlib
import math
import os

import FreeCAD
import Mesh
import MeshPart
import Part
from FreeCAD import Vector
from PathScripts import PathDrilling, PathJob, PathPocketShape, PathProfile, PathToolBit, PathToolController, PathUtils
from PathScripts.post import grbl_post, linuxcnc_post

FOLDER = os.path.dirname(os.path.abspath(__file__))
BITS = os.path.join(FreeCAD.getHomePath(), "Mod", "Path", "Tools", "Bit")
# What docs/CAM.md says that a post is to be told.
OPTIONS = "--no-show-editor --preamble='G17 G21 G90 G94 G40 G49 G54 G61 G80'"
# Where each hole is, and its radius.
HOLES = ((15, 20, 2.5), (40, 20, 2.5), (56, 20, 1.75))
# How deep the tip of a drill of 118 degrees goes under the part, so that the hole is whole there: by its radius over
# the tangent of 59 degrees, and some more.
UNDER = 2.0
# The point of a drill in the board is cut so much deeper than the drill goes, and the chamfer is left so much too high: so
# their paths don't even touch the part.
KEPT_OFF = 0.05


def bracket():
    """Returns the bracket, and a solid with its boss and no pocket, hole or chamfer."""
    plate = Part.makeBox(60, 40, 8)
    plate = plate.makeFillet(6, [it for it in plate.Edges if abs(it.Vertexes[0].Z - it.Vertexes[1].Z) > 7])
    boss = Part.makeCylinder(8, 4, Vector(15, 20, 8))
    plain = plate.fuse(boss)
    top = [it for it in plate.Edges if all(abs(corner.Z - 8) < 1e-6 for corner in it.Vertexes)]
    pocket = Part.makeBox(24, 20, 4, Vector(28, 10, 4))
    pocket = pocket.makeFillet(4, [it for it in pocket.Edges if abs(it.Vertexes[0].Z - it.Vertexes[1].Z) > 3])
    shape = plate.makeChamfer(1, top).fuse(boss).cut(pocket)
    for x, y, radius in HOLES:
        shape = shape.cut(Part.makeCylinder(radius, 20, Vector(x, y, -4)))
    return shape.removeSplitter(), plain


def on_board(shape):
    """Returns the bracket on its board, with what the drills leave in that."""
    board = Part.makeBox(70, 50, 4, Vector(-5, -5, -4))
    for x, y, radius in HOLES:
        depth = radius / math.tan(math.radians(59))
        straight = UNDER + KEPT_OFF - depth
        board = board.cut(Part.makeCylinder(radius, straight, Vector(x, y, -straight)))
        board = board.cut(Part.makeCone(0, radius, depth, Vector(x, y, -straight - depth)))
    return shape.fuse(board).removeSplitter()


def box_round(low, high, wider, without=None):
    """Returns a box over the stock's area, and so much wider, for an operation that clears it."""
    box = Part.makeBox(62 + 2 * wider, 42 + 2 * wider, high - low, Vector(-1 - wider, -1 - wider, low))
    return box.cut(without) if without else box


class Setup:
    """FreeCAD's document with the job, the operations' tools and what they cut."""

    def __init__(self, shape, plain):
        self.document = FreeCAD.newDocument("bracket")
        self.part = self.add("Part", shape)
        self.plain = self.add("Plain", plain)
        boss = Part.makeCylinder(8, 20, Vector(15, 20, 0))
        self.face = self.add("OverBoss", box_round(11, 12, 6))
        self.round = self.add("RoundBoss", box_round(7, 8, 6, boss))
        self.job = PathJob.Create("Job", [self.part], None)
        for name, extent in (("ExtXneg", 1), ("ExtXpos", 1), ("ExtYneg", 1), ("ExtYpos", 1), ("ExtZneg", 0), ("ExtZpos", 1)):
            setattr(self.job.Stock, name, extent)
        self.document.recompute()

    def add(self, name, shape):
        made = self.document.addObject("Part::Feature", name)
        made.Shape = shape
        self.document.recompute()
        return made

    def tool(self, number, bit, diameter, label, feed, plunge, speed):
        """Returns the controller of a tool."""
        made = PathToolBit.Factory.CreateFrom(os.path.join(BITS, bit), f"Bit{number}")
        made.Diameter = diameter
        controller = PathToolController.Create(label, made, number)
        controller.Label = label
        controller.HorizFeed, controller.VertFeed = f"{feed} mm/min", f"{plunge} mm/min"
        controller.SpindleSpeed, controller.SpindleDir = speed, "Forward"
        self.job.Proxy.addToolController(controller)
        self.document.recompute()
        return controller

    def operation(self, module, name, controller, base, depths, **values):
        """Returns an operation on faces or edges of an object, from, to and by these depths."""
        # (with several tools an operation asks for its own in a window)
        PathUtils.findToolController = lambda *words: controller
        made = module.Create(name)
        made.Base = [base]
        made.ToolController = controller
        for key, depth in zip(("StartDepth", "FinalDepth", "StepDown"), depths):
            if hasattr(made, key):
                made.setExpression(key, None)
                setattr(made, key, depth)
        for key, value in values.items():
            setattr(made, key, value)
        if hasattr(made, "SplitArcs"):
            made.SplitArcs = True
        self.document.recompute()
        return made


def faces(shape, is_wanted):
    return [f"Face{number + 1}" for number, it in enumerate(shape.Faces) if is_wanted(it)]


def is_flat_at(height):
    return lambda face: abs(face.BoundBox.ZMin - height) < 1e-6 and abs(face.BoundBox.ZMax - height) < 1e-6


def write(post, name, objects, options):
    # (a post keeps the options of the call before, so it is loaded anew)
    importlib.reload(post).export(objects, os.path.join(FOLDER, name), options)


def mill(setup):
    tool = setup.tool(1, "5mm_Endmill.fctb", 6.0, "6mm endmill", 600, 200, 8000)
    clear = {"OffsetPattern": "ZigZagOffset", "StepOver": 50}
    of = setup.face.Shape
    yield tool
    yield setup.operation(PathPocketShape, "Face", tool, (setup.face, faces(of, is_flat_at(12))), (13, 12, 1), **clear)
    of = setup.round.Shape
    yield setup.operation(PathPocketShape, "Clear", tool, (setup.round, faces(of, is_flat_at(8))), (12, 8, 2), **clear)
    model = setup.job.Model.Group[0]
    floor = faces(model.Shape, is_flat_at(4))
    yield setup.operation(PathPocketShape, "Pocket", tool, (model, floor), (8, 4, 2), UseOutline=True, **clear)
    bottom = faces(setup.plain.Shape, is_flat_at(0))
    yield setup.operation(PathProfile, "Profile", tool, (setup.plain, bottom), (8, 0, 2), processHoles=False)


def chamfer(setup):
    tool = setup.tool(2, "60degree_Vbit.fctb", 10.0, "90 degree chamfer mill 10mm", 400, 200, 8000)
    bottom = faces(setup.plain.Shape, is_flat_at(0))
    # The tip goes round 1 mm outside the outline, 1 mm under the chamfer's lower edge.
    depth = 6 + KEPT_OFF
    yield tool
    yield setup.operation(PathProfile, "Chamfer", tool, (setup.plain, bottom), (depth, depth, 1), OffsetExtra=-4, processHoles=False)


def drilled(setup, number, diameter):
    tool = setup.tool(number, "5mm_Drill.fctb", diameter, f"{diameter:g}mm drill", 200, 150, 3000)
    model = setup.job.Model.Group[0]
    is_hole = lambda it: str(it.Surface) == "<Cylinder object>" and abs(it.Surface.Radius - diameter / 2) < 1e-6
    operation = setup.operation(PathDrilling, f"Drill{number}", tool, (model, faces(model.Shape, is_hole)), (13, -UNDER, 2))
    operation.PeckEnabled, operation.PeckDepth = True, 2
    setup.document.recompute()
    return [tool, operation]


def main():
    shape, plain = bracket()
    setup = Setup(shape, plain)
    write(linuxcnc_post, "mill.ngc", list(mill(setup)), f"{OPTIONS} --no-tlo")
    write(linuxcnc_post, "chamfer.ngc", list(chamfer(setup)), f"{OPTIONS} --no-tlo")
    write(grbl_post, "drill-5.nc", drilled(setup, 3, 5.0), f"{OPTIONS} --translate_drill")
    write(grbl_post, "drill-3-5.nc", drilled(setup, 4, 3.5), f"{OPTIONS} --translate_drill")
    mesh = MeshPart.meshFromShape(Shape=on_board(shape), LinearDeflection=0.01, AngularDeflection=0.5)
    Mesh.Mesh(mesh).write(os.path.join(FOLDER, "part.stl"), "AST")


main()
