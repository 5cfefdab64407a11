"""Makes the part and the programs of this folder again, with FreeCAD 0.20:

    freecadcmd make.py

A block of 40 by 30 by 8 mm with a pocket of 24 by 14 mm, 4 mm deep. Each program is one Pocket
operation, as FreeCAD's post processors write it.
"""
import importlib
import os

import FreeCAD
import Mesh
import MeshPart
import Part
from PathScripts import PathJob, PathPocketShape
from PathScripts.post import grbl_post, linuxcnc_post

FOLDER = os.path.dirname(os.path.abspath(__file__))
# Options with which camtool takes what the LinuxCNC post writes; the last words of the preamble switch
# off what an earlier program may have left on, and G61 keeps the control from rounding corners.
OPTIONS = "--no-show-editor --precision=2 --no-tlo --preamble='G17 G21 G90 G94 G40 G49 G54 G61 G80'"


def pocket(diameter=6.0, final_depth=4.0):
    """Returns the part's shape, and the tool and the operation that a post takes."""
    document = FreeCAD.newDocument("part")
    block = Part.makeBox(40, 30, 8)
    part = document.addObject("Part::Feature", "Part")
    part.Shape = block.cut(Part.makeBox(24, 14, 4, FreeCAD.Vector(8, 8, 4)))
    document.recompute()
    job = PathJob.Create("Job", [part], None)
    for name in ("ExtXneg", "ExtXpos", "ExtYneg", "ExtYpos", "ExtZneg", "ExtZpos"):
        setattr(job.Stock, name, 0)
    model, tool = job.Model.Group[0], job.Tools.Group[0]
    tool.HorizFeed, tool.VertFeed = "600 mm/min", "200 mm/min"
    tool.SpindleSpeed, tool.SpindleDir = 6000, "Forward"
    tool.Tool.Diameter = diameter
    document.recompute()
    at = [it.BoundBox for it in model.Shape.Faces]
    floor = [f"Face{number + 1}" for number, box in enumerate(at) if box.ZMin == box.ZMax == 4]
    operation = PathPocketShape.Create("Pocket")
    operation.Base = [(model, floor)]
    operation.ToolController = tool
    operation.OffsetPattern, operation.ZigZagAngle, operation.StepOver = "ZigZag", 0, 45
    for name, depth in (("StartDepth", 8), ("FinalDepth", final_depth), ("StepDown", 2)):
        operation.setExpression(name, None)
        setattr(operation, name, depth)
    document.recompute()
    return part.Shape, [tool, operation]


def write(post, name, objects, options):
    # (a post keeps the options of the call before, so it is loaded anew)
    importlib.reload(post).export(objects, os.path.join(FOLDER, name), options)


shape, objects = pocket()
write(linuxcnc_post, "pocket.ngc", objects, OPTIONS)
write(linuxcnc_post, "default.ngc", objects, "--no-show-editor")
write(grbl_post, "grbl.nc", objects, OPTIONS.replace(" --no-tlo", ""))
write(linuxcnc_post, "other-tool.ngc", pocket(diameter=5.0)[1], OPTIONS)
write(linuxcnc_post, "quarter-inch.ngc", pocket(diameter=6.35)[1], "--no-show-editor --no-tlo")
write(linuxcnc_post, "shallow.ngc", pocket(final_depth=5.0)[1], OPTIONS)
mesh = Mesh.Mesh(MeshPart.meshFromShape(Shape=shape, LinearDeflection=0.01, AngularDeflection=0.1))
mesh.write(os.path.join(FOLDER, "binary.stl"))
mesh.write(os.path.join(FOLDER, "part.stl"), "AST")
