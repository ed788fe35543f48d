"""Makes a plate in FreeCAD, with a profile, a pocket, drilled holes and a bored one, and writes its program by the post.

    POST=posts OUT=plate.ngc QT_QPA_PLATFORM=offscreen freecadcmd posts/freecad_plate.py
    ./ngc list --program plate.ngc --tools examples/tools.toml

POST is the folder of ngc_freecad_post.py, OUT the program to write, and ARGS the post's arguments, such as --inches.
The post is copied into FreeCAD's macro folder, where the job looks for it."""
import os
import shutil
import FreeCAD
import Part
from FreeCAD import Vector

macros = FreeCAD.getUserMacroDir(True)
os.makedirs(macros, exist_ok=True)
shutil.copy(os.path.join(os.environ["POST"], "ngc_freecad_post.py"), macros)

import PathScripts.PathDrilling as PathDrilling
import PathScripts.PathHelix as PathHelix
import PathScripts.PathJob as PathJob
import PathScripts.PathPocketShape as PathPocketShape
import PathScripts.PathProfile as PathProfile
from PathScripts.PathPostProcessor import PostProcessor


def plate():
    """A plate of 80 by 60 by 10 mm with a pocket, four holes of 5 mm and one of 12 mm."""
    pocket = Part.makeBox(30, 20, 4, Vector(25, 20, 6))
    pocket = pocket.makeFillet(4, [e for e in pocket.Edges if abs(e.Vertexes[0].Z - e.Vertexes[1].Z) > 1])
    shape = Part.makeBox(80, 60, 10).cut(pocket)
    for x, y, radius in ((8, 8, 2.5), (72, 8, 2.5), (8, 52, 2.5), (72, 52, 2.5), (15, 30, 6)):
        shape = shape.cut(Part.makeCylinder(radius, 10, Vector(x, y, 0)))
    return shape


doc = FreeCAD.newDocument("plate")
part = doc.addObject("Part::Feature", "Plate")
part.Shape = plate()
doc.recompute()
job = PathJob.Create("Job", [part], None)
job.PostProcessor = "ngc_freecad"
tool = job.Tools.Group[0]
tool.HorizFeed, tool.VertFeed, tool.SpindleSpeed = "600 mm/min", "120 mm/min", 12000
doc.recompute()
model = job.Model.Group[0]


def holes(radius):
    return [i for i, f in enumerate(model.Shape.Faces)
            if f.Surface.__class__.__name__ == "Cylinder" and abs(f.Surface.Radius - radius) < 1e-6]


def floor(height):
    return [i for i, f in enumerate(model.Shape.Faces)
            if abs(f.BoundBox.ZMin - height) < 1e-6 and abs(f.BoundBox.ZMax - height) < 1e-6]


def operation(module, name, faces):
    made = module.Create(name)
    if faces:
        made.Base = [(model, tuple("Face%d" % (i + 1) for i in faces))]
    made.ToolController = tool
    return made


operations = [operation(PathProfile, "Profile", []), operation(PathPocketShape, "Pocket", floor(6)),
              operation(PathDrilling, "Drilling", holes(2.5)), operation(PathHelix, "Helix", holes(6))]
operations[2].PeckEnabled = True
doc.recompute()
post = PostProcessor.load(job.PostProcessor)
text = post.export([tool] + operations, os.environ["OUT"], "--no-show-editor " + os.environ.get("ARGS", ""))
print("FreeCAD", ".".join(FreeCAD.Version()[:3]), "lines", text.count("\n"))
