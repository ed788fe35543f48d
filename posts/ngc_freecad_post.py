"""A post-processor for FreeCAD's CAM workbench (called Path until FreeCAD 0.21) that writes programs for `ngc`.

Copy it into FreeCAD's macro folder as `ngc_freecad_post.py`, and choose `ngc_freecad` as the post-processor of the job.
Its arguments are --inches, --decimals N (4, or 5 in inches), --no-comments and --no-show-editor. It raises ValueError
where an operation needs what `ngc` doesn't have: a rotary axis that moves, cutter compensation, tapping, probing."""
import re
import shlex

TOOLTIP = "Writes RS274/NGC for ngc: three axes, arcs with the offsets of their plane alone, dwells in seconds."
TOOLTIP_ARGS = "--inches --decimals N --no-comments --no-show-editor"
OFFSETS = {17: "IJ", 18: "IK", 19: "JK"}
MODES = {"G17", "G18", "G19", "G20", "G21", "G40", "G49", "G80", "G90", "G91", "G93", "G94", "G98", "G99", "G54", "G55", "G56",
         "G57", "G58", "G59", "G59.1", "G59.2", "G59.3", "G61", "G64", "M3", "M4", "M5", "M7", "M8", "M9", "M0", "M1", "M48", "M49"}
CYCLES = {"G81": "", "G82": "P", "G83": "Q", "G85": "", "G86": "P", "G89": "P"}


class Writer:
    """The lines of a program, and what they leave in force."""

    def __init__(self, args):
        words = shlex.split(args or "")
        self.inch = "--inches" in words
        self.digits = int(words[words.index("--decimals") + 1]) if "--decimals" in words else (5 if self.inch else 4)
        self.comments = "--no-comments" not in words
        self.out, self.plane, self.tool = [], 17, None

    def num(self, value, digits=None):
        text = "%.*f" % (self.digits if digits is None else digits, value)
        return text.rstrip("0").rstrip(".") if "." in text else text

    def length(self, value):
        """A length that FreeCAD has in millimetres, in the units of the program."""
        text = self.num(value / 25.4 if self.inch else value)
        return "0" if text == "-0" else text

    def say(self, text):
        if self.comments:
            clean = text.replace("(", "[").replace(")", "]").encode("ascii", "replace").decode()
            self.out.append("(%s)" % clean[:200])

    def axes(self, p, letters):
        return [l + self.length(p[l]) for l in letters if l in p]

    def command(self, c):
        """Adds the line of one of FreeCAD's commands, if it has one."""
        name, p = re.sub(r"^([GM])0+(\d)", r"\1\2", c.Name.upper()), c.Parameters
        if name.startswith("("):
            return self.say(c.Name.strip("()"))
        turned = [l for l in "ABC" if p.get(l)]
        if turned:
            raise ValueError("ngc_freecad_post: the rotary axis %s moves, and ngc has three axes" % turned[0])
        words = [name]
        if name in ("G0", "G1", "G2", "G3"):
            words += self.axes(p, "XYZ")
            if name in ("G2", "G3"):
                words += self.axes(p, "R") if "R" in p else self.axes(p, OFFSETS[self.plane])
            if len(words) == 1:
                return
        elif name in CYCLES:
            words += self.axes(p, "XYZR")
            if "P" in CYCLES[name]:
                words.append("P" + self.num(p.get("P", 0), 3))
            if "Q" in CYCLES[name]:
                words.append("Q" + self.length(p["Q"]))
        elif name == "G73":
            return self.chips(p)
        elif name == "G4":
            words.append("P" + self.num(p.get("P", 0), 3))
        elif name == "M6":
            self.tool = int(p["T"])
            self.out += ["M5", "T%d M6" % self.tool, "G43 H%d" % self.tool]
            return
        elif name == "G43":
            words.append("H%d" % int(p.get("H", self.tool or 0)))
        elif name in MODES:
            if name in ("G17", "G18", "G19"):
                self.plane = int(name[1:])
            if name in ("G20", "G21"):
                return
        else:
            raise ValueError("ngc_freecad_post: ngc has no %s" % c.toGCode())
        if "S" in p and name in ("M3", "M4"):
            words.append("S%d" % round(p["S"]))
        if p.get("F", 0) > 0 and name not in ("G0",):
            words.append("F" + self.num(p["F"] * 60 / (25.4 if self.inch else 1), 3))  # FreeCAD has millimetres a second
        self.out.append(" ".join(words))

    def chips(self, p):
        """Adds G73 as moves, with 0.254 mm back after each peck."""
        self.out.append(" ".join(["G0"] + self.axes(p, "XY")))
        self.out.append("G0 Z" + self.length(p["R"]))
        feed = " F" + self.num(p["F"] * 60 / (25.4 if self.inch else 1), 3) if p.get("F", 0) > 0 else ""
        deep = p["R"]
        while deep > p["Z"] + 1e-9:
            deep = max(p["Z"], deep - p["Q"])
            self.out.append("G1 Z" + self.length(deep) + feed)
            if deep > p["Z"] + 1e-9:
                self.out.append("G0 Z" + self.length(deep + 0.254))
        self.out.append("G0 Z" + self.length(p["R"]))

    def walk(self, o):
        """Adds the commands of an operation, or of all that a group has."""
        if not getattr(o, "Active", True) or not getattr(getattr(o, "Base", None), "Active", True):
            return
        if hasattr(o, "Group") and not hasattr(o, "Path"):
            for x in o.Group:
                self.walk(x)
            return
        if not hasattr(o, "Path"):
            return
        self.say("operation " + o.Label)
        cool = getattr(o, "CoolantMode", getattr(getattr(o, "Base", None), "CoolantMode", "None"))
        if cool in ("Flood", "Mist"):
            self.out.append("M8" if cool == "Flood" else "M7")
        for c in o.Path.Commands:
            self.command(c)
        if cool in ("Flood", "Mist"):
            self.out.append("M9")


def export(objectslist, filename, argstring):
    """Returns the program of these operations, and writes it to the file unless that is `-`. FreeCAD calls this."""
    w = Writer(argstring)
    w.say("FreeCAD, post ngc")
    w.out += ["G17 G90 G94 G40 G49 G98", "G80", "G54", "G20" if w.inch else "G21"]
    for o in objectslist:
        w.walk(o)
    w.out += ["M5", "M9", "M2"]
    text = "\n".join(w.out) + "\n"
    if filename != "-":
        with open(filename, "w") as f:
            f.write(text)
    return text
