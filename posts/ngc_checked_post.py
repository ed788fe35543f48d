#!/usr/bin/env python3
"""Shows the verdict of `ngc report` on the program that a post-processor of FreeCAD has written. It changes no program.

In FreeCAD: copy it into the macro folder, choose `ngc_checked` as the post-processor of the job, and name the post that writes the
program, the machine file and the tool table in the job's arguments; all other arguments are for that post:

    --post linuxcnc --machine /home/me/mill.toml --tools /home/me/tools.toml --no-show-editor

The verdict is in the report view. A program that doesn't fit is shown there as an error.

From a shell, or after another CAM system: ngc_checked_post.py --machine mill.toml --tools tools.toml part.ngc ..
Its status is that of `ngc report`, of several programs the greatest."""
import argparse
import importlib
import os
import platform
import shutil
import subprocess
import sys
from pathlib import Path

# The statuses of `ngc report`, as docs/FORMATS.md has them under "Exit statuses".
VERDICTS = {
    0: "fits",
    1: "wasn't checked: a file can't be read, or memory ran out",
    2: "wasn't checked: ngc doesn't know an option",
    3: "is refused: the program, the machine file or the tool table has a fault",
    4: "does not fit",
}
PROGRAMS = {("Linux", "x86_64"): "bin/ngc-x86_64-linux", ("Linux", "aarch64"): "dist/ngc-aarch64-linux", ("Windows", "AMD64"): "dist/ngc.exe"}


def default_ngc():
    """Returns `ngc` on the PATH, or the program of the checkout that this script is in."""
    built = PROGRAMS.get((platform.system(), platform.machine()))
    return shutil.which("ngc") or (str(Path(__file__).resolve().parent.parent / built) if built else "ngc")


def options_of_report():
    """Returns the parser of the options that both scripts have."""
    parser = argparse.ArgumentParser(add_help=False, allow_abbrev=False)
    parser.add_argument("--machine", required=True, metavar="FILE", help="machine file")
    parser.add_argument("--tools", required=True, metavar="FILE", help="tool table")
    parser.add_argument("--dialect", metavar="NAME", help="the control's language, for `ngc report --dialect`")
    parser.add_argument("--ngc", default=default_ngc(), metavar="PROGRAM", help="the program ngc")
    return parser


def lines_that_matter(status, text):
    """Returns the lines of a report to show: the time and the warnings of a program that fits, else all but the ways of the axes."""
    if status == 0:
        return [line for line in text if line.startswith(("With block delete", "It takes", "warning:"))]
    return [line for line in text if not line.startswith(("X from", "Y from", "Z from", "The program does not fit"))]


def verdict(name, options, text=None):
    """Returns the status of `ngc report` and what to show. Without a text it reads the program `name`."""
    words = [options.ngc, "report", "--machine", options.machine, "--tools", options.tools]
    words += ["--dialect", options.dialect] if options.dialect else []
    words += ["--program", name] if text is None else []
    data = None if text is None else text.encode()
    try:
        # On Windows no console window appears.
        done = subprocess.run(words, input=data, stdout=subprocess.PIPE, stderr=subprocess.PIPE, creationflags=getattr(subprocess, "CREATE_NO_WINDOW", 0))
    except OSError as error:
        return 1, f"{name}: wasn't checked: {options.ngc} doesn't start: {error.strerror}\n"
    lines = lines_that_matter(done.returncode, done.stdout.decode(errors="replace").splitlines())
    lines += done.stderr.decode(errors="replace").splitlines()
    said = VERDICTS.get(done.returncode, f"wasn't checked: ngc ended with {done.returncode}")
    return done.returncode, "".join(f"{line}\n" for line in [f"{name}: {said}", *(f"    {line}" for line in lines)])


def post_of(name):
    """Returns the module of a post-processor of FreeCAD."""
    places = (f"{name}_post", f"Path.Post.scripts.{name}_post", f"PathScripts.post.{name}_post")
    for place in places:
        try:
            return importlib.import_module(place)
        except ModuleNotFoundError as error:
            if not place.startswith(error.name):
                raise
    raise ValueError(f"ngc_checked_post: there is no post-processor {name}")


def export(objectslist, filename, argstring):
    """Lets another post write the program, and shows the verdict. Returns what that post returns. FreeCAD calls this."""
    import shlex

    import FreeCAD

    parser = options_of_report()
    parser.add_argument("--post", required=True)
    try:
        options, others = parser.parse_known_args(shlex.split(argstring or "", posix=os.name != "nt"))
    except SystemExit:
        raise ValueError("ngc_checked_post: the arguments need --post, --machine and --tools") from None
    written = post_of(options.post).export(objectslist, filename, " ".join(map(shlex.quote, others)))
    # With `-` FreeCAD writes the file itself, after this call.
    status, shown = verdict("the program", options, written or "") if filename == "-" else verdict(filename, options)
    (FreeCAD.Console.PrintError if status else FreeCAD.Console.PrintMessage)(shown)
    return written


def main():
    parser = argparse.ArgumentParser(description=__doc__, formatter_class=argparse.RawDescriptionHelpFormatter, parents=[options_of_report()])
    parser.add_argument("programs", nargs="+", metavar="PROGRAM", help="a part program")
    options = parser.parse_args()
    greatest = 0
    for program in options.programs:
        status, shown = verdict(program, options)
        print(shown, end="", flush=True)
        greatest = max(greatest, status)
    sys.exit(greatest)


if __name__ == "__main__":
    main()
