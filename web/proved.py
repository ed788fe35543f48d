"""What the page and the library are both made of: the static library crates/ngc_page, proved and compiled by the kit."""
import re
import shutil
import subprocess
from pathlib import Path

ROOT = Path(__file__).resolve().parent.parent
CRATE = ROOT / "crates/ngc_page"


def kit_folder():
    rt = shutil.which("rt")
    if not rt:
        raise SystemExit("the Rattle kit's command rt is not on the PATH")
    return Path(rt).resolve().parent.parent


KIT = kit_folder()


def run(words, **how):
    words = [str(word) for word in words]
    made = subprocess.run(words, stdout=subprocess.PIPE, stderr=subprocess.STDOUT, text=True, **how)
    if made.returncode:
        raise SystemExit(f"{made.stdout}\n{words[0]} failed")
    return made.stdout


def libraries(root):
    """The words that name the libraries of the crate, and those below them, as they are built in a checkout."""
    line = re.search(r"^ngc_page staticlib:(.*)$", (ROOT / "crates.txt").read_text(), re.M)
    words = ["--extern", f"std={KIT}/rlibs/std.rlib", "-L", f"dependency={KIT}/rlibs"]
    for name in line[1].split():
        own = root / "crates" / name / f"out/rlib/{name}.rlib"
        words += ["--extern", f"{name}={own if own.exists() else KIT / f'rlibs/{name}.rlib'}"]
    for folder in sorted((root / "crates").glob("*/out/rlib")):
        words += ["-L", f"dependency={folder}"]
    return words


def stop_on_other_sources(root):
    """Stops where the crates of a checkout aren't these."""
    found = subprocess.run(["diff", "-rq", "-x", "out", ROOT / "crates", root / "crates"], stdout=subprocess.PIPE, text=True)
    if found.returncode:
        raise SystemExit(f"{found.stdout}{root} has other sources")


def compile_proved(to, jobs, over, toolchain):
    """Proves the crate and compiles it to a static library with a toolchain folder: over the libraries that another checkout has
    proved, or over those of this one, which are proved first where they aren't."""
    if over:
        stop_on_other_sources(over)
    else:
        run(["rt", "check", *jobs], cwd=CRATE)
    logic = ["--antt-project", KIT / "rattle/logic/antt-project.json", "--logic-built", KIT / "logic_built"]
    words = [KIT / "bin/rattle", "build", "--crate-name", "ngc_page", "src/lib.rt", "--crate-type", "staticlib", *libraries(over or ROOT), *logic]
    words += [] if over else ["--incremental", "out/incremental"]
    said = run([*words, "--links", "ngc_page=", "--backend", "llvm", "--toolchain", toolchain, *jobs, "-o", to], cwd=CRATE)
    print(re.search(r"^logic=.*$", said, re.M)[0])
