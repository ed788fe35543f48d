"""Compares each call of the page's module with the same command of the program: status, output and errors, byte for byte.

The calls go through the page's own worker, with every option that the page has.
"""
import base64
import json
import random
import re
import subprocess

from browsers import Fault

SETUPS = [("clamped_mill.toml", "tools.toml"), ("named_mill.toml", "tools.toml"), ("small_mill.toml", "tools.toml"), ("bench_mill.toml", "holder_tools.toml")]
VIEWS = ("top", "front", "side", "iso")
CONTROLS = ("linuxcnc", "grbl", "mach3", "fanuc")
DIALECTS = ("linuxcnc_marks.ngc", "linuxcnc_grid.ngc", "linuxcnc_frame.ngc", "slot.ngc", "holes.ngc", "block_delete.ngc")
# What replaces keys of the machine file: in the page, in nanometres, and the same as options of the program.
CHANGES = (
    ({"origins": {"G54": (50000000, 46000000, -70000000)}}, ["--origin", "54=50,46,-70"]),
    ({"origins": {"G54": (0, 0, 0)}}, ["--origin", "54=0,0,0"]),
    ({"origins": {"G54": (61250000, 60000000, -50000000), "G55": (10000000, 20000000, -30000000)}}, ["--origin", "54=61.25,60,-50", "--origin", "55=10,20,-30"]),
    ({"margin": 2000000}, ["--margin", "2"]),
    ({"margin": 0, "travelMargin": 0}, ["--margin", "0", "--travel-margin", "0"]),
    ({"rapids": "free"}, ["--rapids", "free"]),
    ({"origins": {"G54": (50000000, 46000000, -60000000)}, "margin": 123456, "travelMargin": 500001, "rapids": "free"}, ["--origin", "54=50,46,-60", "--margin", "0.123456", "--travel-margin", "0.500001", "--rapids", "free"]),
)
# Command lines that are refused, and one that isn't a line of the program.
REFUSED = (["report", "--margin=two"], ["report", "--margin=100.000001"], ["report", "--margin=1", "--margin=2"], ["certify", "--travel-margin=-1"], ["draw", "--rapids=bent"], ["list", "--origin=54=0,0"], ["list", "--origin=53=0,0,0"],
           ["check", "--origin=54=0,0,0", "--origin=54=1,1,1"], ["report", "--cuts=0"], ["report", "--dialect=pathpilot"], ["show", "--dialect=grbl"], ["nothing"], ["report", "--help"], ["--version"], ["version"], ["help", "report"], ["explain", "304"])
# What GRBL prints for $$, of a small router.
SETTINGS = b"$13=0\n$22=1\n$23=3\n$27=1.000\n$100=250.000\n$101=250.000\n$102=250.000\n$110=500.000\n$111=500.000\n$112=300.000\n" \
    b"$120=10.000\n$121=10.000\n$122=10.000\n$130=200.000\n$131=180.000\n$132=45.000\nok\n"
# A program for another control, and one in our own language.
GRBL = b"G21 G90 G54\nG0 X1 Y1\nM30\n"
SHORT = b"G0 X1\nM2\n"
# More plain lines than are printed.
LOOP = b"#1 = 0\no1 while [#1 LT 60000]\nG0 X1\nG0 X0\n#1 = [#1 + 1]\no1 endwhile\nM2\n"
HELPERS = """
window.unpack = text => Uint8Array.from(atob(text), character => character.charCodeAt(0));
window.pack = bytes => { let text = ''; for (let at = 0; at < bytes.length; at += 30000) text += String.fromCharCode(...bytes.subarray(at, at + 30000)); return btoa(text); };
window.kept = {};
window.commandOf = async (words, changes, names) => {
  const given = Object.fromEntries(Object.entries(names).map(([kind, name]) => [kind, kept[name]]));
  const { status, output, notes } = await ngc.jobs.run('test', 'test', 'command', { words, changes, given });
  return [status, pack(output), pack(notes)];
};
window.outputOf = async (name, names, options) => {
  const { status, output, notes } = await ngc.jobs.run('test', 'test', 'output', { name, given: names.map(it => kept[it]), options });
  return [status, pack(output), pack(notes)];
};
0"""


class Comparison:
    def __init__(self, browser, program, folder):
        self.browser, self.program, self.folder = browser, program, folder
        self.same = self.different = 0
        self.seen = {}
        browser.value(HELPERS)

    def give(self, name, data):
        """Makes a file known to both by its name."""
        (self.folder / name).write_bytes(data)
        self.browser.value(f"kept[{json.dumps(name)}] = unpack('{base64.b64encode(data).decode()}'); 0")

    def compare(self, export, names, options, words):
        """Compares a call with a command, and returns the command's output."""
        # A message on a file begins with its name: these calls name the files by their kinds.
        called = dict(zip(names[1:3], ("machine", "tools"))) if len(names) >= 3 else {}
        return self.compare_call(f"outputOf({json.dumps(export)}, {json.dumps(names)}, {json.dumps(options)})", words, called)

    def compare_command(self, words, files, changes={}, options=()):
        """Compares a command line as the page makes it, with these files by their kinds and what replaces keys of the machine file, with
        the same command of the program."""
        named = [f"--{kind}={name}" for kind, name in files.items()]
        return self.compare_call(f"commandOf({json.dumps(words)}, {json.dumps(changes)}, {json.dumps(files)})", [*words, *options, *named])

    def compare_call(self, call, words, called={}):
        try:
            status, output, errors = self.browser.value(call)
            ours = (status, base64.b64decode(output), base64.b64decode(errors))
        except Fault as fault:
            ours = (None, b"", str(fault).encode())
        made = subprocess.run([self.program, *words], cwd=self.folder, stdin=subprocess.DEVNULL, capture_output=True)
        # The page keeps 65,536 bytes of the errors.
        written = made.stdout
        for name, kind in called.items():
            written = kind.encode() + written[len(name):] if written.startswith(f"{name}:".encode()) else written
            written = written.replace(f'"fact":"reason","text":"{name}:'.encode(), f'"fact":"reason","text":"{kind}:'.encode())
        # Only the program has the second line of a fault of the command line, and of 901.
        said = re.sub(rb"(?m)^(ngc: fault (?:72[1-8]|730|901)\n)ngc: .*\n", rb"\1", made.stderr)
        theirs = (made.returncode, written, said[:1 << 16])
        kind = (words[0], made.returncode)
        self.seen[kind] = self.seen.get(kind, 0) + 1
        self.count(ours == theirs, f"{' '.join(words)}\n  page {ours[0], ours[1][:100], ours[2][:200]}\n  program {theirs[0], theirs[1][:100], theirs[2][:200]}")
        return made.stdout

    def summary(self):
        return ", ".join(f"{command} {status}: {times}" for (command, status), times in sorted(self.seen.items()))

    def count(self, is_same, what):
        self.same += is_same
        self.different += not is_same
        if not is_same:
            print(f"differs: {what}", flush=True)

    def adapt(self, program, control, delete):
        files = ["--program", program, "--machine", "clamped_mill.toml", "--tools", "tools.toml"]
        words = ["adapt", "--from", CONTROLS[control], *files, *["--delete"] * delete]
        self.compare("ngc_adapt", [program, "clamped_mill.toml", "tools.toml"], [control, delete], words)

    def run_job(self, program, machine, tools, has_pulses=False):
        names = [program, machine, tools]
        files = ["--program", program, "--machine", machine, "--tools", tools]
        for every in (0, 1):
            for json_form in (0, 1):
                self.compare("ngc_report", names, [every, json_form], ["report", *files, *["--all"] * every, *["--json"] * json_form])
        for delete in (0, 1):
            off = ["--delete"] * delete
            for view, name in enumerate(VIEWS):
                self.compare("ngc_draw", names, [view, delete], ["draw", *files, "--view", name, *off])
            self.compare("ngc_list", names, [delete], ["list", *files, *off])
        for second in (0, 1):
            certificate = self.compare("ngc_certify", names, [second], ["certify", *files, "--format", str(second + 1)])
        self.give("made.cert", certificate)
        self.compare("ngc_check", [*names, "made.cert"], [], ["check", *files, "--certificate", "made.cert"])
        for delete in (0, 1) if has_pulses else ():
            self.compare("ngc_pulses", [*names, "made.cert"], [delete], ["pulses", *files, "--certificate", "made.cert", *["--delete"] * delete])

    def run_changes(self, program, machine, tools):
        """Each command with other zeros, margins and ways of rapids."""
        files = {"program": program, "machine": machine, "tools": tools}
        for changes, options in CHANGES:
            for words in (["report"], ["report", "--all", "--json"], ["draw", "--view=iso"], ["certify"], ["place", "--json", "--system=55"]):
                self.compare_command(words, files, changes, options)
            # `ngc list` has no margins.
            self.compare_command(["list", "--delete"], files, changes, options[:2 * len(changes.get("origins", ()))])
            certificate = self.compare_command(["certify", "--format=2"], files, changes, options)
            self.give("made.cert", certificate)
            self.compare_command(["check"], {**files, "certificate": "made.cert"}, changes, options)
            if program in ("slot.ngc", "ring.ngc"):
                self.compare_command(["pulses"], {**files, "certificate": "made.cert"}, changes, options)
        # The certificate of the last changes, for the machine file as it is.
        self.compare_command(["check"], {**files, "certificate": "made.cert"})


    def run_dialects(self, program, machine, tools):
        """Each command on a program in the language of each control. `ngc draw` may not take one yet: then both refuse it."""
        files = {"program": program, "machine": machine, "tools": tools}
        for control in CONTROLS:
            changes, options = {"dialect": control}, [f"--dialect={control}"]
            for words in (["report"], ["report", "--all", "--json"], ["list"], ["list", "--delete"], ["draw", "--view=iso"], ["place", "--json"]):
                self.compare_command(words, files, changes, options)
            self.compare_command(["report", "--json"], files, {**changes, "margin": 2000000, "cuts": 64}, ["--margin", "2", "--cuts", "64", *options])
            certificate = self.compare_command(["certify", "--format=2"], files, changes, options)
            self.give("made.cert", certificate)
            self.compare_command(["check"], {**files, "certificate": "made.cert"}, changes, options)
            if program in ("linuxcnc_marks.ngc", "slot.ngc"):
                self.compare_command(["pulses"], {**files, "certificate": "made.cert"}, changes, options)
        # The last certificate for the program in our own language.
        self.compare_command(["check"], {**files, "certificate": "made.cert"})


    def run_map(self, program, machine, tools):
        """The map of what the program leaves of the block of material: at both settings of block delete, with other numbers of cells, other
        zeros and other margins, and in the language of each control."""
        files = {"program": program, "machine": machine, "tools": tools}
        for words in (["draw", "--map"], ["draw", "--map", "--delete"], ["draw", "--map", "--cells=1"], ["draw", "--map", "--cells=20000"], ["draw", "--map", "--cells=4000001"]):
            self.compare_command(words, files)
        for changes, options in CHANGES:
            self.compare_command(["draw", "--map"], files, changes, options)
        for control in CONTROLS:
            self.compare_command(["draw", "--map"], files, {"dialect": control}, [f"--dialect={control}"])

    def run_saved(self, machine, tools):
        """Each kind of file as an editor saves it. The page has no events."""
        files = {"program": "short.ngc", "machine": machine, "tools": tools}
        self.give("short.ngc", SHORT)
        self.give("made.cert", self.compare_command(["certify", "--format=2"], files))
        files["certificate"] = "made.cert"
        for kind, name in files.items():
            for how, data in as_saved((self.folder / name).read_bytes()):
                self.give(f"{how}_{name}", data)
                changed = {**files, kind: f"{how}_{name}"}
                self.compare_command(["check"], changed)
                self.compare_command(["pulses"], changed)
                if kind != "certificate":
                    del changed["certificate"]
                    for words in (["report"], ["report", "--json"], ["certify"], ["list"], ["draw"]):
                        self.compare_command(words, changed)
        for how, data in as_saved(GRBL):
            self.give(f"{how}.gcode", data)
            changed = {"program": f"{how}.gcode", "machine": machine, "tools": tools}
            self.compare_command(["report"], changed, {"dialect": "grbl"}, ["--dialect=grbl"])
            self.compare("ngc_adapt", list(changed.values()), [1, 0], ["adapt", "--from", "grbl", *(f"--{kind}={name}" for kind, name in changed.items())])
        for how, data in as_saved(SETTINGS):
            self.give(f"{how}_settings", data)
            self.compare("ngc_machine", [f"{how}_settings"], [], ["machine", "--grbl", f"{how}_settings"])


def as_saved(data):
    """A text as editors save it: with a byte order mark, with carriage returns, with both, with two marks, and in UTF-16."""
    mark, returned = b"\xef\xbb\xbf", data.replace(b"\n", b"\r\n")
    yield from {"marked": mark + data, "returned": returned, "both": mark + returned, "marked_twice": mark + mark + data}.items()
    yield "little", b"\xff\xfe" + data.decode().encode("utf-16-le")
    yield "big", b"\xfe\xff" + data.decode().encode("utf-16-be")


# Rapids through material that no feed has removed, where the machine file describes it.
THROUGH = b"G21 G90 G17 G54\nT2 M6\nS2000 M3\nG43 H2\nG0 Z20\nX20 Y30\nZ2\nG1 Z-3 F300\nX30\nG0 X60\nZ20\nX80\nZ-1\nZ20\nG28 Z20\nM30\n"


def mutants(files, count):
    """Files with some bytes changed, by a seed, so that each run has the same."""
    chance = random.Random(5)
    for number in range(count):
        name = chance.choice(["slot.ngc", "low_slot.ngc", "facing.ngc", "holes.ngc", "clamped_mill.toml", "tools.toml"])
        data = bytearray(files[name])
        for _ in range(chance.randrange(1, 6)):
            data[chance.randrange(len(data))] = chance.randrange(256) if chance.random() < 0.3 else chance.choice(b"0123456789XYZGFIJ[]#.-/\n")
        yield f"mutant{number}_{name}", bytes(data)


def odd_files():
    yield "empty.ngc", b""
    yield "zero.ngc", bytes(100)
    yield "deep.ngc", b"#1=" + b"[" * 120 + b"1" + b"]" * 120 + b"\nM2\n"
    yield "no_feed.ngc", b"G1 X1"
    yield "bad.toml", b"version = "
    yield "deep.toml", b"version = 1\nx = " + b"[" * 5000 + b"]" * 5000 + b"\n"
    yield "long.toml", b"# " + b"x" * 300000 + b"\n"


def compare_all(comparison, examples, count):
    files = {it.name: it.read_bytes() for it in sorted(examples.iterdir()) if it.suffix in (".ngc", ".toml")}
    more = dict([*odd_files(), *mutants(files, count)])
    for name, data in [*files.items(), *more.items()]:
        comparison.give(name, data)
    for name in files:
        if name.endswith(".ngc"):
            for machine, tools in SETUPS:
                comparison.run_job(name, machine, tools, has_pulses=name in ("slot.ngc", "ring.ngc"))
    stock = files["named_mill.toml"] + b"\n[stock]\nsystem = 1\nlow = [0, 0, -20_000_000]\nhigh = [100_000_000, 60_000_000, 0]\n"
    comparison.give("stock_mill.toml", stock)
    comparison.give("through.ngc", THROUGH)
    for name in ("slot.ngc", "holes.ngc", "plate.ngc", "through.ngc"):
        comparison.run_job(name, "stock_mill.toml", "tools.toml")
        comparison.run_map(name, "stock_mill.toml", "tools.toml")
    comparison.run_map("slot.ngc", "clamped_mill.toml", "tools.toml")
    for name in more:
        program = name if name.endswith(".ngc") else "slot.ngc"
        tools = name if name.endswith("tools.toml") else "tools.toml"
        machine = name if name.endswith(".toml") and tools != name else "clamped_mill.toml"
        comparison.run_job(program, machine, tools)
    for name in ("slot.ngc", "low_slot.ngc", "holes.ngc", "facing.ngc", "block_delete.ngc"):
        for machine, tools in SETUPS:
            comparison.run_changes(name, machine, tools)
    for file in sorted((examples / "cam").iterdir()):
        comparison.give(file.name, file.read_bytes())
    for name in (*DIALECTS, *(it.name for it in sorted((examples / "cam").iterdir())), *(it for it in more if it.endswith(".ngc"))):
        comparison.run_dialects(name, "small_mill.toml", "tools.toml")
    for words in REFUSED:
        reads = words[0] in ("report", "certify", "draw", "list", "check") and words[-1] != "--help"
        files = {"program": "slot.ngc", "machine": "clamped_mill.toml", "tools": "tools.toml", **({"certificate": "made.cert"} if words[0] == "check" else {})}
        comparison.compare_command(words, files if reads else {})
    comparison.give("loop.ngc", LOOP)
    for name in (*DIALECTS, "loop.ngc", *(it.name for it in sorted((examples / "cam").iterdir()))):
        for control in range(4):
            for delete in (0, 1):
                comparison.adapt(name, control, delete)
    for name, data in (("settings", SETTINGS), ("no_settings", b"$100=\n"), ("short", SETTINGS[:60])):
        comparison.give(name, data)
        comparison.compare("ngc_machine", [name], [], ["machine", "--grbl", name])
    for machine, tools in SETUPS:
        comparison.compare("ngc_show", [machine, tools], [], ["show", "--machine", machine, "--tools", tools])
    comparison.run_saved("clamped_mill.toml", "tools.toml")
    for number in range(1, 1000):
        comparison.compare("ngc_explain", [], [number], ["explain", str(number)])
