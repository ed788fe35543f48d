"""Checks of the page dist/ngc.html in a browser: what it shows, saves and remembers, and who can use it.

Each check has a sentence that says what is expected. Expected bytes are those that the program writes; expected sentences are worked out
from docs/FAULTS.md and docs/REPORTS.md. The checks wait for conditions, and never for a time.
"""
import base64
import gzip
import json
import re
import subprocess
import time
import zlib
from pathlib import Path

from access_checks import access, contrast, keyboard, phone
from browsers import Chromium, Fault
from dialect_checks import DIALECT_GROUPS
from job_checks import JOB_GROUPS
from part_checks import PART_GROUPS, STOCK
from wasm_changes import memory_of, with_little_stack, with_most_memory

# Nothing runs, and each result belongs to the files in use.
SETTLED = """(() => {
  const { store: { state }, keyOf, jobs } = ngc;
  const isReady = slot => { const it = state.slots[slot]; return it.key === keyOf[slot](state) && ['done', 'failed'].includes(it.status); };
  return ['report', 'path', 'scene'].every(isReady) && (state.text !== null || isReady('index')) && (!state.files.certificate || isReady('certificate'))
    && state.programs.every(it => it.verdict) && jobs.isIdle;
})()"""
# The page has drawn what it knows.
DRAWN = "new Promise(done => requestAnimationFrame(() => requestAnimationFrame(() => setTimeout(done, 0)))).then(() => 0)"
SETTINGS = "$13=0\n$22=1\n$23=3\n$27=1.000\n$100=250.000\n$101=250.000\n$102=250.000\n$110=500.000\n$111=500.000\n$112=300.000\n" \
    "$120=10.000\n$121=10.000\n$122=10.000\n$130=200.000\n$131=180.000\n$132=45.000\nok\n"
TOOL = "G21 G90 G17 G54\nT2 M6\nS2000 M3\nG43 H2\nG0 Z20\nX20 Y30\n"


class Page:
    """The page in a browser, with what a reader sees and does."""

    def __init__(self, browser, file, program, examples, folder, downloads):
        self.browser, self.file, self.program, self.examples, self.folder, self.downloads = browser, file, program, examples, folder, downloads
        self.module = gzip.decompress(base64.b64decode(re.search(rb'id="module">(.*?)</script>', file.read_bytes(), re.S)[1]))
        self.value, self.wait, self.shows_picture = browser.value, browser.wait, True

    def open(self, shows_picture=None):
        if shows_picture is not None:
            self.shows_picture = shows_picture
        # An edit that isn't saved would ask whether the page may go.
        if self.value("location.protocol === 'file:' && !!window.ngc?.jobs"):
            self.do("ngc.files.useExample('slot.ngc')")
        self.browser.open(self.file)
        self.settle()
        self.show_picture(self.shows_picture)

    def show_picture(self, is_on):
        """Without a graphics card a picture takes a while, so it is shown only where it is looked at."""
        self.shows_picture = is_on
        self.value(f"document.getElementById('view').style.display = '{'' if is_on else 'none'}'; 0")

    def settle(self, seconds=120):
        self.wait(SETTLED, seconds)
        self.value(DRAWN)
        self.wait(SETTLED, seconds)

    def do(self, script, seconds=120):
        self.value(f"{script}; 0")
        self.settle(seconds)

    def text(self, name):
        # A number and its unit aren't broken.
        return self.value(f"document.getElementById('{name}').textContent").replace("\u00a0", " ")

    @property
    def title(self):
        return self.text("verdict-title")

    @property
    def notices(self):
        return self.text("notices")

    def forget_notices(self):
        self.value("ngc.store.dispatch({ type: 'set', values: { notices: [] } }); 0")

    def example(self, name):
        self.do(f"ngc.files.useExampleMachine(); ngc.actions.example({json.dumps(name)})")

    def give(self, files, folders=0):
        """Gives files to the page, as a drop does."""
        made = ", ".join(f"new File([{json.dumps(text)}], {json.dumps(name)})" for name, text in files.items())
        self.value(f"ngc.files.take({{ files: [{made}], folders: {folders}, unread: [], isCut: false }}).then(() => 0)")
        self.settle()

    def read(self, name):
        return (self.examples / name).read_text()

    def edit(self, line, text):
        self.value("ngc.actions.tab('program'); 0")
        self.value(f"ngc.parts.editor.edit({line}, 0); document.activeElement.value = {json.dumps(text)}; document.activeElement.oninput(); 0")

    def lines(self, *numbers):
        return self.value(f"{list(numbers)}.map(it => ngc.store.state.text.line(it - 1))")

    def native(self, *words, files=("low_slot.ngc", "named_mill.toml", "tools.toml")):
        given = [it for option, name in zip(("--program", "--machine", "--tools"), files) if name for it in (option, str(self.examples / name))]
        return subprocess.run([self.program, words[0], *given, *words[1:]], cwd=self.folder, stdin=subprocess.DEVNULL, capture_output=True)

    def use_module(self, module):
        """Lets the page's workers use another module, which is compiled once."""
        name = zlib.crc32(module)
        if not self.value(f"!!(window.modules ??= {{}})[{name}]"):
            data = base64.b64encode(module).decode()
            self.value(f"WebAssembly.compile(Uint8Array.from(atob('{data}'), it => it.charCodeAt(0))).then(it => {{ modules[{name}] = it; }}).then(() => 0)")
        self.value(f"ngc.jobs.useModule(modules[{name}]); 0")


# ---- verdicts


# What is dropped with the example machine, how the sentence begins, and what the detail has.
FAULTS = {
    "a division by zero (102, in 311)": ("G0 X[1/0]\nM2\n", "Line 1 is refused: this line divides by zero.", "Change the divisor."),
    "a word that is written wrong (113)": ("G0 X1.2.3\nM2\n", "Line 1 can't be read: this word or setting is written wrong.", "Correct its number or its value."),
    "no end (120)": ("G21\n", "The program has no end.", "Write M2 or M30"),
    "a missing second % (121)": ("%\nG21\nM2\n", "The program can't be read: the second % is missing.", "Write % as the last line."),
    "too many lines (122)": ("\n" * 100_001 + "M2\n", "The program has more than 100,000 lines.", "Split it"),
    "a computed number that is too large (101)": ("G21\nG0 X[1000000000+1]\nM2\n", "Line 2 is refused: a computed value is too large, or this length is too great.", "Look for a wrong factor or parameter."),
    "a character that doesn't belong there (112)": ("G21\nG0 X1 @\nM2\n", "Line 2 can't be read: this character doesn't belong here.", "Take it out."),
    "a comment without end (116)": ("G0 X12(b\nM2\n", "Line 1 can't be read: this comment has no end.", "Write ) on the same line."),
    "an unknown code (204)": ("G0 G5 X1\nM2\n", "Line 1 is refused: the code G5 is unknown.", "Take it out"),
    "a fourth axis (205)": ("G0 A90\nM2\n", "Line 1 is refused: this code or axis isn't supported.", "Program three axes"),
    "R below the bottom, or a depth above 0 in G91 (231)": ("G91 G81 X1 Z5 R-10 F60\nM2\n", "Line 1 is refused: R is below the bottom of the hole, along the axis across the selected plane, or in G91 the depth of this hole is above 0.", "Or: write it below 0, as in Z-5."),
    "a peck that is too small (233)": ("G83 X1 Z-15 R-10 Q0.0004 F60\nM2\n", "Line 1 is refused: the depth of a peck, Q, isn't above 0, or the depth of a peck, Q, is too small for this hole.", "Or: write a greater one."),
    "an arc with a word of the third axis only (241)": ("G2 Z-1 I5 F60\nM2\n", "Line 1 is refused: this arc has no axis word, or this arc has a word of the third axis only.", "Or: write an axis word of its plane too."),
    "a word without a code (207)": ("G21 G4 P1 K2\nM2\n", "Line 1 is refused: nothing uses the word K.", "Write the code that is missing"),
    "a tool that isn't there (222)": ("T9 M6\nM2\n", "Line 1 is refused: tool 9 isn't in the tool table.", "Drop its table here, or add the tool to it."),
    "no feed (252)": ("G21\nG1 X5\nM2\n", "Line 2 is refused: no feed above 0 is set for this motion.", "Write F with a feed rate"),
    "an arc with two radii (243)": ("G21 F100\nG0 X5 Y5\nG2 X15.003 Y5 I5 J0\nM2\n", "Line 3 is refused: the radius is 5 mm at the start and 5.003 mm at the end", ""),
    "a point too far (221)": ("G21\nG0 X1270\nM2\n", "Line 2 is refused: X is at 1270 mm, but the limit is 1000 mm either way.", ""),
    "a motion beyond the travel": ("G21 G53 G0 X200\nG53 X310\nM2\n", "Line 2 leaves the travel at X+ by 10 mm: move it 10 mm toward X\u2212.", ""),
    "a motion below the travel": ("G21 G53 G0 Z-50\nG53 Z-101\nM2\n", "Line 2 leaves the travel at Z\u2212 by 1 mm: move it 1 mm toward Z+.", ""),
    "a motion into a clamp": ("G21 G90 G53 G0 X45 Y90\nG53 Z-70\nM2\n", "Line 2 hits the left clamp: raise it by 10 mm, or move it 10 mm toward Y+ or Y\u2212.", "No tool meets it on the way."),
    "a motion that is longer than the travel": ("G21 G53 G0 X310\nM2\n", "Line 1 leaves the travel at X+ by 10 mm: it is too long for the travel.", ""),
    "an empty file": ("", "The program has no end.", ""),
}


def verdicts(checks, page):
    page.open()
    checks.begins("the page opens with slot.ngc, which fits", page.title, "Fits: 72 mm left toward Z\u2212, 6 mm from the front jaw of the vise, 0:35.")
    checks.equal("it says that the machine and the tools are examples", page.text("verdict-example"), "Example machine and tools, not yours")
    page.example("low_slot.ngc")
    checks.equal("low_slot.ngc is refused by a sentence with a way out", page.title, "Line 15 hits the left clamp: raise it by 5 mm, or move it 14 mm toward X+ or Y+.")
    checks.equal("the line is marked with a note", page.value("document.querySelector('.row.faulty[data-line=\"15\"] .note').textContent"), "hits the left clamp: raise by 5 mm")
    checks.equal("the line is chosen", page.value("ngc.store.state.line"), 15)
    checks.equal("the report lists every place", page.value("[...document.querySelectorAll('#report .places li')].map(it => it.textContent).join('|')"),
                 "line 15 hits the left clamp: raise by 5 mm|line 16 hits the left clamp: raise by 5 mm")
    checks.begins("the fault is explained", page.text("explained"), "Fault 304")
    page.do("[...document.querySelectorAll('#verdict-actions button')].find(it => it.textContent === 'What is fault 304?').click()")
    checks.equal("a button of the verdict goes there", page.value("[ngc.store.state.tab, document.activeElement.id]"), ["report", "explained"])
    page.value("ngc.actions.tab('program'); 0")
    touch = page.value("ngc.contactNow(ngc.store.state).tip.map(it => Math.round(it * 1000) / 1000)")
    checks.equal("the tool touches the clamp 4 mm before its side", touch, [64, 90, -65])
    # Line 15 goes from X 70 to X 50; the clamp ends at X 60, and the tool's radius is 4 mm.
    page.do("ngc.store.dispatch({ type: 'set', values: { unit: 'in' } })")
    checks.begins("in inches 5 mm is rounded up to 0.1969 in", page.title, "Line 15 hits the left clamp: raise it by 0.1969 in, or move it 0.5512 in toward X+ or Y+.")
    page.example("slot.ngc")
    checks.begins("in inches 72 mm that are left are rounded down to 2.8346 in", page.title, "Fits: 2.8346 in left toward Z\u2212, 0.2362 in from")
    page.do("ngc.store.dispatch({ type: 'set', values: { unit: 'mm' } })")
    for what, (text, title, detail) in FAULTS.items():
        page.give({"fault.ngc": text})
        checks.begins(f"{what}: {title}", page.title, title)
        checks.has("  its detail says what to do", page.text("verdict-detail"), detail)
        checks.expect("  and nothing about whose rule it is", "our own" not in page.text("verdict"), page.text("verdict"))
    page.give({"wrapped.ngc": "G0 X[1/0]\nM2\n"})
    checks.begins("of `fault 311 setting off fault 102` the last number is explained", page.text("explained"), "Fault 102")
    checks.has("a refused program can be rewritten from the verdict", page.text("verdict-actions"), "Rewrite for this control", "What is fault 102?")
    page.give({"many.ngc": "G21\nG0 X1.2.3\nG1 X5\n(ok)\nG0 G5 X1\nM2\n"})
    checks.equal("all faults of a refused program are marked", page.value("[...document.querySelectorAll('.row.faulty')].map(it => it.dataset.line).join()"), "2,3,5")
    checks.equal("each with its own words", page.value("[...document.querySelectorAll('.row.faulty .note')].map(it => it.textContent).join('|')"), "This word or setting is written wrong.|No feed above 0 is set for this motion.|The code G5 is unknown.")
    checks.equal("and the word that is meant is underlined, where it is known", page.value("[...document.querySelectorAll('.row.faulty u')].map(it => it.textContent).join('|')"), "X1.2.3|G5")
    page.example("slot.ngc")
    bare = page.read("named_mill.toml").split("[[fixture]]")[0]
    page.give({"start.toml": bare + "[[fixture]]\nlow = [-5000000, -5000000, -5000000]\nhigh = [5000000, 5000000, 5000000]\n"})
    checks.begins("a start point inside a clamp", page.title, "The start point is inside fixture 0.")
    page.give({"bare.toml": bare})
    checks.equal("a machine without fixtures says that only the travel was checked", page.text("verdict-detail"), "The machine file describes no fixtures: only the travel was checked.")
    page.give({"wrong.toml": "version = 1\nstep = 400\n"})
    checks.begins("a refused machine file has the sentence of `ngc show`", page.title, "The machine file can't be used. ")
    page.do("ngc.files.useExampleMachine()")
    page.give({"tools.toml": "[[tool]]\nnumber = 0\n"})
    checks.begins("a refused tool table", page.title, "The tool table can't be used. ")
    page.do("ngc.files.useExampleMachine()")
    page.give({"flat.toml": page.read("named_mill.toml") + "\n[stock]\nlow = [0, 0, 0]\nhigh = [1, 1, 0]\n"})
    checks.begins("a block of material without height (267)", page.title, "The machine file can't be used. The key stock is refused.")
    page.example("slot.ngc")
    page.give({"warned.ngc": "G21 T2 M6\nG43 H2\nG0 Z0\nG1 X10 F100\nM2\n"})
    cards = page.value("[...document.querySelectorAll('#warnings .card')].map(it => it.textContent)")
    checks.expect("a feed with the spindle off is a card that names its line", any("spindle off" in it and it.endswith(" line 4") for it in cards), cards)
    page.do("document.querySelector('#warnings .card').click()")
    checks.equal("the card goes to the line", page.value("ngc.store.state.line"), 4)
    checks.has("a note beside the line has the warning", page.value("document.querySelector('.row.warned .note').textContent"), "spindle off")
    # The text of the report says more than its JSON: what to do, and of an origin where it is.
    warned = "G21 G90 G54\nT2 M6\nS1000 M3\nG0 X20 Y30\nG1 Z-1 F100\n/G1 Z-2\nG0 Z0\nG10 L2 P1 X410 Y0 Z0\nG0 X-200 Y20\nM2\n"
    page.give({"warned.ngc": warned})
    (page.folder / "warned.ngc").write_text(warned)
    made = page.native("report", files=(page.folder / "warned.ngc", "named_mill.toml", "tools.toml")).stdout.decode().split("With block delete on:")[0]
    lines = [it[len("warning: "):].rstrip(".") for it in made.splitlines() if it.startswith("warning: ")]
    wanted = [re.sub(r": (\d+), the first in line \d+(?=: |$)", "", it) for it in lines]
    cards = page.value("[...document.querySelectorAll('#warnings .card')].map(it => it.textContent)")
    short = [re.sub(r"^!Warning: | line \d+$| \(\d+\u00d7\)(?= line|$)", "", it) for it in cards]
    checks.expect("there are warnings with something to do, and one about an origin", any("write " in it for it in wanted) and any("puts the origin" in it for it in wanted), wanted)
    checks.equal("each card says what the text of `ngc report` says", [it[:1].lower() + it[1:] for it in short], [it[:1].lower() + it[1:] for it in wanted])
    page.give({"bare.ngc": "G21 G90\nG0 X10\nZ-5\nM2\n"})
    checks.has("motions without a tool are said to be tested by the nose alone", page.text("verdict-detail"), "only the spindle nose was tested")
    page.example("plate.ngc")
    page.example("holes.ngc")
    figures = json.loads(page.native("report", "--json", files=("holes.ngc", "named_mill.toml", "tools.toml")).stdout)
    drill = next(it for it in figures if it["fact"] == "figures")
    row = page.value("[...document.querySelectorAll('#report table')].find(it => it.caption.textContent === 'Figures of each tool').tBodies[0].rows[0].textContent")
    checks.has("the report has each tool's figures", row, "T3", f"{drill['feeds'][0] // 10**6} to {drill['feeds'][1] // 10**6} mm/min", f"{drill['plunge'] // 10**6} mm", str(drill["holes"]), "2:04")
    # 1,244,684 ticks of 10,000 a second are 2 minutes and 4 seconds.
    # Tool 3 feeds in line 9 by the offset of tool 2, which G43 set in line 4.
    page.give({"offset.ngc": "G21 G90 G17 G54\nT2 M6\nS2000 M3\nG43 H2\nG0 Z20\nT3 M6\nS2000 M3\nG0 X20 Y30\nG1 Z5 F100\nG0 Z20\nM2\n"})
    lowest = "[...document.querySelectorAll('{} tr')].filter(it => it.closest('table').caption.textContent.startsWith('Lowest')).map(it => [...it.cells].map(cell => cell.textContent).join()).join(' ')"
    checks.has("a lowest height by the offset of another tool says whose", page.value(lowest.format("#report")), "G54,T2,20 mm,5", "G54,T3, by the offset of tool 2,5 mm,9")
    page.value("ngc.parts.setupSheet.build(); 0")
    checks.has("on the setup sheet too", page.value(lowest.format("#sheet")), "G54,T2,20,5", "G54,T3, by the offset of tool 2,5,9")
    page.example("slot.ngc")


def block_delete(checks, page):
    page.example("low_slot.ngc")
    tabs = "[...document.querySelectorAll('#settings [role=tab]')].map(it => it.getAttribute('aria-label')).join()"
    checks.equal("both settings have a tab", page.value(tabs), "Block delete off: does not fit,Block delete on: does not fit")
    page.do("document.querySelectorAll('#settings [role=tab]')[1].click()")
    checks.begins("the other setting has its own verdict", page.title, "Line 15 hits the left clamp")
    count = page.value("ngc.pathNow(ngc.store.state).count")
    listed = page.native("list", "--delete").stdout
    checks.equal("the picture is that of the setting", count, listed.count(b"\n"))
    page.give({"part.ngc": TOOL + "Z2\nM9\nG28 Z20\nM30\n"})
    checks.equal("block delete is off for the next program", page.value("ngc.store.state.blockDelete"), False)
    checks.expect("a program without / lines has no tabs", page.value("document.getElementById('settings').hidden"))
    page.give({"one.ngc": TOOL + "/Z-20\n/X-10\nG0 Z20\nG28 Z20\nM30\n"})
    checks.equal("a program that fits at one setting says so at each", page.value(tabs).count("does not fit"), 1)
    page.do("document.querySelectorAll('#settings [role=tab]')[1].click()")
    checks.begins("at the setting that fits the verdict is good", page.title, "Fits")
    # Of faults the program's report has the first setting only, and the list of all faults is for both together.
    page.give({"faulty.ngc": "G21\n/G1 X5\nG5\nX4\nM2\n"})
    checks.begins("the first setting has its fault", page.title, "Line 2 is refused: no feed above 0 is set for this motion.")
    page.do("ngc.actions.setBlockDelete(true)")
    checks.begins("of the other one nothing is claimed", page.title, "Whether it fits at this setting of block delete isn't known yet.")


# ---- editing


def editing(checks, page):
    page.example("low_slot.ngc")
    page.edit(14, "G0 Z10")
    # The text is painted with the next frame.
    now = page.value("new Promise(done => requestAnimationFrame(() => done([document.getElementById('verdict-title').textContent, document.querySelectorAll('.note').length, document.getElementById('view').dataset.waiting, document.getElementById('facts').className])))")
    checks.equal("at the first key the verdict, the notes, the path and the travel are out of date", now, ["Checking\u2026", 0, "true", "stale"])
    checks.equal("and the path can't be picked", page.value("ngc.pathNow(ngc.store.state)"), None)
    page.settle()
    checks.begins("the check runs again after the edit", page.title, "Fits: 72 mm left toward Z\u2212, 0 mm from the left clamp")
    checks.has("where nothing is left to a fixture the verdict asks for care", page.value("document.getElementById('verdict').className") + page.text("verdict-detail"), "good careful", "Nothing is left to the left clamp: to keep a distance, give a margin in the tab Machine.")
    checks.equal("an edited program says so", page.value("document.querySelector('.chip-program .badge').textContent"), "edited")
    page.value("ngc.parts.editor.undo(false); 0")
    page.settle()
    checks.begins("undo brings back text and verdict", page.title, "Line 15 hits")
    page.value("ngc.parts.editor.undo(true); 0")
    page.settle()
    checks.begins("redo", page.title, "Fits")
    wanted = re.sub(r"(?m)^G0 Z5 .*$", "G0 Z10", page.read("low_slot.ngc"))
    checks.equal("only the edited line has other bytes", page.value("ngc.store.state.files.program.blob().text()"), wanted)
    page.value("ngc.parts.editor.edit(15, 2); 0")
    page.browser.press("Enter")
    page.settle()
    first, second = page.lines(15, 16)
    checks.expect("Enter splits a line", first == "X0" and second.startswith(" Y30"), (first, second))
    page.browser.press("Home")
    page.browser.press("Backspace")
    page.settle()
    checks.begins("Backspace joins it with the line before", page.lines(15)[0], "X0 Y30")
    page.browser.press("Escape")
    page.value("ngc.parts.editor.choose(3); ngc.parts.editor.choose(5, true); document.getElementById('editor').focus(); 0")
    page.browser.press("Delete")
    page.settle()
    checks.equal("Delete takes the chosen lines away", page.lines(3)[0], "G43 H2")
    page.browser.press("z", control=True)
    page.settle()
    checks.equal("Ctrl+Z brings them back", page.lines(3, 4), ["G21 G90 G17 G54", "T2 M6"])
    page.give({"returns.ngc": "G21\r\nG0 X1\r\nM2\r\n"})
    page.edit(2, "G0 X2")
    page.settle()
    checks.equal("lines that end with CR LF keep their ends", page.value("ngc.store.state.files.program.blob().text()"), "G21\r\nG0 X2\r\nM2\r\n")
    data = base64.b64encode(b"G21\n(Fr\xe4ser)\nG0 X1\nM2\n").decode()
    page.value(f"ngc.files.take({{ files: [new File([Uint8Array.from(atob('{data}'), it => it.charCodeAt(0))], 'latin.ngc')], folders: 0, unread: [], isCut: false }}).then(() => 0)")
    page.settle()
    page.edit(3, "G0 X2")
    page.settle()
    bytes_now = page.value("ngc.store.state.files.program.blob().arrayBuffer().then(it => [...new Uint8Array(it)])")
    checks.equal("lines that aren't UTF-8 keep their bytes", bytes(bytes_now), b"G21\n(Fr\xe4ser)\nG0 X2\nM2\n")
    page.give({"long.ngc": "(" + "x" * 6000 + ")\nM2\n"})
    page.value("ngc.parts.editor.edit(1, 0); 0")
    checks.has("a line too long to edit says so", page.notices, "Line 1 has 6.0 kB: too long to edit here.")
    checks.has("and is shown with its length", page.value("document.querySelector('.row .cut').textContent"), "6.0 kB")
    checks.expect("a saved or untouched program may be left", not page.value("ngc.saving.hasUnsavedEdits"))
    page.edit(2, "M30")
    leaves = "!window.dispatchEvent(new Event('beforeunload', { cancelable: true }))"
    checks.expect("closing the page with an edit that isn't saved asks first", page.value(leaves))
    page.value("ngc.actions.save('program'); 0")
    checks.expect("after it is saved closing doesn't ask", not page.value(leaves))
    saved = wait_for(page.downloads / "long.ngc")
    checks.expect("the saved program has the edit", saved.endswith(b"M30\n") and len(saved) == 6007, len(saved))
    page.example("slot.ngc")


def wait_for(file, size=None, seconds=20):
    """The bytes of a file that the browser saves."""
    until = time.time() + seconds
    while not (file.exists() and file.stat().st_size and (size is None or file.stat().st_size == size)):
        if time.time() > until:
            raise Fault(f"{file.name} isn't saved")
        time.sleep(0.02)
    data = file.read_bytes()
    file.unlink()
    return data


# ---- files


SLOW_FILE = """(name, text, promise) => { const file = new File([text], name); file.arrayBuffer = () => promise.then(() => new TextEncoder().encode(text).buffer); return file; }"""
DROP = """(files) => { const transfer = new DataTransfer(); for (const [name, text] of files) transfer.items.add(new File([text], name));
  for (const type of ['dragenter', 'dragover', 'drop']) document.body.dispatchEvent(new DragEvent(type, { dataTransfer: transfer, bubbles: true, cancelable: true })); }"""


def races(checks, page):
    page.example("slot.ngc")
    page.do("for (const name of ['slot.ngc', 'low_slot.ngc', 'holes.ngc', 'low_slot.ngc', 'slot.ngc', 'ring.ngc']) ngc.actions.example(name)")
    checks.begins("of six programs in a row the last has the verdict", page.value("ngc.store.state.files.program.name") + " " + page.title, "ring.ngc Fits")
    page.value(f"window.slow = {SLOW_FILE}; window.gate = new Promise(open => {{ window.openGate = open; }}); window.taken = ngc.files.take({{ files: [slow('slow.ngc', 'G21\\nM2\\n', gate)], folders: 0, unread: [], isCut: false }}); 0")
    page.give({"fast.ngc": "G21 G0 X1\nM2\n"})
    page.value("openGate(); taken.then(() => 0)")
    page.settle()
    checks.equal("a drop that is still being read loses against a later one", page.value("ngc.store.state.files.program.name"), "fast.ngc")
    page.value("window.gate = new Promise(open => { window.openGate = open; }); window.taken = ngc.files.take(gate.then(() => ({ files: [new File(['G21\\nM2\\n'], 'slow.ngc')], folders: 1, unread: [], isCut: false }))); 0")
    page.give({"fast.ngc": "G21 G0 X2\nM2\n"})
    page.value("openGate(); taken.then(() => 0)")
    page.settle()
    checks.equal("so does a folder", page.lines(1)[0], "G21 G0 X2")
    # The settings are still being converted when the machine file is dropped.
    page.value(f"ngc.files.take({{ files: [new File([{json.dumps(SETTINGS)}], 'dump.txt')], folders: 0, unread: [], isCut: false }}); ngc.files.take({{ files: [new File([{json.dumps(page.read('bench_mill.toml'))}], 'mine.toml')], folders: 0, unread: [], isCut: false }}).then(() => 0)")
    page.settle()
    checks.equal("so do GRBL's settings", page.value("ngc.store.state.files.machine.name"), "mine.toml")
    page.example("slot.ngc")
    page.value("ngc.actions.example('slot.ngc'); ngc.files.use('program', 'long.ngc', new TextEncoder().encode('G21\\n' + 'G0 X1\\nX2\\n'.repeat(45000) + 'M2\\n'), 'user'); 0")
    page.wait("ngc.jobs.isBusy('verdict')", 30)
    page.value("ngc.actions.stop(); 0")
    page.settle()
    checks.equal("a long check can be stopped", page.title, "Stopped: there is no verdict.")
    checks.equal("then nothing of an earlier verdict is shown", page.value("document.getElementById('bars').children.length + document.getElementById('metrics').children.length + document.querySelectorAll('.note').length"), 0)
    page.value("[...document.querySelectorAll('#verdict-actions button')].find(it => it.textContent === 'Check again').click(); 0")
    checks.begins("it can be checked again", page.title, "Checking")
    page.example("slot.ngc")
    checks.begins("the next program has its verdict", page.title, "Fits")


def file_kinds(checks, page):
    page.example("slot.ngc")
    page.value(f"({DROP})({json.dumps([['mine.txt', page.read('bench_mill.toml')], ['other.txt', page.read('holder_tools.toml')], ['part.txt', page.read('boss.ngc')]])}); 0")
    page.wait("ngc.store.state.files.program.name === 'part.txt'")
    page.settle()
    names = "['program', 'machine', 'tools'].map(it => ngc.store.state.files[it].name).join()"
    checks.equal("dropped files are sorted by their content", page.value(names), "part.txt,mine.txt,other.txt")
    checks.expect("the cover of the drop is gone", page.value("document.getElementById('drop').hidden"))
    checks.expect("the sign of the example machine is gone", page.value("document.getElementById('verdict-example').hidden"))
    made = page.native("report", "--json", files=("boss.ngc", "bench_mill.toml", "holder_tools.toml"))
    checks.equal("the facts are those of `ngc report --json`", page.value("JSON.stringify(ngc.current(ngc.store.state, 'report').facts)"), json.dumps(json.loads(made.stdout), separators=(",", ":"), ensure_ascii=False))
    certificate = page.native("certify", "--format", "2", files=("slot.ngc", "named_mill.toml", "tools.toml")).stdout.decode()
    page.example("slot.ngc")
    page.give({"slot.cert": certificate})
    about = "document.querySelector('.chip.certificate .about').textContent"
    checks.equal("a certificate of these files is accepted", page.value(about), "accepted for these files")
    # Read before the browser's next task, in which the new verdict may come.
    at_once = f"(async () => {{ ngc.parts.editor.edit(12, 0); document.activeElement.value = 'X79 F300'; document.activeElement.oninput(); for (let k = 0; k < 20; k++) await 0; return {about}; }})()"
    checks.equal("its verdict is gone at the first key of an edit", page.value(at_once), "checking\u2026")
    page.settle()
    checks.begins("and it is refused for the edited program", page.value(about), "refused, fault 3")
    page.give({"bench.toml": page.read("bench_mill.toml")})
    checks.begins("it is checked again on another machine", page.value(about), "refused, fault")
    page.do("ngc.files.useExampleMachine(); ngc.actions.example('slot.ngc')")
    checks.equal("and accepted again for its own files", page.value(about), "accepted for these files")
    page.give({"saved.cert": "\ufeff" + certificate.replace("\n", "\r\n")})
    checks.equal("so it is with a byte order mark and CR LF, as Windows' editors save it", page.value(about), "accepted for these files")
    page.value("ngc.actions.forgetCertificate(); 0")
    page.give({"cut.cert": certificate[:-20]})
    checks.equal("a certificate that was cut short is refused with its fault", page.value(about), "refused, fault 301")
    cards = "[...document.querySelectorAll('#warnings .card')].map(it => it.textContent).join('|')"
    checks.begins("a card says why, and what to do", page.value(cards), "!Warning: The certificate cut.cert is refused: it is damaged or cut off (fault 301). Make it again by Save, Certificate.")
    page.give({"other.cert": "ngc-certificate 1\nsetting off 0\nsetting on 0\nend\n"})
    checks.has("so it does for the certificate of another program", page.value(cards), "The certificate other.cert is refused: it has other motions than the program (fault 312).")
    page.value("ngc.actions.forgetCertificate(); 0")
    checks.equal("and without the certificate there is no card", page.value(f"new Promise(done => requestAnimationFrame(() => done({cards})))"), "")
    page.value("ngc.actions.forgetCertificate(); 0")
    page.give({"mine.toml": page.read("bench_mill.toml")})
    page.do("ngc.actions.example('slot.ngc')")
    checks.equal("an example leaves the user's machine in use", page.value("ngc.store.state.files.machine.name"), "mine.toml")
    checks.has("and says so", page.notices, "Your machine and tools are still in use")
    page.do("ngc.files.useExampleMachine()")
    page.forget_notices()
    page.give({"dump.txt": SETTINGS})
    page.wait("ngc.store.state.files.machine.name === 'dump.toml'")
    page.settle()
    made = subprocess.run([page.program, "machine", "--grbl", "/dev/stdin"], input=SETTINGS.encode(), capture_output=True).stdout
    checks.equal("GRBL's settings become the machine file of `ngc machine --grbl`", page.value("ngc.store.state.files.machine.blob().text()"), made.decode())
    checks.has("which can be saved", page.notices, "Save it")
    page.do("ngc.files.useExampleMachine()")
    page.forget_notices()
    page.give({}, folders=1)
    checks.has("an empty folder is named", page.notices, "no files in this folder")
    data = "new File([new Uint8Array([80, 75, 3, 4, 0, 0])], 'a.zip')"
    page.value(f"ngc.files.take({{ files: [{data}], folders: 0, unread: ['locked'], isCut: false }}).then(() => 0)")
    checks.has("another file is named and left alone", page.notices, "a.zip: not a program", "can't read the folder locked")
    page.forget_notices()
    page.give({"one.ngc": page.read("slot.ngc"), "two.ngc": page.read("low_slot.ngc"), "three.ngc": page.read("ring.ngc"), "m1.toml": page.read("named_mill.toml"), "m2.toml": page.read("bench_mill.toml")})
    checks.equal("several programs each have a verdict", page.value("ngc.store.state.programs.map(it => it.verdict).join()"), "fits,refused,fits")
    checks.has("of two machine files one is used, and the other is named", page.notices, "Of 2 machine files m1.toml is in use, not m2.toml.")
    page.give({"bench.toml": page.read("bench_mill.toml")})
    checks.equal("another machine gives all of them new verdicts", page.value("ngc.store.state.programs.map(it => it.verdict).join()"), "refused,refused,refused")
    page.do("ngc.files.useExampleMachine()")
    page.do("document.querySelector('.chip-program select').value = '1'; document.querySelector('.chip-program select').onchange({ target: document.querySelector('.chip-program select') })")
    checks.begins("another one can be chosen", page.value("ngc.store.state.files.program.name") + " " + page.title, "two.ngc Line 15 hits")
    page.example("slot.ngc")
    chosen = page.folder / "chosen.ngc"
    chosen.write_text("G21 G0 X3\nM2\n")
    page.browser.choose("#choose", chosen)
    page.wait("ngc.store.state.files.program.name === 'chosen.ngc'")
    page.settle()
    chosen.write_text("G21 G0 X4\nM2\n")
    page.browser.choose("#choose", chosen)
    page.wait("ngc.store.state.text?.line(0) === 'G21 G0 X4'")
    page.settle()
    checks.equal("a file is chosen, and chosen again after it was edited", page.lines(1)[0], "G21 G0 X4")
    if isinstance(page.browser, Chromium):
        real_drops(checks, page)
    page.give({"refused.ngc": "G21\nM66\nM2\n"})
    page.value("ngc.actions.adapt(); document.getElementById('control').value = '0'; ngc.actions.rewrite().then(() => 0)")
    page.settle()
    checks.begins("a program that isn't rewritten has the line of its fault", page.text("adapt-notes"), "ngc: fault 205 line 2")
    checks.equal("and stays in use", page.value("ngc.store.state.files.program.name"), "refused.ngc")
    page.value("document.getElementById('adapt').close(); 0")
    vectric = page.read("cam/vectric_mach3.tap")
    page.give({"vectric.tap": vectric})
    page.value("ngc.actions.adapt(); document.getElementById('control').value = '2'; ngc.actions.rewrite().then(() => 0)")
    page.settle()
    made = page.native("adapt", "--from", "mach3", files=("cam/vectric_mach3.tap", "named_mill.toml", "tools.toml"))
    checks.equal("a program for Mach3 is rewritten as by `ngc adapt`", page.value("ngc.store.state.files.program.blob().text()"), made.stdout.decode())
    checks.equal("with the whole of its notes", page.value("document.querySelector('#adapt-notes pre').textContent"), made.stderr.decode().strip())
    page.value("document.getElementById('adapt').close(); [...document.querySelectorAll('#notices button')].find(it => it.textContent === 'Back to the original').click(); 0")
    page.wait("ngc.store.state.files.program.name === 'vectric.tap'")
    page.settle()
    checks.equal("and the original can be put back", page.value("ngc.store.state.files.program.blob().text()"), vectric)
    # No command writes that much today, so the job is replaced by one that says so.
    page.forget_notices()
    page.value("window.run = ngc.jobs.run; ngc.jobs.run = async () => ({ status: 0, output: new Uint8Array(0), text: 'a note\\n', isCut: true }); ngc.actions.rewrite().then(() => ngc.actions.save('list')).then(() => ngc.files.makeMachine([new Uint8Array(0)], 'dump.txt', () => true)).then(() => { ngc.jobs.run = window.run; })")
    page.wait("ngc.jobs.run === window.run")
    page.value(DRAWN)
    checks.equal("notes that were cut say so", page.value("document.querySelector('#adapt-notes pre').textContent"), "a note .. (the notes are longer, and end here)")
    checks.has("those of a save and of a machine file too", page.notices, "There is nothing to save. a note .. (the notes are longer, and end here)", "No machine file was made of dump.txt. a note .. (the notes are longer, and end here)")
    page.example("slot.ngc")


def real_drops(checks, page):
    """Drops of a file and of a folder, as the desktop makes them."""
    shop = page.folder / "shop"
    shop.mkdir()
    (shop / "inside.ngc").write_text("G21 G0 X5\nM2\n")
    (shop / "mill.toml").write_text(page.read("bench_mill.toml"))
    alone = page.folder / "alone.ngc"
    alone.write_text("G21 G0 X6\nM2\n")

    def drop(file):
        for kind in ("dragEnter", "dragOver", "drop"):
            page.browser.call("Input.dispatchDragEvent", type=kind, x=640, y=400, data={"items": [], "files": [str(file)], "dragOperationsMask": 1})

    drop(alone)
    page.wait("ngc.store.state.files.program.name === 'alone.ngc'")
    page.settle()
    checks.expect("a file from the desktop is dropped", True)
    drop(shop)
    page.wait("ngc.store.state.files.program.name === 'inside.ngc' || document.getElementById('notices').textContent.includes(\"can't read the folder shop\")")
    page.settle()
    said = page.value("ngc.store.state.files.program.name + ' ' + ngc.store.state.files.machine.name") + page.notices
    checks.expect("a folder is dropped, or the page says that it can't be read", said.startswith("inside.ngc mill.toml") or "can't read the folder shop" in said, said)
    page.example("slot.ngc")


STORED = "Object.keys(localStorage).sort().join()"


def keeping(checks, page):
    """What the page keeps for the next visit."""
    page.value("localStorage.clear(); 0")
    page.open()
    checks.equal("a first visit keeps nothing", page.value(STORED), "")
    page.give({"holes.ngc": page.read("holes.ngc")})
    checks.equal("a part program isn't kept", page.value(STORED), "")
    page.give({"mine.toml": page.read("bench_mill.toml"), "holders.toml": page.read("holder_tools.toml")})
    checks.equal("the machine file and the tool table are kept", page.value(STORED), "ngc machine,ngc tools")
    before = page.value("localStorage.getItem('ngc machine')")
    page.give({"wrong.toml": "version = 1\nstep = 400\n"})
    checks.equal("a refused machine file isn't kept", page.value("localStorage.getItem('ngc machine')"), before)
    page.give({"empty_tools.toml": "[[tool]]\nnumber = 0\n", "mine.toml": page.read("small_mill.toml")})
    checks.has("nor is a machine file beside a refused tool table", page.value("localStorage.getItem('ngc machine')"), "bench" if "bench" in before else before[:40])
    page.open()
    names = "['machine', 'tools'].map(it => ngc.store.state.files[it].name).join()"
    checks.equal("the next visit has both again", page.value(names), "mine.toml,holders.toml")
    checks.equal("and says so", page.value("document.querySelector('.chip-machine .badge').textContent"), "from last time")
    made = page.native("report", "--json", files=("slot.ngc", "bench_mill.toml", "holder_tools.toml"))
    checks.equal("its facts are those of `ngc report --json`", page.value("JSON.stringify(ngc.current(ngc.store.state, 'report').facts)"), json.dumps(json.loads(made.stdout), separators=(",", ":"), ensure_ascii=False))
    machine = (page.examples / "small_mill.toml").read_bytes()
    odd = {"a comment that isn't UTF-8": b"# Fr\xe4se\n" + machine, "a byte order mark": b"\xef\xbb\xbf" + machine, "lines that end with CR LF": machine.replace(b"\n", b"\r\n")}
    for what, data in odd.items():
        page.value(f"ngc.files.use('machine', 'kept.toml', Uint8Array.from(atob('{base64.b64encode(data).decode()}'), it => it.charCodeAt(0)), 'user'); 0")
        page.settle()
        is_read = page.value("ngc.current(ngc.store.state, 'scene').status === 0")
        page.open()
        has_it = bytes(page.value("[...ngc.store.state.files.machine.bytes]")) == data
        checks.equal(f"a machine file with {what} is {'the same after the next visit' if is_read else 'refused, and not kept'}", has_it, is_read)
    for broken in ('"[1"', '"[1,2]"', '"null"', '"{}"'):
        page.value(f"localStorage.setItem('ngc machine', {broken}); 0")
        page.open()
        checks.equal(f"with {broken} in the storage the page begins with its example", page.value("ngc.store.state.files.machine.name"), "named_mill.toml")
    page.value("localStorage.clear(); 0")
    page.open()
    page.value("document.getElementById('rapids').click(); document.getElementById('colour').value = 'feed'; document.getElementById('speed').value = '100'; document.getElementById('query').value = 'g1'; 0")
    page.browser.value("window.reloaded = true; location.reload(); 0")
    page.wait("document.documentElement?.dataset.ready === 'true' && !window.reloaded && typeof ngc === 'object'")
    page.settle()
    shown = page.value("[document.getElementById('rapids').checked, document.getElementById('colour').value, document.getElementById('speed').value, document.getElementById('query').value, document.getElementById('example').value]")
    state = page.value("[ngc.store.state.hasRapids, ngc.store.state.colour, String(ngc.store.state.speed), ngc.store.state.query, '']")
    checks.equal("after the page is loaded again each control shows what is in use", shown, state)
    texts = page.value("[...document.querySelectorAll('input[type=file]')].filter(it => it.checkVisibility()).length")
    checks.equal("no file field with a text of its own is shown", texts, 0)


def check_without_storage(checks, browser, file, examples):
    browser.open(file)
    browser.wait(SETTLED, 60)
    checks.expect("this browser has no storage", not browser.value("(() => { try { localStorage.setItem('ngc', '1'); return true; } catch { return false; } })()"))
    checks.begins("without storage slot.ngc fits", browser.value("document.getElementById('verdict-title').textContent"), "Fits")
    text = (examples / "bench_mill.toml").read_text()
    browser.value(f"ngc.files.take({{ files: [new File([{json.dumps(text)}], 'mine.toml')], folders: 0, unread: [], isCut: false }}).then(() => 0)")
    browser.wait(SETTLED, 60)
    checks.equal("without storage a machine file is taken", browser.value("ngc.store.state.files.machine.name"), "mine.toml")
    checks.equal("without storage the browser's console is empty", complaints(browser), [])


# ---- the machine, the zero


def machine_and_zero(checks, page):
    page.example("slot.ngc")
    names = "ngc.sceneNow(ngc.store.state).fixtures.map(it => it.name).join()"
    page.do("ngc.actions.tab('shop'); [...document.querySelectorAll('#shop .link')][1].click()")
    checks.equal("a fixture can be removed", page.value(names), "front jaw of the vise,right clamp")
    page.do("[...document.querySelectorAll('#notices button')].filter(it => it.textContent === 'Undo').pop().click()")
    checks.equal("and comes back", page.value(names), "front jaw of the vise,left clamp,right clamp")
    form = "document.getElementById('clamp').elements"
    page.do(f"{form}.name.value = 'block'; {form}.low.value = '100, 85, -100'; {form}.high.value = '110 95 -68'; document.querySelector('#clamp button').click()")
    checks.has("a clamp that is added counts", page.title, "hits the block")
    page.do("ngc.files.useExampleMachine()")
    page.forget_notices()
    page.value(f"{form}.low.value = '1, 2'; {form}.high.value = '3, 4, 5'; document.querySelector('#clamp button').click(); 0")
    checks.has("a clamp without three numbers is refused with a reason", page.notices, "two corners of three numbers")
    tools(checks, page)
    figures = "document.getElementById('figures').elements"
    page.value(f"{figures}.steps.value = '100'; {figures}.travel.value = '300, 180, 45'; {figures}.feed.value = '1000 1000 600'; {figures}.acceleration.value = '30'; document.querySelector('#figures button').click(); 0")
    page.wait("ngc.store.state.files.machine.source === 'made'")
    page.settle()
    checks.equal("figures make a machine file", page.value("ngc.store.state.files.machine.name"), "300x180x45.toml")
    scene = page.value("(it => [it.high[0] - it.low[0], it.high[1] - it.low[1], it.high[2] - it.low[2], it.step, it.rates.speeds.map(at => Math.round(at * 60))])(ngc.sceneNow(ngc.store.state))")
    checks.equal("with their travel, step and speeds", scene, [300, 180, 45, 0.01, [1000, 1000, 600]])
    given = ["--steps-per-mm", "100", "--travel", "300,180,45", "--feed", "1000,1000,600", "--acceleration", "30,30,30"]
    text = "new TextDecoder().decode(ngc.store.state.files.machine.bytes)"
    checks.equal("its bytes are those of `ngc machine`", page.value(text), page.native("machine", *given, files=()).stdout.decode())
    page.value(f"{figures}.corner.value = '3'; {figures}.jump.value = '4,5'; {figures}.ring.value = '512'; {figures}.frame.value = 'high'; document.querySelector('#figures button').click(); 0")
    page.wait(f"{text}.includes('ring = 512')")
    page.settle()
    checks.equal("so they are with a speed at corners, a jump, a ring and the other zero", page.value(text), page.native("machine", *given, "--corner", "3", "--jump", "4.5", "--ring", "512", "--frame", "high", files=()).stdout.decode())
    page.do(f"{form}.name.value = 'block'; {form}.low.value = '100, 85, -100'; {form}.high.value = '110 95 -68.5'; document.querySelector('#clamp button').click()")
    checks.has("a clamp is added to it with its units", page.value(text), '\n[[fixture]]\nname = "block"\nfrom = "100, 85, -100 mm"\nto = "110, 95, -68.5 mm"\n')
    page.forget_notices()
    page.value(f"{figures}.jump.value = 'two'; document.querySelector('#figures button').click(); 0")
    checks.has("a jump that is no number is refused with a reason", page.notices, "numbers above 0, or empty")
    page.value(f"{figures}.jump.value = ''; {figures}.ring.value = '8'; document.querySelector('#figures button').click(); 0")
    page.wait("document.getElementById('notices').textContent.includes('No machine file was made')")
    checks.has("a ring that is too small is refused by `ngc machine`", page.notices, "No machine file was made of these figures. the ring is not from 16 to 1024 commands")
    page.value("document.getElementById('figures').reset(); 0")
    page.example("low_slot.ngc")
    page.do("ngc.files.useExampleMachine(); ngc.actions.tab('place'); document.getElementById('origin-Z').value = '-65'; document.querySelector('#origin-form button').click()")
    checks.begins("the program fits at a zero that is 5 mm higher", page.title, "Fits")
    checks.equal("the picture has it too", page.value("ngc.sceneNow(ngc.store.state).origins.G54"), [50, 60, -65])
    checks.has("the strip says that the zero was moved", page.value("document.querySelector('.chip-machine .about').textContent"), "G54 moved")
    page.do("ngc.files.use('machine', 'again.toml', new TextEncoder().encode(document.getElementById('examples').textContent && JSON.parse(document.getElementById('examples').textContent)['named_mill.toml']), 'user')")
    checks.equal("a new machine resets the zeros of this check", page.value("Object.keys(ngc.store.state.origins).length"), 0)
    page.example("slot.ngc")
    page.value("ngc.actions.place(); 0")
    page.wait("ngc.store.state.slots.place.status === 'done'", 120)
    found = page.value("ngc.current(ngc.store.state, 'place').along.map(it => it && [it.from, it.to])")
    placed = json.loads(page.native("place", "--json", files=("slot.ngc", "named_mill.toml", "tools.toml")).stdout)
    shifts = intervals_of(placed)
    checks.equal("the shifts are those of `ngc place`", found, shifts)
    page.do("ngc.actions.setDemands({ margin: 2e6, travelMargin: null, rapids: null }); ngc.actions.place()")
    placed = json.loads(page.native("place", "--json", "--margin", "2", files=("slot.ngc", "named_mill.toml", "tools.toml")).stdout)
    checks.equal("with a margin they are those of `ngc place --margin`", page.value("ngc.current(ngc.store.state, 'place').along.map(it => it && [it.from, it.to])"), intervals_of(placed))
    page.do("ngc.actions.setDemands({ margin: null, travelMargin: null, rapids: null })")
    page.edit(8, "X21 Y30")
    checks.equal("and are gone at the next edit", page.value("[ngc.current(ngc.store.state, 'place'), document.getElementById('place').textContent]"), [None, ""])
    page.settle()
    # It is stopped as soon as its worker is busy with it.
    page.value("new Promise(done => { ngc.actions.place(); const look = () => { if (ngc.jobs.isBusy('place') && !document.getElementById('stop-place').hidden) { document.getElementById('stop-place').click(); done(0); } else setTimeout(look, 0); }; look(); })")
    page.settle()
    checks.equal("trying shifts can be stopped", page.text("place"), "Stopped: the shifts are not known.")
    page.example("slot.ngc")


def tools(checks, page):
    """A tool that isn't in the table is described from the verdict."""
    names = "ngc.sceneNow(ngc.store.state).tools.map(it => it.number).join()"
    table = "new TextDecoder().decode(ngc.store.state.files.tools.bytes)"
    form = "document.getElementById('tool').elements"
    add = "document.querySelector('#tool button').click()"
    page.give({"nine.ngc": "G21 G90 G17 G54\nT9 M6\nS2000 M3\nG43 H9\nG0 Z20\nX20 Y30\nG1 Z2 F100\nG0 Z20\nG28 Z20\nM2\n"})
    checks.begins("a tool that isn't in the table is named", page.title, "Line 2 is refused: tool 9 isn't in the tool table.")
    page.value("[...document.querySelectorAll('#verdict-actions button')].find(it => it.textContent === 'Describe tool 9\u2026').click(); 0")
    checks.equal("a button opens the form with its number, at the next field", page.value(f"[ngc.store.state.tab, {form}.number.value, document.activeElement.name, document.activeElement.checkVisibility()]"), ["shop", "9", "diameter", True])
    page.do(f"{form}.diameter.value = '8'; {form}.reach.value = '45'; {add}")
    checks.equal("the user's first tool makes a table of its own", page.value(table), "version = 3\n\n[[tool]]\nnumber = 9\ndiameter = \"8 mm\"\nlength = \"45 mm\"\n")
    checks.begins("with it the program fits", page.title, "Fits")
    page.do(f"{form}.number.value = '4'; {form}.diameter.value = '6'; {form}.reach.value = '50,5'; {form}.cutter.value = '20'; {form}.holder.value = '30'; {form}.name.value = 'drill'; {add}")
    tool = page.value("(it => [it.name, it.bottom, it.offset, it.parts.map(part => [part.low, part.high, part.radius])])(ngc.sceneNow(ngc.store.state).tools.find(it => it.number === 4))")
    checks.equal("a second one with its holder and its name", tool, ["drill", -50.5, 50.5, [[-50.5, -30.5, 3], [-30.5, 0, 15]]])
    page.forget_notices()
    page.value(f"{form}.number.value = '4'; {form}.diameter.value = '6'; {form}.reach.value = '50'; {add}; 0")
    checks.has("one that is there already is refused with a reason", page.notices, "Tool 4 is in the table already")
    for number, diameter, reach, cutter, holder in (("0", "6", "50", "", ""), ("1.5", "6", "50", "", ""), ("5", "-6", "50", "", ""), ("5", "6", "x", "", ""), ("5", "6", "50", "60", "30"), ("5", "6", "50", "20", "")):
        page.forget_notices()
        page.value(f"{form}.number.value = '{number}'; {form}.diameter.value = '{diameter}'; {form}.reach.value = '{reach}'; {form}.cutter.value = '{cutter}'; {form}.holder.value = '{holder}'; {add}; 0")
        checks.has(f"tool {number} with diameter {diameter}, reach {reach}, cutter {cutter or 'none'} and holder {holder or 'none'} is refused with a reason", page.notices, "of a tool is from 1 to 9999" if number in ("0", "1.5") else "above 0")
    checks.equal("and the table stays", page.value(names), "9,4")
    page.do("[...document.querySelectorAll('#shop .link')].find(it => it.ariaLabel === 'Remove tool 9').click()")
    checks.equal("a tool can be removed", page.value(names), "4")
    page.do("[...document.querySelectorAll('#notices button')].filter(it => it.textContent === 'Undo').pop().click()")
    checks.equal("and comes back", page.value(names), "9,4")
    kept = 'cutter = "flat"\nspeed = "8000 to 24000 rpm"\nfeed = "100 to 1500 mm/min"\nplunge = "300 mm/min"\n'
    first = f'version = 3\n\n[[tool]]\nnumber = 2\ndiameter = "8 mm"\nlength = "45 mm"\n{kept}\n'
    page.give({"limits.toml": first})
    shape = f"document.getElementById('tool').reset(); {form}.number.value = '6'; {form}.diameter.value = '6'; {form}.reach.value = '40'; {form}.shape.value = 'ball'; {add}"
    page.do(shape)
    second = '[[tool]]\nnumber = 6\ndiameter = "6 mm"\nlength = "40 mm"\ncutter = "ball"\n'
    checks.equal("a tool with the shape of its cutter is added, and the other tools keep their shapes and limits", page.value(table), first + second)
    checks.equal("the shapes are shown", page.value("[...document.querySelectorAll('#shop .wide tbody tr td:nth-child(4)')].map(it => it.textContent)"), ["flat \u00d8 8 \u00d7 45", "ball \u00d8 6 \u00d7 40"])
    page.do("[...document.querySelectorAll('#shop .link')].find(it => it.ariaLabel === 'Remove tool 6').click()")
    checks.equal("when a tool is removed the others keep theirs", page.value(table), first)
    holders = "".join(f'\n[[tool]]\nnumber = {number}\ndiameter = "8 mm"\nlength = "45 mm"\n\n[[tool.holder]]\ndiameter = "{10 * number} mm"\nlength = "20 mm"\n' for number in (1, 2, 3))
    page.give({"holders.toml": f"version = 3\n{holders}"})
    page.do("[...document.querySelectorAll('#shop .link')].find(it => it.ariaLabel === 'Remove tool 2').click()")
    parts = page.value("ngc.sceneNow(ngc.store.state).tools.map(it => [it.number, it.parts.map(part => part.radius)])")
    checks.equal("a holder that is a table of its own goes with its tool", parts, [[1, [4, 5]], [3, [4, 15]]])
    page.give({"one.toml": "version = 1\n" + "".join(f"\n[[tool]]\nnumber = {number}\nlength = 45000000\nradius = 4000000\noffset = 45000000\n" for number in (1, 2, 3))})
    page.do(f"document.getElementById('tool').reset(); {form}.number.value = '7'; {form}.diameter.value = '5'; {form}.reach.value = '40'; {add}")
    checks.equal("a table of version 1 gets a tool of version 1", page.value(f"{table}.endsWith('[[tool]]\\nnumber = 7\\nlength = 40000000\\nradius = 2500000\\noffset = 40000000\\n')") and page.value(names), "1,2,3,7")
    page.forget_notices()
    page.value(f"{form}.number.value = '8'; {form}.diameter.value = '5'; {form}.reach.value = '40'; {form}.cutter.value = '10'; {form}.holder.value = '30'; {add}; document.getElementById('tool').reset(); 0")
    checks.has("but no holder, and the page says so", page.notices, "A tool table of version 1 has no holders")
    page.forget_notices()
    page.value(f"{shape}; document.getElementById('tool').reset(); 0")
    checks.has("nor the shape of a cutter", page.notices, "Only a tool table of version 3 has shapes of cutters.")
    page.give({"mine.ngc": "G21\nM2\n"})
    page.do("ngc.files.useExampleMachine()")
    page.value("[...document.querySelectorAll('#verdict-actions button')].find(it => it.textContent === 'Describe your machine\u2026').click(); 0")
    checks.equal("beside an example machine a button opens the form for one's own", page.value("[ngc.store.state.tab, document.activeElement.name, document.activeElement.checkVisibility()]"), ["shop", "steps", True])
    page.example("slot.ngc")


def cuts(checks, page):
    page.example("slot.ngc")
    # The line passes the corner of the left clamp at X 30, Y 80 by 1.4 mm. Its box, and each eighth of it, has the corner inside.
    slanted = "G21 G53 G0 X0 Y108\nG53 Z-70\nG53 X107 Y1\nM2\n"
    page.give({"slanted.ngc": slanted})
    (page.folder / "slanted.ngc").write_text(slanted)
    files = (page.folder / "slanted.ngc", "named_mill.toml", "tools.toml")
    click = "[...document.querySelectorAll('#verdict-actions button')].find(it => it.textContent === '{}').click()"
    facts, about = "JSON.stringify(ngc.current(ngc.store.state, 'report').facts)", "document.querySelector('.chip-machine .about').textContent"
    checks.begins("a slanted line whose box has a clamp's corner inside doesn't fit with 8 cuts", page.title, "Line 3 hits the left clamp")
    page.do(click.format("Check with 64 cuts"))
    checks.begins("and fits with 64", page.title, "Fits")
    checks.equal("the facts are those of `ngc report --cuts 64`", page.value(facts), facts_of(page.native("report", "--json", "--cuts", "64", files=files).stdout))
    checks.has("the strip says so", page.value(about), "64 cuts")
    page.value("document.querySelector('[data-save=certificate]').click(); 0")
    made = page.native("certify", "--format", "2", "--cuts", "64", files=files).stdout
    checks.equal("the certificate is that of `ngc certify --cuts 64`", saved_file(page, "document.querySelector('[data-save=certificate]').click()", "slanted.cert", len(made)), made)
    page.do(click.format("Back to 8 cuts"))
    checks.begins("8 cuts can be taken again", page.title, "Line 3 hits the left clamp")
    page.give({"slanted.ngc": slanted, "slanted.cert": made.decode()})
    page.do("ngc.actions.setDemands({ margin: null, travelMargin: null, rapids: 'free' })")
    checks.has("a certificate with pieces of a rapid is refused where rapids may take any way, in words", page.value("document.querySelector('#warnings .card').textContent"), "this traverse has several pieces, and the control may take any way to its end (fault 319)")
    page.value("ngc.actions.forgetCertificate(); 0")
    page.do("ngc.actions.setDemands({ margin: null, travelMargin: null, rapids: null })")
    page.do("ngc.actions.setCuts(64)")
    page.edit(3, "G53 X107 Y2")
    page.settle()
    checks.equal("an edit keeps them", page.value("ngc.store.state.cuts"), 64)
    page.give({"another.ngc": slanted})
    checks.equal("another program has 8 cuts again", page.value("ngc.store.state.cuts"), None)
    page.example("low_slot.ngc")
    checks.expect("a motion along one axis has no button for more cuts", "cuts" not in page.text("verdict-actions"), page.text("verdict-actions"))
    page.example("slot.ngc")


# What is set in the fields, in nanometres, and the same as options of the program.
DEMANDS = {
    "a margin of 2 mm": ({"margin": 2e6}, ["--margin", "2"]), "a margin of 7 mm": ({"margin": 7e6}, ["--margin", "7"]), "a margin of 0": ({"margin": 0}, ["--margin", "0"]),
    "a travel margin of 1 mm": ({"travelMargin": 1e6}, ["--travel-margin", "1"]), "free rapids": ({"rapids": "free"}, ["--rapids", "free"]), "straight rapids": ({"rapids": "straight"}, ["--rapids", "straight"]),
    "all three": ({"margin": 123456, "travelMargin": 500001, "rapids": "free"}, ["--margin", "0.123456", "--travel-margin", "0.500001", "--rapids", "free"]),
}
NO_DEMANDS = {"margin": None, "travelMargin": None, "rapids": None}


def facts_of(output):
    """The facts of a report as the page has them. A machine that is refused for a margin has none."""
    return json.dumps(json.loads(output or b"[]"), separators=(",", ":"), ensure_ascii=False)


def margins(checks, page):
    """Margins and the way of rapids: the fields, the sentences, what is kept, and the same bytes as the program's."""
    page.value("localStorage.clear(); 0")
    page.open()
    form, about = "document.getElementById('demands').elements", "document.querySelector('.chip-machine .about').textContent"
    apply = "document.querySelector('#demands button').click()"
    page.do(f"ngc.actions.tab('shop'); {form}.margin.value = '2'; {apply}")
    # 6 mm are left to the jaw without a margin.
    checks.begins("with a margin the verdict names it", page.title, "Fits, 2 mm clear of every fixture: 72 mm left toward Z\u2212, 4 mm more from the front jaw of the vise, 0:35.")
    checks.has("the strip says it too", page.value(about), "margin 2 mm")
    checks.expect("a margin of an example machine isn't kept", page.value("localStorage.getItem('ngc demands')") is None)
    page.do("ngc.store.dispatch({ type: 'set', values: { unit: 'in' } })")
    checks.equal("in inches the field shows it rounded", page.value(f"{form}.margin.value"), "0.0787")
    page.do(apply)
    checks.equal("and a check with it keeps the exact value", page.value("ngc.store.state.demands.margin"), 2_000_000)
    page.do(f"{form}.margin.value = '0.1'; {apply}")
    checks.equal("a tenth of an inch is 2.54 mm", page.value("ngc.store.state.demands.margin"), 2_540_000)
    page.do("ngc.store.dispatch({ type: 'set', values: { unit: 'mm' } })")
    for typed in ("-1", "101", "1e9", "two"):
        page.forget_notices()
        page.value(f"{form}.margin.value = {json.dumps(typed)}; {apply}; 0")
        checks.has(f"a margin of {typed} is refused with its range", page.notices, "A margin is from 0 to 100 mm.")
    checks.equal("and the one before it stays", page.value("ngc.store.state.demands.margin"), 2_540_000)
    page.do("document.getElementById('demands-reset').click()")
    checks.begins("it can be taken back", page.title, "Fits: 72 mm left toward Z\u2212, 6 mm from the front jaw of the vise, 0:35.")
    checks.expect("then there is nothing to take back", page.value("document.getElementById('demands-reset').hidden"))
    page.example("low_slot.ngc")
    page.do("ngc.actions.setDemands({ margin: 2e6, travelMargin: null, rapids: null })")
    # Without a margin it is 5 mm too low and 14 mm too far.
    checks.begins("a motion that hits the clamp itself says so, and how far to keep the margin", page.title, "Line 15 hits the left clamp: to keep the margin of 2 mm, raise it by 7 mm, or move it 16 mm toward X+ or Y+.")
    # The clamp ends at X 60, and the tool's radius is 4 mm.
    checks.equal("the tool stops where it meets the margin", page.value("ngc.contactNow(ngc.store.state).tip.map(it => Math.round(it * 1000) / 1000)"), [66, 90, -65])
    page.edit(14, "G0 Z11")
    page.settle()
    # The tip is then 1 mm above the clamp, whose top is at Z 10.
    checks.begins("one that is clear of the clamp but for the margin says that", page.title, "Line 15 is within the margin of 2 mm around the left clamp: raise it by 1 mm, or move it 16 mm toward X+ or Y+.")
    page.browser.press("Escape")
    page.do("ngc.actions.setDemands({ margin: null, travelMargin: 1e6, rapids: null })")
    checks.begins("a start at the end of the travel is refused with a travel margin", page.title, "The machine file can't be used. ")
    inner = re.sub(r"(?m)^(start|home28|home30) = .*$", r"\1 = [10_000_000, 10_000_000, -10_000_000]", page.read("named_mill.toml"))
    (page.folder / "inner.toml").write_text(inner)
    page.give({"inner.toml": inner, "far.ngc": "G21 G53 G0 X200\nG53 X300\nM2\n"})
    checks.equal("a new machine file resets them", page.value("ngc.store.state.demands"), NO_DEMANDS)
    checks.begins("a motion to the end of the travel fits", page.title, "Fits")
    page.do("ngc.actions.setDemands({ margin: null, travelMargin: 1e6, rapids: null })")
    checks.begins("and not with a travel margin of 1 mm", page.title, "Line 2 leaves the travel, with its margin of 1 mm, at X+ by 1 mm: move it 1 mm toward X\u2212.")
    checks.equal("the picture stops there", page.value("Math.round(ngc.contactNow(ngc.store.state).tip[0] * 1000) / 1000"), 299)
    # The left clamp begins at X 30 and Y 80. At X 30 the straight line is at Y 64, and a corner of the box of its ends is in the clamp.
    page.give({"around.ngc": "G21 G53 G0 X20 Y84\nG53 Z-80\nG53 X32 Y60\nG53 Z-10\nM2\n"})
    page.do("ngc.actions.setDemands({ margin: null, travelMargin: null, rapids: null })")
    checks.begins("a straight rapid passes the corner of a clamp", page.title, "Fits")
    page.do("ngc.actions.setDemands({ margin: null, travelMargin: null, rapids: 'free' })")
    checks.begins("and one that may take any way doesn't", page.title, "Line 3 may hit the left clamp")
    checks.has("the detail says why, and what to do", page.text("verdict-detail"), "first retract, then move.", "Rapids may take any way within the box of their ends.")
    for machine, name in (("named_mill.toml", "slot.ngc"), ("named_mill.toml", "low_slot.ngc"), (page.folder / "inner.toml", "plate.ngc")):
        page.give({"m.toml": (page.examples / machine).read_text(), name: page.read(name)})
        page.do("ngc.files.use('tools', 'tools.toml', new TextEncoder().encode(JSON.parse(document.getElementById('examples').textContent)['tools.toml']), 'user')")
        for what, (demands, words) in DEMANDS.items():
            page.do(f"ngc.actions.setDemands({json.dumps({**NO_DEMANDS, **demands})})")
            made = page.native("report", "--json", *words, files=(name, machine, "tools.toml"))
            checks.equal(f"{name} with {what} has the facts of `ngc report {' '.join(words)}`", page.value("JSON.stringify(ngc.current(ngc.store.state, 'report').facts)"), facts_of(made.stdout))
    page.example("slot.ngc")
    page.do("ngc.actions.setDemands({ margin: 2e6, travelMargin: null, rapids: 'free' }); document.querySelector('[data-view=iso]').click()")
    save_each(checks, page, "slot.ngc", always=["--margin", "2", "--rapids", "free"])
    certificate = page.native("certify", "--format", "2", "--margin", "2", files=("slot.ngc", "named_mill.toml", "tools.toml")).stdout.decode()
    page.do("ngc.actions.setDemands({ margin: 2e6, travelMargin: null, rapids: null })")
    page.give({"slot.cert": certificate})
    badge = "document.querySelector('.chip.certificate .about').textContent"
    checks.equal("a certificate made with the margin is accepted with it", page.value(badge), "accepted for these files")
    page.do("ngc.actions.setDemands({ margin: 1e6, travelMargin: null, rapids: null })")
    checks.equal("and with a smaller one", page.value(badge), "accepted for these files")
    page.do("ngc.actions.setDemands({ margin: 7e6, travelMargin: null, rapids: null })")
    checks.begins("and refused with a larger one", page.value(badge), "refused, fault 3")
    page.value("ngc.actions.forgetCertificate(); 0")
    page.do("ngc.actions.setDemands({ margin: null, travelMargin: null, rapids: null })")
    page.give({"one.ngc": page.read("slot.ngc"), "two.ngc": page.read("ring.ngc")})
    checks.equal("two programs fit", page.value("ngc.store.state.programs.map(it => it.verdict).join()"), "fits,fits")
    page.do("ngc.actions.setDemands({ margin: 7e6, travelMargin: null, rapids: null })")
    made = [page.native("report", "--margin", "7", files=(name, "named_mill.toml", "tools.toml")).returncode for name in ("slot.ngc", "ring.ngc")]
    checks.equal("with a margin of 7 mm they have the verdicts of `ngc report --margin 7`", page.value("ngc.store.state.programs.map(it => it.verdict).join()"), ",".join("refused" if it else "fits" for it in made))
    page.give({"mine.toml": page.read("named_mill.toml")})
    page.do("ngc.actions.setDemands({ margin: 2e6, travelMargin: null, rapids: 'free' })")
    page.do("ngc.actions.removeFixture(1)")
    checks.equal("another text of the same machine keeps them", page.value("ngc.store.state.demands.margin"), 2_000_000)
    page.open()
    checks.equal("they are kept with the machine for the next visit", page.value("[ngc.store.state.files.machine.source, ngc.store.state.demands.margin, ngc.store.state.demands.rapids]"), ["kept", 2_000_000, "free"])
    checks.equal("the fields show them", page.value(f"[{form}.margin.value, {form}.travel.value, {form}.rapids.value]"), ["2", "", "free"])
    for broken in ('"{}"', '"null"', '"[1"', '\'{"margin":-1}\'', '\'{"rapids":"<b>"}\'', '\'{"margin":1.5}\''):
        page.value(f"localStorage.setItem('ngc demands', {broken}); 0")
        page.open()
        checks.equal(f"with {broken} in the storage there is no margin", page.value("ngc.store.state.demands"), NO_DEMANDS)
    page.value("localStorage.clear(); 0")
    page.open()


def intervals_of(facts):
    """The interval around 0 of each axis in the facts of `ngc place --json`."""
    found = []
    for axis in "XYZ":
        along = [it for it in facts if it.get("axis") == axis and it.get("from") is not None]
        around = next((it for it in along if it["from"] <= 0 <= it["to"]), along[0] if along else None)
        found.append([around["from"], around["to"]] if around else None)
    return found


# ---- material


# A slot from X 20 to X 30 at Z -3, a rapid on to X 60 at that height, and a rapid down to Z -1 at X 80.
THROUGH = TOOL + "Z2\nG1 Z-3 F300\nX30\nG0 X60\nZ20\nX80\nZ-1\nZ20\nG28 Z20\nM30\n"


def material(checks, page):
    """The block of material: which rapids may touch it, in the verdict, as cards, beside the lines, in the report and on paper; and its place."""
    page.example("slot.ngc")
    page.give({"through.ngc": THROUGH})
    checks.expect("without a block nothing is said of material", "material" not in page.text("verdict-detail"), page.text("verdict-detail"))
    page.give({"stock.toml": page.read("named_mill.toml") + STOCK})
    (page.folder / "stock.toml").write_text(page.read("named_mill.toml") + STOCK)
    (page.folder / "through.ngc").write_text(THROUGH)
    made = page.native("report", "--json", files=(page.folder / "through.ngc", page.folder / "stock.toml", "tools.toml")).stdout
    checks.equal("the facts are those of `ngc report --json`", page.value("JSON.stringify(ngc.current(ngc.store.state, 'report').facts)"), facts_of(made))
    less = next(it["less"] for it in json.loads(made) if it["fact"] == "material_margin")
    # Rounded up to hundredths of a millimetre.
    words = f"tested with each tool {-(-less // 10_000) / 100:g} mm smaller in radius and a little higher"
    checks.begins("the program fits", page.title, "Fits")
    checks.has("the detail counts the rapids that may touch material", page.text("verdict-detail"), f"2 rapids may touch material, {words}.")
    checks.equal("the verdict is one that asks for care", page.value("document.getElementById('verdict').className"), "good careful")
    cards = page.value("[...document.querySelectorAll('#warnings .card')].map(it => it.textContent).filter(it => it.includes('material'))")
    # The boxes of both clamps go down to the table, through the block.
    checks.equal("a clamp that is drawn down to the table has no card", [it for it in cards if it.endswith("overlap")], [])
    # The slot is 3 mm deep, and the second rapid ends 1 mm below the top.
    found = [it["at"] for it in json.loads(made) if it["fact"] == "material"]
    checks.equal("each has a card with its depth and its place", cards, [f"!Warning: The rapid goes through material: tool 2 is at least {depth} mm deep at X {at[0] / 1e6:g} mm, Y {at[1] / 1e6:g} mm line {line}" for depth, line, at in ((3, 10, found[0]), (1, 13, found[1]))])
    page.do("[...document.querySelectorAll('#warnings .card')].find(it => it.textContent.endsWith('line 10')).click()")
    checks.equal("the card goes to the line", page.value("ngc.store.state.line"), 10)
    checks.equal("which has a note", page.value("document.querySelector('.row.warned[data-line=\"10\"] .note').textContent"), "rapid goes through material, at least 3 mm deep")
    checks.has("the report has both", page.text("report"), "Material", "line 10", "line 13", "Rapids count no cuts along arcs of G18 and G19.")
    page.value("ngc.parts.setupSheet.build(); 0")
    checks.has("so has the setup sheet, with the block", page.text("sheet"), "Warning: the rapid goes through material", "Material, mm, G54", "Of the workpiece only rapids, tool changes, the depth of feeds, and shanks and holders on straight feeds are tested.")
    checks.equal("the block is where its coordinates say", page.value("(it => [it.low, it.high])(ngc.stockIn(ngc.sceneNow(ngc.store.state)))"), [[50, 60, -90], [150, 120, -70]])
    page.do("ngc.actions.setOrigins({ G54: [51e6, 60e6, -70e6] })")
    checks.equal("it moves with the zero", page.value("ngc.stockIn(ngc.sceneNow(ngc.store.state)).low"), [51, 60, -90])
    page.do("ngc.actions.setOrigins({})")
    page.do("ngc.store.dispatch({ type: 'set', values: { unit: 'in' } })")
    checks.has("in inches the least depth is rounded down", page.value("[...document.querySelectorAll('#warnings .card')].map(it => it.textContent).join()"), "at least 0.1181 in deep")
    page.do("ngc.store.dispatch({ type: 'set', values: { unit: 'mm' } })")
    page.edit(10, "G1 X60")
    page.edit(13, "G1 Z-1")
    page.settle()
    checks.has("with feeds in their place no rapid touches material", page.text("verdict-detail"), f"No rapid touches material that the feeds before it have left, {words}.")
    checks.equal("and no card says so", page.value("[...document.querySelectorAll('#warnings .card')].filter(it => it.textContent.includes('touch material')).length"), 0)
    page.browser.press("Escape")
    # A block of 2 mm: the feeds at Z -3, from line 8 to the one that leaves them in line 11, are 1 mm below its bottom.
    page.give({"flat.toml": page.read("named_mill.toml") + STOCK.replace("-20_000_000", "-2_000_000")})
    cards = page.value("[...document.querySelectorAll('#warnings .card')].map(it => it.textContent).filter(it => it.includes('bottom'))")
    checks.equal("feeds below the bottom have one card", cards, ["!Warning: The feed goes below the bottom of the material: tool 2 is at most 1 mm below it; the first such feed is in line 8, the last in line 11 line 8"])
    checks.equal("and the deepest a note", page.value("document.querySelector('.row.warned[data-line=\"8\"] .note').textContent"), "feed at most 1 mm below the bottom of the material")
    page.give({"stock.toml": page.read("named_mill.toml") + STOCK})
    page.give({"thin.toml": page.read("tools.toml").replace('diameter = "8 mm"', 'diameter = "0.08 mm"')})
    checks.has("a tool that is too thin is named", page.text("verdict-detail"), "Too thin to be tested: tool 2.")
    page.do("ngc.actions.removeStock()")
    checks.equal("the block can be removed", page.value("ngc.sceneNow(ngc.store.state).stock"), None)
    form = "document.getElementById('stock').elements"
    page.do(f"{form}.low.value = '0 0 -20'; {form}.high.value = '100, 60, 0'; document.getElementById('stock-system').value = '1'; document.querySelector('#stock button').click()")
    checks.equal("and described by two corners", page.value("ngc.sceneNow(ngc.store.state).stock"), {"low": [0, 0, -20], "high": [100, 60, 0], "system": "G54"})
    page.do(f"{form}.low.value = '0 0 -90'; {form}.high.value = '10 10 -80'; document.getElementById('stock-system').value = '0'; document.querySelector('#stock button').click()")
    checks.equal("another one takes its place", page.value("ngc.sceneNow(ngc.store.state).stock"), {"low": [0, 0, -90], "high": [10, 10, -80], "system": None})
    page.give({"one.toml": page.read("bench_mill.toml")})
    page.forget_notices()
    page.value(f"{form}.low.value = '0 0 -20'; {form}.high.value = '100 60 0'; document.querySelector('#stock button').click(); 0")
    checks.has("a machine file of version 1 can't have one, and the page says so", page.notices, "A machine file of version 1")
    page.value(f"{form}.high.value = '1, 2'; document.querySelector('#stock button').click(); document.getElementById('stock').reset(); 0")
    checks.has("nor is one without three numbers taken", page.notices, "two corners of three numbers")
    page.do("ngc.files.useExampleMachine()")
    page.example("slot.ngc")


# ---- saving


SAVES = {
    "report": (".report.txt", ["report"], False), "every": (".report.all.txt", ["report", "--all"], False), "json": (".report.json", ["report", "--json"], False),
    "every_json": (".report.all.json", ["report", "--all", "--json"], False), "drawing": (".iso.svg", ["draw", "--view", "iso"], True), "list": (".list.txt", ["list"], True),
    "certificate": (".cert", ["certify", "--format", "2"], False), "certificate_1": (".1.cert", ["certify", "--format", "1"], False), "sheet": (".setup.txt", ["show"], False),
    "drawing_bodies": (".iso.bodies.svg", ["draw", "--view", "iso", "--bodies"], True), "drawing_whole": (".iso.whole.svg", ["draw", "--view", "iso", "--whole"], True),
    "sheet_warnings": (".warnings.txt", ["show", "--warnings"], False),
}
SHEETS = ("sheet", "sheet_warnings")


def saved_file(page, again, name, size=None):
    """The bytes of a file that was saved. Chromium drops what is saved after ten other files within some seconds: then it is saved
    again, by this expression."""
    for _ in range(3):
        try:
            return wait_for(page.downloads / name, size, 5)
        except Fault:
            page.value(f"{again}; 0")
    return wait_for(page.downloads / name, size)


def save_each(checks, page, name, more=(), always=()):
    stem = name.rsplit(".", 1)[0]
    files = (name, "named_mill.toml", "tools.toml")
    for key, (end, words, has_delete) in SAVES.items():
        page.forget_notices()
        more_words = [*(more if has_delete else ()), *(always if key not in (*SHEETS, "list") else ())]
        made = page.native(*words, *more_words, files=(None, *files[1:]) if key in SHEETS else files)
        click = f"document.querySelector('[data-save={key}]').click()"
        page.value(f"{click}; 0")
        page.wait("document.getElementById('notices').textContent !== ''")
        said, what = page.notices, f"`{' '.join(['ngc', *words, *more_words])}` of {name}"
        if made.stdout:
            checks.equal(f"{stem}{end} is saved with the {len(made.stdout)} bytes of {what}", saved_file(page, click, f"{stem}{end}", len(made.stdout)), made.stdout)
            checks.begins("  and the page says so", said, f"Saved as {stem}{end}, ")
        else:
            checks.begins(f"there is nothing to save of {what}, and why", said, f"There is nothing to save. {made.stderr.decode().strip()}")


def save(checks, page):
    page.example("slot.ngc")
    page.do("document.querySelector('[data-view=iso]').click()")
    for name in ("slot.ngc", "low_slot.ngc"):
        page.example(name)
        save_each(checks, page, name)
    page.example("slot.ngc")
    page.give({"another.cert": "ngc-certificate 1\n"})
    made = page.native("certify", "--format", "2", files=("slot.ngc", "named_mill.toml", "tools.toml"))
    page.value("ngc.actions.save('certificate'); 0")
    checks.equal("beside a certificate that was dropped, the one of `ngc certify` is saved", saved_file(page, "ngc.actions.save('certificate')", "slot.cert", len(made.stdout)), made.stdout)
    page.do("ngc.actions.forgetCertificate(); ngc.actions.setBlockDelete(true)")
    save_each(checks, page, "slot.ngc", ["--delete"])
    (page.folder / "slot.cert").write_bytes(page.native("certify", "--format", "2", files=("slot.ngc", "named_mill.toml", "tools.toml")).stdout)
    made = page.native("pulses", "--certificate", "slot.cert", "--delete", files=("slot.ngc", "named_mill.toml", "tools.toml"))
    page.value("document.querySelector('[data-save=pulses]').click(); 0")
    checks.equal(f"slot.vcd is saved with the {len(made.stdout)} bytes of `ngc pulses --delete`", saved_file(page, "document.querySelector('[data-save=pulses]').click()", "slot.vcd", len(made.stdout)), made.stdout)
    page.example("low_slot.ngc")
    page.forget_notices()
    page.value("ngc.actions.save('pulses'); 0")
    page.wait("document.getElementById('notices').textContent !== ''")
    checks.begins("a program that is refused has no pulses", page.notices, "There is nothing to save.")
    for kind, name in (("program", "low_slot.ngc"), ("machine", "named_mill.toml"), ("tools", "tools.toml")):
        page.value(f"ngc.actions.save('{kind}'); 0")
        checks.equal(f"the {kind} is saved as it is in use", saved_file(page, f"ngc.actions.save('{kind}')", name), (page.examples / name).read_bytes())
    if page.value("ngc.parts.picture !== null"):
        page.show_picture(True)
        page.value("ngc.actions.save('picture'); 0")
        image = saved_file(page, "ngc.actions.save('picture')", "low_slot.png")
        checks.expect("the picture is saved as PNG", image.startswith(b"\x89PNG") and len(image) > 5000, len(image))
        page.show_picture(False)
    for what, change in (("another program", "ngc.actions.example('slot.ngc')"), ("the other setting of block delete", "ngc.actions.setBlockDelete(true)"), ("another zero", "ngc.actions.setOrigins({ G54: [50e6, 46e6, -70e6] })")):
        page.example("low_slot.ngc")
        page.forget_notices()
        page.value(f"ngc.actions.save('list'); {change}; 0")
        page.wait("document.getElementById('notices').textContent !== ''")
        checks.begins(f"if {what} comes meanwhile nothing is saved", page.notices, "What is shown changed in the meantime: nothing was saved.")
        page.settle()
    checks.equal("nothing else was saved", [it.name for it in page.downloads.iterdir()], [])
    page.example("slot.ngc")


# ---- picture, player, search


def picture_and_player(checks, page):
    page.example("low_slot.ngc")
    value = page.value
    if value("ngc.parts.picture === null"):
        checks.expect("without WebGL the drawing of `ngc draw` is shown", value("document.querySelector('#labels img.drawing') !== null"))
        return
    fits = "(picture => { const { orbit } = picture, before = orbit.scale; picture.fit(); return Math.abs(before / orbit.scale - 1) < 1e-6; })(ngc.parts.picture)"
    checks.expect("the picture is fitted to the cut, whichever of path and report comes first", value(fits))
    page.edit(14, "G0 Z30")
    page.settle()
    checks.expect("and stays as it is while the program is edited", not value(fits) or value("ngc.parts.picture.orbit.isTouched"))
    page.browser.press("Escape")
    page.example("low_slot.ngc")
    middle = "((path, picture, at) => { picture.draw(); const s = path.owner.findIndex(it => path.lines[it] === at), r = document.getElementById('canvas').getBoundingClientRect(); const q = picture.screenOf([0, 1, 2].map(axis => (path.a[s * 3 + axis] + path.b[s * 3 + axis]) / 2)); return [q[0] + r.left, q[1] + r.top]; })(ngc.pathNow(ngc.store.state), ngc.parts.picture, 21)"
    page.browser.click(*value(middle))
    page.wait("ngc.store.state.line !== 15")
    checks.equal("a click on a motion chooses its line", value("ngc.store.state.line"), 21)
    box = value("(r => [r.left, r.top, r.width, r.height])(document.getElementById('canvas').getBoundingClientRect())")
    center = (box[0] + box[2] / 2, box[1] + box[3] / 2)
    turn = value("ngc.parts.picture.orbit.turn")
    page.browser.drag([center, (center[0] + 40, center[1]), (center[0] + 80, center[1])])
    page.wait(f"ngc.parts.picture.orbit.turn !== {turn}")
    checks.expect("dragging turns the picture", True)
    before = value("ngc.parts.picture.orbit.scale")
    value("ngc.parts.picture.orbit.zoomAt(0.5, 100, 100); document.querySelector('[data-view=top]').click(); 0")
    checks.expect("another view keeps the zoom", abs(value("ngc.parts.picture.orbit.scale") - before / 2) < 1e-6)
    at = "ngc.parts.picture.orbit"
    value("ngc.parts.picture.fit(); 0")
    scale = value(f"{at}.scale")
    page.browser.touching(True)
    page.browser.touch([[(center[0] - it, center[1]) for it in (40, 50, 60, 70, 80)], [(center[0] + it, center[1]) for it in (40, 50, 60, 70, 80)]])
    page.wait(f"Math.abs({at}.scale / {scale} - 0.5) < 0.15", 10)
    checks.expect("two fingers zoom", True)
    page.browser.touching(False)
    value("ngc.parts.picture.fit(); document.querySelector('[data-view=iso]').click(); document.getElementById('canvas').focus(); 0")
    for key, part in (("ArrowLeft", "turn"), ("ArrowUp", "tilt"), ("+", "scale")):
        before = value(f"{at}.{part}")
        page.browser.press(key)
        checks.expect(f"{key} changes the {part} of the picture", value(f"{at}.{part}") != before)
    before = value(f"{at}.target.x + {at}.target.y")
    page.browser.press("ArrowRight", shift=True)
    checks.expect("Shift and an arrow move it", value(f"{at}.target.x + {at}.target.y") != before)
    page.browser.press("0")
    checks.expect("0 fits it", value(f"{at}.isTouched") is False)
    times = "ngc.timesNow(ngc.store.state)"
    page.example("slot.ngc")
    # The two settings take as long; the report of `ngc report` says 35.197 s with block delete off.
    report = json.loads(page.native("report", "--json", files=("slot.ngc", "named_mill.toml", "tools.toml")).stdout)
    seconds = next(it["seconds"] for it in report if it["fact"] == "time")
    checks.expect(f"the player ends at the report's {seconds} s", abs(value(f"{times}.at(-1)") - seconds) < 0.01, value(f"{times}.at(-1)"))
    for name in ("holes.ngc", "ring.ngc", "plate.ngc", "facing.ngc"):
        page.give({name: page.read(name)})
        report = json.loads(page.native("report", "--json", files=(name, "named_mill.toml", "tools.toml")).stdout)
        known = [it["seconds"] for it in report if it["fact"] == "time"]
        if known:
            checks.expect(f"so it does for {name}: {known[0]} s", abs(value(f"{times}.at(-1)") - known[0]) < 0.01, value(f"{times}.at(-1)"))
    page.example("low_slot.ngc")
    refused = value("((times, contact) => times[contact.command - 1] + (times[contact.command] - times[contact.command - 1]) * contact.share)(ngc.timesNow(ngc.store.state), ngc.contactNow(ngc.store.state))")
    value(f"ngc.actions.seek({refused} - 0.4); ngc.store.dispatch({{ type: 'set', values: {{ speed: 1 }} }}); document.getElementById('play').click(); 0")
    page.wait("!ngc.store.state.isPlaying", 20)
    checks.expect("the player stops where the program is refused", abs(value("ngc.store.state.time") - refused) < 1e-6, (value("ngc.store.state.time"), refused))
    checks.equal("at the line that is refused", value("ngc.store.state.line"), 15)
    value("ngc.actions.seek(10); 0")
    checks.begins("the scrubber says the time and the line", value("document.getElementById('time').getAttribute('aria-valuetext')"), "0:10, line ")
    checks.expect("the readout has the position", "line" in page.text("readout"), page.text("readout"))
    checks.equal("a red mark is where it is refused", value("document.querySelectorAll('#time-track .hit').length"), 1)
    value("document.getElementById('colour').value = 'feed'; document.getElementById('colour').onchange(); 0")
    page.value(DRAWN)
    checks.has("by feed the legend has the fastest feed", page.text("legend"), "feed 0 to 600 mm/min")
    value("document.getElementById('colour').value = 'tool'; document.getElementById('colour').onchange(); 0")
    page.example("slot.ngc")


def search(checks, page):
    page.example("holes.ngc")
    page.value("document.getElementById('query').value = 'g8'; document.getElementById('query').oninput(); 0")
    page.wait("ngc.current(ngc.store.state, 'search') !== null && ngc.jobs.isIdle")
    text = page.read("holes.ngc").lower()
    checks.equal("search counts without regard to case", page.text("hits"), f"{text.count('g8')} found")
    lines = [at for at, line in enumerate(text.split("\n"), 1) if "g8" in line]
    for wanted in (*lines, lines[0]):
        page.value("document.getElementById('next').click(); 0")
        checks.equal(f"the next one is in line {wanted}", page.value("ngc.store.state.line"), wanted)
    page.value("document.getElementById('query').value = 'line 7'; document.getElementById('query').oninput(); document.getElementById('next').click(); 0")
    checks.equal("`line 7` goes to the line", page.value("ngc.store.state.line"), 7)
    page.value("document.getElementById('query').value = 'no such text'; document.getElementById('query').oninput(); 0")
    page.wait("ngc.current(ngc.store.state, 'search') !== null")
    checks.equal("what isn't there isn't found", page.text("hits"), "none")
    page.example("slot.ngc")
    checks.equal("a new program begins without the search of the old one", page.value("document.getElementById('query').value"), "")


# ---- files that want to do harm, memory that ends, traps, stopped workers


MARKUP = "<img src=x onerror=\"window.harmed=true\"><script>window.harmed=true</script><svg onload=\"window.harmed=true\">&lt;b&gt;</script></style><!--"


def hostile(checks, page):
    page.example("slot.ngc")
    page.value("window.harmed = false; window.violated = []; document.addEventListener('securitypolicyviolation', it => violated.push(it.violatedDirective + ' ' + it.blockedURI)); 0")
    count = "document.querySelectorAll('img:not(.drawing), #rows script, #report script, iframe, svg').length"
    before = page.value(count)
    quoted = json.dumps(MARKUP)
    machine = f"version = 2\n{page.read('named_mill.toml').split(chr(10), 1)[1]}" if "version = 2" not in page.read("named_mill.toml") else page.read("named_mill.toml")
    machine = re.sub(r'(?m)^name = "left clamp"$', f"name = {quoted}", machine)
    files = {
        "a comment": {f"{MARKUP}.ngc".replace("/", "_"): f"({MARKUP.replace('(', '').replace(')', '')})\n{MARKUP}\nG21 {MARKUP}\nM2\n"},
        "a program that hits a fixture with such a name": {"part.ngc": page.read("low_slot.ngc"), "mill.toml": machine},
        "a machine file": {"mill.toml": f"version = 2\nstep = {MARKUP}\n"},
        "a tool table": {"tools.toml": f"version = 2\n[[tool]]\nnumber = 1\nname = {quoted}\n"},
        "a certificate": {"x.cert": f"ngc-certificate 1\n{MARKUP}\n"},
        "GRBL's settings": {"dump.txt": f"$100={MARKUP}\n$110=1\n"},
        "a file of another kind": {f"{MARKUP}.svg".replace("/", "_"): f"<svg>{MARKUP}</svg>"},
    }
    for what, given in files.items():
        page.give(given)
        for tab in ("report", "place", "shop", "program"):
            page.value(f"ngc.actions.tab('{tab}'); 0")
            page.value(DRAWN)
        page.value("ngc.parts.setupSheet.build(); document.getElementById('sheet').querySelectorAll('img').forEach(it => it.remove()); 0")
        checks.equal(f"markup in {what} stays text", page.value(f"[harmed, {count}]"), [False, before])
        page.example("slot.ngc")
    page.value(f"document.getElementById('query').value = {quoted}; document.getElementById('query').oninput(); 0")
    page.value(DRAWN)
    checks.equal("so does markup in a search", page.value(f"[harmed, {count}]"), [False, before])
    page.value(f"ngc.parts.editor.edit(2, 0); document.activeElement.value = {json.dumps('(' + MARKUP + ')')}; document.activeElement.oninput(); 0")
    page.settle()
    page.browser.press("Escape")
    page.value(DRAWN)
    checks.equal("and in an edited line", page.value(f"[harmed, {count}]"), [False, before])
    checks.equal("nothing violated the policy until here", page.value("violated"), [])
    blocked = {
        "a script": "(() => { const it = document.createElement('script'); it.textContent = 'window.harmed = true'; document.body.append(it); it.remove(); })()",
        "an evaluated text": "(() => { try { (0, eval)('window.harmed = true'); } catch { /* It is blocked. */ } })()",
        "a request": "fetch('https://example.com/').catch(() => 0)",
        "a picture from a network": "(() => { const it = new Image(); it.src = 'https://example.com/x.png'; })()",
    }
    # An inspector's evaluation may allow eval, so that one is called from a timer of the page.
    for what, script in blocked.items():
        page.value(f"violated.length = 0; setTimeout(() => {{ {script}; }}, 0); 0")
        page.wait("violated.length > 0", 10)
        checks.equal(f"the policy blocks {what}", page.value("harmed"), False)
    page.browser.events.clear()
    page.value("ngc.actions.forgetCertificate(); 0")
    page.example("slot.ngc")


# Of each job: how it begins, its lane, and what the page says when it was stopped or has no memory.
WARNED = "G21 T2 M6\nS100 M3\nG0 Z0\nG1 Z-1 F100\nM2\n"
JOBS = {
    "report": ("ngc.actions.check()", "verdict", "document.getElementById('verdict-title').textContent", "document.getElementById('verdict-title').textContent.startsWith('Fits')"),
    "path": ("ngc.actions.check()", "path", "document.getElementById('legend').textContent", "ngc.pathNow(ngc.store.state) !== null"),
    "scene": ("ngc.files.putBack('tools', ngc.store.state.files.tools)", "side", "document.getElementById('shop').textContent", "ngc.sceneNow(ngc.store.state) !== null"),
    "part": ("ngc.store.dispatch({ type: 'set', values: { hasPart: false } }); queueMicrotask(() => ngc.store.dispatch({ type: 'set', values: { hasPart: true } }))", "part", "document.getElementById('legend').textContent", "ngc.partNow(ngc.store.state)?.image != null"),
    "place": ("ngc.actions.place()", "place", "document.getElementById('place').textContent", "document.getElementById('place').textContent.startsWith('It fits')"),
    "certificate": ("ngc.files.putBack('certificate', ngc.store.state.files.certificate)", "side", "document.querySelector('.chip.certificate .about').textContent", "document.querySelector('.chip.certificate .about').textContent === 'accepted for these files'"),
    "every": ("ngc.actions.check()", "side", "document.getElementById('report').textContent", "document.querySelectorAll('#report .places li').length === 2"),
    "remarks": (f"ngc.files.use('program', 'warned.ngc', new TextEncoder().encode({json.dumps(WARNED)}), 'user')", "remarks", "document.getElementById('report').textContent", "document.getElementById('warnings').textContent.includes('write G43 H2')"),
    "save": ("ngc.actions.save('report')", "save", "document.getElementById('notices').textContent", "document.getElementById('notices').textContent.startsWith('Saved as')"),
    "pulses": ("ngc.actions.save('pulses')", "save", "document.getElementById('notices').textContent", "document.getElementById('notices').textContent.startsWith('Saved as')"),
    "adapt": ("ngc.actions.rewrite()", "side", "document.getElementById('adapt-notes').textContent", "document.querySelector('#adapt-notes pre') !== null"),
    "machine": (f"ngc.files.makeMachine([new TextEncoder().encode({json.dumps(SETTINGS)})], 'dump.txt')", "side", "document.getElementById('notices').textContent", "document.getElementById('notices').textContent.startsWith('dump.toml is in use')"),
    "explain": ("ngc.actions.explain(304)", "side", "document.getElementById('notices').textContent + '|' + document.getElementById('explained').textContent", "document.getElementById('explained').textContent.startsWith('Fault 304')"),
    "search": ("document.getElementById('query').value = document.getElementById('query').value === 'g1' ? 'g0' : 'g1'; document.getElementById('query').oninput()", "side", "document.getElementById('hits').textContent", "document.getElementById('hits').textContent.endsWith('found')"),
    "index": ("ngc.files.use('program', 'long.ngc', new TextEncoder().encode('(x)\\n'.repeat(60000) + 'M2\\n'), 'user')", "index", "document.getElementById('line-count').textContent", "document.getElementById('line-count').textContent.endsWith('lines') || document.getElementById('line-count').textContent.endsWith('line')"),
    "batch": ("ngc.files.take({ files: ['a.ngc', 'b.ngc'].map(it => new File(['G21\\nM2\\n'], it)), folders: 0, unread: [], isCut: false })", "batch", "[...document.querySelectorAll('.chip-program select:not(#language) option')].map(it => it.textContent).join()", "ngc.store.state.programs.every(it => it.verdict === 'fits')"),
}
STOPPED = {"every": "low_slot.ngc"}
NO_MEMORY = "There is not enough memory"


def prepare(page, job):
    example = STOPPED.get(job, "slot.ngc")
    page.do(f"ngc.actions.forgetCertificate(); ngc.files.useExampleMachine(); ngc.actions.example('{example}'); document.getElementById('query').value = ''; document.getElementById('query').oninput(); document.getElementById('adapt-notes').textContent = ''; document.getElementById('explained').textContent = ''")
    page.value("ngc.store.dispatch({ type: 'set', values: { hasPart: false } }); 0")
    if job == "part":
        page.give({"stock.toml": page.read("named_mill.toml") + STOCK})
    if job == "certificate":
        page.give({"slot.cert": page.native("certify", "--format", "2", files=("slot.ngc", "named_mill.toml", "tools.toml")).stdout.decode()})
    page.forget_notices()


def stopped_workers(checks, page):
    """Each job says that it was stopped, and the next one works."""
    wanted = {"report": "Stopped: there is no verdict.", "path": "There is no path. Stopped.", "scene": "The machine file can't be shown. Stopped.", "part": "There is no finished part. Stopped.", "place": "Stopped: the shifts are not known.", "certificate": "not checked: Stopped.",
              "every": "The other places weren't found. Stopped.", "remarks": "What the warnings and notes say in full isn't known. Stopped.", "save": "Nothing was saved. Stopped.", "pulses": "Nothing was saved. Stopped.", "adapt": "Stopped.", "machine": "No machine file was made of dump.txt. Stopped.", "explain": "Stopped.", "search": "Stopped.",
              "index": "The lines can't be shown. Stopped.", "batch": "2,? a.ngc,? b.ngc"}
    for job, (begin, lane, said, works) in JOBS.items():
        prepare(page, job)
        # The job is stopped as soon as its lane is busy with it. It is looked for in microtasks too, since a short one may end between two timers.
        slot = job if job in ("report", "path", "scene", "part", "place", "certificate", "every", "remarks", "search", "index") else None
        begun = f"ngc.store.state.slots.{slot}.status === 'running' && ngc.jobs.isBusy('{lane}')" if slot else f"ngc.jobs.isBusy('{lane}')"
        page.value(f"new Promise(done => {{ let turns = 0; {begin}; const look = () => {{ if ({begun}) {{ ngc.jobs.stop('{lane}'); {'ngc.jobs.stop(' + json.dumps(lane) + ');' if job == 'batch' else ''} done(0); }} else if (++turns % 50) queueMicrotask(look); else setTimeout(look, 0); }}; look(); }})")
        if job == "batch":
            page.wait("(ngc.jobs.stop('batch'), ngc.store.state.programs.every(it => it.verdict))")
        page.wait("ngc.jobs.isIdle", 60)
        page.value(DRAWN)
        checks.has(f"a stopped {job} says so", page.value(said), wanted[job])
        page.forget_notices()
        page.value(f"{begin}; 0")
        page.wait(works, 60)
        checks.expect(f"  and the next {job} works", True)
    page.example("slot.ngc")


def ended_memory(checks, page):
    """With no memory to grow, each job that calls the module says so, and works again with it."""
    little = with_most_memory(page.module, memory_of(page.module))
    for job, (begin, lane, said, works) in JOBS.items():
        if job in ("search", "index"):
            continue
        prepare(page, job)
        page.use_module(little)
        page.forget_notices()
        page.value(f"{begin}; 0")
        if job == "batch":
            page.wait("ngc.store.state.programs.length === 2 && ngc.store.state.programs.every(it => it.verdict)", 60)
        page.wait("ngc.jobs.isIdle", 60)
        page.value(DRAWN)
        if job in ("every", "remarks"):
            # Without memory there is no first report either.
            checks.has("without memory there is no report at all", page.title, NO_MEMORY)
        elif job == "batch":
            checks.equal("without memory the programs of a drop have no verdict", page.value(said), "2,? a.ngc,? b.ngc")
        else:
            checks.has(f"without memory the {job} says so", page.value(said), "memory")
        page.use_module(page.module)
        prepare(page, job)
        page.value(f"{begin}; 0")
        page.wait(works, 60)
        checks.expect(f"  and the next {job} works", True)
    each_size(checks, page)
    page.use_module(page.module)
    page.example("slot.ngc")


def each_size(checks, page):
    """Gives the module less and less memory. A call then returns what the program writes, or 900, or 902, or the page has no space."""
    body = "".join(f"G1 X{20 + at % 60}.{at % 1000:03} Y30\n" for at in range(2000))
    (page.folder / "some.ngc").write_text(TOOL + "Z2\nG1 Z-3 F300\n" + body + "G0 Z20\nM9\nG28 Z20\nM30\n")
    files = (page.folder / "some.ngc", "named_mill.toml", "tools.toml")
    certificate = page.native("certify", "--format", "2", files=files).stdout
    (page.folder / "some.cert").write_bytes(certificate)
    page.use_module(page.module)
    page.give({"some.ngc": (page.folder / "some.ngc").read_text()})
    page.value(f"window.cert = new TextEncoder().encode({json.dumps(certificate.decode())}); 0")
    calls = {
        "ngc_report": (["report"], [0, 0], ""), "ngc_draw": (["draw", "--view", "top"], [0, 0], ""), "ngc_list": (["list"], [0], ""), "ngc_certify": (["certify", "--format", "2"], [1], ""),
        "ngc_check": (["check", "--certificate", "some.cert"], [], "cert"), "ngc_pulses": (["pulses", "--certificate", "some.cert"], [0], "cert"),
    }
    least, places = memory_of(page.module), (1 << 20) // 65536
    wanted = {export: page.native(*words, files=files) for export, (words, _, _) in calls.items()}
    seen, wrong = {export: {} for export in calls}, {export: [] for export in calls}
    for pages in (least, least + places // 2, *(least + places + it for it in (1, 4, 7, 12, 16, 24, 32, 64, 128, 4096))):
        page.use_module(with_most_memory(page.module, pages))
        for export, (_, options, more) in calls.items():
            made, given = wanted[export], f"['program', 'machine', 'tools'{', cert' if more else ''}]"
            got = page.value(f"ngc.jobs.run('test', 'test', 'output', {{ name: '{export}', given: {given}, options: {options} }}).then(it => [it.status, new TextDecoder().decode(it.output), it.text], it => [it.kind, it.text, ''])")
            same = got == [made.returncode, made.stdout.decode(), made.stderr.decode()]
            kind = "no space" if got[0] == "memory" else "the bytes of the program" if same else got[2].strip() if got[0] == 1 and got[2] in ("ngc: fault 900\n", "ngc: fault 902\n") else None
            if not kind:
                wrong[export].append((pages, got[0], got[1][:100], got[2][:100]))
            seen[export][kind] = seen[export].get(kind, 0) + 1
    for export in calls:
        met = ", ".join(f"{it} {times} times" for it, times in seen[export].items())
        checks.expect(f"{export} with {sum(seen[export].values())} sizes of memory never traps: {met}", not wrong[export], wrong[export])


def traps(checks, page):
    page.example("slot.ngc")
    trap = page.value("ngc.jobs.run('test', 'test', 'output', { name: 'ngc_explain', given: [], options: [1n << 50n, 10n] }).then(() => 'none', it => it.kind)")
    checks.expect("a call with options of another type fails, and not silently", trap in ("trap", "other"), trap)
    checks.begins("the next call of the same worker works", page.value("ngc.jobs.run('test', 'test', 'explain', { number: 304 }).then(it => it.text)"), "Fault 304")
    missing = page.value("ngc.jobs.run('test', 'test', 'output', { name: 'ngc_nothing' }).then(() => 'none', it => it.kind)")
    checks.equal("a call that the module lacks is named as one", missing, "missing")
    page.use_module(with_little_stack(page.module, 64))
    page.do("ngc.actions.example('low_slot.ngc')")
    checks.begins("with a stack of 64 bytes the verdict is one of its own", page.title, "The checker ended unexpectedly")
    checks.equal("no figures of an earlier one are beside it", page.value("document.getElementById('bars').children.length + document.querySelectorAll('#warnings .card').length"), 0)
    page.forget_notices()
    page.value("ngc.actions.save('certificate'); 0")
    page.wait("document.getElementById('notices').textContent !== ''")
    checks.begins("a save says the same", page.notices, "Nothing was saved. The checker ended unexpectedly")
    page.use_module(page.module)
    page.do("ngc.actions.check()")
    checks.begins("with the module as it was the next run works", page.title, "Line 15 hits")
    page.example("slot.ngc")


def unable(checks, page):
    """A browser that can't compile the module, as one without 64-bit memory."""
    broken = base64.b64encode(gzip.compress(b"\0asm\1\0\0\0\x7f")).decode()
    file = page.folder / "unable.html"
    file.write_text(re.sub(r'(id="module">).*?(</script>)', lambda it: it[1] + broken + it[2], page.file.read_text(), flags=re.S))
    page.browser.open(file)
    checks.begins("where the browser can't compile the module, the page says so", page.title, "This browser can't run the page: it has no 64-bit WebAssembly memory.")
    checks.has("and which browsers can", page.text("verdict-detail"), "Chromium 133 or later and Firefox 134 or later")
    page.browser.open(page.file)
    page.settle()
    page.show_picture(page.shows_picture)


def without_library(checks, page):
    """three.js that can't be unpacked, and another text in its place, which the policy of the page doesn't name."""
    packed, events = lambda text: base64.b64encode(gzip.compress(text)).decode(), list(page.browser.events)
    # A machine that an earlier group has kept would be that of this page too.
    page.value("localStorage.clear(); 0")
    for what, library, is_quiet in (("can't be unpacked", packed(b"x")[:20], True), ("isn't what the policy names", packed(b"window.THREE = {}; window.harmed = true;"), False)):
        file = page.folder / "without_library.html"
        file.write_text(re.sub(r'(id="library">).*?(</script>)', lambda it: it[1] + library + it[2], page.file.read_text(), flags=re.S))
        page.browser.events.clear()
        page.browser.open(file)
        page.wait("document.querySelector('#labels img.drawing') !== null")
        checks.has(f"where three.js {what} a notice says so, and the drawing of `ngc draw` is shown", page.notices, "There is no picture in three dimensions, since three.js can't be used.")
        checks.begins("there is a verdict", page.title, "Fits")
        checks.equal("no other text runs", page.value("typeof harmed"), "undefined")
        page.do("ngc.actions.example('low_slot.ngc')")
        checks.begins("another program has one", page.title, "Line 15 hits")
        page.forget_notices()
        page.value("ngc.actions.save('picture'); 0")
        page.wait("document.getElementById('notices').textContent !== ''")
        checks.begins("there is no picture to save", page.notices, "There is no picture in three dimensions: save the drawing.")
        drawing = page.native("draw", "--view", "iso", files=("low_slot.ngc", "named_mill.toml", "tools.toml")).stdout
        checks.equal("the drawing is saved", saved_file(page, "ngc.actions.save('drawing')", "low_slot.iso.svg", len(drawing)), drawing)
        page.value("ngc.parts.setupSheet.build(); 0")
        checks.has("the setup sheet has the verdict", page.text("sheet"), page.title)
        if is_quiet:
            # Firefox itself logs that the packed text ends too early.
            checks.equal("no failure is left unhandled", [it for it in complaints(page.browser) if "ReadableStream" not in it], [])
        page.do("ngc.actions.example('slot.ngc')")
    page.browser.open(page.file)
    page.settle()
    page.show_picture(page.shows_picture)
    page.browser.events[:] = events


# ---- paper


def paper(checks, page):
    for name in ("slot.ngc", "low_slot.ngc", "holes.ngc"):
        page.example(name)
        page.value("ngc.parts.setupSheet.build(); 0")
        pages = pages_of(page.browser.paper())
        checks.equal(f"the setup sheet of {name} is one page", pages, 1)
    words = page.text("sheet")
    checks.has("it has the verdict, the zero, the tools, their figures and the fixtures", words, page.title, "Zero, mm", "Tools to set up", "Figures of each tool", "Fixtures, mm", "left clamp", "EXAMPLE MACHINE")
    tools = "".join(f"\n[[tool]]\nnumber = {at}\nname = \"cutter {at}\"\nlength = 45000000\ndiameter = 8000000\noffset = 45000000\n" for at in range(1, 31))
    many = "".join(f"T{at} M6\nS2000 M3\nG43 H{at}\nG0 Z20\nX20 Y30\nG1 Z2 F{100 + at}\nG0 Z20\n" for at in range(1, 31))
    machine = page.read("named_mill.toml") + "".join(f"\n[[fixture]]\nname = \"stop {at}\"\nlow = [{280 + at}000000, 280000000, -100000000]\nhigh = [{281 + at}000000, 299000000, -90000000]\n" for at in range(15))
    page.give({"many.ngc": f"G21 G90 G17 G54\n{many}M9\nG28 Z20\nM30\n", "m.toml": machine, "many_tools.toml": tool_table(page, tools)})
    page.value("ngc.parts.setupSheet.build(); 0")
    checks.expect("a program with 30 tools and a machine with 18 fixtures is checked", "can't be used" not in page.title and "refused" not in page.title, page.title)
    checks.equal("their setup sheet is one page", pages_of(page.browser.paper()), 1)
    checks.has("and says how many rows there are more", page.text("sheet"), "the first 8 of 18")
    page.example("slot.ngc")


def tool_table(page, tools):
    """A table with the head of the examples'."""
    head = page.read("tools.toml").split("[[tool]]")[0]
    body = page.read("tools.toml").split("[[tool]]")[1]
    keys = dict(re.findall(r"(?m)^(\w+) = (.*?)(?:\s*#.*)?$", body))
    made = []
    for at in range(1, 31):
        made.append("[[tool]]\n" + "".join(f"{key} = {at if key == 'number' else value}\n" for key, value in keys.items()))
    return head + "\n".join(made)


def pages_of(pdf):
    """The number of pages of a PDF, whose page tree may be in a compressed stream."""
    parts = [pdf]
    for found in re.finditer(rb"stream\r?\n(.*?)\r?\nendstream", pdf, re.S):
        try:
            parts.append(zlib.decompress(found[1]))
        except zlib.error:
            pass
    return sum(len(re.findall(rb"/Type\s*/Page\b(?!s)", it)) for it in parts)


def complaints(browser):
    """What the browser wrote to its console, without what it says of a graphics card that isn't there."""
    return [it for it in browser.complaints() if not re.search(r"WebGL|GPU stall|GL Driver|WEBGL_debug_renderer_info", it)]


def quiet(checks, page):
    """At the end: no request and no complaint."""
    requests = page.value("performance.getEntriesByType('resource').map(it => it.name).filter(it => !/^(blob|data):/.test(it))")
    checks.equal("no request left the page", requests, [])
    checks.equal("the browser's console is empty", complaints(page.browser), [])


PICTURED = ("finished_part", "picture_and_player", "paper", "access", "keyboard", "phone", "quiet")
GROUPS = {it.__name__: it for it in (verdicts, block_delete, editing, races, file_kinds, machine_and_zero, cuts, margins, material, *PART_GROUPS, *DIALECT_GROUPS, *JOB_GROUPS, save, picture_and_player, search, paper, keeping, hostile, stopped_workers, ended_memory, traps, unable, without_library, access, keyboard, contrast, phone, quiet)}


def take_pictures(page, folder):
    """Pictures for the documents and for whoever looks at the page."""
    folder.mkdir(parents=True, exist_ok=True)
    shots = {
        "refused": ("low_slot.ngc", "light", 1280, 800, 0.75, ""), "playing": ("slot.ngc", "light", 1280, 800, 0.75, "ngc.actions.seek(14)"),
        "dark": ("holes.ngc", "dark", 1280, 800, 0.75, "ngc.actions.seek(60); ngc.actions.tab('report')"), "phone": ("low_slot.ngc", "light", 390, 844, 1, ""),
    }
    for name, (example, theme, width, height, scale, script) in shots.items():
        page.browser.shape(width, height, scale)
        page.example(example)
        page.forget_notices()
        page.do(f"ngc.actions.tab('program'); ngc.store.dispatch({{ type: 'set', values: {{ theme: '{theme}' }} }}); scrollTo(0, 0); {script}")
        page.value("document.querySelector('[data-view=iso]').click(); ngc.parts.picture?.fit(); document.activeElement.blur(); 0")
        page.value(DRAWN)
        page.value(DRAWN)
        (folder / f"{name}.png").write_bytes(page.browser.picture())
    page.browser.shape(1280, 800)


def check_page(checks, browser, file, program, examples, folder, downloads, groups, pictures):
    page = Page(browser, file, program, examples, folder, downloads)
    browser.shape(1280, 800)
    page.open()
    for name, check in GROUPS.items():
        if not groups or name in groups:
            begun = time.time()
            print(f"-- {name}", flush=True)
            page.show_picture(name in PICTURED)
            checks.group(check, page)
            browser.shape(1280, 800)
            print(f"-- {name}: {time.time() - begun:.0f} s", flush=True)
    if pictures:
        page.show_picture(True)
        take_pictures(page, pictures)
