"""Checks of programs that are read in the language of their control: the page asks once, says whose language was read, passes it to each
command, and keeps the answer with the machine file."""
import json
import re

from access_checks import CONTRAST, NAMELESS, SMALL, WIDER
from browsers import Chromium

NAMES = {"linuxcnc": "LinuxCNC", "grbl": "GRBL", "mach3": "Mach3", "fanuc": "Fanuc"}
HEAD = "G21 G90 G17 G54\nT2 M6\nS2000 M3\nG43 H2\nG0 Z20\nX20 Y30\n"
# Three plunges of a subprogram, 2 mm deeper each time, 5 mm apart. They end 2 mm above the zero, at it, and 2 mm below it.
LOOP = HEAD + "o100 sub\nG1 Z[2 - 2 * #1] F300\nG0 Z20\no100 endsub\n#<i> = 0\no110 while [#<i> LT 3]\nX[20 + 5 * #<i>]\no100 call [#<i>]\n#<i> = [#<i> + 1]\n" \
    "o110 endwhile\nM5\nM2\n"
# The last plunge of these goes below the travel: the zero is at Z -70, the nose 45 mm above the tip, and the travel ends at -100.
DEEP = LOOP.replace("Z[2 - 2 * #1]", "Z[2 - 40 * #1]")
# The same program for two controls: P is seconds for one, and milliseconds for the other.
WAITS = HEAD + "G4 P2\nG0 Z10\nM30\n"
TITLE_NOW = "document.getElementById('verdict-title').textContent"
ASKED = "document.getElementById('ask-words').textContent"
CHOICE = "document.getElementById('language')"
FACTS = "JSON.stringify(ngc.current(ngc.store.state, 'report').facts)"
CONTROL = "ngc.store.state.control"
CERTIFICATE = "document.querySelector('.chip.certificate .about').textContent"
VERDICTS = "ngc.store.state.programs.map(it => it.verdict).join()"
MACHINE, TOOLS = "named_mill.toml", "tools.toml"


def click(name):
    return f"[...document.querySelectorAll('#ask button, #verdict-actions button')].find(it => it.textContent === {json.dumps(name)}).click()"


def choose(name):
    return f"{CHOICE}.value = '{name}'; {CHOICE}.onchange()"


def facts_of(output):
    return json.dumps(json.loads(output or b"[]"), separators=(",", ":"), ensure_ascii=False)


def native(page, text, *words):
    """A command of the program on a text as the part program, with the example machine."""
    (page.folder / "given.ngc").write_text(text)
    return page.native(*words, files=(page.folder / "given.ngc", MACHINE, TOOLS))


def begin(page):
    page.value("localStorage.clear(); 0")
    page.open()


def give_with_machine(page, text, name="part.ngc"):
    page.give({name: text, "mine.toml": page.read(MACHINE), "mine_tools.toml": page.read(TOOLS)})


# ---- the question, and its answer


def asking(checks, page):
    """The page asks for the control once, and says whose language was read."""
    begin(page)
    checks.equal("an example is read in its own language", [page.value(f"{CHOICE}.value"), page.value(f"{CHOICE}.disabled")], ["own", True])
    checks.equal("and nothing is asked about it", page.value(ASKED), "")
    page.give({"loop.ngc": LOOP})
    checks.begins("a program with O words is refused in our own language", page.title, "Line 7 can't be read")
    checks.equal("and the page asks which control it is for", page.value(ASKED), "It looks like a program for LinuxCNC. Which control is the program for?")
    checks.equal("each control is an answer, and none of them", page.value("[...document.querySelectorAll('#ask button')].map(it => it.textContent).join()"), "LinuxCNC,GRBL,Mach3,Fanuc,None of them")
    checks.equal("while it asks each control has a name", page.value(NAMELESS), [])
    for theme in ("light", "dark"):
        page.do(f"ngc.store.dispatch({{ type: 'set', values: {{ theme: '{theme}' }} }})")
        checks.equal(f"the question has a contrast of 4.5 in {theme} colours", [it for it in page.value(CONTRAST) if it[0] < 4.5], [])
    page.do("ngc.store.dispatch({ type: 'set', values: { theme: 'light' } })")
    for width in (320, 390, 1280):
        page.browser.shape(width, 800)
        checks.equal(f"at {width} points nothing is wider than the window, and no control is small", [page.value(WIDER), page.value(SMALL)], [[], []])
    page.do(click("LinuxCNC"))
    made = native(page, LOOP, "report", "--json", "--dialect", "linuxcnc")
    checks.expect("as a program for LinuxCNC it fits, and the verdict says which was used", page.title.startswith("Fits: ") and page.title.endswith(". Read as LinuxCNC."), page.title)
    checks.equal("the facts are those of `ngc report --dialect linuxcnc`", page.value(FACTS), facts_of(made.stdout))
    checks.equal("the choice beside the name shows it, and the question is gone", [page.value(f"{CHOICE}.value"), page.value(ASKED)], ["linuxcnc", ""])
    page.value("ngc.parts.setupSheet.build(); 0")
    checks.has("the setup sheet says it too", page.text("sheet"), "Read as LinuxCNC.")
    page.give({"next.ngc": LOOP.replace("LT 3", "LT 2")})
    checks.expect("the next program is read so without a question", page.title.endswith(". Read as LinuxCNC.") and page.value(ASKED) == "", page.title)
    page.do("ngc.actions.example('low_slot.ngc')")
    checks.begins("an example is read in its own language all the same", page.title, "Line 15 hits the left clamp: raise it by 5 mm, or move it 14 mm toward X+ or Y+.")
    checks.expect("and doesn't say another", "Read as" not in page.title, page.title)
    checks.equal("beside an example machine the answer isn't kept", [page.value(CONTROL), page.value("localStorage.getItem('ngc control')")], [None, None])
    page.give({"loop.ngc": LOOP})
    page.do(click("None of them"))
    checks.begins("if it is for none of them it stays refused", page.title, "Line 7 can't be read")
    page.give({"again.ngc": LOOP})
    checks.equal("and isn't asked about again", page.value(ASKED), "")
    page.do(click("Is it for a control\u2026"))
    checks.has("a button opens the question", page.value(ASKED), "Which control is the program for?")
    page.do(click("Fanuc"))
    checks.begins("what another control can't read is said in its name", page.title, "Line 7 can't be read at column ")
    checks.has("  with the name of the control", page.title, "Fanuc", "Read as Fanuc.")
    for text, asked in ASKED_ABOUT.items():
        begin(page)
        page.give({"asked.ngc": text})
        checks.equal(f"{text.splitlines()[0][:40]!r} is {'asked about' if asked else 'not asked about'}", page.value(ASKED), asked)
    begin(page)
    page.give({"edited.ngc": "G21\nM2\n"})
    page.edit(1, "G0 G5")
    page.settle()
    checks.begins("while a program is edited here", page.title, "Line 1 is refused: the code G5 is unknown.")
    checks.equal("  nothing is asked", page.value(ASKED), "")
    page.browser.press("Escape")
    page.example("slot.ngc")


WHICH = "Which control is the program for?"
# The beginnings of texts, which are refused in our own language, and what is asked.
ASKED_ABOUT = {
    "(made by grbl_post)\nG0 X1 K2\nM2\n": f"It looks like a program for GRBL. {WHICH}", "$H\nG0 X1\n": f"It looks like a program for GRBL. {WHICH}",
    "( for Mach2/3 from Vectric )\nG21 G0 G17 G1 X1\nM2\n": f"It looks like a program for Mach3. {WHICH}", "%\nO1000\nG0 X1\nM30\n%\n": f"It looks like a program for Fanuc. {WHICH}",
    "#1=0\nWHILE [#1 LT 3] DO1\n#1=[#1+1]\nEND1\nM30\n": f"It looks like a program for Fanuc. {WHICH}", "#<depth> = 2\nG0 X#<depth>\nM2\n": f"It looks like a program for LinuxCNC. {WHICH}",
    "G21\nG0 X1\n": WHICH, "G64 P0.01\nM2\n": WHICH, "G0 X[1/0]\nM2\n": "", "G21 G1 X5\nM2\n": "", "G21 G53 G0 X310\nM2\n": "", "T9 M6\nM2\n": "",
}


def named_by_the_machine(checks, page):
    """The machine file's key `dialect` answers the question, and an answer of the user wins over it."""
    begin(page)
    named = page.read(MACHINE).replace("version = 2\n", 'version = 2\ndialect = "linuxcnc"\n', 1)
    page.give({"loop.ngc": LOOP, "named.toml": named, "mine_tools.toml": page.read(TOOLS)})
    checks.expect("a machine file that names a control answers the question", page.title.startswith("Fits: ") and page.title.endswith(". Read as LinuxCNC."), page.title)
    checks.equal("  nothing is asked, and the choice shows it", [page.value(ASKED), page.value(f"{CHOICE}.value")], ["", "linuxcnc"])
    page.do(choose("own"))
    checks.begins("the user's answer wins over the machine file", page.title, "Line 7 can't be read")
    page.give({"again.ngc": LOOP})
    checks.begins("  also for the next program", page.title, "Line 7 can't be read")
    page.do("ngc.actions.removeFixture(1)")
    checks.equal("  and when the machine is changed here", page.value(CONTROL), "own")
    page.give({"other.toml": named.replace("linuxcnc", "grbl")})
    checks.equal("the next machine file answers again", page.value(f"{CHOICE}.value"), "grbl")
    page.give({"none.toml": page.read(MACHINE)})
    checks.equal("one that names none leaves it open", [page.value(f"{CHOICE}.value"), page.value(CONTROL)], ["own", None])


def keeping_control(checks, page):
    """The answer is kept with the machine file."""
    begin(page)
    give_with_machine(page, LOOP)
    page.do(click("LinuxCNC"))
    checks.equal("the answer is kept with the machine file", page.value("localStorage.getItem('ngc control')"), "linuxcnc")
    page.do("ngc.actions.example('slot.ngc')")
    checks.begins("an example is read in its own language", page.title, "Fits: 72 mm left toward Z\u2212, 6 mm from the front jaw of the vise, 0:35.")
    checks.equal("and the user's answer stays for the user's machine", [page.value(CONTROL), page.value(f"{CHOICE}.value")], ["linuxcnc", "own"])
    page.do("ngc.actions.removeFixture(1)")
    checks.equal("another text of the same machine keeps it", page.value(CONTROL), "linuxcnc")
    page.open()
    checks.equal("the next visit has it", [page.value(CONTROL), page.value("ngc.store.state.files.machine.source")], ["linuxcnc", "kept"])
    checks.expect("its example is read in its own language", "Read as" not in page.title and page.value(f"{CHOICE}.value") == "own", page.title)
    page.give({"loop.ngc": LOOP})
    checks.expect("its first program is read so, and nothing is asked", page.title.endswith("Read as LinuxCNC.") and page.value(ASKED) == "", page.title)
    page.do(choose("own"))
    checks.equal("our own language is kept as well", page.value("localStorage.getItem('ngc control')"), "own")
    page.give({"another.toml": page.read("bench_mill.toml")})
    checks.equal("a new machine file has no answer", [page.value(CONTROL), page.value("localStorage.getItem('ngc control')")], [None, None])
    page.do(click("GRBL"))
    page.do("ngc.files.useExampleMachine()")
    checks.equal("nor has the example machine", page.value(CONTROL), None)
    page.give({"mine.toml": page.read(MACHINE)})
    for broken in ("pathpilot", "", "null", "<b>", "constructor"):
        page.value(f"localStorage.setItem('ngc control', {json.dumps(broken)}); 0")
        page.open()
        checks.equal(f"with {broken!r} in the storage there is no answer", page.value(CONTROL), None)
    begin(page)


def changing_control(checks, page):
    """A changed choice is like a changed file: nothing of the old one stays."""
    begin(page)
    page.give({"loop.ngc": LOOP})
    page.do(click("LinuxCNC"))
    page.do("ngc.actions.place()")
    page.do("ngc.actions.seek(1)")
    at_once = f"(async () => {{ {choose('fanuc')}; for (let k = 0; k < 20; k++) await 0; return [{TITLE_NOW}, document.querySelectorAll('.note').length, document.getElementById('view').dataset.waiting, " \
        "document.getElementById('facts').className, ngc.pathNow(ngc.store.state), document.getElementById('place').textContent, ngc.store.state.time]; })()"
    checks.equal("at once the verdict, the notes, the path, the travel, the shifts and the player's moment are gone", page.value(at_once), ["Checking\u2026", 0, "true", "stale", None, "", None])
    page.settle()
    checks.has("then it has the verdict of the other control", page.title, "Read as Fanuc.")
    for name in (*NAMES, "own"):
        page.give({"waits.ngc": WAITS})
        page.do(choose(name))
        made = native(page, WAITS, "report", "--json", *(["--dialect", name] if name != "own" else []))
        checks.equal(f"as {name} the facts are those of `ngc report`", page.value(FACTS), facts_of(made.stdout))
    long, short = (json.loads(native(page, WAITS, "report", "--json", "--dialect", name).stdout) for name in ("linuxcnc", "fanuc"))
    seconds = [next(it["seconds"] for it in facts if it["fact"] == "time") for facts in (long, short)]
    checks.expect("a dwell of P2 is 2 s for one control, and 2 ms for another", abs(seconds[0] - seconds[1] - 1.998) < 0.002, seconds)
    page.value(f"{CHOICE}.focus(); 0")
    page.do(choose("mach3"))
    checks.equal("the choice keeps the focus", page.value("document.activeElement.id"), "language")
    page.do(choose("linuxcnc"))
    page.give({"slashed.ngc": "G21\n/G0 X5\nG0 X1\nM2\n"})
    page.do("ngc.actions.setBlockDelete(true)")
    page.do(choose("grbl"))
    checks.equal("block delete is off again", page.value("ngc.store.state.blockDelete"), False)
    page.give({"loop.ngc": LOOP})
    page.do(choose("linuxcnc"))
    certificate = native(page, LOOP, "certify", "--format", "2", "--dialect", "linuxcnc").stdout.decode()
    page.give({"loop.cert": certificate})
    checks.equal("a certificate that was made with the dialect is accepted", page.value(CERTIFICATE), "accepted for these files")
    page.do(choose("grbl"))
    checks.begins("it is checked again for another control", page.value(CERTIFICATE), "refused, fault 123")
    page.do(choose("linuxcnc"))
    checks.equal("and accepted again", page.value(CERTIFICATE), "accepted for these files")
    page.value("ngc.actions.forgetCertificate(); 0")
    texts = {"one.ngc": LOOP, "two.ngc": WAITS, "three.ngc": "G71\nG0 X1\nM30\n"}
    page.give(texts)
    for name in ("linuxcnc", "fanuc", "own"):
        page.do(choose(name))
        wanted = [native(page, it, "report", *(["--dialect", name] if name != "own" else [])).returncode for it in texts.values()]
        checks.equal(f"as {name} all dropped programs have the verdicts of `ngc report`", page.value(VERDICTS), ",".join("refused" if it else "fits" for it in wanted))
    page.do(choose("linuxcnc"))
    before = page.value(VERDICTS)
    page.value("ngc.files.use('program', 'made.ngc', new TextEncoder().encode('G21\\nM2\\n'), 'made'); ngc.store.dispatch({ type: 'set', values: { origins: { G54: [50e6, 60e6, -70e6] } } }); 0")
    page.settle()
    checks.equal("beside a rewritten program they are still read as they were", page.value(VERDICTS), before)
    page.example("slot.ngc")


# ---- what depends on the dialect


# Texts that are refused, their control, and the sentence.
REFUSED = [
    ("G0 X1 (a\nM2\n", "linuxcnc", "Line 1 can't be read at column 7: comment not closed. Read as LinuxCNC.", "Fault 123"),
    ("G0 X#<depth>\nM2\n", "linuxcnc", "Line 1 is refused: parameter is not set, or only the control knows it. Read as LinuxCNC.", "Fault 134"),
    ("G0 X[1/0]\nM2\n", "linuxcnc", "Line 1 is refused: division by zero. Read as LinuxCNC.", "Fault 135"),
    ("G21\no1 call\nM2\n", "linuxcnc", "Line 2 is refused: no subprogram or line has this label. Read as LinuxCNC.", "Fault 136"),
    ("o1 while [1]\no1 endwhile\nM2\n", "linuxcnc", "Line 1 is refused: over 2,000,000 lines were executed. Read as LinuxCNC.", "Fault 138"),
    ("o1 sub\no1 call\no1 endsub\no1 call\nM2\n", "linuxcnc", "Line 2 is refused: subprograms nested over 10 deep. Read as LinuxCNC.", "Fault 137"),
    ("".join(f"#<_a{at}>=1\n" for at in range(10_001)) + "M2\n", "linuxcnc", "Line 10001 is refused: over 10,000 names. Read as LinuxCNC.", "Fault 139"),
    ("F60\nG41.1 D2 G1 X9\nG53 G0 Z0\nM2\n", "linuxcnc", "Line 3 is refused at G53: not while cutter compensation is on. Read as LinuxCNC.", "Fault 223"),
    # The machine starts at X -50 of G54, so the entry has 51 mm.
    ("F60\nG41.1 D200 G1 X1\nM2\n", "linuxcnc", "Line 2 is refused at G1: the entry move is not longer than the tool's radius. Read as LinuxCNC.", "Fault 247"),
    ("G0 A5\nM2\n", "linuxcnc", "Line 1 is refused at A: ngc doesn't support rotary and secondary axes, except at 0. Read as LinuxCNC.", "Fault 205 (Programs for other controls)"),
    ("G0 X1 P1\nM2\n", "linuxcnc", "Line 1 is refused at P: nothing uses the word. Read as LinuxCNC.", "Fault 211"),
    ("G91 G2 X10 I4 F100\nM2\n", "linuxcnc", "Line 1 is refused at G2: the radii differ by more than can be evened out. Read as LinuxCNC.", "Fault 248"),
    ("G71\nM30\n", "grbl", "Line 1 is refused at G71: GRBL has no such code. Read as GRBL.", "Fault 204"),
    ("G21\no1 call\nM2\n", "grbl", "Line 2 can't be read at column 1: GRBL has no such construct. Read as GRBL.", "Fault 123"),
    ("T99 M6\nM2\n", "mach3", "Line 1 is refused: the tool table has no tool 99. Read as Mach3.", "Fault 222"),
    ("G21\nG0 X1\n/M66\nM2\n", "linuxcnc", "Line 3 is refused at M66: ngc doesn't support outputs and inputs. Read as LinuxCNC.", "Fault 205 (Programs for other controls)"),
    ("/M2\nM66\nM2\n", "linuxcnc", "Line 2 is refused at M66 with block delete on: ngc doesn't support outputs and inputs. Read as LinuxCNC.", "Fault 205 (Programs for other controls)"),
]


def refusals(checks, page):
    """A program that its control's rules refuse has a sentence, a marked line and an explanation."""
    begin(page)
    give_with_machine(page, "G21\nM2\n")
    for text, control, title, explained in REFUSED:
        page.give({"refused.ngc": text})
        page.do(choose(control))
        checks.equal(f"{text.splitlines()[0]!r}: {title}", page.title, title)
        line = next(word for word in title.split() if word.isdigit())
        marked = page.value("[...document.querySelectorAll('.row.faulty')].map(it => it.dataset.line).join()")
        checks.equal("  its line is marked and chosen", [marked, str(page.value("ngc.store.state.line"))], [line, line])
        checks.begins("  its fault is explained", page.text("explained"), explained)
        checks.expect("  and the detail says what to do", page.text("verdict-detail")[:1].isupper() and "our own" not in page.text("verdict-detail"), page.text("verdict-detail"))
        checks.has("  and named in the report", page.text("report"), f"line {line}", explained[:9].lower())
    page.give({"deep.ngc": DEEP})
    page.do(choose("linuxcnc"))
    made = native(page, DEEP, "report", "--json", "--dialect", "linuxcnc")
    checks.equal("a program that leaves the travel in a loop has the facts of `ngc report`", page.value(FACTS), facts_of(made.stdout))
    # The plunges are to Z 2, -38 and -78 of the tip, and the travel ends at -75.
    checks.begins("the line is the source's", page.title, "Line 8 leaves the travel at Z\u2212 by 3 mm: move it 3 mm toward Z+.")
    checks.has("every place is found as well", page.text("report"), "line 8")
    touched = page.value("(it => [it.command, it.tip.map(at => Math.round(at * 1000) / 1000)])(ngc.contactNow(ngc.store.state))")
    listed = native(page, DEEP, "list", "--dialect", "linuxcnc").stdout.decode().splitlines()
    command = next(it["index"] for it in json.loads(made.stdout) if it["fact"] == "command")
    # X is 50 + 20 + 5 * 2, Y is 60 + 30, and the tip is 45 mm below the end of the travel.
    checks.equal("the tool stops there in the picture", touched, [command, [80, 90, -145]])
    checks.equal("whose commands have the source's lines", page.value("[...ngc.pathNow(ngc.store.state).lines].join()"), ",".join(it.split()[1] for it in listed))
    if page.value("ngc.parts.picture !== null"):
        page.value("ngc.actions.goTo(8, 'text'); 0")
        page.wait("ngc.parts.picture.markedSegments === 3")
        checks.expect("the line's motion is marked each time that it is executed", True)
    page.edit(8, "G1 Z[2 - 2 * #1] F300")
    page.settle()
    checks.expect("an edit of the source is checked in the same language", page.title.startswith("Fits") and page.title.endswith("Read as LinuxCNC."), page.title)
    page.browser.press("Escape")
    page.give({"rewritten.ngc": "(for linuxcnc)\nG21 G64 P0.01\nG0 X1\nM2\n"})
    checks.has("a program can still be rewritten", page.text("adapt-open"), "Rewrite")
    page.value("ngc.actions.adapt(); 0")
    checks.equal("for the control that was chosen", page.value("document.getElementById('control').selectedOptions[0].textContent"), "LinuxCNC")
    page.value("ngc.actions.rewrite().then(() => 0)")
    page.settle()
    checks.equal("what was rewritten is read in our own language", [page.value(f"{CHOICE}.disabled"), "Read as" in page.title], [True, False])
    page.value("document.getElementById('adapt').close(); [...document.querySelectorAll('#notices button')].find(it => it.textContent === 'Back to the original').click(); 0")
    page.wait("ngc.store.state.files.program.name === 'rewritten.ngc'")
    page.settle()
    checks.expect("and the original in that of the control", page.title.endswith("Read as LinuxCNC."), page.title)
    begin(page)


# ---- notes


def notes(checks, page):
    """What is left out of a program for a control, or means something else: each note of the report with what is done, and a card where controls differ."""
    begin(page)
    text = page.read("slot.ngc")
    give_with_machine(page, text)
    checks.equal("a program in our own language has no notes", page.value("ngc.store.state.slots.remarks.status"), "none")
    page.do(choose("grbl"))
    made = native(page, text, "report", "--dialect", "grbl").stdout.decode().split("With block delete on:")[0]
    wanted = re.findall(r"^note \((\w+)\): (.*): (\d+), the first in line (\d+): (.*)\.$", made, re.M)
    kept = {"exact": "the commands are the same", "told": "the motions are the same", "chosen": "controls differ: check yours", "bound": "the path is the same but for this"}
    rows = page.value("[...document.querySelectorAll('#report table')].filter(it => it.caption.textContent === 'Notes about the control').flatMap(it => [...it.tBodies[0].rows].map(row => [...row.cells].map(cell => cell.textContent)))")
    checks.expect("the program has notes", wanted, made)
    checks.equal("the report has each note of `ngc report --dialect grbl`, with what is done", rows, [[line, name + (f" ({count}\u00d7)" if count != "1" else ""), remark, kept[kind]] for kind, name, count, line, remark in wanted])
    cards = page.value("[...document.querySelectorAll('#warnings .card.told')].map(it => it.textContent)")
    differ = [f"iNote: {name}: {remark}" + (f" ({count}\u00d7)" if count != "1" else "") + f" line {line}" for kind, name, count, line, remark in wanted if kind == "chosen"]
    checks.expect("some are about what controls do differently", differ, wanted)
    checks.equal("and have a card each", cards, differ)
    page.edit(1, "(another text)")
    checks.equal("which is gone at the next edit", page.value("new Promise(done => requestAnimationFrame(() => done(document.querySelectorAll('#warnings .card.told').length)))"), 0)
    page.settle()
    page.browser.press("Escape")
    begin(page)


# The end of the saved file's name, and the command, for each button.
SAVES = {
    "report": (".report.txt", ["report"]), "every": (".report.all.txt", ["report", "--all"]), "json": (".report.json", ["report", "--json"]), "every_json": (".report.all.json", ["report", "--all", "--json"]),
    "list": (".list.txt", ["list"]), "certificate": (".cert", ["certify", "--format", "2"]), "certificate_1": (".1.cert", ["certify", "--format", "1"]),
    "drawing": (".iso.svg", ["draw", "--view", "iso"]), "drawing_bodies": (".iso.bodies.svg", ["draw", "--view", "iso", "--bodies"]), "drawing_whole": (".iso.whole.svg", ["draw", "--view", "iso", "--whole"]),
}


def dialect_files(checks, page):
    """What is saved, the zeros and the pulses are those of the dialect."""
    from page_checks import intervals_of, saved_file
    begin(page)
    page.do("document.querySelector('[data-view=iso]').click()")
    for stem, text, control in (("loop", LOOP, "linuxcnc"), ("deep", DEEP, "linuxcnc"), ("waits", WAITS, "fanuc")):
        page.give({f"{stem}.ngc": text})
        page.do(choose(control))
        for key, (end, words) in SAVES.items():
            page.forget_notices()
            made, what, save = native(page, text, *words, "--dialect", control), f"`ngc {' '.join(words)} --dialect {control}`", f"document.querySelector('[data-save={key}]').click()"
            page.value(f"{save}; 0")
            page.wait("document.getElementById('notices').textContent !== ''")
            if made.stdout:
                checks.equal(f"{stem}{end} is saved with the {len(made.stdout)} bytes of {what}", saved_file(page, save, f"{stem}{end}", len(made.stdout)), made.stdout)
            else:
                checks.begins(f"there is nothing to save of {what}, and why", page.notices, f"There is nothing to save. {made.stderr.decode().strip()}")
    page.give({"loop.ngc": LOOP})
    page.do(choose("linuxcnc"))
    (page.folder / "loop.cert").write_bytes(native(page, LOOP, "certify", "--format", "2", "--dialect", "linuxcnc").stdout)
    made = native(page, LOOP, "pulses", "--certificate", "loop.cert", "--dialect", "linuxcnc")
    pulses = "document.querySelector('[data-save=pulses]').click()"
    page.value(f"{pulses}; 0")
    checks.equal(f"loop.vcd is saved with the {len(made.stdout)} bytes of `ngc pulses --dialect linuxcnc`", saved_file(page, pulses, "loop.vcd", len(made.stdout)), made.stdout)
    page.forget_notices()
    page.value(f"ngc.actions.save('list'); {choose('mach3')}; 0")
    page.wait("document.getElementById('notices').textContent !== ''")
    checks.begins("if another control is chosen meanwhile nothing is saved", page.notices, "What is shown changed in the meantime: nothing was saved.")
    page.settle()
    checks.equal("nothing else was saved", [it.name for it in page.downloads.iterdir()], [])
    page.do(choose("linuxcnc"))
    page.do("ngc.actions.place()")
    found = page.value("ngc.current(ngc.store.state, 'place').along.map(it => it && [it.from, it.to])")
    checks.equal("the shifts are those of `ngc place --dialect linuxcnc`", found, intervals_of(json.loads(native(page, LOOP, "place", "--json", "--dialect", "linuxcnc").stdout)))
    page.do("ngc.actions.tab('program'); ngc.actions.setOrigins({ G54: [50e6, 60e6, -99e6] })")
    made = native(page, LOOP, "report", "--json", "--origin", "54=50,60,-99", "--dialect", "linuxcnc")
    checks.equal("at another zero the facts are those of `ngc report --origin --dialect`", page.value(FACTS), facts_of(made.stdout))
    page.do("ngc.actions.setOrigins({})")
    report = json.loads(native(page, LOOP, "report", "--json", "--dialect", "linuxcnc").stdout)
    seconds = next(it["seconds"] for it in report if it["fact"] == "time")
    end = page.value("ngc.timesNow(ngc.store.state).at(-1)")
    checks.expect(f"the player ends at the report's {seconds} s", abs(end - seconds) < 0.01, end)
    if isinstance(page.browser, Chromium):
        without_webgl(checks, page)
    begin(page)


def without_webgl(checks, page):
    """Without WebGL the page shows the drawing of `ngc draw`."""
    script = page.browser.call("Page.addScriptToEvaluateOnNewDocument", source="HTMLCanvasElement.prototype.getContext = () => null")["identifier"]
    page.open()
    page.browser.call("Page.removeScriptToEvaluateOnNewDocument", identifier=script)
    page.give({"loop.ngc": LOOP})
    page.do(click("LinuxCNC"))
    page.wait("document.querySelector('#labels img') !== null")
    checks.expect("without WebGL the drawing is shown", page.value("document.querySelector('#labels img.drawing') !== null"))
    page.do("ngc.actions.example('slot.ngc')")
    checks.expect("an example has its drawing", page.value("document.querySelector('#labels img.drawing') !== null"))


DIALECT_GROUPS = (asking, named_by_the_machine, keeping_control, changing_control, refusals, notes, dialect_files)
