"""Checks of the finished part: what `ngc draw --map` writes is the top of the block of material in the picture, and the file that is saved.

The colours that are expected at a place are worked out from docs/REPORTS.md and the program; the bytes are those that the program writes.
"""
import base64
import gzip
import json
import re
import struct
import time
import zlib

from access_checks import CONTRAST, NAMELESS, SMALL, WIDER, tab_to
from browsers import Chromium
from dialect_checks import begin, choose
from job_checks import files_of, native

STOCK = "\n[stock]\nsystem = 1\nlow = [0, 0, -20_000_000]\nhigh = [100_000_000, 60_000_000, 0]\n"
NEEDLE = '\n[[tool]]\nnumber = 9\ndiameter = "1 mm"\nlength = "45 mm"\n'
# A slot from X 20 to X 80 at Z -5, 8 mm wide, and one through the block from X 20 to X 40 at Y 45. Then a rapid straight down to Z -1 at X 50
# Y 15, with a tool of 1 mm.
MARKED = "G21 G90 G17 G54\nT2 M6\nS2000 M3\nG43 H2\nG0 Z20\nX20 Y30\nZ2\nG1 Z-5 F300\nX80\nG0 Z20\nX20 Y45\nZ2\n/G1 Z-20 F300\nG1 X40\nG0 Z20\n" \
    "T9 M6\nG43 H9\nX50 Y15\nZ-1\nZ20\nG28 Z20\nM30\n"
RAPID, PLUNGE = 19, 8   # lines
# The corner of the block in the machine, and its top.
CORNER, TOP = (50, 60), -70
# Heights of 15 mm and of 20 mm in 253 steps, which begin at 3; nothing at all; and a place where a rapid may touch material.
DEEP, WHOLE, NOTHING, RED = (192, 192, 192), (170, 200, 230), (0, 40, 110), (230, 0, 0)
SWITCH, MADE = "document.getElementById('part')", "ngc.partNow(ngc.store.state)"
SHOWN = "[document.getElementById('part-choice').checkVisibility(), !document.querySelector('[data-save=part]').hidden]"
FACE = "(it => it && [it.image.width, it.image.height])(ngc.parts.picture.part)"
OUTPUT = f"(bytes => {{ let text = ''; for (let at = 0; at < bytes.length; at += 30000) text += String.fromCharCode(...bytes.subarray(at, at + 30000)); return btoa(text); }})({MADE}.output)"
# The colours of the canvas at places of the machine.
COLOURS = """(places => {
  const { picture } = ngc.parts, canvas = document.getElementById('canvas'), copy = document.createElement('canvas'), context = copy.getContext('2d');
  [copy.width, copy.height] = [canvas.width, canvas.height];
  picture.draw();
  context.drawImage(canvas, 0, 0);
  const [width, height] = picture.orbit.size, { data } = context.getImageData(0, 0, copy.width, copy.height);
  const at = ([x, y]) => (Math.floor(y * copy.height / height) * copy.width + Math.floor(x * copy.width / width)) * 4;
  return places.map(it => at(picture.screenOf(it))).map(it => [...data.subarray(it, it + 3)]);
})"""
# The colours of the image on the block, a byte each of red, green, blue and how solid it is.
IMAGE = """(image => {
  const copy = document.createElement('canvas'), context = copy.getContext('2d');
  [copy.width, copy.height] = [image.width, image.height];
  context.drawImage(image, 0, 0);
  const { data } = context.getImageData(0, 0, image.width, image.height);
  let text = '';
  for (let at = 0; at < data.length; at += 30000) text += String.fromCharCode(...data.subarray(at, at + 30000));
  return btoa(text);
})(ngc.parts.picture.part.image)"""


def pixels(png):
    """The rows of a PNG with a palette, each a list of colours."""
    at, data = 8, b""
    while at < len(png):
        size, kind = struct.unpack(">I4s", png[at:at + 8])
        body = png[at + 8:at + 8 + size]
        if kind == b"IHDR":
            width, height = struct.unpack(">II", body[:8])
        if kind == b"PLTE":
            palette = [tuple(body[it:it + 3]) for it in range(0, size, 3)]
        if kind == b"IDAT":
            data += body
        at += size + 12
    raw = zlib.decompress(data)
    return [[palette[it] for it in raw[row * (width + 1) + 1:(row + 1) * (width + 1)]] for row in range(height)]


CELL = 0.16   # mm: the width of a cell of a block of 100 mm by 60 mm, or 61 mm; each is a pixel


def at_place(rows, x, y):
    """The colour of the map at a place of the block. The last row of pixels is that of the lowest Y."""
    return rows[len(rows) - 1 - int(y / CELL)][int(x / CELL)]


def others(found, wanted):
    """The places whose colours differ by more than a rounding."""
    return {place: (colour, wanted[place]) for place, colour in found.items() if max(abs(a - b) for a, b in zip(colour, wanted[place])) > 2}


def write_files(page, **more):
    """Writes the files that the program reads in place of those that the page has."""
    files = {"marked.ngc": MARKED, "stock.toml": page.read("named_mill.toml") + STOCK, "needle.toml": page.read("tools.toml") + NEEDLE, **more}
    for name, text in files.items():
        (page.folder / name).write_text(text)
    return files


def map_of(page, *words, program="marked.ngc", machine="stock.toml", tools="needle.toml"):
    return page.native("draw", "--map", *words, files=(page.folder / program, page.folder / machine, page.folder / tools))


def made(page):
    return base64.b64decode(page.value(OUTPUT))


def turn_on(page, is_on=True):
    page.do(f"if ({SWITCH}.checked !== {json.dumps(is_on)}) {SWITCH}.click()")


def colours_at(page, places):
    """The colours of the picture at places of the block's top."""
    places = list(places)
    return dict(zip(places, map(tuple, page.value(f"{COLOURS}({json.dumps([[CORNER[0] + x, CORNER[1] + y, TOP] for x, y in places])})"))))


def same_map(checks, what, page, wanted):
    """Whether the page has these bytes, which are a PNG, and not those before."""
    checks.expect(what, made(page) == wanted.stdout and wanted.stdout.startswith(b"\x89PNG"), len(wanted.stdout))


def close_up(page, x, y, scale):
    """Looks at a place of the block's top from near by."""
    page.value(f"Object.assign(ngc.parts.picture.orbit, {{ scale: {scale} }}).target.set({CORNER[0] + x}, {CORNER[1] + y}, {TOP}); ngc.parts.picture.orbit.moved(); 0")


LABELS = "[...document.querySelectorAll('#labels .touch')].map(it => it.textContent)"
# What is left of the part on the screen as soon as the page knows of a change.
GONE = f"Promise.resolve().then(() => [{FACE}, document.getElementById('legend').textContent.includes('not cut'), {LABELS}])"


def finished_part(checks, page):
    """The switch, the top of the block in the picture, and what it goes with."""
    begin(page)
    checks.equal("without a block of material there is no switch, and nothing to save", page.value(SHOWN), [False, False])
    page.give(write_files(page))
    has_picture = page.value("ngc.parts.picture !== null")
    checks.equal("with one there is", page.value(SHOWN) if has_picture else [True, page.value(SHOWN)[1]], [True, True])
    checks.equal("it is off, and nothing is made", page.value(f"[{SWITCH}.checked, ngc.store.state.slots.part.status]"), [False, "none"])
    turn_on(page)
    wanted = map_of(page)
    same_map(checks, f"when it is on, the page has the {len(wanted.stdout)} bytes of `ngc draw --map`", page, wanted)
    if not has_picture:
        return
    rows = pixels(wanted.stdout)
    checks.expect("they are the top of the block", base64.b64decode(page.value(IMAGE)) == b"".join(bytes((*it, 255)) for row in rows for it in row))
    checks.has("the legend says what its colours mean", page.text("legend"), "not cut", "cut: the darker, the deeper", "nothing left", "may touch material")
    checks.equal("the line of the rapid is at its place", page.value(LABELS), [f"line {RAPID}"])
    page.do("ngc.store.dispatch({ type: 'set', values: { hasRapids: false } }); ngc.store.dispatch({ type: 'line', line: 1, from: 'text' }); document.querySelector('[data-view=top]').click(); ngc.parts.picture.fit()")
    there = {(50, 30): DEEP, (79, 27): DEEP, (83.5, 30): DEEP, (85, 30): WHOLE, (50, 35): WHOLE, (30, 45): NOTHING, (30, 50): WHOLE, (14, 8): WHOLE, (86, 52): WHOLE}
    checks.equal("from above each place has the colour that the program leaves there", others(colours_at(page, there), there), {})
    # Places amid equal cells, clear of the clamps and of where the tool comes down.
    comes_down = ((20, 30), (80, 30), (20, 45), (40, 45), (50, 15))
    grid = [(x, y) for x in range(13, 88) for y in range(2, 59) if all((x - u) ** 2 + (y - v) ** 2 > 9 for u, v in comes_down)]
    near = lambda x, y: {at_place(rows, x + dx, y + dy) for dx in (-.8, 0, .8) for dy in (-.8, 0, .8)}
    even = {it: at_place(rows, *it) for it in grid if len(near(*it)) == 1}
    checks.equal(f"so have {len(even)} places of a grid", others(colours_at(page, even), even), {})
    checks.expect("  of three colours", {DEEP, WHOLE, NOTHING} <= set(even.values()), set(even.values()))
    # A cell is tested if its middle is at most 0.26 mm and half its diagonal from the rapid: at most 0.38 mm. The mark has a radius of 0.4 mm.
    close_up(page, 50, 15, 0.01)
    around = colours_at(page, [(50 + x / 10, 15 + y / 10) for x in range(-12, 13) for y in range(-12, 13)])
    red = [it for it, colour in around.items() if colour[0] > 200 and max(colour[1:]) < 40]
    checks.expect("it is red where the rapid goes down", 20 < len(red) < 80 and all((x - 50) ** 2 + (y - 15) ** 2 < 0.8 ** 2 for x, y in red), red)
    marked = [(x, y) for y, row in enumerate(rows) for x, it in enumerate(row) if it == RED]
    checks.expect("  and nowhere else", marked and all(abs(x * CELL - 50) < 0.9 and abs((len(rows) - y) * CELL - 15) < 0.9 for x, y in marked), marked[:3])
    page.value("ngc.parts.picture.fit(); 0")
    hidden = colours_at(page, [(60, 30)])
    page.do("ngc.store.dispatch({ type: 'line', line: 9, from: 'text' })")
    checks.expect("a chosen motion in the material is drawn over it", hidden == {(60, 30): DEEP} and colours_at(page, [(60, 30)]) != hidden, hidden)
    # ---- nothing old
    page.value("ngc.actions.tab('program'); 0")
    checks.equal("at the first key of an edit it is gone", page.value(f"(ngc.parts.editor.edit({PLUNGE}, 0), document.activeElement.value = 'G1 Z-10 F300', document.activeElement.oninput(), {GONE})"), [None, False, []])
    page.settle()
    write_files(page, **{"deeper.ngc": MARKED.replace("G1 Z-5 F300", "G1 Z-10 F300")})
    same_map(checks, "the edited program has its own", page, map_of(page, program="deeper.ngc"))
    # 10 mm of 20 mm are 126 of 253 steps.
    checks.equal("  with another grey", others(colours_at(page, [(50, 27)]), {(50, 27): (129, 129, 129)}), {})
    page.browser.press("Escape")
    page.give({"marked.ngc": MARKED})
    checks.equal("another setting of block delete takes it away", page.value(f"(ngc.actions.setBlockDelete(true), {GONE})"), [None, False, []])
    page.settle()
    same_map(checks, "  and has its own", page, map_of(page, "--delete"))
    page.do("ngc.actions.setBlockDelete(false)")
    same_map(checks, "the first setting has the first one again", page, wanted)
    page.do("ngc.actions.check()")
    same_map(checks, "so has a check that is made again", page, wanted)
    turn_on(page, False)
    checks.equal("when the switch is off the block is pale again", page.value(f"[{FACE}, document.getElementById('legend').textContent.includes('not cut')]"), [None, False])
    page.give({"bad.ngc": "G0 G5 X1\nM2\n"})
    checks.equal("a refused program has the switch", page.value(SHOWN), [True, True])
    turn_on(page)
    checks.has("  and the legend says that nothing is left to show", page.text("legend"), "There is no finished part: the program is refused.")
    checks.equal("  and the block is pale", page.value(FACE), None)
    page.give({"crash.ngc": page.read("low_slot.ngc")})
    (page.folder / "crash.ngc").write_text(page.read("low_slot.ngc"))
    checks.begins("a program that hits a clamp is refused", page.title, "Line 15 hits")
    same_map(checks, "  and has a finished part all the same", page, map_of(page, program="crash.ngc"))
    # ---- the part while it is made
    page.give({"marked.ngc": MARKED})
    turn_on(page, False)
    watched = "new Promise(done => { let turns = 0; ngc.store.dispatch({ type: 'set', values: { hasPart: true } }); ngc.files.putBack('tools', ngc.store.state.files.tools); const look = () => { if (ngc.jobs.isBusy('part')) { %s } else if (++turns %% 50) queueMicrotask(look); else setTimeout(look, 0); }; look(); })"
    checks.equal("it is made after the verdict, and the legend says so", page.value(watched % "queueMicrotask(() => done([ngc.current(ngc.store.state, 'report') !== null, document.getElementById('legend').textContent.includes('The finished part is being made.')]));"), [True, True])
    page.settle()
    page.value(watched % "document.getElementById('part-stop').click(); queueMicrotask(() => done(0));")
    checks.equal("Stop ends it, and turns the switch off", page.value(f"[ngc.jobs.isBusy('part'), {SWITCH}.checked, {FACE}, ngc.jobs.isBusy('verdict')]"), [False, False, None, False])
    turn_on(page)
    same_map(checks, "  and it can be made again", page, wanted)
    # ---- everyone
    checks.equal("each control has a name", page.value(NAMELESS), [])
    if isinstance(page.browser, Chromium):
        page.value("document.activeElement.blur(); scrollTo(0, 0); 0")
        checks.expect("Tab reaches the switch", tab_to(page, SWITCH))
        page.browser.press(" ")
        checks.equal("  and the space bar turns it", page.value("[ngc.store.state.hasPart, ngc.store.state.isPlaying]"), [False, False])
        page.browser.press(" ")
        page.settle()
    for theme in ("dark", "light"):
        page.do(f"ngc.store.dispatch({{ type: 'set', values: {{ theme: '{theme}' }} }})")
        weak = [it for it in page.value(CONTRAST) if it[0] < 4.5]
        checks.equal(f"{theme}: each text has a contrast of at least 4.5", weak, [])
        checks.equal("  and the part its colours", others(colours_at(page, there), there), {})
    page.do("ngc.store.dispatch({ type: 'set', values: { theme: 'auto' } })")
    apart = "(([a, b]) => a.bottom <= b.top || b.bottom <= a.top || a.right <= b.left || b.right <= a.left)(['views', 'options'].map(it => document.getElementById(it).getBoundingClientRect()))"
    inside = "((a, b) => a.left >= b.left && a.right <= b.right && a.bottom <= b.bottom)(document.getElementById('options').getBoundingClientRect(), document.getElementById('view').getBoundingClientRect())"
    for width, height in ((320, 700), (390, 844), (900, 700), (1280, 800)):
        page.browser.shape(width, height)
        page.value("document.getElementById('part-stop').hidden = false; 0")
        checks.equal(f"{width} points: nothing is wider, each control has 24 points, and the switch is in the picture beside the views", page.value(f"[document.documentElement.scrollWidth <= {width}, {WIDER}, {SMALL}, {apart}, {inside}]"), [True, [], [], True, True])
        page.value("document.getElementById('part-stop').hidden = true; 0")
    page.browser.shape(1280, 800)
    # 61 mm are 381.25 cells, so that the last row of cells reaches beyond the block. The edge of the slot is where its cells are.
    odd = write_files(page, **{"odd.toml": page.read("named_mill.toml") + STOCK.replace("60_000_000", "61_000_000")})["odd.toml"]
    page.give({"odd.toml": odd})
    rows = pixels(map_of(page, machine="odd.toml").stdout)
    close_up(page, 30, 48.75, 0.005)
    edge = {(30.1, y / 100): at_place(rows, 30.1, y / 100) for y in range(4800, 4950) if 1 < y % 16 < 15}
    checks.expect("the edge of a slot is among them", {NOTHING, WHOLE} == set(edge.values()), set(edge.values()))
    checks.equal("each cell is at its place on a block with a part of a cell at its end", others(colours_at(page, edge), edge), {})
    page.do("ngc.store.dispatch({ type: 'set', values: { hasPart: false, hasRapids: true } })")
    begin(page)


def part_files(checks, page):
    """The file that is saved, and the part in all that goes with a program: the setting of block delete, zeros, controls, job files."""
    begin(page)
    page.give(write_files(page))
    wanted = map_of(page)
    saved_is(checks, page, wanted, "the finished part is saved with the bytes of `ngc draw --map`, also while it isn't shown")
    page.do("ngc.actions.setBlockDelete(true)")
    saved_is(checks, page, map_of(page, "--delete"), "at the other setting of block delete with those of `--delete`")
    page.do("ngc.actions.setBlockDelete(false)")
    turn_on(page)
    page.do("ngc.actions.setOrigins({ G54: [51e6, 60e6, -71e6] })")
    same_map(checks, "at another zero it is that of `--origin`", page, map_of(page, "--origin=54=51,60,-71"))
    page.do("ngc.actions.setOrigins({}); ngc.actions.setDemands({ margin: 1e6, travelMargin: null, rapids: 'free' })")
    same_map(checks, "with a margin it is that of `--margin`", page, map_of(page, "--margin=1", "--rapids=free"))
    page.do("ngc.actions.setDemands({ margin: null, travelMargin: null, rapids: null }); ngc.actions.setCuts(64)")
    same_map(checks, "more cuts change nothing of it", page, wanted)
    page.do("ngc.actions.setCuts(null)")
    page.do(choose("fanuc"))
    same_map(checks, "in the language of a control it is that of `--dialect`", page, map_of(page, "--dialect=fanuc"))
    page.do(choose("own"))
    page.forget_notices()
    page.value("ngc.actions.save('part'); ngc.actions.setBlockDelete(true); 0")
    page.wait("document.getElementById('notices').textContent !== ''")
    checks.begins("if another setting comes meanwhile nothing is saved", page.notices, "What is shown changed in the meantime: nothing was saved.")
    page.settle()
    page.do("ngc.actions.setBlockDelete(false)")
    page.do("ngc.actions.removeStock()")
    checks.equal("without the block the switch is gone, and so is the part", page.value(f"[{SHOWN}, {MADE}]"), [[False, False], None])
    page.forget_notices()
    page.value("ngc.actions.save('part'); 0")
    page.wait("document.getElementById('notices').textContent !== ''")
    checks.begins("  and there is nothing to save", page.notices, "There is nothing to save. ngc: fault 730")
    begin(page)
    turn_on(page)
    page.give(files_of(page))
    checks.equal("a job file with a block brings the switch", page.value(SHOWN)[1:], [True])
    same_map(checks, "  and the map of `ngc draw --map` beside it", page, native(page, "draw", "--map"))
    page.do("ngc.actions.forgetJob()")
    checks.equal("without the job file it is gone", page.value(MADE), None)
    checks.equal("nothing else was saved", [it.name for it in page.downloads.iterdir()], [])
    begin(page)


def saved_is(checks, page, wanted, what):
    """Saves the finished part of marked.ngc. Chromium drops what is saved after ten other files within some seconds: then it is saved again."""
    page.forget_notices()
    file, click = page.downloads / "marked.part.png", "document.querySelector('[data-save=part]').click(); 0"
    is_there = lambda: file.exists() and file.stat().st_size == len(wanted.stdout)
    for _ in range(4):
        page.value(click)
        page.wait("document.getElementById('notices').textContent !== ''")
        until = time.time() + 5
        while not is_there() and time.time() < until:
            time.sleep(0.02)
        if is_there():
            break
    checks.expect(what, is_there() and file.read_bytes() == wanted.stdout and wanted.stdout.startswith(b"\x89PNG"), len(wanted.stdout))
    checks.begins("  and the page says so", page.notices, f"Saved as {file.name}, ")
    file.unlink(missing_ok=True)


def part_without_webgl(checks, page):
    """Where three.js can't be used, the finished part is shown as an image in place of the drawing."""
    events = list(page.browser.events)
    page.value("localStorage.clear(); 0")
    broken = base64.b64encode(gzip.compress(b"x")).decode()[:20]
    file = page.folder / "without_library.html"
    file.write_text(re.sub(r'(id="library">).*?(</script>)', lambda it: it[1] + broken + it[2], page.file.read_text(), flags=re.S))
    page.browser.open(file)
    page.wait("document.querySelector('#labels img.drawing') !== null")
    page.settle()
    page.show_picture(True)
    page.forget_notices()
    checks.equal("without three.js and without a block there is no switch", page.value(SHOWN), [False, False])
    page.give(write_files(page))
    checks.equal("with a block there is", page.value(SHOWN), [True, True])
    checks.equal("the other options are hidden, since they do nothing", page.value("['rapids', 'colour', 'views'].map(it => document.getElementById(it).checkVisibility())"), [False, False, False])
    turn_on(page)
    shown = "(it => [it?.naturalWidth, it?.naturalHeight, Boolean(it?.alt)])(document.querySelector('#labels img.map'))"
    page.wait("document.querySelector('#labels img.map')?.complete")
    checks.equal("the map is shown as an image", page.value(shown), [625, 375, True])
    same_map(checks, "  of the bytes of `ngc draw --map`", page, map_of(page))
    checks.has("  with what its colours mean", page.text("part-note"), "not cut", "may touch material")
    checks.equal("at the first key of an edit it is gone", page.value(f"(ngc.actions.tab('program'), ngc.parts.editor.edit({PLUNGE}, 0), document.activeElement.value = 'G1 Z-9 F300', document.activeElement.oninput(), Promise.resolve().then(() => document.querySelector('#labels img.map') === null))"), True)
    page.settle()
    checks.equal("and there again", page.value(shown), [625, 375, True])
    page.browser.press("Escape")
    page.give({"bad.ngc": "G0 G5 X1\nM2\n"})
    checks.equal("of a refused program it says that there is none", page.text("part-note"), "There is no finished part: the program is refused.")
    page.do("ngc.files.useExampleMachine(); ngc.actions.example('slot.ngc')")
    page.value("localStorage.clear(); 0")
    checks.equal("without the block the drawing is back", page.value("[document.querySelector('#labels img.map'), document.querySelector('#labels img.drawing') !== null]"), [None, True])
    page.browser.open(page.file)
    page.settle()
    page.show_picture(page.shows_picture)
    page.browser.events[:] = events


PART_GROUPS = (finished_part, part_files, part_without_webgl)
