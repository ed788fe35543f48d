"""Checks that everyone can use the page: names and roles, the live regions, the keyboard alone, contrast, narrow windows, a finger."""
import time

from browsers import Chromium

DRAWN = "new Promise(done => requestAnimationFrame(() => requestAnimationFrame(() => setTimeout(done, 0)))).then(() => 0)"
CONTROLS = "button, input, select, summary, canvas, [tabindex]"
SHOWN = "it.checkVisibility() && it.getClientRects().length > 0"
# Controls without a name of their own: a label, a text, or an attribute.
NAMELESS = f"""[...document.querySelectorAll({CONTROLS!r})].filter(it => {SHOWN})
  .filter(it => !(it.getAttribute('aria-label') || it.labels?.length || (it.getAttribute('aria-labelledby') ?? '').split(' ').some(id => document.getElementById(id)?.textContent) || it.textContent.trim() || it.alt))
  .map(it => it.outerHTML.slice(0, 80))"""
# Elements that act on a click and aren't controls. Rows of the text are reached by its arrow keys.
ODD = f"[...document.querySelectorAll('body *')].filter(it => it.onclick && {SHOWN} && !it.closest('button, a, input, select, summary, label, [role=tab], #views')).map(it => it.outerHTML.slice(0, 80))"
DUPLICATES = "[...document.querySelectorAll('[id]')].map(it => it.id).filter((it, at, all) => all.indexOf(it) !== at)"
REACHABLE = f"[...document.querySelectorAll('button:enabled, input:enabled, select:enabled, summary, [tabindex=\"0\"]')].filter(it => {SHOWN} && it.tabIndex >= 0 && !it.closest('[inert]'))"
# The contrasts of WCAG 2 that are below 4.5: of texts, of values and placeholders of fields, and of signs.
CONTRAST = """(() => {
  const context = document.createElement('canvas').getContext('2d', { willReadFrequently: true });
  const colour = name => { context.clearRect(0, 0, 1, 1); context.fillStyle = name; context.fillRect(0, 0, 1, 1); return [...context.getImageData(0, 0, 1, 1).data]; };
  const linear = c => (c <= .04045 ? c / 12.92 : ((c + .055) / 1.055) ** 2.4);
  const light = parts => [.2126, .7152, .0722].reduce((sum, share, at) => sum + share * linear(parts[at] / 255), 0);
  const ratio = (a, b) => (Math.max(a, b) + .05) / (Math.min(a, b) + .05);
  const over = (top, under) => [0, 1, 2].map(at => (top[at] * top[3] + under[at] * (255 - top[3])) / 255).concat(255);
  const ground = it => { if (!it) return colour('Canvas'); const own = colour(getComputedStyle(it).backgroundColor); return own[3] === 255 ? own : over(own, ground(it.parentElement)); };
  const found = [], add = (ink, it, text) => { const under = ground(it), value = ratio(light(over(colour(ink), under)), light(under)); found.push([Math.round(value * 100) / 100, text.trim().slice(0, 30), it.className || it.id || it.tagName]); };
  const shown = selector => [...document.querySelectorAll(selector)].filter(it => it.checkVisibility({ visibilityProperty: true, opacityProperty: true }) && !it.closest(':disabled, .sr, #sheet'));
  for (const it of shown('body *')) {
    const own = [...it.childNodes].filter(node => node.nodeType === 3 && node.data.trim());
    if (own.length && !it.closest('option, script, style')) add(getComputedStyle(it).color, it, own[0].data);
  }
  for (const it of shown('input:not([type=checkbox]):not([type=range]), select')) add(getComputedStyle(it).color, it, it.value || it.id || it.name);
  for (const it of shown('input[placeholder]')) add(getComputedStyle(it, '::placeholder').color, it, it.placeholder);
  for (const it of shown('#verdict .mark')) add(getComputedStyle(it, '::before').color, it, 'sign of the verdict');
  return found;
})()"""
WIDER = f"[...document.body.querySelectorAll('*')].filter(it => {SHOWN} && !it.closest('#strip, #editor, .wide, pre, #labels, svg') && getComputedStyle(it).clipPath === 'none' && it.getBoundingClientRect().right > innerWidth + .5).map(it => `${{it.tagName}} ${{it.id}} ${{it.textContent.trim().slice(0, 30)}} ${{it.getBoundingClientRect().right}}`)"
# Controls of less than 24 points, with their labels. The lines of the text are 21 points high, as lines of text may be.
SMALL = f"""[...document.querySelectorAll('button, select, input, summary')].filter(it => {SHOWN} && !it.closest('.row') && !it.matches(':disabled'))
  .filter(it => [it, ...(it.labels ?? [])].map(it => it.getBoundingClientRect()).every(({{ width, height }}) => width < 23.9 || height < 23.9)).map(it => it.id || it.textContent || it.outerHTML.slice(0, 60))"""
TABS = ("program", "report", "place", "shop")


def each_tab(page):
    for tab in TABS:
        page.value(f"ngc.actions.tab('{tab}'); document.querySelectorAll('#panel details').forEach(it => {{ it.open = true; }}); 0")
        page.value(DRAWN)
        yield tab
    page.value("ngc.actions.tab('program'); document.querySelectorAll('#panel details').forEach(it => { it.open = false; }); 0")


def access(checks, page):
    page.example("low_slot.ngc")
    for tab in each_tab(page):
        checks.equal(f"in the tab {tab} each control has a name", page.value(NAMELESS), [])
        checks.equal(f"in the tab {tab} nothing acts on a click but controls", page.value(ODD), [])
    checks.equal("no two elements have the same id", page.value(DUPLICATES), [])
    page.value("document.getElementById('adapt').showModal(); 0")
    checks.equal("in the form for other controls each control has a name", page.value(NAMELESS), [])
    page.value("document.getElementById('adapt').close(); 0")
    if isinstance(page.browser, Chromium):
        tree(checks, page)
    live = "[...document.querySelectorAll('[role=status]')].map(it => it.id).sort().join()"
    checks.equal("the verdict, the question, the notices, the chosen line, search, zeros and notes are live regions", page.value(live), "adapt-notes,ask-words,hits,notices,place,said,verdict-title")
    page.give({"four.ngc": "G21\nG90\nG54\nT2 M6\nS1 M3\nM2\n"})
    page.value("document.getElementById('editor').focus(); ngc.parts.editor.choose(3); 0")
    page.browser.press("ArrowDown")
    checks.equal("a screen reader hears `Line 4, T2 M6`", page.text("said"), "Line 4, T2 M6")
    page.example("low_slot.ngc")
    page.value("document.getElementById('editor').focus(); ngc.parts.editor.choose(14); 0")
    page.browser.press("ArrowDown")
    checks.has("and what is wrong with the line", page.text("said"), "Line 15, X0 Y30", "hits the left clamp: raise by 5 mm")
    page.browser.press("Enter")
    checks.equal("the field of a line says which one it is", page.value("document.activeElement.getAttribute('aria-label')"), "Line 15 of 26")
    page.browser.press("Escape")
    checks.equal("colours come with words: a setting says whether it fits", page.value("document.querySelector('#settings [role=tab]').getAttribute('aria-label')"), "Block delete off: does not fit")
    checks.expect("motion that isn't wanted stops", page.value("[...document.styleSheets].some(sheet => [...sheet.cssRules].some(it => it.conditionText?.includes('prefers-reduced-motion')))"))
    page.example("slot.ngc")


def tree(checks, page):
    """What a screen reader gets of the page."""
    nodes = [it for it in page.browser.call("Accessibility.getFullAXTree")["nodes"] if not it.get("ignored")]
    role, name = (lambda it: it.get("role", {}).get("value")), (lambda it: it.get("name", {}).get("value", "").strip())
    roles = {role(it) for it in nodes}
    checks.expect("the tree has a heading, a banner, a main part, tabs and a status", {"heading", "banner", "main", "tab", "tabpanel", "status"} <= roles, sorted(map(str, roles)))
    flags = lambda it: {flag["name"]: flag["value"].get("value") for flag in it.get("properties", [])}
    controls = [it for it in nodes if flags(it).get("focusable") and role(it) != "RootWebArea"]
    nameless = [(role(it), it.get("backendDOMNodeId")) for it in controls if not name(it)]
    checks.equal(f"each of its {len(controls)} controls has a name", nameless, [])
    odd = [(role(it), name(it)) for it in controls if role(it) in ("generic", "none", "GenericContainer", "StaticText", None)]
    checks.equal("and a role that says what it is", odd, [])


def focused(page):
    return page.value("(it => it.id || it.dataset.tab || it.dataset.save || it.dataset.view || it.textContent.trim().slice(0, 30))(document.activeElement)")


def tab_to(page, what):
    for _ in range(90):
        if page.value(f"document.activeElement === ({what})"):
            return True
        page.browser.press("Tab")
    return False


def keyboard(checks, page):
    """Everything by the keyboard alone. A Firefox on a display without a window manager never has the focus, so only Chromium is tried."""
    if not isinstance(page.browser, Chromium):
        return
    page.example("low_slot.ngc")
    page.value("document.querySelectorAll('[data-met]').forEach(it => delete it.dataset.met); document.activeElement.blur(); scrollTo(0, 0); 0")
    count = page.value(f"{REACHABLE}.length")
    ringless = []
    for _ in range(count + 12):
        page.browser.press("Tab")
        ring = page.value("(it => { if (it === document.body) return ''; it.dataset.met = 'yes'; return getComputedStyle(it).outlineStyle === 'none' && !it.matches('input.code-text') ? it.id || it.textContent : ''; })(document.activeElement)")
        ringless += [ring] * bool(ring)
    missed = page.value(f"{REACHABLE}.filter(it => !it.dataset.met && !it.matches('input[type=radio]')).map(it => it.id || it.outerHTML.slice(0, 60))")
    checks.equal(f"the Tab key reaches each of the {count} controls, and leaves each", missed, [])
    checks.equal("each shows that it has the focus", ringless, [])
    page.value("document.activeElement.blur(); 0")
    checks.expect("Tab reaches the tabs", tab_to(page, "document.getElementById('t-program')"))
    page.browser.press("ArrowRight")
    checks.equal("an arrow goes to the next tab", page.value("[document.activeElement.id, ngc.store.state.tab]"), ["t-report", "report"])
    page.browser.press("ArrowLeft")
    page.value("document.activeElement.blur(); 0")
    checks.expect("Tab reaches the menu", tab_to(page, "document.querySelector('#save-menu summary')"))
    page.browser.press("Enter")
    checks.expect("Enter opens it", page.value("document.getElementById('save-menu').open"))
    page.browser.press("Escape")
    checks.equal("Escape closes it, and keeps the focus", page.value("[document.getElementById('save-menu').open, document.activeElement.tagName]"), [False, "SUMMARY"])
    # A clamp is hit; the program is repaired without a mouse.
    page.value("document.activeElement.blur(); 0")
    checks.expect("Tab reaches `Go to line 15`", tab_to(page, "document.querySelector('#verdict-actions button')"))
    page.browser.press("Enter")
    checks.expect("Tab reaches the text", tab_to(page, "document.getElementById('editor')"))
    page.browser.press("ArrowUp")
    checks.equal("arrows choose a line", page.value("ngc.store.state.line"), 14)
    page.browser.press("Enter")
    page.browser.press("Home")
    for _ in range(4):
        page.browser.press("ArrowRight")
    page.browser.press("Delete")
    for key in "10":
        page.browser.press(key)
    page.settle()
    checks.begins("typing `Z10` for `Z5` makes the program fit", page.title, "Fits")
    page.browser.press("Escape")
    checks.equal("Escape leaves the line", page.value("document.activeElement.id"), "editor")
    page.browser.press("f", control=True)
    checks.equal("Ctrl+F goes to the search", page.value("document.activeElement.id"), "query")
    page.browser.press("Escape")
    page.browser.press("Tab")
    checks.expect("Tab leaves the text", page.value("document.activeElement.id") != "editor", focused(page))
    page.value("document.activeElement.blur(); 0")
    page.browser.press(" ")
    checks.expect("Space plays", page.value("ngc.store.state.isPlaying"))
    page.browser.press(" ")
    checks.expect("and pauses", not page.value("ngc.store.state.isPlaying"))
    page.browser.press("s", control=True)
    page.wait("!ngc.saving.hasUnsavedEdits", 10)
    checks.expect("Ctrl+S saves the program", True)
    for saved in whole_files(page.downloads):
        saved.unlink()
    page.example("slot.ngc")


def whole_files(folder, seconds=20):
    """The files that a browser has saved. It writes each under another name first, which these endings mark."""
    until = time.time() + seconds
    while any(it.suffix in (".crdownload", ".part") for it in folder.iterdir()) and time.time() < until:
        time.sleep(0.02)
    return list(folder.iterdir())


def contrast(checks, page):
    for theme in ("light", "dark"):
        page.do(f"ngc.store.dispatch({{ type: 'set', values: {{ theme: '{theme}' }} }})")
        for name in ("low_slot.ngc", "slot.ngc", "a warning"):
            if name.endswith(".ngc"):
                page.example(name)
            else:
                page.give({"warned.ngc": "G21 T2 M6\nG43 H2\nG0 Z0\nG1 X10 F100\nM2\n"})
            page.value("ngc.actions.notice('A notice.', ''); ngc.actions.notice('A fault.', 'bad'); ngc.actions.seek(1); 0")
            found = []
            for _ in each_tab(page):
                found += page.value(CONTRAST)
            weak = sorted({tuple(it) for it in found if it[0] < 4.5})
            checks.expect(f"{theme}, {name}: each of {len(found)} texts has a contrast of at least 4.5 (the least is {min(found)[0]})", not weak, weak[:6])
    page.do("ngc.store.dispatch({ type: 'set', values: { theme: 'auto' } })")
    if isinstance(page.browser, Chromium):
        for scheme in ("dark", "light"):
            page.browser.scheme(scheme)
            page.wait(f"document.documentElement.dataset.shade === '{scheme}'", 10)
            checks.expect(f"the page follows a system with {scheme} colours", True)
    page.example("slot.ngc")


def phone(checks, page):
    for width, height in ((320, 700), (390, 844), (1280, 800)):
        page.browser.shape(width, height)
        for name in ("low_slot.ngc", "slot.ngc"):
            page.example(name)
            for tab in each_tab(page):
                wide, wider = page.value("document.documentElement.scrollWidth"), page.value(WIDER)
                checks.expect(f"{width} points, {name}, tab {tab}: nothing is wider", wide <= width and not wider, (wide, wider[:4]))
                small = page.value(SMALL)
                checks.equal("  and each control has at least 24 points", small, [])
    page.browser.shape(320, 700)
    page.give({"a_name_" + "that_is_long_" * 12 + ".ngc": "G21\nM2\n"})
    checks.expect("320 points with a long name: nothing is wider", page.value("document.documentElement.scrollWidth") <= 320 and not page.value(WIDER), page.value(WIDER)[:4])
    page.browser.shape(390, 844)
    page.example("low_slot.ngc")
    # A notice would be where the finger goes.
    page.forget_notices()
    page.value("scrollTo(0, 0); 0")
    page.value(DRAWN)
    checks.expect("on a phone the page is taller than the window", page.value("document.documentElement.scrollHeight") > 900)
    box = page.value("(r => [r.left + r.width / 2, r.top + r.height / 2, r.height])(document.getElementById('canvas').getBoundingClientRect())")
    page.browser.touching(True)
    turn = page.value("ngc.parts.picture?.orbit.turn ?? 0")
    checks.equal("the picture leaves a finger that goes up or down to the page", page.value("getComputedStyle(document.getElementById('canvas')).touchAction"), "pan-y")
    # Firefox's driver moves fingers in the page only, and scrolls nothing.
    if isinstance(page.browser, Chromium):
        page.browser.touch([[(box[0], box[1] + box[2] / 3 - at * 12) for at in range(20)]])
        try:
            page.wait("scrollY > 40", 10)
        except RuntimeError:
            pass
        checks.expect("a finger that goes up over the picture scrolls the page", page.value("scrollY > 40"), page.value("scrollY"))
    page.value("scrollTo(0, 0); 0")
    page.value(DRAWN)
    page.browser.touch([[(box[0] - 60 + at * 8, box[1]) for at in range(16)]])
    if page.value("!!ngc.parts.picture"):
        page.wait(f"ngc.parts.picture.orbit.turn !== {turn}", 10)
        checks.expect("one that goes across turns the picture", True)
    page.browser.touching(False)
    page.browser.shape(1280, 800)
    page.example("slot.ngc")
