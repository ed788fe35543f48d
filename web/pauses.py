"""Measures how long the page's main thread is busy at most while large programs are checked, and how long a verdict takes.

In Chromium a task is measured twice: as the time from its begin to its end, which grows with other work on the machine, and as the
processor time that its thread took. The second must stay below a bound: for a task of the main thread MOST, for the first verdict FIRST, and
for a check as a multiple of what the program takes TIMES. In Firefox the time between two beats of a timer is measured.
"""
import json
import math
import os
import resource
import subprocess
import time
from dataclasses import dataclass
from pathlib import Path

from browsers import Chromium

MOST = 100           # ms of a task
MOST_TURNING = 50    # ms of a task while 100,000 motions are turned, without drawing
FIRST = 1000         # ms until the first verdict
TIMES = 3            # how many times longer than the program a check may take
READY = "(({ slots }, key) => ['report', 'path'].every(it => slots[it].key === ngc.keyOf[it](ngc.store.state) && ['done', 'failed'].includes(slots[it].status)))(ngc.store.state) && ngc.store.state.text !== null && ngc.jobs.isIdle"
BEAT = "window.gap = 0; window.beat = performance.now(); window.beating ??= setInterval(() => { const now = performance.now(); gap = Math.max(gap, now - beat); beat = now; }, 5); 0"
TURN = """new Promise(done => { const { orbit } = ngc.parts.picture; orbit.isMoving = true; let count = 0; const begun = performance.now();
  const step = () => { orbit.rotate(3, 1); if (count++ < 20) requestAnimationFrame(step); else { orbit.isMoving = false; done(20000 / (performance.now() - begun)); } }; requestAnimationFrame(step); })"""


def spiral(count):
    lines = ["G21 G90 G17 G54", "T2 M6", "S2000 M3", "G43 H2", "G0 Z20", "X40 Y60", "Z2", "G1 Z-1 F300"]
    for at in range(count):
        radius, angle = 5 + 25 * at / count, at * 0.02
        lines.append(f"G1 X{70 + radius * math.cos(angle):.3f} Y{70 + radius * math.sin(angle):.3f}")
    return "\n".join([*lines, "G0 Z20", "M9", "G28 Z20", "M30", ""])


CASES = {
    "99,980 feeds": spiral(99_980),
    "a line of 20 MB": "(" + "x" * 20_000_000 + ")\nM2\n",
    "5 million lines": "G21\n" + "(x)\n" * 5_000_000 + "M2\n",
    "243,000 holes": "G21 G90 G54\nT3 M6\nS1000 M3\nG43 H3\nG0 Z20\nX50 Y30\nG91\n" + "G81 X0 Y0 Z-0.1 R-1 F100 L9000\n" * 27 + "M30\n",
}


@dataclass
class Times:
    """Times of tasks of the main thread in ms: the longest, the most processor time of one, and the processor time of all."""

    wall: float
    processor: float
    main: float


class Tasks:
    """The tasks of the page's main thread, by Chromium's trace."""

    def __init__(self, browser):
        self.browser = browser

    def begin(self):
        self.browser.events.clear()
        self.browser.call("Tracing.start", transferMode="ReportEvents", traceConfig={"includedCategories": ["toplevel", "__metadata"], "excludedCategories": ["*"], "recordMode": "recordAsMuchAsPossible"})

    def end(self):
        self.browser.call("Tracing.end")
        while not any(it.get("method") == "Tracing.tracingComplete" for it in self.browser.events):
            self.browser.events.append(self.browser.message())
        events = [it for batch in self.browser.events if batch.get("method") == "Tracing.dataCollected" for it in batch["params"]["value"]]
        self.browser.events.clear()
        mains = {(it["pid"], it["tid"]) for it in events if it.get("name") == "thread_name" and it["args"].get("name") == "CrRendererMain"}
        tasks = [it for it in events if it.get("ph") == "X" and (it["pid"], it["tid"]) in mains]
        wall, processor = ([it.get(part, 0) / 1000 for it in tasks] for part in ("dur", "tdur"))
        return Times(max(wall, default=0), max(processor, default=0), sum(processor))


def measure_case(checks, browser, tasks, file, name):
    browser.value(BEAT)
    if tasks:
        tasks.begin()
    begun = time.time()
    browser.choose("#choose", file)
    browser.wait(f"ngc.store.state.files.program.name === {json.dumps(file.name)} && {READY}", 900)
    took = browser.value("[ngc.store.state.slots.report.took, ngc.store.state.slots.path.took, gap]")
    said = f"{name}: verdict after {took[0] / 1000:.2f} s, path after {took[1] / 1000:.2f} s, {time.time() - begun:.1f} s in all; longest gap of a timer {took[2]:.0f} ms"
    if not tasks:
        return checks.expect(f"{said}, at most {5 * MOST} on a machine with other work", took[2] <= 5 * MOST)
    times = tasks.end()
    checks.expect(f"{said}; longest task {times.wall:.0f} ms, of which {times.processor:.0f} ms of the processor, at most {MOST}", times.processor <= MOST)


def turning(checks, browser, tasks):
    if browser.value("ngc.parts.picture === null"):
        return
    if not tasks:
        return print(f"turning 99,980 feeds: {browser.value(TURN):.1f} frames a second with software GL")
    tasks.begin()
    frames = browser.value(TURN)
    times = tasks.end()
    checks.expect(f"turning 99,980 feeds: {frames:.1f} frames a second with software GL; longest task {times.wall:.0f} ms with drawing, of which {times.processor:.0f} ms of the processor, at most {MOST_TURNING}", times.processor <= MOST_TURNING)


def worker_seconds(browser):
    """The processor time of the threads of the page's workers so far, as Linux counts it."""
    parents, ticks = {}, 0
    for stat in Path("/proc").glob("[0-9]*/stat"):
        try:
            parents[stat.parent] = Path("/proc") / stat.read_text().rpartition(")")[2].split()[1]
        except OSError:
            continue
    top = Path("/proc") / str(browser.process.pid)

    def is_ours(process):
        while process in parents and process != top:
            process = parents[process]
        return process == top

    for stat in (it for process in parents if is_ours(process) for it in process.glob("task/*/stat")):
        try:
            name, _, rest = stat.read_text().rpartition(")")
        except OSError:
            continue
        if "DedicatedWorker" in name:
            ticks += sum(map(int, rest.split()[11:13]))
    return ticks / os.sysconf("SC_CLK_TCK")


def native_time(program, examples, file):
    """The processor time that the program takes for a report, in seconds: the least of three."""
    words = [program, "report", "--program", file, "--machine", examples / "named_mill.toml", "--tools", examples / "tools.toml"]
    used = lambda: (lambda it: it.ru_utime + it.ru_stime)(resource.getrusage(resource.RUSAGE_CHILDREN))
    found = []
    for _ in range(3):
        before = used()
        subprocess.run(words, capture_output=True)
        found.append(used() - before)
    return min(found)


def measure(checks, browser, page, program, examples, folder):
    browser.shape(1280, 800)
    tasks = Tasks(browser) if isinstance(browser, Chromium) else None
    if tasks:
        tasks.begin()
    browser.open(page)
    browser.wait("ngc.store.state.slots.report.status === 'done'")
    first = browser.value("(it => it.begun + it.took)(ngc.store.state.slots.report)")
    said = f"the first verdict of this visit is there {first / 1000:.2f} s after the page begins to load"
    if tasks:
        main, workers = tasks.end().main, worker_seconds(browser) * 1000
        checks.expect(f"{said}; its main thread takes {main:.0f} ms of the processor, and its workers {workers:.0f} ms: together at most {FIRST}", main + workers <= FIRST)
    else:
        print(said)
    browser.wait(READY)
    for name, text in CASES.items():
        file = folder / f"{name.replace(' ', '_').replace(',', '')}.ngc"
        file.write_text(text)
        measure_case(checks, browser, tasks, file, name)
        if name == "99,980 feeds":
            turning(checks, browser, tasks)
            if tasks:
                ratio(checks, browser, native_time(program, examples, file))
    browser.value("ngc.actions.example('slot.ngc'); 0")
    browser.wait(READY)


def ratio(checks, browser, theirs):
    """A check in a worker of its own, and the program."""
    before = worker_seconds(browser)
    browser.value("ngc.jobs.run('measure', 'measure', 'report', { changes: {}, all: false }).then(() => 0)")
    ours = worker_seconds(browser) - before
    checks.expect(f"the check takes {ours:.2f} s of the processor, the program {theirs:.2f} s: {ours / theirs:.1f} times as long, at most {TIMES}", ours <= TIMES * theirs)
