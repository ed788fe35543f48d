"""Checks of job files: what one adds holds for each command as in the program, is shown, and may be replaced on the page; what it names is
asked for."""
import json
import subprocess

from dialect_checks import ASKED, CHOICE, CONTROL, FACTS, begin, choose

FILES = {"part.nc": "job/part.nc", "ngc.toml": "job/ngc.toml", "written_mill.toml": "written_mill.toml", "tools.toml": "tools.toml"}
JOB_NOW = "ngc.store.state.files.job?.name ?? null"
NOTE = "document.getElementById('job-note')?.textContent ?? ''"
NO_DEMANDS = "{ margin: null, travelMargin: null, rapids: null }"


def files_of(page, *names):
    return {name: page.read(FILES[name]) for name in names or FILES}


def native(page, *words, job="ngc.toml"):
    """A command of the program beside the job file of the examples."""
    return subprocess.run([page.program, words[0], "--program=part.nc", *words[1:], f"--job={job}"], cwd=page.examples / "job", stdin=subprocess.DEVNULL, capture_output=True)


def same_facts(checks, page, what, *words):
    checks.equal(what, json.loads(page.value(FACTS)), json.loads(native(page, "report", "--json", *words).stdout))


def job_files(checks, page):
    """A job file that is dropped with what it names holds as in the program."""
    begin(page)
    page.give(files_of(page))
    made = native(page, "report", "--json")
    checks.expect("a program with its job file fits, and is read in the job file's language", page.title.startswith("Fits, 1 mm clear of every fixture: ") and page.title.endswith(". Read as Mach3."), page.title)
    same_facts(checks, page, "the facts are those of `ngc report` with the job file")
    checks.equal("nothing is asked, and the choice shows the language", [page.value(ASKED), page.value(f"{CHOICE}.value"), page.value(CONTROL)], ["", "mach3", None])
    checks.equal("the tab Machine has the line of the program on what was added", page.value(NOTE) + "\n", made.stderr.decode())
    checks.has("  and so has a notice", page.notices, made.stderr.decode().strip())
    # The zero is at 50, 60, -70; the clamp is from 40, 60, -20 to 60, 75, -5 in it.
    shown = page.value("(({ fixtures, origins, stock }) => ({ stop: fixtures[fixtures.length - 1], zero: origins.G54, stock: ngc.stockIn({ origins, stock }) }))(ngc.sceneNow(ngc.store.state))")
    checks.equal("the picture has its clamp", [shown["stop"][it] for it in ("name", "low", "high")], ["stop", [90, 120, -90], [110, 135, -75]])
    checks.equal("  its zero and its material", [shown["zero"], shown["stock"]], [[50, 60, -70], {"low": [50, 60, -90], "high": [150, 120, -70]}])
    checks.equal("the clamp can't be removed from the machine file", page.value("[...document.querySelectorAll('#shop td')].filter(it => it.textContent === 'job file').length"), 2)
    got = page.value("ngc.jobs.run('save', 'save', 'command', { words: ['list'], factor: 5, changes: { origins: {}, dialect: null, job: 'ngc.toml', lack: null } }).then(it => new TextDecoder().decode(it.output))")
    checks.equal("the list is that of `ngc list` with the job file", got, native(page, "list").stdout.decode())
    page.give({"next.nc": page.read("job/part.nc").replace("T2 M6", "T9 M6", 1)})
    checks.has("it holds for the next program too", page.title, "Line 8 is refused: the tool table has no tool 9.", "Read as Mach3.")
    page.do("ngc.actions.forgetJob()")
    checks.equal("without the job file its clamp is gone", [page.value(JOB_NOW), page.value(NOTE), page.value("ngc.sceneNow(ngc.store.state).fixtures.some(it => it.name === 'stop')")], [None, "", False])


def job_replaced(checks, page):
    """What is chosen on the page wins over the job file, as the words of a command line do."""
    begin(page)
    page.give(files_of(page))
    page.do("ngc.actions.setDemands({ margin: 2e6, travelMargin: null, rapids: null })")
    same_facts(checks, page, "a margin of the page wins over the job file", "--margin=2")
    checks.expect("  and the line on what was added has none", "--margin" not in page.value(NOTE) and "--origin=54=50,60,-70" in page.value(NOTE), page.value(NOTE))
    page.do(f"ngc.actions.setDemands({NO_DEMANDS}); ngc.actions.setOrigins({{ G54: [51e6, 60e6, -70e6] }})")
    same_facts(checks, page, "so does a zero of the page", "--origin=54=51,60,-70")
    checks.equal("  and the clamp in its system moves with it", page.value("ngc.sceneNow(ngc.store.state).fixtures.find(it => it.name === 'stop').low"), [91, 120, -90])
    page.do("ngc.actions.setOrigins({})")
    page.do(choose("fanuc"))
    same_facts(checks, page, "so does a control", "--dialect=fanuc")
    page.do(choose("own"))
    same_facts(checks, page, "so does our own language", "--dialect=ngc")
    page.give({"other.toml": page.read("bench_mill.toml")})
    checks.equal("another machine file takes the job file out of use", page.value(JOB_NOW), None)
    checks.has("  and a notice says so", page.notices, "ngc.toml is no longer in use: it names written_mill.toml, and other.toml is in use now.")


def job_asks(checks, page):
    """What a job file names and isn't there is asked for, and nothing is checked until then."""
    begin(page)
    page.give(files_of(page, "part.nc", "ngc.toml"))
    both = "ngc.toml names the machine file written_mill.toml and the tool table tools.toml: drop them here."
    checks.equal("a job file without its files asks for both, though the example's table has the same name", page.title, both)
    checks.has("  and so does a notice", page.notices, both)
    page.give(files_of(page, "written_mill.toml"))
    checks.equal("then for the other one", page.title, "ngc.toml names the tool table tools.toml: drop it here.")
    page.give(files_of(page, "tools.toml"))
    checks.begins("with both the program is checked", page.title, "Fits, 1 mm clear of every fixture: ")
    same_facts(checks, page, "  as by the program")
    page.forget_notices()
    page.give({**files_of(page, "ngc.toml"), "other.toml": page.read("bench_mill.toml")})
    checks.has("a machine file of another name that is dropped with it isn't used", page.notices, "other.toml: not in use, since ngc.toml names written_mill.toml.")
    checks.begins("  and the one that is here still is", page.title, "Fits, 1 mm clear of every fixture: ")
    page.give({"plate.toml": page.read("job/ngc.toml")})
    checks.begins("a job file of any name is known by its keys", page.value(NOTE), "ngc: plate.toml adds --machine=../written_mill.toml ")
    page.give({"ngc.toml": page.read("job/ngc.toml").replace("dialect =", "dialct =")})
    line = page.read("job/ngc.toml").split("\n").index('dialect = "mach3"') + 1
    checks.equal("a key that is wrong is said with its line", page.title, f"The job file can't be used. ngc.toml:{line}: \"dialct\" isn't a key here: did you mean dialect?")
    page.give({"ngc.toml": page.read("job/ngc.toml").replace('"1 mm"', '"200 mm"')})
    checks.begins("a value that no option accepts is refused", page.title, "The job file can't be used. invalid value '200' for '--margin <MM>': a margin is a number from 0 to 100, in mm")
    page.give({"ngc.toml": "# nothing\n"})
    checks.has("an empty one adds nothing", page.notices, "ngc.toml is in use, and adds nothing.")
    page.do("ngc.files.useExampleMachine()")
    checks.equal("an example machine takes it out of use", page.value(JOB_NOW), None)


JOB_GROUPS = (job_files, job_replaced, job_asks)
