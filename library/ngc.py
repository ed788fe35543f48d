"""The proved checker as a Python module, over libngc.so beside it.

    >>> import ngc
    >>> from pathlib import Path
    >>> found = ngc.report(Path("slot.ngc"), Path("clamped_mill.toml"), Path("tools.toml"))
    >>> found["fits"]
    True
    >>> ngc.report(b"G0 X1000\\nM2\\n", Path("clamped_mill.toml"), Path("tools.toml"))["fits"]
    False
    >>> ngc.report(Path("slot.ngc"), Path("clamped_mill.toml"), Path("tools.toml"), margin="7")["fits"]
    False

A file is its bytes, or a path whose bytes are read. Every call but report gives an Answer: the exit status of the command of the same
name, its output, and the lines of its standard error. The status is 0 for done, 1 where memory ends or a file is too long, 2 for options
that are refused, 3 for a file or a program that is refused, 4 for a certificate that is refused or isn't made.

report, draw, commands, certify, check and pulses also take any other option of their command by name, as its text: margin="2",
travel_margin="0.5", rapids="free", cuts="64", origin=["54=60,40,-140", "55=10,20,-30"]. True is an option without a value. Any command
can be called by the words of its command line with command.

With job=Path("ngc.toml") they take what that job file adds, as ngc does with --job, and the machine file and the tool table may be left out:

    >>> ngc.report(Path("job/part.nc"), job=Path("job/ngc.toml"))["fits"]
    True
"""
import ctypes
import json
from pathlib import Path
from typing import NamedTuple

CONTROLS = ("linuxcnc", "grbl", "mach3", "fanuc")
VIEWS = ("top", "front", "side", "iso")
FILES = ("program", "machine", "tools", "certificate")
ERRORS = 65_536

_library = ctypes.CDLL(str(Path(__file__).resolve().parent / "libngc.so"))


class Answer(NamedTuple):
    """What a command comes to."""

    status: int
    output: str
    errors: str


class _Lengths(ctypes.Structure):
    _fields_ = [("output", ctypes.c_size_t), ("errors", ctypes.c_size_t)]


def _bytes(file):
    return file if isinstance(file, bytes) else Path(file).read_bytes()


def _call(name, texts, *others):
    """Calls an export, and once more with enough space where there was too little."""
    function = getattr(_library, name)
    function.restype = ctypes.c_uint32
    given = [it for text in texts for it in (ctypes.c_char_p(text), ctypes.c_size_t(len(text)))]
    errors, lengths, space = ctypes.create_string_buffer(ERRORS), _Lengths(), 1 << 20
    while True:
        output = ctypes.create_string_buffer(space)
        written = (output, ctypes.c_size_t(space), errors, ctypes.c_size_t(ERRORS), ctypes.byref(lengths))
        status = function(*given, *others, *written)
        if lengths.output <= space:
            return Answer(status, output.raw[: lengths.output].decode(), errors.raw[: min(lengths.errors, ERRORS)].decode())
        space = lengths.output


def _words(options):
    """The options as words of a command line."""
    for name, value in options.items():
        for it in value if isinstance(value, (list, tuple)) else [value]:
            if it is not False and it is not None:
                yield f"--{name.replace('_', '-')}" + ("" if it is True else f"={it}")


def _lines(words):
    if any("\n" in word for word in words):
        raise ValueError("a word has no line feed")
    return "\n".join(words).encode()


def words_with_job(words, job):
    """The words of a call with those that a job file adds, as an Answer: the output has a word on each line, and `errors` says what was
    added. Paths begin at the job file's folder. A job file as bytes has the name ngc.toml."""
    name = "ngc.toml" if isinstance(job, bytes) else str(job)
    return _call("ngc_job", [_lines([*words, f"--job={name}"]), name.encode(), _bytes(job)])


def _take_files(words, given):
    """Reads the files that a job file names, and gives them the names of the call."""
    missing = {f"--{name}": name for name in ("machine", "tools") if name not in given}
    for word in words:
        option, _, path = word.partition("=")
        if option in missing:
            given[missing[option]] = _bytes(Path(path))
            word = f"{option}={missing[option]}"
        yield word


def command(words, job=None, **files):
    """Executes a command by the words of its command line, as ["report", "--margin=2"]. The files are program, machine, tools and
    certificate; the words that name them are put behind the command's name. A file that is None isn't named. With a job file the words
    are those that it adds too, and the line that says so is the first of `errors`."""
    given = {name: _bytes(file) for name, file in files.items() if file is not None}
    if not given.keys() <= set(FILES):
        raise TypeError(f"the files are {', '.join(FILES)}")
    line, note = [*words[:1], *(f"--{name}={name}" for name in FILES if name in given), *words[1:]], ""
    if job is not None:
        answer = words_with_job(line, job)
        if answer.status:
            return answer
        line, note = [*_take_files(answer.output.split("\n")[:-1], given)], answer.errors
    answer = _call("ngc_command", [_lines(line), *(given.get(name, b"") for name in FILES)])
    return answer._replace(errors=note + answer.errors)


def report(program, machine=None, tools=None, every=False, job=None, **options):
    """Reports whether a program fits: a dict of `status`, `fits` (None where the files or the program are refused), `facts`, the objects
    of the JSON report in order, and `errors`. With `every` each command that nothing clears is told, and not the first alone."""
    words = ["report", *_words({"json": True, "all": every, **options})]
    answer = command(words, job, program=program, machine=machine, tools=tools)
    facts = json.loads(answer.output) if answer.output else []
    verdicts = [fact["fits"] for fact in facts if fact["fact"] == "verdict"]
    return {"status": answer.status, "fits": all(verdicts) if verdicts else None, "facts": facts, "errors": answer.errors}


def draw(program, machine=None, tools=None, view="top", block_delete=False, job=None, **options):
    """Draws a program from the top, the front, the side, or isometric (iso), as SVG."""
    return command(["draw", *_words({"view": view, "delete": block_delete, **options})], job, program=program, machine=machine, tools=tools)


def commands(program, machine=None, tools=None, block_delete=False, job=None, **options):
    """Lists the commands that a program means (`ngc list`)."""
    return command(["list", *_words({"delete": block_delete, **options})], job, program=program, machine=machine, tools=tools)


def certify(program, machine=None, tools=None, version=2, job=None, **options):
    """Makes a certificate, in version 1 or 2 of its text."""
    return command(["certify", *_words({"format": version, **options})], job, program=program, machine=machine, tools=tools)


def check(program, machine=None, tools=None, certificate=None, job=None, **options):
    """Checks a certificate: status 0 where it shows that no path of the program leaves the travel or meets a fixture."""
    return command(["check", *_words(options)], job, program=program, machine=machine, tools=tools, certificate=certificate)


def pulses(program, machine=None, tools=None, certificate=None, block_delete=False, job=None, **options):
    """Runs a program whose certificate is accepted to its end, and gives its pulses as a value change dump."""
    words = ["pulses", *_words({"delete": block_delete, **options})]
    return command(words, job, program=program, machine=machine, tools=tools, certificate=certificate)


def show(machine, tools):
    """Says what a machine file and a tool table say, in millimetres, with warnings."""
    return _call("ngc_show", [_bytes(machine), _bytes(tools)])


def adapt(program, machine, tools, control, block_delete=False):
    """Prints a program for another control in ngc's own language, as it is executed; `errors` has the notes on it."""
    texts = [_bytes(program), _bytes(machine), _bytes(tools)]
    return _call("ngc_adapt", texts, ctypes.c_uint32(CONTROLS.index(control)), ctypes.c_bool(block_delete))


def machine(settings):
    """Makes a machine file from a dump of GRBL's settings."""
    return _call("ngc_machine", [_bytes(settings)])


def explain(number):
    """Explains a fault by its number."""
    return _call("ngc_explain", [], ctypes.c_uint16(number))
