#!/usr/bin/env python3
"""A control panel in a terminal: checks a part program, runs it by `ngc live`, and plays its samples (docs/HARDWARE.md).

    examples/panel.py --program examples/boss.ngc --machine examples/small_mill.toml --tools examples/tools.toml --to run.bin

`ngc` decides what the machine does. The panel sends it events and shows its answers. With --to there are two processes that
get the same events: one writes the log, which is shown, the other the samples, which are played.
"""
import argparse
import array
import collections
import curses
import fcntl
import math
import pathlib
import re
import subprocess
import sys
import tempfile
import termios
import time

BATCH = 0.01    # seconds of machine time that are sent at once
AHEAD = 0.05    # seconds of samples that are kept waiting in a pipe
WINDOW = 0.2    # seconds of machine time over which the rate is measured
PULSES = 16     # the tick of each 16th pulse of an undisturbed run is kept, for the time that is left
STEPS_ALONE = bytes(sample & 0b10101 for sample in range(256))
KEYS = "h hold  r resume  + - override  o optional stop  s start  q quit"


class Job:
    """A checked program: its lines and commands, its options for `ngc`, and how long an undisturbed run takes."""

    def __init__(self, arguments, folder):
        self.ngc = arguments.ngc
        machine = ["--machine", arguments.machine]
        files = ["--program", arguments.program, *machine, "--tools", arguments.tools]
        block_delete = ["--delete"] if arguments.delete else []
        certificate = folder / "certificate"
        certificate.write_text(self.answer("certify", *files))
        self.options = [*files, "--certificate", str(certificate), *block_delete]
        self.name = pathlib.Path(arguments.program).name
        text = pathlib.Path(arguments.program).read_text(encoding="utf-8", errors="replace")
        self.lines = ["".join(c if c.isprintable() else " " for c in line) for line in text.expandtabs(4).split("\n")]
        listing = map(str.split, self.answer("list", *files, *block_delete).splitlines())
        self.commands = [(int(line), command) for _, line, *command in listing]
        self.read_machine(self.answer("show", *machine))
        self.read_times()

    def answer(self, *words):
        """Returns what a command of `ngc` writes. Ends the panel with its message where it fails."""
        done = subprocess.run([self.ngc, *words], stdout=subprocess.PIPE, stderr=subprocess.PIPE, universal_newlines=True)
        if done.returncode != 0:
            more = "`ngc report` with the same files says what is in the way." if words[0] == "certify" else ""
            sys.exit(done.stderr + more)
        return done.stdout

    def read_machine(self, sheet):
        """Reads the step in mm, the ticks in a second and the start in steps from the sheet of `ngc show`."""
        self.step = float(re.search(r"^  step +(\S+) mm$", sheet, re.M).group(1))
        self.ticks_per_second = int(re.search(r"^  ticks +(\d+) a second$", sheet, re.M).group(1))
        start = re.search(r"^  start +X (\S+) Y (\S+) Z (\S+) mm$", sheet, re.M).groups()
        self.start = tuple(round(float(place) / self.step) for place in start)

    def read_times(self):
        """Reads the ticks of an undisturbed run, and which of them have pulses, from its samples."""
        self.pulse_ticks, self.ticks, pulses = [0], 0, 0
        with subprocess.Popen([self.ngc, "run", *self.options, "--output", "samples"], stdout=subprocess.PIPE,
                              stderr=subprocess.DEVNULL) as process:
            for piece in iter(lambda: process.stdout.read(1 << 20), b""):
                for pulse in re.finditer(rb"[^\0]", piece[1::2].translate(STEPS_ALONE)):
                    pulses += 1
                    if pulses % PULSES == 0:
                        self.pulse_ticks.append(self.ticks + pulse.end())
                self.ticks += len(piece) // 2

    def ticks_left(self, pulses):
        """Returns the number of ticks that an undisturbed run has left after its first `pulses` pulses."""
        return self.ticks - self.pulse_ticks[min(pulses // PULSES, len(self.pulse_ticks) - 1)]

    def clock(self, ticks):
        """Returns ticks as hours, minutes and seconds of the machine's time."""
        tenths = int(ticks * 10 // self.ticks_per_second)
        return "%d:%02d:%02d.%d" % (tenths // 36000, tenths // 600 % 60, tenths // 10 % 60, tenths % 10)


class Live:
    """A process `ngc live` that loads by itself."""

    def __init__(self, job, *options):
        self.errors = tempfile.TemporaryFile("w+")
        self.process = subprocess.Popen([job.ngc, "live", *job.options, "--feed-ring", *options], stdin=subprocess.PIPE,
                                        stdout=subprocess.PIPE, stderr=self.errors, start_new_session=True)

    def send(self, *events):
        try:
            self.process.stdin.write("".join(event + "\n" for event in events).encode())
            self.process.stdin.flush()
        except BrokenPipeError:
            self.fail()

    def fail(self):
        """Ends the panel with what the process wrote on standard error before it ended."""
        status = self.process.wait()
        self.errors.seek(0)
        sys.exit("ngc live ended with status %d\n%s" % (status, self.errors.read()))

    def close(self):
        """Ends the input, and returns what the process still writes: it brakes to rest before it ends."""
        self.process.stdin.close()
        rest = self.process.stdout.read()
        self.process.wait()
        return rest


class Player:
    """Plays samples to a file or to nothing at the speed of this computer's clock, or to a pipe at the speed of its reader."""

    def __init__(self, path, ticks_per_second):
        self.bytes_per_second = 2 * ticks_per_second
        self.is_pipe = path is not None and pathlib.Path(path).is_fifo()
        if self.is_pipe:
            print("Waiting for a reader of the samples", flush=True)
        self.file = open(path, "wb", buffering=0) if path else None
        self.next = time.monotonic()

    def is_due(self):
        """Returns whether the next batch should be sent now."""
        if self.is_pipe:
            waiting = array.array("i", [0])
            fcntl.ioctl(self.file, termios.FIONREAD, waiting)
            return waiting[0] < AHEAD * self.bytes_per_second
        return time.monotonic() >= self.next

    def play(self, samples, ticks):
        # Where this computer was late by more than a tenth of a second, it doesn't make up for the rest.
        self.next = max(self.next + 2 * ticks / self.bytes_per_second, time.monotonic() - 0.1)
        while self.file and samples:
            samples = samples[self.file.write(samples):]


class Run:
    """A run under way: what was sent, and what the log says."""

    def __init__(self, job, arguments):
        self.job = job
        self.log = Live(job)
        self.samples = Live(job, "--output", "samples", "--inverted", str(arguments.inverted)) if arguments.to else None
        self.player = Player(arguments.to, job.ticks_per_second)
        self.position, self.tick, self.command, self.pulses = job.start, 0, 0, 0
        self.override, self.switch, self.held, self.stopped, self.ended = 100, "off", False, False, False
        self.tool, self.spindle, self.coolant, self.message = "none", "off", "off", ""
        self.track = collections.deque([(0, job.start)], maxlen=round(WINDOW / BATCH) + 1)

    def send(self, *events):
        """Sends events and reads the answers. The switch, which is set as it is, changes nothing and ends them."""
        self.log.send(*events, "switch " + self.switch)
        for line in self.log.process.stdout:
            words = line.decode().split()
            if words == ["switch", self.switch]:
                return
            self.take(*words)
        self.log.fail()

    def take(self, word, *fields):
        """Takes a line of the log."""
        if word == "pos":
            self.position = tuple(map(int, fields))
            self.pulses += 1
        elif word in ("done", "stop", "end"):
            self.show_effect(*self.job.commands[self.command][1])
            self.stopped, self.ended = word == "stop", word == "end"
            self.command += not self.ended
        elif word == "override":
            self.override = int(fields[0])
        elif word in ("hold", "resume"):
            self.held = word == "hold"
        elif word == "start":
            self.stopped = False
        if word not in ("pos", "load", "done"):
            self.message = " ".join([self.job.clock(self.tick), word, *fields])

    def show_effect(self, kind, value="", speed="", *_):
        """Keeps what a command has set that has ended."""
        if kind == "tool":
            self.tool, self.spindle = value, "off"
        elif kind == "spindle":
            self.spindle = value + (" %g" % (int(speed) / 1e6) if speed else "")
        elif kind == "coolant":
            self.coolant = value
        elif kind == "end":
            self.spindle = self.coolant = "off"

    def press(self, event):
        """Sends an event of the operator."""
        if event.startswith("switch"):
            self.switch = event.split()[1]
            self.send()
        else:
            self.send(event)
        if self.samples:
            self.samples.send(event)

    def advance(self):
        """Sends a batch of ticks, and plays its samples."""
        ticks, samples = max(1, round(self.job.ticks_per_second * BATCH)), b""
        self.send("tick %d" % ticks)
        if self.samples:
            self.samples.send("tick %d" % ticks)
            samples = self.samples.process.stdout.read(2 * ticks)
            if len(samples) < 2 * ticks:
                self.samples.fail()
        self.player.play(samples, ticks)
        self.tick += ticks
        self.track.append((self.tick, self.position))

    def end(self):
        """Ends both processes, and plays how the machine comes to rest if it still moves."""
        self.log.close()
        if self.samples:
            samples = self.samples.close()
            self.player.play(samples, len(samples) // 2)

    def rate(self):
        """Returns the rate over the last batches in mm a minute."""
        (first, start), (last, end) = self.track[0], self.track[-1]
        return 0 if self.ended else math.dist(start, end) * self.job.step * self.job.ticks_per_second * 60 / max(1, last - first)

    def status(self):
        if self.ended or self.stopped:
            return "FINISHED" if self.ended else "STOPPED: press s"
        return ("HOLDING" if self.rate() else "HELD") if self.held else "RUNNING"


def draw(screen, run):
    job, (height, width) = run.job, screen.getmaxyx()
    line = job.commands[run.command][0]
    left = 0 if run.ended else job.ticks_left(run.pulses)

    def put(row, text, attribute=curses.A_NORMAL):
        if 0 <= row < height:
            screen.addnstr(row, 0, text.ljust(width), width - 1, attribute)

    screen.erase()
    put(0, " %-28s %s" % (job.name, run.status()), curses.A_REVERSE)
    put(2, "".join(" %s %11.3f mm  " % (axis, steps * job.step) for axis, steps in zip("XYZ", run.position)), curses.A_BOLD)
    put(3, " rate %.0f mm/min   override %d %%   optional stop %s" % (run.rate(), run.override, run.switch))
    put(4, " tool %s   spindle %s   coolant %s" % (run.tool, run.spindle, run.coolant))
    put(5, " time %s   left %s at 100 %%" % (job.clock(run.tick), job.clock(left)))
    shown = max(1, height - 11)
    first = max(1, min(line - shown // 2, len(job.lines) - shown + 1))
    for row, number in enumerate(range(first, min(first + shown, len(job.lines) + 1)), 7):
        mark, attribute = (">", curses.A_BOLD) if number == line else (" ", curses.A_NORMAL)
        put(row, "%s%5d  %s" % (mark, number, job.lines[number - 1]), attribute)
    put(height - 3, " " + run.message)
    put(height - 1, " " + KEYS, curses.A_REVERSE)
    screen.refresh()


def operate(screen, run):
    """Reads keys, sends ticks while they are due and draws, until the operator quits and the axes stand."""
    curses.curs_set(0)
    screen.timeout(2)
    drawn, quitting = 0, False
    while not (quitting and (run.ended or run.stopped or not run.rate())):
        key = screen.getch()
        pressed = chr(key) if 0 < key < 128 else ""
        if pressed and pressed in "hrs":
            run.press({"h": "hold", "r": "resume", "s": "start"}[pressed])
        elif pressed and pressed in "+=-":
            run.press("override %d" % max(0, min(200, run.override + (-10 if pressed == "-" else 10))))
        elif pressed == "o":
            run.press("switch off" if run.switch == "on" else "switch on")
        elif pressed == "q" and quitting:
            return
        elif pressed == "q":
            quitting = True
            run.press("hold")
        for _ in range(10):
            if not run.ended and run.player.is_due():
                run.advance()
        if time.monotonic() > drawn + 0.05:
            drawn = time.monotonic()
            draw(screen, run)


def main():
    parser = argparse.ArgumentParser(description="Runs a part program by `ngc live`.", epilog="Keys: " + KEYS)
    for name in ("program", "machine", "tools"):
        parser.add_argument("--" + name, metavar="FILE", required=True)
    parser.add_argument("--delete", action="store_true", help="turn block delete on")
    parser.add_argument("--to", metavar="FILE", help="file or pipe that gets the samples [default: none are made]")
    parser.add_argument("--inverted", metavar="MASK", type=int, default=0, help="bits of the samples to turn over, 0 to 255")
    parser.add_argument("--ngc", metavar="PATH", default=str(pathlib.Path(__file__).resolve().parent.parent / "ngc"))
    arguments = parser.parse_args()
    with tempfile.TemporaryDirectory() as folder:
        try:
            run = Run(Job(arguments, pathlib.Path(folder)), arguments)
            try:
                curses.wrapper(operate, run)
            finally:
                run.end()
        except BrokenPipeError:
            sys.exit("The reader of the samples has gone away.")
        except (OSError, KeyboardInterrupt) as problem:
            sys.exit(str(problem) or "Broken off.")


main()
