#!/usr/bin/env python3
"""Watches a folder, and shows the verdict of `ngc report` on each part program that is new or changed. It changes no program.

    ngc_watch.py --machine mill.toml --tools tools.toml FOLDER

A program is checked once its size and time stay the same for a second, so that a CAM system can finish it. If the machine file or the
tool table changes, all programs are checked again. Ctrl+C ends it.

With --once it checks each program of the folder, in the order of their names, and ends. Its status is then the greatest one of
`ngc report`, as docs/FORMATS.md has them under "Exit statuses"."""
import argparse
import sys
import time
from pathlib import Path

from ngc_checked_post import options_of_report, verdict

ENDINGS = "ngc nc tap gcode cnc"


def state(path):
    """Returns the size and the time of a file, or None if there is none."""
    try:
        found = path.stat()
    except OSError:
        return None
    return found.st_size, found.st_mtime_ns


def programs_in(folder, endings):
    return sorted(it for it in folder.iterdir() if it.suffix.lower().lstrip(".") in endings and it.is_file())


def show(path, options):
    status, shown = verdict(str(path), options)
    print(shown if options.once else f"{time.strftime('%H:%M:%S')} {shown}", end="", flush=True)
    return status


def watch(options, endings):
    checked, before = {}, {}
    while True:
        files = tuple(state(Path(it)) for it in (options.machine, options.tools))
        now = {path: (state(path), files) for path in programs_in(options.folder, endings)}
        for path, found in now.items():
            if None not in (found[0], *files) and before.get(path) == found != checked.get(path):
                show(path, options)
                checked[path] = found
        before = now
        time.sleep(1)


def main():
    parser = argparse.ArgumentParser(description=__doc__, formatter_class=argparse.RawDescriptionHelpFormatter, parents=[options_of_report()])
    parser.add_argument("--once", action="store_true", help="check what is there, and end")
    parser.add_argument("--endings", default=ENDINGS, metavar="WORDS", help=f"the endings of programs [default: {ENDINGS}]")
    parser.add_argument("folder", type=Path, metavar="FOLDER")
    options = parser.parse_args()
    endings = options.endings.lower().split()
    if not options.folder.is_dir():
        sys.exit(f"ngc_watch: {options.folder} is no folder")
    if options.once:
        sys.exit(max((show(path, options) for path in programs_in(options.folder, endings)), default=0))
    try:
        watch(options, endings)
    except KeyboardInterrupt:
        pass


if __name__ == "__main__":
    main()
