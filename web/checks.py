"""Counts and prints checks. Each has a sentence that says what is expected."""
from browsers import Fault


class Checks:
    def __init__(self, stops=False):
        """`stops`: whether the first check that fails ends the test."""
        self.passed = self.failed = 0
        self.stops = stops

    def expect(self, what, holds, found=""):
        self.passed += bool(holds)
        self.failed += not holds
        print(f"passed: {what}" if holds else f"FAILED: {what}{f': {found!r}' if found != '' else ''}", flush=True)
        if self.stops and not holds:
            raise SystemExit(1)

    def equal(self, what, found, wanted):
        self.expect(what, found == wanted, found)

    def begins(self, what, found, wanted):
        self.expect(what, str(found).startswith(wanted), found)

    def has(self, what, found, *wanted):
        self.expect(what, all(it in str(found) for it in wanted), found)

    def group(self, function, *given):
        """Runs a group of checks. A fault in it counts as one that failed."""
        try:
            function(self, *given)
        except (Fault, OSError, StopIteration) as fault:
            self.expect(f"{function.__name__} ends", False, str(fault)[:700])
