"""How a test is told: one line for each failure, and the counts."""

from __future__ import annotations

import time
from collections.abc import Callable, Iterable
from dataclasses import dataclass

# How much of a value a line shows.
MOST_SHOWN = 200

# How many seconds tests go on beginning. A server that works needs far fewer.
LONGEST = 600


def shown(value: object) -> str:
    text = value.hex() if isinstance(value, (bytes, bytearray)) else str(value)
    return text if len(text) <= MOST_SHOWN else f"{text[:MOST_SHOWN]}... ({len(text)} characters)"


class Checks:
    """What was compared in a test, which has passed where nothing differed."""

    def __init__(self, name: str, suite: str) -> None:
        self.name = name
        self.suite = suite
        self.passed = 0
        self.failed = 0

    def equal(self, what: str, wanted: object, came: object) -> None:
        """What came has to be what was wanted."""
        self.holds(what, wanted == came, wanted, came)

    def holds(self, what: str, holds: bool, wanted: object, came: object) -> None:
        """This has to hold; else what was wanted and what came are told."""
        if holds:
            self.passed += 1
            return
        self.failed += 1
        print(f"{self.suite}, {self.name}, {what}: '{shown(came)}' in place of '{shown(wanted)}'", flush=True)

    def at_most(self, what: str, most: float, came: float) -> None:
        self.holds(what, came <= most, f"at most {most:g}", f"{came:g}")

    def at_least(self, what: str, least: float, came: float) -> None:
        self.holds(what, came >= least, f"at least {least:g}", f"{came:g}")


Test = Callable[[Checks], None]


@dataclass(frozen=True)
class Turn:
    """A test, and with how many loops its servers serve; None is the program's own number."""

    test: Test
    loops: int | None

    def name(self) -> str:
        name = self.test.__name__.replace("_", " ")
        return name if self.loops is None else f"{name}, {self.loops} loops"


def not_run(turn: Turn, suite: str) -> Checks:
    """A test for which no time is left has failed."""
    checks = Checks(turn.name(), suite)
    checks.holds("its turn", False, f"within {LONGEST} seconds", "none")
    return checks


def run_turn(turn: Turn, suite: str) -> Checks:
    """Runs a test. A fault in it is a failure."""
    checks = Checks(turn.name(), suite)
    try:
        turn.test(checks)
    except Exception as error:  # whatever went wrong is told, and the next test runs
        checks.holds("a fault", False, "none", f"{type(error).__name__}: {error}")
    return checks


def run_turns(turns: Iterable[Turn], *, begin: Callable[[int | None], None], told: bool, suite: str) -> bool:
    """Runs the tests of a suite one after the other, each once its number of loops is begun with, and prints the counts. True where
    none failed."""
    passed = failed = 0
    first = time.monotonic()
    for turn in turns:
        start = time.monotonic()
        begin(turn.loops)
        checks = run_turn(turn, suite) if start < first + LONGEST else not_run(turn, suite)
        passed += checks.passed
        failed += checks.failed
        if told:
            took = f"{time.monotonic() - start:6.2f} s"
            print(f"{took}  {checks.passed:5} passed  {checks.failed:3} failed  {checks.name}", flush=True)
    print(f"{passed} passed, {failed} failed")
    return failed == 0
