"""Members that crash before the steps of scripts: what was answered stands in the histories, and stands there once."""

from __future__ import annotations

from collections.abc import Iterator
from pathlib import Path

from crash_scripts import DATA, EXAMPLES, crash_scripts, members_of, steps_of, with_crash
from serving.checks import Checks
from serving.server import DONE, run_program

from hostile_tests.histories import entries_of, replies_of, why_wrong

# Folders of scenarios with several members.
FOLDERS = ("backups", "promotions", "moves", "reopenings")

# Members crash before each of so many steps.
APART = 5


def the_scripts_with_crashes_are_made(checks: Checks) -> None:
    """The scripts with a crash before a step are those that are made of the examples as they stand, and there are no others."""
    made = crash_scripts()
    for name, script in made.items():
        checks.equal(f"{name}.script", script, (DATA / f"{name}.script").read_text())
    there = {f"{example.folder}/{path.stem}" for example in EXAMPLES for path in (DATA / example.folder).glob("step_*.script")}
    checks.equal("scripts that aren't made", set(), there - made.keys())


def what_was_answered_stands_once_in_transcripts(checks: Checks) -> None:
    """In each transcript with a crash before a step, every call that was answered, other than with an error from 7 to 10, has one
    entry with that reply, and no call has two."""
    for name in crash_scripts():
        transcript = (DATA / f"{name}.transcript").read_text()
        checks.equal(f"{name}.transcript", [], why_wrong(transcript))


def a_rule_that_is_broken_is_told(checks: Checks) -> None:
    """A transcript without an entry, with an entry's reply changed, or with an entry twice, breaks the rule."""
    whole = (DATA / "crashes_in_a_held_put/example.transcript").read_text()
    *others, entry = whole.splitlines()
    checks.equal("the transcript", [], why_wrong(whole))
    checks.equal("its replies and entries", (1, 1), (len(replies_of(whole)), len(entries_of(whole))))
    for what, end in {"no entry": [], "another reply": [entry[:-2] + "25"], "two entries": [entry, entry]}.items():
        checks.holds(what, bool(why_wrong("\n".join([*others, *end]))), "told", "not told")


def ends(script: Path) -> bool:
    """Whether a scenario runs to its end, and so prints the histories."""
    *_, last = script.with_suffix(".transcript").read_text().splitlines()
    return not last.startswith(("limit ", "refused "))


def scripts_with_crashes() -> Iterator[tuple[str, str]]:
    """Scripts of the folders with a crash of each member before some of the steps, and what each one is."""
    for path in sorted(filter(ends, (path for folder in FOLDERS for path in (DATA / folder).glob("*.script")))):
        steps = list(steps_of(path.read_text()))
        name = f"{path.parent.name}/{path.stem}"
        for member in range(members_of(steps)):
            for number in range(2 + member, len(steps) + 1, APART):
                yield f"{name}, member {member} before step {number}", with_crash(steps, number, member, told=name)


def what_was_answered_stands_once_in_other_runs(checks: Checks) -> None:
    """So it is where the program runs the scenarios of several members with a crash of each member before every fifth step."""
    replies = 0
    for what, script in scripts_with_crashes():
        run = run_program(["replay"], script.encode())
        checks.equal(f"{what}, status", DONE, run.status)
        checks.equal(what, [], why_wrong(run.out))
        replies += len(replies_of(run.out))
    checks.at_least("replies to calls", 1000, replies)


TESTS = (
    the_scripts_with_crashes_are_made,
    what_was_answered_stands_once_in_transcripts,
    a_rule_that_is_broken_is_told,
    what_was_answered_stands_once_in_other_runs,
)
