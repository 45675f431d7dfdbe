#!/usr/bin/env -S python3 -B
"""Makes the scenarios in which a member crashes before a step of an example, as docs/SCENARIOS.md tells of them ("Crashes before
each step"), and writes their scripts into crates/grid_scenarios/data: tests/crash_scripts.py. Their transcripts aren't made."""

from __future__ import annotations

from collections.abc import Iterator
from dataclasses import dataclass
from pathlib import Path

DATA = Path(__file__).resolve().parents[1] / "crates/grid_scenarios/data"

# How many messages of each partition are delivered behind a crash: more than any example has in flight.
DELIVERED = 50


@dataclass(frozen=True)
class Example:
    """A scenario before whose steps members crash, and the folder of the scripts in which they do."""

    folder: str
    scenario: str
    told: str


EXAMPLES = (
    Example("crashes_in_a_held_put", "crashes_in_a_held_put/example", "a put that is held until its backup acknowledges"),
    Example(
        "crashes_in_a_lost_acknowledgement",
        "promotions/a_put_that_its_backup_has_is_kept",
        "a put whose acknowledgement is lost, with its primary",
    ),
    Example("crashes_in_a_move", "crashes_in_a_move/example", "a primary's move with a held put"),
    Example("crashes_in_a_shop", "crashes_in_a_shop/example", "a cart, a stock and orders"),
)


@dataclass(frozen=True)
class Step:
    """A line that is no comment, and what stands above it of what a client says."""

    comments: tuple[str, ...]
    line: str


def is_comment(line: str) -> bool:
    return line.startswith("#")


def what_is_said(comment: str) -> str:
    """A comment above bytes without what comes of them, which hangs on who has crashed."""
    return comment.split(": ", 1)[0]


def steps_of(script: str) -> Iterator[Step]:
    """The lines of a script that are no comments. What the client says is kept above its bytes; other comments are left out."""
    above: list[str] = []
    for line in script.splitlines():
        if is_comment(line):
            above.append(line)
        else:
            said = above if line.startswith("bytes ") else []
            yield Step(tuple(what_is_said(comment) for comment in said), line)
            above = []


def members_of(steps: list[Step]) -> int:
    """How many members a script has, by its first line."""
    return int(steps[0].line.split(" ")[1])


def crash(number: int, member: int) -> Step:
    """A member crashes before the step of this number and is detected, and what is in flight is delivered."""
    comment = f"# before step {number} member {member} crashes, is detected, and what is in flight is delivered"
    return Step((comment,), f"crash {member}\ndetect {member}\nflow all {DELIVERED}")


def with_crash(steps: list[Step], number: int, member: int, *, told: str) -> str:
    """A script of these steps in which a member crashes before the one of this number, counted from 1."""
    sentence = f"# Before step {number} of {told}, member {member} crashes."
    first, *others = (*steps[: number - 1], crash(number, member), *steps[number - 1 :])
    lines = [first.line, sentence, *(line for step in others for line in (*step.comments, step.line))]
    return "\n".join(lines) + "\n"


def scripts_of(example: Example) -> dict[str, str]:
    """The scripts of an example by their names: one for each step but the first and each member."""
    steps = list(steps_of((DATA / f"{example.scenario}.script").read_text()))
    return {
        f"{example.folder}/step_{number:02}_member_{member}": with_crash(steps, number, member, told=example.told)
        for number in range(2, len(steps) + 1)
        for member in range(members_of(steps))
    }


def crash_scripts() -> dict[str, str]:
    """All of them, by their names."""
    return {name: script for example in EXAMPLES for name, script in scripts_of(example).items()}


def main() -> None:
    scripts = crash_scripts()
    for name, script in scripts.items():
        (DATA / f"{name}.script").write_text(script)
    print(f"{len(scripts)} scripts written")


if __name__ == "__main__":
    main()
