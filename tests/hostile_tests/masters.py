"""Members that crash while decisions are under way, of scripts whose table service runs on them: what was answered stands in the
histories, and stands there once; what was published stays, and no version of a row is made twice."""

from __future__ import annotations

from collections import defaultdict
from collections.abc import Iterator

from crash_scripts import DATA, Step, members_of, steps_of
from serving.checks import Checks
from serving.server import DONE, run_program

from hostile_tests.crashes import FOLDERS, ends
from hostile_tests.histories import replies_of, why_wrong

# Members crash behind each of so many steps.
APART = 7

# The first words of lines that name a partition behind them.
OF_A_PARTITION = ("deliver", "lose", "repeat", "flow", "resend", "move", "join", "handover", "advance", "reopen", "dump")


def partitions_of(steps: list[Step]) -> list[str]:
    """The partitions that a script names."""
    named = (words[1] for step in steps if (words := step.line.split(" "))[0] in OF_A_PARTITION)
    return sorted(set(named) - {"all"})


def carried(members: int, partitions: list[str]) -> Iterator[str]:
    """Lines that carry through what is proposed, and have what waits for the table service taken."""
    for partition in partitions:
        yield f"mflow {partition} 1000"
        for member in range(members):
            yield f"deliver {partition} {member} {members} 0"
            yield f"mflow {partition} 1000"


def crash(member: int, members: int) -> Iterator[str]:
    """A member crashes, and each other one is told."""
    yield f"crash {member}"
    yield from (f"told {other} {member}" for other in range(members) if other != member)
    yield f"detect {member}"


def with_masters(steps: list[Step], number: int, member: int) -> str:
    """A script of these steps with masters, in which a member crashes behind the step of this number, counted from 1: what that
    step proposed is still under way."""
    members, partitions = members_of(steps), partitions_of(steps)
    lines = [steps[0].line, "masters"]
    for at, step in enumerate(steps[1:], 2):
        if step.line == "end":
            lines += carried(members, partitions)
            lines += ["flow all 50", "mflow 0 1000"]
        lines.append(step.line)
        if at == number:
            lines += crash(member, members)
        if step.line.split(" ")[0] not in ("bytes", "end"):
            lines += carried(members, partitions)
    return "\n".join(lines) + "\n"


def scripts_with_masters() -> Iterator[tuple[str, str]]:
    """Scripts of the folders with masters, and with a crash of each member behind some of the steps, and what each one is."""
    for path in sorted(filter(ends, (path for folder in FOLDERS for path in (DATA / folder).glob("*.script")))):
        steps = list(steps_of(path.read_text()))
        for member in range(members_of(steps)):
            for number in range(2 + member, len(steps), APART):
                what = f"{path.parent.name}/{path.stem} with masters, member {member} behind step {number}"
                yield what, with_masters(steps, number, member)


def why_unruly(transcript: str) -> list[str]:
    """Where the decisions of a partition aren't published one after the other, or a version of its row is made twice."""
    published: dict[str, int] = defaultdict(int)
    made: dict[str, int] = defaultdict(lambda: 1)
    why = []
    partition = ""
    for _, word, *rest in (line.split(" ") for line in transcript.splitlines()):
        if word == "published":
            partition, number = rest
            published[partition] += 1
            if int(number) != published[partition]:
                why.append(f"decision {number} of partition {partition} is published as number {published[partition]}")
        elif word == "row" and partition:
            if int(rest[0]) <= made[partition]:
                why.append(f"row {rest[0]} of partition {partition} is made behind row {made[partition]}")
            made[partition] = int(rest[0])
        if word != "published":
            partition = ""
    return why


def a_decision_that_goes_is_told(checks: Checks) -> None:
    """Transcripts in which a decision is published twice, or left out, or a row is made twice, are told."""
    checks.equal("a transcript", [], why_unruly("1 ok\n2 published 5 1\n2 row 2\n3 published 5 2\n3 nothing\n4 published 6 1\n4 row 2"))
    for what, end in {"twice": "3 published 5 1\n3 ok", "left out": "3 published 5 3\n3 ok", "row": "3 published 5 2\n3 row 2"}.items():
        checks.holds(what, bool(why_unruly(f"2 published 5 1\n2 row 2\n{end}")), "told", "not told")


def what_was_answered_and_published_stands(checks: Checks) -> None:
    """So it is where the program runs the scenarios of several members with masters, and each member crashes while what is proposed is
    under way."""
    replies = decisions = 0
    for what, script in scripts_with_masters():
        run = run_program(["replay"], script.encode())
        checks.equal(f"{what}, status", DONE, run.status)
        checks.equal(what, [], why_wrong(run.out) + why_unruly(run.out))
        replies += len(replies_of(run.out))
        decisions += run.out.count(" published ")
    checks.at_least("replies to calls", 500, replies)
    checks.at_least("published decisions", 500, decisions)


TESTS = (a_decision_that_goes_is_told, what_was_answered_and_published_stands)
