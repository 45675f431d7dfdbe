"""A control script that crashes, moves and orders what can't be done, under load."""

from __future__ import annotations

import random
from collections.abc import Iterator

from serve_tests.crashes import Writer, all_go_on, working
from serving.checks import Checks
from serving.operating import Operator, finish_moves
from serving.roaming import Roaming
from serving.server import Server

from hostile_tests.witness import MOST_GROWTH

MEMBERS = 4

# Each acknowledged write stands at three members, so it outlives two of them.
BACKUPS = 2

PARTITIONS = list(range(24))

# How many lines are ordered between one crash or detection and the next.
BETWEEN = 60

CRASHES = ("crash 1", "detect 1", "crash 3", "detect 3")

# What the lines come to, each of these at some of them.
OUTCOMES = {"ok", "nothing", "row", "freezing", "refused"}


def any_order(chooser: random.Random) -> str:
    """A line about some partition and some members. Many can't be done, and are refused."""
    partition, source, target = chooser.choice(PARTITIONS), chooser.randrange(MEMBERS), chooser.randrange(MEMBERS)
    moves = [f"{word} {partition} {source} {target}" for word in ("move", "handover")]
    others = [f"join {partition} {target}", f"resend {partition} {source}", f"reopen {partition}"]
    return chooser.choice([*moves, *others, *3 * [f"advance {partition}"]])


def orders(seed: int) -> Iterator[str]:
    """The lines of a script: orders of all kinds, and between them two members that crash and are detected."""
    chooser = random.Random(seed)
    for crash in CRASHES:
        yield from (any_order(chooser) for _ in range(BETWEEN))
        yield crash
    yield from (any_order(chooser) for _ in range(BETWEEN))


def acknowledged_writes_outlive_a_wild_operator(checks: Checks) -> None:
    """While six clients put numbers, an operator moves, joins, hands over and reopens partitions at random, and two of four members
    crash. Each put that was answered is there afterwards, or a later one, and the server's memory stays bounded."""
    with Server(members=MEMBERS, backups=BACKUPS) as server:
        before = server.resident_kb()
        operator = Operator(server)
        writers = [Writer(server, number, PARTITIONS) for number in range(6)]
        with working(checks, writers):
            all_go_on(checks, writers, "at first")
            outcomes = {operator.order(line).split(" ")[0] for line in orders(seed=1)}
            finish_moves(operator, PARTITIONS)
            all_go_on(checks, writers, "behind the crashes")
        checks.equal("what the lines came to", OUTCOMES, outcomes)
        checks.at_most("kB more than before, at most", MOST_GROWTH, server.peak_kb() - before)
        with Roaming(server.port, server.members, 100) as reader:
            for writer in writers:
                writer.check(checks, reader)


TESTS = (acknowledged_writes_outlive_a_wild_operator,)
