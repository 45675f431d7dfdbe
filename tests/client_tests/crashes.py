"""Threads of one client call while partitions move and members crash."""

from __future__ import annotations

import random
import threading
import time
from collections.abc import Callable, Iterator, Sequence
from contextlib import contextmanager
from functools import partial

from grid_client import NUMBERS, ConnectionLost, GridClient, GridError, OutcomeUnknown
from serving.checks import Checks
from serving.client import wait_until
from serving.columns import Column
from serving.operating import Operator, begin_moves, finish_moves
from serving.server import Server

from client_tests.shared import all_running, client_of, raises

# How long a call may take where a member's crash isn't detected yet.
HASTE = 1.0

# So many puts of each thread are answered in each stage of a test.
FEW = 5


class Writer:
    """Puts rising numbers under its own keys, on a thread of its own. Each answer has to be what may have been there."""

    def __init__(self, client: GridClient, number: int) -> None:
        self.map = client.map("columns")
        self.columns = [Column(f"writer {number}, key {place}") for place in range(12)]
        self.random = random.Random(number)
        self.ends = threading.Event()
        self.wrong: list[str] = []
        self.answered = 0
        self.unknown = 0

    def run(self) -> None:
        while not self.ends.is_set() and len(self.wrong) < 3:
            self.put_one(self.random.choice(self.columns))

    def put_one(self, column: Column[str]) -> None:
        column.last += 1
        try:
            before = self.map.put(column.key, b"%d" % column.last)
        except OutcomeUnknown:
            column.unanswered.append(column.last)
            self.unknown += 1
            return
        except GridError:
            return  # it wasn't executed
        if not column.may_be(before):
            self.wrong.append(f"{column.key} had {before!r} in place of {column.told()}")
        column.acknowledged = column.last
        column.unanswered.clear()
        self.answered += 1

    def check(self, checks: Checks, client: GridClient) -> None:
        """Reads each key back by another client."""
        columns = client.map("columns")
        for column in self.columns:
            value = columns.get(column.key)
            checks.holds(f"what stands under {column.key}", column.may_be(value), column.told(), value)


@contextmanager
def writing(checks: Checks, writers: Sequence[Writer]) -> Iterator[None]:
    """Writers that go on meanwhile, and have found nothing wrong behind it."""
    calls: list[Callable[[], None]] = [writer.run for writer in writers]
    with all_running(calls) as running:
        try:
            yield
        finally:
            for writer in writers:
                writer.ends.set()
    for writer, one in zip(writers, running, strict=True):
        checks.equal("what a writer found wrong", ([], []), (writer.wrong, one.errors))


def all_go_on(checks: Checks, writers: Sequence[Writer], when: str) -> None:
    """Waits until each writer has some more puts answered."""
    wanted = [writer.answered + FEW for writer in writers]
    went_on = wait_until(lambda: all(writer.answered >= count for writer, count in zip(writers, wanted, strict=True)))
    checks.holds(f"writers {when}", went_on, "go on", "don't")


def moves_are_not_noticed(checks: Checks) -> None:
    """While partitions move, threads put and always find what they put last, and no outcome is unknown."""
    with Server() as server, client_of(server) as client:
        operator = Operator(server)
        writers = [Writer(client, number) for number in range(4)]
        with writing(checks, writers):
            all_go_on(checks, writers, "at first")
            for partition in range(0, 271, 15):
                outcome = operator.move(partition, partition % 3, (partition + 2) % 3)
                checks.equal(f"move of {partition}", "row, row", outcome)
            all_go_on(checks, writers, "behind the moves")
        checks.equal("puts whose outcome isn't known", 0, sum(writer.unknown for writer in writers))
        for writer in writers:
            writer.check(checks, client)


def no_acknowledged_write_is_lost(checks: Checks) -> None:
    """Partitions move, and a member crashes amid moves and is detected a while later. Each put that was answered is there then, or
    a later one whose outcome wasn't known."""
    moving = list(range(0, 271, 20))
    with Server() as server, client_of(server, timeout=HASTE) as client:
        operator = Operator(server)
        writers = [Writer(client, number) for number in range(4)]
        with writing(checks, writers):
            all_go_on(checks, writers, "at first")
            begin_moves(operator, moving)
            checks.equal("crash", "ok", operator.order("crash 1"))
            time.sleep(0.5)
            checks.equal("detect", "ok", operator.order("detect 1"))
            finish_moves(operator, moving)
            all_go_on(checks, writers, "behind the detection")
        checks.at_least("puts whose outcome isn't known", 1, sum(writer.unknown for writer in writers))
        with client_of(server, repeat_reads=True) as reader:
            for writer in writers:
                writer.check(checks, reader)


def threads_share_a_client(checks: Checks) -> None:
    """Eight threads add to one number and fill one queue; nothing is lost, and nothing counted twice."""
    with Server() as server, client_of(server) as client:
        counts = client.map("counts", values=NUMBERS)
        q = client.queue("q", values=NUMBERS)

        def add_and_offer(thread: int) -> None:
            for turn in range(8):
                counts.add("calls", 1)
                q.offer(8 * thread + turn)

        with all_running([partial(add_and_offer, thread) for thread in range(8)]):
            pass
        checks.equal("the count", 64, counts["calls"])
        items = [q.poll() for _ in range(64)]
        checks.equal("the items", list(range(64)), sorted(item for item in items if item is not None))


def a_crash_is_told_of_one_call_alone(checks: Checks) -> None:
    """Of several connections that were open to a member as it crashed, the first call finds that out; none is lost on the others."""
    with Server() as server, client_of(server) as client:
        operator = Operator(server)
        member = client._members[0]
        for connection in [member.take() for _ in range(4)]:
            member.give(connection)
        for line in ("crash 0", "detect 0"):
            operator.order(line)
        queues = [client.queue("q", partition=partition) for partition in range(0, 30, 3)]
        raises(checks, "the first call", ConnectionLost, queues[0].poll)
        checks.equal("the others", [None] * 9, [queue.poll() for queue in queues[1:]])
        values = client.map("m").get_all([f"key {number}" for number in range(40)])
        checks.equal("many at once", {}, values)


TESTS = (
    a_crash_is_told_of_one_call_alone,
    threads_share_a_client,
    moves_are_not_noticed,
    no_acknowledged_write_is_lost,
)
