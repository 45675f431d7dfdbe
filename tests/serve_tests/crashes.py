"""Members that crash, and partitions that move, while clients call."""

from __future__ import annotations

import random
import threading
import time
from collections.abc import Callable, Iterator, Sequence
from contextlib import ExitStack, contextmanager

from serving import wire
from serving.checks import Checks
from serving.client import PATIENCE, wait_until
from serving.columns import Column
from serving.operating import Operator, begin_moves, finish_moves
from serving.roaming import Roaming, Unanswered
from serving.server import Server
from serving.wire import Key, Kind, Refusal

from serve_tests.load import is_at_rest

# Of three members, 2 leads this partition and 0 is its backup; 17 and 2 have the same members, and 17 the same worker.
KEY = Key(5, "k")
SAME_WORKER = Key(17, "k")
OTHER_WORKER = Key(2, "k")
PRIMARY, BACKUP, OTHER = 2, 0, 1


# Held calls.


def a_put_waits_for_a_crashed_backup(checks: Checks) -> None:
    """A put whose backup has crashed isn't answered, nor is a read that saw it, while other calls of the same worker are. The
    detection has both answered."""
    with Server() as server, ExitStack() as stack:
        putting, reading, other = (stack.enter_context(server.known(PRIMARY, number)) for number in range(3))
        checks.equal("crash", "1 ok", server.order(f"crash {BACKUP}"))
        putting.send(wire.put(1, KEY, b"held"))
        checks.equal("the put", "nothing", putting.comes())
        reading.send(wire.get(1, KEY), wire.ping(2))
        checks.equal("a get of it", "nothing", reading.comes())
        for key in (SAME_WORKER, OTHER_WORKER):
            checks.equal(f"a get in {key.partition}", wire.valued(Kind.GET, 3, None), other.ask(wire.get(3, key)))
        checks.equal("a ping", True, other.is_served())
        is_at_rest(checks, server, "with held calls")
        checks.equal("the put still", "nothing", putting.comes())
        checks.equal("detect", "2 ok", server.order(f"detect {BACKUP}"))
        checks.equal("the put, once it is detected", wire.valued(Kind.PUT, 1, None), putting.answer())
        checks.equal("the get", [wire.valued(Kind.GET, 1, b"held"), wire.pong(2)], reading.answers(2))
        checks.equal("a put behind that", wire.valued(Kind.PUT, 4, b"held"), putting.ask(wire.put(4, KEY, b"next")))


def many_held_calls_are_answered(checks: Checks) -> None:
    """Puts of two hundred connections on one partition wait for a crashed backup, and calls of another partition of that worker are
    answered meanwhile. All puts are answered behind the detection, and none before."""
    with Server() as server, ExitStack() as stack:
        clients = [stack.enter_context(server.known(PRIMARY, number)) for number in range(200)]
        other = stack.enter_context(server.known(PRIMARY, 200))
        checks.equal("crash", "1 ok", server.order(f"crash {BACKUP}"))
        for number, client in enumerate(clients):
            client.send(wire.put(number, Key(5, f"{number}"), b"held"))
        early = [number for number, client in enumerate(clients) if client.comes(0.005) == "bytes"]
        checks.equal("puts that are answered before the detection", [], early)
        checks.equal("a get beside them", wire.valued(Kind.GET, 3, None), other.ask(wire.get(3, SAME_WORKER)))
        checks.equal("detect", "2 ok", server.order(f"detect {BACKUP}"))
        for number, client in enumerate(clients):
            checks.equal(f"put {number}", wire.valued(Kind.PUT, number, None), client.answer())
            checks.equal(f"put {number} stands", b"held", client.get(Key(5, f"{number}")).value)


def a_crashed_member_ends_its_connections(checks: Checks) -> None:
    """A connection ends where its member has crashed before it answered a call, be it held, be it new. Other members answer what
    they know."""
    with Server() as server, ExitStack() as stack:
        held, idle = (stack.enter_context(server.known(PRIMARY, number)) for number in range(2))
        checks.equal("crash", "1 ok", server.order(f"crash {BACKUP}"))
        held.send(wire.put(1, KEY, b"held"), wire.ping(2))
        checks.equal("the put", "nothing", held.comes())
        checks.equal("crash", "2 ok", server.order(f"crash {PRIMARY}"))
        checks.equal("the held put", b"", held.rest())
        idle.send(wire.get(1, OTHER_WORKER), wire.ping(2))
        checks.equal("a call of one that was there", b"", idle.rest())
        with server.client(PRIMARY) as late:
            late.send(wire.PREFIX, wire.authentication(0), wire.get(1, KEY))
            checks.equal("one that comes now", wire.accepted(0, PRIMARY), late.rest())
        with server.known(OTHER) as client:
            wanted = wire.refused(1, Refusal.NOT_PRIMARY, 1)
            checks.equal("before the detection", wanted, client.ask(wire.get(1, KEY)))


def an_answered_put_outlives_its_primary(checks: Checks) -> None:
    """The backup answers what was put at a primary that has crashed, once that is detected."""
    with Server() as server:
        keys = [Key(partition, "k") for partition in range(2, 271, 3)]
        with server.known(PRIMARY) as client:
            checks.equal("puts", {None}, {client.put(key, b"kept").value for key in keys})
        with server.known(BACKUP) as client:
            checks.equal("crash", "1 ok", server.order(f"crash {PRIMARY}"))
            checks.equal("the backup before", {Refusal.NOT_PRIMARY}, {client.get(key).refusal for key in keys})
            checks.equal("detect", "2 ok", server.order(f"detect {PRIMARY}"))
            checks.equal("the backup behind", {b"kept"}, {client.get(key).value for key in keys})


# Clients under load.


class Worker(threading.Thread):
    """A client on a thread of its own, which goes on until it is told to end. What goes wrong in it is kept."""

    def __init__(self, server: Server, number: int) -> None:
        super().__init__(daemon=True)
        self.roaming = Roaming(server.port, server.members, number)
        self.random = random.Random(number)
        self.number = number
        self.ends = threading.Event()
        self.wrong: list[str] = []
        self.calls = 0

    def run(self) -> None:
        try:
            with self.roaming:
                while not self.ends.is_set():
                    self.go_on()
        except Exception as error:  # told by the test
            self.wrong.append(f"{type(error).__name__}: {error}")

    def go_on(self) -> None:
        raise NotImplementedError


@contextmanager
def working(checks: Checks, workers: Sequence[Worker]) -> Iterator[None]:
    """Clients that work meanwhile, and end behind it."""
    for worker in workers:
        worker.start()
    try:
        yield
    finally:
        for worker in workers:
            worker.ends.set()
        for worker in workers:
            worker.join(2 * PATIENCE)
        for worker in workers:
            checks.equal(f"client {worker.number}", [], worker.wrong[:3])


class Writer(Worker):
    """Puts rising numbers under its own keys. Each answer has to be what may have been there."""

    def __init__(self, server: Server, number: int, partitions: list[int]) -> None:
        super().__init__(server, number)
        self.columns = [Column(Key(partition, f"w{number}")) for partition in partitions]

    def go_on(self) -> None:
        column = self.random.choice(self.columns)
        column.last += 1
        try:
            before = self.roaming.put(column.key, b"%d" % column.last)
        except Unanswered:
            column.unanswered.append(column.last)
            return
        if not column.may_be(before):
            self.wrong.append(f"{column.key} had {before!r} in place of {column.told()}")
        column.acknowledged = column.last
        column.unanswered.clear()
        self.calls += 1

    def check(self, checks: Checks, reader: Roaming) -> None:
        """Reads each key back."""
        for column in self.columns:
            value = reader.get(column.key)
            checks.holds(f"what stands under {column.key}", column.may_be(value), column.told(), value)


class Keeper(Worker):
    """Puts and gets its own keys by turns, and always finds the value that it put last."""

    def __init__(self, server: Server, number: int, partitions: list[int]) -> None:
        super().__init__(server, number)
        self.values: dict[Key, bytes | None] = {Key(partition, f"k{number}"): None for partition in partitions}

    def go_on(self) -> None:
        key = self.random.choice(list(self.values))
        value = b"%d" % self.calls
        self.find(key, self.roaming.put(key, value), "put")
        self.values[key] = value
        self.find(key, self.roaming.get(key), "get")
        self.calls += 2

    def find(self, key: Key, value: bytes | None, call: str) -> None:
        if value != self.values[key]:
            self.wrong.append(f"a {call} of {key} found {value!r} in place of {self.values[key]!r}")


def have_called(workers: Sequence[Worker], calls: int) -> bool:
    """Whether each client has had so many calls answered, or something went wrong in one."""
    return all(worker.calls >= calls for worker in workers) or any(worker.wrong for worker in workers)


def lasts(seconds: float, enough: Callable[[], bool]) -> Iterator[int]:
    """Counts from 0 for so long, and until it is enough, though not for ever."""
    start = time.monotonic()
    number = 0
    while time.monotonic() < start + seconds or (not enough() and time.monotonic() < start + PATIENCE):
        yield number
        number += 1


def moves_are_not_noticed(checks: Checks) -> None:
    """While partitions move back and forth, four clients put and get their own keys: each always finds what it put last."""
    partitions = list(range(12))
    with Server() as server:
        operator = Operator(server)
        keepers = [Keeper(server, number, partitions) for number in range(4)]
        outcomes = set()
        with working(checks, keepers):
            for turn in lasts(2.0, lambda: have_called(keepers, 100)):
                partition = partitions[turn % len(partitions)]
                there = [partition % 3, (partition + 2) % 3]
                source, target = there if turn // len(partitions) % 2 == 0 else there[::-1]
                outcomes.add(operator.move(partition, source, target))
        checks.equal("what the moves came to", {"row, row"}, outcomes)
        checks.at_least("moves", 2 * len(partitions), operator.moves)
        checks.at_least("calls of each client", 100, min(keeper.calls for keeper in keepers))


def move_some(checks: Checks, operator: Operator, partitions: list[int]) -> None:
    """Moves these partitions from their first primaries to members outside their rows."""
    for partition in partitions:
        outcome = operator.move(partition, partition % 3, (partition + 2) % 3)
        checks.equal(f"move of {partition}", "row, row", outcome)


def all_go_on(checks: Checks, writers: list[Writer], when: str) -> None:
    """Waits until each client has some more puts answered."""
    calls = max(writer.calls for writer in writers) + 20
    checks.holds(f"clients {when}", wait_until(lambda: have_called(writers, calls)), "go on", "don't")


def crash_under_load(checks: Checks, operator: Operator, writers: list[Writer], member: int) -> None:
    """Partitions move, and a member crashes amid moves. It is detected a while later, and what is left to move moves."""
    all_go_on(checks, writers, "at first")
    move_some(checks, operator, [0, 1, 2, 3])
    begin_moves(operator, list(range(4, 16)))
    checks.equal("crash", "ok", operator.order(f"crash {member}"))
    time.sleep(0.3)
    checks.equal("detect", "ok", operator.order(f"detect {member}"))
    finish_moves(operator, list(range(4, 16)))
    all_go_on(checks, writers, "behind the detection")


def no_acknowledged_write_is_lost(checks: Checks) -> None:
    """Clients put numbers at all members while partitions move and a member crashes. Each answer has what may have been there
    before; and each put that was answered is there afterwards, or a later one."""
    for member in range(3):
        with Server() as server:
            writers = [Writer(server, number, list(range(24))) for number in range(6)]
            with working(checks, writers):
                crash_under_load(checks, Operator(server), writers, member)
            with Roaming(server.port, server.members, 100) as reader:
                for writer in writers:
                    writer.check(checks, reader)


TESTS = (
    a_put_waits_for_a_crashed_backup,
    many_held_calls_are_answered,
    a_crashed_member_ends_its_connections,
    an_answered_put_outlives_its_primary,
    moves_are_not_noticed,
    no_acknowledged_write_is_lost,
)
