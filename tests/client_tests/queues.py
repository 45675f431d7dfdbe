"""Queues: each call of the client over a server."""

from __future__ import annotations

import signal
import time
from collections.abc import Callable, Iterator
from contextlib import contextmanager, suppress

from grid_client import NUMBERS, TEXT, GridClient, LockTimeout, Queue, partition_of
from serving import wire
from serving.checks import Checks
from serving.server import Server
from serving.wire import Kind

from client_tests.fakes import Behaviour, Call, FakeMember
from client_tests.shared import Running, client_of, raises


def each_call_of_a_queue_answers(checks: Checks) -> None:
    """Items come out as they went in, and no more go in than there is room for."""
    with Server(capacity=2) as server, client_of(server) as client:
        q = client.queue("jobs", values=TEXT)
        answers = [
            ("poll of nothing", None, q.poll()),
            ("peek of nothing", None, q.peek()),
            ("offer", True, q.offer("a")),
            ("another one", True, q.offer("b")),
            ("offer without room", False, q.offer("c")),
            ("size", 2, q.size()),
            ("length", 2, len(q)),
            ("room", 0, q.remaining_capacity()),
            ("peek", "a", q.peek()),
            ("poll", "a", q.poll()),
            ("room behind it", 1, q.remaining_capacity()),
            ("an empty queue as a condition", True, bool(q)),
        ]
        for call, wanted, came in answers:
            checks.equal(call, wanted, came)
        q.clear()
        checks.equal("size behind clear", 0, q.size())


def calls_wait_for_items_and_for_room(checks: Checks) -> None:
    """A poll waits until an item comes, and an offer until there is room; both give up where their time is up."""
    with Server(capacity=1) as server, client_of(server) as client:
        q = client.queue("jobs", values=NUMBERS)
        checks.equal("a poll that gives up", None, q.poll(wait=0.05))
        polling = Running(lambda: q.poll(wait=20))
        checks.equal("a poll that waits", False, polling.ends_within(0.1))
        checks.equal("an offer for it", True, q.offer(1))
        checks.equal("what the poll took", 1, polling.result())
        q.offer(2)
        checks.equal("an offer that gives up", False, q.offer(3, wait=0.05))
        offering = Running(lambda: q.offer(4, wait=20))
        checks.equal("an offer that waits", False, offering.ends_within(0.1))
        checks.equal("a poll for it", 2, q.poll())
        checks.equal("whether it was put", True, offering.result())
        checks.equal("what is left", [4, None], [q.poll(), q.poll()])


def a_wait_never_ends_early(checks: Checks) -> None:
    """A call that waits in vain ends once its time is up, and not before."""
    with Server(capacity=0) as server, client_of(server) as client, client_of(server) as other:
        q, m = client.queue("jobs"), client.map("m")
        other.map("m").try_lock("k")
        waits: list[tuple[str, Callable[[float], object]]] = [
            ("poll", lambda wait: q.poll(wait=wait)),
            ("offer", lambda wait: q.offer(b"v", wait=wait)),
            ("lock", lambda wait: raises(checks, "a lock", LockTimeout, m.lock("k", wait=wait).__enter__)),
        ]
        for what, call in waits:
            for wait in (0.03, 0.15, 0.35):
                begin = time.monotonic()
                call(wait)
                checks.at_least(f"seconds of a {what} that waits {wait}", wait, time.monotonic() - begin)


# How many items there are for consumers that are interrupted.
ITEMS = 600


class Interrupted(Exception):
    """What the handler of a signal raises in these tests."""


@contextmanager
def interrupted_after(seconds: float) -> Iterator[None]:
    """Interrupts this thread by a signal."""

    def interrupt(*_: object) -> None:
        raise Interrupted

    before = signal.signal(signal.SIGALRM, interrupt)
    signal.setitimer(signal.ITIMER_REAL, seconds)
    try:
        yield
    finally:
        signal.setitimer(signal.ITIMER_REAL, 0)
        signal.signal(signal.SIGALRM, before)


def polled_until_interrupted(q: Queue[int], seconds: float) -> list[int]:
    """Polls again and again until a signal comes. The items that polls gave."""
    items = []
    with suppress(Interrupted), interrupted_after(seconds):
        while True:
            item = q.poll(wait=5)
            if item is not None:
                items.append(item)
    return items


def an_interrupted_poll_loses_no_item(checks: Checks) -> None:
    """A consumer is interrupted again and again, as by control-C, while items come. Each is given to somebody in the end."""
    with Server() as server, client_of(server) as client, client_of(server) as other:
        q, given = client.queue("jobs", values=NUMBERS), list[int]()
        with other.pipeline() as pipeline:
            for number in range(ITEMS):
                pipeline.queue("jobs", values=NUMBERS).offer(number)
        for turn in range(40):
            given += polled_until_interrupted(q, 0.001 + 0.0007 * turn)
        while (item := q.poll()) is not None:
            given.append(item)
        checks.equal("items that were given", list(range(ITEMS)), sorted(given))


def an_interrupted_poll_keeps_its_item(checks: Checks) -> None:
    """Where the interrupt comes before the answer, the next poll gives the item, and a client that is closed puts it back."""
    with FakeMember(slowly_giving(NUMBERS.to_value(5))) as member, GridClient([member.address]) as client:
        q = client.queue("jobs", values=NUMBERS)
        with interrupted_after(0.1):
            raises(checks, "a poll", Interrupted, q.poll)
        checks.equal("calls", 1, len(member.calls))
        checks.equal("the next poll", 5, q.poll())
        checks.equal("calls behind it", 1, len(member.calls))
        with interrupted_after(0.1):
            raises(checks, "another poll", Interrupted, q.poll)
    kinds = [call.kind for call in member.calls]
    checks.equal("what came as the client was closed", [Kind.POLL, Kind.POLL, Kind.OFFER], kinds)


def slowly_giving(data: bytes) -> Behaviour:
    """Gives a poll an item a while later, and has room for each offer."""

    def answer(call: Call) -> bytes:
        if call.kind == Kind.OFFER:
            return wire.flagged(Kind.OFFER, call.correlation, True)
        time.sleep(0.3)
        return wire.valued(Kind.POLL, call.correlation, data)

    return answer


def queues_are_told_by_name_and_partition(checks: Checks) -> None:
    """Queues of one name in two partitions are two queues; without a partition the name tells it."""
    with Server() as server, client_of(server) as client:
        queues = [client.queue("jobs", partition=partition) for partition in (0, 5, 270)]
        for place, queue in enumerate(queues):
            queue.offer(b"%d" % place)
        checks.equal("what each has", [b"0", b"1", b"2"], [queue.poll() for queue in queues])
        orders = client.queue("orders", values=TEXT)
        checks.equal("the partition that a name tells", partition_of(TEXT.to_key("orders")), orders.partition)
        orders.offer("x")
        checks.equal("a second object of that name", "x", client.queue("orders", values=TEXT).poll())
        for partition in (-1, 271):
            raises(checks, f"partition {partition}", ValueError, client.queue, "q", partition=partition)


TESTS = (
    each_call_of_a_queue_answers,
    calls_wait_for_items_and_for_room,
    a_wait_never_ends_early,
    an_interrupted_poll_keeps_its_item,
    an_interrupted_poll_loses_no_item,
    queues_are_told_by_name_and_partition,
)
