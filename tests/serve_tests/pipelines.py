"""Pipelines, many calls in one write: on a grid whose members crash and whose partitions move, and by clients that trickle, read
late, never end, leave, or send a broken frame."""

from __future__ import annotations

import threading
import time
from contextlib import suppress

from playing.grids import NOTHING, play_grid
from playing.objects import number_value
from serving import wire
from serving.checks import Checks
from serving.client import PATIENCE, Client, Ended, wait_until
from serving.server import Server
from serving.wire import Key, Kind, Refusal

from serve_tests.load import is_at_rest
from serve_tests.streams import FAULTS, bystander

# A partition that member 2 leads, and a key of another member's.
PRIMARY, PARTITION = 2, 5
ELSEWHERE = Key(6, "elsewhere")

# Histories.

GRIDS, CALLS = 2, 5000


def pipelines_have_an_order(checks: Checks) -> None:
    """Twelve clients send pipelines of sixteen calls on nine objects while partitions move, members join their rows, and members
    crash. Answers come in the order of the calls, and the calls on each object can have happened one after the other."""
    played = NOTHING
    for _ in range(GRIDS):
        played += play_grid(CALLS, time.monotonic_ns())
    checks.equal("what isn't as it has to be", [], played.wrong)
    checks.at_least("calls that were answered", GRIDS * CALLS, played.answered)
    checks.equal("crashes, and detections", [2 * GRIDS, 2 * GRIDS], [played.done["crash"], played.done["detect"]])
    for line in ("move", "join", "advance"):
        checks.at_least(f"lines '{line}' that began something", 1, played.done[line])


# In pieces, and broken off by a fault.


def sixteen_calls(name: str) -> list[tuple[bytes, bytes]]:
    """Sixteen calls on an entry and a queue of this name, where nothing stands yet, and their answers."""
    key, values = Key(PARTITION, name), [b"%d" % number for number in range(7)]
    return [
        (wire.put(0, key, values[0]), wire.valued(Kind.PUT, 0, None)),
        (wire.get(1, key), wire.valued(Kind.GET, 1, values[0])),
        (wire.put(2, key, values[2]), wire.valued(Kind.PUT, 2, values[0])),
        (wire.replace_if_same(3, key, values[2], values[3]), wire.flagged(Kind.REPLACE_IF_SAME, 3, True)),
        (wire.replace_if_same(4, key, values[2], values[4]), wire.flagged(Kind.REPLACE_IF_SAME, 4, False)),
        (wire.get(5, ELSEWHERE), wire.refused(5, Refusal.NOT_PRIMARY, 1)),
        (wire.put_if_absent(6, key, values[6]), wire.valued(Kind.PUT_IF_ABSENT, 6, values[3])),
        (wire.offer(7, PARTITION, name, values[0]), wire.flagged(Kind.OFFER, 7, True)),
        (wire.remove(8, key), wire.valued(Kind.REMOVE, 8, values[3])),
        (wire.add(9, key, 5), wire.valued(Kind.EXECUTE, 9, number_value(5))),
        (wire.add(10, key, -7), wire.valued(Kind.EXECUTE, 10, number_value(-2))),
        (wire.put_blindly(11, key, values[1]), wire.replied(Kind.SET, 11)),
        (wire.size(12, PARTITION, name), wire.numbered(Kind.SIZE, 12, 1)),
        (wire.peek(13, PARTITION, name), wire.valued(Kind.PEEK, 13, values[0])),
        (wire.poll(14, PARTITION, name), wire.valued(Kind.POLL, 14, values[0])),
        (wire.poll(15, PARTITION, name), wire.valued(Kind.POLL, 15, None)),
    ]


def a_pipeline_in_single_bytes_is_answered_alike(checks: Checks) -> None:
    """Sixteen calls in one write, and sixteen whose bytes come one by one, have the same answers, in the order of the calls."""
    with Server() as server:
        for name, length in (("whole", None), ("bytes", 1), ("sevens", 7)):
            with server.known(PRIMARY) as client:
                calls = sixteen_calls(name)
                sent = b"".join(call for call, _ in calls)
                for place in range(0, len(sent), length or len(sent)):
                    client.send(sent[place : place + (length or len(sent))])
                checks.equal(f"the answers, {name}", [answer for _, answer in calls], client.answers(len(calls)))
                checks.equal(f"behind them, {name}", "nothing", client.comes(0.1))


def a_fault_behind_ten_calls_comes_behind_their_answers(checks: Checks) -> None:
    """Ten calls, and in the same write bytes that are no message: the ten are answered, and then the connection ends."""
    with Server() as server, bystander(checks, server):
        for what, fault in FAULTS.items():
            calls = sixteen_calls(what)[:10]
            with server.known(PRIMARY) as client:
                with suppress(Ended):  # the server may be done before all is sent
                    client.send(*(call for call, _ in calls), fault)
                checks.equal(f"behind {what}", b"".join(answer for _, answer in calls), client.rest())


# Late.

LONG, LONG_VALUE, GETS = Key(PARTITION, "long"), bytes(range(250)) * 64, 1000

# The most that the server keeps for a client with sixteen megabytes of answers, in kB.
MOST_KEPT = 8192


def a_late_reader_has_all_answers_in_order(checks: Checks) -> None:
    """A client that has sent a thousand calls with sixteen megabytes of answers, and reads nothing for a while, costs the server
    little memory, and others nothing. Once it reads it has every answer, in the order of the calls."""
    with Server() as server, server.known(PRIMARY) as other, Client(server.port + PRIMARY, 16_384) as late:
        late.authenticate(2)
        late.put(LONG, LONG_VALUE)
        before = server.resident_kb()
        late.send(*(wire.get(number, LONG) for number in range(GETS)))
        is_at_rest(checks, server, "with a client that doesn't read")
        checks.equal("another client's put meanwhile", None, other.put(Key(8, "other"), b"value").value)
        checks.at_most("kB more than before", MOST_KEPT, server.resident_kb() - before)
        wrong = [number for number in range(GETS) if late.answer() != wire.valued(Kind.GET, number, LONG_VALUE)]
        checks.equal("answers that aren't the next one", [], wrong[:3])
        checks.equal("behind them", True, late.is_served())


# Without end.

ENDLESS = Key(PARTITION, "endless")

# How many calls a pipeline has behind which the next one comes before it is answered, and how many another client makes meanwhile.
PIPELINE, SINGLE_CALLS = 256, 100

# The longest that another client waits for 99 of a hundred calls, in seconds. With nothing else at work it is some milliseconds.
LONGEST_WAIT = 2.0


class Endless(threading.Thread):
    """A client that sends a pipeline before it reads the answers to the one before, and so on."""

    def __init__(self, server: Server) -> None:
        super().__init__(daemon=True)
        self.client = server.known(PRIMARY, 2)
        self.ends = threading.Event()
        self.answered = 0
        self.wrong: list[str] = []

    def __enter__(self) -> Endless:
        self.send(0)
        self.start()
        return self

    def __exit__(self, *_: object) -> None:
        self.ends.set()
        self.join(2 * PATIENCE)
        self.client.close()

    def send(self, first: int) -> None:
        """Puts the numbers from this one on."""
        numbers = range(first, first + PIPELINE)
        self.client.send(*(wire.put(number, ENDLESS, b"%d" % number) for number in numbers))

    def hear(self, first: int) -> None:
        """The answer to each put is what the one before has left."""
        numbers = range(first, first + PIPELINE)
        wanted = b"".join(wire.valued(Kind.PUT, number, b"%d" % (number - 1) if number else None) for number in numbers)
        while len(self.client.has) < len(wanted) and self.client.receive() > 0:
            pass
        came = self.client.take(len(wanted))
        if came != wanted:
            self.wrong.append(f"{came.hex()} in place of {wanted.hex()}")

    def run(self) -> None:
        try:
            while not self.ends.is_set() and not self.wrong:
                self.send(self.answered + PIPELINE)
                self.hear(self.answered)
                self.answered += PIPELINE
        except Exception as error:  # told by the test
            self.wrong.append(f"{type(error).__name__}: {error}")


def seconds_of(client: Client, number: int) -> float:
    """How long a put of the client takes."""
    start = time.monotonic()
    client.put(Key(PARTITION, f"single {number % 10}"), b"%d" % number)
    return time.monotonic() - start


def an_endless_pipeline_leaves_others_their_turn(checks: Checks) -> None:
    """While one connection always has 256 calls and more under way, 99 of a hundred calls of another one, at the same member and in
    the same partition, are answered within two seconds each. Both go on."""
    with Server() as server:
        with server.known(PRIMARY) as other, Endless(server) as endless:
            before = endless.answered
            times = sorted(seconds_of(other, number) for number in range(SINGLE_CALLS))
            checks.at_most("seconds of the 99th of a hundred", LONGEST_WAIT, times[SINGLE_CALLS * 99 // 100 - 1])
            went_on = wait_until(lambda: endless.answered > before + 2 * PIPELINE or bool(endless.wrong))
            checks.holds("the pipeline", went_on, "goes on", f"{endless.answered - before} answers")
        checks.equal("the pipeline's answers", [], endless.wrong)


# Left.

ITEMS = 200


def offers(server: Server, name: str, heard: int) -> Client:
    """A client that offers items in one pipeline, and hears so many of the answers."""
    client = server.known(PRIMARY, 2)
    client.send(*(wire.offer(number, PARTITION, name, b"%d" % number) for number in range(ITEMS)))
    client.answers(heard)
    return client


def polled(client: Client, name: str) -> list[bytes]:
    """All items of a queue."""
    items = []
    while (item := wire.read_answer(client.ask(wire.poll(client.next_number(), PARTITION, name))).value) is not None:
        items.append(item)
    return items


def leaving_amid_a_pipeline_leaves_a_front_of_it(checks: Checks) -> None:
    """Clients close, or reset, in the middle of a pipeline of offers. What stands then is a front of what was offered, with all
    that was answered, and the connections are given back."""
    with Server() as server, bystander(checks, server) as other:
        before = server.descriptors()
        for heard in (0, 1, 16, 17, 100, ITEMS - 1):
            for leave in (Client.close, Client.reset):
                name = f"{leave.__name__} behind {heard}"
                leave(offers(server, name, heard))
                gone = wait_until(lambda: server.descriptors() <= before)
                checks.holds(f"{name}, descriptors", gone, before, server.descriptors())
                items = polled(other, name)
                checks.equal(f"{name}, what stands", [b"%d" % number for number in range(len(items))], items)
                checks.at_least(f"{name}, how much", heard, len(items))


TESTS = (
    pipelines_have_an_order,
    a_pipeline_in_single_bytes_is_answered_alike,
    a_fault_behind_ten_calls_comes_behind_their_answers,
    a_late_reader_has_all_answers_in_order,
    an_endless_pipeline_leaves_others_their_turn,
    leaving_amid_a_pipeline_leaves_a_front_of_it,
)
