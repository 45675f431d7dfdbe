"""Calls whose answers don't come: what is known of them, and what the client does."""

from __future__ import annotations

import socket
import struct
import time
from functools import partial
from typing import Any, cast

from grid_client import TEXT, ClientClosed, ConnectionLost, GridClient, OutcomeUnknown, ProtocolFault, WrongTarget, connections
from serving import wire
from serving.checks import Checks
from serving.client import wait_until
from serving.server import Server

from client_tests.fakes import Behaviour, Call, FakeMember, ending, finding_nothing, in_turn, refusing, silent
from client_tests.shared import SHORT, Running, raises


def a_call_that_may_have_been_executed_is_not_sent_again(checks: Checks) -> None:
    """Where a connection ends in place of an answer that is told, and the call was made once, of one member. The next one has a new
    connection."""
    for call in ("put", "get"):
        with FakeMember(in_turn(ending, finding_nothing)) as member, GridClient([member.address]) as client:
            m = client.map("m")
            make = partial(m.put, "k", b"v") if call == "put" else partial(m.get, "k")
            raises(checks, f"a {call}", ConnectionLost, make)
            checks.equal(f"how often the {call} was made", 1, len(member.calls))
            checks.equal("the next one", None, make())
    with FakeMember(ending) as member, FakeMember(finding_nothing) as other:
        with GridClient([member.address, other.address]) as client:
            raises(checks, "a poll", ConnectionLost, client.queue("q", partition=0).poll)
        checks.equal("calls of each member", (1, 0), (len(member.calls), len(other.calls)))


def reads_are_made_again_where_that_is_wished(checks: Checks) -> None:
    """With `repeat_reads` a read is made again until it is answered, and a write isn't."""
    with FakeMember(in_turn(ending, ending, finding_nothing)) as member:
        with GridClient([member.address], repeat_reads=True) as client:
            checks.equal("a get", None, client.map("m").get("k"))
            checks.equal("how often it was made", 3, len(member.calls))
    with FakeMember(ending) as member, GridClient([member.address], repeat_reads=True, retry_for=SHORT) as client:
        raises(checks, "a put", ConnectionLost, client.map("m").put, "k", b"v")
        checks.equal("how often it was made", 1, len(member.calls))
        raises(checks, "a get that is never answered", ConnectionLost, client.map("m").get, "k")


def a_call_without_an_answer_ends_in_its_time(checks: Checks) -> None:
    """A member that doesn't answer keeps a call no longer than its timeout. An answer that comes late is nobody's."""
    with FakeMember(in_turn(silent, finding_nothing)) as member, GridClient([member.address], timeout=2) as client:
        begin = time.monotonic()
        raises(checks, "the call", OutcomeUnknown, client.map("m").put, "k", b"v")
        checks.at_most("seconds until it ended", 10, time.monotonic() - begin)
        checks.equal("the next call", None, client.map("m").put("k", b"v"))


def a_held_call_keeps_no_other_one(checks: Checks) -> None:
    """While one thread's call has no answer, others are answered: on connections of their own, or on the same one, where there are
    no more and the member answers others first."""

    def backwards(call: Call) -> bytes:
        """Answers two calls at once, the last one first."""
        calls = fake.calls[call.place - 1 : call.place + 1] if call.place % 2 else []
        return b"".join(finding_nothing(one) for one in reversed(calls))

    with FakeMember(in_turn(silent, finding_nothing)) as fake, GridClient([fake.address], timeout=20) as client:
        held = Running(lambda: client.map("m").put("k", b"v"))
        until_called(fake)
        checks.equal("others", [None] * 3, [client.map("m").get("k") for _ in range(3)])
        checks.equal("whether the first one is held", False, held.ends_within(0))
    raises(checks, "the held one", ConnectionLost, held.result)
    with FakeMember(backwards) as fake, GridClient([fake.address], connections=1) as client:
        first = Running(lambda: client.map("m").get("k"))
        until_called(fake)
        checks.equal("the second one", None, client.map("m").get("k"))
        checks.equal("the first one", None, first.result())
        checks.equal("connections", 1, len(fake.connections))


class CountedSocket:
    """A socket that notes which of its methods are called."""

    def __init__(self, inner: socket.socket) -> None:
        self.inner = inner
        self.called: list[str] = []

    def __getattr__(self, name: str) -> Any:
        self.called.append(name)
        return getattr(self.inner, name)


def a_call_is_one_send_and_one_receive(checks: Checks) -> None:
    """A call whose connection was used a moment ago makes no other system call."""
    moment = connections.IDLE
    setattr(connections, "IDLE", 60.0)
    try:
        with Server(members=1) as server, GridClient.local(1, server.port) as client:
            m = client.map("m")
            m["k"] = b"v"
            connection = client._members[0].take()
            counted = CountedSocket(connection._socket)
            connection._socket = cast(socket.socket, counted)
            client._members[0].give(connection)
            for _ in range(5):
                m.get("k")
            checks.equal("what was called", ["send", "recv"] * 5, counted.called)
            del counted.called[:]
            m.get_all(["k", "j", "i"])
            checks.equal("what was called for three keys at once", ["send", "recv"], counted.called[:2])
    finally:
        setattr(connections, "IDLE", moment)


def answers_find_their_callers(checks: Checks) -> None:
    """Eight threads share one connection, and each gets the values of its own keys."""
    with Server() as server, GridClient.local(3, server.port, connections=1) as client:
        m = client.map("m", values=TEXT)

        def put_and_get(thread: int) -> None:
            for turn in range(30):
                m[f"{thread} {turn}"] = f"{thread} {turn}"
                if m[f"{thread} {turn}"] != f"{thread} {turn}":
                    raise AssertionError("the value of another key")

        for one in [Running(partial(put_and_get, thread)) for thread in range(8)]:
            checks.equal("a thread", None, one.result())


def a_call_may_have_a_time_of_its_own(checks: Checks) -> None:
    """With `timeout` a call ends in that time, be it that its answer doesn't come or that no member takes it."""
    begin = time.monotonic()
    with FakeMember(in_turn(silent, finding_nothing)) as member, GridClient([member.address], timeout=60) as client:
        m = client.map("m")
        raises(checks, "a call without an answer", OutcomeUnknown, m.put, "k", b"v", timeout=0.1)
        checks.equal("one behind it", None, m.get("k", timeout=20))
        raises(checks, "a timeout of no time", ValueError, m.get, "k", timeout=0)
    with FakeMember(refusing(8, 1)) as member, GridClient([member.address], retry_for=60) as client:
        raises(checks, "a call that nobody takes", WrongTarget, client.queue("q").poll, timeout=0.1)
    checks.at_most("seconds", 10, time.monotonic() - begin)


def until_called(member: FakeMember) -> None:
    wait_until(lambda: len(member.calls) > 0)


def an_idle_connection_that_ended_is_not_a_lost_call(checks: Checks) -> None:
    """A connection that ended a moment ago, while nobody called, is opened anew, without a word."""
    with FakeMember(finding_nothing) as member, GridClient([member.address]) as client:
        for _ in range(3):
            checks.equal("a put", None, client.map("m").put("k", b"v"))
            member.end_connections()
            time.sleep(0.01)
        checks.equal("calls", 3, len(member.calls))


def what_is_no_answer_is_told(checks: Checks) -> None:
    """Bytes that aren't the call's answer leave its outcome unknown, and another connection is opened for the next call."""
    faults: dict[str, Behaviour] = {
        "an answer to another call": lambda call: wire.message(struct.pack("<Iqx", call.kind + 1, call.correlation + 1), None),
        "an answer of another type": lambda call: wire.message(struct.pack("<Iqx", call.kind + 2, call.correlation), None),
        "no frame": lambda _call: bytes(6),
        "a short answer": lambda call: wire.message(struct.pack("<I", call.kind + 1)),
        "a short error": lambda call: wire.message(struct.pack("<Iqxi", 0, call.correlation, 8)),
        "an answer without its value": lambda call: wire.message(struct.pack("<Iqx", call.kind + 1, call.correlation)),
        "an answer to nothing": lambda call: wire.message(None),
    }
    for what, fault in faults.items():
        with FakeMember(in_turn(fault, finding_nothing)) as member, GridClient([member.address]) as client:
            raises(checks, what, ProtocolFault, client.map("m").put, "k", b"v")
            checks.equal(f"the call behind {what}", None, client.map("m").put("k", b"v"))


def a_closed_client_makes_no_calls(checks: Checks) -> None:
    """A client that was closed says so, and one that is closed ends the calls that wait."""
    with FakeMember(silent) as member:
        with GridClient([member.address]) as client:
            waiting = Running(lambda: client.map("m").put("k", b"v"))
            until_called(member)
        raises(checks, "a call that waited", ConnectionLost, waiting.result)
        raises(checks, "a later call", ClientClosed, client.map("m").put, "k", b"v")
        checks.equal("calls", 1, len(member.calls))
        client.close()


def a_member_that_ended_a_call_is_asked_last(checks: Checks) -> None:
    """A member whose connection ended under a call may have crashed, and another one may lead by then: so others come first."""
    with FakeMember(in_turn(ending, finding_nothing)) as crashed, FakeMember(finding_nothing) as other:
        with GridClient([crashed.address, other.address]) as client:
            queues = [client.queue("q", partition=partition) for partition in (0, 2, 4)]
            raises(checks, "the first call", ConnectionLost, queues[0].poll)
            checks.equal("the next ones", [None] * 6, [queue.poll() for queue in queues * 2])
            checks.equal("calls of each", (1, 6), (len(crashed.calls), len(other.calls)))


def a_member_that_does_not_live_gets_no_call(checks: Checks) -> None:
    """A member that ends each connection at its first call is found out before a call is sent to it, and asked again later."""
    with FakeMember(finding_nothing) as crashed, FakeMember(refusing(8, 1)) as other:
        crashed.lives = False
        with GridClient([crashed.address, other.address], retry_for=SHORT) as client:
            checks.equal("who answers", [False, True], list(client.ping().values()))
            raises(checks, "a call of its partition", WrongTarget, client.queue("q", partition=0).poll)
        crashed.lives = True
        with GridClient([crashed.address, other.address], retry_for=20) as client:
            crashed.lives = False
            crashed.end_connections()
            time.sleep(0.01)
            polling = Running(client.queue("q", partition=0).poll)
            checks.equal("a call that goes on", False, polling.ends_within(0.2))
            crashed.lives = True
            checks.equal("what it gave once the member lived", None, polling.result())


TESTS = (
    a_call_that_may_have_been_executed_is_not_sent_again,
    reads_are_made_again_where_that_is_wished,
    a_call_without_an_answer_ends_in_its_time,
    a_held_call_keeps_no_other_one,
    a_call_is_one_send_and_one_receive,
    answers_find_their_callers,
    a_call_may_have_a_time_of_its_own,
    an_idle_connection_that_ended_is_not_a_lost_call,
    what_is_no_answer_is_told,
    a_closed_client_makes_no_calls,
    a_member_that_ended_a_call_is_asked_last,
    a_member_that_does_not_live_gets_no_call,
)
