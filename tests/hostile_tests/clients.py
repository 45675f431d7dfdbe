"""Clients that trickle, flood, break off, or are many, while another one is served."""

from __future__ import annotations

from contextlib import ExitStack

from serve_tests.load import MOST_CONNECTIONS, MOST_FLOODED, Caller, Flood
from serve_tests.streams import chain_of_a_put
from serving import wire
from serving.checks import Checks
from serving.client import Client, wait_until
from serving.server import Server
from serving.wire import Flag, Key, Kind

from hostile_tests.witness import PRIMARY, unnoticed

LEAVES = (Client.close, Client.reset)


def are_given_back(checks: Checks, server: Server, descriptors: int) -> None:
    """The server has no more descriptors than before, once it has found that clients left."""
    gone = wait_until(lambda: server.descriptors() <= descriptors)
    checks.holds("descriptors behind it", gone, f"at most {descriptors}", server.descriptors())


# Trickles.

TRICKLES = 16


def conversation(number: int) -> tuple[bytes, bytes]:
    """All that a client sends that puts, puts in fragments, pings and gets, and all that it is answered."""
    key = Key(PRIMARY, f"trickle {number:02}")
    said = (
        wire.PREFIX,
        wire.authentication(0, client=number),
        wire.put(1, key, b"value"),
        chain_of_a_put(2, chain=9, at=key),
        wire.ping(3),
        wire.get(4, key),
    )
    answered = (
        wire.accepted(0, PRIMARY),
        wire.valued(Kind.PUT, 1, None),
        wire.valued(Kind.PUT, 2, b"value"),
        wire.pong(3),
        wire.valued(Kind.GET, 4, bytes(8)),
    )
    return b"".join(said), b"".join(answered)


def trickles_are_answered(checks: Checks) -> None:
    """Sixteen clients that send a byte in each write, by turns, are answered as if they had sent all at once."""
    with Server() as server, unnoticed(checks, server), ExitStack() as stack:
        clients = [stack.enter_context(server.client(PRIMARY)) for _ in range(TRICKLES)]
        talks = [conversation(number) for number in range(TRICKLES)]
        for bytes_of_all in zip(*(said for said, _ in talks), strict=True):
            for client, byte in zip(clients, bytes_of_all, strict=True):
                client.send(bytes([byte]))
        for number, (client, (_, answered)) in enumerate(zip(clients, talks, strict=True)):
            client.send_no_more()
            checks.equal(f"client {number}", answered, client.rest())


# Floods.

FLOODS = 8


def floods_are_left_unread(checks: Checks) -> None:
    """Eight clients that send puts and read none of the answers, which are as long, aren't read from any more once these find no
    room; then they leave."""
    with Server() as server, unnoticed(checks, server):
        before = server.descriptors()
        floods = [Flood(Client(server.port + PRIMARY, 16_384)) for _ in range(FLOODS)]
        for number, flood in enumerate(floods):
            flood.client.authenticate(number)
            flood.fill()
        for flood in floods:
            flood.fill()
            checks.at_most("bytes that the server took of a flood", MOST_FLOODED - 1, flood.sent)
        for number, flood in enumerate(floods):
            LEAVES[number % 2](flood.client)
        are_given_back(checks, server, before)


# Breaking off.

TIMES = 50

LONG = Key(PRIMARY, "long")

LONG_VALUE = bytes(500_000)


def leave_amid(server: Server, times: int, sent: bytes) -> None:
    """Makes itself known, sends these bytes and leaves, so many times in either way."""
    for number in range(2 * times):
        client = server.known(PRIMARY, number)
        client.send(sent)
        LEAVES[number % 2](client)


def leave_amid_answers(server: Server, times: int) -> None:
    """Asks for megabytes, reads some of the first answer and leaves, so many times in either way."""
    for number in range(2 * times):
        client = Client(server.port + PRIMARY, 65_536)
        client.authenticate(number)
        client.send(*(wire.get(call, LONG) for call in range(4)))
        while len(client.has) < len(LONG_VALUE) // 4:
            client.receive(10_000)
        LEAVES[number % 2](client)


def what_breaks_off_is_not_done(checks: Checks) -> None:
    """Clients leave in the middle of a frame, of a chain of fragments, and of an answer. What wasn't sent whole isn't done, and all
    connections are given back."""
    key = Key(PRIMARY, "broken off")
    put, chain = wire.put(1, key, bytes(8)), chain_of_a_put(1, chain=9, at=key)
    with Server() as server, unnoticed(checks, server), server.known(PRIMARY) as other:
        other.put(LONG, LONG_VALUE)
        before = server.descriptors()
        leave_amid(server, TIMES, put[:-1])
        leave_amid(server, TIMES, chain[: chain.index(wire.fragment(9, b"", ends=True))])
        leave_amid(server, TIMES, wire.frame(wire.beginning(Kind.PING, 1), Flag.BEGINS | Flag.ENDS) + bytes(3))
        checks.equal("the put that wasn't whole", None, other.get(key).value)
        leave_amid_answers(server, TIMES // 5)
        checks.equal("the value that was read in part", LONG_VALUE, other.get(LONG).value)
        are_given_back(checks, server, before)


# Many.

ROUNDS = 10

# What is left of all rounds behind the second one, in kB.
MOST_LEFT = 1024


def use_and_close(checks: Checks, server: Server, connections: int) -> None:
    """Opens so many connections, has each one's authentication and get answered, and closes them all."""
    callers = [Caller(server, number) for number in range(connections)]
    checks.equal("connections that are answered", connections, sum(caller.is_answered() for caller in callers))
    for caller in callers:
        caller.leave()


def many_connections_leave_nothing(checks: Checks) -> None:
    """1,024 connections at once, of which another client has one, are opened, used and closed ten times over. Memory behind the
    tenth time is what it was behind the second one, up to 1,024 kB."""
    with Server() as server, unnoticed(checks, server):
        before = server.descriptors()
        resident = []
        for _ in range(ROUNDS):
            use_and_close(checks, server, MOST_CONNECTIONS - 1)
            are_given_back(checks, server, before)
            resident.append(server.resident_kb())
        checks.at_most("kB more than behind the second time", MOST_LEFT, resident[-1] - resident[1])


TESTS = (
    trickles_are_answered,
    floods_are_left_unread,
    what_breaks_off_is_not_done,
    many_connections_leave_nothing,
)
