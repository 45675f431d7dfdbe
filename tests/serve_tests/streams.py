"""What comes in pieces, breaks off, or is no message: other connections don't notice."""

from __future__ import annotations

from collections.abc import Iterator
from contextlib import contextmanager, suppress

from serving import wire
from serving.checks import Checks
from serving.client import Client, Ended, wait_until
from serving.server import Server
from serving.wire import Flag, Key, Kind

KEY = Key(5, "k")
PRIMARY = 2


def chain_of_a_put(number: int, chain: int, at: Key = KEY) -> bytes:
    """A put of eight bytes as two fragments of a chain."""
    whole = wire.put(number, at, bytes(8))
    first, name, key, value = (payload or b"" for payload in wire.payloads_of(whole))
    begins = wire.fragment(chain, wire.frame(first) + wire.frame(name, Flag.FINAL), begins=True)
    ends = wire.fragment(chain, wire.frame(key) + wire.frame(value, Flag.FINAL), ends=True)
    return begins + ends


CONVERSATION = b"".join(
    (
        wire.PREFIX,
        wire.authentication(0),
        wire.put(1, KEY, b"value"),
        chain_of_a_put(2, chain=9),
        wire.ping(3),
        wire.get(4, KEY),
    )
)

CONVERSED = b"".join(
    (
        wire.accepted(0, PRIMARY),
        wire.valued(Kind.PUT, 1, None),
        wire.valued(Kind.PUT, 2, b"value"),
        wire.pong(3),
        wire.valued(Kind.GET, 4, bytes(8)),
    )
)


@contextmanager
def bystander(checks: Checks, server: Server) -> Iterator[Client]:
    """A client that was there before, and is served as before afterwards."""
    with server.known(PRIMARY, number=99) as client:
        yield client
        checks.equal("another client", True, client.is_served())
        key = Key(8, "bystander")
        checks.equal("another client's put", None, client.put(key, b"here").value)
        checks.equal("another client's get", b"here", client.get(key).value)
        checks.equal("the server runs", True, server.runs())


def a_byte_at_a_time_is_answered_alike(checks: Checks) -> None:
    """A client that sends one byte in each write gets the answers of one that sends all at once, fragments included."""
    with Server(backups=0) as server, server.client(PRIMARY) as whole:
        whole.send(CONVERSATION)
        whole.send_no_more()
        checks.equal("all at once", CONVERSED, whole.rest())
    with Server(backups=0) as server, server.client(PRIMARY) as client:
        for place in range(len(CONVERSATION)):
            client.send(CONVERSATION[place : place + 1])
        client.send_no_more()
        checks.equal("a byte at a time", CONVERSED, client.rest())


def an_answer_comes_with_the_last_byte(checks: Checks) -> None:
    """A message isn't answered before its last byte has come, and is answered then."""
    with Server() as server, server.known(PRIMARY) as client:
        for message, answer in ((wire.ping(1), wire.pong(1)), (chain_of_a_put(2, 7), wire.valued(Kind.PUT, 2, None))):
            client.send(message[:-1])
            checks.equal("before the last byte", "nothing", client.comes())
            checks.equal("with the last byte", answer, client.ask(message[-1:]))


def breaking_off_is_noticed_by_nobody(checks: Checks) -> None:
    """Clients that close, or reset, behind each byte of a conversation with fragments leave others and the server as they
    were."""
    with Server() as server, bystander(checks, server):
        before = server.descriptors()
        for length in range(len(CONVERSATION) + 1):
            for leave in (Client.close, Client.reset):
                client = server.client(PRIMARY)
                client.send(CONVERSATION[:length])
                leave(client)
        gone = wait_until(lambda: server.descriptors() <= before)
        checks.holds("descriptors afterwards", gone, before, server.descriptors())


def leaving_with_a_call_under_way_is_noticed_by_nobody(checks: Checks) -> None:
    """Clients leave while their puts wait for a crashed backup. The connections are given back once that is detected, and the
    server goes on."""
    with Server() as server, bystander(checks, server):
        before = server.descriptors()
        checks.equal("crash", "1 ok", server.order("crash 0"))
        for number, leave in enumerate((Client.close, Client.reset) * 4):
            client = server.known(PRIMARY)
            client.send(wire.put(number, Key(5, f"left {number}"), bytes(8)))
            checks.equal("the put waits", "nothing", client.comes(0.1))
            leave(client)
        checks.equal("detect", "2 ok", server.order("detect 0"))
        gone = wait_until(lambda: server.descriptors() <= before)
        checks.holds("descriptors afterwards", gone, before, server.descriptors())


def leaving_amid_an_answer_is_noticed_by_nobody(checks: Checks) -> None:
    """Clients leave in the middle of megabytes that they asked for."""
    key, value = Key(5, "long"), bytes(500_000)
    with Server() as server, bystander(checks, server) as other:
        other.put(key, value)
        before = server.descriptors()
        for leave in (Client.close, Client.reset):
            client = Client(server.port + PRIMARY, 65_536)
            client.authenticate()
            client.send(*(wire.get(number, key) for number in range(40)))
            while len(client.has) < 200_000:
                client.receive(10_000)
            leave(client)
        gone = wait_until(lambda: server.descriptors() <= before)
        checks.holds("descriptors afterwards", gone, before, server.descriptors())


def long_message() -> bytes:
    """Three frames of a million bytes: more than a message may have."""
    million = bytes(1_000_000)
    return wire.frame(wire.beginning(Kind.PING, 9), Flag.BEGINS | Flag.ENDS) + 3 * wire.frame(million)


# Bytes behind a message that show a fault. What each shows is told in docs/SCRIPTS.md, "A connection".
FAULTS: dict[str, bytes] = {
    "a frame of 5 bytes": bytes([5, 0, 0, 0, 0, 0xC0]),
    "a frame of no bytes": bytes(64),
    "a frame that is too long": bytes([1, 0, 0x10, 0]),
    "bytes of another protocol": b"GET / HTTP/1.1\r\nHost: 127.0.0.1\r\n\r\n",
    "bytes that are all ones": b"\xff" * 100,
    "a fragment's header that is final": wire.frame(bytes(8), Flag.BEGINS | Flag.FINAL),
    "a fragment's header of 7 bytes": wire.frame(bytes(7), Flag.BEGINS),
    "a chain that isn't open": wire.fragment(3, b"", ends=True),
    "17 chains": b"".join(wire.fragment(chain, wire.frame(b"", Flag.FINAL), begins=True) for chain in range(17)),
    "4,097 frames": wire.frame(wire.beginning(Kind.PING, 9), Flag.BEGINS | Flag.ENDS) + 4096 * wire.frame(b""),
    "a message that is too long": long_message(),
    "a first payload of 15 bytes": wire.message(bytes(15)),
}


def a_fault_ends_the_connection_behind_the_answers(checks: Checks) -> None:
    """Bytes that are no message end the connection, once the messages before them are answered; what follows isn't."""
    wanted = wire.accepted(0, PRIMARY) + wire.valued(Kind.PUT, 1, None) + wire.pong(2)
    with Server() as server, bystander(checks, server):
        for number, (what, fault) in enumerate(FAULTS.items()):
            with server.client(PRIMARY) as client:
                put = wire.put(1, Key(5, f"fault {number}"), bytes(8))
                with suppress(Ended):  # the server may be done before all is sent
                    client.send(wire.PREFIX, wire.authentication(0), put, wire.ping(2), fault)
                checks.equal(what, wanted, client.rest())


def a_wrong_prefix_ends_the_connection(checks: Checks) -> None:
    """A connection that doesn't begin with the protocol's three bytes ends without an answer, at the byte that shows it."""
    with Server() as server, bystander(checks, server):
        for wrong in (b"GET / HTTP/1.1\r\n\r\n", b"\x16\x03\x01\x02\x00\x01", b"CP3", b"C\x00", b"\x00"):
            with server.client(PRIMARY) as client:
                client.send(wrong)
                checks.equal(f"what comes behind {wrong!r}", b"", client.rest())


TESTS = (
    a_byte_at_a_time_is_answered_alike,
    an_answer_comes_with_the_last_byte,
    breaking_off_is_noticed_by_nobody,
    leaving_with_a_call_under_way_is_noticed_by_nobody,
    leaving_amid_an_answer_is_noticed_by_nobody,
    a_fault_ends_the_connection_behind_the_answers,
    a_wrong_prefix_ends_the_connection,
)
