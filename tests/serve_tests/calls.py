"""Calls over sockets: which member answers, what is refused, and in which order answers come."""

from __future__ import annotations

import struct
import time

from serving import wire
from serving.checks import Checks
from serving.client import Client
from serving.server import Server
from serving.wire import Key, Kind, Refusal, text_value


def put_and_get(checks: Checks, client: Client, key: Key, before: bytes | None = None) -> None:
    """Puts a value where this one stood before, and gets it."""
    value = text_value(f"value of {key.text}")
    number = client.next_number()
    checks.equal(f"put in {key.partition}", wire.valued(Kind.PUT, number, before), client.ask(wire.put(number, key, value)))
    number = client.next_number()
    checks.equal(f"get in {key.partition}", wire.valued(Kind.GET, number, value), client.ask(wire.get(number, key)))


def is_refused_elsewhere(checks: Checks, client: Client, key: Key) -> None:
    """Both calls are refused at a member that isn't the partition's primary."""
    for call in (wire.put(3, key, text_value("other")), wire.get(3, key)):
        wanted = wire.refused(3, Refusal.NOT_PRIMARY, 1)
        checks.equal(f"a call in {key.partition} at another member", wanted, client.ask(call))


def a_put_is_read_at_each_member(checks: Checks) -> None:
    """A put and a get are answered at the member that leads the partition, and refused with 8 and the row's version at others."""
    for members, backups in ((3, 1), (1, 0), (8, 6)):
        with Server(members=members, backups=backups) as server:
            clients = [server.known(member) for member in range(members)]
            for partition in (*range(2 * members), 270):
                key = Key(partition, f"k{partition}")
                for member, client in enumerate(clients):
                    if member == partition % members:
                        put_and_get(checks, client, key)
                    else:
                        is_refused_elsewhere(checks, client, key)


def every_client_sees_one_grid(checks: Checks) -> None:
    """What one connection put another one reads, and what it closed behind itself stays."""
    with Server() as server:
        key = Key(5, "shared")
        with server.known(2, number=7) as first:
            put_and_get(checks, first, key)
        with server.known(2, number=8) as second:
            put_and_get(checks, second, key, before=text_value("value of shared"))


def a_queue_keeps_to_its_capacity(checks: Checks) -> None:
    """Offers fill a queue up to the server's capacity, and polls empty it in order."""
    with Server(capacity=2) as server, server.known(1) as client:
        items = [text_value(text) for text in ("a", "b", "c")]
        for number, item in enumerate(items):
            wanted = wire.flagged(Kind.OFFER, number, number < 2)
            checks.equal(f"offer {number}", wanted, client.ask(wire.offer(number, 100, "q", item)))
        checks.equal("size", wire.numbered(Kind.SIZE, 3, 2), client.ask(wire.size(3, 100, "q")))
        for number, item in enumerate((*items[:2], None)):
            wanted = wire.valued(Kind.POLL, number, item)
            checks.equal(f"poll {number}", wanted, client.ask(wire.poll(number, 100, "q")))


def a_client_makes_itself_known(checks: Checks) -> None:
    """Nothing is served before an authentication is accepted; it is where the cluster's name is `dev`, at each member."""
    with Server() as server:
        for member in range(3):
            with server.client(member) as client:
                wanted = wire.refused(1, Refusal.NOT_AUTHENTICATED)
                checks.equal("a ping before", wanted, client.ask(wire.PREFIX, wire.ping(1)))
                checks.equal("another cluster", wire.declined(2), client.ask(wire.authentication(2, cluster="prod")))
                wanted = wire.refused(3, Refusal.NOT_AUTHENTICATED)
                checks.equal("a get behind that", wanted, client.ask(wire.get(3, Key(member, "k"))))
                checks.equal("the cluster", wire.accepted(4, member), client.ask(wire.authentication(4)))
                checks.equal("a ping behind that", wire.pong(5), client.ask(wire.ping(5)))
                checks.equal("a null client", wire.accepted(6, member), client.ask(wire.authentication(6, client=None)))


def refusals_have_their_numbers(checks: Checks) -> None:
    """A type that isn't served, a registration, a message that can't be read and another partition than the key's are refused,
    with what follows served."""
    key = Key(5, "k")
    short_key = wire.message(wire.beginning(Kind.GET, 3, 5) + bytes(8), b"m", b"7 bytes")
    stated_6 = wire.message(wire.beginning(Kind.GET, 4, 6) + bytes(8), b"m", key.spelling)
    with Server() as server, server.known(2) as client:
        unserved = wire.refused(2, Refusal.UNKNOWN_TYPE)
        for kind, fields, frames in ((0x007F00, b"", ()), (0x000300, b"", ()), (0x011900, b"\x01", (b"m",)), (0x013F00, b"", (b"m",))):
            message = wire.message(wire.beginning(kind, 2, 5) + fields, *frames)
            checks.equal(f"type {kind:#08x}", unserved, client.ask(message))
        for kind in (0x011900, 0x013F00):
            message = wire.message(wire.beginning(kind, 2, 5))
            checks.equal(f"type {kind:#08x} without a map", wire.refused(2, Refusal.UNREADABLE), client.ask(message))
        checks.equal("a key of 7 bytes", wire.refused(3, Refusal.UNREADABLE), client.ask(short_key))
        checks.equal("another partition", wire.refused(4, Refusal.WRONG_PARTITION, 6, 5), client.ask(stated_6))
        checks.equal("a partition of none", wire.refused(5, Refusal.UNREADABLE), client.ask(wire.poll(5, 271, "q")))
        put_and_get(checks, client, key)


def a_mixed_message(number: int, key: Key) -> tuple[bytes, bytes]:
    """One of five sorts of messages, and its answer where a put of this number stands before it."""
    value = struct.pack("<Q", number - number % 5)
    return (
        (wire.put(number, key, value), wire.valued(Kind.PUT, number, struct.pack("<Q", number - 5) if number >= 5 else None)),
        (wire.get(number, key), wire.valued(Kind.GET, number, value)),
        (wire.ping(number), wire.pong(number)),
        (wire.get(number, Key(6, "k")), wire.refused(number, Refusal.NOT_PRIMARY, 1)),
        (wire.message(wire.beginning(0x7F00, number)), wire.refused(number, Refusal.UNKNOWN_TYPE)),
    )[number % 5]


def calls_sent_at_once_are_answered_in_order(checks: Checks) -> None:
    """A thousand messages in one write are answered one after the other, in their order, whatever each is answered with."""
    pairs = [a_mixed_message(number, Key(5, "k")) for number in range(1000)]
    with Server() as server, server.known(2) as client:
        client.send(*(message for message, _ in pairs))
        came = client.answers(len(pairs))
        wrong = [(wanted, answer) for (_, wanted), answer in zip(pairs, came, strict=True) if wanted != answer]
        checks.holds("the answers", not wrong, *(wrong[0] if wrong else ("", "")))
        checks.equal("behind the last one", "nothing", client.comes())


def the_end_comes_behind_the_answers(checks: Checks) -> None:
    """A client that sends no more behind its calls has all answers, and then the connection ends."""
    with Server() as server, server.known(2) as client:
        client.send(*(wire.put(number, Key(5, "k"), bytes(8)) for number in range(50)))
        client.send_no_more()
        wanted = b"".join(wire.valued(Kind.PUT, number, bytes(8) if number else None) for number in range(50))
        checks.equal("all that came", wanted, client.rest())


def values_expire_by_the_clock(checks: Checks) -> None:
    """A value with a time to live of ten milliseconds is gone a moment later, and one with an hour is there."""
    with Server() as server, server.known(2) as client:
        for number, (text, time_to_live) in enumerate((("short", 10), ("long", 3_600_000), ("for ever", 0))):
            message = wire.put(number, Key(5, text), b"value", time_to_live=time_to_live)
            checks.equal(f"put of {text}", wire.valued(Kind.PUT, number, None), client.ask(message))
        time.sleep(0.1)
        values = [client.get(Key(5, text)).value for text in ("short", "long", "for ever")]
        checks.equal("a tenth of a second later", [None, b"value", b"value"], values)


TESTS = (
    a_put_is_read_at_each_member,
    every_client_sees_one_grid,
    a_queue_keeps_to_its_capacity,
    a_client_makes_itself_known,
    refusals_have_their_numbers,
    calls_sent_at_once_are_answered_in_order,
    the_end_comes_behind_the_answers,
    values_expire_by_the_clock,
)
