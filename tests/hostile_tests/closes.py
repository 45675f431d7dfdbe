"""Each fault for which a connection closes, over a socket: nothing is answered, also not what is sent behind it."""

from __future__ import annotations

from contextlib import suppress

from serving import wire
from serving.checks import Checks
from serving.client import Client, Ended
from serving.server import Server
from serving.wire import Flag, Key

from hostile_tests.witness import PRIMARY, unnoticed

# A first frame of 22 bytes, with room for a message's beginning.
FIRST_FRAME = wire.frame(bytes(16), Flag.BEGINS | Flag.ENDS)

LONGEST_FRAME = 1_048_576


def begun_chain(number: int) -> bytes:
    """A fragment that begins the chain of this number."""
    return wire.fragment(number, wire.frame(b"", Flag.FINAL), begins=True)


# What follows on a connection's first three bytes, by what closes it.
CLOSES: dict[str, bytes] = {
    "toolong": (LONGEST_FRAME + 1).to_bytes(4, "little"),
    "openfragments": b"".join(begun_chain(number) for number in range(17)),
    "badfragment, a chain that is open": begun_chain(1) + begun_chain(1),
    "badfragment, a header that is final": wire.frame(bytes(8), Flag.FINAL),
    "manyframes": FIRST_FRAME + 4096 * wire.frame(b""),
    "longmessage": FIRST_FRAME + 2 * wire.frame(bytes(LONGEST_FRAME - wire.HEADER)),
    "shortstart": wire.message(bytes(15)),
}

# The longest of these that is also sent a byte at a time.
MOST_BY_BYTES = 400


def send_what_goes(client: Client, *pieces: bytes) -> None:
    """Sends these pieces one after the other, as far as the server takes them: it may have closed the connection before."""
    with suppress(Ended):
        for piece in pieces:
            client.send(piece)


def is_answered_nothing(checks: Checks, server: Server, what: str, *pieces: bytes) -> None:
    """A connection on which these pieces come ends, and neither they nor the calls behind them are answered."""
    key = Key(PRIMARY, what)
    with server.client(PRIMARY) as client:
        send_what_goes(client, wire.PREFIX, *pieces, wire.authentication(0), wire.put(1, key, b"behind"))
        checks.equal(what, b"", client.rest())
    with server.known(PRIMARY) as other:
        checks.equal(f"what was put behind {what}", None, other.get(key).value)


def each_close_is_silent(checks: Checks) -> None:
    """Each fault ends its connection, be it sent whole or a byte at a time. Nothing is answered there, and nothing that is sent
    behind it is done."""
    with Server() as server, unnoticed(checks, server):
        for what, fault in CLOSES.items():
            is_answered_nothing(checks, server, what, fault)
            if len(fault) <= MOST_BY_BYTES:
                is_answered_nothing(checks, server, f"{what}, by bytes", *(bytes([byte]) for byte in fault))


TESTS = (each_close_is_silent,)
