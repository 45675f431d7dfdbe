"""Clients that send much, read little, or are many, and what the server uses."""

from __future__ import annotations

import resource
import select
import time
from contextlib import ExitStack

from serving import wire
from serving.checks import Checks
from serving.client import PATIENCE, Client, wait_until
from serving.server import Server
from serving.wire import Key, Kind

PRIMARY = 2

# How many connections are served at once.
MOST_CONNECTIONS = 1024

# The most processor time, in seconds, that a server uses in a second of rest.
REST = 0.05

KEYS = [Key(partition, f"{number:08}") for number, partition in enumerate([5, 8, 11, 14] * 64)]


def rests(server: Server) -> bool:
    """Whether the server uses next to no processor time in a second."""
    return server.used_in(1.0) <= REST


def is_at_rest(checks: Checks, server: Server, when: str) -> None:
    """The server rests once it has done what it had to do, which takes a slow one a while."""
    rested = wait_until(lambda: rests(server), seconds=10)
    checks.holds(f"processor seconds in a second, {when}", rested, f"at most {REST}", "more")


# Floods and slow readers.

FLOOD = Key(5, "flood")

# A flood that was read so far is read for ever.
MOST_FLOODED = 64_000_000


def flood_value(number: int) -> bytes | None:
    """What the put of this number leaves, and the next one answers."""
    return number.to_bytes(8, "little") * 1024 if number >= 0 else None


class Flood:
    """A client that sends large puts, whose answers are as large, and reads nothing."""

    def __init__(self, client: Client) -> None:
        self.client = client
        self.begun = 0
        self.sent = 0
        self.left = b""

    def has_room(self, seconds: float) -> bool:
        """Whether the socket takes bytes within this time."""
        return bool(select.select([], [self.client.socket], [], seconds)[1])

    def fill(self) -> None:
        """Sends until the socket takes nothing for some time."""
        self.client.socket.setblocking(False)
        while self.sent < MOST_FLOODED and self.has_room(0.3):
            if not self.left:
                self.left = wire.put(self.begun, FLOOD, flood_value(self.begun) or b"")
                self.begun += 1
            count = self.client.socket.send(self.left)
            self.sent += count
            self.left = self.left[count:]
        self.client.socket.settimeout(PATIENCE)

    def is_stuck_at(self, server: Server) -> bool:
        """Whether the server has come to rest, and takes nothing more."""
        self.fill()
        return rests(server) and not self.has_room(0)

    def drain(self, checks: Checks) -> None:
        """Reads all answers, and sends what was left to send once there is room."""
        for number in range(self.begun):
            if number == self.begun - 1:
                self.client.send(self.left)
            if self.client.answer() != wire.valued(Kind.PUT, number, flood_value(number - 1)):
                checks.equal("the answer of this number", number, "another one")
                return
        checks.equal("behind the flood", True, self.client.is_served())


def a_flood_is_not_read_for_ever(checks: Checks) -> None:
    """A client that sends calls and doesn't read isn't read from once its answers find no room. Others are answered meanwhile,
    the server keeps little and rests; and the client has every answer once it reads."""
    with Server() as server, server.known(PRIMARY) as other, Client(server.port + PRIMARY, 16_384) as client:
        client.authenticate(2)
        before = server.resident_kb()
        flood = Flood(client)
        stuck = wait_until(lambda: flood.is_stuck_at(server))
        checks.holds("the flood", stuck, "stuck in a server at rest", f"{flood.sent} bytes sent, and not stuck")
        for number in range(100):
            checks.equal("another client's put", None, other.put(Key(8, f"{number}"), bytes(8)).value)
        checks.at_most("kB more than before the flood", 8192, server.resident_kb() - before)
        flood.drain(checks)


def a_slow_reader_keeps_nobody_up(checks: Checks) -> None:
    """A client that reads megabytes slowly has them whole, and another one is answered at each of its steps."""
    key, value = Key(5, "long"), bytes(range(250)) * 4000
    with Server() as server, server.known(PRIMARY) as other, Client(server.port + PRIMARY, 65_536) as slow:
        slow.authenticate(2)
        slow.put(key, value)
        slow.send(*(wire.get(number, key) for number in range(8)))
        wanted = b"".join(wire.valued(Kind.GET, number, value) for number in range(8))
        served = []
        while len(slow.has) < len(wanted) and slow.receive(65_536) > 0:
            if len(slow.has) > 500_000 * len(served):
                time.sleep(0.005)
                served.append(other.is_served())
        checks.holds("another client meanwhile", all(served) and len(served) > 8, "is served at each step", served)
        checks.holds("the slow reader's bytes", bytes(slow.has) == wanted, f"{len(wanted)} bytes", "other bytes")


# Many connections.


class Caller:
    """A new connection, on which an authentication and a call are sent at once."""

    def __init__(self, server: Server, number: int) -> None:
        self.member = number % server.members
        self.number = number
        self.client = Client(server.port + self.member)
        self.call = wire.get(number, Key(self.member, "none"))
        self.client.send(wire.PREFIX, wire.authentication(0, client=number + 1), self.call)

    def is_answered(self) -> bool:
        """Whether both are answered."""
        accepted, answer = self.client.answers(2)
        return [accepted, answer] == [wire.accepted(0, self.member), wire.valued(Kind.GET, self.number, None)]

    def leave(self) -> None:
        """Closes the connection, one in seven without an end."""
        if self.number % 7 == 0:
            self.client.reset()
        else:
            self.client.close()


def are_served(clients: list[Client]) -> int:
    """How many of these have a ping answered that all send before one reads."""
    for client in clients:
        client.send(wire.ping(1))
    return sum(client.answer() == wire.pong(1) for client in clients)


def a_thousand_connections_are_served_at_once(checks: Checks) -> None:
    """1,024 connections are served at once. The next ones wait, and are served once others close."""
    with Server() as server, ExitStack() as stack:
        callers = [Caller(server, number) for number in range(MOST_CONNECTIONS)]
        clients = [stack.enter_context(caller.client) for caller in callers]
        checks.equal("connections that are answered", MOST_CONNECTIONS, sum(caller.is_answered() for caller in callers))
        checks.equal("connections that are served", MOST_CONNECTIONS, are_served(clients))
        waiting = [Caller(server, MOST_CONNECTIONS + member) for member in range(2)]
        for caller in waiting:
            stack.enter_context(caller.client)
            checks.equal("one more", "nothing", caller.client.comes())
        is_at_rest(checks, server, "with two connections waiting")
        checks.equal("connections that are served meanwhile", MOST_CONNECTIONS, are_served(clients))
        clients[5].close()
        clients[600].reset()
        checks.equal("answered once two have closed", 2, sum(caller.is_answered() for caller in waiting))


def connections_past_the_descriptors_wait(checks: Checks) -> None:
    """Where the process may have 40 descriptors, further connections wait, and are served once others close."""
    with Server() as server, ExitStack() as stack:
        resource.prlimit(server.process.pid, resource.RLIMIT_NOFILE, (40, 40))
        callers = [Caller(server, number) for number in range(60)]
        for caller in callers:
            stack.enter_context(caller.client)
        is_at_rest(checks, server, "without a descriptor left")
        served = [caller for caller in callers if caller.client.comes(0.02) == "bytes"]
        checks.holds("connections that are served", 20 < len(served) < 40, "some", len(served))
        checks.equal("connections that are answered", len(served), sum(caller.is_answered() for caller in served))
        for caller in served:
            caller.leave()
        others = [caller for caller in callers if caller not in served]
        checks.equal("connections that had to wait", len(others), sum(caller.is_answered() for caller in others))


def use_connections(server: Server, numbers: range) -> int:
    """Opens a connection for each number, a hundred at a time, has each answered, and closes them. How many were answered."""
    answered = 0
    for first in numbers[::100]:
        callers = [Caller(server, number) for number in range(first, min(first + 100, numbers.stop))]
        answered += sum(caller.is_answered() for caller in callers)
        for caller in callers:
            caller.leave()
    return answered


def ten_thousand_connections_leave_nothing(checks: Checks) -> None:
    """Ten thousand connections are opened, used and closed. Behind the last one the server has the descriptors of the beginning,
    and its resident memory is what it was behind the first thousand, up to 512 kB."""
    with Server() as server:
        descriptors = server.descriptors()
        checks.equal("answered of the first thousand", 1000, use_connections(server, range(1000)))
        early = server.resident_kb()
        checks.equal("answered of the others", 9000, use_connections(server, range(1000, 10_000)))
        gone = wait_until(lambda: server.descriptors() <= descriptors)
        checks.holds("descriptors", gone, descriptors, server.descriptors())
        checks.at_most("kB more than behind the first thousand", 512, server.resident_kb() - early)


# What the server uses.


def call_on_the_keys(number: int) -> tuple[bytes, bytes]:
    """A put or a get, by turns, under one of the keys, where eight bytes stand; and its answer."""
    key = KEYS[number * 7 % len(KEYS)]
    if number % 2:
        return wire.get(number, key), wire.valued(Kind.GET, number, bytes(8))
    return wire.put(number, key, bytes(8)), wire.valued(Kind.PUT, number, bytes(8))


def call_often(clients: list[Client], rounds: int) -> int:
    """Makes so many rounds of 25 calls on each connection, all at once. How many calls were answered as they have to be."""
    right = 0
    for turn in range(rounds):
        pairs = [call_on_the_keys(25 * turn + place) for place in range(25)]
        for client in clients:
            client.send(*(call for call, _ in pairs))
        right += sum(client.answer() == answer for client in clients for _, answer in pairs)
    return right


def calls_leave_no_memory_behind(checks: Checks) -> None:
    """Twenty thousand puts and gets on 256 keys: resident memory is what it was behind ten thousand, up to 256 kB."""
    with Server() as server, ExitStack() as stack:
        clients = [stack.enter_context(server.known(PRIMARY, number)) for number in range(16)]
        for key in KEYS:
            clients[0].put(key, bytes(8))
        checks.equal("answers of the first ten thousand", 10_000, call_often(clients, 25))
        early = server.resident_kb()
        checks.equal("answers of the second ten thousand", 10_000, call_often(clients, 25))
        checks.at_most("kB more than behind the first ten thousand", 256, server.resident_kb() - early)


def an_idle_server_rests(checks: Checks) -> None:
    """With 64 connections that have been used and send nothing, the server uses less than 5 hundredths of a processor."""
    with Server() as server, ExitStack() as stack:
        clients = [stack.enter_context(server.known(number % 3, number)) for number in range(64)]
        checks.equal("connections that are served", 64, sum(client.is_served() for client in clients))
        is_at_rest(checks, server, "with 64 connections")
        checks.equal("connections that are served behind that", 64, sum(client.is_served() for client in clients))


TESTS = (
    a_flood_is_not_read_for_ever,
    a_slow_reader_keeps_nobody_up,
    a_thousand_connections_are_served_at_once,
    connections_past_the_descriptors_wait,
    ten_thousand_connections_leave_nothing,
    calls_leave_no_memory_behind,
    an_idle_server_rests,
)
