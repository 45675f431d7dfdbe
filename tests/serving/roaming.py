"""A client of all members, which sends a call to whichever one takes it."""

from __future__ import annotations

import time
from collections.abc import Callable
from contextlib import suppress

from serving import wire
from serving.client import PATIENCE, Client, Ended, Silence, known_client
from serving.wire import Answer, Key, Refusal

# Another member may take the call, or this one a moment later.
ELSEWHERE = (Refusal.NOT_PRIMARY, Refusal.FROZEN, Refusal.BUSY)

# How long the client rests once no member has taken the call.
PAUSE = 0.003


class Unanswered(Exception):
    """The connection ended with the call under way: it may stand, or not."""


class Refused(Exception):
    """The call was refused for good."""


class Roaming:
    """A client of the members at these ports. A member whose connection ended has a new one at the next call that it gets."""

    def __init__(self, port: int, members: int, number: int) -> None:
        self.ports = [port + member for member in range(members)]
        self.number = number
        self.clients: dict[int, Client] = {}
        self.taken_by: dict[int, int] = {}
        self.correlation = 0

    def __enter__(self) -> Roaming:
        return self

    def __exit__(self, *_: object) -> None:
        for client in self.clients.values():
            client.close()

    def client(self, member: int) -> Client:
        if member not in self.clients:
            self.clients[member] = known_client(self.ports[member], self.number)
        return self.clients[member]

    def try_at(self, member: int, call: bytes) -> Answer:
        """The member's answer to this call, which has the client's last correlation."""
        client = self.client(member)
        try:
            answer = wire.read_answer(client.ask(call))
        except Ended as error:
            del self.clients[member]
            client.close()
            raise Unanswered(f"member {member} ended the connection") from error
        if answer.correlation != self.correlation:
            raise Refused(f"the answer to {answer.correlation} in place of {self.correlation}")
        return answer

    def call(self, partition: int, spelled: Callable[[int], bytes]) -> Answer:
        """The answer of the first member that takes this call."""
        end = time.monotonic() + PATIENCE
        member = self.taken_by.get(partition, partition % len(self.ports))
        tried = 0
        while time.monotonic() < end:
            self.correlation += 1
            self.taken_by[partition] = (member + 1) % len(self.ports)
            answer = self.try_at(member, spelled(self.correlation))
            if answer.refusal not in ELSEWHERE:
                self.taken_by[partition] = member
                return answer
            member = self.taken_by[partition]
            tried += 1
            if tried % len(self.ports) == 0:
                time.sleep(PAUSE)
        raise Silence(f"no member took the call for {PATIENCE:.0f} seconds")

    def put(self, key: Key, value: bytes) -> bytes | None:
        """Puts a value, and gives the one that was there before."""
        return self.value(self.call(key.partition, lambda number: wire.put(number, key, value)))

    def get(self, key: Key) -> bytes | None:
        """Gets a value. It changes nothing, so a connection that ends sends it to another member."""
        for _ in self.ports:
            with suppress(Unanswered):
                return self.value(self.call(key.partition, lambda number: wire.get(number, key)))
        raise Unanswered("each member ended the connection")

    def value(self, answer: Answer) -> bytes | None:
        if answer.refusal is not None:
            raise Refused(f"error {answer.refusal}")
        return answer.value
