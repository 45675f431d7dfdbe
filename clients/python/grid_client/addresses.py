"""Where members listen, how they are called, and the call by which a client sees that one lives."""

from __future__ import annotations

import random
import uuid
from dataclasses import dataclass

from .partitions import PARTITIONS
from .wire import Kind, Request


def probe() -> Request:
    """A read of a queue that nobody has. A member that has crashed still accepts connections, and ends them at the first call:
    this one shows that it lives, also where it refuses it."""
    return Request(Kind.SIZE, random.randrange(PARTITIONS), frames=(b"",))


@dataclass(frozen=True)
class Address:
    """Where a member listens."""

    host: str
    port: int

    @classmethod
    def of(cls, given: str | tuple[str, int]) -> Address:
        """From "HOST:PORT", or from both."""
        if not isinstance(given, str):
            return cls(*given)
        host, colon, port = given.rpartition(":")
        if not (host and colon and port.isascii() and port.isdigit()):
            raise ValueError(f"'{given}' is no address: 'HOST:PORT' is wanted")
        return cls(host, int(port))

    def __str__(self) -> str:
        return f"{self.host}:{self.port}"


def new_number() -> int:
    """The number of a client, drawn at random."""
    return uuid.uuid4().int


@dataclass
class Manner:
    """How members are called: the cluster that is wanted, the client's own number, which owns its locks, how many seconds a member
    is waited for, for a connection and for an answer, and how many connections to a member a client has at most."""

    cluster: str
    client: int
    timeout: float
    connections: int = 16
