"""A member that answers as a test likes: it knows the protocol's bytes, and keeps nothing."""

from __future__ import annotations

import socket
import struct
import threading
from collections.abc import Callable
from contextlib import suppress
from dataclasses import dataclass
from typing import TypeAlias

from serving import wire
from serving.wire import Kind


@dataclass(frozen=True)
class Call:
    """A message that came, and its place among those that a member got, from 0."""

    place: int
    message: bytes

    @property
    def kind(self) -> int:
        return int(struct.unpack_from("<I", self.message, wire.HEADER)[0])

    @property
    def correlation(self) -> int:
        return int(struct.unpack_from("<q", self.message, wire.HEADER + 4)[0])


Behaviour: TypeAlias = Callable[[Call], bytes | None]
"""What a member answers to a call: these bytes, nothing, or, where it is None, the end of the connection."""


def refusing(number: int, first: int = 0, second: int = 0) -> Behaviour:
    return lambda call: wire.refused(call.correlation, number, first, second)


def finding_nothing(call: Call) -> bytes:
    """Answers each call as one of values whose value isn't there."""
    return wire.message(struct.pack("<Iqx", call.kind + 1, call.correlation), None)


def silent(_call: Call) -> bytes:
    return b""


def ending(_call: Call) -> None:
    """Ends the connection in place of an answer."""


def in_turn(*behaviours: Behaviour) -> Behaviour:
    """Behaves in these ways, one for each call, and then in the last."""
    return lambda call: behaviours[min(call.place, len(behaviours) - 1)](call)


class FakeMember:
    """Listens within its `with`. It accepts each client, answers the read by which a client finds out whether it lives, and behaves
    as it is told behind that."""

    def __init__(self, behaviour: Behaviour) -> None:
        self.behaviour = behaviour
        self.lives = True
        self.calls: list[Call] = []
        self.listener = socket.create_server(("127.0.0.1", 0))
        self.connections: list[socket.socket] = []

    @property
    def address(self) -> tuple[str, int]:
        host, port = self.listener.getsockname()
        return str(host), int(port)

    def __enter__(self) -> FakeMember:
        threading.Thread(target=self.accept, daemon=True).start()
        return self

    def __exit__(self, *_: object) -> None:
        with suppress(OSError):
            self.listener.shutdown(socket.SHUT_RDWR)
        self.listener.close()
        self.end_connections()

    def end_connections(self) -> None:
        """Ends all connections, as a member does that has no memory for them."""
        for connection in self.connections:
            with suppress(OSError):
                connection.shutdown(socket.SHUT_RDWR)
            connection.close()

    def accept(self) -> None:
        with suppress(OSError):
            while True:
                connection, _ = self.listener.accept()
                self.connections.append(connection)
                threading.Thread(target=self.serve, args=(connection,), daemon=True).start()

    def serve(self, connection: socket.socket) -> None:
        has = bytearray()
        with suppress(OSError), connection:
            while piece := connection.recv(1 << 16):
                has += piece
                if not self.answer_all(connection, has):
                    return

    def answer_all(self, connection: socket.socket, has: bytearray) -> bool:
        """Answers the messages that are there. False where the connection is to end."""
        if has.startswith(wire.PREFIX):
            del has[: len(wire.PREFIX)]
        while (length := wire.message_length(has)) is not None:
            answer = self.answer(bytes(has[:length]))
            del has[:length]
            if answer is None:
                return False
            connection.sendall(answer)
        return True

    def answer(self, message: bytes) -> bytes | None:
        call = Call(len(self.calls), message)
        if call.kind == Kind.AUTHENTICATION:
            return wire.accepted(call.correlation, 0)
        if call.kind == Kind.SIZE:
            return wire.numbered(Kind.SIZE, call.correlation, 0) if self.lives else None
        self.calls.append(call)
        return self.behaviour(call)
