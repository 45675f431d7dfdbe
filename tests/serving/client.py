"""A client's connection to a member, over a socket that waits, though not for ever."""

from __future__ import annotations

import socket
import struct
import time
from collections.abc import Callable, Iterator
from contextlib import contextmanager

from serving import wire

# How long a client waits for what has to come. Nothing that works takes as long, also on a busy machine.
PATIENCE = 30.0

# How long a client looks for what mustn't come.
QUIET = 0.4

PIECE = 1 << 18


class Silence(Exception):
    """Nothing came for as long as a client waits."""


class Ended(Exception):
    """The connection ended where an answer was wanted."""


class Client:
    """A connection. It keeps what has come and wasn't taken yet."""

    def __init__(self, port: int, room: int | None = None) -> None:
        """Connects. The system keeps so many bytes for each direction; without a number, as many as it likes."""
        self.socket = socket.socket(socket.AF_INET, socket.SOCK_STREAM)
        if room is not None:
            self.socket.setsockopt(socket.SOL_SOCKET, socket.SO_RCVBUF, room)
            self.socket.setsockopt(socket.SOL_SOCKET, socket.SO_SNDBUF, room)
        self.socket.settimeout(PATIENCE)
        self.socket.setsockopt(socket.IPPROTO_TCP, socket.TCP_NODELAY, 1)
        self.has = bytearray()
        self.correlation = 0
        try:
            self.socket.connect(("127.0.0.1", port))
        except BaseException:
            self.socket.close()
            raise

    def __enter__(self) -> Client:
        return self

    def __exit__(self, *_: object) -> None:
        self.close()

    def close(self) -> None:
        self.socket.close()

    def reset(self) -> None:
        """Closes the connection at once, without an end: the server finds it reset."""
        self.socket.setsockopt(socket.SOL_SOCKET, socket.SO_LINGER, struct.pack("ii", 1, 0))
        self.socket.close()

    def send(self, *messages: bytes) -> None:
        """Sends these bytes in one write, as far as the socket takes them at once."""
        try:
            self.socket.sendall(b"".join(messages))
        except (BrokenPipeError, ConnectionResetError) as error:
            raise Ended("the connection ended before all was sent") from error
        except TimeoutError as error:
            raise Silence(f"the server read nothing for {PATIENCE:.0f} seconds") from error

    def send_no_more(self) -> None:
        self.socket.shutdown(socket.SHUT_WR)

    def next_number(self) -> int:
        """The correlation of the client's next call."""
        self.correlation += 1
        return self.correlation

    def receive(self, most: int = PIECE) -> int:
        """Waits for more bytes, and says how many came: none at the end."""
        try:
            piece = self.socket.recv(most)
        except TimeoutError as error:
            raise Silence(f"nothing came for {PATIENCE:.0f} seconds") from error
        except ConnectionResetError:
            return 0
        self.has += piece
        return len(piece)

    def take(self, length: int) -> bytes:
        taken = bytes(self.has[:length])
        del self.has[:length]
        return taken

    def answer(self) -> bytes:
        """The next message, whole."""
        while (length := wire.message_length(self.has)) is None:
            if self.receive() == 0:
                raise Ended("the connection ended in place of an answer")
        return self.take(length)

    def answers(self, count: int) -> list[bytes]:
        return [self.answer() for _ in range(count)]

    def ask(self, *messages: bytes) -> bytes:
        """Sends these bytes, and gives the next answer."""
        self.send(*messages)
        return self.answer()

    def rest(self) -> bytes:
        """All that comes until the connection ends."""
        while self.receive() > 0:
            pass
        return self.take(len(self.has))

    def comes(self, seconds: float = QUIET) -> str:
        """What comes within this time: "nothing", "the end", or "bytes"."""
        if self.has:
            return "bytes"
        with self.patience(seconds):
            try:
                return "bytes" if self.receive() else "the end"
            except Silence:
                return "nothing"

    @contextmanager
    def patience(self, seconds: float) -> Iterator[None]:
        self.socket.settimeout(seconds)
        try:
            yield
        finally:
            self.socket.settimeout(PATIENCE)

    # Calls, each with the client's next correlation.

    def authenticate(self, number: int = 1) -> bytes:
        return self.ask(wire.PREFIX, wire.authentication(0, client=number))

    def put(self, key: wire.Key, value: bytes) -> wire.Answer:
        return wire.read_answer(self.ask(wire.put(self.next_number(), key, value)))

    def get(self, key: wire.Key) -> wire.Answer:
        return wire.read_answer(self.ask(wire.get(self.next_number(), key)))

    def is_served(self) -> bool:
        """Whether a ping is answered."""
        number = self.next_number()
        return self.ask(wire.ping(number)) == wire.pong(number)


def known_client(port: int, number: int = 1) -> Client:
    """A client that has made itself known at that port."""
    client = Client(port)
    try:
        client.authenticate(number)
    except BaseException:
        client.close()
        raise
    return client


def wait_until(holds: Callable[[], bool], *, seconds: float = PATIENCE) -> bool:
    """Looks again and again whether this holds, until it does or the time is up."""
    end = time.monotonic() + seconds
    while not holds():
        if time.monotonic() > end:
            return False
        time.sleep(0.01)
    return True
