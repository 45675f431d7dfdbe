"""A server with one connection, of which one request for memory is refused."""

from __future__ import annotations

import subprocess
from pathlib import Path

from serving import wire
from serving.client import PATIENCE, Client, Ended, Silence
from serving.server import DONE, DOOR_FAULT, Lines, free_ports, program
from serving.wire import Key, Kind, Refusal as Number

from memory_tests.refusing import Outcome, Refusal
from memory_tests.scripts import OUT_OF_MEMORY

MEMBERS = 3

# Member 2 leads this partition.
KEY = Key(5, "k")
PRIMARY = 2

# How long a client waits for an answer, in seconds. One that comes takes some milliseconds.
LONGEST_WAIT = 5.0

PUT, GET = wire.put(1, KEY, b"v"), wire.get(2, KEY)

NO_MEMORY = (wire.refused(1, Number.NO_MEMORY), wire.refused(2, Number.NO_MEMORY))

# What the put and the get are answered, and what is said of that.
ANSWERS = {
    (wire.valued(Kind.PUT, 1, None), wire.valued(Kind.GET, 2, b"v")): "both calls answered",
    (NO_MEMORY[0], wire.valued(Kind.GET, 2, None)): "the put refused with error 10, and not done",
    (wire.valued(Kind.PUT, 1, None), NO_MEMORY[1]): "the get refused with error 10",
}


def what_a_client_hears(port: int) -> tuple[str, bool]:
    """What comes to a client that puts and gets, and whether that may be."""
    try:
        with Client(port + PRIMARY) as client, client.patience(LONGEST_WAIT):
            if client.authenticate() != wire.accepted(0, PRIMARY):
                return "another answer to the authentication", False
            heard = client.ask(PUT), client.ask(GET)
            return ANSWERS.get(heard, "other answers"), heard in ANSWERS
    except (Ended, ConnectionResetError, BrokenPipeError):
        return "the connection ended", True
    except ConnectionRefusedError:
        return "no door open", True
    except Silence:
        return "a call unanswered", False


def started(port: int, refusal: Refusal) -> subprocess.Popen[bytes]:
    return subprocess.Popen(
        [program(), "serve", "--members", str(MEMBERS), "--port", str(port)],
        stdin=subprocess.PIPE,
        stdout=subprocess.PIPE,
        stderr=subprocess.PIPE,
        bufsize=0,
        env=refusal.settings,
        pass_fds=[refusal.told],
    )


def has_opened(server: subprocess.Popen[bytes]) -> bool:
    """Whether the server says where it listens, before it ends."""
    assert server.stderr
    try:
        return "127.0.0.1" in Lines(server.stderr.fileno()).next()
    except Ended:
        return False


def outcome_of(server: subprocess.Popen[bytes], port: int) -> tuple[str, bool]:
    """What came of a server that was started, and whether that may be. Its control script is one `end`."""
    heard, is_right = what_a_client_hears(port) if has_opened(server) else ("not opened", True)
    if not is_right:
        return heard, False
    try:
        server.communicate(b"end\n", timeout=PATIENCE)
    except subprocess.TimeoutExpired:
        return f"{heard}, the server didn't end", False
    return f"{heard}, status {server.returncode}", server.returncode in (DONE, DOOR_FAULT, OUT_OF_MEMORY)


def serve(library: Path, number: int) -> Outcome:
    """Starts a server, of which the request of this number is refused, and calls it."""
    port = free_ports(MEMBERS)
    with Refusal(library, number) as refusal:
        with started(port, refusal) as server:
            try:
                kind, is_right = outcome_of(server, port)
            finally:
                server.kill()
        return Outcome(kind, is_right, refusal.came())
