"""Copies of the process, as `os.fork` makes them: each has a client of its own."""

from __future__ import annotations

import os
import struct
from collections.abc import Callable
from functools import partial

from grid_client import TEXT, GridClient, KeyLocked, Map
from serving.checks import Checks
from serving.server import Server

from client_tests.shared import Running, client_of

CALLS = 40


class Copy:
    """A copy of this process that makes a call, and tells a number that the call gives, or -1 where it raised."""

    def __init__(self, call: Callable[[], int]) -> None:
        self.reads, writes = os.pipe()
        self.process = os.fork()
        if self.process == 0:
            try:
                number = call()
            except BaseException:
                number = -1
            os.write(writes, struct.pack("<q", number))
            os._exit(0)
        os.close(writes)

    def result(self) -> int:
        with open(self.reads, "rb") as pipe:
            told = pipe.read()
        os.waitpid(self.process, 0)
        return int(struct.unpack("<q", told)[0])


def wrong_gets(m: Map[str, str], caller: str) -> int:
    """How many of this caller's gets give another value than its own."""
    m[caller] = caller
    return sum(m.get(caller) != caller for _ in range(CALLS))


def copies_get_their_own_answers(checks: Checks) -> None:
    """Three copies and the first process call at once, by a map that was made before. Nobody gets another one's answer."""
    with Server() as server:
        m = client_of(server).map("m", values=TEXT)
        wrong_gets(m, "warm")
        copies = [Copy(partial(wrong_gets, m, f"copy {number}")) for number in range(3)]
        checks.equal("wrong gets of the first process", 0, wrong_gets(m, "first"))
        checks.equal("wrong gets of the copies", [0, 0, 0], [copy.result() for copy in copies])
        checks.equal("whether its connections are still good", "first", m["first"])


def a_copy_is_made_while_threads_call(checks: Checks) -> None:
    """What other threads have locked in the client as the copy is made isn't locked in the copy."""
    with Server() as server, client_of(server) as client:
        m = client.map("m", values=TEXT)
        calling = [Running(partial(wrong_gets, m, f"thread {thread}")) for thread in range(4)]
        copies = [Copy(partial(wrong_gets, m, "copy")) for _ in range(5)]
        checks.equal("wrong gets of the copies", [0] * 5, [copy.result() for copy in copies])
        checks.equal("wrong gets of threads", [0] * 4, [one.result() for one in calling])


def a_lock_stays_with_the_first_process(checks: Checks) -> None:
    """A lock that the process holds is its own: a copy can't write the key, and at the end of the block it gives nothing back."""
    with Server() as server, GridClient.local(3, server.port, number=7) as client:
        m = client.map("m", values=TEXT)

        def in_the_copy() -> int:
            try:
                m["k"] = "copy"
            except KeyLocked:
                return int(client.number != 7 and m.is_locked("k") and not m.try_lock("k"))
            return 0

        def leave_the_block() -> int:
            block.__exit__(None, None, None)
            return int(m.is_locked("k"))

        block = m.lock("k", lease=60)
        with block:
            checks.equal("a copy's write, and its lock", 1, Copy(in_the_copy).result())
            checks.equal("the lock behind a copy's block", 1, Copy(leave_the_block).result())
            m["k"] = "first"
        checks.equal("whether it is locked behind the block", False, m.is_locked("k"))
        checks.equal("the value", "first", m["k"])


TESTS = (
    copies_get_their_own_answers,
    a_copy_is_made_while_threads_call,
    a_lock_stays_with_the_first_process,
)
