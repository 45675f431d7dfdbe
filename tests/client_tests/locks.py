"""Locks: who has them, how they end, and what a `with` does."""

from __future__ import annotations

import time
from functools import partial

from grid_client import NUMBERS, TEXT, GridClient, KeyLocked, LeaseEnded, LockTimeout, NotOwner
from serving.checks import Checks
from serving.server import Server

from client_tests.shared import Running, client_of, raises


class Oops(Exception):
    """What a block raises in these tests."""


def a_lock_keeps_others_writes_away(checks: Checks) -> None:
    """Another client and another thread can't write, lock or unlock a locked key, and can read it."""
    with Server() as server, client_of(server) as client, client_of(server) as other:
        mine, theirs = client.map("m", values=TEXT), other.map("m", values=TEXT)
        mine["k"] = "v"
        checks.equal("try_lock", True, mine.try_lock("k"))
        raises(checks, "another client's put", KeyLocked, theirs.put, "k", "w")
        raises(checks, "another thread's put", KeyLocked, Running(lambda: mine.put("k", "w")).result)
        raises(checks, "another client's unlock", NotOwner, theirs.unlock, "k")
        checks.equal("what another client sees", (True, False, "v"), (theirs.is_locked("k"), theirs.try_lock("k"), theirs["k"]))
        checks.equal("the owner's put", "v", mine.put("k", "w"))
        mine.unlock("k")
        checks.equal("whether it is locked behind that", False, theirs.is_locked("k"))
        raises(checks, "a second unlock", NotOwner, mine.unlock, "k")
        mine.try_lock("k")
        theirs.force_unlock("k")
        checks.equal("whether it is locked behind force_unlock", False, mine.is_locked("k"))


def a_lock_is_counted_and_ends_with_its_lease(checks: Checks) -> None:
    """A lock is given back as often as it was taken, or ends with its lease."""
    with Server() as server, client_of(server) as client:
        m = client.map("m")
        checks.equal("both times", [True, True], [m.try_lock("k"), m.try_lock("k")])
        m.unlock("k")
        checks.equal("behind the first unlock", True, m.is_locked("k"))
        m.unlock("k")
        checks.equal("behind the second", False, m.is_locked("k"))
        m.try_lock("k", lease=0.2)
        time.sleep(0.3)
        checks.equal("behind its lease", False, m.is_locked("k"))


def a_with_gives_its_lock_back(checks: Checks) -> None:
    """A block has the lock, and gives it back where it ends, be it by an exception. A lease that ended before is told, unless the
    block raised something itself."""
    with Server() as server, client_of(server) as client, client_of(server) as other:
        m = client.map("m")

        def block(lease: float, length: float, error: Exception | None = None) -> None:
            with m.lock("k", lease=lease):
                time.sleep(length)
                if error is not None:
                    raise error

        with m.lock("k", lease=60):
            checks.equal("within", True, m.is_locked("k"))
            raises(checks, "another client's lock", LockTimeout, other.map("m").lock("k", wait=0.1).__enter__)
        checks.equal("behind", False, m.is_locked("k"))
        raises(checks, "a block that raises", Oops, block, 60, 0, Oops())
        checks.equal("behind that", False, m.is_locked("k"))
        raises(checks, "a block past its lease", LeaseEnded, block, 0.1, 0.2)
        raises(checks, "one that raises past its lease", Oops, block, 0.1, 0.2, Oops())
        m.try_lock("k", lease=0.2)
        with other.map("m").lock("k", wait=20):
            checks.equal("a lock that was waited for", False, m.try_lock("k"))


def a_number_says_who_a_client_is(checks: Checks) -> None:
    """Two clients of one number are one owner, in one thread, and so are a client that ended and its next one."""
    with Server() as server:
        number = 2**127 + 5
        with GridClient.local(3, server.port, number=number) as client:
            checks.equal("its number", number, client.number)
            client.map("m").try_lock("k")
        with GridClient.local(3, server.port, number=number) as again, client_of(server) as other:
            raises(checks, "another client's put", KeyLocked, other.map("m").put, "k", b"v")
            checks.equal("the owner's put", None, again.map("m").put("k", b"v"))
            again.map("m").unlock("k")


def threads_count_under_a_lock(checks: Checks) -> None:
    """Threads of one client and of another one read and write a number under a lock, and none of their additions is lost."""
    with Server() as server, client_of(server) as client, client_of(server) as other:

        def count(turns: int, owner: int) -> None:
            counts = (client, other)[owner % 2].map("m", values=NUMBERS)
            for _ in range(turns):
                with counts.lock("k", lease=60, wait=60):
                    counts["k"] = counts.get("k", 0) + 1

        threads = [Running(partial(count, 6, owner)) for owner in range(4)]
        for thread in threads:
            thread.result()
        checks.equal("the count", 24, client.map("m", values=NUMBERS)["k"])


TESTS = (
    a_lock_keeps_others_writes_away,
    a_lock_is_counted_and_ends_with_its_lease,
    a_with_gives_its_lock_back,
    a_number_says_who_a_client_is,
    threads_count_under_a_lock,
)
