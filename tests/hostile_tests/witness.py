"""A client that calls while another one is hostile, and what it and the server's memory may show of that."""

from __future__ import annotations

import time
from collections.abc import Iterator
from contextlib import contextmanager

from serve_tests.crashes import Keeper, have_called, working
from serving.checks import Checks
from serving.client import wait_until
from serving.server import Server

# The member that the witness calls, and partitions of three members that it leads.
PRIMARY = 2
PARTITIONS = [2, 5, 8]

# The longest that the witness waits for a put and a get together, in seconds. On a machine with nothing else to do it is some
# milliseconds.
LONGEST_WAIT = 2.0

# What the server's memory may have grown by at any moment, in kB.
MOST_GROWTH = 16_384


class Witness(Keeper):
    """Puts and gets its own keys on one connection, finds what it put last, and keeps how long it waited."""

    def __init__(self, server: Server) -> None:
        super().__init__(server, 999, PARTITIONS)
        self.longest_wait = 0.0

    def go_on(self) -> None:
        start = time.monotonic()
        super().go_on()
        self.longest_wait = max(self.longest_wait, time.monotonic() - start)


def goes_on(witness: Witness) -> bool:
    """Whether the witness has some more calls answered."""
    calls = witness.calls + 20
    return wait_until(lambda: have_called([witness], calls))


@contextmanager
def unnoticed(checks: Checks, server: Server) -> Iterator[None]:
    """What happens meanwhile is noticed by no other client: each of its calls is right, and none takes long. The server's memory
    stays bounded, and it runs."""
    witness = Witness(server)
    with working(checks, [witness]):
        checks.holds("another client before", goes_on(witness), "goes on", "doesn't")
        before = server.resident_kb()
        yield
        checks.holds("another client behind it", goes_on(witness), "goes on", "doesn't")
    checks.at_most("seconds for a put and a get of another client", LONGEST_WAIT, witness.longest_wait)
    checks.at_most("kB more than before, at most", MOST_GROWTH, server.peak_kb() - before)
    checks.equal("the server runs", True, server.runs())
