#!/usr/bin/env -S python3 -B
"""Runs the client for Python over `grid serve` and real sockets, and the commands and programs of the guide's pages. Run it from
anywhere, after `rt ci` or `rt run` in crates/grid has built the program: tests/client.py. GRID names another.

    tests/client.py [--times] [--loops L] [WORD..]

Servers have as many loops as the program has by itself, or L. Runs the tests in whose names a WORD stands, or all. `--times` also
tells each test, with its time. A line for each failure says what was wanted and what came; the last line is 'N passed, M failed', and
the exit status is 0 where none failed."""

from __future__ import annotations

import sys

from serving.server import TOP
from serving.suites import Suite

sys.path.insert(0, str(TOP / "clients" / "python"))

from client_tests import (  # noqa: E402
    batches,
    codecs,
    crashes,
    forks,
    jobs,
    locks,
    maps,
    outcomes,
    packages,
    pages,
    queues,
    refusals,
    restarts,
    services,
    tasks,
)

DATA = (codecs, maps, queues, locks, batches, jobs)
FAULTS = (refusals, outcomes, forks, crashes, restarts)

SUITE = Suite(name="client", alone=(), on_servers=(*DATA, *FAULTS, tasks, packages, services, pages), loops=(None,))

if __name__ == "__main__":
    sys.exit(SUITE.main(__doc__))
