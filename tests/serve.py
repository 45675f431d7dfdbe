#!/usr/bin/env -S python3 -B
"""Runs `grid serve` over real sockets, with an operator's console, and looks whether the calls of pipelines have an order while
members crash. Run it from anywhere, after `rt ci` or `rt run` in crates/grid has built the program: tests/serve.py. GRID names
another.

    tests/serve.py [--times] [--loops L] [WORD..]

Servers have as many loops as the program has by itself, or L. Runs the tests in whose names a WORD stands, or all. `--times` also
tells each test, with its time. A line for each failure says what was wanted and what came; the last line is 'N passed, M failed', and
the exit status is 0 where none failed."""

from __future__ import annotations

import sys

from serve_tests import calls, command, console, crashes, load, orders, pipelines, scenarios, streams
from serving.suites import Suite

SUITE = Suite(
    name="serve",
    alone=(orders,),
    on_servers=(calls, scenarios, streams, load, command, console, crashes, pipelines),
    loops=(None,),
)

if __name__ == "__main__":
    sys.exit(SUITE.main(__doc__))
