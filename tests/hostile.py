#!/usr/bin/env -S python3 -B
"""Has members crash before the steps of scripts, and while what masters propose is under way; has clients do to `grid serve` what
no good client does, over real sockets, and the system give the program too few threads and interrupted calls. Run it from
anywhere, with a C compiler at hand, after `rt ci` or `rt run` in crates/grid has built the program: tests/hostile.py. GRID names
another.

    tests/hostile.py [--times] [--loops L] [WORD..]

Servers have as many loops as the program has by itself, or L. Runs the tests in whose names a WORD stands, or all. `--times` also
tells each test, with its time. A line for each failure says what was wanted and what came; the last line is 'N passed, M failed', and
the exit status is 0 where none failed."""

from __future__ import annotations

import sys

from hostile_tests import clients, closes, consoles, crashes, interrupts, masters, threads
from serving.suites import Suite

SUITE = Suite(
    name="hostile",
    alone=(crashes, masters),
    on_servers=(closes, clients, consoles, threads, interrupts),
    loops=(None,),
)

if __name__ == "__main__":
    sys.exit(SUITE.main(__doc__))
