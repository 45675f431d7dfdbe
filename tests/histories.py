#!/usr/bin/env -S python3 -B
"""Plays pipelines of sixteen calls on `grid serve`, on grids whose partitions move and whose members crash, and looks whether the
calls on each object can have happened one after the other. Run it from anywhere, after `rt ci` or `rt run` in crates/grid has built
the program: tests/histories.py. GRID names another.

    tests/histories.py [--calls N] [--seed S] [--members M] [--backups B] [--loops L]

Without options it is a hundred thousand calls on three members with one backup, which take some twelve seconds; a million take two
minutes. A line for each grid says how far it is and which seed the grid had; the same seed doesn't make the same run, since threads
and sockets have a say. A line for each fault says what is wrong; the last line is 'N passed, M failed', where each history and each
fault counts once, and the exit status is 0 where none failed."""

from __future__ import annotations

import argparse
import os
import sys
import time

from playing.board import THINGS
from playing.grids import NOTHING, Played, play_grid
from serving.server import end_when_told, program

# How many calls are played on one grid.
ON_ONE = 20_000


def options() -> argparse.Namespace:
    parser = argparse.ArgumentParser(description="Plays pipelines on grids, and looks for an order of the calls on each object.")
    parser.add_argument("--calls", type=int, default=100_000, metavar="N", help="how many calls are to be answered")
    parser.add_argument("--seed", type=int, default=time.time_ns() % 1_000_000_007, metavar="S", help="the first grid's seed")
    parser.add_argument("--members", type=int, default=3, metavar="M", help="how many members a grid has")
    parser.add_argument("--backups", type=int, default=1, metavar="B", help="how many backups a partition has")
    parser.add_argument("--loops", type=int, metavar="L", help="with how many loops a server serves, where it takes that option")
    return parser.parse_args()


def tell(seed: int, all_played: Played) -> None:
    done = ", ".join(f"{count} {line}" for line, count in sorted(all_played.done.items()))
    calls = f"{all_played.answered} answered, {all_played.refused} refused, {all_played.lost} lost"
    times = f"{all_played.playing:.0f} s played, {all_played.looking:.0f} s looked"
    print(f"seed {seed}: {calls}; {done}; {times}", flush=True)


def main() -> int:
    if not os.access(program(), os.X_OK):
        print(f"no program at {program()}: build it with 'rt ci', or set GRID")
        print("0 passed, 1 failed")
        return 1
    end_when_told()
    words = options()
    all_played, grids = NOTHING, 0
    while all_played.answered < words.calls:
        seed = words.seed + grids
        calls = min(ON_ONE, words.calls - all_played.answered)
        played = play_grid(calls, seed, members=words.members, backups=words.backups, loops=words.loops)
        all_played, grids = all_played + played, grids + 1
        tell(seed, all_played)
        for fault in played.wrong:
            print(fault, flush=True)
    failed = len(all_played.wrong)
    print(f"{grids * len(THINGS) - failed} passed, {failed} failed")
    return 1 if failed else 0


if __name__ == "__main__":
    sys.exit(main())
