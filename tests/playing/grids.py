"""A grid on which pipelines are played, and what is told of it."""

from __future__ import annotations

import time
from collections import Counter
from dataclasses import dataclass
from random import Random

from serving.operating import Operator
from serving.server import Server

from playing.board import Board
from playing.objects import CAPACITY
from playing.plans import Director
from playing.players import Players

# How many clients play on a grid.
PLAYERS = 12


@dataclass
class Played:
    """What came of some grids: how many calls were answered, refused and lost, how often each of the operator's lines did
    something, what is wrong, and how many seconds it took to play and to look for orders."""

    answered: int
    refused: int
    lost: int
    done: Counter[str]
    wrong: list[str]
    playing: float
    looking: float

    def __add__(self, other: Played) -> Played:
        return Played(
            self.answered + other.answered,
            self.refused + other.refused,
            self.lost + other.lost,
            self.done + other.done,
            self.wrong + other.wrong,
            self.playing + other.playing,
            self.looking + other.looking,
        )


NOTHING = Played(0, 0, 0, Counter(), [], 0.0, 0.0)


def play_grid(calls: int, seed: int, *, members: int = 3, backups: int = 1, loops: int | None = None) -> Played:
    """Plays so many calls on a new grid, and looks at the history of each object."""
    board = Board(members, PLAYERS)
    start = time.monotonic()
    with Server(members=members, backups=backups, capacity=CAPACITY, loops=loops) as server:
        director = Director(board, Operator(server), Random(f"{seed}"))
        with Players(board, server.port, PLAYERS, seed):
            director.direct(calls)
    played = time.monotonic()
    faults = [f"seed {seed}: {fault}" for fault in board.faults()]
    looked = time.monotonic()
    refused = sum(board.refused.values())
    return Played(board.answered, refused, board.unanswered(), director.done, faults, played - start, looked - played)
