"""An operator, who types lines at a server's console and waits for their outcomes."""

from __future__ import annotations

import time

from serving.client import PATIENCE, Silence
from serving.server import Server


class Operator:
    """Types lines at a console."""

    def __init__(self, server: Server) -> None:
        self.server = server
        self.lines = 0
        self.moves = 0

    def order(self, line: str) -> str:
        """The outcome of a line, without its number."""
        self.lines += 1
        number, outcome = self.server.order(line).split(" ", 1)
        if int(number) != self.lines:
            raise Silence(f"outcome {number} in place of {self.lines}")
        return outcome

    def finish_move(self, partition: int) -> str:
        """Has a move go on until it makes a row. The last outcome."""
        end = time.monotonic() + PATIENCE
        outcome = self.order(f"advance {partition}")
        while not outcome.startswith("row ") and time.monotonic() < end:
            outcome = self.order(f"advance {partition}")
        return outcome

    def move(self, partition: int, source: int, target: int) -> str:
        """Moves a partition whose source leads it. What its beginning and its end came to, without the versions."""
        self.moves += 1
        outcomes = self.order(f"move {partition} {source} {target}"), self.finish_move(partition)
        return ", ".join(outcome.split(" ")[0] for outcome in outcomes)


def begin_moves(operator: Operator, partitions: list[int]) -> None:
    """Begins to move these partitions, and leaves each move where it is: begun, with its source frozen, or done."""
    for place, partition in enumerate(partitions):
        operator.order(f"move {partition} {partition % 3} {(partition + 2) % 3}")
        for _ in range(place % 3):
            operator.order(f"advance {partition}")


def go_on(operator: Operator, partition: int) -> bool:
    """Has a move go on as far as it can now. Whether it did."""
    steps = 0
    while operator.order(f"advance {partition}") != "nothing":
        steps += 1
    return steps > 0


def finish_moves(operator: Operator, partitions: list[int]) -> None:
    """Has moves go on until none does: a source that was frozen may have answers to give first."""
    while any([go_on(operator, partition) for partition in partitions]):
        pass
