"""What the operator of a played grid does: partitions move and members join their rows all the time, members crash, and lost
partitions are opened again."""

from __future__ import annotations

import time
from collections import Counter
from random import Random

from serving.client import PATIENCE
from serving.operating import Operator

from playing.board import PARTITIONS, Board, now

# The first words of outcomes, and the causes of refusals that a line may meet, whoever has crashed.
OUTCOMES = ("row", "ok", "freezing", "nothing", "refused")
CAUSES = ("lost", "notidle", "notthere", "alreadythere", "notlive", "noteligible", "notlost", "nomember")

# The longest that the operator rests between two lines, and between a crash and its detection, in seconds.
LONGEST_REST, LONGEST_IGNORANCE = 0.004, 0.03

# Lines before the detection of a crash.
LINES_IN_IGNORANCE = 4


class Director:
    """An operator, who types lines made at random. Of each line that begins a step it is counted how often it began one."""

    def __init__(self, board: Board, operator: Operator, random: Random) -> None:
        self.board = board
        self.operator = operator
        self.random = random
        self.done: Counter[str] = Counter()

    def order(self, line: str) -> str:
        """Types a line, and gives the first word of its outcome."""
        outcome, *rest = self.operator.order(line).split(" ")
        if outcome not in OUTCOMES or (outcome == "refused" and rest[0] not in CAUSES):
            self.board.wrong.append(f"'{line}' came to '{' '.join([outcome, *rest])}'")
        if outcome in ("row", "ok"):
            self.done[line.split(" ")[0]] += 1
        return outcome

    # Moves.

    def stir(self) -> None:
        """Begins a move, a join or a handover, which may be refused, and has another partition go on with its own."""
        partition, other = self.random.choices(PARTITIONS, k=2)
        source, target = self.random.sample(range(self.board.members), 2)
        lines = (f"move {partition} {source} {target}", f"join {partition} {target}", f"handover {partition} {source} {target}")
        self.order(self.random.choice(lines))
        self.order(f"advance {other}")

    def stir_until(self, answered: int) -> None:
        """Stirs until so many calls are answered, or something is wrong."""
        last, end = self.board.answered, time.monotonic() + PATIENCE
        while self.board.answered < answered and not self.board.wrong:
            self.stir()
            time.sleep(self.random.random() * LONGEST_REST)
            if self.board.answered > last:
                last, end = self.board.answered, time.monotonic() + PATIENCE
            elif time.monotonic() > end:
                self.board.wrong.append(f"no call was answered for {PATIENCE:.0f} seconds, behind {last}")

    # Crashes.

    def crash(self, member: int) -> None:
        self.order(f"crash {member}")
        self.board.crashes[member] = now()

    def lose(self, members: list[int]) -> None:
        """These members crash amid moves, and are detected a while later. What is lost then is opened again."""
        for member in members:
            self.crash(member)
        for _ in range(self.random.randrange(LINES_IN_IGNORANCE)):
            self.stir()
        time.sleep(self.random.random() * LONGEST_IGNORANCE)
        for member in members:
            self.order(f"detect {member}")
        for partition in PARTITIONS:
            self.reopen(partition)

    def reopen(self, partition: int) -> None:
        sent = now()
        if self.order(f"reopen {partition}") == "row":
            self.board.reopen(partition, sent, now())

    def losses(self) -> list[list[int]]:
        """Who crashes, together or one behind the other: all members but one."""
        members = self.random.sample(range(self.board.members), self.board.members - 1)
        if self.random.randrange(3) == 0:
            return [members]
        return [[member] for member in members]

    def direct(self, calls: int) -> None:
        """Has so many calls answered, and members crash in between."""
        losses = self.losses()
        for number, members in enumerate(losses, start=1):
            self.stir_until(calls * number // (len(losses) + 1))
            self.lose(members)
        self.stir_until(calls)
