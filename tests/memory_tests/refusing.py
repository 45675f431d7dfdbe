"""Runs of the program in which one request for memory is refused, by a library that is made for it and loaded before it."""

from __future__ import annotations

import os
from collections.abc import Callable, Iterator
from concurrent.futures import ThreadPoolExecutor
from dataclasses import dataclass
from pathlib import Path

from serving.preloading import Preloaded

SOURCE = Path(__file__).with_name("refuse.c")

# How many runs are begun before the next look whether their requests were there at all.
AT_ONCE = 64


class Refusal(Preloaded):
    """The refusal of one request of a process."""

    def __init__(self, library: Path, number: int) -> None:
        super().__init__(library, REFUSED=str(number))

    def __enter__(self) -> Refusal:
        return self

    def came(self) -> bool:
        """Whether the request was made, and so refused. To be asked once the process has ended."""
        return self.what_was_told() == b"r"


@dataclass(frozen=True)
class Outcome:
    """What came of a run: a kind that is counted, whether that may be, and whether a request was refused at all."""

    kind: str
    is_right: bool
    was_refused: bool


def all_outcomes(run: Callable[[int], Outcome], apart: int) -> Iterator[tuple[int, Outcome]]:
    """What came of each run in which a request was refused, by its number, up to the first number that isn't reached. Numbers are so far
    apart."""
    first = 0
    with ThreadPoolExecutor(os.cpu_count()) as pool:
        while True:
            numbers = range(first, first + AT_ONCE * apart, apart)
            for number, outcome in zip(numbers, pool.map(run, numbers), strict=True):
                if not outcome.was_refused:
                    return
                yield number, outcome
            first += AT_ONCE * apart
