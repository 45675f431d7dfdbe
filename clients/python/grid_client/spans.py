"""Spans of time, which a caller gives in seconds, and moments until which something may take."""

from __future__ import annotations

import math
import random
import time
from collections.abc import Iterator
from datetime import timedelta
from typing import Final, TypeAlias

Span: TypeAlias = float | timedelta
"""A span: a number of seconds, or a `timedelta`."""

MOST_MILLISECONDS: Final = 2**63 - 1

FIRST_PAUSE: Final = 0.002
LONGEST_PAUSE: Final = 0.1


def seconds(span: Span) -> float:
    return span.total_seconds() if isinstance(span, timedelta) else float(span)


def some_seconds(span: Span, what: str) -> float:
    """A span that has to be more than nothing."""
    given = seconds(span)
    if not given > 0:
        raise ValueError(f"{what} of {span} seconds: it has to be more than 0")
    return given


def milliseconds(span: Span | None, what: str) -> int:
    """A span as the server takes it: whole milliseconds, at least one, and 0 for no end."""
    if span is None:
        return 0
    given = seconds(span)
    if not 0 < given < MOST_MILLISECONDS / 1000:
        raise ValueError(f"{what} of {span} seconds: it has to be more than 0, or None for no end")
    return math.ceil(given * 1000)


class Deadline:
    """The moment at which a time is up."""

    __slots__ = ("_end",)

    def __init__(self, span: Span) -> None:
        self._end = time.monotonic() + seconds(span)

    def left(self) -> float:
        """How many seconds are left, at least 0."""
        return max(0.0, self._end - time.monotonic())

    def is_over(self) -> bool:
        return self.left() == 0

    def pause(self, longest: float) -> float | None:
        """How many seconds to rest before the next attempt: so many, or what is left, and None where nothing is. So the last
        attempt comes when the time is up, and not before."""
        left = self.left()
        return min(left, longest) if left else None

    def pause_within(self, longest: float) -> float | None:
        """As `pause`, for attempts that themselves have to end in time: None where the next one would have none."""
        return longest if self.left() > longest else None


def growing_pauses() -> Iterator[float]:
    """Pauses between attempts, in seconds: each about twice the one before, up to the longest. They are drawn at random, so that
    clients that wait for one thing don't come all at once."""
    longest = FIRST_PAUSE
    while True:
        yield random.uniform(longest / 2, longest)
        longest = min(2 * longest, LONGEST_PAUSE)
