"""Calls that may be made twice."""

from __future__ import annotations

from collections.abc import Callable
from typing import ParamSpec, TypeVar

from .errors import OutcomeUnknown

P = ParamSpec("P")
R = TypeVar("R")


def again(call: Callable[P, R], *args: P.args, **words: P.kwargs) -> R:
    """Makes a call until its outcome is known: `again(m.set, "k", "v")`. It is for calls of which twice is as good as once: reads,
    `set` and `delete` of a key that nobody else writes, and `put_if_absent` of a value that nobody else puts."""
    while True:
        try:
            return call(*args, **words)
        except OutcomeUnknown:
            continue
