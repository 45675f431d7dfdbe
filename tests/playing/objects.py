"""Objects and their calls, as docs/PROTOCOL.md (section 16) has them: what each call answers, and what it leaves.

An entry of a map is its value, or None. A queue is the tuple of its items, the front first. Here nothing ends by the clock, and
nobody locks a key."""

from __future__ import annotations

import struct
from collections.abc import Callable
from dataclasses import dataclass
from typing import Union

State = Union[bytes, tuple[bytes, ...], None]
Reply = Union[bytes, bool, int, None]
Does = Callable[[State, "Call"], tuple[Reply, State]]


@dataclass(frozen=True)
class Call:
    """A call on one object: what it does there, and the parts that it states."""

    does: Does
    value: bytes = b""
    test: bytes = b""
    number: int = 0

    def __str__(self) -> str:
        parts = [part.decode() for part in (self.test, self.value) if part]
        return " ".join([self.does.__name__, *parts, *([str(self.number)] if self.number else [])])


# Entries.


def put(before: State, call: Call) -> tuple[Reply, State]:
    return before, call.value


def put_if_absent(before: State, call: Call) -> tuple[Reply, State]:
    return before, call.value if before is None else before


def put_blindly(before: State, call: Call) -> tuple[Reply, State]:
    """The protocol's `set`."""
    return None, call.value


def get(before: State, call: Call) -> tuple[Reply, State]:
    return before, before


def remove(before: State, call: Call) -> tuple[Reply, State]:
    return before, None


def replace_if_same(before: State, call: Call) -> tuple[Reply, State]:
    return (True, call.value) if before == call.test else (False, before)


# What a number value begins with.
NUMBER = struct.pack(">II", 0, 0xFFFFFFF8)


def number_value(number: int) -> bytes:
    return NUMBER + struct.pack(">q", number)


def number_of(value: State) -> int | None:
    """The number that a value is; no value counts as 0."""
    if value is None:
        return 0
    is_number = isinstance(value, bytes) and len(value) == 16 and value.startswith(NUMBER)
    return int.from_bytes(value[8:], "big", signed=True) if is_number else None


def added_to(sum_value: bytes, number: int) -> bytes | None:
    """The value to which this number was added. It is taken that it wasn't 0."""
    before = number_of(sum_value) - number
    return number_value(before) if before else None


def add(before: State, call: Call) -> tuple[Reply, State]:
    """The protocol's processor 1. To a value that is no number nothing is added."""
    number = number_of(before)
    if number is None:
        return None, before
    after = number_value(number + call.number)
    return after, after


# Queues of this capacity. The more items a queue may have, the longer a search for an order takes.

CAPACITY = 4


def offer(before: State, call: Call) -> tuple[Reply, State]:
    return (True, (*before, call.value)) if len(before) < CAPACITY else (False, before)


def poll(before: State, call: Call) -> tuple[Reply, State]:
    return (before[0], before[1:]) if before else (None, before)


def peek(before: State, call: Call) -> tuple[Reply, State]:
    return before[0] if before else None, before


def size(before: State, call: Call) -> tuple[Reply, State]:
    return len(before), before


# Both.


def empty(before: State, call: Call) -> tuple[Reply, State]:
    """What the reopening of a partition does to each object in it."""
    return None, () if isinstance(before, tuple) else None
