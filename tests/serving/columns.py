"""What a client knows of what it wrote, and so what may stand there."""

from __future__ import annotations

from typing import Generic, TypeVar

K = TypeVar("K")


class Column(Generic[K]):
    """What one client knows of a key that it alone writes: the last number that was acknowledged, and those since then whose
    answers didn't come, which may stand."""

    def __init__(self, key: K) -> None:
        self.key = key
        self.last = 0
        self.acknowledged = 0
        self.unanswered: list[int] = []

    def may_be(self, value: bytes | None) -> bool:
        number = int(value) if value is not None else 0
        return number == self.acknowledged or number in self.unanswered

    def told(self) -> str:
        return f"{self.acknowledged} or one of {self.unanswered}"
