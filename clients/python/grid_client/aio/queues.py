"""Queues of a grid, for tasks of asyncio."""

from __future__ import annotations

import asyncio
from typing import Final, Generic, TypeVar

from ..calls import Call, QueueCalls
from ..spans import Deadline, Span, growing_pauses, some_seconds
from .routing import Router

V = TypeVar("V")
R = TypeVar("R")


class Queue(Generic[V]):
    """A queue. Its calls are those of `grid_client.Queue`, and each is awaited."""

    def __init__(self, router: Router, calls: QueueCalls[V]) -> None:
        self.name: Final = calls.name
        self.partition: Final = calls.partition
        self._router = router
        self._calls = calls

    def __repr__(self) -> str:
        return f"aio.Queue({self.name!r}, partition={self.partition})"

    async def offer(self, item: V, *, wait: Span | None = None, timeout: Span | None = None) -> bool:
        deadline = Deadline(wait or 0)
        pauses = growing_pauses()
        call = self._calls.offer(item)
        while not (had_room := await self._made(call, timeout)):
            pause = deadline.pause(next(pauses))
            if pause is None:
                break
            await asyncio.sleep(pause)
        return had_room

    async def poll(self, *, wait: Span | None = None, timeout: Span | None = None) -> V | None:
        """Takes the item at the front, or None where none is there, nor comes within `wait` seconds. Where the task is cancelled,
        and the item was taken already, the client's next poll gives it, and `close` puts it back."""
        deadline = Deadline(wait or 0)
        pauses = growing_pauses()
        while (item := await self._poll_once(timeout)) is None:
            pause = deadline.pause(next(pauses))
            if pause is None:
                return None
            await asyncio.sleep(pause)
        return item

    async def _poll_once(self, timeout: Span | None) -> V | None:
        kept: list[bytes] = []
        if self._router.leftovers.take(self.name, self.partition, kept):
            return self._calls.values.from_value(kept[0])
        return await self._made(self._calls.poll(), timeout)

    async def peek(self, *, timeout: Span | None = None) -> V | None:
        return await self._made(self._calls.peek(), timeout)

    async def size(self, *, timeout: Span | None = None) -> int:
        return await self._made(self._calls.size(), timeout)

    async def remaining_capacity(self, *, timeout: Span | None = None) -> int:
        return await self._made(self._calls.remaining_capacity(), timeout)

    async def clear(self, *, timeout: Span | None = None) -> None:
        await self._made(self._calls.clear(), timeout)

    async def _made(self, call: Call[R], timeout: Span | None) -> R:
        return await self._router.made(call, None if timeout is None else some_seconds(timeout, "a timeout"))
