"""Maps of a grid, for tasks of asyncio."""

from __future__ import annotations

import asyncio
from collections.abc import AsyncIterator, Iterable, Mapping
from contextlib import asynccontextmanager, suppress
from typing import Final, Generic, TypeVar, overload

from ..calls import Call, MapCalls, Processor
from ..errors import GridError, LeaseEnded, LockTimeout, NotOwner
from ..spans import Deadline, Span, growing_pauses, some_seconds
from .routing import Router

K = TypeVar("K")
V = TypeVar("V")
D = TypeVar("D")
R = TypeVar("R")


class Map(Generic[K, V]):
    """A map. Its calls are those of `grid_client.Map`, and each is awaited. An owner of locks is a task of a client."""

    def __init__(self, router: Router, calls: MapCalls[K, V]) -> None:
        self.name: Final = calls.name
        self._router = router
        self._calls = calls

    def __repr__(self) -> str:
        return f"aio.Map({self.name!r})"

    # Reads and writes.

    @overload
    async def get(self, key: K, *, timeout: Span | None = None) -> V | None: ...

    @overload
    async def get(self, key: K, default: D, *, timeout: Span | None = None) -> V | D: ...

    async def get(self, key: K, default: D | None = None, *, timeout: Span | None = None) -> V | D | None:
        value = await self._made(self._calls.get(key), timeout)
        return default if value is None else value

    async def contains(self, key: K, *, timeout: Span | None = None) -> bool:
        return await self._made(self._calls.contains(key), timeout)

    async def put(
        self, key: K, value: V, *, ttl: Span | None = None, max_idle: Span | None = None, timeout: Span | None = None
    ) -> V | None:
        return await self._made(self._calls.put(key, value, ttl, max_idle), timeout)

    async def set(
        self, key: K, value: V, *, ttl: Span | None = None, max_idle: Span | None = None, timeout: Span | None = None
    ) -> None:
        await self._made(self._calls.set(key, value, ttl, max_idle), timeout)

    async def put_if_absent(self, key: K, value: V, *, ttl: Span | None = None, timeout: Span | None = None) -> V | None:
        return await self._made(self._calls.put_if_absent(key, value, ttl), timeout)

    async def remove(self, key: K, *, timeout: Span | None = None) -> V | None:
        return await self._made(self._calls.remove(key), timeout)

    async def delete(self, key: K, *, timeout: Span | None = None) -> None:
        await self._made(self._calls.delete(key), timeout)

    async def replace(self, key: K, value: V, *, timeout: Span | None = None) -> V | None:
        return await self._made(self._calls.replace(key, value), timeout)

    async def replace_if_same(self, key: K, expected: V, value: V, *, timeout: Span | None = None) -> bool:
        return await self._made(self._calls.replace_if_same(key, expected, value), timeout)

    async def remove_if_same(self, key: K, expected: V, *, timeout: Span | None = None) -> bool:
        return await self._made(self._calls.remove_if_same(key, expected), timeout)

    # Many at once.

    async def get_all(self, keys: Iterable[K], *, timeout: Span | None = None) -> dict[K, V]:
        wanted = list(keys)
        wait = None if timeout is None else some_seconds(timeout, "a timeout")
        values = await self._router.all_made([self._calls.get(key) for key in wanted], wait)
        return {key: value for key, value in zip(wanted, values) if value is not None}

    async def put_all(
        self, values: Mapping[K, V], *, ttl: Span | None = None, max_idle: Span | None = None, timeout: Span | None = None
    ) -> None:
        wait = None if timeout is None else some_seconds(timeout, "a timeout")
        await self._router.all_made([self._calls.set(key, value, ttl, max_idle) for key, value in values.items()], wait)

    # Processors.

    async def execute(self, key: K, processor: int, argument: bytes = b"", *, timeout: Span | None = None) -> bytes | None:
        return await self._made(self._calls.execute(key, processor, argument), timeout)

    async def add(self: Map[K, int], key: K, amount: int, *, timeout: Span | None = None) -> int | None:
        return await self._made(self._calls.counted(key, Processor.ADD, amount), timeout)

    async def add_up_to_limit(self: Map[K, int], key: K, amount: int, *, timeout: Span | None = None) -> int | None:
        return await self._made(self._calls.counted(key, Processor.ADD_UP_TO_LIMIT, amount), timeout)

    async def set_if_greater(self: Map[K, int], key: K, number: int, *, timeout: Span | None = None) -> int | None:
        return await self._made(self._calls.counted(key, Processor.SET_IF_GREATER, number), timeout)

    async def append(self: Map[K, bytes], key: K, more: bytes, *, timeout: Span | None = None) -> bytes | None:
        return await self._made(self._calls.execute(key, Processor.APPEND, more), timeout)

    # Locks.

    async def try_lock(self, key: K, *, lease: Span | None = None, timeout: Span | None = None) -> bool:
        return await self._made(self._calls.try_lock(key, lease), timeout)

    async def is_locked(self, key: K, *, timeout: Span | None = None) -> bool:
        return await self._made(self._calls.is_locked(key), timeout)

    async def unlock(self, key: K, *, timeout: Span | None = None) -> None:
        await self._made(self._calls.unlock(key), timeout)

    async def force_unlock(self, key: K, *, timeout: Span | None = None) -> None:
        await self._made(self._calls.force_unlock(key), timeout)

    @asynccontextmanager
    async def lock(self, key: K, *, lease: Span | None = None, wait: Span | None = None) -> AsyncIterator[None]:
        """Has the key's lock for a block of this task: `async with m.lock("k", lease=10): ...`"""
        await self._take(key, lease, wait)
        holder = self._router.manner.client
        try:
            yield
        except BaseException:
            with suppress(GridError):
                await self._give_back(key, holder)
            raise
        await self._give_back(key, holder)

    async def _take(self, key: K, lease: Span | None, wait: Span | None) -> None:
        deadline = Deadline(self._router.retry_for if wait is None else wait)
        pauses = growing_pauses()
        while not await self.try_lock(key, lease=lease):
            pause = deadline.pause(next(pauses))
            if pause is None:
                raise LockTimeout(f"another owner kept the lock of {key!r} in '{self.name}'")
            await asyncio.sleep(pause)

    async def _give_back(self, key: K, holder: int) -> None:
        if holder != self._router.manner.client:
            return
        try:
            await self.unlock(key)
        except NotOwner as error:
            raise LeaseEnded(error.number, error.details) from error

    async def _made(self, call: Call[R], timeout: Span | None) -> R:
        return await self._router.made(call, None if timeout is None else some_seconds(timeout, "a timeout"))
