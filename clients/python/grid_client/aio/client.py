"""A client of a grid, for tasks of asyncio."""

from __future__ import annotations

import asyncio
from collections.abc import Iterable
from contextlib import suppress
from types import TracebackType
from typing import Any, Final, TypeVar, overload

from ..addresses import probe
from ..calls import MapCalls, QueueCalls, offer_of
from ..client import FIRST_PORT, addresses_of, local_addresses, manner_of
from ..codecs import BYTES, TEXT, Codec
from ..connections import GRACE
from ..errors import GridError, NotSent, OutcomeUnknown
from ..logs import log
from ..owners import task_number
from ..restarts import Marks
from ..spans import Deadline, Span, some_seconds
from .maps import Map
from .members import Member
from .pipelines import Pipeline
from .queues import Queue
from .routing import Router

K = TypeVar("K")
V = TypeVar("V")

# How often it is looked whether the answers of cancelled calls have come.
LOOK: Final = 0.002


class GridClient:
    """A client of the grid whose members listen at these addresses, as `grid_client.GridClient` has them, with the same options:

        async with GridClient(["127.0.0.1:5701", "127.0.0.1:5702", "127.0.0.1:5703"]) as client:
            carts = client.map("carts")

    It connects as the block is entered. It belongs to one loop, and many tasks may use it at once."""

    def __init__(
        self,
        members: Iterable[str | tuple[str, int]],
        *,
        cluster: str = "dev",
        timeout: Span = 10.0,
        retry_for: Span = 10.0,
        number: int | None = None,
        repeat_reads: bool = False,
        tell_restarts: bool = False,
        connections: int = 16,
    ) -> None:
        addresses = addresses_of(members)
        self._manner = manner_of(cluster, number, timeout, connections)
        self._marks = Marks() if tell_restarts else None
        look = self._look_at_marks if tell_restarts else None
        self._members = [Member(address, self._manner, look) for address in addresses]
        until = some_seconds(retry_for, "a time of retries")
        self._router = Router(self._members, self._manner, until, repeat_reads=repeat_reads)
        self._is_looking = False

    @classmethod
    def local(cls, members: int = 3, port: int = FIRST_PORT, **options: Any) -> GridClient:
        """A client of `grid serve --members MEMBERS --port PORT` on this machine, with the options of any client."""
        return cls(local_addresses(members, port), **options)

    @property
    def number(self) -> int:
        """Who the client is where it locks keys."""
        return self._manner.client

    async def __aenter__(self) -> GridClient:
        await self.connect()
        return self

    async def __aexit__(self, kind: type[BaseException] | None, error: BaseException | None, trace: TracebackType | None) -> None:
        await self.close()

    async def connect(self) -> None:
        """Connects to the first member that can be reached. `NotSent` where none can."""
        failures: list[GridError] = []
        for member in self._members:
            try:
                await member.ask(probe())
            except (NotSent, OutcomeUnknown) as error:
                failures.append(error)
            else:
                return await self._look_at_marks()
        raise NotSent("; ".join(map(str, failures))) from failures[0]

    async def close(self) -> None:
        """Closes the connections. A call that another task has under way there raises `OutcomeUnknown`, and each later one
        `ClientClosed`. Items that cancelled polls took are put back into their queues before."""
        deadline = Deadline(GRACE)
        while any(member.is_taking for member in self._members) and not deadline.is_over():
            await asyncio.sleep(LOOK)
        await self._put_back()
        for member in self._members:
            await member.close()

    @overload
    def map(self, name: str) -> Map[str, bytes]: ...

    @overload
    def map(self, name: str, *, keys: Codec[K]) -> Map[K, bytes]: ...

    @overload
    def map(self, name: str, *, values: Codec[V]) -> Map[str, V]: ...

    @overload
    def map(self, name: str, *, keys: Codec[K], values: Codec[V]) -> Map[K, V]: ...

    def map(self, name: str, *, keys: Codec[Any] = TEXT, values: Codec[Any] = BYTES) -> Map[Any, Any]:
        """The map of that name. Its keys are texts and its values bytes, where no codecs are given."""
        return Map(self._router, MapCalls(name, keys, values, task_number))

    @overload
    def queue(self, name: str, *, partition: int | None = None) -> Queue[bytes]: ...

    @overload
    def queue(self, name: str, *, values: Codec[V], partition: int | None = None) -> Queue[V]: ...

    def queue(self, name: str, *, values: Codec[Any] = BYTES, partition: int | None = None) -> Queue[Any]:
        """The queue of that name. Its items are bytes, where no codec is given."""
        return Queue(self._router, QueueCalls(name, values, partition, self._router.leftovers.keep))

    def pipeline(self) -> Pipeline:
        """Calls that are made together."""
        return Pipeline(self._router)

    async def ping(self) -> dict[str, bool]:
        """Whether each member answers calls, by its address."""
        return {str(member.address): await self._answers(member) for member in self._members}

    async def _answers(self, member: Member) -> bool:
        with suppress(GridError):
            await member.ask(probe())
            return True
        return False

    async def _look_at_marks(self) -> None:
        if self._marks is None or self._is_looking:
            return
        self._is_looking = True
        try:
            found = {}
            for place, call in self._marks.calls():
                with suppress(GridError):
                    found[place] = self._marks.mark_of(await self._router.made(call))
        finally:
            self._is_looking = False
        self._marks.came(found)

    async def _put_back(self) -> None:
        """Puts items back that are kept here alone."""
        for name, partition, data in self._router.leftovers.take_all():
            try:
                is_back = await self._router.made(offer_of(name, partition, data))
            except GridError as error:
                log.error("the item %r isn't put back into the queue '%s': %s", data, name, error)
            else:
                if not is_back:
                    log.error("the item %r isn't put back into the queue '%s', which is full", data, name)
