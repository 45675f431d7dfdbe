"""The members of a grid, each with the connections that the client keeps to it."""

from __future__ import annotations

import asyncio
from collections.abc import Awaitable, Callable
from typing import Final

from ..addresses import Address, Manner
from ..errors import ClientClosed, ConnectionLost, NotSent, OutcomeUnknown
from ..logs import log
from ..members import Health
from ..wire import Answer, Request
from .connections import Connection

Looks = Callable[[], Awaitable[None]]


class Member(Health):
    """A member. A call goes on the connection that has fewest under way, and on one of its own where there may be more."""

    def __init__(self, address: Address, manner: Manner, reconnected: Looks | None = None) -> None:
        super().__init__(address)
        self._manner: Final = manner
        self._reconnected = reconnected
        self._was_lost = False
        self._is_closed = False
        self.leave()

    def leave(self) -> None:
        """Has no connection from now on."""
        self._all: list[Connection] = []
        self._opening: asyncio.Lock | None = None
        self._failed_at = None

    def failed(self) -> None:
        """A connection ended in place of an answer, or none was opened. Others that stand idle may have ended too: a call isn't
        lost on them."""
        super().failed()
        for connection in self._all:
            if not connection.calls:
                connection.close()

    async def ask(self, request: Request, patience: float | None = None) -> Answer:
        """The member's answer. Raises `NotSent` where the call can't have reached the member, and `OutcomeUnknown` where it may
        have."""
        connection = await self.take()
        await self._look_if_lost()
        try:
            answer = await connection.ask(request, patience)
        except ConnectionLost:
            self.failed()
            raise
        self.answered()
        return answer

    async def take(self) -> Connection:
        """The connection for a call."""
        connection = self._best()
        if connection is not None:
            return connection
        self._opening = self._opening or asyncio.Lock()
        async with self._opening:
            return self._best() or await self._opened()

    def _best(self) -> Connection | None:
        if self._is_closed:
            raise ClientClosed("the client is closed")
        fit = [connection for connection in self._all if connection.is_fit]
        self._was_lost = self._was_lost or len(fit) < len(self._all)
        self._all = fit
        best = min(fit, key=lambda it: it.calls, default=None)
        return best if best is not None and (best.calls == 0 or len(fit) >= self._manner.connections) else None

    async def _opened(self) -> Connection:
        try:
            connection = await Connection.to(self.address, self._manner)
        except (OSError, TimeoutError, NotSent, OutcomeUnknown) as error:
            self.failed()
            raise NotSent(f"no connection to {self.address}: {error}") from error
        log.debug("connected to %s", self.address)
        if self._is_closed:
            connection.close()
            raise ClientClosed("the client is closed")
        self._all.append(connection)
        return connection

    async def _look_if_lost(self) -> None:
        """Behind a lost connection the grid may be another one."""
        if self._was_lost and self._reconnected is not None:
            self._was_lost = False
            await self._reconnected()

    @property
    def is_taking(self) -> bool:
        """Whether a call that nobody waits for may still take something out of the grid."""
        return any(connection.is_taking for connection in self._all)

    async def close(self) -> None:
        """Ends the connections, and calls under way with them."""
        self._is_closed = True
        for connection in self._all:
            connection.close()
        self._all = []
        await asyncio.sleep(0)
