"""A connection to a member, on which many tasks have calls under way. Answers are told apart by their correlations."""

from __future__ import annotations

import asyncio
import itertools
import socket
from collections.abc import Sequence
from contextlib import suppress
from functools import partial
from time import monotonic
from typing import Final

from ..addresses import Address, Manner, probe
from ..connections import GRACE, Outcome, keep_taken
from ..errors import ConnectionLost, GridError, NotSent, OutcomeUnknown, ProtocolFault, WrongCluster
from ..version import compare
from ..wire import PREFIX, Answer, Inbox, Request, authentication, head_of, read_answer


class Connection(asyncio.Protocol):
    """A connection to a member that lives, on which the client has made itself known."""

    def __init__(self, address: Address, timeout: float) -> None:
        self._address = address
        self._timeout = timeout
        self._inbox = Inbox()
        self._correlations = itertools.count(1)
        self._waiting: dict[int, tuple[Request, asyncio.Future[Outcome]]] = {}
        self._transport: asyncio.Transport | None = None
        self._is_over = False
        self.is_fit = True

    @classmethod
    async def to(cls, address: Address, manner: Manner) -> Connection:
        """A connection that is ready for calls."""
        loop = asyncio.get_running_loop()
        async with asyncio.timeout(manner.timeout):
            _, connection = await loop.create_connection(partial(cls, address, manner.timeout), address.host, address.port)
        try:
            await connection._make_known(manner)
        except BaseException:
            connection.close()
            raise
        return connection

    async def _make_known(self, manner: Manner) -> None:
        assert self._transport is not None
        self._transport.get_extra_info("socket").setsockopt(socket.IPPROTO_TCP, socket.TCP_NODELAY, 1)
        self._transport.write(PREFIX)
        answer = await self.ask(authentication(manner.cluster, manner.client))
        if not answer.check_accepted():
            raise WrongCluster(f"{self._address} doesn't belong to the cluster '{manner.cluster}'")
        compare(answer.version(), str(self._address))
        await self.ask(probe())

    @property
    def calls(self) -> int:
        """How many calls are under way."""
        return len(self._waiting)

    async def ask(self, request: Request, patience: float | None = None) -> Answer:
        """The answer to a call. Raises `NotSent` where it can't have reached the member, and `OutcomeUnknown` where it may have."""
        (outcome,) = await self.ask_all((request,), patience)
        if isinstance(outcome, Answer):
            return outcome
        raise outcome

    async def ask_all(self, requests: Sequence[Request], patience: float | None = None) -> list[Outcome]:
        """What calls come to that are sent at once."""
        if not self.is_fit or self._transport is None:
            return [NotSent(f"the connection to {self._address} has ended") for _ in requests]
        begun = [self._begin(request) for request in requests]
        self._transport.write(b"".join(message for message, _ in begun))
        until = monotonic() + (self._timeout if patience is None else patience)
        return [await self._outcome(future, until - monotonic()) for _, future in begun]

    def _begin(self, request: Request) -> tuple[bytes, asyncio.Future[Outcome]]:
        correlation = next(self._correlations)
        message = request.spelled(correlation)
        future: asyncio.Future[Outcome] = asyncio.get_running_loop().create_future()
        self._waiting[correlation] = request, future
        return message, future

    async def _outcome(self, future: asyncio.Future[Outcome], patience: float) -> Outcome:
        """What comes of a call. One that isn't waited for any more stays under way, for what it takes out of the grid."""
        if future.done():
            return future.result()
        with suppress(TimeoutError):
            async with asyncio.timeout(patience):
                return await future
        self.is_fit = False
        asyncio.get_running_loop().call_later(GRACE, self._end_if_left)
        return OutcomeUnknown(f"{self._address} didn't answer in time")

    @property
    def is_taking(self) -> bool:
        """Whether a call that nobody waits for may still take something out of the grid."""
        return any(request.keeps and future.done() for request, future in self._waiting.values())

    def _end_if_left(self) -> None:
        """Closes a connection on which nobody waits for an answer any more."""
        if all(future.done() for _, future in self._waiting.values()):
            self._end(ConnectionLost(f"nobody waits for {self._address} any more"))

    # What the loop calls.

    def connection_made(self, transport: asyncio.BaseTransport) -> None:
        assert isinstance(transport, asyncio.Transport)
        self._transport = transport

    def data_received(self, data: bytes) -> None:
        try:
            self._inbox.pieces.append(data)
            self._inbox.handle(self._deliver)
        except ProtocolFault as error:
            self._end(error)

    def connection_lost(self, exc: Exception | None) -> None:
        why = f"broke before the answer: {exc}" if exc else "ended before the answer"
        self._end(ConnectionLost(f"the connection to {self._address} {why}"))

    def _deliver(self, message: bytes) -> None:
        head = head_of(message)
        correlation = head[3]
        if correlation not in self._waiting:
            raise ProtocolFault(f"{self._address} sent an answer to message {correlation}, which wasn't asked")
        request, future = self._waiting[correlation]
        answer = read_answer(message, head, request)
        del self._waiting[correlation]
        if not future.done():
            future.set_result(answer)
        else:
            request.came = answer
            keep_taken(request)
        if not self.is_fit and not self._waiting:
            self.close()

    def _end(self, error: GridError) -> None:
        """Ends the connection. Each call that waits comes to this."""
        self.is_fit = False
        waiting, self._waiting = self._waiting, {}
        for request, future in waiting.values():
            if not future.done():
                future.set_result(type(error)(*error.args))
            else:
                keep_taken(request)
        self.close()

    def close(self) -> None:
        self.is_fit = False
        if self._transport is not None and not self._is_over:
            self._is_over = True
            self._transport.abort() if self._waiting else self._transport.close()
