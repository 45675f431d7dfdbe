"""The members of a grid, each with the connections that the client keeps to it."""

from __future__ import annotations

import threading
from collections.abc import Callable
from time import monotonic
from typing import Final

from .addresses import Address, Manner
from .connections import Connection
from .errors import ClientClosed, ConnectionLost, GridError, NotSent, OutcomeUnknown
from .logs import log
from .wire import Answer, Request

# How many seconds a member is left alone that couldn't be reached, or whose connection ended in place of an answer.
LEFT_ALONE: Final = 1.0


class Health:
    """Whether a member answered last."""

    def __init__(self, address: Address) -> None:
        self.address: Final = address
        self._failed_at: float | None = None

    @property
    def is_doubtful(self) -> bool:
        """Whether it was last seen not to answer: it may have crashed."""
        return self._failed_at is not None

    @property
    def is_left_alone(self) -> bool:
        """Whether that was a moment ago."""
        return self._failed_at is not None and monotonic() < self._failed_at + LEFT_ALONE

    def answered(self) -> None:
        self._failed_at = None

    def failed(self) -> None:
        self._failed_at = monotonic()


class Member(Health):
    """A member. Connections to it are opened as they are needed, and again once they were lost. Many threads may call it: a call
    has a connection to itself, up to the most that a client has, and from then on calls share them."""

    def __init__(self, address: Address, manner: Manner, reconnected: Callable[[], None] | None = None) -> None:
        super().__init__(address)
        self._manner = manner
        self._reconnected = reconnected
        self._was_lost = False
        self._is_closed = False
        self.renew()

    def renew(self) -> None:
        """Has no connection from now on."""
        self._turn = threading.Lock()
        self._idle: list[Connection] = []
        self._all: list[Connection] = []
        self._opening = 0
        self._failed_at = None

    def leave(self) -> None:
        """Leaves the connections to the process that this one is a copy of."""
        for connection in self._all:
            connection.close()
        self.renew()

    def ask(self, request: Request, patience: float | None = None) -> Answer:
        """The member's answer, which is waited for as long as `patience` says, or the client's timeout. Raises `NotSent` where the
        call can't have reached the member, and `OutcomeUnknown` where it may have."""
        connection = self.take()
        try:
            answer = connection.ask(request, patience)
            self._failed_at = None
            return answer
        except ConnectionLost:
            self.failed()
            raise
        finally:
            self.give(connection)

    def failed(self) -> None:
        """A connection ended in place of an answer, or none was opened. Others that stand idle may have ended too: a call isn't
        lost on them."""
        super().failed()
        self._end_idle()

    def close(self) -> None:
        """Ends the connections, and calls under way with them."""
        self._is_closed = True
        self._end_idle()
        for connection in list(self._all):
            connection.wake()

    def _end_idle(self) -> None:
        with self._turn:
            idle, self._idle = self._idle, []
            self._all = [connection for connection in self._all if connection not in idle]
        for connection in idle:
            connection.close()

    def take(self) -> Connection:
        """A connection, which is to be given back."""
        while True:
            with self._turn:
                connection = self._idle.pop() if self._idle else None
                if connection is not None:
                    connection.callers = 1
            if connection is None:
                return self._shared() or self._opened()
            if not connection.is_over():
                return connection
            connection.is_fit = False
            self.give(connection)

    def _shared(self) -> Connection | None:
        """A connection that others use too, where there are as many as a client has. None where one is to be opened."""
        with self._turn:
            if self._is_closed:
                raise ClientClosed("the client is closed")
            fit = [connection for connection in self._all if connection.is_fit]
            if not fit or len(self._all) + self._opening < self._manner.connections:
                self._opening += 1
                return None
            connection = min(fit, key=lambda it: it.callers)
            connection.callers += 1
            return connection

    def _opened(self) -> Connection:
        """A new connection. The place for it was counted."""
        connection = None
        try:
            connection = Connection(self.address, self._manner)
            log.debug("connected to %s", self.address)
        except (OSError, NotSent, OutcomeUnknown) as error:
            self.failed()
            raise NotSent(f"no connection to {self.address}: {error}") from error
        finally:
            with self._turn:
                self._opening -= 1
                if connection is not None:
                    self._all.append(connection)
        self._was_opened(connection)
        return connection

    def _was_opened(self, connection: Connection) -> None:
        """Behind a lost connection the grid may be another one."""
        was_lost, self._was_lost = self._was_lost, False
        try:
            if self._is_closed:
                raise ClientClosed("the client is closed")
            if was_lost and self._reconnected is not None:
                self._reconnected()
        except GridError:
            self.give(connection)
            raise

    def give(self, connection: Connection) -> None:
        """Gives a connection back."""
        with self._turn:
            connection.callers -= 1
            if connection.callers:
                return
            if connection.is_fit and not self._is_closed:
                self._idle.append(connection)
                return
            if connection in self._all:
                self._all.remove(connection)
            self._was_lost = True
        connection.close()
        if not self._is_closed:
            log.warning("lost a connection to %s", self.address)
