"""Queues of a grid."""

from __future__ import annotations

import time
from typing import Final, Generic, TypeVar

from .calls import Call, QueueCalls
from .connections import keep_taken
from .errors import GridError
from .routing import Router
from .spans import Deadline, Span, growing_pauses, some_seconds
from .wire import Answer

V = TypeVar("V")
R = TypeVar("R")


class Queue(Generic[V]):
    """A queue, first in and first out, which keeps up to the capacity with which the server was started.

    A call may raise what `grid_client.errors` has. Behind an `OutcomeUnknown` of `poll` the item may be gone, and behind one of
    `offer` it may be there. With `timeout` a call takes no longer, all in all; where it waits, that holds for each attempt."""

    def __init__(self, router: Router, calls: QueueCalls[V]) -> None:
        self.name: Final = calls.name
        self.partition: Final = calls.partition
        self._router = router
        self._calls = calls

    def __repr__(self) -> str:
        return f"Queue({self.name!r}, partition={self.partition})"

    def offer(self, item: V, *, wait: Span | None = None, timeout: Span | None = None) -> bool:
        """Puts an item at the back. Whether there was room, or came to be within `wait` seconds."""
        deadline = Deadline(wait or 0)
        pauses = growing_pauses()
        call = self._calls.offer(item)
        while not (had_room := self._made(call, timeout)):
            pause = deadline.pause(next(pauses))
            if pause is None:
                break
            time.sleep(pause)
        return had_room

    def poll(self, *, wait: Span | None = None, timeout: Span | None = None) -> V | None:
        """Takes the item at the front, or None where none is there, nor comes within `wait` seconds.

        Where the caller is interrupted, as by control-C, and the item was taken already, it is kept: the next poll of this client
        gives it, and `close` puts it back, at the end of the queue. That is logged."""
        deadline = Deadline(wait or 0)
        pauses = growing_pauses()
        while (item := self._poll_once(timeout)) is None:
            pause = deadline.pause(next(pauses))
            if pause is None:
                return None
            time.sleep(pause)
        return item

    def _poll_once(self, timeout: Span | None) -> V | None:
        call = self._calls.poll()
        kept: list[bytes] = []
        try:
            if self._router.leftovers.take(self.name, self.partition, kept):
                call.request.came = Answer(b"", kept)
                item = call.read(call.request.came)
            else:
                item = self._made(call, timeout)
            call.request.keeps = None  # the item is the caller's
        except GridError:
            raise
        except BaseException:
            keep_taken(call.request)
            raise
        return item

    def peek(self, *, timeout: Span | None = None) -> V | None:
        """The item at the front, which stays there, or None."""
        return self._made(self._calls.peek(), timeout)

    def size(self, *, timeout: Span | None = None) -> int:
        """How many items there are."""
        return self._made(self._calls.size(), timeout)

    def __len__(self) -> int:
        return self.size()

    def __bool__(self) -> bool:
        """A queue is true, also an empty one: a test of the object makes no call."""
        return True

    def remaining_capacity(self, *, timeout: Span | None = None) -> int:
        """How many more items there is room for."""
        return self._made(self._calls.remaining_capacity(), timeout)

    def clear(self, *, timeout: Span | None = None) -> None:
        """Takes all items away."""
        self._made(self._calls.clear(), timeout)

    def _made(self, call: Call[R], timeout: Span | None) -> R:
        wait = None if timeout is None else some_seconds(timeout, "a timeout")
        return call.read(self._router.call(call.request, wait))
