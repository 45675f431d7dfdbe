"""Maps of a grid."""

from __future__ import annotations

import time
from collections.abc import Iterable, Iterator, Mapping
from contextlib import contextmanager, suppress
from typing import Final, Generic, TypeVar, overload

from .batches import ask_everyone
from .calls import Call, MapCalls, Processor
from .errors import GridError, LeaseEnded, LockTimeout, NotOwner, OutcomeUnknown
from .routing import Router
from .spans import Deadline, Span, growing_pauses, some_seconds

K = TypeVar("K")
V = TypeVar("V")
D = TypeVar("D")
R = TypeVar("R")


class Map(Generic[K, V]):
    """A map. It has the habits of a `dict` (`m[k]`, `m[k] = v`, `del m[k]`, `k in m`) and the calls of the grid beside them. It
    can't tell its length or its keys, since the grid has no calls for them.

    Spans are seconds, or a `timedelta`, and None is without an end. With `timeout` a call takes no longer, all in all; without one
    the client's times hold. Each call may raise what `grid_client.errors` has: a write `KeyLocked` where another owner has locked
    the key. An owner is a thread of a client."""

    def __init__(self, router: Router, calls: MapCalls[K, V]) -> None:
        self.name: Final = calls.name
        self._router = router
        self._calls = calls

    def __repr__(self) -> str:
        return f"Map({self.name!r})"

    # As a dict.

    def __getitem__(self, key: K) -> V:
        value = self._made(self._calls.get(key), None)
        if value is None:
            raise KeyError(key)
        return value

    def __setitem__(self, key: K, value: V) -> None:
        self.set(key, value)

    def __delitem__(self, key: K) -> None:
        if self.remove(key) is None:
            raise KeyError(key)

    def __contains__(self, key: K) -> bool:
        return self.contains(key)

    # a `for` over a map would else ask for the keys 0, 1 and so on
    __iter__ = None

    # Reads and writes.

    @overload
    def get(self, key: K, *, timeout: Span | None = None) -> V | None: ...

    @overload
    def get(self, key: K, default: D, *, timeout: Span | None = None) -> V | D: ...

    def get(self, key: K, default: D | None = None, *, timeout: Span | None = None) -> V | D | None:
        """The value, or the default where there is none."""
        value = self._made(self._calls.get(key), timeout)
        return default if value is None else value

    def contains(self, key: K, *, timeout: Span | None = None) -> bool:
        """Whether there is a value."""
        return self._made(self._calls.contains(key), timeout)

    def put(
        self, key: K, value: V, *, ttl: Span | None = None, max_idle: Span | None = None, timeout: Span | None = None
    ) -> V | None:
        """Stores a value, and gives the one that was there, or None. It ends `ttl` seconds from now, and once it wasn't used for
        `max_idle` seconds."""
        return self._made(self._calls.put(key, value, ttl, max_idle), timeout)

    def set(
        self, key: K, value: V, *, ttl: Span | None = None, max_idle: Span | None = None, timeout: Span | None = None
    ) -> None:
        """Stores a value, as `put` does, and gives nothing."""
        self._made(self._calls.set(key, value, ttl, max_idle), timeout)

    def put_if_absent(self, key: K, value: V, *, ttl: Span | None = None, timeout: Span | None = None) -> V | None:
        """Stores a value where none is there, and gives None; else gives the one that is there."""
        return self._made(self._calls.put_if_absent(key, value, ttl), timeout)

    def remove(self, key: K, *, timeout: Span | None = None) -> V | None:
        """Takes the value away, and gives it, or None."""
        return self._made(self._calls.remove(key), timeout)

    def delete(self, key: K, *, timeout: Span | None = None) -> None:
        """Takes the value away, where there is one."""
        self._made(self._calls.delete(key), timeout)

    def replace(self, key: K, value: V, *, timeout: Span | None = None) -> V | None:
        """Stores a value where one is there, which it gives, and whose ends stay; else changes nothing, and gives None."""
        return self._made(self._calls.replace(key, value), timeout)

    def replace_if_same(self, key: K, expected: V, value: V, *, timeout: Span | None = None) -> bool:
        """Stores a value where the expected one is there, to the byte. Whether it was."""
        return self._made(self._calls.replace_if_same(key, expected, value), timeout)

    def remove_if_same(self, key: K, expected: V, *, timeout: Span | None = None) -> bool:
        """Takes the value away where it is the expected one, to the byte. Whether it was."""
        return self._made(self._calls.remove_if_same(key, expected), timeout)

    # Many at once.

    def get_all(self, keys: Iterable[K], *, timeout: Span | None = None) -> dict[K, V]:
        """The values of those keys that have one, by one batch to each member."""
        wanted = list(keys)
        values = self._made_together([self._calls.get(key) for key in wanted], timeout)
        return {key: value for key, value in zip(wanted, values) if value is not None}

    def put_all(
        self, values: Mapping[K, V], *, ttl: Span | None = None, max_idle: Span | None = None, timeout: Span | None = None
    ) -> None:
        """Stores all these values, by one batch to each member. Each is stored for itself: where one isn't, others may be. It
        raises `OutcomeUnknown` where it isn't known of one, and else why the first one wasn't."""
        self._made_together([self._calls.set(key, value, ttl, max_idle) for key, value in values.items()], timeout)

    # Processors.

    def execute(self, key: K, processor: int, argument: bytes = b"", *, timeout: Span | None = None) -> bytes | None:
        """Has the processor of that number work on the value, where it is, and gives what it answers, as bytes."""
        return self._made(self._calls.execute(key, processor, argument), timeout)

    def add(self: Map[K, int], key: K, amount: int, *, timeout: Span | None = None) -> int | None:
        """Adds to a number, where none counts as 0, and gives the sum. None, and no change, where it has more than 64 bits."""
        return self._made(self._calls.counted(key, Processor.ADD, amount), timeout)

    def add_up_to_limit(self: Map[K, int], key: K, amount: int, *, timeout: Span | None = None) -> int | None:
        """Adds to a number unless the sum is more than 1,000, and gives the sum. None, and no change, where it is."""
        return self._made(self._calls.counted(key, Processor.ADD_UP_TO_LIMIT, amount), timeout)

    def set_if_greater(self: Map[K, int], key: K, number: int, *, timeout: Span | None = None) -> int | None:
        """Stores a number where none is there, or a lesser one, and gives the one that is there then."""
        return self._made(self._calls.counted(key, Processor.SET_IF_GREATER, number), timeout)

    def append(self: Map[K, bytes], key: K, more: bytes, *, timeout: Span | None = None) -> bytes | None:
        """Appends bytes to the value, where none counts as no bytes, and gives the whole. None, and no change, where it has more
        than 1,000,000 bytes."""
        return self._made(self._calls.execute(key, Processor.APPEND, more), timeout)

    # Locks.

    def try_lock(self, key: K, *, lease: Span | None = None, timeout: Span | None = None) -> bool:
        """Takes the key's lock for this thread, if no other owner has it. Whether it has it now. It ends with the lease, or as it
        is given back as often as it was taken."""
        return self._made(self._calls.try_lock(key, lease), timeout)

    def is_locked(self, key: K, *, timeout: Span | None = None) -> bool:
        """Whether anyone has the key's lock."""
        return self._made(self._calls.is_locked(key), timeout)

    def unlock(self, key: K, *, timeout: Span | None = None) -> None:
        """Gives the lock back. `NotOwner` where this thread hasn't got it, or not any more."""
        self._made(self._calls.unlock(key), timeout)

    def force_unlock(self, key: K, *, timeout: Span | None = None) -> None:
        """Takes the key's lock away, whoever has it."""
        self._made(self._calls.force_unlock(key), timeout)

    @contextmanager
    def lock(self, key: K, *, lease: Span | None = None, wait: Span | None = None) -> Iterator[None]:
        """Has the key's lock for a block: `with m.lock("k", lease=10): ...`

        Waits `wait` seconds until others give it back, or the client's `retry_for`, and raises `LockTimeout` behind that. With
        a lease the lock ends by itself where this program does. Where it ended before the block did, `LeaseEnded` is raised at
        the block's end: another owner may have written meanwhile. A copy of the process that a block makes hasn't the lock, and
        doesn't give it back."""
        self._take(key, lease, wait)
        holder = self._router.manner.client
        try:
            yield
        except BaseException:
            with suppress(GridError):
                self._give_back(key, holder)
            raise
        self._give_back(key, holder)

    def _take(self, key: K, lease: Span | None, wait: Span | None) -> None:
        deadline = Deadline(self._router.retry_for if wait is None else wait)
        pauses = growing_pauses()
        while not self.try_lock(key, lease=lease):
            pause = deadline.pause(next(pauses))
            if pause is None:
                raise LockTimeout(f"another owner kept the lock of {key!r} in '{self.name}'")
            time.sleep(pause)

    def _give_back(self, key: K, holder: int) -> None:
        if holder != self._router.manner.client:
            return
        try:
            self.unlock(key)
        except NotOwner as error:
            raise LeaseEnded(error.number, error.details) from error

    # What calls share.

    def _made(self, call: Call[R], timeout: Span | None) -> R:
        if timeout is None:
            return call.read(self._router.call(call.request))
        return call.read(self._router.call(call.request, some_seconds(timeout, "a timeout")))

    def _made_together(self, calls: list[Call[R]], timeout: Span | None) -> list[R]:
        wait = None if timeout is None else some_seconds(timeout, "a timeout")
        outcomes = ask_everyone(self._router, [call.request for call in calls], wait)
        failures = [outcome for outcome in outcomes if isinstance(outcome, GridError)]
        for failure in sorted(failures, key=lambda it: not isinstance(it, OutcomeUnknown)):
            failure.add_note(f"{len(failures)} of {len(calls)} calls failed, which were made together")
            raise failure
        return [call.read(outcome) for call, outcome in zip(calls, outcomes) if not isinstance(outcome, GridError)]
