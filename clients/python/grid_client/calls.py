"""What each call on a map or a queue sends, and what its answer means. Threads, tasks of asyncio and pipelines make the same
calls, each in its own way."""

from __future__ import annotations

import struct
from collections.abc import Callable
from enum import IntEnum
from functools import partial
from typing import Final, Generic, TypeVar

from .codecs import LEAST_NUMBER, MOST_NUMBER, NUMBERS, TEXT, Codec, shortly
from .errors import GridError
from .partitions import PARTITIONS, partition_of
from .spans import Span, milliseconds
from .wire import Answer, Kind, Request, numbers

K = TypeVar("K")
V = TypeVar("V")
D = TypeVar("D")
R = TypeVar("R")


class Processor(IntEnum):
    """The processors of `grid serve`, by their numbers."""

    ADD = 1
    ADD_UP_TO_LIMIT = 2
    APPEND = 3
    SET_IF_GREATER = 4
    CLEAR = 5


def number_argument(number: int) -> bytes:
    """A number as the argument of a processor."""
    if not isinstance(number, int) or isinstance(number, bool):
        raise TypeError(f"a processor counts with whole numbers, and {shortly(number)} is of type {type(number).__name__}")
    if not LEAST_NUMBER <= number <= MOST_NUMBER:
        raise ValueError(f"{number} has more than 64 bits")
    return struct.pack("<q", number)


class Call(Generic[R]):
    """A call that may be made: what it sends, how its answer is read, and, of a pipeline, what it came to."""

    __slots__ = ("outcome", "read", "request")

    def __init__(self, request: Request, read: Callable[[Answer], R]) -> None:
        self.request = request
        self.read = read
        self.outcome: Answer | GridError | None = None

    def result(self) -> R:
        """What a call of a pipeline gives, once the pipeline was executed. It raises what the call raises, and a `RuntimeError`
        before it was made."""
        outcome = self.outcome
        if isinstance(outcome, Answer):
            return self.read(outcome)
        if outcome is None:
            raise RuntimeError("the pipeline wasn't executed yet")
        raise outcome


def refused(error: Exception, what: str) -> Exception:
    """Why a codec doesn't carry a key or a value, with where it was to stand."""
    return TypeError(f"{what}: {error}") if isinstance(error, TypeError) else ValueError(f"{what}: {error}")


class MapCalls(Generic[K, V]):
    """The calls on a map. `owner` tells the number of the caller, who owns locks."""

    def __init__(self, name: str, keys: Codec[K], values: Codec[V], owner: Callable[[], int]) -> None:
        self.name: Final = name
        self.keys: Final = keys
        self.values: Final = values
        self._owner = owner
        self._named = name.encode()

    # Reads and writes.

    def get(self, key: K) -> Call[V | None]:
        return Call(self._request(Kind.GET, key), self._read_value)

    def get_or(self, key: K, default: D) -> Call[V | D]:
        return Call(self._request(Kind.GET, key), lambda answer: self._read_or(default, answer))

    def contains(self, key: K) -> Call[bool]:
        return Call(self._request(Kind.CONTAINS_KEY, key), Answer.flag)

    def put(self, key: K, value: V, ttl: Span | None, max_idle: Span | None) -> Call[V | None]:
        kind, fields = _ending(Kind.PUT, Kind.PUT_MAX_IDLE, ttl, max_idle)
        return Call(self._request(kind, key, self._bytes(key, value), fields=fields), self._read_value)

    def set(self, key: K, value: V, ttl: Span | None, max_idle: Span | None) -> Call[None]:
        kind, fields = _ending(Kind.SET, Kind.SET_MAX_IDLE, ttl, max_idle)
        return Call(self._request(kind, key, self._bytes(key, value), fields=fields), Answer.nothing)

    def put_if_absent(self, key: K, value: V, ttl: Span | None) -> Call[V | None]:
        fields = (milliseconds(ttl, "a time to live"),)
        return Call(self._request(Kind.PUT_IF_ABSENT, key, self._bytes(key, value), fields=fields), self._read_value)

    def remove(self, key: K) -> Call[V | None]:
        return Call(self._request(Kind.REMOVE, key), self._read_value)

    def delete(self, key: K) -> Call[None]:
        return Call(self._request(Kind.DELETE, key), Answer.nothing)

    def replace(self, key: K, value: V) -> Call[V | None]:
        return Call(self._request(Kind.REPLACE, key, self._bytes(key, value)), self._read_value)

    def replace_if_same(self, key: K, expected: V, value: V) -> Call[bool]:
        return Call(self._request(Kind.REPLACE_IF_SAME, key, self._bytes(key, expected), self._bytes(key, value)), Answer.flag)

    def remove_if_same(self, key: K, expected: V) -> Call[bool]:
        return Call(self._request(Kind.REMOVE_IF_SAME, key, self._bytes(key, expected)), Answer.flag)

    # Processors.

    def execute(self, key: K, processor: int, argument: bytes) -> Call[bytes | None]:
        return Call(self._processed(key, processor, argument), Answer.value)

    def counted(self, key: K, processor: Processor, number: int) -> Call[int | None]:
        """A processor of numbers."""
        return Call(self._processed(key, processor, number_argument(number)), _read_number)

    def _processed(self, key: K, processor: int, argument: bytes) -> Request:
        spelled, partition = self._placed(key)
        frames = (self._named, struct.pack("<i", processor) + argument, spelled)
        return Request(Kind.EXECUTE_ON_KEY, partition, numbers(self._owner()), frames)

    # Locks.

    def try_lock(self, key: K, lease: Span | None) -> Call[bool]:
        return Call(self._request(Kind.TRY_LOCK, key, fields=(milliseconds(lease, "a lease"),)), Answer.flag)

    def unlock(self, key: K) -> Call[None]:
        return Call(self._request(Kind.UNLOCK, key), Answer.nothing)

    def is_locked(self, key: K) -> Call[bool]:
        return Call(self._of_nobody(Kind.IS_LOCKED, key), Answer.flag)

    def force_unlock(self, key: K) -> Call[None]:
        return Call(self._of_nobody(Kind.FORCE_UNLOCK, key), Answer.nothing)

    # What calls share.

    def _placed(self, key: K) -> tuple[bytes, int]:
        """The bytes of a key, and its partition."""
        try:
            return self.keys.place_key(key)
        except (TypeError, ValueError) as error:
            raise refused(error, f"the key {shortly(key)} of the map '{self.name}'") from error

    def _bytes(self, key: K, value: V) -> bytes:
        try:
            return self.values.to_value(value)
        except (TypeError, ValueError) as error:
            raise refused(error, f"the value under {shortly(key)} in the map '{self.name}'") from error

    def _request(self, kind: Kind, key: K, *frames: bytes, fields: tuple[int, ...] = ()) -> Request:
        spelled, partition = self._placed(key)
        return Request(kind, partition, numbers(self._owner(), *fields), (self._named, spelled, *frames))

    def _of_nobody(self, kind: Kind, key: K) -> Request:
        spelled, partition = self._placed(key)
        return Request(kind, partition, b"", (self._named, spelled))

    def _read_value(self, answer: Answer) -> V | None:
        data = answer.value()
        return None if data is None else self.values.from_value(data)

    def _read_or(self, default: D, answer: Answer) -> V | D:
        data = answer.value()
        return default if data is None else self.values.from_value(data)


def _ending(plain: Kind, idling: Kind, ttl: Span | None, max_idle: Span | None) -> tuple[Kind, tuple[int, ...]]:
    """The call that stores a value with these ends, and its fields for them."""
    life = milliseconds(ttl, "a time to live")
    return (plain, (life,)) if max_idle is None else (idling, (life, milliseconds(max_idle, "a max idle")))


def _read_number(answer: Answer) -> int | None:
    data = answer.value()
    return None if data is None else NUMBERS.from_value(data)


def home_of(name: str) -> int:
    """The partition of a queue of that name, where none is chosen: that of its name as a key."""
    return partition_of(TEXT.to_key(name))


class QueueCalls(Generic[V]):
    """The calls on a queue. `keeps` is given an item whose poll was interrupted."""

    def __init__(self, name: str, values: Codec[V], partition: int | None, keeps: Callable[[str, int, bytes], None]) -> None:
        self.name: Final = name
        self.values: Final = values
        self.partition: Final = home_of(name) if partition is None else partition
        if not 0 <= self.partition < PARTITIONS:
            raise ValueError(f"partition {partition}: they go from 0 to {PARTITIONS - 1}")
        self._named = name.encode()
        self._keeps = partial(keeps, name, self.partition)

    def offer(self, item: V) -> Call[bool]:
        try:
            data = self.values.to_value(item)
        except (TypeError, ValueError) as error:
            raise refused(error, f"an item of the queue '{self.name}'") from error
        return Call(self._request(Kind.OFFER, data), Answer.flag)

    def poll(self) -> Call[V | None]:
        request = self._request(Kind.POLL)
        request.keeps = self._keeps
        return Call(request, self._read_item)

    def peek(self) -> Call[V | None]:
        return Call(self._request(Kind.PEEK), self._read_item)

    def size(self) -> Call[int]:
        return Call(self._request(Kind.SIZE), Answer.number)

    def remaining_capacity(self) -> Call[int]:
        return Call(self._request(Kind.REMAINING_CAPACITY), Answer.number)

    def clear(self) -> Call[None]:
        return Call(self._request(Kind.CLEAR), Answer.nothing)

    def _request(self, kind: Kind, *frames: bytes) -> Request:
        return Request(kind, self.partition, b"", (self._named, *frames))

    def _read_item(self, answer: Answer) -> V | None:
        data = answer.value()
        return None if data is None else self.values.from_value(data)


def offer_of(name: str, partition: int, data: bytes) -> Call[bool]:
    """Puts an item at the back of a queue, given as its bytes."""
    return Call(Request(Kind.OFFER, partition, b"", (name.encode(), data)), Answer.flag)
