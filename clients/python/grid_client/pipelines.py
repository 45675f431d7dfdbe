"""Pipelines: calls that are made together."""

from __future__ import annotations

from collections.abc import Callable
from types import TracebackType
from typing import Any, Generic, TypeVar

from .batches import ask_everyone
from .calls import Call, MapCalls, Processor, QueueCalls
from .codecs import BYTES, TEXT, Codec
from .connections import keep_taken
from .leftovers import Leftovers
from .owners import thread_number
from .routing import Router
from .spans import Span, some_seconds

K = TypeVar("K")
V = TypeVar("V")
R = TypeVar("R")


Later = Call
"""What a call of a pipeline gives, later: its `result()`."""


class Calls:
    """Calls that are kept, to be made together."""

    def __init__(self, leftovers: Leftovers, owner: Callable[[], int]) -> None:
        self._leftovers = leftovers
        self._owner = owner
        self._calls: list[Later[Any]] = []

    def __len__(self) -> int:
        return len(self._calls)

    def map(self, name: str, *, keys: Codec[Any] = TEXT, values: Codec[Any] = BYTES) -> PipelinedMap[Any, Any]:
        """The map of that name. Its calls are made with the pipeline."""
        return PipelinedMap(self, MapCalls(name, keys, values, self._owner))

    def queue(self, name: str, *, values: Codec[Any] = BYTES, partition: int | None = None) -> PipelinedQueue[Any]:
        """The queue of that name. Its calls are made with the pipeline."""
        return PipelinedQueue(self, QueueCalls(name, values, partition, self._leftovers.keep))

    def later(self, call: Call[R]) -> Later[R]:
        """Makes this call with the others."""
        self._calls.append(call)
        return call

    def take(self) -> list[Later[Any]]:
        """The calls, which aren't kept any more."""
        calls, self._calls = self._calls, []
        return calls


class Pipeline(Calls):
    """Calls that are kept until `execute`, which makes them all: with one batch to each member, and so in a fraction of the time.

        with client.pipeline() as pipeline:
            stock = pipeline.map("stock", values=NUMBERS)
            left = [stock.add(name, -1) for name in ("pens", "ink")]
        print([one.result() for one in left])

    Each call has an outcome of its own, and none hangs on another one's. Those in one partition are executed in their order, but
    that one that is made again, since the partition moves, comes later. A pipeline belongs to one thread."""

    def __init__(self, router: Router) -> None:
        super().__init__(router.leftovers, thread_number)
        self._router = router

    def __enter__(self) -> Pipeline:
        return self

    def __exit__(self, kind: type[BaseException] | None, error: BaseException | None, trace: TracebackType | None) -> None:
        if kind is None:
            self._run(None)

    def execute(self, *, timeout: Span | None = None) -> list[Any]:
        """Makes the calls, and gives what they give, in their order. All are made; then what the first raised is raised, if any
        did: each `Later` says what became of its call. The pipeline is empty then."""
        return [call.result() for call in self._run(timeout)]

    def _run(self, timeout: Span | None) -> list[Later[Any]]:
        calls = self.take()
        wait = None if timeout is None else some_seconds(timeout, "a timeout")
        requests = [later.request for later in calls]
        try:
            outcomes = ask_everyone(self._router, requests, wait)
        except BaseException:
            for request in requests:
                keep_taken(request)
            raise
        for later, outcome in zip(calls, outcomes):
            later.outcome = outcome
        return calls


class PipelinedMap(Generic[K, V]):
    """A map in a pipeline. Its calls are those of `Map`."""

    def __init__(self, pipeline: Calls, calls: MapCalls[K, V]) -> None:
        self._later = pipeline.later
        self._calls = calls

    def get(self, key: K) -> Later[V | None]:
        return self._later(self._calls.get(key))

    def contains(self, key: K) -> Later[bool]:
        return self._later(self._calls.contains(key))

    def put(self, key: K, value: V, *, ttl: Span | None = None, max_idle: Span | None = None) -> Later[V | None]:
        return self._later(self._calls.put(key, value, ttl, max_idle))

    def set(self, key: K, value: V, *, ttl: Span | None = None, max_idle: Span | None = None) -> Later[None]:
        return self._later(self._calls.set(key, value, ttl, max_idle))

    def put_if_absent(self, key: K, value: V, *, ttl: Span | None = None) -> Later[V | None]:
        return self._later(self._calls.put_if_absent(key, value, ttl))

    def remove(self, key: K) -> Later[V | None]:
        return self._later(self._calls.remove(key))

    def delete(self, key: K) -> Later[None]:
        return self._later(self._calls.delete(key))

    def replace(self, key: K, value: V) -> Later[V | None]:
        return self._later(self._calls.replace(key, value))

    def replace_if_same(self, key: K, expected: V, value: V) -> Later[bool]:
        return self._later(self._calls.replace_if_same(key, expected, value))

    def remove_if_same(self, key: K, expected: V) -> Later[bool]:
        return self._later(self._calls.remove_if_same(key, expected))

    def execute(self, key: K, processor: int, argument: bytes = b"") -> Later[bytes | None]:
        return self._later(self._calls.execute(key, processor, argument))

    def add(self, key: K, amount: int) -> Later[int | None]:
        return self._later(self._calls.counted(key, Processor.ADD, amount))

    def add_up_to_limit(self, key: K, amount: int) -> Later[int | None]:
        return self._later(self._calls.counted(key, Processor.ADD_UP_TO_LIMIT, amount))

    def set_if_greater(self, key: K, number: int) -> Later[int | None]:
        return self._later(self._calls.counted(key, Processor.SET_IF_GREATER, number))

    def append(self, key: K, more: bytes) -> Later[bytes | None]:
        return self._later(self._calls.execute(key, Processor.APPEND, more))


class PipelinedQueue(Generic[V]):
    """A queue in a pipeline. Its calls are those of `Queue`, without waiting."""

    def __init__(self, pipeline: Calls, calls: QueueCalls[V]) -> None:
        self._later = pipeline.later
        self._calls = calls

    def offer(self, item: V) -> Later[bool]:
        return self._later(self._calls.offer(item))

    def poll(self) -> Later[V | None]:
        return self._later(self._calls.poll())

    def peek(self) -> Later[V | None]:
        return self._later(self._calls.peek())

    def size(self) -> Later[int]:
        return self._later(self._calls.size())

    def remaining_capacity(self) -> Later[int]:
        return self._later(self._calls.remaining_capacity())

    def clear(self) -> Later[None]:
        return self._later(self._calls.clear())
