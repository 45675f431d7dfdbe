"""A client of a grid."""

from __future__ import annotations

from collections.abc import Iterable
from contextlib import suppress
from types import TracebackType
from typing import Any, Final, TypeVar, overload

from .addresses import Address, Manner, new_number, probe
from .calls import MapCalls, QueueCalls, offer_of
from .codecs import BYTES, TEXT, Codec
from .errors import GridError, NotSent, OutcomeUnknown
from .logs import log
from .maps import Map
from .members import Member
from .owners import thread_number
from .pipelines import Pipeline
from .queues import Queue
from .restarts import Marks
from .routing import Router
from .spans import Span, some_seconds

K = TypeVar("K")
V = TypeVar("V")

FIRST_PORT: Final = 5701


def local_addresses(members: int, port: int) -> list[tuple[str, int]]:
    """Those of `grid serve --members MEMBERS --port PORT` on this machine."""
    return [("127.0.0.1", port + member) for member in range(members)]


def manner_of(cluster: str, number: int | None, timeout: Span, connections: int) -> Manner:
    """How members are called, once it is seen that they can be called so."""
    if number is not None and not 0 <= number < 2**128:
        raise ValueError(f"the number {number} of a client: it has 128 bits")
    if connections < 1:
        raise ValueError(f"{connections} connections to a member: one is needed at least")
    return Manner(cluster, new_number() if number is None else number, some_seconds(timeout, "a timeout"), connections)


def addresses_of(members: Iterable[str | tuple[str, int]]) -> list[Address]:
    if isinstance(members, str):
        raise TypeError(f"a client takes a list of addresses, and '{members}' is one alone")
    addresses = [Address.of(member) for member in members]
    if not addresses:
        raise ValueError("a client needs the address of one member at least")
    return addresses


class GridClient:
    """A client of the grid whose members listen at these addresses, each a "HOST:PORT" or a pair of both:

        with GridClient(["127.0.0.1:5701", "127.0.0.1:5702", "127.0.0.1:5703"]) as client:
            carts = client.map("carts")

    Many threads may use it at once: it keeps up to `connections` connections to each member, one for each call that is under way,
    and beyond that calls share them. `timeout` is how long an answer is waited for, in seconds, and a connection. `retry_for` is
    how long a call is made again that no member takes. `number` is who the client is where it locks keys; without one it is drawn
    at random. With `repeat_reads` a call that only reads is made again, of this member or another one, where its answer didn't
    come. No other call is sent again once it may have been executed. With `tell_restarts` a call raises `GridRestarted`, once,
    where the grid came back empty.

    A copy of the process, as `os.fork` makes it, has a client of its own in it: with connections of its own and another number,
    whatever number was given.

    Raises `NotSent` where no member can be reached, and `WrongCluster` where they don't belong to `cluster`."""

    def __init__(
        self,
        members: Iterable[str | tuple[str, int]],
        *,
        cluster: str = "dev",
        timeout: Span = 10.0,
        retry_for: Span = 10.0,
        number: int | None = None,
        repeat_reads: bool = False,
        tell_restarts: bool = False,
        connections: int = 16,
    ) -> None:
        addresses = addresses_of(members)
        self._manner = manner_of(cluster, number, timeout, connections)
        self._marks = Marks() if tell_restarts else None
        look = self._look_at_marks if tell_restarts else None
        self._members = [Member(address, self._manner, look) for address in addresses]
        until = some_seconds(retry_for, "a time of retries")
        self._router = Router(self._members, self._manner, until, repeat_reads=repeat_reads)
        self._reach_one()
        if look is not None:
            look()

    @classmethod
    def local(cls, members: int = 3, port: int = FIRST_PORT, **options: Any) -> GridClient:
        """A client of `grid serve --members MEMBERS --port PORT` on this machine, with the options of any client."""
        return cls(local_addresses(members, port), **options)

    @property
    def number(self) -> int:
        """Who the client is where it locks keys. It is another one in a copy of the process."""
        return self._manner.client

    def __enter__(self) -> GridClient:
        return self

    def __exit__(self, kind: type[BaseException] | None, error: BaseException | None, trace: TracebackType | None) -> None:
        self.close()

    def close(self) -> None:
        """Closes the connections. A call that another thread has under way there raises `OutcomeUnknown`, and each later one
        `ClientClosed`. Items that interrupted polls took are put back into their queues before."""
        self._put_back()
        for member in self._members:
            member.close()

    @overload
    def map(self, name: str) -> Map[str, bytes]: ...

    @overload
    def map(self, name: str, *, keys: Codec[K]) -> Map[K, bytes]: ...

    @overload
    def map(self, name: str, *, values: Codec[V]) -> Map[str, V]: ...

    @overload
    def map(self, name: str, *, keys: Codec[K], values: Codec[V]) -> Map[K, V]: ...

    def map(self, name: str, *, keys: Codec[Any] = TEXT, values: Codec[Any] = BYTES) -> Map[Any, Any]:
        """The map of that name. Its keys are texts and its values bytes, where no codecs are given."""
        return Map(self._router, MapCalls(name, keys, values, thread_number))

    @overload
    def queue(self, name: str, *, partition: int | None = None) -> Queue[bytes]: ...

    @overload
    def queue(self, name: str, *, values: Codec[V], partition: int | None = None) -> Queue[V]: ...

    def queue(self, name: str, *, values: Codec[Any] = BYTES, partition: int | None = None) -> Queue[Any]:
        """The queue of that name. Its items are bytes, where no codec is given. All of it is in one partition, which its name
        determines where none is given."""
        return Queue(self._router, QueueCalls(name, values, partition, self._router.leftovers.keep))

    def pipeline(self) -> Pipeline:
        """Calls that are made together."""
        return Pipeline(self._router)

    def ping(self) -> dict[str, bool]:
        """Whether each member answers calls, by its address."""
        return {str(member.address): self._answers(member) for member in self._members}

    def _answers(self, member: Member) -> bool:
        with suppress(GridError):
            member.ask(probe())
            return True
        return False

    def _reach_one(self) -> None:
        """Connects to the first member that can be reached. `NotSent` where none can."""
        failures: list[GridError] = []
        try:
            for member in self._members:
                try:
                    member.ask(probe())
                    return
                except (NotSent, OutcomeUnknown) as error:
                    failures.append(error)
            raise NotSent("; ".join(map(str, failures))) from failures[0]
        except BaseException:
            self.close()
            raise

    def _look_at_marks(self) -> None:
        if self._marks is not None:
            self._marks.look(self._router.call)

    def _put_back(self) -> None:
        """Puts items back that are kept here alone."""
        for name, partition, data in self._router.leftovers.take_all():
            call = offer_of(name, partition, data)
            try:
                is_back = call.read(self._router.call(call.request))
            except GridError as error:
                log.error("the item %r isn't put back into the queue '%s': %s", data, name, error)
            else:
                if not is_back:
                    log.error("the item %r isn't put back into the queue '%s', which is full", data, name)
