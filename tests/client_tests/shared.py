"""What the tests of the client share."""

from __future__ import annotations

import threading
from collections.abc import Callable, Iterator
from contextlib import contextmanager
from typing import Generic, ParamSpec, TypeVar

from grid_client import GridClient
from serving.checks import Checks
from serving.client import PATIENCE
from serving.server import Server

# A time that is to be up in a test. Nothing that has to come in that test has to come within it.
SHORT = 0.3

E = TypeVar("E", bound=BaseException)
T = TypeVar("T")
P = ParamSpec("P")


def client_of(
    server: Server, *, timeout: float = PATIENCE, retry_for: float = PATIENCE, repeat_reads: bool = False
) -> GridClient:
    """A client of all members of a server. It is patient, since the machine may be busy."""
    return GridClient.local(server.members, server.port, timeout=timeout, retry_for=retry_for, repeat_reads=repeat_reads)


def raises(checks: Checks, what: str, wanted: type[E], call: Callable[P, object], *args: P.args, **words: P.kwargs) -> E | None:
    """This call has to raise just this kind of exception, which is given back."""
    try:
        came: object = call(*args, **words)
    except Exception as error:
        came = error
    checks.holds(what, type(came) is wanted, wanted.__name__, repr(came))
    return came if isinstance(came, wanted) else None


class Running(Generic[T]):
    """A call on a thread of its own."""

    def __init__(self, call: Callable[[], T]) -> None:
        self.results: list[T] = []
        self.errors: list[Exception] = []
        self.thread = threading.Thread(target=self.run, args=(call,), daemon=True)
        self.thread.start()

    def run(self, call: Callable[[], T]) -> None:
        try:
            self.results.append(call())
        except Exception as error:  # told by `result`
            self.errors.append(error)

    def ends_within(self, seconds: float) -> bool:
        self.thread.join(seconds)
        return not self.thread.is_alive()

    def result(self) -> T:
        """What the call gave, once it has. It raises what the call raised."""
        if not self.ends_within(2 * PATIENCE):
            raise TimeoutError("a call goes on")
        if self.errors:
            raise self.errors[0]
        return self.results[0]


@contextmanager
def all_running(calls: list[Callable[[], None]]) -> Iterator[list[Running[None]]]:
    """Calls on threads of their own, which have ended behind it."""
    running = [Running(call) for call in calls]
    try:
        yield running
    finally:
        for one in running:
            one.ends_within(2 * PATIENCE)
