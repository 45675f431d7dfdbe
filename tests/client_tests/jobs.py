"""The guide's form of a job that isn't lost and isn't doubled, with workers that end at each line of it."""

from __future__ import annotations

import sys
import time
from collections.abc import Callable, Iterator
from contextlib import contextmanager, suppress
from functools import partial
from types import FrameType, FunctionType
from typing import Any

from grid_client import TEXT, GridClient, KeyLocked, NotOwner
from serving.checks import Checks
from serving.client import wait_until
from serving.server import TOP, Server

from client_tests.pages import blocks_of
from client_tests.shared import client_of

PAGE = TOP / "docs" / "guide" / "queues.md"

# How long a job may take where workers end.
LEASE = 0.2


class Ends(BaseException):
    """A worker ends."""


def names_of(client: GridClient) -> dict[str, Any]:
    """What the page's program of jobs names, with this client."""
    (text,) = (block.text for block in blocks_of(PAGE.read_text()) if "def work_on_next" in block.text)
    names: dict[str, Any] = {"client": client, "TEXT": TEXT, "jobs": client.queue("jobs", values=TEXT)}
    exec(compile(text, str(PAGE), "exec"), names)
    return names


def lines_of(function: FunctionType) -> list[int]:
    """The lines of a function's body."""
    code = function.__code__
    return sorted({line for _, _, line in code.co_lines() if line and line > code.co_firstlineno})


@contextmanager
def ending_at(function: FunctionType, line: int) -> Iterator[None]:
    """Has the function end before this line."""

    def within(frame: FrameType, event: str, _: Any) -> Callable[..., Any] | None:
        if event == "line" and frame.f_lineno == line:
            raise Ends
        return within

    def trace(frame: FrameType, _event: str, _arg: Any) -> Callable[..., Any] | None:
        return within if frame.f_code is function.__code__ else None

    sys.settrace(trace)
    try:
        yield
    finally:
        sys.settrace(None)


def a_worker_may_end_at_each_line(checks: Checks) -> None:
    """Wherever a worker ends, the job is done in the end, its result stands as it was first put, and nothing is left."""
    with Server() as server, client_of(server) as client:
        names = names_of(client)
        names["LEASE"] = LEASE
        order, work, order_again, done, jobs = (names[name] for name in ("order", "work_on_next", "order_again", "done", "jobs"))
        lines = lines_of(work)
        checks.at_least("lines", 9, len(lines))
        for line in lines:
            name = f"job {line}"
            order(name, f"letter {line}")
            with suppress(Ends), ending_at(work, line):
                work()
            first = done.get(name)
            wait_until(partial(is_all_done, work, order_again, [name]))
            checks.equal(f"what came of it, ended before line {line}", f"LETTER {line}", done.get(name))
            checks.holds(f"what stood as the worker ended before line {line}", first in (None, done.get(name)), "the same", first)
            checks.equal(f"what is left, ended before line {line}", (0, False), (jobs.size(), name in names["pending"]))
        time.sleep(LEASE)
        checks.equal("locks", [], [line for line in lines if names["pending"].is_locked(f"job {line}")])


def is_all_done(work: Callable[[], str | None], order_again: Callable[[list[str]], list[str]], ordered: list[str]) -> bool:
    """Works on the next job. Whether there was none, and none of those that were ordered is left."""
    with suppress(KeyLocked, NotOwner):  # its lease had ended: the machine is busy
        return work() is None and not order_again(ordered)
    return False


def what_waits_is_not_offered_again(checks: Checks) -> None:
    """However often it is looked, the queue has each job once; and of more jobs than it has room for none is lost."""
    with Server(capacity=20) as server, client_of(server) as client:
        names = names_of(client)
        wanted = [f"job {number}" for number in range(30)]
        checks.equal("those that are queued", 20, sum(names["order"](name, name) for name in wanted))
        checks.equal("those that aren't done", [wanted] * 4, [names["order_again"](wanted) for _ in range(4)])
        checks.equal("items of the queue", 20, names["jobs"].size())
        worked = []
        while names["order_again"](wanted):
            while name := names["work_on_next"]():
                worked.append(name)
        checks.equal("jobs that were worked on", sorted(wanted), sorted(worked))
        checks.equal("what came of them", {name: name.upper() for name in wanted}, names["done"].get_all(wanted))


TESTS = (
    a_worker_may_end_at_each_line,
    what_waits_is_not_offered_again,
)
