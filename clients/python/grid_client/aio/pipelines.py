"""Pipelines, for tasks of asyncio."""

from __future__ import annotations

from types import TracebackType
from typing import Any

from ..owners import task_number
from ..pipelines import Calls, Later
from ..spans import Span, some_seconds
from .routing import Router


class Pipeline(Calls):
    """Calls that are kept until `execute`, as those of `grid_client.Pipeline`: `async with client.pipeline() as pipeline: ...`

    A pipeline belongs to one task."""

    def __init__(self, router: Router) -> None:
        super().__init__(router.leftovers, task_number)
        self._router = router

    async def __aenter__(self) -> Pipeline:
        return self

    async def __aexit__(self, kind: type[BaseException] | None, error: BaseException | None, trace: TracebackType | None) -> None:
        if kind is None:
            await self._run(None)

    async def execute(self, *, timeout: Span | None = None) -> list[Any]:
        """Makes the calls, and gives what they give, in their order, or raises what the first raised, if any did."""
        return [call.result() for call in await self._run(timeout)]

    async def _run(self, timeout: Span | None) -> list[Later[Any]]:
        calls = self.take()
        wait = None if timeout is None else some_seconds(timeout, "a timeout")
        outcomes = await self._router.outcomes_of([later.request for later in calls], wait)
        for later, outcome in zip(calls, outcomes):
            later.outcome = outcome
        return calls
