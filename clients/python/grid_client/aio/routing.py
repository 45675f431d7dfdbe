"""Sends calls to the members that take them, for tasks of asyncio."""

from __future__ import annotations

import asyncio
from collections.abc import Sequence
from typing import Final, TypeVar

from ..addresses import Manner, new_number
from ..calls import Call
from ..connections import Outcome
from ..errors import ConnectionLost, GridError, NotSent, OutcomeUnknown
from ..forks import renew_after_fork
from ..leftovers import Leftovers
from ..routing import Attempts, Routes
from ..wire import Answer, Request
from .members import Member

R = TypeVar("R")

# How many calls of a batch are under way at a member at once.
MOST_AT_ONCE: Final = 256


class Router:
    """Sends calls to the members that take them."""

    def __init__(self, members: Sequence[Member], manner: Manner, retry_for: float, *, repeat_reads: bool) -> None:
        self.routes: Final = Routes(members, repeat_reads=repeat_reads)
        self.manner: Final = manner
        self.retry_for: Final = retry_for
        self.leftovers: Final = Leftovers()
        renew_after_fork(self)

    def renew(self) -> None:
        """Makes the client anew, in a copy of the process: what it has is the first one's."""
        self.manner.client = new_number()
        for member in self.routes.members:
            member.leave()
        self.leftovers.take_all()

    async def made(self, call: Call[R], timeout: float | None = None) -> R:
        """What a call gives."""
        return call.read(await self.call(call.request, timeout))

    async def call(self, request: Request, timeout: float | None = None) -> Answer:
        """The answer of the member that takes the call, by the rule of `grid_client.routing`."""
        return await self._walk(request, Attempts(self.retry_for, timeout), None)

    async def all_made(self, calls: Sequence[Call[R]], timeout: float | None = None) -> list[R]:
        """What calls give that are made at once. Where some failed one of their exceptions is raised: an `OutcomeUnknown`, if there
        is any."""
        outcomes = await self.outcomes_of([call.request for call in calls], timeout)
        failures = [outcome for outcome in outcomes if isinstance(outcome, GridError)]
        for failure in sorted(failures, key=lambda it: not isinstance(it, OutcomeUnknown)):
            failure.add_note(f"{len(failures)} of {len(calls)} calls failed, which were made together")
            raise failure
        return [call.read(came) for call, came in zip(calls, outcomes) if isinstance(came, Answer)]

    async def outcomes_of(self, requests: Sequence[Request], timeout: float | None = None) -> list[Outcome]:
        """What calls come to that are made at once, by batches to each member."""
        attempts = Attempts(self.retry_for, timeout)
        groups: dict[Member, list[int]] = {}
        for place, request in enumerate(requests):
            request.check_size()
            groups.setdefault(self.routes.first_for(request.partition), []).append(place)
        outcomes: dict[int, Outcome] = {}
        await asyncio.gather(*(self._share(member, places, requests, outcomes, attempts) for member, places in groups.items()))
        return [outcomes[place] for place in range(len(requests))]

    async def _share(
        self, member: Member, places: list[int], requests: Sequence[Request], outcomes: dict[int, Outcome], attempts: Attempts
    ) -> None:
        """Makes one member's calls."""
        for first in range(0, len(places), MOST_AT_ONCE):
            piece = places[first : first + MOST_AT_ONCE]
            for place, came in zip(piece, await _asked(member, [requests[place] for place in piece], attempts.patience())):
                outcomes[place] = await self._settled(requests[place], attempts, member, came)

    async def _settled(self, request: Request, attempts: Attempts, member: Member, outcome: Outcome) -> Outcome:
        if isinstance(outcome, Answer) and outcome.refusal is None:
            return outcome
        try:
            return await self._walk(request, attempts, (member, outcome))
        except GridError as error:
            return error

    async def _walk(self, request: Request, attempts: Attempts, first: tuple[Member, Outcome] | None) -> Answer:
        steps = self.routes.steps(request, attempts, first)
        outcome: Outcome | None = None
        try:
            while True:
                step = steps.send(outcome)
                if isinstance(step, Member):
                    outcome = await _attempt(step, request, attempts.patience())
                else:
                    await asyncio.sleep(step)
                    outcome = None
        except StopIteration as end:
            answer: Answer = end.value
        if answer.refusal is not None:
            raise answer.refusal
        return answer


async def _attempt(member: Member, request: Request, patience: float | None) -> Outcome:
    """What a call comes to at a member. What isn't about this member is raised."""
    try:
        return await member.ask(request, patience)
    except (NotSent, OutcomeUnknown) as error:
        return error


async def _asked(member: Member, requests: Sequence[Request], patience: float | None) -> list[Outcome]:
    """What calls come to that are sent to a member at once."""
    try:
        connection = await member.take()
    except NotSent as error:
        return [error for _ in requests]
    outcomes = await connection.ask_all(requests, patience)
    if any(isinstance(outcome, ConnectionLost) for outcome in outcomes):
        member.failed()
    return outcomes
