"""Which member gets a call. No member tells who leads a partition, so the client asks them in turn, and remembers by partition
who took a call last. A call that a member refused wasn't executed, so another one may be asked.

The rule is told in steps, `Routes.steps`, which threads and tasks of asyncio walk alike."""

from __future__ import annotations

import time
from collections.abc import Generator, Sequence
from typing import Final, Generic, TypeAlias, TypeVar

from .addresses import Manner, new_number
from .connections import Outcome
from .errors import Busy, GridError, Migrating, NotSent, OutcomeUnknown, PartitionLost, RowRefused, WrongTarget
from .forks import renew_after_fork
from .leftovers import Leftovers
from .logs import log
from .members import Health, Member
from .partitions import PARTITIONS
from .spans import Deadline, growing_pauses
from .wire import Answer, Request

M = TypeVar("M", bound=Health)

Steps: TypeAlias = Generator[M | float, Outcome | None, Answer]
"""What is done for a call, in order: a member is asked, whose outcome is sent back, or so many seconds are rested."""

# Behind these another member may take the call, or this one a moment later.
_ELSEWHERE: Final = (PartitionLost, WrongTarget, Migrating, Busy)


def most_telling(refusals: Sequence[GridError]) -> GridError:
    """Of what a round of members gave the one to tell: that the outcome isn't known, or what the newest row says, or that a member
    is busy, or the last."""
    unknown = next((refusal for refusal in refusals if isinstance(refusal, OutcomeUnknown)), None)
    busy = next((refusal for refusal in refusals if isinstance(refusal, Busy)), None)
    rows = [refusal for refusal in refusals if isinstance(refusal, RowRefused)]
    newest = max(rows, key=lambda refusal: refusal.version, default=None)
    if isinstance(newest, PartitionLost):
        return newest
    return unknown or busy or newest or refusals[-1]


def goes_elsewhere(outcome: Outcome) -> bool:
    """Whether a call that came to this wasn't executed, and another member may take it, or this one later."""
    return isinstance(outcome, NotSent) or (isinstance(outcome, Answer) and isinstance(outcome.refusal, _ELSEWHERE))


class Attempts:
    """For how long a call is made again. With a timeout the attempts themselves end by then; without one the last may be answered
    later."""

    def __init__(self, retry_for: float, timeout: float | None) -> None:
        self.until: Final = Deadline(retry_for if timeout is None else timeout)
        self.pause: Final = self.until.pause if timeout is None else self.until.pause_within
        self._is_bounded = timeout is not None

    def patience(self) -> float | None:
        """How long the next attempt may take, or None where that is the client's timeout."""
        return self.until.left() if self._is_bounded else None


class Routes(Generic[M]):
    """Who takes the calls of each partition, as far as it is known."""

    def __init__(self, members: Sequence[M], *, repeat_reads: bool) -> None:
        self.members: Final = tuple(members)
        self._repeat_reads = repeat_reads
        # Who took the last call of each partition; at first who leads it in a grid that has just been started.
        self.takers = [self.members[partition % len(self.members)] for partition in range(PARTITIONS)]

    def steps(self, request: Request, attempts: Attempts, first: tuple[M, Outcome] | None = None) -> Steps[M]:
        """The answer of the member that takes the call. Members are asked round after round until the time is up; then what the
        last round came to is raised. A partition that is lost ends that at once. `first` is who was asked already, with what that
        came to."""
        pauses = growing_pauses()
        unknown: GridError | None = None
        while True:
            refusals = [self._refusal(request, first[1])] if first else []
            for member in self._in_turn(request.partition):
                if first and member is first[0]:
                    continue
                outcome = yield member
                if isinstance(outcome, Answer) and not isinstance(outcome.refusal, _ELSEWHERE):
                    self.takers[request.partition] = member
                    return outcome
                refusals.append(self._refusal(request, outcome))
                if isinstance(outcome, NotSent) and attempts.until.is_over():
                    break
            first = None
            failure = most_telling(refusals)
            if isinstance(failure, PartitionLost):
                raise failure
            unknown = failure if isinstance(failure, OutcomeUnknown) else unknown
            pause = attempts.pause(next(pauses))
            if pause is None:
                raise unknown or failure
            log.debug("a call in partition %d is made again: %s", request.partition, failure)
            yield pause

    def first_for(self, partition: int) -> M:
        """Who is asked first."""
        taker = self.takers[partition]
        return self._in_turn(partition)[0] if taker.is_doubtful else taker

    def may_repeat(self, request: Request) -> bool:
        return self._repeat_reads and request.is_read

    def _refusal(self, request: Request, outcome: Outcome | None) -> GridError:
        """Why this member didn't take the call. What ends the call is raised."""
        if isinstance(outcome, Answer):
            outcome = outcome.refusal
        assert outcome is not None
        if isinstance(outcome, _ELSEWHERE):
            return outcome
        if isinstance(outcome, NotSent) or (isinstance(outcome, OutcomeUnknown) and self.may_repeat(request)):
            return outcome
        raise outcome

    def _in_turn(self, partition: int) -> Sequence[M]:
        """The members, from the one that took the partition's last call on. Those that may have crashed come last, and not too
        often, unless there are no others."""
        first = self.members.index(self.takers[partition])
        turn = self.members[first:] + self.members[:first]
        trusted = [member for member in turn if not member.is_doubtful]
        doubtful = [member for member in turn if member.is_doubtful and not member.is_left_alone]
        return trusted + doubtful if trusted else turn


class Router:
    """Sends calls to the members that take them, for threads."""

    def __init__(self, members: Sequence[Member], manner: Manner, retry_for: float, *, repeat_reads: bool) -> None:
        self.routes: Final = Routes(members, repeat_reads=repeat_reads)
        self.manner: Final = manner
        self.retry_for: Final = retry_for
        self.leftovers: Final = Leftovers()
        renew_after_fork(self)

    def renew(self) -> None:
        """Makes the client anew, in a copy of the process: what it has is the first one's."""
        self.manner.client = new_number()
        for member in self.routes.members:
            member.leave()
        self.leftovers.take_all()
        log.debug("a copy of the process has a client of its own")

    def call(self, request: Request, timeout: float | None = None) -> Answer:
        """The answer of the member that takes the call. With a timeout the call takes no longer, all in all; without one each
        attempt has the client's timeout, and attempts are made for `retry_for` seconds."""
        member = self.routes.takers[request.partition]
        if timeout is not None or member.is_doubtful:
            return self._walk(request, timeout, None)
        outcome: Outcome
        try:
            outcome = member.ask(request)
            if outcome.refusal is None:
                return outcome
        except (NotSent, OutcomeUnknown) as error:
            outcome = error
        return self._walk(request, None, (member, outcome))

    def go_on(self, request: Request, member: Member, outcome: Outcome) -> Answer:
        """The answer to a call that came to this at that member."""
        if isinstance(outcome, Answer) and outcome.refusal is None:
            return outcome
        return self._walk(request, None, (member, outcome))

    def _walk(self, request: Request, timeout: float | None, first: tuple[Member, Outcome] | None) -> Answer:
        attempts = Attempts(self.retry_for, timeout)
        steps = self.routes.steps(request, attempts, first)
        outcome: Outcome | None = None
        try:
            while True:
                step = steps.send(outcome)
                if isinstance(step, Member):
                    outcome = _attempt(step, request, attempts.patience())
                else:
                    time.sleep(step)
                    outcome = None
        except StopIteration as end:
            answer: Answer = end.value
        if answer.refusal is not None:
            raise answer.refusal
        return answer


def _attempt(member: Member, request: Request, patience: float | None) -> Outcome:
    """What a call comes to at a member. What isn't about this member is raised."""
    try:
        return member.ask(request, patience)
    except (NotSent, OutcomeUnknown) as error:
        return error
