"""Many calls at once: each member gets those that it takes in pieces, each sent whole before its answers are read, and all members
work on theirs meanwhile."""

from __future__ import annotations

from collections.abc import Iterable, Iterator, Sequence
from dataclasses import dataclass
from itertools import zip_longest
from typing import Final

from .connections import Batch, Connection, Outcome
from .errors import ConnectionLost, GridError, NotSent
from .members import Member
from .routing import Router, goes_elsewhere
from .spans import Deadline
from .wire import MOST_OF_A_FRAME, Answer, Request

# How much a piece has. A member takes it in while nobody reads its answers.
MOST_CALLS: Final = 256
MOST_BYTES: Final = 32_768

_NOT_YET: Final = NotSent("not made yet")


@dataclass
class _Share:
    """What one member gets: the places of its calls, in pieces, and the connection on which they go."""

    member: Member
    places: list[int]
    connection: Connection | None = None
    batch: Batch | None = None

    def begin(self, requests: Sequence[Request]) -> None:
        self.connection = self.member.take()
        self.batch = self.connection.begin(requests)

    def finish(self, patience: float | None) -> list[Outcome]:
        """What the calls that were begun came to."""
        if self.connection is None or self.batch is None:
            return []
        batch, self.batch = self.batch, None
        outcomes = self.connection.finish(batch, patience)
        if any(isinstance(outcome, ConnectionLost) for outcome in outcomes):
            self.member.failed()
        return outcomes

    def give_back(self) -> None:
        if self.connection is None:
            return
        if self.batch is not None:
            self.connection.give_up(self.batch)
        self.member.give(self.connection)
        self.connection = self.batch = None


def ask_everyone(router: Router, requests: Sequence[Request], timeout: float | None = None) -> list[Outcome]:
    """What each of these calls comes to. Those that a member refused which doesn't lead are made again, each alone."""
    until = Deadline(router.retry_for if timeout is None else timeout)
    lengths = [sum(map(len, request.frames)) for request in requests]
    if lengths and max(lengths) > MOST_OF_A_FRAME // 2:
        for request in requests:
            request.check_size()
    outcomes: list[Outcome] = [_NOT_YET] * len(requests)
    asked = [router.routes.first_for(request.partition) for request in requests]
    pieces = [[_Share(member, piece) for piece in _pieces(lengths, places)] for member, places in _by_member(asked).items()]
    for shares in zip_longest(*pieces):
        at_once = [share for share in shares if share is not None]
        _run(at_once, requests, outcomes, None if timeout is None else until.left())
    for place, outcome in enumerate(outcomes):
        if not isinstance(outcome, Answer) or outcome.refusal is not None:
            outcomes[place] = _settled(router, requests[place], asked[place], outcome)
    return outcomes


def _by_member(asked: Iterable[Member]) -> dict[Member, list[int]]:
    groups: dict[Member, list[int]] = {}
    for place, member in enumerate(asked):
        groups.setdefault(member, []).append(place)
    return groups


def _pieces(lengths: Sequence[int], places: Iterable[int]) -> Iterator[list[int]]:
    """These places in pieces."""
    piece: list[int] = []
    size = 0
    for place in places:
        length = lengths[place]
        if piece and (len(piece) == MOST_CALLS or size + length > MOST_BYTES):
            yield piece
            piece, size = [], 0
        piece.append(place)
        size += length
    if piece:
        yield piece


def _run(shares: Sequence[_Share], requests: Sequence[Request], outcomes: list[Outcome], patience: float | None) -> None:
    """Sends a piece to each member, and then reads what they answer."""
    try:
        for share in shares:
            _begin(share, requests, outcomes)
        for share in shares:
            for place, outcome in zip(share.places, share.finish(patience)):
                outcomes[place] = outcome
    finally:
        for share in shares:
            share.give_back()


def _begin(share: _Share, requests: Sequence[Request], outcomes: list[Outcome]) -> None:
    try:
        share.begin([requests[place] for place in share.places])
    except NotSent as error:
        for place in share.places:
            outcomes[place] = error


def _settled(router: Router, request: Request, member: Member, outcome: Outcome) -> Outcome:
    """What a call comes to in the end that came to this at that member."""
    try:
        if goes_elsewhere(outcome) and router.routes.takers[request.partition] is not member:
            return router.call(request)  # another call of the partition has found who takes it now
        return router.go_on(request, member, outcome)
    except GridError as error:
        return error
