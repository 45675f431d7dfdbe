"""A connection to a member, and the calls that are under way on it. Answers are told apart by their correlations, so they may
come in any order. One of the callers reads for all, and hands to each what is its own; when it has its own answers another one
reads on. Where there is one caller, a call is one send and one receive."""

from __future__ import annotations

import itertools
import socket
import struct
import threading
from collections.abc import Iterable, Sequence
from contextlib import suppress
from time import monotonic
from typing import Final, TypeAlias, cast

from .addresses import Address, Manner, probe
from .errors import ConnectionLost, GridError, NotSent, OutcomeUnknown, ProtocolFault, WrongCluster
from .logs import log
from .version import compare
from .wire import PREFIX, Answer, Inbox, Request, authentication, head_of, read_answer

PIECE: Final = 1 << 16
_ONE_PIECE: Final = (PIECE,)

# A connection on which nothing was called for so many seconds is looked at before it is used: it may have ended.
IDLE: Final = 0.001

# For how many seconds the answer is still waited for of an interrupted call that takes something out of the grid.
GRACE: Final = 1.0

Outcome: TypeAlias = Answer | GridError
"""What a call came to."""


class Batch:
    """Calls that one caller has made at once: what each came to, how many haven't come, and what wakes the caller if it waits."""

    __slots__ = ("correlations", "lacks", "outcomes", "requests", "turn")

    def __init__(self, requests: Sequence[Request], correlations: Sequence[int]) -> None:
        self.requests = requests
        self.correlations = correlations
        self.outcomes: list[Outcome | None] = [None] * len(requests)
        self.lacks = len(requests)
        self.turn: threading.Lock | None = None

    def wake(self) -> None:
        if self.turn is not None:
            with suppress(RuntimeError):  # it was woken before
                self.turn.release()

    def wait(self, seconds: float) -> None:
        """Waits until it is woken. The first time it doesn't: who reads may not have known that it was to be woken."""
        if self.turn is None:
            self.turn = threading.Lock()
            self.turn.acquire()
        else:
            self.turn.acquire(timeout=seconds)

    def take(self, place: int, outcome: Outcome) -> None:
        if self.outcomes[place] is None:
            self.outcomes[place] = outcome
            self.lacks -= 1
            if not self.lacks and self.turn is not None:
                self.wake()

    def came(self) -> list[Outcome]:
        """What all came to, once they have."""
        return cast("list[Outcome]", self.outcomes)

    def take_all(self, outcome: GridError) -> None:
        """All that haven't come to something come to this."""
        for place in range(len(self.requests)):
            self.take(place, type(outcome)(*outcome.args))


class Connection:
    """A connection to a member that lives, on which the client has made itself known."""

    def __init__(self, address: Address, manner: Manner) -> None:
        self._address = address
        self._timeout = manner.timeout
        self._inbox = Inbox()
        self._correlations = itertools.count(1)
        self._waiting: dict[int, tuple[Batch, int]] = {}
        self._asked = 0
        self._sending = threading.Lock()
        self._reading = threading.Lock()
        self._used_at = monotonic()
        self.callers = 1
        self.is_fit = True
        self._socket = socket.create_connection((address.host, address.port), manner.timeout)
        try:
            self._set_up()
            self._make_known(manner)
        except BaseException:
            self.close()
            raise

    def _set_up(self) -> None:
        self._socket.setsockopt(socket.IPPROTO_TCP, socket.TCP_NODELAY, 1)
        self._socket.setblocking(True)
        self._socket.setsockopt(socket.SOL_SOCKET, socket.SO_SNDTIMEO, _timeval(self._timeout))
        self._patience = 0.0
        self._have_patience(self._timeout)

    def _make_known(self, manner: Manner) -> None:
        self._send_whole(PREFIX)
        answer = self.ask(authentication(manner.cluster, manner.client))
        if not answer.check_accepted():
            raise WrongCluster(f"{self._address} doesn't belong to the cluster '{manner.cluster}'")
        compare(answer.version(), str(self._address))
        self.ask(probe())

    # Calls.

    def ask(self, request: Request, patience: float | None = None) -> Answer:
        """The answer to a call. Raises `NotSent` where it can't have reached the member, and `OutcomeUnknown` where it may have."""
        begin = monotonic()
        batch = self._ask_alone(request) if patience is None else self.begin((request,))
        if batch.lacks or not self.is_fit:
            self.finish(batch, (patience or self._timeout) - (monotonic() - begin))
        outcome = batch.outcomes[0]
        self._used_at = monotonic()
        if isinstance(outcome, Answer):
            return outcome
        assert outcome is not None
        raise outcome

    def _ask_alone(self, request: Request) -> Batch:
        """Sends a call, and reads once, where nobody else does: mostly that is its answer."""
        correlation = next(self._correlations)
        message = request.spelled(correlation)
        batch = Batch((request,), (correlation,))
        try:
            is_reader = self._reading.acquire(blocking=False)
            try:
                self._send(batch, (message,))
                if is_reader and batch.lacks:
                    self._read_once(self._timeout)
            finally:
                if is_reader:
                    self._reading.release()
                    if self._waiting:
                        self._wake_another()
        except BaseException:
            self.give_up(batch)
            raise
        return batch

    def ask_all(self, requests: Sequence[Request], patience: float | None = None) -> list[Outcome]:
        """What calls come to that are sent at once."""
        return self.finish(self.begin(requests), patience)

    def begin(self, requests: Sequence[Request]) -> Batch:
        """Sends calls. Each begun batch has to be finished."""
        correlations, messages = [], []
        for request in requests:
            correlation = next(self._correlations)
            messages.append(request.spelled(correlation))
            correlations.append(correlation)
        batch = Batch(requests, correlations)
        try:
            self._send(batch, messages)
        except BaseException:
            self.give_up(batch)
            raise
        return batch

    def finish(self, batch: Batch, patience: float | None = None) -> list[Outcome]:
        """What the calls of a batch come to."""
        try:
            self._await(batch, self._timeout if patience is None else patience)
        except BaseException:
            self.give_up(batch)
            raise
        if not self.is_fit:
            self._abandon(batch)
        self._used_at = monotonic()
        return batch.came()

    def _send(self, batch: Batch, messages: Sequence[bytes]) -> None:
        """Sends calls in one piece. Those of which the member can't have the whole are `NotSent`."""
        with self._sending:
            if not self.is_fit:
                return batch.take_all(NotSent(f"the connection to {self._address} has ended"))
            for place, correlation in enumerate(batch.correlations):
                self._waiting[correlation] = batch, place
            self._asked = max(self._asked, correlation)
            try:
                self._send_whole(messages[0] if len(messages) == 1 else b"".join(messages))
            except _Cut as cut:
                self._was_cut(batch, messages, cut)
        return None

    def _was_cut(self, batch: Batch, messages: Iterable[bytes], cut: _Cut) -> None:
        """Notes that only some bytes were sent, and ends the connection. Calls that are whole in them may be executed."""
        self.is_fit = False
        ends = itertools.accumulate(map(len, messages))
        for place, end in enumerate(ends):
            if end > cut.sent:
                batch.take(place, NotSent(f"{self._address} took only a part of the call: {cut.error}"))
        self.wake()

    def _send_whole(self, message: bytes) -> None:
        """Sends bytes, or raises `_Cut`."""
        sent = 0
        try:
            sent = self._socket.send(message)
            while sent < len(message):
                sent += self._socket.send(memoryview(message)[sent:])
        except OSError as error:
            raise _Cut(sent, error) from error

    # Answers.

    def _await(self, batch: Batch, wait: float) -> None:
        """Waits until each of these calls has come to something, or so many seconds are over."""
        until: float | None = None
        while batch.lacks:
            left = wait if until is None else until - monotonic()
            if left <= 0:
                return self._out_of_time(batch)
            if self._reading.acquire(blocking=False):
                until = self._read_for(batch, left, until)
            else:
                until = until or monotonic() + wait
                batch.wait(left)
        return None

    def _read_for(self, batch: Batch, left: float, until: float | None) -> float:
        """Reads for all until this caller has its answers, or its time is up. When that is."""
        begin = monotonic() if until is None else 0.0
        try:
            while batch.lacks and left > 0:
                self._read_once(left)
                if batch.lacks:
                    until = until or begin + left
                    left = until - monotonic()
        finally:
            self._reading.release()
            if self._waiting:
                self._wake_another()
        return until or begin + left

    def _read_once(self, left: float) -> None:
        """Reads what comes next, and hands it out. Where nothing can come any more, all that wait are told."""
        self._have_patience(left)
        pieces = self._inbox.pieces
        try:
            # in one step, so that an interrupt comes before or behind it
            pieces.extend(map(self._socket.recv, _ONE_PIECE))
            if not pieces[-1]:
                return self._fail(ConnectionLost(f"{self._address} ended the connection before it answered"))
            self._inbox.handle(self._deliver)
        except BlockingIOError:
            return  # the time is up
        except OSError as error:
            return self._fail(ConnectionLost(f"the connection to {self._address} broke before the answer: {error}"))
        except ProtocolFault as error:
            return self._fail(error)

    def _deliver(self, message: bytes) -> None:
        """Hands an answer to who waits for it. One for which nobody waits any more is left out."""
        head = head_of(message)
        correlation = head[3]
        found = self._waiting.get(correlation)
        if found is None:
            if not 0 < correlation <= self._asked:
                raise ProtocolFault(f"{self._address} sent an answer to message {correlation}, which wasn't asked")
            return
        batch, place = found
        request = batch.requests[place]
        answer = read_answer(message, head, request)
        if request.keeps is not None:
            request.came = answer
        batch.take(place, answer)
        del self._waiting[correlation]

    def _fail(self, error: GridError) -> None:
        """Ends the connection. Each call that waits comes to this."""
        self.is_fit = False
        self.wake()
        with self._sending:
            waiting = list(self._waiting.values())
            self._waiting.clear()
        for batch, place in waiting:
            batch.take(place, type(error)(*error.args))

    def _wake_another(self) -> None:
        """Has another caller read on, if there is one."""
        for batch, _ in list(self._waiting.values())[:1]:
            batch.wake()

    def _out_of_time(self, batch: Batch) -> None:
        """The calls that have come to nothing yet may be executed. The connection takes no more."""
        self.is_fit = False
        batch.take_all(OutcomeUnknown(f"{self._address} didn't answer in time"))

    def _abandon(self, batch: Batch) -> None:
        """Nobody waits for these any more."""
        for correlation in batch.correlations:
            self._waiting.pop(correlation, None)
        if self._waiting and not self._reading.locked():
            self._wake_another()

    def give_up(self, batch: Batch) -> None:
        """The caller is interrupted. The answers to calls that take something out of the grid are still waited for, a while."""
        self.is_fit = False
        if any(request.keeps and request.came is None for request in batch.requests):
            with suppress(ProtocolFault):
                self._inbox.handle(self._deliver)
            self._await(batch, GRACE)
        self._abandon(batch)

    # The socket.

    def _have_patience(self, left: float) -> None:
        if left != self._patience:
            self._socket.setsockopt(socket.SOL_SOCKET, socket.SO_RCVTIMEO, _timeval(left))
            self._patience = left

    def is_over(self) -> bool:
        """Whether it can't be used, as far as is seen: it isn't looked at where it was used a moment ago. Something comes though
        nothing was asked: the end, as a rule."""
        if monotonic() < self._used_at + IDLE:
            return False
        try:
            self._socket.recv(1, socket.MSG_PEEK | socket.MSG_DONTWAIT)
        except BlockingIOError:
            return False
        except OSError:
            return True
        return True

    def wake(self) -> None:
        """Ends the connection under threads that wait for it."""
        self.is_fit = False
        with suppress(OSError):
            self._socket.shutdown(socket.SHUT_RDWR)

    def close(self) -> None:
        """Gives the socket back. In a copy of the process the first one keeps its own."""
        self._socket.close()


class _Cut(Exception):
    """Only so many bytes could be sent."""

    def __init__(self, sent: int, error: OSError) -> None:
        super().__init__(sent, error)
        self.sent = sent
        self.error = error


def keep_taken(request: Request) -> None:
    """The caller of a call was interrupted: what it took is kept, or it is told that it may have taken something."""
    if request.keeps is None:
        return
    if request.came is None:
        log.warning("a call that was interrupted may have taken an item out of a queue: its answer didn't come")
    elif request.came.refusal is None and (taken := request.came.value()) is not None:
        request.keeps(taken)
    request.keeps = None


def _timeval(seconds: float) -> bytes:
    """A span as a socket's option takes it. None at all would mean no end."""
    whole, part = divmod(max(round(seconds * 1_000_000), 1000), 1_000_000)
    return struct.pack("ll", whole, part)
