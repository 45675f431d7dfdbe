"""The search for an order of calls: it finds one where there is one, and none where there is none."""

from __future__ import annotations

import itertools
from dataclasses import replace
from random import Random
from typing import Any

from playing.board import MOST_ADDED
from playing.linear import NEVER, History, Lost, Made, why_not_linear
from playing.objects import Call, Does, Reply, State, number_value
from playing.objects import add, empty, get, offer, poll, put, put_blindly, remove, replace_if_same, size
from serving.checks import Checks


def made(does: Does, sent: int, read: int, reply: Reply = None, **parts: Any) -> Made:
    return Made(Call(does, **parts), sent, read, reply)


def puts(value: bytes, sent: int, read: int, reply: bytes | None = None) -> Made:
    return made(put, sent, read, reply, value=value)


def gets(sent: int, read: int, reply: bytes | None) -> Made:
    return made(get, sent, read, reply)


def offers(value: bytes, sent: int, read: int) -> Made:
    return made(offer, sent, read, True, value=value)


def polls(sent: int, read: int, reply: bytes | None) -> Made:
    return made(poll, sent, read, reply)


# Calls on an entry: those of each client, and what was lost behind so many of a client's calls.
ENTRIES: dict[str, tuple[bool, list[list[Made]], list[Lost]]] = {
    "a get reads what was put": (True, [[puts(b"1", 1, 2), gets(3, 4, b"1")]], []),
    "a get reads nothing behind a put": (False, [[puts(b"1", 1, 2), gets(3, 4, None)]], []),
    "a get at the time of a put reads nothing": (True, [[puts(b"1", 1, 4)], [gets(2, 3, None)]], []),
    "a get at the time of a put reads it": (True, [[puts(b"1", 1, 4)], [gets(2, 3, b"1")]], []),
    "a get reads what nobody put": (False, [[puts(b"1", 1, 4)], [gets(2, 3, b"2")]], []),
    "a value comes back": (False, [[puts(b"1", 1, 2), puts(b"2", 3, 4, b"1"), gets(5, 6, b"1")]], []),
    "two gets see a put in turn": (True, [[puts(b"1", 1, 9)], [gets(2, 3, None), gets(4, 5, b"1")]], []),
    "two gets see a put come and go": (False, [[puts(b"1", 1, 9)], [gets(2, 3, b"1"), gets(4, 5, None)]], []),
    "two clients see puts in two orders": (
        False,
        [[puts(b"1", 1, 9)], [puts(b"2", 1, 9, b"1")], [gets(2, 3, b"2"), gets(4, 5, b"1")]],
        [],
    ),
    "two puts found the same value": (False, [[puts(b"1", 1, 9)], [puts(b"2", 1, 9)]], []),
    "a pipeline's later call goes first": (False, [[gets(1, 9, b"1"), puts(b"1", 1, 9)]], []),
    "a blind put is read": (True, [[made(put_blindly, 1, 9, value=b"1")], [gets(2, 3, b"1")]], []),
    "a replacement of what isn't there": (
        False,
        [[puts(b"1", 1, 2), made(replace_if_same, 3, 4, True, value=b"3", test=b"2")]],
        [],
    ),
    "a removed value is read": (False, [[puts(b"1", 1, 2), made(remove, 3, 4, b"1"), gets(5, 6, b"1")]], []),
    "sums": (
        True,
        [[made(add, 1, 9, number_value(7), number=5)], [made(add, 1, 9, number_value(2), number=2)]],
        [],
    ),
    "a sum that lacks a number": (
        False,
        [[made(add, 1, 2, number_value(5), number=5)], [made(add, 3, 4, number_value(2), number=2)]],
        [],
    ),
    "a lost put is read": (True, [[gets(5, 6, b"1")], []], [Lost(1, 0, [puts(b"1", 1, 4)])]),
    "a lost put is done nowhere": (True, [[gets(5, 6, None)], []], [Lost(1, 0, [puts(b"1", 1, 4)])]),
    "a lost put is done behind its crash": (
        False,
        [[gets(5, 6, None), gets(7, 8, b"1")], []],
        [Lost(1, 0, [puts(b"1", 1, 4)])],
    ),
    "a lost put without a crash is done late": (
        True,
        [[gets(5, 6, None), gets(7, 8, b"1")], []],
        [Lost(1, 0, [puts(b"1", 1, NEVER)])],
    ),
    "a lost put is done twice": (
        False,
        [[gets(2, 3, b"1"), made(remove, 2, 3, b"1"), gets(2, 3, b"1")], []],
        [Lost(1, 0, [puts(b"1", 1, 4)])],
    ),
    "lost puts are done in turn": (
        True,
        [[gets(2, 3, b"1"), gets(2, 3, b"2")], []],
        [Lost(1, 0, [puts(b"1", 1, 4), puts(b"2", 1, 4)])],
    ),
    "lost puts are done out of turn": (
        False,
        [[gets(2, 3, b"2"), gets(2, 3, b"1")], []],
        [Lost(1, 0, [puts(b"1", 1, 4), puts(b"2", 1, 4)])],
    ),
    "a value is gone by a reopening": (True, [[puts(b"1", 1, 2), gets(5, 6, None)], [made(empty, 3, 4)]], []),
    "a value outlives a reopening": (False, [[puts(b"1", 1, 2), gets(5, 6, b"1")], [made(empty, 3, 4)]], []),
}

# Calls on a queue.
QUEUES: dict[str, tuple[bool, list[list[Made]], list[Lost]]] = {
    "items come in order": (True, [[offers(b"1", 1, 2), offers(b"2", 3, 4), polls(5, 6, b"1"), polls(7, 8, b"2")]], []),
    "items come out of order": (False, [[offers(b"1", 1, 2), offers(b"2", 3, 4), polls(5, 6, b"2"), polls(7, 8, b"1")]], []),
    "items of two clients come in some order": (
        True,
        [[offers(b"1", 1, 4)], [offers(b"2", 1, 4)], [polls(5, 6, b"2"), polls(7, 8, b"1")]],
        [],
    ),
    "a pipeline's items come out of order": (
        False,
        [[offers(b"1", 1, 4), offers(b"2", 1, 4)], [polls(5, 6, b"2"), polls(7, 8, b"1")]],
        [],
    ),
    "an item comes twice": (False, [[offers(b"1", 1, 2), polls(3, 4, b"1")], [polls(3, 4, b"1")]], []),
    "an item is lost": (False, [[offers(b"1", 1, 2), polls(3, 4, None)]], []),
    "an item is taken by a lost poll": (True, [[offers(b"1", 1, 2), polls(5, 6, None)], []], [Lost(1, 0, [polls(3, 4, None)])]),
    "a size that is wrong": (False, [[offers(b"1", 1, 2), made(size, 3, 4, 2)]], []),
    "an offer that is refused by an empty queue": (False, [[made(offer, 1, 2, False, value=b"1")]], []),
}


def orders_are_found_where_there_are_some(checks: Checks) -> None:
    """Of small histories it is known whether there is an order."""
    for start, histories in ((None, ENTRIES), ((), QUEUES)):
        for what, (holds, tracks, lost) in histories.items():
            why = why_not_linear(History(start, tracks, lost))
            checks.equal(what, holds, why is None)


# Each order.


def rows_of(history: History) -> list[list[Made]]:
    return [*history.tracks, *(lost.calls for lost in history.lost)]


def stands_before(history: History, one: tuple[int, int], other: tuple[int, int]) -> bool:
    """Whether the first of two calls, each a row and a place in it, has to stand before the other."""
    rows = rows_of(history)
    row, place = one
    if row == other[0]:
        return place < other[1]
    lost = other[0] - len(history.tracks)
    if lost >= 0 and history.lost[lost].track == row and place < history.lost[lost].behind:
        return True
    return rows[row][place].read < rows[other[0]][other[1]].sent


def fits(history: History, order: tuple[tuple[int, int], ...]) -> bool:
    """Whether each call has its answer in this order, and no two stand the other way round."""
    if any(stands_before(history, later, earlier) for earlier, later in itertools.combinations(order, 2)):
        return False
    state, rows = history.start, rows_of(history)
    for row, place in order:
        call = rows[row][place]
        reply, state = call.call.does(state, call.call)
        if row < len(history.tracks) and reply != call.reply:
            return False
    return True


def has_an_order(history: History) -> bool:
    """Tries each order of the answered calls with some of the lost ones."""
    places = [[(row, place) for place in range(len(calls))] for row, calls in enumerate(rows_of(history))]
    answered = list(itertools.chain(*places[: len(history.tracks)]))
    lost = list(itertools.chain(*places[len(history.tracks) :]))
    return any(
        fits(history, order)
        for count in range(len(lost) + 1)
        for some in itertools.combinations(lost, count)
        for order in itertools.permutations([*answered, *some])
    )


def any_call(random: Random, start: State, number: int) -> Call:
    """A call on an entry or a queue, that brings this number if it brings a value."""
    value = b"%d" % number
    if start == ():
        return random.choice([Call(offer, value), Call(offer, value), Call(poll), Call(size), Call(empty)])
    test = b"%d" % random.randrange(1, 6)
    calls = [Call(put, value), Call(put_blindly, value), Call(get), Call(remove), Call(replace_if_same, value, test), Call(empty)]
    return random.choice([*calls, Call(add, number=random.randrange(1, MOST_ADDED))])


def any_reply(random: Random, call: Call) -> Reply:
    """An answer that a call of this kind may have somewhere."""
    if call.does in (put_blindly, empty):
        return None
    if call.does in (offer, replace_if_same):
        return random.random() < 0.5
    if call.does is size:
        return random.randrange(3)
    if call.does is add:
        return number_value(call.number + random.randrange(2))
    return random.choice([None, *(b"%d" % number for number in range(1, 6))])


# Of so many answers one is made up.
MADE_UP = 6


def any_history(random: Random) -> History:
    """Up to five calls of three clients at any times, of which one may be lost. They are executed as they are made, but for answers
    that are made up: so there may be an order, or none."""
    history = History(random.choice([None, ()]), [[], [], []])
    state, ends = history.start, [0, 0, 0]
    lost = random.randrange(10)
    for number in range(1, random.randrange(4, 7)):
        track = random.randrange(3)
        call, sent = any_call(random, history.start, number), ends[track] + random.randrange(3)
        reply, after = call.does(state, call)
        ends[track] = sent + 1 + random.randrange(5)
        if number == lost:
            history.lost.append(Lost(track, len(history.tracks[track]), [Made(call, sent, ends[track])]))
            state = random.choice([state, after])
            ends[track] = sent
            continue
        state = after
        made_up = random.randrange(MADE_UP) == 0
        history.tracks[track].append(Made(call, sent, ends[track], any_reply(random, call) if made_up else reply))
    return history


HISTORIES = 1500


def orders_are_found_as_by_trying_each(checks: Checks) -> None:
    """Of small histories that are made at random, with right answers and wrong ones, the search finds an order exactly where one of
    all orders fits."""
    random = Random(271)
    found = [0, 0]
    for number in range(HISTORIES):
        history = any_history(random)
        holds = has_an_order(history)
        found[holds] += 1
        checks.equal(f"history {number}: {history}", holds, why_not_linear(history) is None)
    checks.at_least("histories with an order", HISTORIES // 5, found[True])
    checks.at_least("histories without one", HISTORIES // 5, found[False])


# Many calls.

CLIENTS, MOST_IN_A_PIPELINE, CALLS = 4, 4, 500


class Run:
    """A run of pipelines on one object that executes their calls one after the other, each client's in their order."""

    def __init__(self, random: Random, start: State) -> None:
        self.random = random
        self.history = History(start, [[] for _ in range(CLIENTS)])
        self.state = start
        self.pending: list[list[Made]] = [[] for _ in range(CLIENTS)]
        self.done = [0] * CLIENTS
        self.now = 0
        self.calls = 0

    def go_on(self, client: int) -> None:
        """The client sends a pipeline, or its next call is executed, or it reads all answers."""
        self.now += 1
        pending, done = self.pending[client], self.done[client]
        if done < len(pending):
            made = pending[done]
            made.reply, self.state = made.call.does(self.state, made.call)
            self.done[client] += 1
            return
        for made in pending:
            made.read = self.now
        self.history.tracks[client] += pending
        self.done[client] = 0
        self.pending[client] = [self.a_call() for _ in range(self.random.randrange(1, MOST_IN_A_PIPELINE))]

    def a_call(self) -> Made:
        self.calls += 1
        return Made(any_call(self.random, self.history.start, self.calls), self.now)


def a_run(random: Random, start: State) -> History:
    """The history of a run of at least so many calls."""
    run = Run(random, start)
    while len(run.history) < CALLS:
        run.go_on(random.randrange(CLIENTS))
    for _ in range(MOST_IN_A_PIPELINE):
        for client in range(CLIENTS):
            if run.pending[client] and run.done[client] < len(run.pending[client]):
                run.go_on(client)
    for client in range(CLIENTS):
        run.go_on(client)
    return run.history


def with_an_old_answer(random: Random, history: History) -> History:
    """The same calls, of which one in the middle shows a value that is long gone."""
    track = random.choice(history.tracks)
    shown = [place for place, made in enumerate(track) if made.call.does in (get, poll) and made.reply is not None]
    early, late = shown[len(shown) // 4], shown[len(shown) // 2]
    track[late] = replace(track[late], reply=track[early].reply)
    return history


def one_wrong_answer_of_many_is_found(checks: Checks) -> None:
    """Runs of five hundred calls have an order, and have none once one answer is another one."""
    for seed, start in itertools.product(range(3), (None, ())):
        history = a_run(Random(seed), start)
        what = f"run {seed} on {'an entry' if start is None else 'a queue'}"
        checks.at_least(f"calls of {what}", CALLS, len(history))
        checks.equal(f"why {what} has no order", None, why_not_linear(history))
        why = why_not_linear(with_an_old_answer(Random(seed), history))
        checks.holds(f"{what} with an old answer", why is not None and "behind" in why, "has no order", why)


TESTS = (
    orders_are_found_where_there_are_some,
    orders_are_found_as_by_trying_each,
    one_wrong_answer_of_many_is_found,
)
