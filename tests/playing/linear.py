"""Whether the calls on one object can have happened one after the other, each at a moment between the one before its bytes were
sent and the one when its answer was read: a search for an order in which each has the answer that it had.

It looks for the next call among the first ones of all tracks, as Wing and Gong do, and remembers the places from which no order
goes on. Values of different calls have to differ: so a value that is gone doesn't come back."""

from __future__ import annotations

from bisect import bisect_left
from collections import Counter
from collections.abc import Iterator
from dataclasses import dataclass, field
from itertools import chain
from operator import attrgetter

from playing.objects import Call, Reply, State, add, added_to, empty, get, offer, poll, replace_if_same

# A moment behind all others.
NEVER = 1 << 62


@dataclass
class Made:
    """A call that was made between two moments, and its answer. One without an answer was executed by the second moment, or isn't
    executed at all."""

    call: Call
    sent: int = 0
    read: int = NEVER
    reply: Reply = None

    def __str__(self) -> str:
        return f"{self.call} -> {self.reply!r} ({self.sent} to {self.read})"

    def shows(self) -> bytes | None:
        """The value that was there before, by the answer; None where it tells of none."""
        if self.call.does is replace_if_same and self.reply:
            return self.call.test
        if self.call.does is add and self.reply:
            return added_to(self.reply, self.call.number)
        return self.reply if isinstance(self.reply, bytes) else None


@dataclass
class Lost:
    """Calls without an answer, which a client made in this order behind so many of the answered ones of its track."""

    track: int
    behind: int
    calls: list[Made]


@dataclass
class History:
    """The calls on one object: of each client those that were answered, in its order, and those that weren't."""

    start: State
    tracks: list[list[Made]]
    lost: list[Lost] = field(default_factory=list)

    def __len__(self) -> int:
        return sum(len(track) for track in self.tracks)


class Undecided(Exception):
    """The search took more steps than it may."""


# How many steps a search takes at most. One in which each guess is right takes as many as there are calls.
STEPS, STEPS_FOR_EACH = 2_000_000, 100

# In the place of a call of a track that has no further one.
NO_CALL = Made(Call(get), sent=NEVER)

# A call that may be next: when the value that it brings is first shown, its row, its place there, and what it leaves.
Step = tuple[int, int, int, State]


def shown_first(step: Step) -> int:
    return step[0]


def first_shown(history: History) -> dict[Reply, int]:
    """When each value was first read."""
    shown: dict[Reply, int] = {}
    for track in history.tracks:
        for made in track:
            if isinstance(made.reply, bytes):
                shown[made.reply] = min(made.read, shown.get(made.reply, NEVER))
    return shown


class Line:
    """Values in an order in which they have to be brought."""

    def __init__(self, values: list[bytes]) -> None:
        self.values = values
        self.places = {value: place for place, value in enumerate(values)}
        self.first = 0

    def next(self, brought: set[bytes]) -> bytes | None:
        """The first value that wasn't brought."""
        while self.first < len(self.values) and self.values[self.first] in brought:
            self.first += 1
        return self.values[self.first] if self.first < len(self.values) else None

    def take_back(self, value: bytes) -> None:
        self.first = min(self.first, self.places.get(value, self.first))


class Turns:
    """The order in which values are brought to a queue, as far as it's sure by the calls that took them from it: of each track in
    its order, and of two tracks where one's answer was read before the other's bytes were sent."""

    def __init__(self, tracks: list[list[Made]]) -> None:
        polls = [[made for made in track if made.call.does is poll and made.reply is not None] for track in tracks]
        self.lines = [Line([made.reply for made in track]) for track in polls]
        self.by_read = Line([made.reply for made in sorted(chain(*polls), key=attrgetter("read"))])
        self.taken_by = {made.reply: (line, made) for line, track in zip(self.lines, polls) for made in track}
        self.brought: set[bytes] = set()

    def has_come(self, value: bytes) -> bool:
        """Whether no other value has to be brought before."""
        if value not in self.taken_by:
            return True
        line, made = self.taken_by[value]
        earliest = self.by_read.next(self.brought)
        return line.next(self.brought) == value and self.taken_by[earliest][1].read >= made.sent

    def bring(self, value: bytes) -> None:
        self.brought.add(value)

    def take_back(self, value: bytes) -> None:
        self.brought.discard(value)
        if value in self.taken_by:
            line, _ = self.taken_by[value]
            line.take_back(value)
            self.by_read.take_back(value)


class Search:
    """A search for an order. Its rows are the tracks and then the lists of what was lost; a place in a row is the number of calls
    before it that were taken or passed by."""

    def __init__(self, history: History) -> None:
        self.history = history
        self.rows = [*history.tracks, *(lost.calls for lost in history.lost)]
        self.places = [0] * len(self.rows)
        self.heads = [track[0] if track else NO_CALL for track in history.tracks]
        self.reads = [head.read for head in self.heads]
        self.ends = sorted({made.read for lost in history.lost for made in lost.calls})
        self.state = history.start
        self.latest = 0
        self.left = len(history)
        self.shows = [[made.shows() for made in row] for row in self.rows]
        self.wanted = Counter(chain(*self.shows[: len(self.heads)]))
        self.turns = Turns(history.tracks)
        self.shown = first_shown(history)
        self.taken: list[tuple[int, int, State, int]] = []
        self.dead: set[tuple[object, ...]] = set()
        self.least_left = self.left + 1
        self.stuck = ""

    # The search.

    def finds(self, most_steps: int) -> bool:
        """Whether there is an order."""
        choices = [self.steps()]
        for _ in range(most_steps):
            if self.left == 0:
                return True
            step = next(choices[-1], None)
            if step is not None:
                self.take(step)
                choices.append(self.steps())
                continue
            self.tell_where()
            if not self.taken:
                return False
            choices.pop()
            self.give_up()
        raise Undecided(f"no order was found in {most_steps} steps")

    def where(self) -> tuple[object, ...]:
        """All on which it hangs whether an order goes on from here."""
        return (self.state, self.latest, *self.places)

    def take(self, step: Step) -> None:
        _, row, place, after = step
        made = self.rows[row][place]
        self.taken.append((row, self.places[row], self.state, self.latest))
        self.state = after
        if made.sent > self.latest:
            self.latest = made.sent
        self.places[row] = place + 1
        if made.call.does is offer:
            self.turns.bring(made.call.value)
        if row < len(self.heads):
            self.left -= 1
            self.wanted[self.shows[row][place]] -= 1
            self.look_at(row)

    def give_up(self) -> None:
        """From here no order goes on: the last call is taken back."""
        self.dead.add(self.where())
        row, place, self.state, self.latest = self.taken.pop()
        made = self.rows[row][self.places[row] - 1]
        self.places[row] = place
        if made.call.does is offer:
            self.turns.take_back(made.call.value)
        if row < len(self.heads):
            self.left += 1
            self.wanted[self.shows[row][place]] += 1
            self.look_at(row)

    def look_at(self, row: int) -> None:
        """Keeps the first call of a track that wasn't taken."""
        track, place = self.rows[row], self.places[row]
        self.heads[row] = track[place] if place < len(track) else NO_CALL
        self.reads[row] = self.heads[row].read

    # What may be next.

    def steps(self) -> Iterator[Step]:
        """The calls that may be next and fit, the likely ones first."""
        if self.dead and self.where() in self.dead:
            return
        last = min(self.reads)
        fitting = self.fitting(last)
        yield from fitting
        if self.ends and not (fitting and fitting[0][0] < 0):
            yield from self.fitting_lost(last)

    def fitting(self, last: int) -> list[Step]:
        """The first calls of tracks that may be next, since none of the others was read before they were sent, and that fit. One
        that changes nothing, and with this answer does so anywhere, stands in no call's way if it keeps no lost one out: so it is
        the only one."""
        found = []
        for row, head in enumerate(self.heads):
            if head.sent <= last:
                reply, after = head.call.does(self.state, head.call)
                if reply == head.reply:
                    if after == self.state and head.call.does is not empty and not self.keeps_out(head):
                        return [(-1, row, self.places[row], after)]
                    if self.may_be(head.call, after, self.shows[row][self.places[row]]):
                        found.append((self.when_shown(head.call, after), row, self.places[row], after))
        return sorted(found, key=shown_first)

    def keeps_out(self, made: Made) -> bool:
        """Whether some lost call that may be next may not be next behind this one."""
        place = bisect_left(self.ends, self.latest)
        return place < len(self.ends) and self.ends[place] < made.sent

    def may_be(self, call: Call, after: State, shows: bytes | None) -> bool:
        """Whether a call that leaves this may be next, as far as it's sure: no other answer shows a value that is gone then, and
        what a queue is brought is taken from it in this order."""
        if call.does is offer:
            return self.turns.has_come(call.value)
        gone = self.state[0] if isinstance(self.state, tuple) and self.state else self.state
        return not gone or after == self.state or self.wanted[gone] == (1 if shows == gone else 0)

    def fitting_lost(self, last: int) -> list[Step]:
        """The lost calls that may be next and change what is there. Those before them in their list are passed by."""
        found = []
        for row, lost in enumerate(self.history.lost, start=len(self.heads)):
            if self.places[lost.track] >= lost.behind:
                for place, made in enumerate(lost.calls[self.places[row] :], start=self.places[row]):
                    if made.sent <= last and made.read >= self.latest:
                        _, after = made.call.does(self.state, made.call)
                        if after != self.state and self.may_be(made.call, after, None):
                            found.append((self.when_shown(made.call, after), row, place, after))
        return sorted(found, key=shown_first)

    def when_shown(self, call: Call, after: State) -> int:
        """When the value that a call brings is first read; that of one that brings none counts as read at once."""
        value = call.value or after
        return self.shown.get(value, NEVER) if isinstance(value, bytes) and value else 0

    # What is told.

    def tell_where(self) -> None:
        """Keeps where the search came farthest."""
        if self.left < self.least_left:
            self.least_left = self.left
            last = min(self.reads)
            heads = [f"{row}: {head}" for row, head in enumerate(self.heads) if head.sent <= last and head is not NO_CALL]
            self.stuck = f"behind {len(self.history) - self.left} calls is {self.state!r}, and next may be {'; '.join(heads)}"


def why_not_linear(history: History) -> str | None:
    """Why the calls can't have happened one after the other; None where they can."""
    search = Search(history)
    try:
        return None if search.finds(STEPS_FOR_EACH * len(history) + STEPS) else search.stuck
    except Undecided as error:
        return f"{error}; {search.stuck}"
