"""What the clients of one grid share: its objects, who leads them, which members crashed, and what became of each call."""

from __future__ import annotations

import itertools
import time
from collections import Counter, defaultdict
from random import Random

from serving.wire import Answer, Refusal

from playing import objects
from playing.linear import NEVER, History, Lost, Made, why_not_linear
from playing.objects import Call, Does
from playing.spelling import Thing, entry, queue, reply_of

# The partitions of all objects. A queue shares its partition with an entry.
PARTITIONS = range(6)

ENTRIES = [entry(partition, "entry") for partition in range(3)]
NUMBERS = [entry(partition, "number") for partition in range(3, 6)]
QUEUES = [queue(partition, "queue") for partition in range(3)]
THINGS = [*ENTRIES, *NUMBERS, *QUEUES]

# How often each call is made, of a hundred calls on its kind of objects.
ON_ENTRIES: dict[Does, int] = {
    objects.put: 35,
    objects.get: 25,
    objects.remove: 13,
    objects.put_if_absent: 11,
    objects.replace_if_same: 11,
    objects.put_blindly: 5,
}
ON_NUMBERS: dict[Does, int] = {objects.add: 60, objects.get: 35, objects.remove: 5}
ON_QUEUES: dict[Does, int] = {objects.offer: 47, objects.poll: 43, objects.peek: 5, objects.size: 5}

MIXES = {**dict.fromkeys(ENTRIES, ON_ENTRIES), **dict.fromkeys(NUMBERS, ON_NUMBERS), **dict.fromkeys(QUEUES, ON_QUEUES)}

# The calls that bring a value, and those that change nothing.
BRING = (objects.put, objects.put_if_absent, objects.put_blindly, objects.replace_if_same, objects.offer)
LOOK = (objects.get, objects.peek, objects.size)

# A call that is refused with one of these isn't executed: another member takes it, or this one does later.
NOT_EXECUTED = (Refusal.BUSY, Refusal.LOST, Refusal.NOT_PRIMARY, Refusal.FROZEN)

# The numbers that are added are so many that none comes twice, and few enough for a sum of 64 bits.
MOST_ADDED = 1 << 48


def now() -> int:
    """This moment, in nanoseconds."""
    return time.monotonic_ns()


class Board:
    """What is known of a grid by those who play on it. Of each object each player has a track, and the operator the last one."""

    def __init__(self, members: int, players: int) -> None:
        self.members = members
        self.tracks: dict[Thing, list[list[Made]]] = {thing: [[] for _ in range(players + 1)] for thing in THINGS}
        self.lost: dict[Thing, list[tuple[int, Lost]]] = defaultdict(list)
        self.leaders: dict[Thing, int | None] = {thing: thing.partition % members for thing in THINGS}
        self.last: dict[Thing, bytes] = dict.fromkeys(THINGS, b"0")
        self.crashes: dict[int, int] = {}
        self.ended: set[int] = set()
        self.values = itertools.count(1)
        self.answered = 0
        self.refused: Counter[int] = Counter()
        self.wrong: list[str] = []

    # What may be called.

    def alive(self) -> list[int]:
        """The members of whose crash nobody knows."""
        return [member for member in range(self.members) if member not in self.crashes]

    def things_at(self, member: int) -> list[Thing]:
        """The objects that this member leads, as far as is known."""
        return [thing for thing, leader in self.leaders.items() if leader in (member, None)]

    def call_on(self, thing: Thing, random: Random) -> Call:
        """A call on this object, whose value no other call brings."""
        mix = MIXES[thing]
        (does,) = random.choices(list(mix), list(mix.values()))
        return Call(
            does,
            value=b"%d" % next(self.values) if does in BRING else b"",
            test=self.last[thing] if does is objects.replace_if_same else b"",
            number=random.randrange(1, MOST_ADDED) if does is objects.add else 0,
        )

    # What came of it.

    def hear(self, player: int, member: int, thing: Thing, made: Made, answer: Answer) -> None:
        """A player heard a member's answer to a call."""
        if answer.refusal is None:
            made.reply = reply_of(made.call, answer)
            self.tracks[thing][player].append(made)
            self.leaders[thing] = member
            self.answered += 1
            if isinstance(made.reply, bytes):
                self.last[thing] = made.reply
            return
        self.refused[answer.refusal] += 1
        if answer.refusal not in NOT_EXECUTED:
            self.wrong.append(f"{made.call} on {thing} is refused with {answer.refusal}")
        elif self.leaders[thing] == member:
            self.leaders[thing] = None

    def lose(self, player: int, member: int, calls: dict[Thing, list[Made]]) -> None:
        """A player's connection to a member ended before these calls were answered."""
        self.ended.add(member)
        for thing, made in calls.items():
            self.lost[thing].append((member, Lost(player, len(self.tracks[thing][player]), made)))
        for thing in self.things_at(member):
            self.leaders[thing] = None

    def reopen(self, partition: int, sent: int, read: int) -> None:
        """The operator had a lost partition opened again between these moments."""
        for thing in THINGS:
            if thing.partition == partition:
                self.tracks[thing][-1].append(Made(Call(objects.empty), sent, read))

    # Whether it is right.

    def history(self, thing: Thing) -> History:
        """The calls on an object. A call that a crashed member didn't answer was executed before the crash, or isn't at all."""
        lost = []
        for member, calls in self.lost[thing]:
            end = self.crashes.get(member, NEVER)
            may_be = [Made(made.call, made.sent, end) for made in calls.calls if made.sent < end and made.call.does not in LOOK]
            lost.append(Lost(calls.track, calls.behind, may_be))
        return History(thing.start, self.tracks[thing], lost)

    def unanswered(self) -> int:
        return sum(len(calls.calls) for lost in self.lost.values() for _, calls in lost)

    def faults(self) -> list[str]:
        """All that isn't as it has to be."""
        found = [*self.wrong]
        found += [f"a connection to member {member}, which hadn't crashed, ended" for member in self.ended - self.crashes.keys()]
        for thing in THINGS:
            why = why_not_linear(self.history(thing))
            found += [f"no order of the calls on {thing}: {why}"] if why else []
        return found
