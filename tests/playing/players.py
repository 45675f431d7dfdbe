"""Clients that send pipelines: each has one connection at a time, sends sixteen calls in one write, reads their answers, and goes
on. One thread plays all of them."""

from __future__ import annotations

import selectors
import threading
import time
from collections import defaultdict, deque
from random import Random

from serving import wire
from serving.client import PATIENCE, Client, Ended, known_client

from playing.board import THINGS, Board, now
from playing.linear import Made
from playing.spelling import Thing

# How many calls a pipeline has.
LENGTH = 16

# Of so many calls one is on any object, be it led elsewhere; and behind so many pipelines a player moves to another member.
STRAYS, STAYS = 16, 40

# How long a player rests whose calls were all refused, and how long all wait for an answer at most, in seconds.
PAUSE, TURN = 0.002, 0.002


class OutOfOrder(Exception):
    """An answer came out of its turn."""


class Player:
    """A client. What it has sent and has no answer to is pending, in its order."""

    def __init__(self, players: Players, number: int, seed: int) -> None:
        self.players = players
        self.board = players.board
        self.number = number
        self.random = Random(f"{seed} {number}")
        self.pending: deque[tuple[int, Thing, Made]] = deque()
        self.taken = 0
        self.rests_until = 0.0
        self.client: Client | None = None
        self.settle()

    # Where it calls.

    def settle(self) -> None:
        """Goes to a member that leads something, if one is known, or else to any that lives."""
        self.leave()
        alive = self.board.alive()
        leading = [leader for leader in self.board.leaders.values() if leader in alive]
        self.member = self.random.choice(leading or alive)
        self.client = known_client(self.players.port + self.member, self.number)
        self.players.selector.register(self.client.socket, selectors.EVENT_READ, self)

    def leave(self) -> None:
        if self.client is not None:
            self.players.selector.unregister(self.client.socket)
            self.client.close()
            self.client = None

    # What it says.

    def is_free(self) -> bool:
        return not self.pending and time.monotonic() >= self.rests_until

    def say(self) -> None:
        """Sends a pipeline in one write."""
        things = self.board.things_at(self.member) or THINGS
        self.taken = 0
        messages = []
        for _ in range(LENGTH):
            thing = self.random.choice(things if self.random.randrange(STRAYS) else THINGS)
            made = Made(self.board.call_on(thing, self.random))
            number = self.client.next_number()
            self.pending.append((number, thing, made))
            messages.append(thing.spelled(made.call, number))
        sent = now()
        for _, _, made in self.pending:
            made.sent = sent
        try:
            self.client.send(*messages)
        except Ended:
            self.lose()

    # What it hears.

    def hear(self) -> None:
        """Takes the answers that have come, or loses the connection."""
        if self.client.receive() == 0:
            self.lose()
            return
        read = now()
        while wire.message_length(self.client.has) is not None:
            self.take(wire.read_answer(self.client.answer()), read)
        if not self.pending:
            self.go_on()

    def take(self, answer: wire.Answer, read: int) -> None:
        number, thing, made = self.pending.popleft() if self.pending else (None, None, None)
        if answer.correlation != number:
            raise OutOfOrder(f"the answer to call {answer.correlation} came in place of that to {number}")
        made.read = read
        self.taken += answer.refusal is None
        self.board.hear(self.number, self.member, thing, made, answer)

    def go_on(self) -> None:
        """All is answered. A player who is refused everything rests, and looks elsewhere."""
        if self.taken == 0:
            self.rests_until = time.monotonic() + PAUSE
        if self.taken == 0 or self.random.randrange(STAYS) == 0:
            self.settle()

    def lose(self) -> None:
        """The connection ended: what is pending has no answer."""
        calls = defaultdict(list)
        for _, thing, made in self.pending:
            calls[thing].append(made)
        self.pending.clear()
        self.board.lose(self.number, self.member, calls)
        self.rests_until = time.monotonic() + PAUSE
        self.settle()


class Players(threading.Thread):
    """So many players, on a thread of their own. They go on until they are told to end, and then wait for their answers."""

    def __init__(self, board: Board, port: int, count: int, seed: int) -> None:
        super().__init__(daemon=True)
        self.board = board
        self.port = port
        self.selector = selectors.DefaultSelector()
        self.ends = threading.Event()
        self.players = [Player(self, number, seed) for number in range(count)]

    def __enter__(self) -> Players:
        self.start()
        return self

    def __exit__(self, *_: object) -> None:
        self.ends.set()
        self.join(2 * PATIENCE)
        if self.is_alive():
            self.board.wrong.append("the players didn't end")

    def run(self) -> None:
        try:
            while not self.ends.is_set():
                self.turn()
            self.wait_for_answers()
        except Exception as error:  # told with all that is wrong
            self.board.wrong.append(f"{type(error).__name__}: {error}")
        finally:
            for player in self.players:
                player.leave()
            self.selector.close()

    def turn(self) -> None:
        """Each player who has heard something takes it, and each who is free sends a pipeline."""
        self.listen()
        for player in self.players:
            if player.is_free():
                player.say()

    def listen(self) -> None:
        for key, _ in self.selector.select(TURN):
            key.data.hear()

    def wait_for_answers(self) -> None:
        end = time.monotonic() + PATIENCE
        while any(player.pending for player in self.players):
            if time.monotonic() > end:
                raise TimeoutError(f"calls weren't answered within {PATIENCE:.0f} seconds")
            self.listen()
