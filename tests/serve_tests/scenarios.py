"""Scenarios of crates/grid_scenarios over sockets: what a transcript appends to a connection is what its client reads."""

from __future__ import annotations

from collections import defaultdict
from collections.abc import Iterator
from contextlib import ExitStack
from dataclasses import dataclass
from pathlib import Path

from serving.checks import Checks
from serving.client import Client
from serving.server import TOP, Server

DATA = TOP / "crates/grid_scenarios/data"

# Those whose answers don't hang on a clock, but for one with a lease of five milliseconds.
FOLDERS = ("sessions", "streams", "bad_bytes", "outside_bytes", "object_calls", "queues", "processors")
CLOCKED = "object_calls/calls_of_one_line"

# What a server's clients can do, and what prints without an effect on them.
WORDS = {"grid", "open", "bytes", "#", "end", "trail", "dump", "links"}


@dataclass(frozen=True)
class Scenario:
    """A script, and by the numbers of its lines what each one's transcript says."""

    name: str
    lines: list[str]
    texts: dict[int, list[list[str]]]

    @property
    def settings(self) -> list[int]:
        """Members, backups and the capacity of queues."""
        return [int(word) for word in self.lines[0].split(" ")[1:]]

    def is_for_clients(self) -> bool:
        """Whether all that happens comes of clients, and answers wait for no backup."""
        words = {line.split(" ", 1)[0] for line in self.lines}
        return words <= WORDS and self.lines[0].startswith("grid ") and (self.settings[0] == 1 or self.settings[1] == 0)


def read_scenario(script: Path) -> Scenario:
    texts: dict[int, list[list[str]]] = defaultdict(list)
    for text in script.with_suffix(".transcript").read_text().splitlines():
        number, *words = text.split(" ")
        if number.isdecimal():
            texts[int(number)].append(words)
    lines = script.read_text(errors="surrogateescape").removesuffix("\n").split("\n")
    return Scenario(f"{script.parent.name}/{script.stem}", lines, texts)


def scenarios() -> Iterator[Scenario]:
    """The scenarios that clients alone make up, and no clock."""
    for folder in FOLDERS:
        for script in sorted((DATA / folder).glob("*.script")):
            scenario = read_scenario(script)
            if scenario.is_for_clients() and scenario.name != CLOCKED:
                yield scenario


class Player:
    """Plays a scenario to a server."""

    def __init__(self, checks: Checks, server: Server, scenario: Scenario, stack: ExitStack) -> None:
        self.checks = checks
        self.server = server
        self.scenario = scenario
        self.stack = stack
        self.clients: dict[str, Client] = {}

    def play(self) -> None:
        for number, line in enumerate(self.scenario.lines, start=1):
            words = line.split(" ")
            if self.scenario.texts[number][:1] != [["ok"]]:
                continue
            if words[0] == "open":
                self.clients[words[1]] = self.stack.enter_context(self.server.client(int(words[2])))
            elif words[0] == "bytes":
                self.clients[words[1]].send(bytes.fromhex(words[2]))
                self.hear(number)

    def hear(self, number: int) -> None:
        """Compares what the clients are sent with what the line of this number appends."""
        for words in self.scenario.texts[number]:
            what = f"{self.scenario.name}, line {number}"
            if words[0] == "to":
                self.checks.equal(what, words[2], self.clients[words[1]].answer().hex())
            elif words[0] == "close":
                self.checks.equal(f"{what}, the end", b"", self.clients[words[1]].rest())


def scenarios_are_answered_as_their_transcripts_say(checks: Checks) -> None:
    """What the transcripts of scenarios append to a connection is what a client reads there, byte for byte."""
    played = 0
    for scenario in scenarios():
        members, backups, capacity = scenario.settings
        with Server(members=members, backups=backups, capacity=capacity) as server, ExitStack() as stack:
            Player(checks, server, scenario, stack).play()
        played += 1
    checks.at_least("scenarios", 74, played)


TESTS = (scenarios_are_answered_as_their_transcripts_say,)
