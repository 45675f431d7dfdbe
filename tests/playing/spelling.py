"""Objects by their names, and their calls as messages."""

from __future__ import annotations

from collections.abc import Callable
from dataclasses import dataclass
from operator import attrgetter

from serving import wire
from serving.wire import Answer, Key

from playing import objects
from playing.objects import Call, Does, Reply, State


@dataclass(frozen=True)
class Thing:
    """An entry of a map or a queue, in its partition."""

    start: State
    partition: int
    name: str

    def __str__(self) -> str:
        return f"{self.name} in {self.partition}"

    def spelled(self, call: Call, correlation: int) -> bytes:
        """The message of a call on it."""
        return SPELLED[call.does](self, call, correlation)

    @property
    def key(self) -> Key:
        return Key(self.partition, self.name)


def entry(partition: int, name: str) -> Thing:
    return Thing(None, partition, name)


def queue(partition: int, name: str) -> Thing:
    return Thing((), partition, name)


SPELLED: dict[Does, Callable[[Thing, Call, int], bytes]] = {
    objects.put: lambda it, call, number: wire.put(number, it.key, call.value),
    objects.put_if_absent: lambda it, call, number: wire.put_if_absent(number, it.key, call.value),
    objects.put_blindly: lambda it, call, number: wire.put_blindly(number, it.key, call.value),
    objects.get: lambda it, call, number: wire.get(number, it.key),
    objects.remove: lambda it, call, number: wire.remove(number, it.key),
    objects.replace_if_same: lambda it, call, number: wire.replace_if_same(number, it.key, call.test, call.value),
    objects.add: lambda it, call, number: wire.add(number, it.key, call.number),
    objects.offer: lambda it, call, number: wire.offer(number, it.partition, it.name, call.value),
    objects.poll: lambda it, call, number: wire.poll(number, it.partition, it.name),
    objects.peek: lambda it, call, number: wire.peek(number, it.partition, it.name),
    objects.size: lambda it, call, number: wire.size(number, it.partition, it.name),
}

# How an answer is read, where it isn't a value.
READ: dict[Does, Callable[[Answer], Reply]] = {
    objects.put_blindly: lambda _: None,
    objects.replace_if_same: attrgetter("flag"),
    objects.offer: attrgetter("flag"),
    objects.size: attrgetter("number"),
}


def reply_of(call: Call, answer: Answer) -> Reply:
    """What an answer that is no error says."""
    return READ.get(call.does, attrgetter("value"))(answer)
