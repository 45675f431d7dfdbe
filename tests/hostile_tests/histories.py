"""What a transcript says of the calls of a run: which were answered, and which stand in the histories at its end."""

from __future__ import annotations

from collections import Counter
from dataclasses import dataclass

from serving import wire
from serving.wire import Kind, Refusal

# What is answered of no call on an object, and what a call is refused with that is in no history.
NO_CALLS = (Kind.AUTHENTICATION + 1, Kind.PING + 1)
IN_NO_HISTORY = range(Refusal.NOT_AUTHENTICATED, Refusal.NO_MEMORY + 1)

# Without the line of an answer.
NOT_ANSWERED = "-"


@dataclass(frozen=True)
class Reply:
    """A reply that was given out: on which connection, at which line, and its bytes."""

    connection: str
    line: str
    digits: str

    def is_of_a_call(self) -> bool:
        """Whether a call was executed for it, be it that the object refused it."""
        answer = wire.read_answer(bytes.fromhex(self.digits))
        return answer.kind not in NO_CALLS and answer.refusal not in IN_NO_HISTORY


@dataclass(frozen=True)
class Entry:
    """A call in a history: its connection and its number there, the line of its answer, and its reply."""

    connection: str
    number: str
    answered: str
    digits: str

    @property
    def call(self) -> str:
        return f"message {self.number} of connection {self.connection}"

    @property
    def reply(self) -> Reply:
        return Reply(self.connection, self.answered, self.digits)


def lines_of(transcript: str, word: str) -> list[list[str]]:
    """The words of the lines of this kind, each with the number of its line."""
    return [words for line in transcript.splitlines() if (words := line.split(" "))[1:2] == [word]]


def replies_of(transcript: str) -> list[Reply]:
    """The replies to executed calls that a transcript gives out."""
    told = [Reply(connection, line, digits) for line, _, connection, digits in lines_of(transcript, "to")]
    return [reply for reply in told if reply.is_of_a_call()]


def entries_of(transcript: str) -> list[Entry]:
    """The calls in the histories at a transcript's end, reopenings left out."""
    *_, last = transcript.splitlines()
    end, _ = last.split(" ", 1)
    entries = [words for words in lines_of(transcript, "entry") if words[0] == end and words[4] != "-"]
    return [Entry(words[4], words[5], words[7], words[-1].removeprefix("x")) for words in entries]


def why_wrong(transcript: str) -> list[str]:
    """How a transcript breaks the rule that each call with a reply, other than an error of those that are in no history, has
    one entry with that reply, that no other entry was answered, and that no call has two entries."""
    entries = entries_of(transcript)
    given = Counter(replies_of(transcript))
    kept = Counter(entry.reply for entry in entries if entry.answered != NOT_ANSWERED)
    calls = Counter(entry.call for entry in entries)
    return [
        *(f"no entry of {reply}" for reply in given - kept),
        *(f"no reply of {reply}" for reply in kept - given),
        *(f"{count} entries of {call}" for call, count in calls.items() if count > 1),
    ]
