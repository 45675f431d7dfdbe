"""The bytes of the client protocol, as docs/SCRIPTS.md ("A connection", "A session") and docs/PROTOCOL.md (section 15) have
them: what a client sends, what it is answered, and how messages are found in a stream. Numbers have their low byte first."""

from __future__ import annotations

import struct
from dataclasses import dataclass
from enum import IntEnum

PREFIX = b"CP2"
PARTITIONS = 271
HEADER = 6
CLUSTER = "dev"
NO_PARTITION = -1


class Flag(IntEnum):
    BEGINS = 0x8000
    ENDS = 0x4000
    FINAL = 0x2000
    NULL = 0x0400


class Kind(IntEnum):
    """The types of messages; an answer has its message's type and 1 more."""

    ERROR = 0
    AUTHENTICATION = 0x000100
    PING = 0x000B00
    PUT = 0x010100
    GET = 0x010200
    REMOVE = 0x010300
    REPLACE_IF_SAME = 0x010500
    PUT_IF_ABSENT = 0x010E00
    SET = 0x010F00
    EXECUTE = 0x012E00
    OFFER = 0x030100
    SIZE = 0x030300
    POLL = 0x030500
    PEEK = 0x030700


class Refusal(IntEnum):
    """The numbers with which a message is refused."""

    NOT_AUTHENTICATED = 2
    UNKNOWN_TYPE = 3
    UNREADABLE = 4
    WRONG_PARTITION = 5
    BUSY = 6
    LOST = 7
    NOT_PRIMARY = 8
    FROZEN = 9
    NO_MEMORY = 10


@dataclass(frozen=True)
class Key:
    """A key of a map, which states its hash and so its partition."""

    partition: int
    text: str

    @property
    def spelling(self) -> bytes:
        # a hash that isn't 0, whose absolute value modulo 271 is the partition
        return struct.pack(">iI", self.partition + PARTITIONS, 0xFFFFFFF5) + self.text.encode()


def text_value(text: str) -> bytes:
    """A text as a value: eight bytes before it say what it is."""
    return struct.pack(">II", 0, 0xFFFFFFF5) + text.encode()


# Frames and messages.


def frame(payload: bytes, flags: int = 0) -> bytes:
    return struct.pack("<IH", HEADER + len(payload), flags) + payload


def message(*payloads: bytes | None) -> bytes:
    """An unfragmented message of frames with these payloads, or null."""
    last = len(payloads) - 1
    frames = []
    for place, payload in enumerate(payloads):
        flags = (Flag.BEGINS | Flag.ENDS if place == 0 else 0) | (Flag.FINAL if place == last else 0)
        frames.append(frame(payload or b"", flags | (Flag.NULL if payload is None else 0)))
    return b"".join(frames)


def fragment(chain: int, frames: bytes, *, begins: bool = False, ends: bool = False) -> bytes:
    """Frames as a fragment of a chain. The last of the frames has to be final."""
    flags = (Flag.BEGINS if begins else 0) | (Flag.ENDS if ends else 0)
    return frame(struct.pack("<q", chain), flags) + frames


def beginning(kind: int, correlation: int, partition: int = NO_PARTITION) -> bytes:
    """How the first payload of each message begins."""
    return struct.pack("<Iqi", kind, correlation, partition)


# What a client sends.


def authentication(correlation: int = 0, *, client: int | None = 1, cluster: str = CLUSTER) -> bytes:
    number = struct.pack("<?qQ", client is None, 0, client or 0)
    return message(beginning(Kind.AUTHENTICATION, correlation) + number + b"\x01", cluster.encode())


def ping(correlation: int) -> bytes:
    return message(beginning(Kind.PING, correlation))


def on_map(kind: Kind, correlation: int, key: Key, fields: bytes, *frames: bytes, name: str = "m") -> bytes:
    """A call on an entry of a map, with these frames behind its name."""
    return message(beginning(kind, correlation, key.partition) + fields, name.encode(), *frames)


def put(correlation: int, key: Key, value: bytes, *, thread: int = 1, time_to_live: int = 0, name: str = "m") -> bytes:
    fields = struct.pack("<qq", thread, time_to_live)
    return on_map(Kind.PUT, correlation, key, fields, key.spelling, value, name=name)


def put_if_absent(correlation: int, key: Key, value: bytes) -> bytes:
    return on_map(Kind.PUT_IF_ABSENT, correlation, key, struct.pack("<qq", 1, 0), key.spelling, value)


def put_blindly(correlation: int, key: Key, value: bytes) -> bytes:
    """A put whose answer doesn't tell what was there."""
    return on_map(Kind.SET, correlation, key, struct.pack("<qq", 1, 0), key.spelling, value)


def get(correlation: int, key: Key, *, thread: int = 1, name: str = "m") -> bytes:
    return on_map(Kind.GET, correlation, key, struct.pack("<q", thread), key.spelling, name=name)


def remove(correlation: int, key: Key) -> bytes:
    return on_map(Kind.REMOVE, correlation, key, struct.pack("<q", 1), key.spelling)


def replace_if_same(correlation: int, key: Key, test: bytes, value: bytes) -> bytes:
    return on_map(Kind.REPLACE_IF_SAME, correlation, key, struct.pack("<q", 1), key.spelling, test, value)


def add(correlation: int, key: Key, number: int) -> bytes:
    """The processor that adds a number."""
    return on_map(Kind.EXECUTE, correlation, key, struct.pack("<q", 1), struct.pack("<iq", 1, number), key.spelling)


def offer(correlation: int, partition: int, name: str, value: bytes) -> bytes:
    return message(beginning(Kind.OFFER, correlation, partition), name.encode(), value)


def poll(correlation: int, partition: int, name: str) -> bytes:
    return message(beginning(Kind.POLL, correlation, partition), name.encode())


def peek(correlation: int, partition: int, name: str) -> bytes:
    return message(beginning(Kind.PEEK, correlation, partition), name.encode())


def size(correlation: int, partition: int, name: str) -> bytes:
    return message(beginning(Kind.SIZE, correlation, partition), name.encode())


# What it is answered.


def replied(kind: Kind, correlation: int, fields: bytes = b"", *frames: bytes | None) -> bytes:
    """The answer to a message of that type."""
    return message(struct.pack("<Iqx", kind + 1, correlation) + fields, *frames)


def accepted(correlation: int, member: int) -> bytes:
    return replied(Kind.AUTHENTICATION, correlation, struct.pack("<B?qQI", 0, False, 0, member + 1, PARTITIONS))


def declined(correlation: int) -> bytes:
    return replied(Kind.AUTHENTICATION, correlation, struct.pack("<B?qQI", 1, True, 0, 0, PARTITIONS))


def pong(correlation: int) -> bytes:
    return replied(Kind.PING, correlation)


def valued(kind: Kind, correlation: int, value: bytes | None) -> bytes:
    return replied(kind, correlation, b"", value)


def flagged(kind: Kind, correlation: int, flag: bool) -> bytes:
    return replied(kind, correlation, struct.pack("<?", flag))


def numbered(kind: Kind, correlation: int, number: int) -> bytes:
    return replied(kind, correlation, struct.pack("<i", number))


def refused(correlation: int, refusal: int, first: int = 0, second: int = 0) -> bytes:
    """An error with its number and two more: of 5 the stated partition and the key's, of 7 to 9 the row's version and 0."""
    return message(struct.pack("<Iqxiii", Kind.ERROR, correlation, refusal, first, second))


# Reading.


@dataclass(frozen=True)
class Answer:
    """An answer, read: an error's `refusal` and `version`, or else fixed fields and the frames behind the first one."""

    kind: int
    correlation: int
    refusal: int | None
    version: int | None
    fields: bytes
    frames: tuple[bytes | None, ...]

    @property
    def value(self) -> bytes | None:
        """What an answer with one frame gives; None is null."""
        (value,) = self.frames
        return value

    @property
    def flag(self) -> bool:
        (flag,) = struct.unpack("<?", self.fields)
        return flag

    @property
    def number(self) -> int:
        (number,) = struct.unpack("<i", self.fields)
        return number


class NoMessage(ValueError):
    """Bytes that are no message."""


def message_length(stream: bytes | bytearray, start: int = 0) -> int | None:
    """The length of the message that begins there, if all of it is there."""
    at = start
    while at + HEADER <= len(stream):
        length, flags = struct.unpack_from("<IH", stream, at)
        if length < HEADER:
            raise NoMessage(f"a frame of {length} bytes")
        at += length
        if flags & Flag.FINAL and at <= len(stream):
            return at - start
    return None


def payloads_of(whole: bytes) -> list[bytes | None]:
    """The payloads of a message's frames; None is a null."""
    payloads: list[bytes | None] = []
    at = 0
    while at < len(whole):
        length, flags = struct.unpack_from("<IH", whole, at)
        payloads.append(None if flags & Flag.NULL else whole[at + HEADER : at + length])
        at += length
    return payloads


def read_answer(whole: bytes) -> Answer:
    """Reads an answer, which is a whole message."""
    first, *frames = payloads_of(whole)
    if first is None or len(first) < 13:
        raise NoMessage(f"an answer that begins with {first!r}")
    kind, correlation = struct.unpack_from("<Iq", first)
    if kind == Kind.ERROR:
        refusal, version, _ = struct.unpack_from("<iii", first, 13)
        return Answer(kind, correlation, refusal, version, b"", tuple(frames))
    return Answer(kind, correlation, None, None, first[13:], tuple(frames))
