"""The bytes between a client and a member: requests as they are sent, and answers as they are read. A message is a list of
frames; a frame is its length in four bytes, its flags in two, and its payload. Numbers have their low byte first."""

from __future__ import annotations

import struct
from collections.abc import Callable, Sequence
from enum import IntEnum, IntFlag
from typing import Final, TypeAlias, cast

from .errors import ProtocolFault, Refused, TooLarge, refusal_of
from .partitions import PARTITIONS

PREFIX: Final = b"CP2"
NO_PARTITION: Final = -1

_HEADER: Final = struct.Struct("<IH")
# A request's first frame, up to its fields, and an answer's.
_BEGINNING: Final = struct.Struct("<IHIqi")
_REPLY: Final = struct.Struct("<IHIqx")
_ERROR: Final = struct.Struct("<iii")
_FIRST: Final = _BEGINNING.size
_FIRST_REPLY: Final = _REPLY.size
_header, _headers, _beginning, _reply = _HEADER.pack, _HEADER.unpack_from, _BEGINNING.pack, _REPLY.unpack_from

MOST_OF_A_FRAME: Final = 1_048_576
MOST_OF_A_MESSAGE: Final = 2_097_152


class Flag(IntFlag):
    """The flags of a frame that a client needs."""

    WHOLE = 0xC000
    FINAL = 0x2000
    NULL = 0x0400


_WHOLE, _FINAL, _NULL = int(Flag.WHOLE), int(Flag.FINAL), int(Flag.NULL)


class Kind(IntEnum):
    """The types of requests. An answer has its request's type and 1 more, and an error 0."""

    AUTHENTICATION = 0x000100
    PUT = 0x010100
    SET = 0x010F00
    PUT_IF_ABSENT = 0x010E00
    PUT_MAX_IDLE = 0x016000
    SET_MAX_IDLE = 0x016100
    GET = 0x010200
    CONTAINS_KEY = 0x010600
    REMOVE = 0x010300
    DELETE = 0x010900
    REPLACE = 0x010400
    REPLACE_IF_SAME = 0x010500
    REMOVE_IF_SAME = 0x010800
    EXECUTE_ON_KEY = 0x012E00
    TRY_LOCK = 0x011100
    IS_LOCKED = 0x011200
    UNLOCK = 0x011300
    FORCE_UNLOCK = 0x013300
    OFFER = 0x030100
    POLL = 0x030500
    PEEK = 0x030700
    SIZE = 0x030300
    REMAINING_CAPACITY = 0x031300
    CLEAR = 0x030F00


READS: Final = frozenset({Kind.GET, Kind.CONTAINS_KEY, Kind.IS_LOCKED, Kind.PEEK, Kind.SIZE, Kind.REMAINING_CAPACITY})


class Request:
    """A request: its type, its partition, its fixed fields, and the frames behind the first. Where a call takes something out of
    the grid, `keeps` is given that where its caller is interrupted, and `came` is its answer once that is there."""

    __slots__ = ("came", "fields", "frames", "keeps", "kind", "partition")

    def __init__(
        self,
        kind: Kind,
        partition: int = NO_PARTITION,
        fields: bytes = b"",
        frames: Sequence[bytes] = (),
        keeps: Callable[[bytes], None] | None = None,
    ) -> None:
        self.kind = kind
        self.partition = partition
        self.fields = fields
        self.frames = frames
        self.keeps = keeps
        self.came: Answer | None = None

    @property
    def is_read(self) -> bool:
        """Whether it changes nothing that a caller stored."""
        return self.kind in READS

    def spelled(self, correlation: int) -> bytes:
        """Its bytes, under this correlation."""
        frames, fields = self.frames, self.fields
        flags = _WHOLE if frames else _WHOLE | _FINAL
        parts = [_beginning(_FIRST + len(fields), flags, self.kind, correlation, self.partition), fields]
        for payload in frames:
            parts += (_header(6 + len(payload), 0), payload)
        if frames:
            parts[-2] = _header(6 + len(frames[-1]), _FINAL)
        message = b"".join(parts)
        if len(message) > MOST_OF_A_FRAME:
            self.check_size()
        return message

    @property
    def length(self) -> int:
        """How many bytes it has, as a message."""
        return _FIRST + len(self.fields) + sum(map(len, self.frames)) + 6 * len(self.frames)

    def check_size(self) -> None:
        """`TooLarge` where it doesn't fit a message."""
        length = self.length
        if length <= MOST_OF_A_FRAME:
            return
        for payload in self.frames:
            if _HEADER.size + len(payload) > MOST_OF_A_FRAME:
                raise TooLarge(f"{len(payload)} bytes don't fit a frame, which has {MOST_OF_A_FRAME - _HEADER.size} at most")
        if length > MOST_OF_A_MESSAGE:
            raise TooLarge(f"a message of {length} bytes: {MOST_OF_A_MESSAGE} are the most")


_NUMBERS: Final = tuple(struct.Struct(f"<{count}q") for count in range(4))


def numbers(*given: int) -> bytes:
    """Up to three fixed fields of eight bytes each, with a sign."""
    return _NUMBERS[len(given)].pack(*given)


def authentication(cluster: str, client: int) -> Request:
    """A client of that number makes itself known."""
    high, low = divmod(client, 2**64)
    return Request(Kind.AUTHENTICATION, fields=struct.pack("<?QQB", False, high, low, 1), frames=(cluster.encode(),))


class Answer:
    """An answer: its fixed fields, the frames behind the first, where None is null, and why the call was refused, if it was."""

    __slots__ = ("fields", "frames", "refusal")

    def __init__(self, fields: bytes, frames: Sequence[bytes | None], refusal: Refused | None = None) -> None:
        self.fields = fields
        self.frames = frames
        self.refusal = refusal

    def flag(self) -> bool:
        return bool(self._field("<B"))

    def number(self) -> int:
        return self._field("<i")

    def value(self) -> bytes | None:
        if len(self.frames) != 1:
            raise ProtocolFault(f"an answer of {len(self.frames)} frames in place of a value")
        return self.frames[0]

    def nothing(self) -> None:
        """What a call gives that gives nothing."""

    def version(self) -> str | None:
        """The version that a server tells as it accepts a client, or None. It is a text, the last of its frames."""
        told = self.frames[-1] if self.frames else None
        return told.decode(errors="replace") if told else None

    def check_accepted(self) -> bool:
        """Whether an authentication was accepted. The grid has to have as many partitions as this client reckons with."""
        partitions = self._field("<18xI")
        if partitions != PARTITIONS:
            raise ProtocolFault(f"a grid of {partitions} partitions in place of {PARTITIONS}")
        return self._field("<B") == 0

    def _field(self, form: str) -> int:
        try:
            (number,) = struct.unpack_from(form, self.fields)
        except struct.error as error:
            raise ProtocolFault(f"an answer with the fields {self.fields!r}") from error
        return int(number)


def message_length(stream: bytes | bytearray, start: int = 0) -> int | None:
    """The length of the message that begins there, if all of it is there."""
    at, end = start, len(stream)
    while at + 6 <= end:
        length, flags = _headers(stream, at)
        if length < 6:
            raise ProtocolFault(f"a frame of {length} bytes")
        at += length
        if flags & _FINAL:
            return at - start if at <= end else None
    return None


class Inbox:
    """What has come on a connection. A message stays here until it was handled, also where that is interrupted: then it is handled
    again."""

    __slots__ = ("pieces",)

    def __init__(self) -> None:
        self.pieces: list[bytes] = []

    def handle(self, take: Callable[[bytes], None]) -> None:
        """Has each message taken that is whole."""
        has = self.pieces[0] if len(self.pieces) == 1 else b"".join(self.pieces)
        at, end = 0, len(has)
        while at < end and (length := message_length(has, at)) is not None:
            take(has[at : at + length])
            at += length
        self.pieces[:] = (has[at:],) if at < end else ()


Head: TypeAlias = tuple[int, int, int, int]
"""How an answer begins: where its first frame ends, that frame's flags, its type, and to which message it is the answer."""


def head_of(message: bytes) -> Head:
    """How an answer begins."""
    try:
        head = cast("Head", _reply(message))
    except struct.error:
        raise ProtocolFault(f"an answer that begins with {message[:40]!r}") from None
    if head[0] < _FIRST_REPLY or head[1] & _NULL:
        raise ProtocolFault(f"an answer that begins with {message[:40]!r}")
    return head


def read_answer(message: bytes, head: Head, request: Request) -> Answer:
    """The answer to that request."""
    at, _, kind, correlation = head
    fields = message[_FIRST_REPLY:at]
    frames: list[bytes | None] = []
    end = len(message)
    while at < end:
        length, flags = _headers(message, at)
        frames.append(None if flags & _NULL else message[at + 6 : at + length])
        at += length
    if kind == request.kind + 1:
        return Answer(fields, frames)
    if kind != 0:
        raise ProtocolFault(f"an answer of type {kind:#x} to message {correlation} of type {request.kind:#x}")
    if len(fields) < _ERROR.size:
        raise ProtocolFault(f"an error with the fields {fields!r}")
    number, one, other = _ERROR.unpack_from(fields)
    return Answer(fields, frames, refusal_of(number, (one, other)))
