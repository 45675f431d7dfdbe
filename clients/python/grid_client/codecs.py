"""How keys and values become bytes. The grid keeps bytes alone; a codec says what they mean.

A codec may have a mark: eight bytes that stand before its own and say of which kind they are. They are a hash, which is 0 so that
the server works it out, and the number of the kind, both with the high byte first. A value has the mark of its codec, if it has
one, and a key has one in any case: so what is written here meets what another client writes, or the words of `grid compose`.

| Codec | Kind | Behind the mark | In words |
|---|---|---|---|
| `TEXT` | -11 | UTF-8 | `text:anna` |
| `NUMBERS` | -8 | eight bytes with a sign, the high byte first | `number:5` |
| `JSON` | -130 | JSON in UTF-8, without spaces, and with its names in order | |
| `BYTES` and codecs without a mark | -12 as a key; a value has no mark | the bytes | `hex:00000000fffffff4..`; `hex:..` |

The partition of a key is worked out from these bytes, by `partitions.partition_of`."""

from __future__ import annotations

import json
import struct
from abc import ABC, abstractmethod
from functools import lru_cache
from typing import Any, ClassVar, Final, Generic, TypeVar

from .errors import UnreadableValue
from .partitions import LONGEST_KEPT, MOST_KEPT, partition_of

T = TypeVar("T")


def mark_of(kind: int) -> bytes:
    """The mark of a kind."""
    return struct.pack(">Ii", 0, kind)


BYTE_KEYS: Final = mark_of(-12)

LEAST_NUMBER: Final = -(2**63)
MOST_NUMBER: Final = 2**63 - 1


def shortly(value: object) -> str:
    """A value as a message shows it."""
    told = repr(value)
    return told if len(told) <= 80 else f"{told[:77]}..."


class Codec(ABC, Generic[T]):
    """Turns values into bytes, and bytes back. Write one of your own by `encode` and `decode`."""

    mark: ClassVar[bytes] = b""

    @abstractmethod
    def encode(self, value: T) -> bytes:
        """The bytes of a value, without the mark. A `TypeError` where it is none that the codec carries, and a `ValueError` where
        it is too large a one."""

    @abstractmethod
    def decode(self, data: bytes) -> T:
        """The value of these bytes, without the mark. A `ValueError` where they have none."""

    def to_value(self, value: T) -> bytes:
        """The bytes that the grid keeps of a value."""
        return self.mark + self.encode(value)

    def to_key(self, key: T) -> bytes:
        """The bytes of a key: a key has a mark in any case."""
        return (self.mark or BYTE_KEYS) + self.encode(key)

    def place_key(self, key: T) -> tuple[bytes, int]:
        """The bytes of a key, and its partition."""
        spelled = self.to_key(key)
        return spelled, partition_of(spelled)

    def from_value(self, data: bytes) -> T:
        """The value that the grid keeps as these bytes. Else an `UnreadableValue`."""
        try:
            return self.decode(self._unmarked(data))
        except ValueError as error:
            raise UnreadableValue(f"{type(self).__name__} can't read {data[:40]!r}: {error}", data) from error

    def _unmarked(self, data: bytes) -> bytes:
        if not data.startswith(self.mark):
            raise ValueError("the bytes are of another kind")
        return data[len(self.mark) :]

    def _refusal(self, carries: str, value: object) -> TypeError:
        return TypeError(f"{type(self).__name__} carries {carries}, and {shortly(value)} is of type {type(value).__name__}")


class BytesCodec(Codec[bytes]):
    """Bytes as they are."""

    def encode(self, value: bytes) -> bytes:
        if not isinstance(value, (bytes, bytearray, memoryview)):
            raise self._refusal("bytes", value)
        return bytes(value)

    def decode(self, data: bytes) -> bytes:
        return data


class TextCodec(Codec[str]):
    """A text, in UTF-8 behind its mark."""

    mark = mark_of(-11)

    def encode(self, value: str) -> bytes:
        if not isinstance(value, str):
            raise self._refusal("texts", value)
        return value.encode()

    def decode(self, data: bytes) -> str:
        return data.decode()


    def place_key(self, key: str) -> tuple[bytes, int]:
        if type(key) is str and len(key) <= LONGEST_KEPT:
            return _kept_texts(key)
        return super().place_key(key)


@lru_cache(MOST_KEPT)
def _kept_texts(key: str) -> tuple[bytes, int]:
    spelled = TextCodec.mark + key.encode()
    return spelled, partition_of(spelled)


class NumberCodec(Codec[int]):
    """A whole number from -2**63 to 2**63 - 1, as the processors of the grid count with it."""

    mark = mark_of(-8)

    def encode(self, value: int) -> bytes:
        if not isinstance(value, int) or isinstance(value, bool):
            raise self._refusal("whole numbers", value)
        if not LEAST_NUMBER <= value <= MOST_NUMBER:
            raise ValueError(f"{value} has more than 64 bits")
        return struct.pack(">q", value)

    def decode(self, data: bytes) -> int:
        if len(data) != 8:
            raise ValueError(f"a number has 8 bytes, and these are {len(data)}")
        return int.from_bytes(data, "big", signed=True)


class JsonCodec(Codec[Any]):
    """What JSON carries: None, truth values, numbers, texts, and lists and dicts of them whose names are texts. What would come
    back as something else is refused, as a tuple, a set, or a dict with numbers for names. Equal keys have equal bytes."""

    mark = mark_of(-130)

    def encode(self, value: Any) -> bytes:
        self._check(value)
        text = json.dumps(value, ensure_ascii=False, allow_nan=False, sort_keys=True, separators=(",", ":"), check_circular=False)
        return text.encode()

    def decode(self, data: bytes) -> Any:
        return json.loads(data.decode())

    def _check(self, value: Any) -> None:
        """A `TypeError` where a value, or a part of it, isn't one of JSON."""
        if isinstance(value, dict):
            for name, part in value.items():
                if type(name) is not str:
                    raise self._refusal("dicts whose names are texts", name)
                self._check(part)
        elif type(value) is list:
            for part in value:
                self._check(part)
        elif value is not None and type(value) not in (str, int, float, bool):
            raise self._refusal("None, truth values, numbers, texts, lists and dicts", value)


BYTES: Final = BytesCodec()
TEXT: Final = TextCodec()
NUMBERS: Final = NumberCodec()
JSON: Final = JsonCodec()
