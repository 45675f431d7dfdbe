"""Which partition a key is in. A key's bytes say it: a hash of four bytes, with a sign and the high byte first, where 0 stands
for the one that the server works out of what follows; the number of the key's kind, in four bytes; and the key itself. So a key
that is written from another client, or by `grid compose`, is the same one where its kind and its bytes are: `codecs` has them."""

from __future__ import annotations

from functools import lru_cache
from struct import unpack_from
from typing import Final

PARTITIONS: Final = 271

# A key begins with its hash and the number of its kind, four bytes each.
MARK: Final = 8
SEED: Final = 0x01000193

# Of how many keys the partition is kept, those that were used last, and how long the keys are of which it is.
MOST_KEPT: Final = 65_536
LONGEST_KEPT: Final = 256

_MASK: Final = 0xFFFFFFFF
_FIRST: Final = 0xCC9E2D51
_SECOND: Final = 0x1B873593


def _scrambled(word: int) -> int:
    word = word * _FIRST & _MASK
    return (word << 15 | word >> 17) * _SECOND & _MASK


def murmur3(data: bytes, seed: int = SEED) -> int:
    """Murmur3 in its 32-bit x86 form, without a sign."""
    whole = len(data) >> 2
    state = seed
    for word in unpack_from(f"<{whole}I", data):
        word = word * _FIRST & _MASK
        state ^= (word << 15 | word >> 17) * _SECOND & _MASK
        state = (state << 13 | state >> 19) * 5 + 0xE6546B64 & _MASK
    state ^= _scrambled(int.from_bytes(data[whole << 2 :], "little")) ^ len(data)
    state = (state ^ state >> 16) * 0x85EBCA6B & _MASK
    state = (state ^ state >> 13) * 0xC2B2AE35 & _MASK
    return state ^ state >> 16


def _worked_out(key: bytes) -> int:
    stated = int.from_bytes(key[:4], "big", signed=True)
    if stated == 0:
        number = murmur3(key[MARK:])
        stated = number - 2**32 if number >= 2**31 else number
    # the least number has no absolute value of 32 bits
    return 0 if stated == -(2**31) else abs(stated) % PARTITIONS


_kept = lru_cache(MOST_KEPT)(_worked_out)


def partition_of(key: bytes) -> int:
    """The partition of a key, given as its bytes: by the hash that it states, or else by that of what follows its mark."""
    return _kept(key) if len(key) <= LONGEST_KEPT else _worked_out(key)
