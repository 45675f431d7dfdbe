"""Codecs, keys' partitions, and how large a message may be."""

from __future__ import annotations

import struct
from typing import Any, cast

from grid_client import BYTES, JSON, NUMBERS, TEXT, Codec, TooLarge, UnreadableValue, partition_of, partitions
from grid_client.partitions import murmur3
from serving.checks import Checks
from serving.server import Server, run_program

from client_tests.shared import client_of, raises

# Of Murmur3 in its 32-bit x86 form, as they are known: a text, a seed, and the hash.
HASHES = (
    (b"", 0, 0x00000000),
    (b"", 1, 0x514E28B7),
    (b"", 0xFFFFFFFF, 0x81F16F39),
    (b"test", 0, 0xBA6BD213),
    (b"test", 0x9747B28C, 0x704B81DC),
    (b"Hello, world!", 0, 0xC0363E43),
    (b"Hello, world!", 0x9747B28C, 0x24884CBA),
    (b"The quick brown fox jumps over the lazy dog", 0, 0x2E4FF723),
    (b"The quick brown fox jumps over the lazy dog", 0x9747B28C, 0x2FA826CD),
)


class Commas(Codec[list[str]]):
    """Lists of words, with commas between them, as a user may write it."""

    def encode(self, value: list[str]) -> bytes:
        if not isinstance(value, list):
            raise TypeError("only lists of words are carried")
        return ",".join(value).encode()

    def decode(self, data: bytes) -> list[str]:
        return data.decode().split(",")


def hashes_are_murmur3(checks: Checks) -> None:
    """Known hashes, and the partitions of keys that state their hash."""
    for text, seed, wanted in HASHES:
        checks.equal(f"the hash of {text!r} with {seed:#x}", f"{wanted:#x}", f"{murmur3(text, seed):#x}")
    stated = [(5, 5), (271, 0), (-5, 5), (-(2**31), 0), (2**31 - 1, (2**31 - 1) % 271)]
    for number, wanted in stated:
        key = number.to_bytes(4, "big", signed=True) + bytes(4)
        checks.equal(f"the partition of a key with the hash {number}", wanted, partition_of(key))


def the_server_finds_the_same_partitions(checks: Checks) -> None:
    """A server refuses a call that states another partition than its key's. It takes those of keys of any length and kind."""
    texts = [f"{'k' * (number % 7)}{number}\u00e4" for number in range(40)]
    with Server(members=1, backups=0) as server, client_of(server) as client:
        m = client.map("m", values=TEXT)
        n = client.map("m", keys=NUMBERS, values=TEXT)
        for text in texts:
            m[text] = text
        for number in (0, 1, -1, 2**63 - 1, -(2**63)):
            n[number] = str(number)
        checks.equal("what is read of them", texts, [m.get(text) for text in texts])
    partitions = {partition_of(TEXT.to_key(text)) for text in texts}
    checks.at_least("partitions of forty keys", 30, len(partitions))


def codecs_read_what_they_write(checks: Checks) -> None:
    """What was written is read, and what wasn't is refused."""
    for text in ("", "text", "\u00e4\u20ac\U0001f600"):
        checks.equal(f"the text {text!r}", text, TEXT.from_value(TEXT.to_value(text)))
    for number in (0, 1, -1, 2**63 - 1, -(2**63)):
        checks.equal(f"the number {number}", number, NUMBERS.from_value(NUMBERS.to_value(number)))
    checks.equal("a number's bytes", bytes.fromhex("00000000fffffff80000000000000005"), NUMBERS.to_value(5))
    checks.equal("a text's bytes", bytes.fromhex("00000000fffffff576"), TEXT.to_value("v"))
    checks.equal("bytes", b"\xff", BYTES.from_value(BYTES.to_value(b"\xff")))
    for number in (2**63, -(2**63) - 1):
        raises(checks, f"the number {number}", ValueError, NUMBERS.to_value, number)
    faulty: list[tuple[Codec[Any], bytes]] = [
        (TEXT, b"plain"),
        (TEXT, TEXT.mark + b"\xff"),
        (NUMBERS, NUMBERS.mark + b"7 bytes"),
        (NUMBERS, TEXT.to_value("5")),
    ]
    for codec, data in faulty:
        raises(checks, f"{data!r}", UnreadableValue, codec.from_value, data)


def codecs_refuse_what_they_do_not_carry(checks: Checks) -> None:
    """A value or a key of another type raises a `TypeError` that names the key and the codec, and nothing is stored or sent."""
    nothing_of_json: list[Any] = [(1, 2), {1: "a"}, {"a": {2}}, b"bytes", [object()], 1j]
    refused: list[tuple[Codec[Any], list[Any]]] = [
        (BYTES, ["text", 5, [1, 2], None, 1.5]),
        (TEXT, [b"bytes", 5, ["a"], None, 1.5]),
        (NUMBERS, ["5", 1.5, [5], None, b"5", True]),
        (JSON, nothing_of_json),
    ]
    with Server(members=1, backups=0) as server, client_of(server) as client:
        for codec, values in refused:
            m, name = client.map("m", values=codec), type(codec).__name__
            for value in values:
                error = raises(checks, f"{value!r} by {name}", TypeError, m.put, "anna", value)
                checks.holds(f"what is told of {value!r}", "'anna'" in str(error) and name in str(error), "key and codec", error)
                raises(checks, f"{value!r} in a queue by {name}", TypeError, client.queue("q", values=codec).offer, value)
                raises(checks, f"the key {value!r} by {name}", TypeError, client.map("m", keys=codec).get, value)
        raises(checks, "a number to be added that is none", TypeError, client.map("m", values=NUMBERS).add, "anna", cast(int, 1.5))
        raises(checks, "a text that UTF-8 hasn't", ValueError, client.map("m", values=TEXT).put, "anna", "\ud800")
        raises(checks, "a number that JSON hasn't", ValueError, client.map("m", values=JSON).put, "anna", float("nan"))
        checks.equal("what is stored", (None, 0), (client.map("m").get("anna"), client.queue("q").size()))


def json_comes_back_as_it_was(checks: Checks) -> None:
    """What JSON carries is read as it was written, and keys that are equal are one key."""
    parts: list[Any] = [True, False, 0, -5, 2**70, 1.5, "", "\u00e4\u20ac", [], {}, [1, [2, {"a": None}]]]
    values = [*parts, {"b": 1, "a": [True]}]
    with Server(members=1, backups=0) as server, client_of(server) as client:
        m = client.map("m", keys=JSON, values=JSON)
        for value in values:
            m[value] = value
            checks.equal(f"{value!r}", (value, type(value)), (m[value], type(m[value])))
        checks.equal("an equal key", {"b": 1, "a": [True]}, m[{"a": [True], "b": 1}])
        checks.equal("its bytes", JSON.mark + b'{"a":[true],"b":1}', JSON.to_key({"b": 1, "a": [True]}))
        client.map("m", keys=JSON)["faulty"] = JSON.mark + b"no JSON"
        raises(checks, "what isn't JSON", UnreadableValue, m.__getitem__, "faulty")


def keys_are_those_of_words(checks: Checks) -> None:
    """Keys have the bytes that `grid compose` gives the same words, so they meet."""
    script = b"grid 1 0 10\nopen 0 0\nsay 0 hello client 7\nsay 0 get m text:anna\nsay 0 get m number:-5\nend\n"
    composed = run_program(["compose"], script).out
    for key in (TEXT.to_key("anna"), NUMBERS.to_key(-5)):
        checks.holds(f"the key {key.hex()} and its partition", key.hex() in composed, "in the script", composed)
        checks.holds("its partition", struct.pack("<i", partition_of(key)).hex() in composed, "in the script", composed)


def a_codec_may_be_a_users_own(checks: Checks) -> None:
    """A class with `encode` and `decode` serves for values, and for keys too."""
    with Server() as server, client_of(server) as client:
        m = client.map("m", keys=Commas(), values=Commas())
        m[["a", "1"]] = ["pens", "ink"]
        checks.equal("what is read", ["pens", "ink"], m[["a", "1"]])
        client.map("m", keys=Commas())[["a", "2"]] = b"\xff"
        raises(checks, "what isn't its own", UnreadableValue, m.__getitem__, ["a", "2"])
        raises(checks, "what it doesn't carry", TypeError, m.put, ["a"], cast(list[str], "pens"))


def partitions_are_kept_of_keys_seen_before(checks: Checks) -> None:
    """A partition is the same the second time, and of long keys and of many none are kept."""
    keys = [TEXT.to_key("k" * length) for length in range(300)]
    checks.equal("partitions", [partition_of(key) for key in keys], [partition_of(key) for key in keys])
    for number in range(partitions.MOST_KEPT + 10):
        partition_of(NUMBERS.to_key(number))
    checks.equal("how many are kept", partitions.MOST_KEPT, partitions._kept.cache_info().currsize)


def large_values_are_carried_or_refused(checks: Checks) -> None:
    """A value may fill a frame. One byte more is refused before it is sent, and the connection goes on."""
    most = 1_048_576 - 6
    with Server() as server, client_of(server) as client:
        m = client.map("m")
        m["k"] = bytes(most)
        checks.equal("the longest value", most, len(m["k"]))
        raises(checks, "a longer one", TooLarge, m.put, "k", bytes(most + 1))
        raises(checks, "two that are too long together", TooLarge, m.replace_if_same, "k", bytes(most), bytes(most))
        checks.equal("what is read behind that", most, len(m["k"]))


TESTS = (
    hashes_are_murmur3,
    the_server_finds_the_same_partitions,
    codecs_read_what_they_write,
    codecs_refuse_what_they_do_not_carry,
    json_comes_back_as_it_was,
    keys_are_those_of_words,
    partitions_are_kept_of_keys_seen_before,
    a_codec_may_be_a_users_own,
    large_values_are_carried_or_refused,
)
