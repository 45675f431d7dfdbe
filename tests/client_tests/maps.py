"""Maps: each call of the client over a server."""

from __future__ import annotations

import time
from collections.abc import Iterable
from datetime import timedelta
from typing import cast

from grid_client import BYTES, NUMBERS, TEXT, GridClient, Processor, UnknownProcessor, UnreadableValue
from grid_client.spans import Span
from serving.checks import Checks
from serving.server import Server

from client_tests.shared import client_of, raises


def a_map_has_the_habits_of_a_dict(checks: Checks) -> None:
    """What is stored under a key is read, is in the map, and is gone once it was deleted; a key without a value raises."""
    with Server() as server, client_of(server) as client:
        carts = client.map("carts", values=TEXT)
        raises(checks, "a key without a value", KeyError, carts.__getitem__, "anna")
        carts["anna"] = "apples"
        checks.equal("what is read", "apples", carts["anna"])
        checks.equal("whether keys are in it", (True, False), ("anna" in carts, "bert" in carts))
        del carts["anna"]
        checks.equal("whether a deleted key is in it", False, "anna" in carts)
        raises(checks, "a second deletion", KeyError, carts.__delitem__, "anna")
        raises(checks, "a loop over it", TypeError, any, cast(Iterable[object], carts))


def each_call_of_a_map_answers(checks: Checks) -> None:
    """The calls on values, one after the other on one key."""
    with Server() as server, client_of(server) as client:
        m = client.map("m", values=TEXT)
        answers = [
            ("get of nothing", None, m.get("k")),
            ("get with a default", "none", m.get("k", "none")),
            ("replace of nothing", None, m.replace("k", "a")),
            ("put", None, m.put("k", "a")),
            ("put over it", "a", m.put("k", "b")),
            ("put_if_absent", "b", m.put_if_absent("k", "c")),
            ("replace", "b", m.replace("k", "c")),
            ("replace_if_same of another", False, m.replace_if_same("k", "b", "d")),
            ("replace_if_same", True, m.replace_if_same("k", "c", "d")),
            ("remove_if_same of another", False, m.remove_if_same("k", "c")),
            ("remove_if_same", True, m.remove_if_same("k", "d")),
            ("put_if_absent of nothing", None, m.put_if_absent("k", "e")),
            ("remove", "e", m.remove("k")),
            ("remove of nothing", None, m.remove("k")),
            ("an empty text", None, m.put("k", "")),
            ("what is read of it", "", m.get("k")),
        ]
        for call, wanted, came in answers:
            checks.equal(call, wanted, came)
        m.set("k", "f")
        checks.equal("get behind set", "f", m.get("k"))
        m.delete("k")
        checks.equal("get behind delete", None, m.get("k"))


def values_end(checks: Checks) -> None:
    """Values end with their time to live, whether or not they are used, or once they weren't used for a while; others don't."""
    with Server() as server, client_of(server) as client:
        m = client.map("m", values=TEXT)
        m.put("lives shortly", "v", ttl=1)
        checks.equal("at once", "v", m.get("lives shortly"))
        m.set("is unused", "v", max_idle=timedelta(seconds=0.3))
        m.put("is used, and lives shortly", "v", ttl=1, max_idle=60)
        m.put("is used", "v", ttl=60, max_idle=60)
        m.set("lives", "v", ttl=60)
        m.put_if_absent("is put if absent", "v", ttl=0.3)
        time.sleep(0.6)
        checks.equal("what is used", True, "is used" in m)
        m.get("is used, and lives shortly")
        time.sleep(0.6)
        there = ["is used", "lives"]
        gone = ["lives shortly", "is unused", "is used, and lives shortly", "is put if absent"]
        wanted = {key: key in there for key in (*there, *gone)}
        checks.equal("a while later", wanted, {key: key in m for key in wanted})
        spans: tuple[Span, ...] = (0, -1, timedelta(0), 2.0**60)
        for span in spans:
            raises(checks, f"a time to live of {span}", ValueError, m.put, "k", "v", ttl=span)


def processors_work_in_place(checks: Checks) -> None:
    """Each processor by its method, and by its number; one without a number is refused."""
    with Server() as server, client_of(server) as client:
        stock = client.map("stock", values=NUMBERS)
        checks.equal("sums", [5, 3], [stock.add("pens", 5), stock.add("pens", -2)])
        checks.equal("sums up to the limit", [999, None, 1000], [stock.add_up_to_limit("seats", n) for n in (999, 2, 1)])
        checks.equal("the greatest", [4, 4, 7], [stock.set_if_greater("peak", n) for n in (4, 2, 7)])
        checks.equal("a sum of more than 64 bits", None, stock.add("pens", 2**63 - 1))
        checks.equal("what is read behind all that", [3, 1000, 7], [stock[key] for key in ("pens", "seats", "peak")])
        log = client.map("log", values=BYTES)
        checks.equal("what was appended", [b"ab", b"abcd"], [log.append("k", b"ab"), log.append("k", b"cd")])
        checks.equal("by a number", b"abcd", log.execute("k", Processor.CLEAR))
        checks.equal("what is left", None, log.get("k"))
        raises(checks, "an unknown processor", UnknownProcessor, stock.execute, "pens", 99)


def maps_have_keys_and_values_of_each_kind(checks: Checks) -> None:
    """Keys of one sort don't meet those of another, and a value of another kind is told."""
    with Server() as server, client_of(server) as client:
        texts = client.map("m", keys=TEXT, values=TEXT)
        numbers = client.map("m", keys=NUMBERS, values=NUMBERS)
        plain = client.map("m", keys=BYTES)
        texts["7"] = "text"
        numbers[7] = -7
        plain[b"7"] = b"\x00bytes\xff"
        checks.equal("values", ("text", -7, b"\x00bytes\xff"), (texts["7"], numbers[7], plain[b"7"]))
        plain[b""] = b""
        checks.equal("an empty key and value", b"", plain[b""])
        texts["\u00e4\u20ac"] = "\u00e4\u20ac"
        checks.equal("text beyond ASCII", "\u00e4\u20ac", texts["\u00e4\u20ac"])
        as_numbers = client.map("m", values=NUMBERS)
        error = raises(checks, "a text read as a number", UnreadableValue, as_numbers.__getitem__, "7")
        checks.equal("its bytes", b"\x00\x00\x00\x00\xff\xff\xff\xf5text", getattr(error, "data", None))


def names_keep_maps_apart(checks: Checks) -> None:
    """Two maps may have one key, and a grid may be told by its members' addresses."""
    with Server() as server:
        addresses = [f"127.0.0.1:{server.port + member}" for member in range(3)]
        with GridClient(addresses) as client:
            one, other = client.map("one"), client.map("other")
            one["k"], other["k"] = b"1", b"2"
            checks.equal("values", (b"1", b"2"), (one["k"], other["k"]))
            checks.equal("what members answer a ping", dict.fromkeys(addresses, True), client.ping())
        with client_of(server) as client:
            checks.equal("what another client reads", b"1", client.map("one")["k"])


TESTS = (
    a_map_has_the_habits_of_a_dict,
    each_call_of_a_map_answers,
    values_end,
    processors_work_in_place,
    maps_have_keys_and_values_of_each_kind,
    names_keep_maps_apart,
)
