"""Many calls at once: `get_all`, `put_all` and pipelines, also while a member crashes."""

from __future__ import annotations

from grid_client import NUMBERS, TEXT, ConnectionLost, GridClient, KeyLocked, TooLarge, UnknownProcessor
from serving.checks import Checks
from serving.operating import Operator
from serving.server import Server

from client_tests.fakes import FakeMember, ending, finding_nothing, in_turn
from client_tests.shared import client_of, raises

KEYS = [f"key {number}" for number in range(150)]


def many_are_put_and_got_at_once(checks: Checks) -> None:
    """All that was put is got, and keys without a value are left out, also of large values, which go in many pieces."""
    with Server() as server, client_of(server) as client:
        m = client.map("m", values=TEXT)
        m.put_all({key: f"value of {key}" for key in KEYS})
        got = m.get_all([*KEYS, "no such key"])
        checks.equal("what is got", {key: f"value of {key}" for key in KEYS}, got)
        checks.equal("none", {}, m.get_all([]))
        large = {key: "v" * 20_000 for key in KEYS[:12]}
        m.put_all(large)
        checks.equal("large values", large, m.get_all(large))
        raises(checks, "one that is too large", TooLarge, m.put_all, {"a": "a", "b": "v" * 1_100_000})
        checks.equal("what was put with it", None, m.get("a"))


def a_pipeline_makes_its_calls_in_order(checks: Checks) -> None:
    """A pipeline's calls are made in the order of each key, and each has an outcome of its own."""
    with Server() as server, client_of(server) as client, client_of(server) as other:
        other.map("numbers").try_lock("locked")
        pipeline = client.pipeline()
        numbers, q = pipeline.map("numbers", values=NUMBERS), pipeline.queue("q", values=TEXT)
        sums = [numbers.add("sum", amount) for amount in range(1, 101)]
        locked, unknown = numbers.put("locked", 5), numbers.execute("sum", 99)
        offers = [q.offer(f"item {number}") for number in range(10)]
        last, items = numbers.get("sum"), [q.poll() for _ in range(11)]
        raises(checks, "a result before it is made", RuntimeError, last.result)
        checks.equal("calls", 124, len(pipeline))
        raises(checks, "the first that raises", KeyLocked, pipeline.execute)
        checks.equal("sums", [number * (number + 1) // 2 for number in range(1, 101)], [one.result() for one in sums])
        raises(checks, "a locked key", KeyLocked, locked.result)
        raises(checks, "a processor that isn't there", UnknownProcessor, unknown.result)
        checks.equal("offers", [True] * 10, [one.result() for one in offers])
        checks.equal("the last sum", 5050, last.result())
        checks.equal("items", [*(f"item {number}" for number in range(10)), None], [one.result() for one in items])
        with client.pipeline() as block:
            later = block.map("numbers", values=NUMBERS).get("sum")
        checks.equal("a pipeline as a block", 5050, later.result())
        checks.equal("what an empty one gives", [], pipeline.execute())


def batches_go_on_over_moves_and_crashes(checks: Checks) -> None:
    """Partitions have moved, and a member crashes: calls that others take now are made there."""
    with Server() as server, client_of(server, repeat_reads=True) as client:
        operator = Operator(server)
        m = client.map("m", values=TEXT)
        m.put_all({key: key for key in KEYS})
        for partition in range(0, 271, 27):
            operator.move(partition, partition % 3, (partition + 2) % 3)
        checks.equal("behind moves", {key: key for key in KEYS}, m.get_all(KEYS))
        m.put_all({key: f"new {key}" for key in KEYS})
        operator.order("crash 1")
        operator.order("detect 1")
        checks.equal("behind a crash", {key: f"new {key}" for key in KEYS}, m.get_all(KEYS))


def what_is_not_known_of_a_batch_is_told(checks: Checks) -> None:
    """Where a connection ends amid a batch, the calls that were answered have their answers, and the others no known outcome."""
    with FakeMember(in_turn(finding_nothing, ending, finding_nothing)) as member, GridClient([member.address]) as client:
        pipeline = client.pipeline()
        gets = [pipeline.map("m").get(key) for key in ("a", "b", "c")]
        raises(checks, "the pipeline", ConnectionLost, pipeline.execute)
        checks.equal("the first get", None, gets[0].result())
        for get in gets[1:]:
            raises(checks, "another get", ConnectionLost, get.result)
        checks.equal("calls that the member got", 2, len(member.calls))


TESTS = (
    many_are_put_and_got_at_once,
    a_pipeline_makes_its_calls_in_order,
    batches_go_on_over_moves_and_crashes,
    what_is_not_known_of_a_batch_is_told,
)
