"""The client for asyncio: each call, many tasks at once, locks of tasks, cancelled polls, and crashes."""

from __future__ import annotations

import asyncio
import itertools
from collections.abc import Awaitable, Callable
from contextlib import suppress

from grid_client import (
    BYTES,
    NUMBERS,
    TEXT,
    ClientClosed,
    ConnectionLost,
    KeyLocked,
    LeaseEnded,
    LockTimeout,
    NotOwner,
    NotSent,
    OutcomeUnknown,
    Processor,
    UnknownProcessor,
    aio,
)
from serving import wire
from serving.checks import Checks, Test
from serving.client import PATIENCE
from serving.operating import Operator
from serving.server import Server, free_ports
from serving.wire import Kind

from client_tests.fakes import Call, FakeMember, ending, finding_nothing, in_turn, silent
from client_tests.shared import raises as raises_at_once

KEYS = [f"key {number}" for number in range(300)]


def client_of(server: Server) -> aio.GridClient:
    return aio.GridClient.local(server.members, server.port, timeout=PATIENCE, retry_for=PATIENCE)


async def raises(checks: Checks, what: str, wanted: type[BaseException], call: Awaitable[object]) -> None:
    """This call has to raise just this kind of exception."""
    try:
        came: object = await call
    except Exception as error:
        came = error
    checks.holds(what, type(came) is wanted, wanted.__name__, repr(came))


async def each_call_answers(checks: Checks) -> None:
    """The calls on a map, and on a queue."""
    with Server(capacity=2) as server:
        async with client_of(server) as client:
            m, n, q = client.map("m", values=TEXT), client.map("n", values=NUMBERS), client.queue("q", values=TEXT)
            answers: list[tuple[str, object, object]] = [
                ("get", None, await m.get("k")),
                ("get with a default", "none", await m.get("k", "none")),
                ("put", None, await m.put("k", "a", ttl=60)),
                ("contains", True, await m.contains("k")),
                ("put_if_absent", "a", await m.put_if_absent("k", "c")),
                ("replace", "a", await m.replace("k", "c")),
                ("replace_if_same of another", False, await m.replace_if_same("k", "b", "d")),
                ("replace_if_same", True, await m.replace_if_same("k", "c", "d")),
                ("remove_if_same", False, await m.remove_if_same("k", "c")),
                ("remove", "d", await m.remove("k")),
                ("sums", (5, 3), (await n.add("k", 5), await n.add("k", -2))),
                ("a limit", (999, None), (await n.add_up_to_limit("l", 999), await n.add_up_to_limit("l", 2))),
                ("the greatest", 7, await n.set_if_greater("k", 7)),
                ("append", b"ab", await client.map("log", values=BYTES).append("k", b"ab")),
                ("execute", b"ab", await client.map("log").execute("k", Processor.CLEAR)),
                ("offers", (True, True, False), (await q.offer("a"), await q.offer("b"), await q.offer("c", wait=0.02))),
                ("size and room", (2, 0), (await q.size(), await q.remaining_capacity())),
                ("peek and poll", ("a", "a"), (await q.peek(), await q.poll())),
                ("ping", [True] * 3, list((await client.ping()).values())),
            ]
            await q.clear()
            await m.set("k", "b", max_idle=60)
            answers.append(("what was set", "b", await m.get("k")))
            await m.delete("k")
            answers.append(("what was deleted", None, await m.get("k")))
            answers.append(("poll of nothing", None, await q.poll(wait=0.02)))
        for call, wanted, came in answers:
            checks.equal(call, wanted, came)
        await raises(checks, "a call of a closed client", ClientClosed, m.get("k"))


async def many_tasks_share_a_client(checks: Checks) -> None:
    """Sixty tasks add to one number and to their own, and many are put and got at once."""
    with Server() as server:
        async with client_of(server) as client:
            m = client.map("m", values=NUMBERS)

            async def add(task: int) -> list[int | None]:
                return [await m.add("sum", 1) and await m.add(f"task {task}", 1) for _ in range(3)]

            counts = await asyncio.gather(*(add(task) for task in range(60)))
            checks.equal("own counts", [[1, 2, 3]] * 60, counts)
            checks.equal("the sum", 180, await m.get("sum"))
            await m.put_all({key: place for place, key in enumerate(KEYS)})
            checks.equal("all", {key: place for place, key in enumerate(KEYS)}, await m.get_all([*KEYS, "no such key"]))


async def a_pipeline_has_the_same_calls(checks: Checks) -> None:
    """A pipeline's calls are made in the order of each key, and each has an outcome of its own."""
    with Server() as server:
        async with client_of(server) as client:
            async with client.pipeline() as pipeline:
                m, q = pipeline.map("m", values=NUMBERS), pipeline.queue("q", values=TEXT)
                sums = [m.add("sum", amount) for amount in range(1, 51)]
                unknown, offered, polled = m.execute("sum", 99), q.offer("item"), q.poll()
            checks.equal("sums", [number * (number + 1) // 2 for number in range(1, 51)], [one.result() for one in sums])
            checks.equal("an offer and a poll", (True, "item"), (offered.result(), polled.result()))
            raises_at_once(checks, "a processor that isn't there", UnknownProcessor, unknown.result)
            pipeline.map("m", values=NUMBERS).get("sum")
            checks.equal("what execute gives", [1275], await pipeline.execute(timeout=PATIENCE))


async def a_lock_belongs_to_its_task(checks: Checks) -> None:
    """Of two tasks of one thread one has the lock; the other one waits for it, and can't write or give it back."""
    with Server() as server:
        async with client_of(server) as client:
            m = client.map("m", values=NUMBERS)
            async with m.lock("k", lease=60):
                await m.set("k", 1)
                for what, wanted, call in [
                    ("another task's put", KeyLocked, m.put("k", 2)),
                    ("another task's unlock", NotOwner, m.unlock("k")),
                    ("another task's lock", LockTimeout, m.lock("k", wait=0.05).__aenter__()),
                ]:
                    await asyncio.create_task(raises(checks, what, wanted, call))
            checks.equal("whether it is locked behind the block", False, await m.is_locked("k"))

            async def past_its_lease() -> None:
                async with m.lock("k", lease=0.05):
                    await asyncio.sleep(0.1)

            await raises(checks, "a block past its lease", LeaseEnded, past_its_lease())

            async def count() -> None:
                async with m.lock("count", lease=60, wait=60):
                    await m.set("count", (await m.get("count") or 0) + 1)

            await asyncio.gather(*(count() for _ in range(20)))
            checks.equal("what tasks count under a lock", 20, await m.get("count"))


async def a_cancelled_poll_loses_no_item(checks: Checks) -> None:
    """The next poll gives the item that a cancelled one took, and a client that is closed puts it back."""
    answers = asyncio.Event()

    def answer(call: Call) -> bytes:
        if call.kind == Kind.OFFER:
            return wire.flagged(Kind.OFFER, call.correlation, True)
        while not answers.is_set():
            pass
        return wire.valued(Kind.POLL, call.correlation, NUMBERS.to_value(5))

    with FakeMember(answer) as member:
        async with aio.GridClient([member.address]) as client:
            q = client.queue("jobs", values=NUMBERS)
            await cancelled(q.poll(), member)
            answers.set()
            await asyncio.sleep(0.1)
            checks.equal("the next poll", (5, 1), (await q.poll(), len(member.calls)))
            answers.clear()
            await cancelled(q.poll(), member)
            answers.set()
        kinds = [call.kind for call in member.calls]
        checks.equal("what came as the client was closed", [Kind.POLL, Kind.POLL, Kind.OFFER], kinds)


async def cancelled(call: Awaitable[object], member: FakeMember) -> None:
    """Cancels a call once the member has got it."""
    before = len(member.calls)
    task = asyncio.ensure_future(call)
    while len(member.calls) == before:
        await asyncio.sleep(0.005)
    task.cancel()
    with suppress(asyncio.CancelledError):
        await task


async def what_is_not_known_is_told(checks: Checks) -> None:
    """Where nobody is there, a connection ends, or an answer doesn't come, the exceptions are those of the other client."""
    await raises(checks, "nobody there", NotSent, aio.GridClient([("127.0.0.1", free_ports(1))], retry_for=0.1).connect())
    with FakeMember(in_turn(ending, silent, finding_nothing)) as member:
        async with aio.GridClient([member.address]) as client:
            m = client.map("m")
            await raises(checks, "a connection that ends", ConnectionLost, m.put("k", b"v"))
            await raises(checks, "an answer that doesn't come", OutcomeUnknown, m.put("k", b"v", timeout=0.1))
            checks.equal("the next call", None, await m.put("k", b"v"))
            checks.equal("calls", 3, len(member.calls))


async def tasks_go_on_over_a_crash(checks: Checks) -> None:
    """Tasks put while a member crashes. What was answered is there then."""
    with Server() as server:
        operator = Operator(server)
        async with client_of(server) as client:
            m, answered, ends = client.map("m", values=NUMBERS), dict[str, int](), asyncio.Event()

            async def put(task: int) -> None:
                for number in itertools.count():
                    key = f"{task} {number % 30}"
                    answered.pop(key, None)
                    with suppress(OutcomeUnknown):
                        await m.set(key, number)
                        answered[key] = number
                    if ends.is_set():
                        return

            putting = [asyncio.create_task(put(task)) for task in range(20)]
            await asyncio.sleep(0.1)
            await asyncio.to_thread(operator.order, "crash 1")
            await asyncio.sleep(0.2)
            await asyncio.to_thread(operator.order, "detect 1")
            ends.set()
            await asyncio.gather(*putting)
            checks.at_least("puts that were answered", 20, len(answered))
            checks.equal("what is there", answered, await m.get_all(answered))


def test_of(coroutine: Callable[[Checks], Awaitable[None]]) -> Test:
    def test(checks: Checks) -> None:
        async def run() -> None:
            await coroutine(checks)

        asyncio.run(run())

    test.__name__ = f"asyncio_{coroutine.__name__}"
    return test


TESTS: tuple[Test, ...] = tuple(
    map(
        test_of,
        (
            each_call_answers,
            many_tasks_share_a_client,
            a_pipeline_has_the_same_calls,
            a_lock_belongs_to_its_task,
            a_cancelled_poll_loses_no_item,
            what_is_not_known_is_told,
            tasks_go_on_over_a_crash,
        ),
    )
)
