"""A system that gives a server, or a sample, fewer threads than it needs, or just as many."""

from __future__ import annotations

from serving import wire
from serving.checks import Checks
from serving.limits import limited_to, threads_of
from serving.server import DONE, MEMORY, TOP, Server, free_ports, run_program
from serving.wire import Key

PARTITIONS = range(24)

# What is told where memory or threads are wanting.
WANT = "grid: out of memory or of threads\n"


def needed(members: int) -> int:
    """How many threads a server of so many members has: four for each, one for its clients, and the one that it begins with."""
    return 4 * members + 2


def ends_unopened(checks: Checks, members: int, threads: int) -> None:
    """A server with so few threads ends with status 7. It says so, and nothing of doors, which it tells whenever they are opened."""
    words = ["serve", "--stay", "--members", str(members), "--port", str(free_ports(members))]
    run = run_program(words, limits=limited_to(threads))
    what = f"{members} members, {threads} threads"
    checks.equal(f"{what}, status", MEMORY, run.status)
    checks.equal(f"{what}, standard error", WANT, run.err)
    checks.equal(f"{what}, standard output", "", run.out)


def too_few_threads_open_no_door(checks: Checks) -> None:
    """For each number of threads below what a server needs it ends before its doors are open."""
    for members in (1, 3):
        for threads in range(1, needed(members)):
            ends_unopened(checks, members, threads)
    ends_unopened(checks, 8, needed(8) - 1)


def enough_threads_answer_in_every_partition(checks: Checks) -> None:
    """With just as many threads as it needs a server answers calls in each partition, so that each of its workers runs, and it has
    no more threads."""
    for members in (1, 3, 8):
        with Server(members=members, limits=limited_to(needed(members))) as server:
            for partition in PARTITIONS:
                key = Key(partition, f"of {partition}")
                with server.known(partition % members) as client:
                    client.put(key, b"value")
                    checks.equal(f"{members} members, partition {partition}", b"value", client.get(key).value)
            checks.equal(f"{members} members, threads", needed(members), threads_of(server.process.pid))


# How many threads a sample has: one for each of its four sessions, and that of the worker. The system counts a thread for a moment
# after its end, so that there is surely room for these where there is also room for the four that a sample asks for before.
SAMPLED = 5
ENOUGH = SAMPLED + 4


def too_few_threads_count_no_calls(checks: Checks) -> None:
    """For each number of threads below what its counted calls need a sample prints its summary alone, and ends with status 7. With
    enough it counts its calls."""
    whole = (TOP / "tests/samples/0.summary").read_text()
    summary = "".join(whole.splitlines(keepends=True)[:8])
    for threads in range(1, SAMPLED):
        run = run_program(["sample", "0"], limits=limited_to(threads))
        checks.equal(f"a sample, {threads} threads", (MEMORY, summary, WANT), (run.status, run.out, run.err))
    run = run_program(["sample", "0"], limits=limited_to(ENOUGH))
    checks.equal(f"a sample, {ENOUGH} threads", (DONE, whole, ""), (run.status, run.out, run.err))


TESTS = [too_few_threads_open_no_door, enough_threads_answer_in_every_partition, too_few_threads_count_no_calls]
