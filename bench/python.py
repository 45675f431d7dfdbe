#!/usr/bin/python3
"""Times the client for Python beside redis-py, by turns in one run: bench/python.py [--alone] [CALLS]. It needs Debian's
python3-redis and redis-server, and the program, which GRID may name; it starts a server of each. With `--alone` the client's calls
are answered at once, by bench/answers.c in the grid's place: that is what the client itself costs.

It prints a table: calls a second, the best of several rounds, with the range of all, and the microseconds of processor time that
the calling process uses for a call, the least of the rounds. Each call gets or sets a value of 20 bytes under one of 500 keys."""

from __future__ import annotations

import os
import subprocess
import sys
import tempfile
import threading
import time
from collections.abc import Callable, Iterator
from contextlib import AbstractContextManager, contextmanager
from dataclasses import dataclass
from pathlib import Path

import redis

TOP = Path(__file__).resolve().parents[1]
sys.path.insert(0, str(TOP / "clients" / "python"))
sys.path.insert(0, str(TOP / "tests"))

from grid_client import GridClient, Map  # noqa: E402
from serving.server import Server, free_ports  # noqa: E402

ROUNDS = 5
KEYS = [f"key {number}" for number in range(500)]
VALUE = b"v" * 20
AT_ONCE = 100

Work = Callable[[int], None]


@dataclass
class Timed:
    """Calls a second in each round, and the microseconds of processor time of a call."""

    rates: list[float]
    processor: list[float]

    def __str__(self) -> str:
        return f"{max(self.rates):,.0f} ({min(self.rates):,.0f}) | {min(self.processor):.0f}"


@contextmanager
def redis_server() -> Iterator[redis.Redis]:
    port = free_ports(1)
    words = ["redis-server", "--port", str(port), "--save", "", "--appendonly", "no", "--bind", "127.0.0.1"]
    with subprocess.Popen(words, stdout=subprocess.DEVNULL) as process:
        client = redis.Redis(port=port)
        while True:
            try:
                client.ping()
                break
            except redis.ConnectionError:
                time.sleep(0.02)
        try:
            yield client
        finally:
            client.close()
            process.terminate()


@contextmanager
def answering() -> Iterator[int]:
    """Where calls are answered at once: the first of three ports."""
    port = free_ports(3)
    with tempfile.TemporaryDirectory() as room:
        subprocess.run(["cc", "-O2", "-o", f"{room}/answers", str(TOP / "bench" / "answers.c")], check=True)
        with subprocess.Popen([f"{room}/answers", str(port)]) as process:
            try:
                time.sleep(0.2)
                yield port
            finally:
                process.terminate()


@contextmanager
def grid_server() -> Iterator[int]:
    with Server(members=3, backups=1) as server:
        yield server.port


def in_threads(threads: int, one: Work) -> Work:
    """The same work, dealt out among threads."""

    def work(calls: int) -> None:
        running = [threading.Thread(target=one, args=(calls // threads,)) for _ in range(threads)]
        for thread in running:
            thread.start()
        for thread in running:
            thread.join()

    return one if threads == 1 else work


def each(call: Callable[[str], object]) -> Work:
    """Calls with one key after the other."""

    def work(calls: int) -> None:
        for number in range(calls):
            call(KEYS[number % len(KEYS)])

    return work


def at_once(call: Callable[[list[str]], object]) -> Work:
    """Calls with many keys at once."""

    def work(calls: int) -> None:
        for number in range(0, calls, AT_ONCE):
            first = number % len(KEYS)
            call(KEYS[first : first + AT_ONCE])

    return work


def grid_works(client: GridClient, m: Map[str, bytes]) -> dict[str, Work]:
    def pipeline(keys: list[str]) -> None:
        pipeline = client.pipeline()
        piped = pipeline.map("m")
        for key in keys:
            piped.get(key)
        pipeline.execute()

    get, put = each(m.get), each(lambda key: m.set(key, VALUE))
    return {
        "get, 1 thread": get,
        "set, 1 thread": put,
        "get, 8 threads": in_threads(8, get),
        "set, 8 threads": in_threads(8, put),
        f"pipeline of {AT_ONCE} gets": at_once(pipeline),
        f"{AT_ONCE} keys got at once": at_once(m.get_all),
        f"{AT_ONCE} keys set at once": at_once(lambda keys: m.put_all(dict.fromkeys(keys, VALUE))),
    }


def redis_works(client: redis.Redis) -> dict[str, Work]:
    def pipeline(keys: list[str]) -> None:
        pipeline = client.pipeline(transaction=False)
        for key in keys:
            pipeline.get(key)
        pipeline.execute()

    get, put = each(client.get), each(lambda key: client.set(key, VALUE))
    return {
        "get, 1 thread": get,
        "set, 1 thread": put,
        "get, 8 threads": in_threads(8, get),
        "set, 8 threads": in_threads(8, put),
        f"pipeline of {AT_ONCE} gets": at_once(pipeline),
        f"{AT_ONCE} keys got at once": at_once(client.mget),
        f"{AT_ONCE} keys set at once": at_once(lambda keys: client.mset(dict.fromkeys(keys, VALUE))),
    }


def run(work: Work, calls: int, timed: Timed) -> None:
    begin, used = time.perf_counter(), time.process_time()
    work(calls)
    timed.processor.append((time.process_time() - used) / calls * 1e6)
    timed.rates.append(calls / (time.perf_counter() - begin))


def main(calls: int, place: AbstractContextManager[int]) -> None:
    with place as port, GridClient.local(3, port) as client, redis_server() as other:
        m = client.map("m")
        m.put_all(dict.fromkeys(KEYS, VALUE))
        works, others = grid_works(client, m), redis_works(other)
        machine = f"{os.cpu_count()} processors, load {os.getloadavg()[0]:.1f}"
        print(f"{calls} calls, {ROUNDS} rounds, {machine}, redis-py {redis.__version__}\n")
        print("| Calls | grid, calls a second: best (least) | processor microseconds | redis-py | processor microseconds |")
        print("|---|---|---|---|---|")
        for name, work in works.items():
            mine, theirs = Timed([], []), Timed([], [])
            for _ in range(ROUNDS):
                run(work, calls, mine)
                run(others[name], calls, theirs)
            print(f"| {name} | {mine} | {theirs} |", flush=True)


if __name__ == "__main__":
    numbers = [word for word in sys.argv[1:] if word.isdigit()]
    main(int(numbers[0]) if numbers else 20_000, answering() if "--alone" in sys.argv else grid_server())
