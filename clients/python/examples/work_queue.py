#!/usr/bin/env python3
"""A work queue with four producers and four consumers: work_queue.py JOBS HOST:PORT..

No job is lost, and none has two results, where a worker ends at any line (docs/guide/queues.md). At the end each job has its
result, or that is told, and the exit status is 1."""

from __future__ import annotations

import sys
import threading
import time
from contextlib import suppress

from grid_client import NUMBERS, TEXT, GridClient, KeyLocked, NotOwner, OutcomeUnknown, again


class Jobs:
    """Jobs that are ordered by name, and kept until they are done."""

    def __init__(self, client: GridClient) -> None:
        self.queue = client.queue("jobs", values=TEXT)
        self.pending = client.map("pending", values=NUMBERS)
        self.results = client.map("results", values=NUMBERS)

    def order(self, name: str, job: int) -> None:
        again(self.pending.put_if_absent, name, job)
        with suppress(OutcomeUnknown):  # where it isn't in the queue, `order_again` offers it
            self.queue.offer(name, wait=1)

    def order_again(self, names: list[str]) -> list[str]:
        """Those that aren't done. Where the queue is empty none of them waits there, so those are offered on which nobody works."""
        left = [name for name in names if again(self.pending.contains, name)]
        for name in [] if again(self.queue.size) else [name for name in left if not again(self.pending.is_locked, name)]:
            with suppress(OutcomeUnknown):
                self.queue.offer(name)
        return left

    def work_on_next(self) -> None:
        """Does the next job, if one comes soon. Where this ends half-way the lease does too, and the job is offered again."""
        with suppress(OutcomeUnknown, KeyLocked, NotOwner):
            name = self.queue.poll(wait=0.2)
            if name is not None and self.pending.try_lock(name, lease=2):
                if (job := self.pending.get(name)) is not None:
                    self.results.put_if_absent(name, job * job)  # the work
                    self.pending.delete(name)
                self.pending.unlock(name)


def produce(jobs: Jobs, share: dict[str, int]) -> None:
    for name, number in share.items():
        jobs.order(name, number)
    while share := {name: share[name] for name in jobs.order_again(list(share))}:
        time.sleep(0.1)


def consume(jobs: Jobs, producers: list[threading.Thread]) -> None:
    while any(map(threading.Thread.is_alive, producers)):
        jobs.work_on_next()


def main(count: int, addresses: list[str]) -> int:
    wanted = {f"job {number}": number for number in range(count)}
    with GridClient(addresses, retry_for=30) as client:
        jobs = Jobs(client)
        producers = [threading.Thread(target=produce, args=(jobs, dict(list(wanted.items())[share::4]))) for share in range(4)]
        consumers = [threading.Thread(target=consume, args=(jobs, producers)) for _ in range(4)]
        for thread in producers + consumers:
            thread.start()
        print("begun", flush=True)
        for thread in producers + consumers:
            thread.join()
        results = again(jobs.results.get_all, wanted)
    done = sum(results.get(name) == number * number for name, number in wanted.items())
    print(f"{done} of {count} jobs done")
    return int(done != count)


if __name__ == "__main__":
    sys.exit(main(int(sys.argv[1]), sys.argv[2:]))
