#!/usr/bin/env python3
"""A shop on asyncio, with sessions, a stock and a queue of orders at once: shop.py CUSTOMERS HOST:PORT..

Each customer is a task that signs in, takes a piece, orders it, and waits until it is sent, which four other tasks do. There are
fewer pieces than customers. Nobody has two pieces, no piece has two customers, and each that is taken is sent, also while a member
crashes; or that is told, and the exit status is 1."""

from __future__ import annotations

import asyncio
import sys
from collections.abc import Awaitable, Callable
from typing import Any

from grid_client import JSON, TEXT, OutcomeUnknown
from grid_client.aio import GridClient


async def again(call: Callable[..., Awaitable[Any]], *args: Any, **words: Any) -> Any:
    """Makes a call until its outcome is known. Twice has to be as good as once."""
    while True:
        try:
            return await call(*args, **words)
        except OutcomeUnknown:
            continue


class Shop:
    """What the shop has in the grid."""

    def __init__(self, client: GridClient, pieces: int) -> None:
        self.numbers = [f"piece {number}" for number in range(pieces)]
        self.sessions = client.map("shop sessions", values=JSON)
        self.pieces = client.map("shop pieces", values=TEXT)
        self.orders = client.queue("shop orders", values=TEXT)
        self.sent = client.map("shop sent", values=TEXT)

    async def serve(self, customer: str) -> bool:
        """One customer's visit. Whether they were sent a piece."""
        await again(self.sessions.set, customer, {"customer": customer}, ttl=3600)
        for number in self.numbers:
            if await again(self.pieces.put_if_absent, number, customer) in (None, customer):
                await self.order(customer, number)
                return bool(await again(self.sessions.get, customer) == {"customer": customer})
        return False

    async def order(self, customer: str, number: str) -> None:
        """Orders, and looks now and then whether it is sent: else it is ordered again, which sends nothing twice."""
        while not await again(self.sent.contains, number):
            await again(self.orders.offer, f"{number}, to {customer}", wait=1)
            await asyncio.sleep(0.2)

    async def send(self) -> None:
        """Sends orders, one after the other."""
        while True:
            order = await again(self.orders.poll, wait=0.5)
            if order is not None:
                number, _, customer = order.partition(", to ")
                await again(self.sent.put_if_absent, number, customer)


async def main(customers: int, addresses: list[str]) -> int:
    async with GridClient(addresses, retry_for=30) as client:
        shop = Shop(client, customers * 3 // 4)
        senders = [asyncio.create_task(shop.send()) for _ in range(4)]
        print("begun", flush=True)
        served = sum(await asyncio.gather(*(shop.serve(f"customer {number}") for number in range(customers))))
        for sender in senders:
            sender.cancel()
        taken, sent = await again(shop.pieces.get_all, shop.numbers), await again(shop.sent.get_all, shop.numbers)
    print(f"{served} of {customers} customers have one of {len(shop.numbers)} pieces, {len(sent)} are sent")
    return 0 if served == len(taken) == len(set(taken.values())) == len(shop.numbers) and taken == sent else 1


if __name__ == "__main__":
    sys.exit(asyncio.run(main(int(sys.argv[1]), sys.argv[2:])))
