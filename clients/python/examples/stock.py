#!/usr/bin/env python3
"""A stock that sixteen threads sell, and never more than there is: stock.py PIECES HOST:PORT..

Each piece is a key, and a sale puts its order's name there, where none is. So a sale whose outcome isn't known is made again: it
finds its own name where it had worked. At the end each piece has one order, and each order that was told one has one, or that is
told, and the exit status is 1."""

from __future__ import annotations

import sys
import threading
from collections import Counter

from grid_client import TEXT, GridClient, Map, again

THREADS = 16


class Stock:
    """So many pieces of an item."""

    def __init__(self, client: GridClient, item: str, pieces: int) -> None:
        self.map: Map[str, str] = client.map("stock", values=TEXT)
        self.item = item
        self.pieces = pieces
        self.sold = 0  # those below this one are sold, as far as this program knows

    def sell(self, order: str) -> int | None:
        """The number of the piece that the order has now, or None where all are sold."""
        for number in range(self.sold, self.pieces):
            # where it had worked, and that wasn't known, the order finds its own name
            if again(self.map.put_if_absent, f"{self.item} {number}", order) in (None, order):
                self.sold = max(self.sold, number)
                return number
        return None

    def orders(self) -> list[str]:
        """The orders that have the pieces that are sold."""
        return list(self.map.get_all([f"{self.item} {number}" for number in range(self.pieces)]).values())


def shop(stock: Stock, thread: int, told: list[str]) -> None:
    """One thread's customers, as long as there are pieces."""
    number = 0
    while stock.sell(order := f"order {thread}.{number}") is not None:
        told.append(order)
        number += 1


def main(pieces: int, addresses: list[str]) -> int:
    told: list[str] = []
    with GridClient(addresses, retry_for=30) as client:
        stock = Stock(client, "ticket", pieces)
        threads = [threading.Thread(target=shop, args=(stock, thread, told)) for thread in range(THREADS)]
        for thread in threads:
            thread.start()
        print("begun", flush=True)
        for thread in threads:
            thread.join()
        kept = again(stock.orders)
    wrong = (Counter(told) - Counter(kept)) + (Counter(kept) - Counter(told))
    print(f"{len(told)} of {pieces} pieces sold, {len(wrong)} orders wrong")
    return 1 if wrong or len(told) != pieces else 0


if __name__ == "__main__":
    sys.exit(main(int(sys.argv[1]), sys.argv[2:]))
