"""Items that were taken out of a queue by a call whose caller was interrupted. They are kept, and the client's next poll of the
queue gives them."""

from __future__ import annotations

from collections import deque
from contextlib import suppress
from typing import Final

from .logs import log

_NOTHING: Final[deque[bytes]] = deque()


class Leftovers:
    """The items, in the order in which they came."""

    def __init__(self) -> None:
        self._items: dict[tuple[str, int], deque[bytes]] = {}

    def keep(self, name: str, partition: int, data: bytes) -> None:
        """Keeps an item, as its bytes."""
        self._items.setdefault((name, partition), deque()).append(data)
        log.warning("a poll of the queue '%s' was interrupted: the item that it took is kept for this client's next poll", name)

    def take(self, name: str, partition: int, taken: list[bytes]) -> bool:
        """Puts the item that was kept first of this queue into the list, in one step. Whether there was one."""
        if not self._items:
            return False
        with suppress(IndexError):
            taken.extend(map(deque.popleft, (self._items.get((name, partition), _NOTHING),)))
        return bool(taken)

    def take_all(self) -> list[tuple[str, int, bytes]]:
        """All that is kept, which it then isn't."""
        taken = [(name, partition, data) for (name, partition), items in self._items.items() for data in items]
        self._items.clear()
        return taken
