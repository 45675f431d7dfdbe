"""Whether the grid is still the one that the client knew. No member tells when it was started. So a client that wants to know has
a mark of each of three partitions, a value that whoever comes first puts there, and looks at them once a connection was lost: a
grid without any of them came back empty. One that lost a member has the others."""

from __future__ import annotations

import threading
import uuid
from collections.abc import Callable
from contextlib import suppress
from typing import Final

from .calls import Call, MapCalls
from .codecs import TEXT, Codec
from .errors import GridError, GridRestarted
from .forks import renew_after_fork
from .logs import log
from .owners import thread_number
from .partitions import PARTITIONS
from .wire import Answer, Request

NAME: Final = "grid_client.marks"

# A member leads a partition by its number, at first, so three in a row have different ones.
PLACES: Final = (0, 1, 2)


class _Placed(Codec[int]):
    """Keys that state their partition."""

    def encode(self, value: int) -> bytes:
        return b""

    def to_key(self, key: int) -> bytes:
        return (key or PARTITIONS).to_bytes(4, "big") + TEXT.mark[4:]

    def decode(self, data: bytes) -> int:
        raise NotImplementedError


class Marks:
    """The marks that a client knows."""

    def __init__(self) -> None:
        self._calls = MapCalls(NAME, _Placed(), TEXT, thread_number)
        self._known: dict[int, str] = {}
        self.renew()
        renew_after_fork(self)

    def renew(self) -> None:
        """Nobody looks, in a copy of the process."""
        self._looking = threading.Lock()

    def calls(self) -> list[tuple[int, Call[str | None]]]:
        """The calls by which each mark is looked at, and put where none is."""
        self._fresh = str(uuid.uuid4())
        return [(place, self._calls.put_if_absent(place, self._fresh, None)) for place in PLACES]

    def mark_of(self, found: str | None) -> str:
        """The mark that is there, where a call found this."""
        return self._fresh if found is None else found

    def came(self, found: dict[int, str]) -> None:
        """These marks are there. `GridRestarted` where none of those is that were known."""
        known, self._known = self._known, {**self._known, **found}
        if found and known and not any(known.get(place) == mark for place, mark in found.items()):
            log.warning("the grid came back empty")
            raise GridRestarted("the grid came back empty: it isn't the one that this client knew")

    def look(self, call: Callable[[Request], Answer]) -> None:
        """Looks at the marks. One that can't be had now is left out. While one thread looks, others don't."""
        if not self._looking.acquire(blocking=False):
            return
        try:
            found = {}
            for place, made in self.calls():
                with suppress(GridError):
                    found[place] = self.mark_of(made.read(call(made.request)))
        finally:
            self._looking.release()
        self.came(found)
