"""What a client does when its process is copied. In the copy it makes itself anew: its connections belong to the first process,
and so do its locks, so it opens connections of its own there, and is another client to the grid."""

from __future__ import annotations

import os
from typing import Any, Final, Protocol
from weakref import WeakSet


class Renewed(Protocol):
    """What is made anew in the copy of a process."""

    def renew(self) -> None:
        """Leaves all to the first process that it has. No other thread runs meanwhile."""


_all: Final[WeakSet[Any]] = WeakSet()


def renew_after_fork(one: Renewed) -> None:
    """From now on, as long as it lives, this one is made anew in each copy of this process."""
    _all.add(one)


def _renew_all() -> None:
    for one in list(_all):
        one.renew()


os.register_at_fork(after_in_child=_renew_all)
