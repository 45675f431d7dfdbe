"""Limits under which the program is started."""

from __future__ import annotations

import os
import resource
from collections.abc import Iterator
from contextlib import suppress
from dataclasses import dataclass
from pathlib import Path

# Numbers of users from here on are looked at for one who runs nothing.
FIRST_USER = 60_100


def tasks() -> Iterator[Path]:
    """Every thread of the system."""
    return Path("/proc").glob("[0-9]*/task/[0-9]*")


def user_of(task: Path) -> int | None:
    """The real user of a thread, if it's still there."""
    with suppress(OSError):
        for line in (task / "status").read_text().splitlines():
            if line.startswith("Uid:"):
                return int(line.split()[1])
    return None


def threads_of(process: int) -> int:
    return len(os.listdir(f"/proc/{process}/task"))


@dataclass(frozen=True)
class Limits:
    """What a process is started with: the user that it runs as, or none for this one, and how many threads that user may have."""

    user: int | None
    threads: int

    def set(self) -> None:
        """Limits this process. To be called in one that was just made."""
        resource.setrlimit(resource.RLIMIT_NPROC, (self.threads, self.threads))
        if self.user is not None:
            os.setgroups([])
            os.setgid(self.user)
            os.setuid(self.user)


def limited_to(threads: int) -> Limits:
    """So many threads for one process. The system counts those of a user and none of the root user's, so a process of the root user
    runs as a user who runs nothing else; another user's has to leave room for what that user runs besides."""
    users = [user_of(task) for task in tasks()]
    if os.getuid() == 0:
        return Limits(next(user for user in range(FIRST_USER, 65_000) if user not in users), threads)
    return Limits(None, users.count(os.getuid()) + threads)
