#!/usr/bin/env python3
"""Sessions behind eight threads, as those of a web server: sessions.py SECONDS HOST:PORT..

Each thread signs users in, looks their sessions up, changes them and signs them out. What was told to a user stays so, also while
a member crashes; else that is told, and the exit status is 1."""

from __future__ import annotations

import sys
import threading
import time
import uuid
from typing import Any

from grid_client import JSON, GridClient, Map, again

HALF_AN_HOUR, A_DAY = 1800, 86_400


class Sessions:
    """The sessions of a site. Each call may be made twice, so it is made again where its outcome isn't known."""

    def __init__(self, client: GridClient) -> None:
        self.map: Map[str, Any] = client.map("sessions", values=JSON)

    def sign_in(self, user: str) -> str:
        name = str(uuid.uuid4())
        self.store(name, {"user": user, "visits": 0})
        return name

    def store(self, name: str, session: dict[str, Any]) -> None:
        again(self.map.set, name, session, max_idle=HALF_AN_HOUR, ttl=A_DAY)

    def visit(self, name: str) -> dict[str, Any] | None:
        """Counts a visit. One browser makes one request after the other, so nobody else writes."""
        session: dict[str, Any] | None = again(self.map.get, name)
        if session is not None:
            session["visits"] += 1
            self.store(name, session)
        return session

    def sign_out(self, name: str) -> None:
        again(self.map.delete, name)


def browse(sessions: Sessions, user: str, end: float, wrong: list[str]) -> None:
    """One thread's users, one after the other."""
    while time.monotonic() < end:
        name = sessions.sign_in(user)
        for visit in range(1, 6):
            session = sessions.visit(name)
            if session != {"user": user, "visits": visit}:
                wrong.append(f"visit {visit} of {user} found {session}")
        sessions.sign_out(name)
        if (left := sessions.visit(name)) is not None:
            wrong.append(f"{user} signed out, and has {left}")


def main(seconds: float, addresses: list[str]) -> int:
    wrong: list[str] = []
    with GridClient(addresses, retry_for=30) as client:
        end = time.monotonic() + seconds
        sessions = Sessions(client)
        threads = [threading.Thread(target=browse, args=(sessions, f"user {number}", end, wrong)) for number in range(8)]
        for thread in threads:
            thread.start()
        print("begun", flush=True)
        for thread in threads:
            thread.join()
    print(f"{len(wrong)} sessions weren't as they were left", *wrong[:5], sep="\n")
    return 1 if wrong else 0


if __name__ == "__main__":
    sys.exit(main(float(sys.argv[1]), sys.argv[2:]))
