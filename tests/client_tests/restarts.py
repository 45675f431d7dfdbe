"""A grid that was ended and started again: the client finds its members, and tells it to who asks for that."""

from __future__ import annotations

import asyncio

from grid_client import TEXT, GridClient, GridRestarted, NotSent, aio
from serving.checks import Checks
from serving.operating import Operator
from serving.server import Server

from client_tests.shared import Running, client_of, raises


class RestartedServer(Server):
    """A server that can be started again at the ports that it had."""

    def __enter__(self) -> RestartedServer:
        return self

    def begin_again(self) -> None:
        self.kill()
        self.launch()
        if not self.has_opened():
            raise RuntimeError(f"the server didn't start again: {self.greeting}")


def a_restart_is_told_once(checks: Checks) -> None:
    """With `tell_restarts` the first call behind a restart raises, and isn't made; those behind it go on. Another client finds an
    empty map."""
    with RestartedServer() as server, client_of(server) as other:
        with GridClient.local(3, server.port, tell_restarts=True) as client:
            m = client.map("m", values=TEXT)
            m["k"] = other.map("m", values=TEXT)["j"] = "v"
            for turn in range(2):
                server.begin_again()
                raises(checks, f"the first call behind restart {turn}", GridRestarted, m.put, "k", "w")
                checks.equal("the ones behind it", [None, None, None], [m.get(key) for key in ("k", "j", "i")])
                m["k"] = "v"
            checks.equal("what another client finds", None, other.map("m").get("j"))


def a_lost_member_is_no_restart(checks: Checks) -> None:
    """A member that crashes, and a partition that is lost and reopened, leave the others."""
    with Server(backups=0) as server, GridClient.local(3, server.port, tell_restarts=True, repeat_reads=True) as client:
        operator = Operator(server)
        m = client.map("m", values=TEXT)
        keys = [f"key {number}" for number in range(20)]
        m.put_all({key: key for key in keys})
        for line in ("crash 1", "detect 1", *(f"reopen {partition}" for partition in range(1, 271, 3))):
            operator.order(line)
        checks.at_least("values that are left", 5, len(m.get_all(keys)))
        client.ping()
        m.put_all({key: key for key in keys})
        checks.equal("all behind that", {key: key for key in keys}, m.get_all(keys))


def a_restart_is_waited_for(checks: Checks) -> None:
    """While nobody is there a call is made again, and it is answered once the grid is back."""
    with RestartedServer() as server, client_of(server) as client, GridClient.local(3, server.port, retry_for=0.2) as hasty:
        m = client.map("m", values=TEXT)
        m["k"] = "v"
        server.process.kill()
        server.process.wait()
        raises(checks, "a call of a client without time", NotSent, hasty.map("m").get, "k")
        waiting = Running(lambda: m.put("k", "w"))
        checks.equal("a call that waits", False, waiting.ends_within(0.1))
        server.begin_again()
        checks.equal("what it gave", None, waiting.result())
        checks.equal("what is there", "w", m["k"])


def a_restart_is_told_to_tasks(checks: Checks) -> None:
    """As of threads."""

    async def run() -> None:
        with RestartedServer() as server:
            async with aio.GridClient.local(3, server.port, tell_restarts=True) as client:
                m = client.map("m", values=TEXT)
                await m.set("k", "v")
                server.begin_again()
                await asyncio.sleep(0.01)
                try:
                    await m.set("k", "w")
                except GridRestarted:
                    checks.equal("the next call", None, await m.get("k"))
                else:
                    checks.holds("the first call behind a restart", False, "GridRestarted", "an answer")

    asyncio.run(run())


TESTS = (
    a_restart_is_told_once,
    a_lost_member_is_no_restart,
    a_restart_is_waited_for,
    a_restart_is_told_to_tasks,
)
