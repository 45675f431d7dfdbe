"""The services of clients/python/examples, each while a member crashes under it and is detected a while later."""

from __future__ import annotations

import os
import subprocess
import sys
import time

from serving.checks import Checks, Test
from serving.client import PATIENCE
from serving.operating import Operator
from serving.server import TOP, Server

CLIENT = TOP / "clients" / "python"

# Each service, how much it has to do, and what it says at its end.
SERVICES = (
    ("sessions.py", "2", "0 sessions weren't as they were left"),
    ("stock.py", "300", "300 of 300 pieces sold, 0 orders wrong"),
    ("work_queue.py", "200", "200 of 200 jobs done"),
    ("shop.py", "60", "45 of 60 customers have one of 45 pieces, 45 are sent"),
)

# How many lines a service has at most.
MOST_LINES = 79


def runs_under_a_crash(checks: Checks, name: str, amount: str, wanted: str) -> None:
    """The service goes on over the crash of a member, and finds at its end what it has to."""
    with Server() as server:
        operator = Operator(server)
        addresses = [f"127.0.0.1:{server.port + member}" for member in range(3)]
        words = [sys.executable, str(CLIENT / "examples" / name), amount, *addresses]
        environment = {**os.environ, "PYTHONPATH": str(CLIENT), "PYTHONDONTWRITEBYTECODE": "1"}
        with subprocess.Popen(words, stdout=subprocess.PIPE, stderr=subprocess.PIPE, env=environment, text=True) as service:
            assert service.stdout
            checks.equal("its first line", "begun\n", service.stdout.readline())
            checks.equal("crash", "ok", operator.order("crash 1"))
            time.sleep(0.3)
            checks.equal("whether it ended before the detection", None, service.poll())
            checks.equal("detect", "ok", operator.order("detect 1"))
            out, err = service.communicate(timeout=2 * PATIENCE)
        checks.equal("standard error", "", err)
        checks.equal("what it found", wanted, out.strip())
        checks.equal("its status", 0, service.returncode)


def test_of(name: str, amount: str, wanted: str) -> Test:
    def test(checks: Checks) -> None:
        runs_under_a_crash(checks, name, amount, wanted)

    test.__name__ = f"the_service_{name}_under_a_crash"
    return test


def services_are_short(checks: Checks) -> None:
    """A service can be read in a minute, and each has its test."""
    files = sorted((CLIENT / "examples").glob("*.py"))
    checks.equal("the services", sorted(name for name, _, _ in SERVICES), [file.name for file in files])
    for file in files:
        checks.at_most(f"lines of {file.name}", MOST_LINES, len(file.read_text().splitlines()))


TESTS: tuple[Test, ...] = (*(test_of(*service) for service in SERVICES), services_are_short)
