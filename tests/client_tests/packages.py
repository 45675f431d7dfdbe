"""The package: a wheel, its types, its version, and what it logs."""

from __future__ import annotations

import logging
import re
import struct
import subprocess
import sys
import tempfile
import zipfile
from pathlib import Path

import grid_client
from grid_client import GridClient, version
from grid_client.wire import Answer
from serving import wire
from serving.checks import Checks
from serving.server import TOP, run_program

from client_tests.fakes import FakeMember, ending, finding_nothing, in_turn
from client_tests.shared import raises

FOLDER = TOP / "clients" / "python"

# Debian's packages python3-setuptools and python3-wheel are for its own Python.
PYTHONS = (sys.executable, "/usr/bin/python3")

BUILD = "import sys, setuptools.build_meta as build; print(build.build_wheel(sys.argv[1]))"


def built_wheel(room: Path) -> Path | None:
    """The wheel, built by what is there, without a network. None where no Python has what that needs."""
    source = room / "source"
    subprocess.run(["cp", "-r", str(FOLDER), str(source)], check=True)
    for python in PYTHONS:
        has_tools = subprocess.run([python, "-c", "import setuptools, wheel"], capture_output=True, check=False).returncode == 0
        if has_tools:
            done = subprocess.run([python, "-c", BUILD, str(room)], cwd=source, capture_output=True, text=True, check=True)
            return room / done.stdout.split()[-1]
    return None


def a_wheel_has_the_whole_package(checks: Checks) -> None:
    """The wheel has each module, and the mark that it is typed. Installed it is imported."""
    with tempfile.TemporaryDirectory() as folder:
        wheel = built_wheel(Path(folder))
        if wheel is None:
            print("client: no wheel was built, for want of setuptools and wheel (Debian: python3-setuptools, python3-wheel)")
            return
        with zipfile.ZipFile(wheel) as archive:
            inside = {name for name in archive.namelist() if name.startswith("grid_client/")}
            archive.extractall(f"{folder}/installed")
        wanted = {str(file.relative_to(FOLDER)) for file in (FOLDER / "grid_client").rglob("*.py")} | {"grid_client/py.typed"}
        checks.equal("the files", wanted, inside)
        words = [sys.executable, "-c", "import grid_client, grid_client.aio; print(grid_client.__file__, grid_client.__version__)"]
        done = subprocess.run(words, cwd=f"{folder}/installed", capture_output=True, text=True, check=True)
        checks.equal("what is imported", f"{folder}/installed/grid_client/__init__.py {grid_client.__version__}\n", done.stdout)


def the_version_is_that_of_the_program(checks: Checks) -> None:
    """The client and the program have one version. A server that tells another one is logged, and one that tells none isn't."""
    checks.equal("the program's version", f"grid {grid_client.__version__}\n", run_program(["--version"]).out)
    told = re.search(r'^version = "(.*)"$', (FOLDER / "pyproject.toml").read_text(), re.MULTILINE)
    checks.equal("that of the package", grid_client.__version__, told and told[1])
    for other, fits in [(grid_client.__version__, True), ("0.1.7", True), ("0.2.0", False), ("1.1.0", False)]:
        with Logged() as logged:
            version.compare(other, "127.0.0.1:5701")
        checks.equal(f"whether {other} fits", fits, not logged.lines)
    fields = struct.pack("<B?qQI", 0, False, 0, 1, wire.PARTITIONS)
    checks.equal("a server that tells none", None, Answer(fields, ()).version())
    checks.equal("one that does", "0.3.0", Answer(fields, (b"0.3.0",)).version())


class Logged(logging.Handler):
    """What is logged within its `with`."""

    def __init__(self) -> None:
        super().__init__(logging.DEBUG)
        self.lines: list[str] = []
        self.logger = logging.getLogger("grid_client")

    def emit(self, record: logging.LogRecord) -> None:
        self.lines.append(f"{record.levelname} {record.getMessage()}")

    def __enter__(self) -> Logged:
        self.logger.addHandler(self)
        self.logger.setLevel(logging.DEBUG)
        return self

    def __exit__(self, *_: object) -> None:
        self.logger.removeHandler(self)
        self.logger.setLevel(logging.NOTSET)


def what_happens_is_logged(checks: Checks) -> None:
    """Connections that are opened and lost are told to the logger `grid_client`, and values never are."""
    with FakeMember(in_turn(ending, finding_nothing)) as member:
        with Logged() as logged, GridClient([member.address]) as client:
            raises(checks, "a call", grid_client.ConnectionLost, client.map("m").put, "k", b"secret")
            client.map("m").put("k", b"secret")
    told = "\n".join(logged.lines)
    checks.equal("connections", 2, told.count("DEBUG connected to"))
    checks.equal("lost ones", 1, told.count("WARNING lost a connection to"))
    checks.equal("values", 0, told.count("secret"))


TESTS = (
    a_wheel_has_the_whole_package,
    the_version_is_that_of_the_program,
    what_happens_is_logged,
)
