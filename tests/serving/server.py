"""The program `grid`: a server on ports of its own, with an operator's console, and runs of the program that end."""

from __future__ import annotations

import os
import random
import resource
import select
import signal
import socket
import subprocess
import time
from collections.abc import Sequence
from dataclasses import dataclass
from pathlib import Path

from serving.client import PATIENCE, Client, Ended, Silence, known_client
from serving.limits import Limits

TOP = Path(__file__).resolve().parents[2]

# The statuses with which the program ends.
DONE, USAGE, REFUSED, READ_FAULT, WRITE_FAULT, LIMIT, DOOR_FAULT, MEMORY = range(8)

# Below the ports that the system gives to clients.
LEAST_PORT, MOST_PORT = 10_000, 32_000


def program() -> Path:
    """The program to be tested: the one that is built, or the one that GRID names."""
    return (TOP / os.environ.get("GRID", "crates/grid/out/grid")).resolve()


def raise_descriptor_limit() -> None:
    """Lets this process, and the servers that it starts, have as many descriptors as the system allows."""
    _, most = resource.getrlimit(resource.RLIMIT_NOFILE)
    resource.setrlimit(resource.RLIMIT_NOFILE, (most, most))


def end_when_told() -> None:
    """Where the tests are ended from outside, from now on, they end their servers too, also one that is just being started."""

    def end(*_: object) -> None:
        for task in Path("/proc/self/task").iterdir():
            for child in (task / "children").read_text().split():
                os.kill(int(child), signal.SIGKILL)
        os._exit(1)

    for told in (signal.SIGTERM, signal.SIGINT):
        signal.signal(told, end)


def is_free(port: int) -> bool:
    with socket.socket(socket.AF_INET, socket.SOCK_STREAM) as probe:
        try:
            probe.bind(("127.0.0.1", port))
        except OSError:
            return False
    return True


def free_ports(count: int) -> int:
    """The first of so many ports, one behind the other, at which nobody listens."""
    for _ in range(1000):
        first = random.randrange(LEAST_PORT, MOST_PORT)
        if all(is_free(port) for port in range(first, first + count)):
            return first
    raise RuntimeError("no ports are free")


class Lines:
    """The lines that come out of a pipe."""

    def __init__(self, pipe: int) -> None:
        self.pipe = pipe
        self.has = b""

    def next(self, seconds: float = PATIENCE) -> str:
        """The next line, without its newline. Behind the last one that is an `Ended`."""
        end = time.monotonic() + seconds
        while b"\n" not in self.has:
            ready, _, _ = select.select([self.pipe], [], [], max(0.0, end - time.monotonic()))
            if not ready:
                raise Silence(f"no line came within {seconds:.1f} seconds")
            piece = os.read(self.pipe, 65_536)
            if not piece:
                raise Ended("the output ended in place of a line")
            self.has += piece
        line, self.has = self.has.split(b"\n", 1)
        return line.decode(errors="backslashreplace")

    def rest(self) -> list[str]:
        """The lines up to the end of the output."""
        lines = []
        while True:
            try:
                lines.append(self.next())
            except Ended:
                return lines


@dataclass(frozen=True)
class Run:
    """A run of the program that has ended."""

    status: int
    out: str
    err: str


def run_program(words: Sequence[str | bytes], script: bytes = b"", limits: Limits | None = None) -> Run:
    """Runs the program with these words and this standard input to its end."""
    done = subprocess.run(
        [program(), *words],
        input=script,
        capture_output=True,
        timeout=2 * PATIENCE,
        check=False,
        preexec_fn=limits.set if limits else None,
    )
    return Run(done.returncode, done.stdout.decode(errors="backslashreplace"), done.stderr.decode(errors="backslashreplace"))


class Server:
    """A server that runs. Standard input is its console. It is killed at the end of its `with`, if it still runs then."""

    # With how many loops a server serves where its test doesn't say. None is the program's own number.
    loops: int | None = None

    def __init__(
        self,
        *,
        members: int = 3,
        backups: int = 1,
        capacity: int = 1000,
        loops: int | None = None,
        stay: bool = True,
        limits: Limits | None = None,
    ) -> None:
        """Starts a server with these options."""
        self.members = members
        self.limits = limits
        self.options = ["--members", str(members), "--backups", str(backups), "--capacity", str(capacity)]
        self.options += ["--stay"] if stay else []
        loops = loops or Server.loops
        self.options += ["--loops", str(loops)] if loops is not None else []
        self.start()

    def start(self) -> None:
        """Starts the program. Ports that another process took meanwhile are left to it."""
        for _ in range(10):
            self.port = free_ports(self.members)
            self.launch()
            if self.has_opened():
                return
            status = self.kill()
            if status != DOOR_FAULT:
                break
        raise RuntimeError(f"the server didn't start: status {status}, and '{self.greeting}' on standard error")

    def has_opened(self) -> bool:
        """Waits until the server says where it listens. False where it ends instead."""
        self.greeting = ""
        try:
            self.greeting = self.err.next()
            if str(self.port) in self.greeting:
                return True
            self.process.wait(PATIENCE)
        except (Ended, Silence, subprocess.TimeoutExpired):
            pass
        return False

    def launch(self) -> None:
        self.process = subprocess.Popen(
            [program(), "serve", "--port", str(self.port), *self.options],
            stdin=subprocess.PIPE,
            stdout=subprocess.PIPE,
            stderr=subprocess.PIPE,
            bufsize=0,
            preexec_fn=self.limits.set if self.limits else None,
        )
        assert self.process.stdin and self.process.stdout and self.process.stderr
        self.console = self.process.stdin
        self.out = Lines(self.process.stdout.fileno())
        self.err = Lines(self.process.stderr.fileno())

    def __enter__(self) -> Server:
        return self

    def __exit__(self, *_: object) -> None:
        broke = self.process.poll() not in (None, *range(8), -signal.SIGTERM)
        told = self.err.rest() if broke else []
        status = self.kill()
        if broke:
            raise RuntimeError(f"the server broke with status {status}, and told {told}")

    def kill(self) -> int:
        """Ends the process, if it still runs, and gives its status."""
        if self.process.poll() is None:
            self.process.kill()
        status = self.process.wait(PATIENCE)
        for pipe in (self.process.stdin, self.process.stdout, self.process.stderr):
            if pipe is not None:
                pipe.close()
        return status

    # Clients.

    def client(self, member: int = 0) -> Client:
        """A connection to a member, on which nothing was sent."""
        return Client(self.port + member)

    def known(self, member: int = 0, number: int = 1) -> Client:
        """A connection to a member, of a client that has made itself known."""
        return known_client(self.port + member, number)

    # The console.

    def type(self, text: str | bytes) -> None:
        self.console.write(text.encode() if isinstance(text, str) else text)

    def order(self, line: str) -> str:
        """Types a line, and gives the next line that comes out."""
        self.type(line + "\n")
        return self.out.next()

    def type_no_more(self) -> None:
        self.console.close()

    def read_no_more(self) -> None:
        """Closes the end of the pipe at which outcomes are read."""
        assert self.process.stdout
        self.process.stdout.close()

    # The process.

    def wait(self) -> int:
        """The status with which the server ends by itself."""
        try:
            return self.process.wait(PATIENCE)
        except subprocess.TimeoutExpired as error:
            raise Silence(f"the server didn't end within {PATIENCE:.0f} seconds") from error

    def runs(self) -> bool:
        return self.process.poll() is None

    def terminate(self) -> None:
        self.process.send_signal(signal.SIGTERM)

    def proc(self, name: str) -> str:
        return (Path("/proc") / str(self.process.pid) / name).read_text()

    def status_kb(self, name: str) -> int:
        """What the process's status says under this name, in kB."""
        (line,) = (line for line in self.proc("status").splitlines() if line.startswith(f"{name}:"))
        return int(line.split()[1])

    def resident_kb(self) -> int:
        """The resident memory of the process."""
        return self.status_kb("VmRSS")

    def peak_kb(self) -> int:
        """The most resident memory that the process has had."""
        return self.status_kb("VmHWM")

    def descriptors(self) -> int:
        return len(os.listdir(f"/proc/{self.process.pid}/fd"))

    def processor_seconds(self) -> float:
        """The processor time that the process has used."""
        fields = self.proc("stat").rsplit(")", 1)[1].split()
        return (int(fields[11]) + int(fields[12])) / os.sysconf("SC_CLK_TCK")

    def used_in(self, seconds: float) -> float:
        """The processor time that it uses in this time of rest."""
        before = self.processor_seconds()
        time.sleep(seconds)
        return self.processor_seconds() - before
