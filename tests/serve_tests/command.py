"""The words of `grid serve`, its ports, its statuses, and control scripts that are there whole."""

from __future__ import annotations

import os
import socket
import subprocess
from typing import Any

from serving import wire
from serving.checks import Checks
from serving.client import PATIENCE
from serving.server import (
    DONE,
    DOOR_FAULT,
    LIMIT,
    READ_FAULT,
    REFUSED,
    TOP,
    USAGE,
    WRITE_FAULT,
    Run,
    Server,
    free_ports,
    program,
    run_program,
)

# Words that aren't options, and a part of the cause that a person is told.
NO_OPTIONS: dict[tuple[str | bytes, ...], str] = {
    ("--members", "0"): "--members",
    ("--members", "9"): "--members",
    ("--members", "x"): "--members",
    ("--members", "-1"): "-1",
    ("--members", "1.5"): "--members",
    ("--members", ""): "--members",
    ("--members",): "--members",
    ("--members", "1", "--members", "2"): "--members",
    ("--backups", "7"): "--backups",
    ("--backups=7",): "--backups",
    ("--capacity", "2147483648"): "--capacity",
    ("--capacity", "99999999999999999999"): "--capacity",
    ("--port", "0"): "--port",
    ("--port", "65529"): "--port",
    ("--stay", "--stay"): "--stay",
    ("--stay=yes",): "--stay",
    ("--unknown",): "--unknown",
    ("--Members", "3"): "--Members",
    ("-p", "5701"): "-p",
    ("5701",): "5701",
    ("serve",): "serve",
    ("\xff".encode("latin-1"),): "",
}

HELP_TELLS = ("--members", "--backups", "--capacity", "--port", "--stay")


def serve_to_the_end(*options: str, **streams: Any) -> Run:
    """Runs a server of three members with these streams until it ends. Ports that another process took are left to it."""
    streams = {"stdout": subprocess.PIPE, "stderr": subprocess.PIPE, **streams}
    for _ in range(10):
        words = [program(), "serve", "--port", str(free_ports(3)), *options]
        done = subprocess.run(words, timeout=2 * PATIENCE, check=False, **streams)
        if done.returncode != DOOR_FAULT:
            break
    return Run(done.returncode, (done.stdout or b"").decode(), (done.stderr or b"").decode())


def script_run(script: bytes) -> Run:
    """A server whose control script is there whole."""
    return serve_to_the_end(input=script)


def words_that_are_no_options_are_told(checks: Checks) -> None:
    """Words behind `serve` that aren't its options end the program with status 1 and the cause on standard error. Nothing is
    read, and nothing is written to standard output."""
    for words, cause in NO_OPTIONS.items():
        what = "the words " + " ".join(repr(word) for word in words)
        run = run_program(["serve", *words], b"end\n")
        checks.equal(f"{what}, status", USAGE, run.status)
        checks.equal(f"{what}, standard output", "", run.out)
        checks.holds(f"{what}, standard error", run.err != "" and cause in run.err, f"a cause with '{cause}'", run.err)


def help_and_version_are_printed(checks: Checks) -> None:
    """`serve --help` prints each option, and `serve --version` the program's version, with status 0. Nothing is read."""
    run = run_program(["serve", "--help"], b"crash 0\n")
    checks.equal("--help, status", DONE, run.status)
    checks.equal("--help, standard error", "", run.err)
    for option in HELP_TELLS:
        checks.holds(f"--help, {option}", option in run.out, "is there", run.out)
    run = run_program(["serve", "--version"], b"crash 0\n")
    checks.equal("--version", Run(DONE, run_program(["--version"]).out, ""), run)


def a_listener(port: int) -> socket.socket:
    taken = socket.socket(socket.AF_INET, socket.SOCK_STREAM)
    taken.bind(("127.0.0.1", port))
    taken.listen()
    return taken


def a_port_that_is_taken_ends_the_program(checks: Checks) -> None:
    """Where the port of any member is taken, the program ends with status 6 and a word on standard error. The control script
    isn't read: the program ends though nothing is typed."""
    for member in range(3):
        port = free_ports(3)
        with a_listener(port + member):
            process = subprocess.Popen(
                [program(), "serve", "--port", str(port)],
                stdin=subprocess.PIPE,
                stdout=subprocess.PIPE,
                stderr=subprocess.PIPE,
            )
            try:
                checks.equal(f"port of member {member}, status", DOOR_FAULT, process.wait(PATIENCE))
                out, err = process.communicate()
                checks.equal(f"port of member {member}, standard output", b"", out)
                checks.holds(f"port of member {member}, standard error", err.strip() != b"", "a word", err)
            finally:
                process.kill()


def a_server_and_its_ports_are_told(checks: Checks) -> None:
    """Once the doors are open standard error says where, and each member is at the port and its number, on the loopback address.
    A second server at the same ports ends with status 6; they are free once the first one has ended."""
    with Server(members=8) as server:
        checks.holds("standard error", "127.0.0.1" in server.greeting, "127.0.0.1", server.greeting)
        for member in range(8):
            with server.client(member) as client:
                checks.equal(f"member {member}", wire.accepted(0, member), client.authenticate())
        checks.equal("a second server", DOOR_FAULT, run_program(["serve", "--port", str(server.port)], b"end\n").status)
        with server.known(7) as client:
            checks.equal("the first one behind that", True, client.is_served())
        port = server.port
    run = run_program(["serve", "--port", str(port)], b"end\n")
    checks.equal("a server behind it", (DONE, "1 ok\n"), (run.status, run.out))


def a_whole_control_script_runs(checks: Checks) -> None:
    """A control script that is there whole runs to its end, and the program ends with its status."""
    runs: dict[bytes, tuple[int, str]] = {
        b"end\n": (DONE, "1 ok\n"),
        b"end": (DONE, "1 ok\n"),
        b"end\ncrash 0\nx": (DONE, "1 ok\n"),
        b"crash 2\ndetect 2\nadvance 5\nend\n": (DONE, "1 ok\n2 ok\n3 nothing\n4 ok\n"),
        b"# a comment\n#\nend\n": (DONE, "1 ok\n2 ok\n3 ok\n"),
        b"": (REFUSED, "refused 0 noend\n"),
        b"crash 1\n": (REFUSED, "1 ok\nrefused 1 noend\n"),
        b"crash 1": (REFUSED, "1 ok\nrefused 1 noend\n"),
        b"crash 1\nclock 0 5\ncrash 2\nend\n": (REFUSED, "1 ok\nrefused 2 word\n"),
    }
    for script, (status, out) in runs.items():
        run = script_run(script)
        checks.equal(f"{script!r}", (status, out), (run.status, run.out))


def scripts_past_a_limit_end(checks: Checks) -> None:
    """A control script ends at a line that is too long, at one line too many and at one byte too many."""
    longest = b"#" * 65_536 + b"\n"
    run = script_run(longest + b"#" * 65_537 + b"\nend\n")
    checks.equal("a long line", (LIMIT, "1 ok\nlimit 2 line\n"), (run.status, run.out))
    run = script_run(b"#\n" * 200_000 + b"end\n")
    checks.equal("many lines, status", LIMIT, run.status)
    checks.equal("many lines, the last ones", ["200000 ok", "limit 200001 lines"], run.out.splitlines()[-2:])
    run = script_run(longest * 256)
    checks.equal("many bytes, status", LIMIT, run.status)
    checks.equal("many bytes, the last lines", ["255 ok", "limit 256 bytes"], run.out.splitlines()[-2:])


def broken_standard_streams_end_the_server(checks: Checks) -> None:
    """Where standard input can't be read the status is 3, and where standard output can't be written it is 4. Standard error has
    the cause; where it can't be written, the server serves all the same."""
    folder = os.open(TOP, os.O_RDONLY)
    with open("/dev/full", "wb") as full:
        no_input = serve_to_the_end(stdin=folder)
        no_output = serve_to_the_end(input=b"end\n", stdout=full)
        no_error = serve_to_the_end(input=b"end\n", stderr=full)
    os.close(folder)
    checks.equal("no input, status", READ_FAULT, no_input.status)
    checks.holds("no input, the cause", "standard input" in no_input.err, "a cause", no_input.err)
    checks.equal("no output, status", WRITE_FAULT, no_output.status)
    checks.holds("no output, the cause", "standard output" in no_output.err, "a cause", no_output.err)
    checks.equal("no standard error", (DONE, "1 ok\n"), (no_error.status, no_error.out))


def a_console_that_nobody_reads_ends_the_server(checks: Checks) -> None:
    """Where what read standard output has gone, the next outcome ends the script with status 4, and no signal."""
    with Server(stay=False) as server:
        server.read_no_more()
        server.type("# one\n")
        checks.equal("status", WRITE_FAULT, server.wait())


TESTS = (
    words_that_are_no_options_are_told,
    help_and_version_are_printed,
    a_port_that_is_taken_ends_the_program,
    a_server_and_its_ports_are_told,
    a_whole_control_script_runs,
    scripts_past_a_limit_end,
    broken_standard_streams_end_the_server,
    a_console_that_nobody_reads_ends_the_server,
)
