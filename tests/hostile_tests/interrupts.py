"""Standard streams whose reads and writes signals interrupt."""

from __future__ import annotations

import subprocess
from collections.abc import Sequence
from pathlib import Path

from serving.checks import Checks
from serving.client import PATIENCE
from serving.preloading import Preloaded, library_of
from serving.server import TOP, Run, free_ports, program, run_program

SOURCE = Path(__file__).with_name("interrupt.c")

SCRIPT = (TOP / "crates/grid/stdin").read_bytes()
WORDS = (TOP / "crates/compose_lines/data/sessions/put_then_get.words").read_bytes()
CONTROL = b"crash 2\ndetect 2\nadvance 5\nend\n"


def run_interrupted(library: Path, words: Sequence[str], script: bytes) -> tuple[Run, set[str]]:
    """Runs the program with these words and this standard input, and interrupts its reads and writes. Tells of which there were
    any, as letters."""
    with Preloaded(library) as preloaded:
        done = subprocess.run(
            [program(), *words],
            input=script,
            capture_output=True,
            timeout=2 * PATIENCE,
            check=False,
            env=preloaded.settings,
            pass_fds=[preloaded.told],
        )
        return Run(done.returncode, done.stdout.decode(), done.stderr.decode()), set(preloaded.what_was_told().decode())


def is_the_same_interrupted(checks: Checks, library: Path, calls: str, words: Sequence[str], script: bytes) -> None:
    """A run whose reads and writes are interrupted comes to what it comes to otherwise. These calls were interrupted."""
    run, interrupted = run_interrupted(library, words, script)
    checks.equal(f"{words[0]}, interrupted", run_program(words, script), run)
    checks.equal(f"{words[0]}, what was interrupted", set(calls), interrupted)


def interrupted_calls_are_made_again(checks: Checks) -> None:
    """Where signals interrupt every second read and write of a standard stream, from the first on, each command reads and writes all the
    same what it does otherwise."""
    with library_of(SOURCE) as library:
        is_the_same_interrupted(checks, library, "rw", ["replay"], SCRIPT)
        is_the_same_interrupted(checks, library, "rw", ["compose"], WORDS)
        is_the_same_interrupted(checks, library, "rw", ["serve", "--port", str(free_ports(3))], CONTROL)
        is_the_same_interrupted(checks, library, "w", ["sample", "0"], b"")


TESTS = (interrupted_calls_are_made_again,)
