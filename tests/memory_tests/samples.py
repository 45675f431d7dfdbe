"""A sample in which one request for memory is refused."""

from __future__ import annotations

import subprocess
from pathlib import Path

from serving.client import PATIENCE
from serving.server import DONE, TOP, program

from memory_tests.refusing import Outcome, Refusal
from memory_tests.scripts import OUT_OF_MEMORY

# What is printed of the number 0: the summary of its script, and then what the counted calls come to.
WHOLE = (TOP / "tests/samples/0.summary").read_text()
SUMMARY = "".join(WHOLE.splitlines(keepends=True)[:8])
COUNTS = WHOLE.removeprefix(SUMMARY)

# What standard error is told, the second before the words are read.
WANTS = ("grid: out of memory or of threads\n", "grid: out of memory\n")


def numbers_of(summary: str) -> dict[str, int]:
    """The numbers of a summary by their words."""
    return {word: int(number) for word, number in (line.split(" ") for line in summary.splitlines())}


def tells_of_want(summary: str) -> bool:
    """Whether a summary counts calls that found no memory, and each call that arrived once."""
    numbers = numbers_of(summary)
    kinds = sum(numbers[kind] for kind in ("answered", "refused", "memory", "waiting"))
    return numbers["memory"] > 0 and numbers["arrived"] == kinds


def kind_of(status: int, out: str, err: str) -> tuple[str, bool]:
    """What a run came to that ended with this status and wrote this, and whether that may be."""
    summary = out.removesuffix(COUNTS)
    if status == OUT_OF_MEMORY and err in WANTS:
        told = {"": "nothing", SUMMARY: "the summary"}.get(out)
        return f"status 7 with {told}", told is not None
    if status == DONE and out == WHOLE:
        return "status 0 with the whole text", True
    if status == DONE and summary != out:
        return "status 0 with the whole text, which counts calls without memory", tells_of_want(summary)
    return f"status {status}", False


def sample(library: Path, number: int) -> Outcome:
    """Runs the sample of 0, and refuses the request of this number."""
    with Refusal(library, number) as refusal:
        done = subprocess.run(
            [program(), "sample", "0"],
            stdin=subprocess.DEVNULL,
            capture_output=True,
            timeout=PATIENCE,
            check=False,
            env=refusal.settings,
            pass_fds=[refusal.told],
        )
        kind, is_right = kind_of(done.returncode, done.stdout.decode(), done.stderr.decode())
        return Outcome(kind, is_right, refusal.came())
