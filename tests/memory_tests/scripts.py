"""A replay of a script in which one request for memory is refused."""

from __future__ import annotations

import subprocess
from pathlib import Path

from hostile_tests.histories import entries_of, lines_of, why_wrong
from serving import wire
from serving.client import PATIENCE
from serving.server import DONE, TOP, program

from memory_tests.refusing import Outcome, Refusal

OUT_OF_MEMORY = 7

# In its script a message's correlation is its number.
SCENARIO = TOP / "crates/grid_scenarios/data/moves/a_move_with_a_held_put"


def calls_without_memory(transcript: str) -> set[tuple[str, str]]:
    """The connection and the number of each message that is refused with error 10."""
    answers = [(words[2], wire.read_answer(bytes.fromhex(words[3]))) for words in lines_of(transcript, "to")]
    return {(connection, str(answer.correlation)) for connection, answer in answers if answer.refusal == wire.Refusal.NO_MEMORY}


def kind_of(status: int, out: str, err: str, whole: str) -> tuple[str, bool]:
    """What a run came to that ended with this status and wrote this, and whether that may be."""
    if status == OUT_OF_MEMORY:
        return "status 7 with a front of the transcript", whole.startswith(out) and err == "grid: out of memory\n"
    if status == DONE and out == whole:
        return "status 0 with the whole transcript", True
    if status == DONE:
        skipped = calls_without_memory(out)
        calls = {(entry.connection, entry.number) for entry in entries_of(out)}
        return "status 0 with error 10 on a call that has no entry", bool(skipped) and not skipped & calls and not why_wrong(out)
    return f"status {status}", False


def replay(library: Path, number: int) -> Outcome:
    """Runs the scenario, and refuses the request of this number."""
    with Refusal(library, number) as refusal:
        done = subprocess.run(
            [program(), "replay"],
            input=SCENARIO.with_suffix(".script").read_bytes(),
            capture_output=True,
            timeout=PATIENCE,
            check=False,
            env=refusal.settings,
            pass_fds=[refusal.told],
        )
        whole = SCENARIO.with_suffix(".transcript").read_text()
        kind, is_right = kind_of(done.returncode, done.stdout.decode(), done.stderr.decode(), whole)
        return Outcome(kind, is_right, refusal.came())
