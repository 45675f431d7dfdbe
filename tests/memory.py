#!/usr/bin/env -S python3 -B
"""Refuses each request for memory of `grid replay` in turn, each of `grid serve` with a client, and some of `grid sample`, which makes
very many, and tells what came of them. Run it from anywhere, with a C compiler at hand, after `rt ci` or `rt run` in crates/grid has built the program: tests/memory.py. GRID
names another. It is no part of the gate, since it runs the program some thousand times.

    tests/memory.py [replay] [serve] [sample]

For each command it prints how many requests were refused, and how many of them came to what. A line for each run that came to what
it mustn't says which request was refused; the exit status is 0 where there is none."""

from __future__ import annotations

import sys
from collections import Counter
from collections.abc import Callable
from dataclasses import dataclass
from pathlib import Path

from memory_tests.refusing import SOURCE, Outcome, all_outcomes
from memory_tests.samples import sample
from memory_tests.scripts import replay
from memory_tests.servers import serve
from serving.preloading import library_of



@dataclass(frozen=True)
class Command:
    """A run of a command of which a request is refused, and how far one that is refused is from the next."""

    run: Callable[[Path, int], Outcome]
    apart: int = 1


COMMANDS = {"replay": Command(replay), "serve": Command(serve), "sample": Command(sample, apart=101)}


def tell(name: str, library: Path) -> bool:
    """Refuses requests of a command, and prints what came of them. True where all of it may be."""
    command = COMMANDS[name]
    kinds: Counter[str] = Counter()
    wrong = 0
    for number, outcome in all_outcomes(lambda number: command.run(library, number), command.apart):
        kinds[outcome.kind] += 1
        if not outcome.is_right:
            wrong += 1
            print(f"{name}, request {number}: {outcome.kind}, which mustn't be", flush=True)
    print(f"{name}: {kinds.total()} requests for memory, each refused in turn")
    for kind, count in kinds.most_common():
        print(f"{count:8} {kind}")
    return wrong == 0 and kinds.total() > 0


def main(words: list[str]) -> int:
    with library_of(SOURCE) as library:
        right = [tell(name, library) for name in words or COMMANDS]
    return 0 if all(right) else 1


if __name__ == "__main__":
    sys.exit(main(sys.argv[1:]))
