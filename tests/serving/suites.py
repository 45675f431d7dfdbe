"""A suite of tests as a program: which of its tests are run, and on servers of how many loops."""

from __future__ import annotations

import argparse
import os
from collections.abc import Iterator, Sequence
from dataclasses import dataclass
from types import ModuleType

from serving.checks import Test, Turn, run_turns
from serving.server import Server, end_when_told, program, raise_descriptor_limit


@dataclass(frozen=True)
class Suite:
    """Modules of tests. Those on servers are run with each number of loops; None is the program's own."""

    name: str
    alone: Sequence[ModuleType]
    on_servers: Sequence[ModuleType]
    loops: Sequence[int | None]

    def turns(self, loops: Sequence[int | None]) -> Iterator[Turn]:
        """Each test with the number of loops of its servers."""
        yield from (Turn(test, None) for module in self.alone for test in module.TESTS)
        yield from (Turn(test, count) for count in loops for module in self.on_servers for test in module.TESTS)

    def main(self, about: str) -> int:
        """Runs the tests that the program's words ask for. The exit status is 0 where none failed."""
        words = read_words(about)
        if not os.access(program(), os.X_OK):
            print(f"no program at {program()}: build it with 'rt ci', or set GRID")
            print("0 passed, 1 failed")
            return 1
        end_when_told()
        raise_descriptor_limit()
        turns = self.turns(words.loops or self.loops)
        chosen = [turn for turn in turns if is_asked_for(turn.test, words.words)]
        return 0 if run_turns(chosen, begin=serve_with, told=words.times, suite=self.name) else 1


def read_words(about: str) -> argparse.Namespace:
    parser = argparse.ArgumentParser(description=about, formatter_class=argparse.RawDescriptionHelpFormatter)
    parser.add_argument("--times", action="store_true", help="also tells each test, with its time")
    parser.add_argument("--loops", type=int, action="append", metavar="L", help="on servers of so many loops alone; may be repeated")
    parser.add_argument("words", nargs="*", metavar="WORD", help="runs the tests in whose names a word stands")
    return parser.parse_args()


def is_asked_for(test: Test, words: Sequence[str]) -> bool:
    return not words or any(word in test.__name__ for word in words)


def serve_with(loops: int | None) -> None:
    """From now on a server whose test doesn't say otherwise has so many loops."""
    Server.loops = loops
