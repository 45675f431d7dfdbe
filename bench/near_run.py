#!/usr/bin/env python3
"""Says what the look-ups of a script's last lines cost a program, in nanoseconds of processor time each:

    bench/near_run.py FIRST LAST PROGRAM [WORD..]

FIRST and LAST are files. The program is handed the lines of FIRST, and once it has printed what comes of them, those of LAST, which
look up with `nearget`. What it has used by then and what it has used in the end differ by what the lines of LAST cost. What it does
as it begins and as it ends, as to give back what the lines of FIRST made, isn't in it. The program prints what comes of each line
behind the line's number.
"""

from __future__ import annotations

import os
import subprocess
import sys
import threading
import time
from pathlib import Path


class Program:
    """A program that reads lines, and prints what comes of them behind their numbers."""

    def __init__(self, words: list[str]) -> None:
        self.process = subprocess.Popen(words, stdin=subprocess.PIPE, stdout=subprocess.PIPE)
        self.lines = 0
        self.end = b"\n"

    def used(self) -> int:
        """The nanoseconds of processor time that it has used, once it waits for more."""
        last, now = -1, 0
        while last != now:
            time.sleep(0.02)
            last, now = now, int(Path(f"/proc/{self.process.pid}/schedstat").read_text().split()[0])
        return now

    def give(self, text: bytes) -> None:
        assert self.process.stdin is not None
        self.process.stdin.write(text)
        self.process.stdin.flush()

    def read_to(self, line: int) -> None:
        """Reads what it prints to the end of what comes of a line."""
        assert self.process.stdout is not None
        last = b"\n%d " % line
        while last not in self.end or not self.end.endswith(b"\n"):
            printed = os.read(self.process.stdout.fileno(), 1 << 20)
            if not printed:
                sys.exit(f"the program ended before line {line}")
            self.end = self.end[-4096:] + printed

    def run(self, script: Path) -> None:
        """Hands it a script, and waits until it has told of the last line."""
        text = script.read_bytes()
        self.lines += text.count(b"\n")
        writer = threading.Thread(target=self.give, args=(text,))
        writer.start()
        self.read_to(self.lines)
        writer.join()

    def stop(self) -> None:
        assert self.process.stdin is not None and self.process.stdout is not None
        self.process.stdin.close()
        self.process.stdout.read()
        self.process.wait()


def main() -> int:
    if len(sys.argv) < 4:
        print(__doc__)
        return 1
    first, last = Path(sys.argv[1]), Path(sys.argv[2])
    program = Program(sys.argv[3:])
    program.run(first)
    before = program.used()
    program.run(last)
    print(f"{(program.used() - before) / last.read_bytes().count(b'nearget'):.1f}")
    program.stop()
    return 0


if __name__ == "__main__":
    sys.exit(main())
