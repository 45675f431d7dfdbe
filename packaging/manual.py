#!/usr/bin/env python3
"""Writes the manual page of `grid` to standard output: packaging/manual.py PROGRAM.

The page is made from what the program itself prints: its version, its usage with a line for each command, and the options of its
server, so it can't say of these what isn't so. What an exit status means stands here, and in docs/SCRIPTS.md.
"""

from __future__ import annotations

import re
import subprocess
import sys
from collections.abc import Iterator

STATUSES = {
    "0": "all was done: the script came to its end",
    "1": "the words after the program's name are no command",
    "2": "a line was refused, or there was no end",
    "3": "standard input can't be read",
    "4": "standard output can't be written",
    "5": "the script went past a limit",
    "6": "the doors of the server failed, or a port is taken",
    "7": "memory ran out, or there were fewer threads than it takes",
}


def printed(program: str, *words: str) -> str:
    return subprocess.run([program, *words], capture_output=True, text=True, check=True, stdin=subprocess.DEVNULL).stdout


def escaped(text: str) -> str:
    """The text as roff has it: nothing in it is a request."""
    plain = text.replace("\\", "\\e").replace("-", "\\-")
    return re.sub(r"^([.'])", r"\\&\1", plain, flags=re.MULTILINE)


def commands(program: str) -> Iterator[tuple[str, str]]:
    """The forms of the program's words, each with what it does."""
    for line in printed(program, "--help").splitlines():
        form, what = re.fullmatch(r"(?:usage:)? +(grid .*?)(?:  +(.*))?", line).groups()
        yield form, what or ""


def options(program: str) -> Iterator[tuple[str, str]]:
    """The server's options, each with what it does, as `clap` prints them."""
    for line in printed(program, "serve", "--help").splitlines():
        found = re.fullmatch(r" +((?:-\w, )?--\S+(?: <\w+>)?)  +(.*)", line)
        if found:
            yield found[1], found[2]


def listed(rows: Iterator[tuple[str, str]]) -> Iterator[str]:
    for term, what in rows:
        yield f".TP\n.B {escaped(term)}\n{escaped(what)}"


def page(program: str) -> Iterator[str]:
    version = printed(program, "--version").strip()
    forms = list(commands(program))
    yield f'.TH GRID 1 "" "{escaped(version)}"'
    yield ".SH NAME\ngrid \\- a partitioned in\\-memory data grid"
    yield ".SH SYNOPSIS\n.nf\n" + "\n".join(f".B {escaped(form)}" for form, _ in forms) + "\n.fi"
    yield ".SH COMMANDS"
    yield from listed(iter(forms))
    yield ".SH OPTIONS OF SERVE"
    yield from listed(options(program))
    yield ".SH EXIT STATUS"
    yield from listed(iter(STATUSES.items()))


def main() -> int:
    if len(sys.argv) != 2:
        print(__doc__.splitlines()[0], file=sys.stderr)
        return 2
    print("\n".join(page(sys.argv[1])))
    return 0


if __name__ == "__main__":
    sys.exit(main())
