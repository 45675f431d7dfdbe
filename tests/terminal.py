#!/usr/bin/env python3
"""Runs a command with a terminal for its standard error: terminal.py FILE COMMAND ..

What the command writes there goes to the file, with the terminal's ends of lines made newlines. The exit status is the command's.
"""
import os
import pty
import subprocess
import sys


def read_all(terminal: int) -> bytes:
    """All that is written to a terminal until its other side is closed."""
    pieces = []
    while True:
        try:
            piece = os.read(terminal, 4096)
        except OSError:
            break
        if not piece:
            break
        pieces.append(piece)
    return b"".join(pieces)


def main() -> int:
    path, command = sys.argv[1], sys.argv[2:]
    terminal, inside = pty.openpty()
    with subprocess.Popen(command, stdin=subprocess.DEVNULL, stderr=inside) as process:
        os.close(inside)
        told = read_all(terminal)
    with open(path, "wb") as file:
        file.write(told.replace(b"\r\n", b"\n"))
    return process.returncode


if __name__ == "__main__":
    sys.exit(main())
