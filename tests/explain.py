#!/usr/bin/env python3
"""Explains every scenario with `grid explain`, and says again what the explanations say.

Run it from anywhere, after `rt ci` or `rt run` in crates/grid has built the program: tests/explain.py [FOLDER..]. GRID names
another program; each FOLDER has further scripts. The last line is 'N passed, M failed', and the exit status is 0 where none
failed. It checks of each script that

- `explain` ends with the status of `replay`, and with its last line where that is a refusal or a limit;
- each line of the explanation begins with the number of a line of the script, in rising order;
- each connection's answers are as many at each line as `replay` prints;
- each `say` line, composed by `grid compose`, gives the bytes of its line, where the line is that whole message;

and of those that have one in tests/explained, the eleven scenarios to read first, one of a near client and one of masters, that it is that one.
"""
import os
import re
import subprocess
import sys
from concurrent.futures import ThreadPoolExecutor
from pathlib import Path

TOP = Path(__file__).resolve().parent.parent
GRID = os.environ.get("GRID", str(TOP / "crates/grid/out/grid"))
SCENARIOS = TOP / "crates/grid_scenarios/data"
GOLDEN = TOP / "tests/explained"
PREFIX = "435032"
SECONDS = 60


def run(command, text):
    done = subprocess.run([GRID, command], input=text, capture_output=True, timeout=SECONDS)
    return done.returncode, done.stdout.decode("utf-8", "replace").split("\n")[:-1]


def numbered(lines):
    """The lines of an explanation by the numbers with which they begin, and the last one where it is a refusal or limit."""
    last = None
    if lines and re.match(r"(refused|limit) ", lines[-1]):
        last = lines.pop()
    told = []
    for line in lines:
        number, _, words = line.partition(" ")
        told.append((int(number), words))
    return told, last


def whole_messages(script):
    """By line, what `say` may give: the hexadecimal of lines of bytes, without the prefix of their connections."""
    begun = set()
    found = {}
    for number, line in enumerate(script.split(b"\n"), 1):
        words = line.decode("latin-1").split(" ")
        if words[0] == "bytes" and len(words) == 3:
            conn, digits = words[1], words[2].lower()
            if conn not in begun and digits.startswith(PREFIX):
                digits = digits[len(PREFIX):]
            begun.add(conn)
            found[number] = digits
    return found


def is_one_message(digits):
    """Whether these are the bytes of one unfragmented message."""
    try:
        data = bytes.fromhex(digits)
    except ValueError:
        return False
    at, first = 0, True
    while at + 6 <= len(data):
        length = int.from_bytes(data[at:at + 4], "little")
        flags = int.from_bytes(data[at + 4:at + 6], "little")
        if length < 6 or first and flags & 0xC000 != 0xC000:
            return False
        at, first = at + length, False
        if flags & 0x2000:
            return at == len(data)
    return False


def said_again(told):
    """The hexadecimal that `compose` gives for each `say` line, without the prefix."""
    says = [(number, words) for number, words in told if words.startswith("say ")]
    if not says:
        return []
    words = "\n".join(["grid 8 0 10"] + [words for _, words in says] + ["end", ""])
    status, composed = run("compose", words.encode())
    if status != 0 or len(composed) != len(says) + 2:
        return None
    begun = set()
    given = []
    for (number, _), line in zip(says, composed[1:-1]):
        _, conn, digits = line.split(" ")
        if conn not in begun:
            digits = digits[len(PREFIX):]
        begun.add(conn)
        given.append((number, digits))
    return given


def counted(pairs):
    counts = {}
    for key in pairs:
        counts[key] = counts.get(key, 0) + 1
    return counts


def faults(path):
    """What is wrong with the explanation of a script."""
    script = path.read_bytes()
    wanted, transcript = run("replay", script)
    status, lines = run("explain", script)
    golden = GOLDEN / f"{path.stem}.explained"
    if golden.exists() and path.is_relative_to(SCENARIOS):
        if golden.read_text() != "".join(f"{line}\n" for line in lines):
            yield "the explanation isn't the one in tests/explained"
    if status != wanted:
        yield f"status {status} in place of {wanted}"
        return
    try:
        told, last = numbered(lines)
    except ValueError:
        yield "a line begins with no number"
        return
    _, refused = numbered([line for line in transcript if line])
    if last != refused:
        yield f"it ends with '{last}' in place of '{refused}'"
    numbers = [number for number, _ in told]
    if numbers != sorted(numbers):
        yield "its numbers don't rise"
    answers = counted((number, words.split(" ")[1]) for number, words in told if words.startswith("-> "))
    printed = counted((int(line.split(" ")[0]), line.split(" ")[2]) for line in transcript if " to " in line[:12])
    if answers != printed:
        yield "its answers aren't those of the transcript"
    given = said_again(told)
    if given is None:
        yield "compose refuses what it says"
        return
    yield from different(script, told, given)


def different(script, told, given):
    """The `say` lines that give other bytes than those of their lines, and whole messages that are told twice."""
    messages = whole_messages(script)
    heard = counted(number for number, words in told if re.match(r"(say|heard|bytes) ", words))
    for number, digits in given:
        whole = messages.get(number, "")
        if heard[number] == 1 and is_one_message(whole) and digits != whole:
            yield f"line {number} says other bytes"


def check(path):
    try:
        return path, list(faults(path))
    except subprocess.TimeoutExpired:
        return path, [f"it takes more than {SECONDS} seconds"]


def main():
    folders = [SCENARIOS] + [Path(word) for word in sys.argv[1:]]
    scripts = sorted(path for folder in folders for path in folder.rglob("*.script"))
    with ThreadPoolExecutor(max_workers=os.cpu_count()) as pool:
        results = list(pool.map(check, scripts))
    wrong = [(path, found) for path, found in results if found]
    for path, found in wrong:
        print(f"explain, {path.stem}: {'; '.join(found)}")
    print(f"{len(results) - len(wrong)} passed, {len(wrong)} failed")
    return 1 if wrong else 0


if __name__ == "__main__":
    sys.exit(main())
