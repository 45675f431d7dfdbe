#!/usr/bin/env python3
"""Draws each scenario with the program `grid`: tests/pictures.py [FOLDER..].

Each script must end with the exit status of its replay, and nothing may stand on standard error. Its picture must be
well-formed, with all that stands in it inside its frame. Where its messages are delivered and lost one by one, or by the
`flow` of one partition, it has an arrow or a broken line for each; messages between masters, and what a published decision
came to, have words. FOLDERs have scripts, as files *.script, in place of the scenarios. GRID names another program. The last
line is 'N passed, M failed', and the exit status is 0 where none failed.
"""
import os
import subprocess
import sys
import xml.etree.ElementTree as tree
from concurrent.futures import ThreadPoolExecutor
from pathlib import Path

ROOT = Path(__file__).resolve().parent.parent
GRID = os.environ.get("GRID", str(ROOT / "crates/grid/out/grid"))
SCENARIOS = ROOT / "crates/grid_scenarios/data"
SVG = "{http://www.w3.org/2000/svg}"
SECONDS = 120


def run(command: str, script: Path) -> subprocess.CompletedProcess:
    with open(script, "rb") as source:
        return subprocess.run([GRID, command], stdin=source, capture_output=True, timeout=SECONDS)


def is_inside(element: tree.Element, width: int, height: int) -> bool:
    """Whether the places that an element names are inside a picture."""
    across = [element.get(name) for name in ("x", "x1", "x2")]
    down = [element.get(name) for name in ("y", "y1", "y2")]
    return all(0 <= int(place) <= width for place in across if place) and all(
        0 <= int(place) <= height for place in down if place
    )


def faults_of_picture(picture: bytes, script: bytes, transcript: bytes) -> list[str]:
    """What is wrong with the picture of a script's run."""
    try:
        svg = tree.fromstring(picture)
    except tree.ParseError as error:
        return [f"its picture isn't well-formed: {error}"]
    if svg.tag != f"{SVG}svg":
        return [f"its picture is a {svg.tag}"]
    width, height = int(svg.get("width")), int(svg.get("height"))
    outside = [it for it in svg if it.tag != f"{SVG}defs" and not is_inside(it, width, height)]
    faults = [f"{len(outside)} elements stand outside its picture"] if outside else []
    return faults + faults_of_arrows(script, transcript, svg)


def faults_of_arrows(script: bytes, transcript: bytes, svg: tree.Element) -> list[str]:
    """Whether a picture has an arrow or a broken line for each message that the transcript has delivered or lost."""
    commands = [line.split(b" ") for line in script.split(b"\n")]
    if any(words[0] == b"rebalance" or words[:2] == [b"flow", b"all"] for words in commands):
        return []
    messages, published = 0, False
    for line in transcript.splitlines():
        number, word, *rest = line.split(b" ")
        command = commands[int(number) - 1][0] if number.isdigit() else b""
        messages += command == b"deliver" and word == b"took" and not published
        messages += command == b"lose" and word == b"ok"
        messages += int(rest[0]) if command == b"flow" and word == b"flow" else 0
        published = word == b"published"
    shown = [it.get("class") for it in svg.iter(f"{SVG}line")]
    arrows = sum(it in ("message", "untaken", "lost") for it in shown)
    return [] if arrows == messages else [f"its picture has {arrows} arrows for {messages} messages"]


def faults_of(script: Path) -> list[str]:
    """What is wrong with the picture of a script's run."""
    replayed, drawn = run("replay", script), run("draw", script)
    faults = []
    if drawn.returncode != replayed.returncode:
        faults.append(f"it ends with {drawn.returncode} in place of {replayed.returncode}")
    if drawn.stderr:
        faults.append(f"it says {drawn.stderr[:80]!r}")
    return faults + faults_of_picture(drawn.stdout, script.read_bytes(), replayed.stdout)


def main() -> int:
    folders = [Path(it) for it in sys.argv[1:]] or [SCENARIOS]
    scripts = sorted(it for folder in folders for it in folder.rglob("*.script"))
    failed = 0
    with ThreadPoolExecutor(os.cpu_count()) as pool:
        for script, faults in zip(scripts, pool.map(faults_of, scripts)):
            for fault in faults:
                print(f"pictures, {script.parent.name}/{script.stem}: {fault}")
            failed += bool(faults)
    print(f"{len(scripts) - failed} passed, {failed} failed")
    return 0 if scripts and not failed else 1


if __name__ == "__main__":
    sys.exit(main())
