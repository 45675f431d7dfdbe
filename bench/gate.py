#!/usr/bin/env python3
"""Says what each crate costs from nothing, in seconds of processor time:

    bench/gate.py [FILE]            runs the gate, from anywhere
    bench/gate.py --watch PID FILE  looks on as an `rt ci` of that process number runs, that somebody began, until it ends
    bench/gate.py --add FILE..      makes one table of several such runs, as of a first one of some crates and a second one of the rest

While `.ci/run` or `rt ci` runs, its processes of the prover are looked at twice a second, and their processor time is counted for the
crate that they prove: its library or program, its tests, or its must-fail edits. A process that lives for less than half a second is
missed, and so is one that ended before a run was watched. The table is written to FILE, in Markdown, and to FILE.seconds the same for
--add, every minute too: of what several runs did, the last of them counts.

What passed and failed in a gate is printed as it comes, each line behind the seconds since the beginning, and all that the gate wrote
goes to FILE.log. The exit status is the gate's.
"""

from __future__ import annotations

import os
import re
import subprocess
import sys
import threading
import time
from collections import defaultdict
from pathlib import Path
from typing import Iterator, NamedTuple

TOP = Path(__file__).resolve().parent.parent
TICKS = os.sysconf("SC_CLK_TCK")
STAGES = ("library", "tests", "edits")


class Work(NamedTuple):
    """What a process of the prover works on."""

    crate: str
    stage: str


def words_of(process: Path) -> list[str]:
    return (process / "cmdline").read_bytes().decode(errors="replace").split("\0")


def work_of(words: list[str], programs: set[str]) -> Work | None:
    """What the prover was called for with these words; None for another process."""
    if "--crate-name" not in words or not words[0].endswith("/rattle"):
        return None
    crate = words[words.index("--crate-name") + 1]
    if any(word.endswith(f"{crate}_tests.o") for word in words):
        return Work(crate, "tests")
    proves = words[1] == "build" or crate in programs and any("rt-proved-" in word for word in words)
    return Work(crate, "library" if proves else "edits")


def seconds_of(process: Path) -> float:
    """The processor time that a process has used by now."""
    fields = (process / "stat").read_text().rpartition(")")[2].split()
    return (int(fields[11]) + int(fields[12])) / TICKS


def parent_of(process: Path) -> Path:
    return process.with_name((process / "stat").read_text().rpartition(")")[2].split()[1])


def is_below(process: Path, top: int) -> bool:
    """Whether the process of that number, or one that it began, began this one."""
    while process.name not in ("0", "1"):
        if process.name == str(top):
            return True
        process = parent_of(process)
    return False


def processes(top: int) -> Iterator[tuple[str, list[str], float]]:
    """Each process that the top one began, by its number and the moment of its start, with its words and its processor time."""
    for process in Path("/proc").glob("[0-9]*"):
        try:
            if is_below(process, top):
                started = (process / "stat").read_text().rpartition(")")[2].split()[19]
                yield f"{process.name}/{started}", words_of(process), seconds_of(process)
        except (OSError, IndexError):
            continue


class Costs:
    """The processor time of each process that was seen, by what it works on."""

    def __init__(self) -> None:
        self.programs = {main.parent.parent.name for main in TOP.glob("crates/*/src/main.rt")}
        self.seen: dict[tuple[Work, str], float] = {}

    def look(self, top: int) -> None:
        for name, words, seconds in processes(top):
            work = work_of(words, self.programs)
            if work is not None:
                self.seen[work, name] = max(seconds, self.seen.get((work, name), 0.0))

    def by_work(self) -> dict[Work, float]:
        sums: dict[Work, float] = defaultdict(float)
        for (work, _), seconds in list(self.seen.items()):
            sums[work] += seconds
        return sums


def table_of(sums: dict[Work, float]) -> str:
    """A row for each crate, the dearest first."""
    crates: dict[str, list[float]] = defaultdict(lambda: [0.0] * len(STAGES))
    for work, seconds in sums.items():
        crates[work.crate][STAGES.index(work.stage)] += seconds
    lines = ["| Crate | Library | Tests | Edits |", "|---|---|---|---|"]
    for crate, stages in sorted(crates.items(), key=lambda it: (-sum(it[1]), it[0])):
        lines.append(f"| `{crate}` | " + " | ".join(map(shown, stages)) + " |")
    totals = (shown(sum(stages[at] for stages in crates.values())) for at in range(len(STAGES)))
    return "\n".join([*lines, "| all | " + " | ".join(totals) + " |"])


def write_costs(table: Path, sums: dict[Work, float], minutes: float) -> str:
    """Writes the table of a run, and its seconds for --add; returns what it wrote."""
    text = f"{minutes:.0f} minutes on {os.cpu_count()} processors. In seconds of processor time:\n\n{table_of(sums)}\n"
    if table != Path(os.devnull):
        table.write_text(text)
        rows = (f"{work.crate} {work.stage} {seconds:.2f}\n" for work, seconds in sorted(sums.items()))
        Path(f"{table}.seconds").write_text(f"minutes {minutes:.1f}\n" + "".join(rows))
    return text


def read_costs(table: str) -> tuple[dict[Work, float], float]:
    """The seconds of a run that was written, and its minutes."""
    first, *rows = Path(f"{table}.seconds").read_text().splitlines()
    sums = {Work(crate, stage): float(seconds) for crate, stage, seconds in map(str.split, rows)}
    return sums, float(first.split()[1])


def shown(seconds: float) -> str:
    return f"{seconds:,.0f}" if seconds >= 0.5 else ""


def keep_looking(costs: Costs, top: int, ended: threading.Event) -> None:
    while not ended.wait(0.5):
        costs.look(top)


def run_gate(table: Path) -> int:
    """Runs the gate, and writes what it cost."""
    costs, ended, began = Costs(), threading.Event(), time.monotonic()
    gate = subprocess.Popen([TOP / ".ci/run"], stdout=subprocess.PIPE, stderr=subprocess.STDOUT, text=True, errors="replace")
    looking = threading.Thread(target=keep_looking, args=(costs, gate.pid, ended))
    looking.start()
    assert gate.stdout is not None
    with open(f"{table}.log" if table != Path(os.devnull) else table, "w") as log:
        for line in gate.stdout:
            log.write(line)
            log.flush()
            if re.search(r"proved|PROVED|refused|passed|failed|FAILED|edits", line):
                print(f"{time.monotonic() - began:7.0f}  {line}", end="", flush=True)
    status = gate.wait()
    ended.set()
    looking.join()
    print(write_costs(table, costs.by_work(), (time.monotonic() - began) / 60))
    return status


def watch(top: int, table: Path) -> int:
    """Looks on as a run goes, until it has ended, and writes what it cost since."""
    costs, began, written = Costs(), time.monotonic(), 0.0
    while Path(f"/proc/{top}").exists():
        costs.look(top)
        now = time.monotonic() - began
        if now - written > 60:
            write_costs(table, costs.by_work(), now / 60)
            written = now
        time.sleep(0.5)
    print(write_costs(table, costs.by_work(), (time.monotonic() - began) / 60))
    return 0


def add(tables: list[str]) -> int:
    """Prints one table of several runs."""
    sums: dict[Work, float] = {}
    minutes = []
    for table in tables:
        costs, took = read_costs(table)
        sums.update(costs)
        minutes.append(took)
    print(" and ".join(f"{took:.0f}" for took in minutes), "minutes. In seconds of processor time:\n")
    print(table_of(sums))
    return 0


def main() -> int:
    match sys.argv[1:]:
        case ["--watch", top, table]:
            return watch(int(top), Path(table))
        case ["--add", *tables] if tables:
            return add(tables)
        case [] | [_] as words if not words or not words[0].startswith("-"):
            return run_gate(Path(words[0] if words else os.devnull))
    print(__doc__)
    return 1


if __name__ == "__main__":
    sys.exit(main())
