#!/usr/bin/env python3
"""Tries the must-fail edits that the gate leaves out: tests/edits.py --all, or tests/edits.py CRATE .., from anywhere.

An edit is a wrong body that the prover must refuse. What tries a crate's edits proves the crate once more, so the gate tries those of
crates that are proved fast or on which most rests (`crates/*/must-fail`). The others stand in `tests/edits/CRATE`: here they are put
into a copy of the repository that has no edits but them, and `rt ci` tries them there, as many at a time as there are processors. What
it proves it keeps for the gate, and what the gate proved on this machine isn't proved again. It prints what became of each edit, and
'N passed, M failed' at the end; the exit status is 0 where none failed.
"""

from __future__ import annotations

import re
import shutil
import subprocess
import sys
import tempfile
from pathlib import Path

TOP = Path(__file__).resolve().parent.parent
EDITS = TOP / "tests" / "edits"


def copy_to(room: Path, crates: list[str]) -> None:
    """A repository that has no edits but those of these crates that the gate leaves out."""
    shutil.copytree(TOP / "crates", room / "crates", ignore=shutil.ignore_patterns("out", "must-fail"))
    for crate in crates:
        shutil.copytree(EDITS / crate, room / "crates" / crate / "must-fail")
    for name in ("crates.txt", "HANDLES"):
        shutil.copy(TOP / name, room)


def refused_in(room: Path, names: list[str]) -> set[str]:
    """Tries the edits of the copy, and gives those that the prover refused."""
    refused = set()
    with subprocess.Popen(["rt", "ci", *names], cwd=room, stdout=subprocess.PIPE, stderr=subprocess.STDOUT, text=True) as run:
        for line in run.stdout:
            tried = re.match(r"rt: must-fail (\S+): (refused)?", line)
            if tried or re.match(r"rt: .*(NOT PROVED|FAILED|BAD EDIT)", line):
                print(line, end="", flush=True)
            if tried and tried[2]:
                refused.add(tried[1])
    return refused


def main() -> int:
    everything = sys.argv[1:] == ["--all"]
    crates = sorted(folder.name for folder in EDITS.iterdir()) if everything else sys.argv[1:]
    strangers = [crate for crate in crates if not (EDITS / crate).is_dir()]
    if strangers or not crates:
        print(f"tests/edits has no folder {strangers[0]}" if strangers else __doc__.splitlines()[0], file=sys.stderr)
        return 2
    with tempfile.TemporaryDirectory(prefix="grid-edits-") as folder:
        copy_to(Path(folder), crates)
        refused = refused_in(Path(folder), [] if everything else crates)
    tried = [f"{crate}/{edit.name}" for crate in crates for edit in sorted((EDITS / crate).glob("*.edit"))]
    failed = [name for name in tried if name not in refused]
    if failed:
        print(f"FAILED: {' '.join(failed)}")
    print(f"{len(tried) - len(failed)} passed, {len(failed)} failed")
    return 1 if failed else 0


if __name__ == "__main__":
    sys.exit(main())
