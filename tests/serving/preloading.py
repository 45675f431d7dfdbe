"""Libraries that are loaded before the program, so that its calls of the C library come to them first."""

from __future__ import annotations

import os
import subprocess
from collections.abc import Iterator
from contextlib import contextmanager
from pathlib import Path
from tempfile import TemporaryDirectory

# More than any of the libraries tells.
MOST_TOLD = 65_536


@contextmanager
def library_of(source: Path) -> Iterator[Path]:
    """The library of this source, made by the C compiler that CC names."""
    with TemporaryDirectory() as folder:
        library = Path(folder) / source.with_suffix(".so").name
        compiler = os.environ.get("CC", "gcc")
        subprocess.run([compiler, "-O2", "-shared", "-fPIC", "-o", library, source], check=True)
        yield library


class Preloaded:
    """A library that is loaded before a process, which is to be started with its settings and its descriptor, and what it tells."""

    def __init__(self, library: Path, **settings: str) -> None:
        self.heard, self.told = os.pipe()
        self.settings = {"LD_PRELOAD": str(library), "TOLD": str(self.told), **settings}

    def __enter__(self) -> Preloaded:
        return self

    def __exit__(self, *_: object) -> None:
        self.close_told()
        os.close(self.heard)

    def close_told(self) -> None:
        if self.told >= 0:
            os.close(self.told)
            self.told = -1

    def what_was_told(self) -> bytes:
        """All that the library told. To be asked once the process has ended."""
        self.close_told()
        return os.read(self.heard, MOST_TOLD)
