"""The version of this client, and what another one of a server means."""

from __future__ import annotations

from typing import Final

from .logs import log

__version__: Final = "0.1.0"


def fits(version: str) -> bool:
    """Whether a server of this version is one that the client was made for: the first two numbers say it."""
    return version.split(".")[:2] == __version__.split(".")[:2]


def compare(version: str | None, server: str) -> None:
    """Logs a warning where a server tells a version for which this client wasn't made."""
    if version is not None and not fits(version):
        log.warning("%s is of version %s, and this client of %s: calls may be refused as UnknownType", server, version, __version__)
