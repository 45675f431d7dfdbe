"""Where this package tells what happens: the logger `grid_client`. It says nothing unless the program wants it to."""

from __future__ import annotations

import logging
from typing import Final

log: Final = logging.getLogger("grid_client")
log.addHandler(logging.NullHandler())
