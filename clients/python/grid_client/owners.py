"""Who calls. A lock of the grid belongs to a client and a caller of it: a thread, or a task of asyncio. Each has a number of its
own, which no later one of the process has again."""

from __future__ import annotations

import asyncio
import itertools
import threading
from typing import Any, Final
from weakref import WeakKeyDictionary

_numbers: Final = itertools.count(1)
_here: Final = threading.local()
_tasks: Final[WeakKeyDictionary[asyncio.Task[Any], int]] = WeakKeyDictionary()


def thread_number() -> int:
    """The number of the thread that calls this."""
    try:
        number: int = _here.number
    except AttributeError:
        number = _here.number = next(_numbers)
    return number


def task_number() -> int:
    """The number of the task that calls this; that of its thread outside of tasks."""
    task = asyncio.current_task()
    if task is None:
        return thread_number()
    number = _tasks.get(task)
    if number is None:
        number = _tasks[task] = next(_numbers)
    return number
