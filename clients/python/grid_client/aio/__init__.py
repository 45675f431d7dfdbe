"""The client for programs of asyncio: the same names, and calls that are awaited.

    from grid_client import TEXT
    from grid_client.aio import GridClient

    async with GridClient(["127.0.0.1:5701", "127.0.0.1:5702", "127.0.0.1:5703"]) as client:
        sessions = client.map("sessions", values=TEXT)
        await sessions.put("anna", "logged in", ttl=1800)

Codecs, exceptions and all else are those of `grid_client`. A lock belongs to the task that took it."""

from .client import GridClient
from .maps import Map
from .pipelines import Pipeline
from .queues import Queue

__all__ = ["GridClient", "Map", "Pipeline", "Queue"]
