"""A client of `grid serve`, on the standard library alone.

    from grid_client import TEXT, GridClient

    with GridClient(["127.0.0.1:5701", "127.0.0.1:5702", "127.0.0.1:5703"]) as client:
        sessions = client.map("sessions", values=TEXT)
        sessions.put("anna", "logged in", ttl=1800)

README.md beside this package has a program for each use, and docs/guide of the repository a page."""

from .calls import Processor
from .client import GridClient
from .codecs import BYTES, JSON, NUMBERS, TEXT, Codec
from .errors import (
    BadCall,
    Busy,
    ClientClosed,
    ConnectionLost,
    Exhausted,
    GridError,
    GridRestarted,
    KeyLocked,
    LeaseEnded,
    LockTimeout,
    Migrating,
    NotAuthenticated,
    NotOwner,
    NotSent,
    OutcomeUnknown,
    PartitionLost,
    ProtocolFault,
    Refused,
    RowRefused,
    TooLarge,
    UnknownProcessor,
    UnknownType,
    UnreadableValue,
    WantOfMemory,
    WrongCluster,
    WrongPartition,
    WrongTarget,
)
from .maps import Map
from .partitions import partition_of
from .pipelines import Later, Pipeline
from .queues import Queue
from .repeats import again
from .version import __version__

__all__ = [
    "BYTES",
    "JSON",
    "NUMBERS",
    "TEXT",
    "BadCall",
    "Busy",
    "ClientClosed",
    "Codec",
    "ConnectionLost",
    "Exhausted",
    "GridClient",
    "GridError",
    "GridRestarted",
    "KeyLocked",
    "Later",
    "LeaseEnded",
    "LockTimeout",
    "Map",
    "Migrating",
    "NotAuthenticated",
    "NotOwner",
    "NotSent",
    "OutcomeUnknown",
    "PartitionLost",
    "Pipeline",
    "Processor",
    "ProtocolFault",
    "Queue",
    "Refused",
    "RowRefused",
    "TooLarge",
    "UnknownProcessor",
    "UnknownType",
    "UnreadableValue",
    "WantOfMemory",
    "WrongCluster",
    "WrongPartition",
    "WrongTarget",
    "__version__",
    "again",
    "partition_of",
]
