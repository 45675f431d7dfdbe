"""What a call on the grid may raise.

Each exception says whether the call was executed. Most say that it wasn't; `OutcomeUnknown` alone leaves it open, and the
client never sends such a call again by itself."""

from __future__ import annotations

from typing import ClassVar, Final


class GridError(Exception):
    """The base of all that is raised here."""


class ClientClosed(GridError):
    """The client was closed. The call wasn't sent."""


class WrongCluster(GridError):
    """The members belong to a cluster of another name. The call wasn't sent."""


class NotSent(GridError):
    """The call couldn't be sent to any member within the time that it had. It wasn't executed."""


class OutcomeUnknown(GridError):
    """The call was sent, and no answer came: the connection ended, or the time was up. It may have been executed, or not, and
    it may still be. Look at what stands in the grid before it is made again."""


class ConnectionLost(OutcomeUnknown):
    """The connection ended after the call was sent. It may have been executed, or not."""


class ProtocolFault(OutcomeUnknown):
    """A member sent bytes that aren't the answer to the call. It may have been executed, or not."""


class GridRestarted(GridError):
    """The grid came back empty since the client's last call: its process was ended and started again. The call wasn't sent. It
    is raised once, of a client with `tell_restarts`, and further calls go on with what is there now."""


class LockTimeout(GridError):
    """Another owner kept the lock for as long as was to be waited. The caller doesn't have it."""


class TooLarge(GridError, ValueError):
    """A key, a value or a name is too long for a message. The call wasn't sent."""


class UnreadableValue(GridError, ValueError):
    """The call was executed, and what it gave isn't of the kind that the codec reads. `data` has its bytes."""

    def __init__(self, what: str, data: bytes) -> None:
        super().__init__(what)
        self.data: Final = data


class Refused(GridError):
    """A member refused the call, with this number and two details."""

    NUMBER: ClassVar[int] = 0
    WHY: ClassVar[str] = "the call was refused"

    def __init__(self, number: int, details: tuple[int, int] = (0, 0)) -> None:
        super().__init__(f"{self.WHY} (error {number})")
        self.number: Final = number
        self.details: Final = details


class NotAuthenticated(Refused):
    """The connection made no client known. The call wasn't executed."""

    NUMBER = 2
    WHY = "the connection isn't authenticated"


class UnknownType(Refused):
    """The server has no such call. It wasn't executed."""

    NUMBER = 3
    WHY = "the server has no such call"


class BadCall(Refused):
    """The server couldn't read the call. It wasn't executed."""

    NUMBER = 4
    WHY = "the server couldn't read the call"


class WrongPartition(Refused):
    """The call stated another partition than its key's. It wasn't executed."""

    NUMBER = 5
    WHY = "the call states another partition than its key's"

    @property
    def stated(self) -> int:
        """The partition that the call stated."""
        return self.details[0]

    @property
    def of_key(self) -> int:
        """The partition of its key."""
        return self.details[1]


class Busy(Refused):
    """The member had more calls waiting than it takes, until the time was up. The call wasn't executed."""

    NUMBER = 6
    WHY = "the member has too many calls waiting"


class RowRefused(Refused):
    """A refusal by the row of the partition that the member knows: who leads it, and whether it is lost."""

    @property
    def version(self) -> int:
        """The version of that row."""
        return self.details[0]


class PartitionLost(RowRefused):
    """No member has the partition any more, until the operator reopens it. The call wasn't executed."""

    NUMBER = 7
    WHY = "the partition is lost"


class WrongTarget(RowRefused):
    """No member took the call until the time was up: none that answered leads the partition. It wasn't executed."""

    NUMBER = 8
    WHY = "the member doesn't lead the partition"


class Migrating(RowRefused):
    """The partition was on its way to another member until the time was up. The call wasn't executed."""

    NUMBER = 9
    WHY = "the partition is on its way to another member"


class WantOfMemory(Refused):
    """The server had no memory for the call. It wasn't executed."""

    NUMBER = 10
    WHY = "the server has no memory for the call"


class KeyLocked(Refused):
    """Another owner has locked the key. The write changed nothing."""

    NUMBER = 11
    WHY = "another owner has locked the key"


class NotOwner(Refused):
    """The caller doesn't hold the lock that it gives back. Nothing changed."""

    NUMBER = 12
    WHY = "the caller doesn't hold the lock"


class LeaseEnded(NotOwner):
    """The lock was gone at the end of its `with`: its lease had ended, or it was taken away. Others may have written meanwhile."""

    WHY = "the lock was gone before the end of its block"


class UnknownProcessor(Refused):
    """The server has no processor of that number. Nothing changed."""

    NUMBER = 13
    WHY = "the server has no processor of that number"


class Exhausted(Refused):
    """The partition has had as many events as it takes. The call wasn't executed."""

    NUMBER = 14
    WHY = "the partition takes no more calls"


_REFUSALS: Final = {
    refusal.NUMBER: refusal
    for refusal in (
        NotAuthenticated,
        UnknownType,
        BadCall,
        WrongPartition,
        Busy,
        PartitionLost,
        WrongTarget,
        Migrating,
        WantOfMemory,
        KeyLocked,
        NotOwner,
        UnknownProcessor,
        Exhausted,
    )
}


def refusal_of(number: int, details: tuple[int, int]) -> Refused:
    """The exception for an error's number; a plain `Refused` for one that this client doesn't know."""
    return _REFUSALS.get(number, Refused)(number, details)
