"""Refusals: each number has its exception, and those behind which another member may take the call are followed."""

from __future__ import annotations

import struct
from typing import cast

import grid_client
from grid_client import (
    BadCall,
    GridClient,
    Migrating,
    NotSent,
    PartitionLost,
    Refused,
    UnknownType,
    WrongCluster,
    WrongPartition,
    WrongTarget,
)
from grid_client.addresses import Address, Manner
from grid_client.members import Member
from grid_client.wire import Answer, Kind, Request
from serving.checks import Checks
from serving.operating import Operator
from serving.server import Server, free_ports

from client_tests.fakes import Behaviour, FakeMember, finding_nothing, in_turn, refusing
from client_tests.shared import SHORT, Running, client_of, raises

# The number of each refusal, and its exception's name.
NAMES = {
    2: "NotAuthenticated",
    3: "UnknownType",
    4: "BadCall",
    5: "WrongPartition",
    6: "Busy",
    7: "PartitionLost",
    8: "WrongTarget",
    9: "Migrating",
    10: "WantOfMemory",
    11: "KeyLocked",
    12: "NotOwner",
    13: "UnknownProcessor",
    14: "Exhausted",
}


def each_number_has_its_exception(checks: Checks) -> None:
    """A member that refuses all calls with one number: its exception comes, with the number and its details."""
    for number, name in NAMES.items():
        with FakeMember(refusing(number, 70, 8)) as member, GridClient([member.address], retry_for=SHORT) as client:
            error = raises(checks, f"error {number}", getattr(grid_client, name), client.map("m").remove, "k")
            checks.equal(f"the number of {name}", number, getattr(error, "number", None))
            checks.equal(f"the details of {name}", (70, 8), getattr(error, "details", None))
    with FakeMember(refusing(99)) as member, GridClient([member.address], retry_for=SHORT) as client:
        error = raises(checks, "a number that the client doesn't know", Refused, client.map("m").remove, "k")
        checks.equal("its number", 99, getattr(error, "number", None))


def a_server_refuses_what_is_no_call(checks: Checks) -> None:
    """A server's refusals of messages that the client itself never sends."""
    messages = [
        ("a type that isn't served", Request(cast(Kind, 0x007F00)), UnknownType),
        ("a registration", Request(cast(Kind, 0x011900), 5, b"\x01", (b"m",)), UnknownType),
        ("a registration without a map", Request(cast(Kind, 0x011900), 5, b"\x01"), BadCall),
        ("a key of seven bytes", Request(Kind.GET, 5, bytes(8), (b"m", b"7 bytes")), BadCall),
        ("a partition that isn't the key's", Request(Kind.GET, 6, bytes(8), (b"m", struct.pack(">ii", 5, 0))), WrongPartition),
    ]
    with Server() as server:
        member = Member(Address("127.0.0.1", server.port), Manner("dev", 1, 30))
        for what, request, wanted in messages:
            answer = member.ask(request)
            checks.equal(what, wanted, type(answer.refusal))
        checks.equal("the partitions that the last one tells", (6, 5), partitions_told(answer))
        member.close()


def partitions_told(answer: Answer) -> tuple[int, int] | None:
    refusal = answer.refusal
    return (refusal.stated, refusal.of_key) if isinstance(refusal, WrongPartition) else None


def a_client_needs_members_of_its_cluster(checks: Checks) -> None:
    """Where nobody listens, and where the cluster has another name, no client is made; nor is one without members."""
    nobody = [("127.0.0.1", free_ports(1))]
    raises(checks, "nobody there", NotSent, GridClient, nobody, retry_for=SHORT)
    with Server() as server:
        address = f"127.0.0.1:{server.port}"
        raises(checks, "another cluster", WrongCluster, GridClient, [address], cluster="prod")
        with GridClient([*nobody, address]) as client:
            checks.equal("who answers", [False, True], list(client.ping().values()))
    faulty: tuple[list[str], ...] = ([], ["127.0.0.1"], ["127.0.0.1:x"], [":5701"])
    for members in faulty:
        raises(checks, f"a client of {members}", ValueError, GridClient, members)
    raises(checks, "a timeout of no time", ValueError, GridClient, nobody, timeout=0)
    for span in (0, -1):
        raises(checks, f"retries for {span} seconds", ValueError, GridClient, nobody, retry_for=span)
    raises(checks, "an address in place of a list", TypeError, GridClient, "127.0.0.1:5701")
    for number in (-1, 2**128):
        raises(checks, f"a client with the number {number}", ValueError, GridClient, nobody, number=number)


def a_call_goes_on_to_who_takes_it(checks: Checks) -> None:
    """Refusals 6, 8 and 9 are followed to another member, and who took the call is asked first from then on."""
    for number in (6, 8, 9):
        with FakeMember(refusing(number, 1)) as one, FakeMember(finding_nothing) as other:
            with GridClient([one.address, other.address], retry_for=20) as client:
                m = client.map("m")
                for _ in range(3):
                    m.remove("k")
            with GridClient([one.address, other.address], retry_for=SHORT) as client:
                checks.equal("a client that asks each member once", None, client.map("m").remove("k"))
        checks.equal(f"calls that were taken, by refusal {number}", 4, len(other.calls))
        checks.at_most(f"calls that were refused with {number}", 2, len(one.calls))


def a_refused_call_is_made_again(checks: Checks) -> None:
    """A member that refuses a while is asked again, more seldom each time, until it takes the call or the time is up."""
    for number in (6, 8, 9):
        behaviour: Behaviour = in_turn(*[refusing(number, 1)] * 4, finding_nothing)
        with FakeMember(behaviour) as member, GridClient([member.address], retry_for=20) as client:
            checks.equal(f"a call that is refused four times with {number}", None, client.map("m").remove("k"))
            checks.equal("how often it was made", 5, len(member.calls))
    with FakeMember(refusing(8, 1)) as member, GridClient([member.address], retry_for=1) as client:
        raises(checks, "a call that is always refused", WrongTarget, client.map("m").remove, "k")
        checks.at_least("how often it was made", 2, len(member.calls))
        checks.at_most("how often it was made", 100, len(member.calls))


def the_newest_row_says_whether_a_partition_is_lost(checks: Checks) -> None:
    """A member that knows an older row isn't believed that the partition is lost; behind the newest row no call is made again."""
    with FakeMember(refusing(7, 2)) as lost, FakeMember(in_turn(refusing(8, 3), finding_nothing)) as newer:
        with GridClient([lost.address, newer.address], retry_for=20) as client:
            checks.equal("a call that is taken at last", None, client.map("m").remove("k"))
    with FakeMember(refusing(8, 2)) as older, FakeMember(refusing(7, 3)) as lost:
        with GridClient([older.address, lost.address], retry_for=20) as client:
            error = raises(checks, "a lost partition", PartitionLost, client.map("m").remove, "k")
            checks.equal("the row's version", 3, getattr(error, "version", None))
        checks.equal("calls", (1, 1), (len(older.calls), len(lost.calls)))


def a_lost_partition_is_told_until_it_is_reopened(checks: Checks) -> None:
    """A partition whose primary and backup have crashed is lost; once it is reopened it is empty."""
    with Server() as server, client_of(server) as client:
        operator = Operator(server)
        client.queue("q", partition=5).offer(b"gone")
        outcomes = [operator.order(line) for line in ("crash 2", "crash 0", "detect 2", "detect 0")]
        checks.equal("crashes and detections", ["ok"] * 4, outcomes)
        with client_of(server) as late:
            again = late.queue("q", partition=5)
            raises(checks, "a call", PartitionLost, again.peek)
            checks.equal("reopen", "row 4", operator.order("reopen 5"))
            checks.equal("a peek behind that", None, again.peek())
            checks.equal("an offer", True, again.offer(b"new"))


def a_frozen_partition_is_waited_for(checks: Checks) -> None:
    """While a partition is handed over its primary is frozen: a call waits until another member leads, or its time is up."""
    with Server() as server, client_of(server) as client, client_of(server, retry_for=SHORT) as hasty:
        operator = Operator(server)
        client.queue("q", partition=5).offer(b"kept")
        checks.equal("move", "row 2", operator.order("move 5 2 1"))
        checks.equal("advance", "freezing", operator.order("advance 5"))
        error = raises(checks, "a call without time", Migrating, hasty.queue("q", partition=5).poll)
        checks.equal("the row's version", 2, getattr(error, "version", None))
        waiting = Running(client.queue("q", partition=5).poll)
        checks.equal("a call that waits", False, waiting.ends_within(0.2))
        checks.equal("advance", "row 3", operator.finish_move(5))
        checks.equal("what the call gave", b"kept", waiting.result())


def nobody_leads_before_a_crash_is_detected(checks: Checks) -> None:
    """A client that doesn't know the crashed member finds that no other one takes the call."""
    with Server() as server:
        Operator(server).order("crash 2")
        others = [("127.0.0.1", server.port + member) for member in (0, 1)]
        with GridClient(others, retry_for=SHORT) as client:
            error = raises(checks, "a call", WrongTarget, client.queue("q", partition=5).poll)
            checks.equal("the row's version", 1, getattr(error, "version", None))


TESTS = (
    each_number_has_its_exception,
    a_server_refuses_what_is_no_call,
    a_client_needs_members_of_its_cluster,
    a_call_goes_on_to_who_takes_it,
    a_refused_call_is_made_again,
    the_newest_row_says_whether_a_partition_is_lost,
    a_lost_partition_is_told_until_it_is_reopened,
    a_frozen_partition_is_waited_for,
    nobody_leads_before_a_crash_is_detected,
)
