"""The control script as an operator's console: each line's outcome, and how a server ends."""

from __future__ import annotations

import time

from serving import wire
from serving.checks import Checks
from serving.client import PATIENCE, Ended, wait_until
from serving.server import DONE, REFUSED, Server
from serving.wire import Key, Kind, Refusal


def orders(checks: Checks, server: Server, script: str) -> None:
    """Types the lines of a script, each once the one before is answered. Behind each stands its outcome."""
    pairs = [line.split(" -> ") for line in script.strip().splitlines()]
    for number, (line, outcome) in enumerate(pairs, start=1):
        line = line.strip()
        checks.equal(f"line {number}, '{line}'", f"{number} {outcome}", server.order(line))


def is_put(checks: Checks, server: Server, member: int, key: Key, before: bytes | None) -> None:
    """A put at a member is answered with what was there before."""
    with server.known(member) as client:
        wanted = wire.valued(Kind.PUT, 1, before)
        checks.equal(f"a put in {key.partition} at {member}", wanted, client.ask(wire.put(1, key, b"new")))


def is_refused(checks: Checks, server: Server, member: int, partition: int, refusal: Refusal, version: int) -> None:
    """A get at a member is refused with this number and version."""
    with server.known(member) as client:
        wanted = wire.refused(1, refusal, version)
        checks.equal(f"a get in {partition} at {member}", wanted, client.ask(wire.get(1, Key(partition, "k"))))


def each_line_is_answered_at_once(checks: Checks) -> None:
    """A line's outcome comes before the next line is typed, also where a line comes in pieces; nothing comes before its
    newline."""
    with Server() as server:
        orders(checks, server, "# one -> ok\n# two -> ok\ncrash 2 -> ok")
        server.type("cra")
        time.sleep(0.2)
        server.type("sh 1")
        time.sleep(0.2)
        server.type("\n# and one more\nadvance 5\n")
        checks.equal("a line in pieces", "4 ok", server.out.next())
        checks.equal("the line behind it", "5 ok", server.out.next())
        checks.equal("the line behind that", "6 nothing", server.out.next())


def crashes_and_detections_have_outcomes(checks: Checks) -> None:
    """A member crashes once, and is detected once it has."""
    with Server() as server:
        orders(
            checks,
            server,
            """
            detect 0 -> nothing
            crash 0 -> ok
            crash 0 -> nothing
            detect 1 -> nothing
            detect 0 -> ok
            detect 0 -> nothing
            crash 2 -> ok
            crash 1 -> ok
            detect 2 -> ok
            detect 1 -> ok
            end -> ok
            """,
        )


def a_move_has_outcomes(checks: Checks) -> None:
    """A partition moves from its primary to a member outside its row, and then a backup is replaced. Calls are served before,
    within and behind."""
    key = Key(5, "k")
    with Server() as server:
        is_put(checks, server, 2, key, None)
        orders(
            checks,
            server,
            """
            advance 5 -> nothing
            move 5 2 1 -> row 2
            move 5 2 1 -> refused notidle
            join 5 1 -> refused notidle
            """,
        )
        is_put(checks, server, 2, key, b"new")
        is_refused(checks, server, 0, 5, Refusal.NOT_PRIMARY, 2)
        checks.equal("advance", "5 freezing", server.order("advance 5"))
        is_refused(checks, server, 2, 5, Refusal.FROZEN, 2)
        checks.equal("advance", "6 row 3", server.order("advance 5"))
        is_refused(checks, server, 2, 5, Refusal.NOT_PRIMARY, 3)
        is_put(checks, server, 1, key, b"new")
        checks.equal("advance", "7 nothing", server.order("advance 5"))
        checks.equal("a source outside", "8 refused notthere", server.order("move 5 2 0"))
        checks.equal("a target inside", "9 refused alreadythere", server.order("move 5 1 0"))
        checks.equal("a backup", "10 row 4", server.order("move 5 0 2"))
        checks.equal("advance", "11 row 5", server.order("advance 5"))
        is_put(checks, server, 1, key, b"new")


def joins_and_handovers_have_outcomes(checks: Checks) -> None:
    """A member joins a row, and leads once the partition is handed over to it; the old primary leaves, and may join again."""
    key = Key(5, "k")
    with Server() as server:
        is_put(checks, server, 2, key, None)
        orders(
            checks,
            server,
            """
            handover 5 2 1 -> refused notthere
            handover 5 0 2 -> refused notthere
            handover 5 2 0 -> ok
            handover 5 2 0 -> refused notidle
            advance 5 -> freezing
            advance 5 -> row 2
            advance 5 -> nothing
            join 5 0 -> refused alreadythere
            join 5 2 -> row 3
            advance 5 -> nothing
            join 5 1 -> row 4
            handover 5 0 1 -> ok
            advance 5 -> freezing
            advance 5 -> row 5
            """,
        )
        is_put(checks, server, 1, key, b"new")
        is_refused(checks, server, 0, 5, Refusal.NOT_PRIMARY, 5)


def resends_have_outcomes(checks: Checks) -> None:
    """The service and a primary that lives send again; a backup, a stranger and a crashed member don't."""
    with Server() as server:
        orders(
            checks,
            server,
            """
            resend 5 3 -> ok
            resend 5 2 -> ok
            resend 5 0 -> nothing
            resend 5 1 -> nothing
            crash 2 -> ok
            resend 5 2 -> nothing
            resend 5 3 -> ok
            detect 2 -> ok
            resend 5 0 -> ok
            """,
        )


def lost_partitions_are_reopened(checks: Checks) -> None:
    """A partition whose members have crashed is lost: calls are refused with 7, and moves with `lost`. Reopened it goes on
    empty, and only once nobody is left it can't be."""
    key = Key(5, "k")
    with Server() as server:
        is_put(checks, server, 2, key, None)
        orders(
            checks,
            server,
            """
            reopen 5 -> refused notlost
            crash 2 -> ok
            crash 0 -> ok
            detect 2 -> ok
            reopen 5 -> refused notlost
            detect 0 -> ok
            move 5 2 1 -> refused lost
            join 5 1 -> refused lost
            handover 5 2 0 -> refused lost
            advance 5 -> nothing
            """,
        )
        is_refused(checks, server, 1, 5, Refusal.LOST, 3)
        checks.equal("reopen", "11 row 4", server.order("reopen 5"))
        is_put(checks, server, 1, key, None)
        is_put(checks, server, 1, key, b"new")
        checks.equal("crash", "12 ok", server.order("crash 1"))
        checks.equal("detect", "13 ok", server.order("detect 1"))
        checks.equal("reopen without a member", "14 refused nomember", server.order("reopen 5"))


def moves_to_members_that_are_gone_are_refused(checks: Checks) -> None:
    """A member that was detected isn't a target, and one that has crashed and wasn't detected doesn't become eligible."""
    with Server(members=4) as server:
        orders(
            checks,
            server,
            """
            crash 3 -> ok
            join 1 3 -> row 2
            advance 1 -> nothing
            detect 3 -> ok
            join 1 3 -> refused notlive
            move 1 1 3 -> refused notlive
            handover 1 1 2 -> ok
            crash 2 -> ok
            detect 2 -> ok
            advance 1 -> nothing
            """,
        )
        is_put(checks, server, 1, Key(1, "k"), None)


def a_backup_that_may_not_lead_is_no_target(checks: Checks) -> None:
    """Behind a reopening a backup that has crashed isn't eligible, so the partition isn't handed over to it."""
    with Server(members=4) as server:
        orders(
            checks,
            server,
            """
            crash 1 -> ok
            crash 2 -> ok
            detect 1 -> ok
            detect 2 -> ok
            crash 0 -> ok
            reopen 1 -> row 4
            handover 1 3 0 -> refused noteligible
            detect 0 -> ok
            handover 1 3 0 -> refused notthere
            """,
        )
        is_put(checks, server, 3, Key(1, "k"), None)


# Lines that a control script doesn't have, on three members, with their causes.
REFUSED_LINES = {
    "": "word",
    " ": "word",
    "crash": "count",
    "crash 1 2": "count",
    "crash 1 ": "count",
    "crash  1": "count",
    "crash 3": "number",
    "crash -1": "number",
    "crash 01": "number",
    "crash x": "number",
    "Crash 1": "word",
    " crash 1": "word",
    "crash\t1": "word",
    "detect 99999999999999999999": "number",
    "move 5 0": "count",
    "move 271 0 1": "number",
    "move 5 0 3": "number",
    "join 5": "count",
    "handover 5 3 0": "number",
    "reopen 271": "number",
    "advance 5 1": "count",
    "resend 5 4": "number",
    "end 1": "count",
    "grid 3 1 10": "nogrid",
    "open 0 0": "word",
    "bytes 0 00": "word",
    "clock 0 5": "word",
    "dump 5 0": "word",
    "trail 5": "word",
    "links 5": "word",
    "flow all 1": "word",
    "deliver 5 0 1 0": "word",
    "lose 5 0 1 0": "word",
    "near 0 6d 10": "word",
    "help": "word",
    "quit": "word",
}


def each_line_that_is_none_ends_the_script(checks: Checks) -> None:
    """A line that isn't in the grammar of control scripts is refused with its cause, and ends the script. The server ends with
    status 2."""
    for line, why in REFUSED_LINES.items():
        with Server(stay=False) as server:
            server.type(f"# first\n{line}\n# behind\n")
            checks.equal(f"'{line}'", ["1 ok", f"refused 2 {why}"], server.out.rest())
            checks.equal(f"'{line}', status", REFUSED, server.wait())


def a_refused_line_doesnt_end_a_server_that_stays(checks: Checks) -> None:
    """Behind a refused line, and behind standard input's end, a server that stays lets clients in, until it is ended from
    outside."""
    for text, out in (("crash 1\nnothing\n", ["1 ok", "refused 2 word"]), ("end\n", ["1 ok"]), ("", ["refused 0 noend"])):
        with Server(stay=True) as server:
            server.type(text)
            server.type_no_more()
            checks.equal(f"outcomes of {text!r}", out, [server.out.next() for _ in out])
            for number in range(3):
                is_put(checks, server, 2, Key(2, f"{number}"), None)
            checks.equal(f"runs behind {text!r}", True, server.runs())
            server.terminate()
            server.wait()


def a_server_ends_with_its_last_connection(checks: Checks) -> None:
    """Behind its script a server serves who had come, lets nobody else in, and ends with the last one, with the script's
    status."""
    for text, outcome, status in (("end\n", "1 ok", DONE), ("x\n", "refused 1 word", REFUSED)):
        with Server(stay=False) as server, server.known(2) as known, server.client(0) as silent:
            server.type(text)
            checks.equal("the outcome", outcome, server.out.next())
            checks.equal("who had come", True, known.is_served())
            checks.equal("a put of who had come", None, known.put(Key(5, "k"), b"v").value)
            checks.equal("one that has said nothing yet", wire.accepted(0, 0), silent.authenticate())
            # the script's end reaches the server a moment after its outcome is told
            checks.equal("nobody else is let in", True, wait_until(lambda: not is_let_in(server)))
            known.close()
            checks.equal("the other one", True, silent.is_served())
            checks.equal("the server runs", True, server.runs())
            silent.send_no_more()
            checks.equal("status", status, server.wait())


def is_let_in(server: Server) -> bool:
    """Whether a client that comes now is answered."""
    try:
        with server.client(2) as late:
            late.send(wire.PREFIX, wire.authentication(0))
            return late.comes() == "bytes"
    except (ConnectionRefusedError, Ended):
        return False


def a_server_without_clients_ends_with_its_script(checks: Checks) -> None:
    """Without a connection a server ends as its script does, and sooner than in a second."""
    for text, status in (("end\n", DONE), ("", REFUSED), ("x\n", REFUSED)):
        with Server(stay=False) as server:
            server.type(text)
            server.type_no_more()
            checks.equal(f"status behind {text!r}", status, server.wait())


def who_leaves_early_ends_the_server_too(checks: Checks) -> None:
    """A server ends behind its script also where its last connections were reset, or ended in the middle of a frame."""
    with Server(stay=False) as server:
        for number in range(4):
            client = server.known(number % 3)
            client.send(wire.ping(1)[: 5 * number])
            if number % 2:
                client.reset()
            else:
                client.close()
        checks.equal("end", "1 ok", server.order("end"))
        checks.equal("the server ends", True, wait_until(lambda: not server.runs(), seconds=PATIENCE))


TESTS = (
    each_line_is_answered_at_once,
    crashes_and_detections_have_outcomes,
    a_move_has_outcomes,
    joins_and_handovers_have_outcomes,
    resends_have_outcomes,
    lost_partitions_are_reopened,
    moves_to_members_that_are_gone_are_refused,
    a_backup_that_may_not_lead_is_no_target,
    each_line_that_is_none_ends_the_script,
    a_refused_line_doesnt_end_a_server_that_stays,
    a_server_ends_with_its_last_connection,
    a_server_without_clients_ends_with_its_script,
    who_leaves_early_ends_the_server_too,
)
