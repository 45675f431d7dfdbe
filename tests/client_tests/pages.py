"""The commands and programs of the guide's pages, and of the client's README: each runs, and prints what the page says.

A page is a list of fenced blocks, from top to bottom. Ports and the program's place are put in for those that it names.

    sh           commands; the one that starts a server has its console at hand for the blocks behind it
    sh console   commands that print what is typed at the console
    console      lines that are typed, and the outcome of each
    python       a part of the page's program
    text         what the block before it prints"""

from __future__ import annotations

import io
import re
import shlex
import subprocess
from collections.abc import Iterator
from contextlib import ExitStack, redirect_stdout
from dataclasses import dataclass
from pathlib import Path
from typing import Any

from grid_client import GridClient
from serving.checks import Checks, Test
from serving.client import PATIENCE
from serving.server import TOP, Server, program

BUILT = "crates/grid/out/grid"
FIRST_PORT = 5701
STAYS = "--stay"
PAGES = (*sorted((TOP / "docs" / "guide").glob("*.md")), TOP / "clients" / "python" / "README.md")

FENCE = re.compile(r"^```(.*)$")
LINK = re.compile(r"\]\(([^)\s]+)\)")


@dataclass(frozen=True)
class Block:
    """A fenced block: what stands behind the fence, its text, and the line at which it begins."""

    sort: str
    text: str
    line: int


def blocks_of(page: str) -> Iterator[Block]:
    """The fenced blocks of a page, in order."""
    sort: str | None = None
    first, held = 0, list[str]()
    for number, line in enumerate(page.splitlines(), start=1):
        fence = FENCE.match(line)
        if fence is None:
            held.append(line)
        elif sort is None:
            sort, first, held = fence[1], number + 1, []
        else:
            yield Block(sort, "".join(f"{line}\n" for line in held), first)
            sort = None


class PageServer(Server):
    """A server that is started by the words of a page."""

    def __init__(self, words: list[str]) -> None:
        named = [word for word in words if word != STAYS]
        options = dict(zip(named[::2], named[1::2], strict=True))
        options.pop("--port", None)
        self.members = int(options.get("--members", "3"))
        self.limits = None
        self.options = [word for option in options.items() for word in option] + [word for word in words if word == STAYS]
        self.start()


class PageRun:
    """A run of a page, block by block. What it started has ended behind its `with`."""

    def __init__(self, checks: Checks, page: Path) -> None:
        self.checks = checks
        self.page = page
        self.names: dict[str, Any] = {"__name__": "__main__"}
        self.stack = ExitStack()
        self.server: Server | None = None
        self.printed = ""

    def __enter__(self) -> PageRun:
        return self

    def __exit__(self, *_: object) -> None:
        self.end_server()

    def end_server(self) -> None:
        """Closes the page's clients and ends its server."""
        for value in self.names.values():
            if isinstance(value, GridClient):
                value.close()
        self.stack.close()
        self.server = None

    def run(self, block: Block) -> None:
        runs = {
            "sh": self.run_commands,
            "sh console": self.type_what_they_print,
            "console": self.type_lines,
            "python": self.run_program,
            "text": self.compare,
        }
        run = runs.get(block.sort)
        self.checks.holds(f"line {block.line}", run is not None, f"one of {list(runs)}", block.sort)
        if run is not None:
            run(block, self.placed(block.text))

    def placed(self, text: str) -> str:
        """A text of the page, with the ports and the program of this run."""
        first = self.server.port if self.server else FIRST_PORT
        return re.sub(r"\b570[1-8]\b", lambda port: str(first + int(port[0]) - FIRST_PORT), text).replace(BUILT, str(program()))

    def run_commands(self, block: Block, text: str) -> None:
        words = shlex.split(text)
        if words[:2] == [str(program()), "serve"]:
            self.end_server()
            self.server = self.stack.enter_context(PageServer(words[2:]))
            self.printed = f"{self.server.greeting}\n"
        else:
            self.printed = self.output_of(block, text)

    def output_of(self, block: Block, text: str) -> str:
        done = subprocess.run(["bash", "-euo", "pipefail", "-c", text], cwd=TOP, capture_output=True, timeout=PATIENCE, check=False)
        self.checks.equal(f"line {block.line}, exit status", 0, done.returncode)
        self.checks.equal(f"line {block.line}, standard error", b"", done.stderr)
        return done.stdout.decode()

    def type_what_they_print(self, block: Block, text: str) -> None:
        server = self.running()
        lines = self.output_of(block, text).splitlines()
        outcomes = [server.order(line) for line in lines]
        refused = [outcome for outcome in outcomes if not re.fullmatch(r"\d+ row \d+", outcome)]
        self.checks.equal(f"line {block.line}, outcomes that aren't rows", [], refused)
        self.checks.at_least(f"line {block.line}, lines typed", 1, len(lines))

    def type_lines(self, block: Block, text: str) -> None:
        server = self.running()
        lines = text.splitlines()
        for typed, wanted in zip(lines[::2], lines[1::2], strict=True):
            self.checks.equal(f"line {block.line}, '{typed}'", wanted, server.order(typed))

    def running(self) -> Server:
        if self.server is None:
            raise ValueError("the page has started no server yet")
        return self.server

    def run_program(self, block: Block, text: str) -> None:
        out = io.StringIO()
        # lines of the page in a traceback
        code = compile("\n" * (block.line - 1) + text, str(self.page), "exec")
        with redirect_stdout(out):
            exec(code, self.names)
        self.printed = out.getvalue()

    def compare(self, block: Block, text: str) -> None:
        self.checks.equal(f"line {block.line}", text, self.printed)


def run_page(checks: Checks, page: Path) -> None:
    with PageRun(checks, page) as run:
        for block in blocks_of(page.read_text()):
            run.run(block)


def test_of(page: Path) -> Test:
    """A test that runs a page."""

    def test(checks: Checks) -> None:
        run_page(checks, page)

    test.__name__ = f"the_page_{page.relative_to(TOP)}"
    return test


def links_lead_somewhere(checks: Checks) -> None:
    """Each link of a page leads to a file, and to a heading of it."""
    for page in PAGES:
        for link in LINK.findall(page.read_text()):
            path, _, heading = link.partition("#")
            target = (page.parent / path).resolve() if path else page
            what = f"{page.relative_to(TOP)}, {link}"
            checks.holds(what, target.is_file() and (not heading or heading in headings_of(target)), "a place", "none")


def headings_of(page: Path) -> set[str]:
    """The anchors of a page's headings."""
    titles = re.findall(r"^#+ (.*)$", page.read_text(), re.MULTILINE)
    return {re.sub(r"[^\w\- ]", "", title.lower()).replace(" ", "-") for title in titles}


def every_server_stays(checks: Checks) -> None:
    """A server that a page starts stays where its console ends, as that of a script does at once."""
    for page in PAGES:
        begun = [block.text for block in blocks_of(page.read_text()) if block.text.startswith(f"{BUILT} serve")]
        checks.equal(f"servers of {page.name} that don't stay", [], [text for text in begun if STAYS not in text])


def every_page_is_linked(checks: Checks) -> None:
    """Each page of the guide is linked from its first page, and links another one."""
    first = TOP / "docs" / "guide" / "start.md"
    linked = set(LINK.findall(first.read_text()))
    for page in first.parent.glob("*.md"):
        checks.equal(f"{page.name} is linked from {first.name}", True, page == first or page.name in linked)
        checks.at_least(f"links of {page.name} to others", 1, len(re.findall(r"\]\([\w-]+\.md", page.read_text())))


TESTS: tuple[Test, ...] = (*map(test_of, PAGES), links_lead_somewhere, every_server_stays, every_page_is_linked)
