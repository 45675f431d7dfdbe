#!/usr/bin/env python3
"""Draws what bench/serve.sh prints, as an SVG: calls a second by kind and shape, and below it the 99th percentile of the time from a
call to its answer.

    bench/serve.sh | tee table.txt
    bench/plot.py [TITLE] < table.txt > table.svg

The columns are those of the table's first line; further ones are left aside, and so is what stands behind an empty line. The exit
status is 0, or 1 with the cause on standard error where no such table was read."""

from __future__ import annotations

import math
import sys
from collections.abc import Iterable, Iterator, Sequence
from dataclasses import dataclass
from xml.sax.saxutils import escape, quoteattr

WIDTH = 1100
LEFT, RIGHT = 80, 20
TOP, PANEL, GAP = 92, 220, 76

# Of a palette that is told apart without red and green.
COLOURS = ("#0072b2", "#e69f00", "#56b4e9", "#999999", "#cc79a7", "#009e73")

INK, FAINT = "#222222", "#dddddd"


@dataclass(frozen=True)
class Row:
    """A line of the table: a kind, and in what shape its calls came."""

    kind: str
    shape: str
    calls: float
    p99: float


class NoTable(ValueError):
    """What was read is no table."""


def rows_of(lines: Iterable[str]) -> list[Row]:
    """Reads the table: its head, and lines up to an empty one."""
    cells = (line.split() for line in lines)
    head: list[str] = next((row for row in cells if row[:1] == ["kind"]), [])
    try:
        places = [head.index(name) for name in ("kind", "shape", "calls/second", "p99/us")]
    except ValueError as error:
        raise NoTable("no line has the heads kind, shape, calls/second and p99/us") from error
    rows = []
    for row in cells:
        if not row:
            break
        rows.append(row_of(row, places))
    if not rows:
        raise NoTable("no line follows the heads")
    return rows


def row_of(cells: Sequence[str], places: Sequence[int]) -> Row:
    try:
        kind, shape, calls, p99 = (cells[place] for place in places)
        row = Row(kind, shape, float(calls), float(p99))
    except (IndexError, ValueError) as error:
        raise NoTable(f"no line of the table: {' '.join(cells)}") from error
    if not (0 < row.calls < math.inf and 0 < row.p99 < math.inf):
        raise NoTable(f"a number that isn't more than 0: {' '.join(cells)}")
    return row


# What is drawn.


def text(x: float, y: float, words: str, *, anchor: str = "middle", size: int = 12, colour: str = INK) -> str:
    place = f'x="{x:.1f}" y="{y:.1f}" text-anchor="{anchor}" font-size="{size}"'
    return f"<text {place} fill={quoteattr(colour)}>{escape(words)}</text>"


def line(x1: float, y1: float, x2: float, y2: float, colour: str) -> str:
    return f'<line x1="{x1:.1f}" y1="{y1:.1f}" x2="{x2:.1f}" y2="{y2:.1f}" stroke={quoteattr(colour)}/>'


def bar(x: float, y: float, width: float, height: float, colour: str, told: str) -> str:
    """A bar, which a viewer tells in words."""
    place = f'x="{x:.1f}" y="{y:.1f}" width="{width:.1f}" height="{height:.1f}"'
    return f"<rect {place} fill={quoteattr(colour)}><title>{escape(told)}</title></rect>"


def short(number: float) -> str:
    """A number in few signs: 950, 1.2k, 140k, 1.5M."""
    if number < 999.5:
        return f"{number:.3g}"
    unit, name = (1e3, "k") if number < 999_500 else (1e6, "M")
    return f"{number / unit:.3g}{name}"


# The shapes that aren't a number of connections, in words.
SHAPES = {"16p": "16, 16 calls each", "16k": "16, 16 KB", "busy": "16, busy machine", "idle": "1 of 1,001"}


def told_shape(shape: str) -> str:
    if shape in SHAPES:
        return SHAPES[shape]
    return f"{shape} connection{'s' if shape != '1' else ''}"


# Scales.


@dataclass(frozen=True)
class Scale:
    """Where numbers stand between 0 and 1, and the numbers that are marked."""

    least: float
    most: float
    marks: tuple[float, ...]
    is_logarithmic: bool

    def height(self, number: float) -> float:
        if not self.is_logarithmic:
            return number / self.most
        return math.log(number / self.least) / math.log(self.most / self.least)


def linear_scale(numbers: Sequence[float]) -> Scale:
    """From 0, with four or five round marks."""
    most = max(numbers)
    power = 10.0 ** math.floor(math.log10(most / 4))
    step = next(round_step * power for round_step in (1, 2, 2.5, 5, 10) if round_step * power * 5 >= most)
    count = math.ceil(most / step)
    return Scale(0, step * count, tuple(step * mark for mark in range(count + 1)), is_logarithmic=False)


def logarithmic_scale(numbers: Sequence[float]) -> Scale:
    """From one power of ten to another, each of which is marked."""
    first = math.floor(math.log10(min(numbers)))
    last = max(math.ceil(math.log10(max(numbers))), first + 1)
    return Scale(10.0**first, 10.0**last, tuple(10.0**power for power in range(first, last + 1)), is_logarithmic=True)


# The drawing.


@dataclass(frozen=True)
class Chart:
    """The rows of a table. Kinds and shapes are drawn in the order in which they first stand there."""

    rows: Sequence[Row]

    @property
    def kinds(self) -> list[str]:
        return list(dict.fromkeys(row.kind for row in self.rows))

    @property
    def groups(self) -> list[str]:
        return list(dict.fromkeys(row.shape for row in self.rows))

    def colour(self, kind: str) -> str:
        return COLOURS[self.kinds.index(kind) % len(COLOURS)]

    def group_width(self) -> float:
        return (WIDTH - LEFT - RIGHT) / len(self.groups)

    def bar_width(self) -> float:
        return 0.84 * self.group_width() / len(self.kinds)

    def left_of(self, row: Row) -> float:
        """Where a row's bar begins."""
        group = LEFT + self.group_width() * (self.groups.index(row.shape) + 0.08)
        return group + self.bar_width() * self.kinds.index(row.kind)

    def panel(self, top: float, title: str, scale: Scale, numbers: Sequence[float]) -> Iterator[str]:
        """A panel: its title, the marks of its scale, and a bar for each row, with its number above."""
        bottom = top + PANEL
        yield text(LEFT, top - 12, title, anchor="start", size=14)
        for mark in scale.marks:
            y = bottom - PANEL * scale.height(mark)
            yield line(LEFT, y, WIDTH - RIGHT, y, FAINT)
            yield text(LEFT - 8, y + 4, short(mark), anchor="end")
        width = self.bar_width()
        for row, number in zip(self.rows, numbers, strict=True):
            height = PANEL * scale.height(number)
            told = f"{row.kind}, {told_shape(row.shape)}: {number:g}"
            yield bar(self.left_of(row) + 1, bottom - height, width - 2, height, self.colour(row.kind), told)
            yield text(self.left_of(row) + width / 2, bottom - height - 4, short(number), size=8)
        yield line(LEFT, bottom, WIDTH - RIGHT, bottom, INK)
        for place, shape in enumerate(self.groups):
            yield text(LEFT + self.group_width() * (place + 0.5), bottom + 18, told_shape(shape))

    def legend(self) -> Iterator[str]:
        at = float(LEFT)
        for kind in self.kinds:
            yield bar(at, 38, 12, 12, self.colour(kind), kind)
            yield text(at + 18, 48, kind, anchor="start")
            at += 42 + 7.5 * len(kind)

    def drawn(self, title: str) -> str:
        calls = [row.calls for row in self.rows]
        times = [row.p99 for row in self.rows]
        height = TOP + 2 * PANEL + GAP + 36
        below = TOP + PANEL + GAP
        shapes = [
            f'<svg xmlns="http://www.w3.org/2000/svg" viewBox="0 0 {WIDTH} {height}" width="{WIDTH}" height="{height}" '
            'font-family="sans-serif">',
            f'<rect width="{WIDTH}" height="{height}" fill="white"/>',
            text(LEFT, 24, title, anchor="start", size=16),
            *self.legend(),
            *self.panel(TOP, "Calls a second", linear_scale(calls), calls),
            *self.panel(below, "99th percentile, in microseconds (a logarithmic scale)", logarithmic_scale(times), times),
            "</svg>",
        ]
        return "\n".join(shapes) + "\n"


def main(words: Sequence[str]) -> int:
    title = " ".join(words) or "Half puts, half gets of 64-byte values"
    try:
        rows = rows_of(sys.stdin)
    except NoTable as error:
        print(f"plot: {error}", file=sys.stderr)
        return 1
    sys.stdout.write(Chart(rows).drawn(title))
    return 0


if __name__ == "__main__":
    sys.exit(main(sys.argv[1:]))
