"""An accumulator's line as bars, or as a table."""
import math
import re
from typing import NamedTuple

from .svg import Drawing
from .text import Refused

LINE = re.compile(r"(\S+) (-?\d+)\.\.(-?\d+):((?: -?\d+)+)")
WIDTH, HEIGHT, MARGIN = 640, 280, 72
EMPTY = (9223372036854775807, -9223372036854775808, -9223372036854775807)
TICK, MOST_TICKS, MOST_BINS = 5, 5, 8


class Total(NamedTuple):
    """An accumulator's bins. One of a least or a greatest number that no point has is None."""

    name: str
    low: int
    bins: list[int | None]

    @property
    def high(self) -> int:
        return self.low + len(self.bins) - 1


def chosen(lines: str, name: str | None) -> Total:
    """An accumulator, or the first one."""
    found = [it for it in map(LINE.fullmatch, lines.splitlines()) if it]
    wanted = next((it for it in found if name in (None, it[1])), None)
    if not wanted:
        asked_for, there = f" {name}" if name else "", ", ".join(it[1] for it in found) or "none"
        raise Refused(f"there is no accumulator{asked_for} to draw; there are: {there}", 1)
    return Total(wanted[1], int(wanted[2]), [None if int(it) in EMPTY else int(it) for it in wanted[4].split()])


def csv(lines: str, name: str | None = None) -> bytes:
    """A line for each bin, with its number and what it has; nothing where no point has it."""
    total = chosen(lines, name)
    rows = [f"{total.low + at},{'' if it is None else it}" for at, it in enumerate(total.bins)]
    return "\n".join([f"bin,{total.name}", *rows, ""]).encode()


def ticks(least: int, most: int) -> list[int]:
    """Round numbers from the least to the greatest, some five of them."""
    step = 1
    while (most - least) // step >= MOST_TICKS:
        step = step * 5 // 2 if str(step)[0] == "2" else step * 2
    return list(range(-(-least // step) * step, most + 1, step))


class Scale(NamedTuple):
    """How high a number stands, linear or by its logarithm; 0 stands at the ground of a logarithm too."""

    least: int
    most: int
    is_log: bool

    def part(self, value: int) -> float:
        """Its height, from 0 at the least to 1 at the greatest."""
        if self.is_log:
            return math.log10(max(value, 0) + 1) / max(math.log10(self.most + 1), 1e-9)
        return (value - self.least) / max(self.most - self.least, 1)

    def ticks(self) -> list[int]:
        if not self.is_log:
            return ticks(self.least, self.most)
        powers = [10**at for at in range(len(str(self.most)))]
        return [0, *powers[:: -(-len(powers) // MOST_TICKS)]]


def svg(lines: str, name: str | None = None, is_log: bool = False) -> bytes:
    """Its bars. A bin of a least or a greatest number that no point has is left empty."""
    total = chosen(lines, name)
    there = [0, *(it for it in total.bins if it is not None)]
    if is_log and min(there) < 0:
        raise Refused(f"{total.name} has numbers below 0, which have no logarithm: draw it without --log", 1)
    scale, drawing = Scale(min(there), max(there), is_log), Drawing(WIDTH, HEIGHT)
    draw_axes(drawing, total, scale)
    width, zero = (WIDTH - 2 * MARGIN) / len(total.bins), height(scale, 0)
    for at, value in enumerate(total.bins):
        if value is not None:
            top = height(scale, value)
            drawing.bar(MARGIN + at * width, min(top, zero), max(width * 0.9, 0.5), abs(zero - top), f"{total.low + at}: {value}")
    return drawing.svg()


def height(scale: Scale, value: int) -> float:
    return HEIGHT - MARGIN - scale.part(value) * (HEIGHT - 2 * MARGIN)


def draw_axes(drawing: Drawing, total: Total, scale: Scale) -> None:
    drawing.text(WIDTH / 2, 24, f"{total.name} {total.low}..{total.high}" + (" (logarithmic)" if scale.is_log else ""), 14)
    drawing.line(MARGIN, HEIGHT - MARGIN, WIDTH - MARGIN, HEIGHT - MARGIN)
    drawing.line(MARGIN, MARGIN, MARGIN, HEIGHT - MARGIN)
    for value in scale.ticks():
        y = height(scale, value)
        drawing.line(MARGIN - TICK, y, MARGIN, y)
        drawing.text(MARGIN - TICK - 2, y + 4, str(value), 11, "end")
    width = (WIDTH - 2 * MARGIN) / len(total.bins)
    for value in bins_told(total):
        x = MARGIN + (value - total.low + 0.5) * width
        drawing.line(x, HEIGHT - MARGIN, x, HEIGHT - MARGIN + TICK)
        drawing.text(x, HEIGHT - MARGIN + 18, str(value), 11)


def bins_told(total: Total) -> list[int]:
    """The bins whose numbers stand below the axis: all of few, and round ones of many."""
    return list(range(total.low, total.high + 1)) if len(total.bins) <= MOST_BINS else ticks(total.low, total.high)
