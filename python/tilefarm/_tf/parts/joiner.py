"""Parts' results put together: each picture into its place, each line of numbers into its accumulator."""
import re
import threading
from typing import BinaryIO

from ..demands import Area
from ..text import Refused
from .planning import Part, Plan
from .whole import Total

LINE = re.compile(rb"(\S+) (-?\d{1,19})\.\.(-?\d{1,19}):((?: -?\d{1,19})*)")
# numbers of totals, which have 64 bits
NUMBERS = range(-(2**63), 2**63)


class Joiner:
    """Puts the results of a plan's parts together, in any order, each once. `out` is a binary file that can be written at any place; the
    picture is written into it and nothing of it is held. It is not touched where the plan has no picture. A part can have a source, and all
    parts of one can be taken back."""

    def __init__(self, plan: Plan, out: BinaryIO | None):
        self.plan, self.out, self.lock = plan, out, threading.Lock()
        self.missing = {it.number for it in plan.parts}
        # the number of each part that was put in, with its source, and what each source's parts count
        self.sources: dict[int, str] = {}
        self.totals: dict[str, dict[str, list[int]]] = {}
        self.first = 0
        if plan.output:
            head = plan.output.head(plan.output.rows, plan.output.cols)
            self.out.write(head)
            self.first = len(head)

    def put(self, part: Part, result: bytes, source: str = "") -> None:
        """Takes what `tilefarm eval` wrote for a part. What is not of this part's form is refused, and then nothing is taken of it."""
        with self.lock:
            if part.number not in self.missing:
                raise Refused(f"part {part.number} was put in already, or is none of this plan")
            raster, lines = self.picture_of(part, result)
            bins = self.bins_of(part, lines)
            if part.output:
                self.place(part.output, raster)
            totals = self.totals.setdefault(source, self.starts())
            for total, numbers in bins:
                totals[total.name] = joined(total, totals[total.name], numbers)
            self.missing.remove(part.number)
            self.sources[part.number] = source

    def take_back(self, source: str) -> list[int]:
        """Takes nothing of a source for put in any more: the numbers of its parts, which are missing again."""
        with self.lock:
            found = [number for number, it in self.sources.items() if it == source]
            self.totals.pop(source, None)
            self.missing.update(found)
            for number in found:
                del self.sources[number]
            return found

    def starts(self) -> dict[str, list[int]]:
        """What the accumulators begin with."""
        return {it.name: [it.starts()] * it.bins.count() for it in self.plan.totals}

    def picture_of(self, part: Part, result: bytes) -> tuple[memoryview, bytes]:
        """The samples of a part's picture, and the lines behind it."""
        if not part.output:
            return memoryview(b""), result
        rows, cols = (it.count() for it in part.output)
        head = self.plan.output.head(rows, cols)
        end = len(head) + rows * cols * self.plan.output.width
        if not result.startswith(head) or len(result) < end:
            raise Refused(f"the result of part {part.number} is no picture of {cols} by {rows} points, or is cut off")
        return memoryview(result)[len(head) : end], result[end:]

    def bins_of(self, part: Part, lines: bytes) -> list[tuple[Total, list[int]]]:
        """The numbers of a part's accumulators."""
        wanted, found = [it for it in self.plan.totals if it.name in part.totals], lines.splitlines()
        bins = [numbers_of(total, line) for total, line in zip(wanted, found)]
        if len(found) != len(wanted) or None in bins or (lines and not lines.endswith(b"\n")):
            raise Refused(f"the result of part {part.number} has not the lines of its accumulators, or is cut off")
        return [*zip(wanted, bins)]

    def place(self, area: Area, raster: memoryview) -> None:
        """Writes samples where they belong."""
        width, cols = self.plan.output.width, self.plan.output.cols
        length, start = area.cols.count() * width, self.first + (area.rows.least * cols + area.cols.least) * width
        if area.cols.count() == cols:
            length = len(raster)
        for number, at in enumerate(range(0, len(raster), length)):
            self.out.seek(start + number * cols * width)
            self.out.write(raster[at : at + length])

    def close(self) -> bytes:
        """The lines of the accumulators, once all parts were put in."""
        if self.missing:
            some = ", ".join(map(str, sorted(self.missing)[:5])) + (", .." if len(self.missing) > 5 else "")
            raise Refused(f"{len(self.missing)} of {len(self.plan.parts)} parts are missing: {some}")
        totals = self.starts()
        for it in self.plan.totals:
            for other in self.totals.values():
                totals[it.name] = joined(it, totals[it.name], other[it.name])
        lines = (f"{it.name} {it.bins}:{''.join(f' {number}' for number in totals[it.name])}\n" for it in self.plan.totals)
        return "".join(lines).encode()


def numbers_of(total: Total, line: bytes) -> list[int] | None:
    """The numbers of an accumulator's line, if it is this one's."""
    found = LINE.fullmatch(line)
    numbers = [*map(int, found[4].split())] if found else []
    is_its = found and found[1] == total.name.encode() and (int(found[2]), int(found[3])) == total.bins
    return numbers if is_its and len(numbers) == total.bins.count() and all(it in NUMBERS for it in numbers) else None


def joined(total: Total, one: list[int], other: list[int]) -> list[int]:
    """The numbers over both: sums wrap at 64 bits."""
    if total.operator == "sum":
        return [(a + b + 2**63) % 2**64 - 2**63 for a, b in zip(one, other)]
    return [*map(min if total.operator == "min" else max, one, other)]
