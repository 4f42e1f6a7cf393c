"""Cutting a job into parts: which areas of the result and of the accumulators each has, and what it reads for them."""
import itertools
from dataclasses import dataclass, field
from typing import Iterator, NamedTuple

from ..netpbm import MOST_SIDE
from ..demands import Area, Ends
from ..text import Refused
from .boxes import Needs, needs_of
from .origins import origins
from .rewriting import Rewriter
from .whole import WIDE, Total, Whole

POINT = Area(Ends(0, 0), Ends(0, 0))
MOST_PARTS = 65536


class Root(NamedTuple):
    """What is wanted of a job: the output's functions, which have equal sides, or an accumulator. `area` is that of the first."""

    names: tuple[str, ...]
    area: Area


class Excess(NamedTuple):
    """What has more points along an axis than fit into a run."""

    name: str
    axis: int
    ends: Ends
    limit: int


# for each root by its number, the area that a part has of it
Areas = dict[int, Area]


@dataclass(frozen=True)
class Part:
    """A part of a job. Rows and columns count from 0, in `picture` those of the whole picture, in `output` those of the whole result.

    `program` is its own text, `words` are the values for its command line, and `tables` the lines that stand before its picture. It counts
    into the accumulators `totals`, whose lines it writes in this order.
    """

    number: int
    picture: Area
    output: Area | None
    totals: tuple[str, ...]
    program: bytes
    words: tuple[str, ...]
    tables: bytes


@dataclass(frozen=True)
class Output:
    """The whole result's picture: its sides, one plane or three, and its greatest sample."""

    rows: int
    cols: int
    planes: int
    most: int

    def head(self, rows: int, cols: int) -> bytes:
        """The head of a raw picture with these planes and samples."""
        return b"P%d\n%d %d\n%d\n" % (5 if self.planes == 1 else 6, cols, rows, self.most)

    @property
    def width(self) -> int:
        """The bytes of a point."""
        return self.planes * (1 if self.most < 256 else 2)


@dataclass(frozen=True)
class Plan:
    """A job in parts: the picture that it reads, the result that it has, and its accumulators."""

    height: int
    width: int
    planes: int
    output: Output | None
    totals: tuple[Total, ...]
    parts: list[Part] = field(default_factory=list)


def plan(program_text: bytes, params: dict[str, int], height: int, width: int, planes: int, side: int, tables: bytes = b"") -> Plan:
    """Cuts a job into parts of at most `side` points by `side`, fewer where a part would read or write more than a run takes.

    `params` are the values of all parameters, those of the picture among them. Raises `Fault` with the line of `tilefarm` where the whole is
    refused, and `Refused` where it cannot be cut.
    """
    whole = Whole(program_text, params, (height, width), planes)
    return Cutter(whole, side, tables).plan()


class Cutter:
    """Cuts one job."""

    def __init__(self, whole: Whole, side: int, tables: bytes):
        self.whole, self.side, self.tables = whole, side, tables
        outputs, stages = whole.outputs(), whole.stages
        self.totals = whole.totals()
        self.has_output = bool(outputs)
        self.roots = [Root(tuple(outputs), stages[outputs[0]].domain)] if outputs else []
        self.roots += [Root((it.name,), stages[it.name].domain) for it in self.totals]
        self.planes = [it.text for it in whole.image().names]

    def plan(self) -> Plan:
        item = self.whole.program.output()
        area = self.roots[0].area
        output = Output(area.rows.count(), area.cols.count(), len(item.names), item.most.value) if item else None
        made = (self.part(number, *it) for number, it in enumerate(self.cut()))
        return Plan(*self.whole.sides, self.whole.planes, output, tuple(self.totals), [*made])

    # areas

    def cut(self) -> Iterator[tuple[Areas, Needs]]:
        """The areas of the parts, each with its needs: a grid over all roots, and what does not fit is cut further."""
        sides = [self.whole.sides, *((it.area.rows.count(), it.area.cols.count()) for it in self.roots)]
        counts = [max(-(-it // self.side) for it in of_axis) for of_axis in zip(*sides)]
        if counts[0] * counts[1] > MOST_PARTS:
            raise Refused(f"this picture cannot be cut into parts: there would be {counts[0] * counts[1]} of them, and at most {MOST_PARTS} are made", 3)
        for row, col in itertools.product(*map(range, counts)):
            cells = {at: cell(root.area, (row, col), counts) for at, root in enumerate(self.roots)}
            yield from self.fitting({at: area for at, area in cells.items() if area.count()})

    def fitting(self, areas: Areas) -> Iterator[tuple[Areas, Needs]]:
        """These areas where they fit into a run, or smaller ones that do."""
        needs = needs_of(self.whole, self.wanted(areas)) if areas else None
        if needs is None:
            return
        found = next(self.too_wide(areas, needs), None)
        if found is None:
            yield areas, needs
            return
        for smaller in self.smaller(areas, found.axis) or self.refuse(areas, found):
            yield from self.fitting(smaller)

    def wanted(self, areas: Areas) -> dict[str, Area]:
        return {name: area for at, area in areas.items() for name, area in zip(self.roots[at].names, self.areas_of(at, area))}

    def areas_of(self, at: int, area: Area) -> Iterator[Area]:
        """A root's area in the points of each of its functions, which may begin at different points."""
        root = self.roots[at]
        for name in root.names:
            yield moved(area, root.area, self.whole.stages[name].domain)

    def too_wide(self, areas: Areas, needs: Needs) -> Iterator[Excess]:
        """What does not fit into a run."""
        result = [("the result", areas[0])] if self.has_output and 0 in areas else []
        planes = [needs.boxes[it] for it in self.planes if it in needs.boxes]
        picture = [("the picture", hull(planes))] if planes else []
        for limit, boxes in ((MOST_SIDE, [*result, *picture]), (WIDE, needs.boxes.items())):
            yield from (Excess(name, axis, box[axis], limit) for name, box in boxes for axis in (0, 1) if box[axis].count() > limit)

    def smaller(self, areas: Areas, axis: int) -> list[Areas]:
        """The roots one by one where there are several, else the halves of one along an axis; nothing where it is one point."""
        if len(areas) > 1:
            return [{at: area} for at, area in areas.items()]
        (at, area), = areas.items()
        least, most = area[axis]
        if least == most:
            return []
        middle = (least + most) // 2
        return [{at: replaced(area, axis, ends)} for ends in (Ends(least, middle), Ends(middle + 1, most))]

    def refuse(self, areas: Areas, found: Excess) -> list[Areas]:
        (at, area), = areas.items()
        root, word = self.roots[at].names[0], ("row", "column")[found.axis]
        raise Refused(f"this picture cannot be cut into parts: {word} {area[found.axis].least} of {root} alone needs {word}s {found.ends.least} to "
                      f"{found.ends.most} of {found.name}, and a run takes at most {found.limit}", 3)

    # parts

    def part(self, number: int, areas: Areas, needs: Needs) -> Part:
        planes = [needs.boxes[it] for it in self.planes if it in needs.boxes]
        picture = hull(planes) if planes else POINT
        both = [self.origins(needs, axis) for axis in (0, 1)]
        found = {name: (both[0][name], both[1][name]) for name in needs.boxes}
        has_output = self.has_output and 0 in areas
        rewriter = Rewriter(self.whole, needs, found, picture, [*self.areas_of(0, areas[0])] if has_output else [])
        totals = tuple(it.name for it in self.totals if it.name in needs.boxes)
        output = moved(areas[0], self.roots[0].area, POINT) if has_output else None
        return Part(number, picture, output, totals, rewriter.program(), self.whole.words(), self.tables)

    def origins(self, needs: Needs, axis: int) -> dict[str, int]:
        boxes = {name: area[axis] for name, area in needs.boxes.items()}
        return origins(boxes, [*needs.links(axis)], self.planes, self.whole.order, ("rows", "columns")[axis])


def cell(area: Area, at: tuple[int, int], counts: list[int]) -> Area:
    """A cell of a grid over an area; it may be empty."""
    found = []
    for ends, number, count in zip(area, at, counts):
        first, behind = (ends.least + it * ends.count() // count for it in (number, number + 1))
        found.append(Ends(first, behind - 1))
    return Area(*found)


def moved(area: Area, start: Area, to: Area) -> Area:
    """An area that lies as far from the first point of `to` as it lies from that of `start`."""
    steps = [there.least - here.least for here, there in zip(start, to)]
    return Area(*(Ends(it.least + step, it.most + step) for it, step in zip(area, steps)))


def replaced(area: Area, axis: int, ends: Ends) -> Area:
    return Area(ends, area.cols) if axis == 0 else Area(area.rows, ends)


def hull(areas: list[Area]) -> Area:
    """The least area that has all of these."""
    found = areas[0]
    for it in areas[1:]:
        found = found.hull(it)
    return found
