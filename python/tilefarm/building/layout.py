"""The domains of a program's stages over a picture of known sides: the largest that reads allow, and of those what is read."""
from __future__ import annotations

from typing import Iterable, Iterator, NamedTuple

from .._tf.demands import Way
from .ends import Box, Range, end_of, whole_side
from .expressions import Expr, Point, Stencil
from .linear import way_of
from .stages import Accum, Border, Case, Corners, Func, Plane, Stage

AXES = ("rows", "columns")
FARTHEST = 16384
Ways = tuple[Way, Way]


class Found(NamedTuple):
    """The domain of a stage, and why it is this one."""

    box: Box
    why: str


def reads_of(*given: Expr) -> Iterator[tuple[Stage, Ways, Expr]]:
    """What expressions read, how the indices go, and where that was written."""
    for top in given:
        for it in top.walk():
            if isinstance(it, Point):
                yield it.read, (way_of(it.indices[0], 0), way_of(it.indices[1], 1)), it
            elif isinstance(it, Stencil):
                yield it.read, (Way(reach=len(it.weights) // 2), Way(reach=len(it.weights[0]) // 2)), it


class Layout:
    """The domains of all stages that some functions and accumulators read, over a picture of (rows, columns)."""

    def __init__(self, outputs: list[Func], accums: list[Accum], shape: tuple[int, int]):
        self.shape, self.outputs, self.accums = shape, outputs, accums
        self.picture: Box = (whole_side(shape[0]), whole_side(shape[1]))
        self.order = ordered(outputs, accums)
        self.allowed: dict[Stage, Box] = {}
        self.own: dict[Stage, Box] = {}
        for stage in self.order:
            self.allow(stage)
        self.areas = {it.name: self.area(it) for it in accums}
        self.boxes: dict[Stage, Found] = {}
        self.demand()

    # what reads allow

    def allow(self, stage: Stage) -> None:
        """Finds where a stage has a value (everywhere, where it is not in `allowed`), and its own domain, which an output has."""
        if isinstance(stage, Plane):
            self.own[stage] = self.allowed[stage] = self.picture
        elif isinstance(stage, Border):
            self.own[stage] = self.own[stage.base]
        elif isinstance(stage, Func):
            self.allow_func(stage)

    def allow_func(self, stage: Func) -> None:
        values = [it.value for it in stage.cases]
        if stage.domain is not None:
            self.own[stage] = self.allowed[stage] = self.domain(stage.domain)
        else:
            self.own[stage] = self.largest(values, len(values) > 1)
            if not self.is_everywhere(values):
                self.allowed[stage] = self.own[stage]
        self.refuse_empty(stage, self.own[stage])

    def refuse_empty(self, stage: Func | Accum, box: Box) -> None:
        for axis, it in zip(AXES, box):
            if it.ends.count() == 0:
                stage.site.refuse(f"{stage.name} has no point over a picture of {self.shape[0]} by {self.shape[1]}: its {axis} would go from "
                                  f"{it.least.value} to {it.most.value}")

    def is_everywhere(self, values: list[Expr]) -> bool:
        return not any(stage in self.allowed for stage, _, _ in reads_of(*values))

    def largest(self, values: list[Expr], has_cases: bool) -> Box:
        """The largest domain on which all reads are inside. Reads of what has a value everywhere, and reads of cases, bound it by scale alone."""
        found: list[Range | None] = [None, None]
        for stage, ways, _ in reads_of(*values):
            for axis, way in enumerate(ways):
                is_exact = stage in self.allowed and not has_cases
                allows = self.own[stage][axis].source(way if is_exact else Way(way.factor, 0, way.divisor))
                known = found[axis]
                found[axis] = allows if known is None else known.meet(allows)
        rows, cols = (side if it is None else it for it, side in zip(found, self.picture))
        return rows, cols

    def domain(self, given: Stage | Corners) -> Box:
        if isinstance(given, Stage):
            if given not in self.own:
                given.site.refuse(f"{given.name} gives a domain, and is read by nothing before that: read it, or write the domain as numbers")
            return self.own[given]
        rows, cols = (Range(*(end_of(it, axis, self.shape[axis]) for it in ends)) for axis, ends in enumerate(given))
        return rows, cols

    def area(self, accum: Accum) -> Box:
        """The points of an accumulator."""
        found = self.domain(accum.domain) if accum.domain is not None else self.largest([accum.value, accum.at], False)
        self.refuse_empty(accum, found)
        return found

    # what is read

    def demand(self) -> None:
        """Goes from the results to the planes, and finds what is read of each stage."""
        for output in self.outputs:
            self.ask(output, self.own[output], "the largest domain on which its reads are inside" if output.domain is None else "as given")
        for accum in self.accums:
            self.ask_reads(accum.name, [accum.value, accum.at], self.areas[accum.name])
        for stage in reversed(self.order):
            if stage not in self.boxes:
                continue
            if isinstance(stage, Border):
                self.ask(stage.base, self.behind_border(stage), f"what the border of {stage.name} needs")
            elif isinstance(stage, Func):
                for case in stage.cases:
                    self.ask_reads(stage.name, [case.value], self.box_of(case, self.boxes[stage].box))

    def ask(self, stage: Stage, box: Box, why: str) -> None:
        known = self.boxes.get(stage)
        if known is None:
            self.boxes[stage] = Found(box, why)
        else:
            others = known.why if why in known.why else f"{known.why}; {why}"
            self.boxes[stage] = Found((box[0].hull(known.box[0]), box[1].hull(known.box[1])), others)

    def ask_reads(self, reader: str, values: list[Expr], box: Box) -> None:
        if min(it.ends.count() for it in box) == 0:
            return
        for stage, ways, where in reads_of(*values):
            image = box[0].image(ways[0]), box[1].image(ways[1])
            self.refuse_outside(reader, stage, image, where)
            self.ask(stage, image, f"what {reader} reads")

    def refuse_outside(self, reader: str, stage: Stage, image: Box, where: Expr) -> None:
        for axis, asked, has in zip(AXES, image, self.allowed.get(stage, image)):
            if not asked.is_within(has):
                where.site.refuse(f"{reader} reads {axis} {asked.ends} of {stage.name}, which has {axis} {has.ends} over a picture of {self.shape[0]} by "
                                  f"{self.shape[1]}: tf.mirror({stage.name}) goes on beyond them, and cases keep reads inside")
        for axis, asked in zip(AXES, image):
            if max(abs(asked.ends.least), abs(asked.ends.most)) > FARTHEST + max(self.shape):
                where.site.refuse(f"{reader} reads {axis} {asked.ends} of {stage.name}: domains are within {FARTHEST:,} of 0")

    def behind_border(self, stage: Border) -> Box:
        """What a border needs of what it goes on: the whole of it, or what is read where that is inside."""
        asked, own = self.boxes[stage].box, self.own[stage.base]
        is_inside = all(it.is_within(has) for it, has in zip(asked, own))
        return asked if is_inside else own

    def box_of(self, case: Case, domain: Box) -> Box:
        """The part of a domain where the bounds of a case hold."""
        found = list(domain)
        for test in case.tests:
            if not test.modulus:
                end, whole = end_of(test.sum, test.axis, self.shape[test.axis]), domain[test.axis]
                ends = Range(end if test.mark != "<=" else whole.least, end if test.mark != ">=" else whole.most)
                found[test.axis] = found[test.axis].meet(ends)
        return found[0], found[1]


def ordered(outputs: Iterable[Func], accums: Iterable[Accum]) -> list[Stage]:
    """All stages that are read, each after those that it reads."""
    found: dict[Stage, None] = {}
    for output in outputs:
        put_behind(output, found)
    for accum in accums:
        for stage in [it for it, _, _ in reads_of(accum.value, accum.at)]:
            put_behind(stage, found)
        if isinstance(accum.domain, Stage):
            put_behind(accum.domain, found)
    return list(found)


def put_behind(top: Stage, found: dict[Stage, None]) -> None:
    """Adds a stage behind all that it reads. (A long row of stages is no deep recursion.)"""
    waiting = [top]
    while waiting:
        stage = waiting[-1]
        lacks = [it for it in below(stage) if it not in found]
        if lacks:
            waiting += lacks
        else:
            found[waiting.pop()] = None


def below(stage: Stage) -> list[Stage]:
    """What a stage reads, goes on, or has its domain from."""
    if isinstance(stage, Border):
        return [stage.base]
    if not isinstance(stage, Func):
        return []
    read = [it for case in stage.cases for it, _, _ in reads_of(case.value)]
    return [*read, *([stage.domain] if isinstance(stage.domain, Stage) else [])]
