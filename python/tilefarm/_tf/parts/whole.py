"""A program over a picture of any sides: its stages with their domains in numbers, and what each case tests and reads.

What `tilefarm` refuses over the whole is refused here in the same words, but for the limits that parts are there to lift: the sides of the
picture and of the result, and how far a domain reaches.
"""
from functools import cached_property
from typing import Iterator, NamedTuple

from ..program import Affine, Case, Item, Program, Span
from ..demands import Area, Ends, Read, Reader
from ..demands import Part as Bounded
from ..text import Refused
from ..tokens import Token, Unreadable, tokens

MOST_BINS, WIDE, FARTHEST = 4096, 16384, 2**30


class Fault(Exception):
    """The whole is refused: the line that `tilefarm` would write."""

    def __init__(self, line: str):
        super().__init__(line)
        self.line = line


class Test(NamedTuple):
    """A test of a case: a variable against a sum, or its remainder by `modulus` against `rest`."""

    axis: int
    mark: str
    sum: Affine | None
    modulus: int
    rest: int
    span: Span


class CaseReader(Reader):
    """Keeps the tests of each case, too."""

    def __init__(self, given: list[Token]):
        super().__init__(given)
        self.tests: dict[int, list[Test]] = {}

    def test(self) -> None:
        first, mark = self.at, self.peek(1).text
        super().test()
        read = self.tokens[first : self.at]
        axis, span = [it.text for it in self.item.variables].index(read[0].text), Span(read[0].offset, read[-1].end)
        found = (None, int(read[2].text), int(read[4].text)) if mark == "%" else (self.part().bounds[-1][2], 0, 0)
        self.tests.setdefault(id(self.case), []).append(Test(axis, mark, *found, span))


class WholeCase(NamedTuple):
    """A case, an `else` or the two expressions of an accumulator: its text, the box of its tests of bounds, all tests, and its reads."""

    case: Case
    box: Area
    tests: list[Test]
    reads: list[Read]

    def takes_all(self) -> bool:
        """Whether it takes each point of its box."""
        return all(it.mark != "%" for it in self.tests)

    def is_stencil(self, number: int) -> bool:
        """Whether a read is a stencil, which has no index that could be written otherwise."""
        return not self.case.reads[number].indices


class Stage(NamedTuple):
    """A plane, a function or an accumulator."""

    name: str
    item: Item
    domain: Area
    cases: list[WholeCase]


class Total(NamedTuple):
    """An accumulator of the whole: its operator and its bins."""

    name: str
    operator: str
    bins: Ends

    def starts(self) -> int:
        """What a bin begins with."""
        return {"sum": 0, "min": 2**63 - 1, "max": -(2**63)}[self.operator]


class Whole:
    """The stages of one program at its values, over a picture of these sides."""

    def __init__(self, text: bytes, values: dict[str, int], sides: tuple[int, int], planes: int):
        self.text, self.values, self.sides, self.planes = text, values, sides, planes
        self.reader = CaseReader(tokens(text))
        try:
            self.program: Program = self.reader.program()
        except (Unreadable, RecursionError, ValueError) as error:
            raise Refused("tf does not read this program as tilefarm does") from error
        self.refuse_values()
        self.stages = {name: self.stage(name, item) for name, item in self.program.stages()}
        self.refuse_reads()
        self.refuse_sides()

    def ends(self, interval) -> Ends:
        return Ends(interval.low.value(self.values), interval.high.value(self.values))

    def stage(self, name: str, item: Item) -> Stage:
        if item.kind == "image":
            domain = Area(*(Ends(0, it.value(self.values) - 1) for it in item.extents))
        else:
            domain = Area(*map(self.ends, item.intervals[-2:]))
        return Stage(name, item, domain, [self.case(it, domain) for it in item.cases])

    def case(self, it: Case, domain: Area) -> WholeCase:
        found: Bounded = self.reader.parts[id(it)]
        return WholeCase(it, found.box(domain, self.values), self.reader.tests.get(id(it), []), found.reads)

    # what is refused

    def refuse_values(self) -> None:
        """Refuses a parameter without a value, and intervals that are none or too wide."""
        for item in self.program.items:
            if item.kind == "param" and item.names[0].text not in self.values:
                raise Fault(f"bounds: 1 ParamUnset {item.names[0].text}")
        for item in self.program.tables():
            refuse_ends(item.names[0].text, [self.ends(item.intervals[0])], ("bounds: 6 EmptyTable", "bounds: 7 TableTooWide"), True)
        for name, item in self.program.stages():
            if item.kind == "image":
                every = [Ends(0, it.value(self.values) - 1) for it in item.extents]
            else:
                every = [*map(self.ends, item.intervals)]
            refuse_ends(name, every, ("bounds: 2 EmptyDomain", "bounds: 3 DomainTooWide"), item.kind == "accum")

    def refuse_reads(self) -> None:
        """Refuses the first read that leaves what it reads."""
        for stage in self.stages.values():
            for number, case in enumerate(stage.cases):
                for at, read in enumerate(case.reads if case.box.count() else []):
                    self.refuse_read(f"{stage.name} case {number} read {at}", read, case.box)

    def refuse_read(self, where: str, read: Read, box: Area) -> None:
        for axis, image, has in zip(("rows", "columns"), read.image(box), self.stages[read.name].domain):
            if image.least < has.least or image.most > has.most:
                raise Fault(f"bounds: 4 OutOfBounds {where} {axis} least {image.least} greatest {image.most}")

    def refuse_sides(self) -> None:
        """Refuses another picture than the program names, and an output of unequal sides."""
        image = self.stages[self.image().names[0].text]
        if len(image.item.names) != self.planes:
            raise Fault("bind: 2 Planes")
        if tuple(it.count() for it in image.domain) != self.sides:
            raise Fault("bind: 3 ExtentMismatch")
        if len({tuple(it.count() for it in self.stages[name].domain) for name in self.outputs()}) > 1:
            raise Fault("bind: 4 OutputShapes")

    # what there is

    def image(self) -> Item:
        return next(it for it in self.program.items if it.kind == "image")

    def outputs(self) -> list[str]:
        """The functions of the output, one or three, or none."""
        output = self.program.output()
        return [it.text for it in output.names] if output else []

    def words(self) -> tuple[str, ...]:
        """What gives the parameters their values on a command line."""
        declared = [it.names[0].text for it in self.program.items if it.kind == "param"]
        return tuple(f"{name}={self.values[name]}" for name in declared)

    def totals(self) -> list[Total]:
        """The accumulators, in the order in which their lines are written."""
        every = [(name, item) for name, item in self.program.stages() if item.kind == "accum"]
        return [Total(name, self.word_at(item.cases[0].span), self.ends(item.intervals[0])) for name, item in every]

    def word_at(self, span: Span) -> str:
        return self.text[span.start : span.start + 3].decode()

    @cached_property
    def order(self) -> list[str]:
        """The stages, each behind those that it reads."""
        found: dict[str, None] = {}
        for name in self.stages:
            self.put_behind(name, found, frozenset())
        return list(found)

    def put_behind(self, name: str, found: dict[str, None], above: frozenset[str]) -> None:
        if name in above:
            raise Fault(f"check: 7 Cycle {name}")
        for below in self.read_by(name) if name not in found else ():
            self.put_behind(below, found, above | {name})
        found[name] = None

    def read_by(self, name: str) -> Iterator[str]:
        return (read.name for case in self.stages[name].cases for read in case.reads)


def refuse_ends(name: str, every: list[Ends], words: tuple[str, str], is_counted: bool) -> None:
    """Refuses an interval without a number, and one that is too wide. The first is of bins or entries, where these are counted."""
    for number, ends in enumerate(every):
        if not ends.count():
            raise Fault(f"{words[0]} {name}")
        is_few = is_counted and number == 0
        if max(abs(ends.least), abs(ends.most)) > (WIDE if is_few else FARTHEST) or (is_few and ends.count() > MOST_BINS):
            raise Fault(f"{words[1]} {name}")
