"""What each case of a stage is bounded by, and what it reads from where: the boxes of docs/SCHEDULES.md are made of these."""
import re
from typing import Iterator, NamedTuple

from .parser import TermParser
from .program import Affine, Item, Kernel, Node, Program, Span
from .tokens import Token, tokens

INDEX = re.compile(r"\(?(?:(\d+)\*)?[A-Za-z]\w*(?:([+-])(\d+))?\)?(?:/(\d+))?")


class Ends(NamedTuple):
    """Numbers from the least to the greatest, both among them; none where the least is greater."""

    least: int
    most: int

    def __str__(self) -> str:
        return f"{self.least}..{self.most}"

    def count(self) -> int:
        return max(self.most - self.least + 1, 0)

    def meet(self, other: "Ends") -> "Ends":
        return Ends(max(self.least, other.least), min(self.most, other.most))

    def hull(self, other: "Ends") -> "Ends":
        return Ends(min(self.least, other.least), max(self.most, other.most))


class Area(NamedTuple):
    rows: Ends
    cols: Ends

    def __str__(self) -> str:
        return f"rows {self.rows} columns {self.cols}"

    def count(self) -> int:
        return self.rows.count() * self.cols.count()

    def meet(self, other: "Area") -> "Area":
        return Area(self.rows.meet(other.rows), self.cols.meet(other.cols))

    def hull(self, other: "Area") -> "Area":
        return Area(self.rows.hull(other.rows), self.cols.hull(other.cols))

    def tile(self, row: int, col: int, sides: tuple[int, int]) -> "Area":
        starts = (self.rows.least + row * sides[0], self.cols.least + col * sides[1])
        return Area(*(Ends(at, at + side - 1) for at, side in zip(starts, sides))).meet(self)

    def tiles(self, sides: tuple[int, int]) -> Iterator[tuple[int, int]]:
        counts = [-(-it.count() // side) for it, side in zip(self, sides)]
        return ((row, col) for row in range(counts[0]) for col in range(counts[1]))


class Way(NamedTuple):
    """How an index goes: (factor * v + more) / divisor, and so far to each side of it."""

    factor: int = 1
    more: int = 0
    divisor: int = 1
    reach: int = 0

    def image(self, ends: Ends) -> Ends:
        first, last = ((self.factor * it + self.more) // self.divisor for it in ends)
        return Ends(first - self.reach, last + self.reach)


class Read(NamedTuple):
    name: str
    rows: Way
    cols: Way

    def image(self, area: Area) -> Area:
        return Area(self.rows.image(area.rows), self.cols.image(area.cols))


class Part:
    """A case: its tests of bounds, each of a variable, and its reads."""

    def __init__(self):
        self.bounds: list[tuple[int, str, Affine]] = []
        self.reads: list[Read] = []

    def box(self, domain: Area, settings: dict[str, int]) -> Area:
        """The part of the domain where the tests hold."""
        ends = [list(it) for it in domain]
        for axis, mark, affine in self.bounds:
            value = affine.value(settings)
            if mark != "<=":
                ends[axis][0] = max(ends[axis][0], value)
            if mark != ">=":
                ends[axis][1] = min(ends[axis][1], value)
        return Area(*(Ends(*it) for it in ends))


class Reader(TermParser):
    """Reads a program, and keeps how each case is bounded and what it reads from where."""

    def __init__(self, given: list[Token]):
        super().__init__(given)
        self.parts: dict[int, Part] = {}
        self.ways: list[Way] = []

    def part(self) -> Part:
        return self.parts.setdefault(id(self.case), Part())

    def end_case(self, start: int) -> None:
        self.part()
        super().end_case(start)

    def test(self) -> None:
        variable, mark, before = self.peek().text, self.peek(1).text, self.at + 2
        super().test()
        if mark != "%":
            after, self.at = self.at, before
            self.part().bounds.append(([it.text for it in self.item.variables].index(variable), mark, self.affine()))
            self.at = after

    def index(self, wants: str) -> Span:
        start = self.at
        span = super().index(wants)
        self.ways.append(way_of([it.text for it in self.tokens[start : self.at]]))
        return span

    def read(self, name: Token) -> Node:
        self.ways = []
        found = super().read(name)
        self.part().reads.append(Read(name.text, *self.ways))
        return found

    def stencil(self, word: Token) -> Node:
        found = super().stencil(word)
        kernel = next(it for it in reversed(self.item.uses) if isinstance(it, Kernel))
        reaches = (Way(reach=len(kernel.widths) // 2), Way(reach=kernel.widths[0] // 2))
        self.part().reads.append(Read(found.name, *reaches))
        return found


def way_of(words: list[str]) -> Way:
    """The way of an index, from its tokens."""
    found = INDEX.fullmatch("".join(words))
    more = int(found[3] or 0) * (-1 if found[2] == "-" else 1)
    return Way(int(found[1] or 1), more, int(found[4] or 1))


class Demands(NamedTuple):
    """A program, and the parts of each of its stages."""

    program: Program
    parts: dict[str, list[Part]]


def demands_of(text: bytes) -> Demands:
    """The demands of a program that is well formed."""
    reader = Reader(tokens(text))
    program = reader.program()
    return Demands(program, {name: [reader.parts[id(it)] for it in item.cases] for name, item in program.stages()})


def domain_of(item: Item, settings: dict[str, int]) -> Area:
    """The points of a function or an accumulator."""
    return Area(*(Ends(it.low.value(settings), it.high.value(settings)) for it in item.intervals[-2:]))
