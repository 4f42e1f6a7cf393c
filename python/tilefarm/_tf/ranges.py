"""The least and the greatest value that each stage can have, by interval arithmetic on exact integers.

Sums, differences, products and shifts to the left are exact here, and wrapped only where something else uses them. So does the program, as it
wraps modulo 2^32. A value whose exact numbers leave 32 bits can wrap: then it may be any number of 32 bits.
"""
import functools
from typing import Callable, Iterable, Iterator, NamedTuple

from .demands import Area, Ends
from .joining import Input
from .netpbm import Header
from .parser import known_program
from .parts.whole import Fault, Stage, Whole, WholeCase
from .program import Node, Span
from .settings import settings
from .tables import Line
from .text import Refused

FULL = Ends(-(2**31), 2**31 - 1)
# what a bin without a point holds
STARTS = {"sum": 0, "min": 2**63 - 1, "max": -(2**63)}
# what wraps modulo 2^32, so that it may take operands that are not wrapped yet
RING = ("+", "-", "*", "<<", "negation")
HOLDS = {"<=": lambda a, b: a.most <= b.least, ">=": lambda a, b: a.least >= b.most, "==": lambda a, b: a == b and a.least == a.most}
NEVER = {"<=": lambda a, b: a.least > b.most, ">=": lambda a, b: a.most < b.least, "==": lambda a, b: a.meet(b).count() == 0}


class Table(NamedTuple):
    """A table's first index and its entries."""

    low: int
    entries: tuple[int, ...]

    @classmethod
    def from_line(cls, line: bytes) -> "Table":
        """The table of a line that is well formed: its entries are clamped to 32 bits."""
        head, _, entries = line.decode("ascii").partition(":")
        numbers = (min(max(int(it), FULL.least), FULL.most) for it in entries.split())
        return cls(int(head.split()[1].partition("..")[0]), tuple(numbers))

    def range_at(self, index: Ends) -> Ends:
        """The entries at these indices, which are clamped to those that there are."""
        first, last = (min(max(it - self.low, 0), len(self.entries) - 1) for it in index)
        return hull_of(self.entries[first : last + 1])


class Wrap(NamedTuple):
    """An expression whose exact numbers leave 32 bits."""

    stage: str
    span: Span
    exact: Ends


def hull_of(numbers) -> Ends:
    return Ends(min(numbers), max(numbers))


def hull(every: list[Ends]) -> Ends:
    return Ends(min(it.least for it in every), max(it.most for it in every))


def products(a: Ends, b: Ends) -> Ends:
    return hull_of([first * second for first in a for second in b])


def scaled(a: Ends, factor: int) -> Ends:
    return hull_of([it * factor for it in a])


def remainders(a: Ends, modulus: int) -> Ends:
    """All remainders, or those of numbers that have one quotient."""
    is_one = a.least // modulus == a.most // modulus
    return Ends(a.least % modulus, a.most % modulus) if is_one else Ends(0, modulus - 1)


def absolutes(a: Ends) -> Ends:
    least = 0 if a.least <= 0 <= a.most else min(map(abs, a))
    return Ends(least, max(map(abs, a)))


def chosen(comparison: str, parts: list[Ends]) -> Ends:
    """What a select may be: one of its two values, where the comparison is decided."""
    first, second, held, other = parts
    if HOLDS[comparison](first, second):
        return held
    return other if NEVER[comparison](first, second) else held.hull(other)


def least_of(a: Ends, b: Ends) -> Ends:
    return Ends(min(a.least, b.least), min(a.most, b.most))


def most_of(a: Ends, b: Ends) -> Ends:
    return Ends(max(a.least, b.least), max(a.most, b.most))


RULES: dict[str, Callable[[Node, list[Ends]], Ends]] = {
    "number": lambda node, _: Ends(node.numbers[0], node.numbers[0]),
    "negation": lambda _, it: Ends(-it[0].most, -it[0].least),
    "+": lambda _, it: Ends(it[0].least + it[1].least, it[0].most + it[1].most),
    "-": lambda _, it: Ends(it[0].least - it[1].most, it[0].most - it[1].least),
    "*": lambda _, it: products(*it),
    "<<": lambda node, it: scaled(it[0], 2 ** node.numbers[0]),
    ">>": lambda node, it: Ends(*(end >> node.numbers[0] for end in it[0])),
    "/": lambda node, it: Ends(*(end // node.numbers[0] for end in it[0])),
    "%": lambda node, it: remainders(it[0], node.numbers[0]),
    "min": lambda _, it: least_of(*it),
    "max": lambda _, it: most_of(*it),
    "abs": lambda _, it: absolutes(it[0]),
    "clamp": lambda _, it: least_of(most_of(it[0], it[1]), it[2]),
    "select": lambda node, it: chosen(node.name, it),
}


def from_the_leaves(root: Node) -> list[Node]:
    """The nodes of a tree, each behind its operands. (A sum of thousands of numbers is deeper than Python calls itself.)"""
    found, rest = [], [root]
    while rest:
        found.append(rest.pop())
        rest += found[-1].parts
    return found[::-1]


class Ranges:
    """The ranges of all stages of a program that `check` accepts, over pictures with samples up to `most`."""

    def __init__(self, whole: Whole, most: int, tables: dict[str, Table]):
        self.whole, self.tables = whole, tables
        self.found: dict[str, Ends] = {}
        self.wraps: list[Wrap] = []
        for name in whole.order:
            stage = whole.stages[name]
            self.found[name] = {"image": lambda _: Ends(0, most), "func": self.function, "accum": self.bins}[stage.item.kind](stage)

    def lines(self) -> Iterator[str]:
        """A line for each stage, in the order of the text."""
        wrapping = {it.stage for it in self.wraps}
        return (f"range {name} {self.found[name]}{' can wrap' if name in wrapping else ''}" for name in self.whole.stages)

    def first_wraps(self) -> list[Wrap]:
        """Of each stage that can wrap the first place where it does."""
        return list({it.stage: it for it in reversed(self.wraps)}.values())[::-1]

    # stages

    def function(self, stage: Stage) -> Ends:
        """The values of all cases that some point may have, and 0 where no case takes each of the others."""
        found: list[Ends] = []
        for case in stage.cases:
            if case.box.count():
                found.append(self.value(stage, case, case.case.value))
                if case.takes_all() and case.box == stage.domain:
                    return hull(found)
        return hull([*found, Ends(0, 0)])

    def bins(self, stage: Stage) -> Ends:
        """What the bins hold. A sum has at most all points of the domain in one bin, and a bin may have none."""
        case = stage.cases[0]
        value = self.value(stage, case, case.case.value)
        self.value(stage, case, case.case.bin)
        operator = self.whole.word_at(case.case.span)
        if operator == "sum":
            value = scaled(value, stage.domain.count())
        return value.hull(Ends(STARTS[operator], STARTS[operator]))

    # expressions

    def value(self, stage: Stage, case: WholeCase, root: Node) -> Ends:
        """The values of an expression of a case."""
        exact: dict[int, Ends] = {}
        for node in from_the_leaves(root):
            parts = [exact[id(it)] for it in node.parts]
            if node.kind not in RING:
                parts = [self.wrapped(stage, it, ends) for it, ends in zip(node.parts, parts)]
            exact[id(node)] = self.exact(stage, case.box, node, parts)
        return self.wrapped(stage, root, exact[id(root)])

    def exact(self, stage: Stage, box: Area, node: Node, parts: list[Ends]) -> Ends:
        """The exact numbers of an expression whose operands have these."""
        if node.kind == "name":
            return self.named(stage, box, node.name)
        if node.kind == "read":
            return self.found[node.name]
        if node.kind == "stencil":
            return self.stencil(stage, node)
        if node.kind == "entry":
            return self.tables[node.name].range_at(parts[0])
        if node.kind == "*" and self.spelling(node.parts[0]) == self.spelling(node.parts[1]):
            return hull_of([it * it for it in absolutes(parts[0])])
        return RULES[node.kind](node, parts)

    def named(self, stage: Stage, box: Area, name: str) -> Ends:
        """A variable's numbers, or a parameter's one."""
        variables = [it.text for it in stage.item.variables]
        if name in variables:
            return box[variables.index(name)]
        return Ends(self.whole.values[name], self.whole.values[name])

    def stencil(self, stage: Stage, node: Node) -> Ends:
        divisor, *weights = node.numbers
        every = [scaled(self.found[node.name], it) for it in weights]
        total = self.wrapped(stage, node, Ends(sum(it.least for it in every), sum(it.most for it in every)))
        return Ends(total.least // divisor, total.most // divisor)

    def spelling(self, node: Node) -> bytes:
        return self.whole.text[node.span.start : node.span.end]

    def wrapped(self, stage: Stage, node: Node, exact: Ends) -> Ends:
        """What is left of exact numbers in 32 bits."""
        if exact.meet(FULL) == exact:
            return exact
        self.wraps.append(Wrap(stage.name, node.span, exact))
        return FULL if exact.least != exact.most else wrapped_one(exact.least)


def ranges_of(given: Input, values: dict[str, int]) -> Ranges:
    """The ranges of a job that `check` accepts."""
    text, head = given.sections["program"].data, given.header()
    program = known_program(text)
    if program is None or head is None:
        raise Refused("tf does not read this job as tilefarm does")
    whole = Whole(text, settings(program, values, head), (head.rows, head.cols), head.parts)
    return Ranges(whole, head.most, {it.name: Table.from_line(it.data) for it in given.tables})


def can_be_above(text: bytes, values: dict[str, int], head: Header, tables: Iterable[Line] = ()) -> bool:
    """Whether the output of a program can have values above its greatest sample, over pictures with this head. What is not known can."""
    try:
        found = found_ranges(text, tuple(values.items()), head, tuple((it.name, it.data) for it in tables))
    except (Refused, Fault, KeyError, RecursionError):
        return True
    output = known_program(text).output()
    return any(found[it.text].most > output.most.value for it in output.names)


@functools.lru_cache(8)
def found_ranges(text: bytes, values: tuple[tuple[str, int], ...], head: Header, tables: tuple[tuple[str, bytes], ...]) -> dict[str, Ends]:
    """The ranges of all stages, which are found once for pictures of the same sides and samples."""
    whole = Whole(text, dict(values), (head.rows, head.cols), head.parts)
    return Ranges(whole, head.most, {name: Table.from_line(line) for name, line in tables}).found


def wrapped_one(value: int) -> Ends:
    value = (value + 2**31) % 2**32 - 2**31
    return Ends(value, value)
