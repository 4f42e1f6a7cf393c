"""A program as items, with the place of all that a fault line can blame."""
from typing import NamedTuple

from .tokens import Token


class Span(NamedTuple):
    """Bytes of the text, from `start` up to `end`."""

    start: int
    end: int

    @property
    def length(self) -> int:
        return self.end - self.start


class Use(NamedTuple):
    """A name in its place, and what the place wants: param, row, column, variable, value, stage, function or table."""

    wants: str
    token: Token


class Number(NamedTuple):
    """A number in its place, and its range there."""

    value: int
    least: int
    most: int
    span: Span


class Kernel(NamedTuple):
    """The lengths of a kernel's rows."""

    widths: tuple[int, ...]
    span: Span


class Affine(NamedTuple):
    """A sum of numbers and of parameters times numbers."""

    terms: tuple[tuple[int, str | None], ...]
    span: Span

    def value(self, settings: dict[str, int]) -> int:
        """Its value, where each parameter of it has one."""
        return sum(factor * (1 if name is None else settings[name]) for factor, name in self.terms)


class Interval(NamedTuple):
    low: Affine
    high: Affine
    span: Span


class Read(NamedTuple):
    """What reads a stage: `g(i, j)` with the places of its indices, or a stencil, which has none."""

    stage: Token
    span: Span
    indices: tuple[Span, ...]


class Node(NamedTuple):
    """An expression: an operator's mark, a call's word, or what it is; its operands, its name and its numbers.

    A name, a read, an entry and a stencil have a name, and a select has that of its comparison. A stencil's numbers are its divisor and its
    weights, and those of a quotient, a remainder or a shift its one literal.
    """

    kind: str
    span: Span
    parts: tuple["Node", ...] = ()
    name: str = ""
    numbers: tuple[int, ...] = ()


class Case:
    """A case, an `else`, or an accumulator: its expression, of an accumulator also that of the bin, and what it reads, in the order of the text."""

    def __init__(self, span: Span):
        self.span = span
        self.reads: list[Read] = []
        self.value: Node | None = None
        self.bin: Node | None = None


class Item:
    """An item: its kind, the names that it declares (or, of an output, uses), the parts that faults blame, and the comment behind it in
    its last line."""

    def __init__(self, kind: str, span: Span):
        self.kind, self.span = kind, span
        self.names: list[Token] = []
        self.variables: list[Token] = []
        self.extents: list[Affine] = []
        self.intervals: list[Interval] = []
        self.cases: list[Case] = []
        self.uses: list[Use | Number | Kernel] = []
        self.most: Number | None = None
        self.comment = ""


class Program(NamedTuple):
    """The items of a text, in its order."""

    items: list[Item]

    def declaring(self, name: str) -> tuple[Item, Token] | None:
        """The item that declares a name, and the name's place there."""
        found = ((item, it) for item in self.items if item.kind != "output" for it in item.names if it.text == name)
        return next(found, None)

    def kinds(self) -> dict[str, str]:
        """The kind of each declared name: that of the item which declares it first."""
        named = ((it.text, item.kind) for item in reversed(self.items) if item.kind != "output" for it in reversed(item.names))
        return dict(named)

    def stages(self) -> list[tuple[str, Item]]:
        """Planes, functions and accumulators by name, in the order of their numbers."""
        return [(it.text, item) for item in self.items if item.kind in ("image", "func", "accum") for it in item.names]

    def tables(self) -> list[Item]:
        """The tables, in the order of their numbers."""
        return [item for item in self.items if item.kind == "table"]

    def output(self) -> Item | None:
        return next((item for item in self.items if item.kind == "output"), None)
