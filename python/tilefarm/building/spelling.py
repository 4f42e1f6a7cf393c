"""Expressions as text, with as few parentheses as the grammar needs, and its levels counted."""
from __future__ import annotations

from dataclasses import dataclass
from typing import Callable, NamedTuple

from .._tf.demands import Way
from .expressions import LEAST, MOST, Binary, ByNumber, Clamp, Entry, Expr, Number, Parameter, Point, Select, Side, Stencil, Unary, Variable
from .linear import way_of
from .stages import Stage

# how tightly a form binds: a sum, a product, a sign before an operand, an operand
SUM, PRODUCT, SIGN, PRIME = range(4)
MOST_LEVELS = 64


class Spelled(NamedTuple):
    """A text, how tightly it binds, and how many levels it nests."""

    text: str
    binds: int
    levels: int = 0

    def at_least(self, binds: int) -> "Spelled":
        """The text where something must bind at least so tightly: in parentheses, unless it does."""
        return self if self.binds >= binds else Spelled(f"({self.text})", PRIME, self.levels + 1)


@dataclass
class Speller:
    """Spells the expressions of one function. `name_of` gives the name of a stage that is read, and `side` the text of a side."""

    variables: tuple[str, str]
    name_of: Callable[[Stage], str]
    side: Callable[[int], str]

    def spell(self, it: Expr) -> Spelled:
        """The text of an expression. Refuses one that nests too many levels, at its own line."""
        found = self.of_kind(it)
        if found.levels > MOST_LEVELS:
            it.site.refuse(f"this expression nests more than {MOST_LEVELS} levels: divide it by .stage(name)")
        return found

    def of_kind(self, it: Expr) -> Spelled:
        parts = [self.spell(part) for part in it.parts]
        if isinstance(it, Number):
            return spelled_number(it.value)
        if isinstance(it, (Variable, Parameter)):
            return Spelled(it.name, PRIME)
        if isinstance(it, Side):
            return Spelled(self.side(it.axis), PRIME)
        if isinstance(it, Unary):
            return self.unary(it, parts[0])
        if isinstance(it, Binary) and it.word in "+-*":
            return binary(it.word, *parts)
        if isinstance(it, ByNumber):
            part = parts[0].at_least(PRODUCT)
            return Spelled(f"{part.text} {it.mark} {it.number}", PRODUCT, part.levels)
        if isinstance(it, Point):
            rows, cols = (spelled_index(way_of(index, axis), self.variables[axis]) for axis, index in enumerate(it.indices))
            return Spelled(f"{self.name_of(it.read)}({rows}, {cols})", PRIME)
        if isinstance(it, Stencil):
            return Spelled(f"stencil({self.name_of(it.read)}, {it.divisor}, {it.weights})", PRIME, 1)
        return Spelled(called(it, [part.text for part in parts]), PRIME, 1 + max(part.levels for part in parts))

    def unary(self, it: Unary, part: Spelled) -> Spelled:
        if it.word == "abs":
            return Spelled(f"abs({part.text})", PRIME, part.levels + 1)
        operand = part.at_least(SIGN)
        return Spelled(f"-{operand.text}", SIGN, operand.levels + 1)


def called(it: Expr, parts: list[str]) -> str:
    """What is spelled as a call, and an entry of a table."""
    if isinstance(it, Entry):
        return f"{it.table.name}[{parts[0]}]"
    if isinstance(it, Select):
        return f"select({parts[0]} {it.mark} {parts[1]}, {parts[2]}, {parts[3]})"
    word = "clamp" if isinstance(it, Clamp) else it.word if isinstance(it, Binary) else ""
    assert word, it
    return f"{word}({', '.join(parts)})"


def binary(mark: str, first: Spelled, second: Spelled) -> Spelled:
    """A sum, a difference or a product: what stands on the left may be one of its own kind. What is added may be a sum, since sums wrap."""
    binds = PRODUCT if mark == "*" else SUM
    left, right = first.at_least(binds), second.at_least(SUM if mark == "+" else binds + 1)
    return Spelled(f"{left.text} {mark} {right.text}", binds, max(left.levels, right.levels))


def spelled_number(value: int) -> Spelled:
    """A number; the least of 32 bits has no literal of its own."""
    if value == LEAST:
        return Spelled(f"-{MOST} - 1", SUM, 1)
    return Spelled(str(value), PRIME) if value >= 0 else Spelled(str(value), SIGN, 1)


def spelled_index(way: Way, variable: str) -> str:
    """An index in the form of the language."""
    text = variable if way.factor == 1 else f"{way.factor}*{variable}"
    if way.more:
        text = f"{text}{way.more:+d}"
    if way.divisor == 1:
        return text
    return f"({text})/{way.divisor}" if way.more else f"{text}/{way.divisor}"
