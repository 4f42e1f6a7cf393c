"""Ends of domains for pictures of known sides, which remember the sum of sides that they are."""
from __future__ import annotations

from typing import Callable, NamedTuple

from .._tf.demands import Ends, Way
from .linear import Linear


class End(NamedTuple):
    """A row or a column. It is `sides` times the picture's side and a number for pictures of any sides; where `sides` is none, it is this number for
    pictures of these sides alone."""

    value: int
    sides: int | None = 0

    def plus(self, number: int) -> "End":
        return End(self.value + number, self.sides)


class Range(NamedTuple):
    """The rows or the columns of a domain, both ends among them."""

    least: End
    most: End

    @property
    def ends(self) -> Ends:
        return Ends(self.least.value, self.most.value)

    def hull(self, other: "Range") -> "Range":
        return Range(chosen(min, self.least, other.least), chosen(max, self.most, other.most))

    def meet(self, other: "Range") -> "Range":
        return Range(chosen(max, self.least, other.least), chosen(min, self.most, other.most))

    def is_within(self, other: "Range") -> bool:
        return other.least.value <= self.least.value and self.most.value <= other.most.value

    def image(self, way: Way) -> "Range":
        """From where the least is read to where the greatest is."""
        return Range(*(scaled(it, way.factor, way.more, way.divisor).plus(reach) for it, reach in zip(self, (-way.reach, way.reach))))

    def source(self, way: Way) -> "Range":
        """The points that read within this range, each of them."""
        low, high = self.least.plus(way.reach), self.most.plus(-way.reach)
        # the least v with (factor * v + more) // divisor >= low, and the greatest with .. <= high
        return Range(scaled(low, way.divisor, way.factor - 1 - way.more, way.factor), scaled(high, way.divisor, way.divisor - 1 - way.more, way.factor))


# rows and columns
Box = tuple[Range, Range]


def chosen(choose: Callable[[int, int], int], one: End, other: End) -> End:
    """The lesser or the greater end. Of equal ones the one that is so for all pictures."""
    if one.value == other.value:
        return one if one.sides is not None else other
    return one if choose(one.value, other.value) == one.value else other


def scaled(it: End, factor: int, more: int, divisor: int) -> End:
    """(factor * end + more) // divisor."""
    is_whole = it.sides is not None and factor * it.sides % divisor == 0
    return End((factor * it.value + more) // divisor, factor * it.sides // divisor if is_whole and it.sides is not None else None)


def end_of(it: Linear, axis: int, side: int) -> End:
    """A sum of sides as an end along an axis."""
    return End(it[2 + axis] * side + it.number, it[2 + axis])


def whole_side(side: int) -> Range:
    """All rows or all columns of a picture."""
    return Range(End(0), End(side - 1, 1))
