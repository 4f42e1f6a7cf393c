"""Expressions of the language, built by Python's operators."""
from __future__ import annotations

import operator
from typing import TYPE_CHECKING, Any, Iterator, NoReturn, SupportsIndex, Union

from .sites import Site, site

if TYPE_CHECKING:
    from .stages import Stage, Table

MOST, LEAST = 2**31 - 1, -(2**31)
MOST_SHIFT = 31
MOST_NODES = 4096
OPPOSITES = {"<=": ">", ">=": "<", "==": "!=", "<": ">=", ">": "<=", "!=": "=="}

Given = Union["Expr", SupportsIndex]


class Expr:
    """A number of 32 bits at each point. `+`, `-`, `*`, `<<` wrap; `/` and `//` are the same: by a number, rounded down.

    Comparisons give conditions, which `where` and `cases` take. Errors are BuildError, with the caller's line.
    """

    def __init__(self, *parts: "Expr", nodes: int = 1):
        self.parts: tuple[Expr, ...] = parts
        self.site: Site = site()
        # what the language counts of it; what is used twice counts twice
        self.nodes: int = nodes + sum(it.nodes for it in parts)
        if self.nodes > MOST_NODES:
            self.site.refuse(f"this expression has {self.nodes:,} nodes (numbers, names, operations, reads), and a program at most {MOST_NODES:,} in all: "
                             ".stage(name) makes a part of it a function, which counts once")

    def __add__(self, other: Given) -> "Expr":
        return Binary("+", self, expr(other))

    def __radd__(self, other: Given) -> "Expr":
        return Binary("+", expr(other), self)

    def __sub__(self, other: Given) -> "Expr":
        return Binary("-", self, expr(other))

    def __rsub__(self, other: Given) -> "Expr":
        return Binary("-", expr(other), self)

    def __mul__(self, other: Given) -> "Expr":
        return Binary("*", self, expr(other))

    def __rmul__(self, other: Given) -> "Expr":
        return Binary("*", expr(other), self)

    def __floordiv__(self, other: Given) -> "Expr":
        return ByNumber("/", self, other)

    def __truediv__(self, other: Given) -> "Expr":
        return ByNumber("/", self, other)

    def __mod__(self, other: Given) -> "Expr":
        return ByNumber("%", self, other)

    def __lshift__(self, other: Given) -> "Expr":
        return ByNumber("<<", self, other)

    def __rshift__(self, other: Given) -> "Expr":
        return ByNumber(">>", self, other)

    def __rtruediv__(self, other: Given) -> "Expr":
        refuse_data("/")

    __rfloordiv__ = __rmod__ = __rlshift__ = __rrshift__ = __rtruediv__

    def __neg__(self) -> "Expr":
        return Unary("-", self)

    def __pos__(self) -> "Expr":
        return self

    def __abs__(self) -> "Expr":
        return Unary("abs", self)

    def __le__(self, other: Given) -> "Condition":
        return Compare("<=", self, expr(other))

    def __ge__(self, other: Given) -> "Condition":
        return Compare(">=", self, expr(other))

    def __lt__(self, other: Given) -> "Condition":
        return Compare("<", self, expr(other))

    def __gt__(self, other: Given) -> "Condition":
        return Compare(">", self, expr(other))

    def __eq__(self, other: Any) -> "Condition":  # type: ignore[override]
        return Compare("==", self, expr(other))

    def __ne__(self, other: Any) -> "Condition":  # type: ignore[override]
        return Compare("!=", self, expr(other))

    __hash__ = object.__hash__

    def __bool__(self) -> bool:
        site().refuse("an expression has a value at each point, and not one here: use tf.where(condition, a, b)")

    def stage(self, name: str) -> "Expr":
        """This expression as a function of its own, read at the point itself: it divides long expressions."""
        from .stages import func, variables_of

        return func(name, self)[variables_of(self)]

    def walk(self) -> Iterator["Expr"]:
        """This expression and all that it is made of, in the order of the text."""
        waiting = [self]
        while waiting:
            yield (top := waiting.pop())
            waiting += reversed(top.inner())

    def inner(self) -> tuple["Expr", ...]:
        """What it is made of directly."""
        return self.parts


class Number(Expr):
    """A number of the text."""

    def __init__(self, value: int):
        super().__init__(nodes=1 if value >= 0 else 2 if value > LEAST else 4)
        self.value = value
        if not LEAST <= value <= MOST:
            self.site.refuse(f"{value} does not fit 32 bits: numbers are {LEAST} to {MOST}")


class Variable(Expr):
    """The row of a point (axis 0), or its column (axis 1)."""

    def __init__(self, name: str, axis: int):
        super().__init__()
        self.name, self.axis = name, axis


class Parameter(Expr):
    """A number that is given when the program is run."""

    def __init__(self, name: str):
        super().__init__()
        self.name = name


class Side(Expr):
    """The picture's number of rows (axis 0) or of columns (axis 1)."""

    def __init__(self, axis: int):
        super().__init__()
        self.axis = axis


class Unary(Expr):
    def __init__(self, word: str, part: Expr):
        super().__init__(part)
        self.word = word


class Binary(Expr):
    """`+`, `-`, `*`, `min` or `max`."""

    def __init__(self, word: str, first: Expr, second: Expr):
        super().__init__(first, second)
        self.word = word


class ByNumber(Expr):
    """`/`, `%`, `<<` or `>>` by a number."""

    def __init__(self, mark: str, part: Expr, number: Given):
        super().__init__(part)
        if isinstance(number, Expr):
            refuse_data(mark)
        self.mark, self.number = mark, whole(number)
        least, most = (0, MOST_SHIFT) if mark in ("<<", ">>") else (1, MOST)
        if not least <= self.number <= most:
            self.site.refuse(f"{mark} takes a number from {least} to {most}, and not {self.number}")


class Clamp(Expr):
    """A value, and the ends that it is kept within."""


class Select(Expr):
    """Whether the first part is `<=`, `>=` or `==` the second: the third, and else the fourth."""

    def __init__(self, mark: str, *parts: Expr):
        super().__init__(*parts)
        self.mark = mark


class Entry(Expr):
    """The entry of a table at an index."""

    def __init__(self, table: "Table", index: Expr):
        super().__init__(index)
        self.table = table


class Point(Expr):
    """The value of a stage at indices, which are expressions of the two variables."""

    def __init__(self, stage: "Stage", rows: Expr, cols: Expr):
        super().__init__()
        self.read, self.indices = stage, (rows, cols)

    def inner(self) -> tuple[Expr, ...]:
        return self.indices


class Stencil(Expr):
    """The sum of a stage's values times weights, the middle one at the point itself, divided by a number."""

    def __init__(self, stage: "Stage", weights: list[list[int]], divisor: int):
        super().__init__()
        self.read, self.weights, self.divisor = stage, weights, divisor


def expr(given: Given) -> Expr:
    """An expression, or a whole number as one."""
    if isinstance(given, Condition):
        site().refuse("a condition is no number: use tf.where(condition, 1, 0)")
    return given if isinstance(given, Expr) else Number(whole(given))


def whole(given: Any) -> int:
    """A whole number of Python or of numpy."""
    try:
        return operator.index(given)
    except TypeError:
        site().refuse(f"{given!r} is no whole number, and there are no others: write fractions as (299 * r + 587 * g + 114 * b) / 1000")


def refuse_data(mark: str) -> NoReturn:
    site().refuse(f"{mark} takes a number on its right, and not a value of the picture: tf.reciprocals makes a table to divide by data")


# conditions


class Condition:
    """What holds or does not at a point. Conditions are joined by `&` and `|`, and turned round by `~`."""

    def __init__(self) -> None:
        self.site: Site = site()

    def __and__(self, other: "Condition") -> "Condition":
        return Joined("min", self, condition(other))

    def __or__(self, other: "Condition") -> "Condition":
        return Joined("max", self, condition(other))

    def __invert__(self) -> "Condition":
        raise NotImplementedError

    def __bool__(self) -> bool:
        site().refuse("a condition holds at some points and not at others: join conditions by & and |, each in parentheses, and use tf.where")

    def choose(self, first: Expr, second: Expr) -> Expr:
        """The first value where this holds, and else the second."""
        raise NotImplementedError


class Compare(Condition):
    """A comparison of two values."""

    def __init__(self, mark: str, first: Expr, second: Expr):
        super().__init__()
        self.mark, self.first, self.second = mark, first, second

    def __invert__(self) -> Condition:
        return Compare(OPPOSITES[self.mark], self.first, self.second)

    def choose(self, first: Expr, second: Expr) -> Expr:
        if self.mark in ("<=", ">=", "=="):
            return Select(self.mark, self.first, self.second, first, second)
        return Select(OPPOSITES[self.mark], self.first, self.second, second, first)


class Joined(Condition):
    """Both of two conditions (`min` of 1 and 0), or one of them (`max`)."""

    def __init__(self, word: str, first: Condition, second: Condition):
        super().__init__()
        self.word, self.first, self.second = word, first, second

    def __invert__(self) -> Condition:
        return Joined("max" if self.word == "min" else "min", ~self.first, ~self.second)

    def choose(self, first: Expr, second: Expr) -> Expr:
        holds = (it.choose(Number(1), Number(0)) for it in (self.first, self.second))
        return Select("==", Binary(self.word, *holds), Number(1), first, second)


def condition(given: Any) -> Condition:
    if not isinstance(given, Condition):
        site().refuse(f"{given!r} is no condition: & and | join comparisons, each in parentheses")
    return given
