"""Operators that Python has no mark for: choices, extremes, sums and kernels."""
from __future__ import annotations

import builtins
from dataclasses import dataclass
from typing import Any, Callable, Iterable

import numpy as np
import numpy.typing as npt

from .expressions import LEAST, MOST, Binary, Clamp, Condition, Expr, Given, Number, Stencil, condition, expr, whole
from .sites import site
from .stages import Border, Func, Stage, Table, cases, func, name_of, vars

MOST_WEIGHTS = 15


def where(holds: Condition, first: Given, second: Given) -> Expr:
    """The first value where a condition holds, and the second elsewhere. Both are read: a condition does not keep a read inside, `cases` do."""
    return condition(holds).choose(expr(first), expr(second))


def maximum(*values: Given | Iterable[Given]) -> Expr:
    """The greatest of values, given one by one or as one iterable."""
    return joined(lambda one, other: Binary("max", one, other), values)


def minimum(*values: Given | Iterable[Given]) -> Expr:
    """The least of values, given one by one or as one iterable."""
    return joined(lambda one, other: Binary("min", one, other), values)


def sum(*values: Given | Iterable[Given]) -> Expr:
    """The sum of values, given one by one or as one iterable."""
    return joined(lambda one, other: one + other, values)


def clamp(value: Given, least: Given, most: Given) -> Expr:
    """The value, but at least `least` and at most `most`."""
    return Clamp(expr(value), expr(least), expr(most))


def joined(join: Callable[[Expr, Expr], Expr], values: tuple[Any, ...]) -> Expr:
    """Values joined in pairs, and pairs of these, so that few are nested."""
    found = listed(values)
    while len(found) > 1:
        found = [join(*found[at:at + 2]) if at + 1 < len(found) else found[at] for at in range(0, len(found), 2)]
    return found[0]


def listed(values: tuple[Any, ...]) -> list[Expr]:
    given: Iterable[Any] = values[0] if len(values) == 1 and isinstance(values[0], Iterable) else values
    found = [expr(it) for it in given]
    if not found:
        site().refuse("there is no value to join")
    return found


# kernels


def stencil(stage: Stage, weights: npt.ArrayLike, divisor: int = 1) -> Expr:
    """The sum of a stage's values round a point times weights, divided by a number and rounded down.

    `weights` is an array of whole numbers with odd sides up to 15, or one row of them. They are not turned round: the first is that of the
    value above and to the left.
    """
    rows = weights_of(weights)
    if not 1 <= whole(divisor) <= MOST:
        site().refuse(f"a stencil is divided by a number from 1 to {MOST}, and not {divisor}")
    return Stencil(stage, rows, whole(divisor))


def weights_of(weights: npt.ArrayLike) -> list[list[int]]:
    array = np.atleast_2d(np.asarray(weights))
    if array.ndim != 2 or array.dtype.kind not in "iu" or not builtins.all(side % 2 and side <= MOST_WEIGHTS for side in array.shape):
        site().refuse(f"weights are whole numbers in an array with odd sides up to {MOST_WEIGHTS}, and not {array.dtype} of the shape {array.shape}")
    if int(array.min()) <= LEAST or int(array.max()) > MOST:
        site().refuse(f"the weights go from {array.min()} to {array.max()}, and fit 32 bits")
    return [[int(it) for it in row] for row in array]


def separable(name: str, stage: Stage, down: npt.ArrayLike, across: npt.ArrayLike | None = None, divisor: int = 1) -> Func:
    """A function that is a kernel of two rows of weights: `down` the columns, then `across` the rows (the same unless given). Nothing is
    rounded between them; the sum is divided by a number and rounded down."""
    tall = np.asarray(down).reshape(-1, 1)
    wide = np.asarray(down if across is None else across).reshape(1, -1)
    first = func(f"{name}_down", stencil(stage, tall))
    return func(name, stencil(first, wide, divisor))


# pyramids


def halved(name: str, stage: Stage) -> Func:
    """Half of the rows and columns, rounded up: each second value, after weights 1 4 6 4 1 down and across, rounded. Beyond its domain the
    stage is mirrored, unless it has a border of its own."""
    x, y = vars()
    p = stage if isinstance(stage, Border) else Border(stage, "mirror")
    rows = func(f"{name}_down", softened([p[2 * x + at, y] for at in range(-2, 3)]))
    return func(name, (softened([rows[x, 2 * y + at] for at in range(-2, 3)]) + 128) / 256)


def softened(five: list[Expr]) -> Expr:
    """The sum of five values with the weights 1 4 6 4 1."""
    return five[0] + 4 * five[1] + 6 * five[2] + 4 * five[3] + five[4]


def doubled(name: str, stage: Stage, like: Stage | None = None) -> Func:
    """Twice the rows and columns, or the domain of the stage `like`: values between the points are means, with the weights of `halved`."""
    x, y = vars()
    p = stage if isinstance(stage, Border) else Border(stage, "mirror")
    rows = func(f"{name}_down", cases((x % 2 == 0, p[x // 2 - 1, y] + 6 * p[x // 2, y] + p[x // 2 + 1, y]),
                                      otherwise=4 * p[x // 2, y] + 4 * p[x // 2 + 1, y]))
    value = cases((y % 2 == 0, (rows[x, y // 2 - 1] + 6 * rows[x, y // 2] + rows[x, y // 2 + 1] + 32) / 64),
                  otherwise=(4 * rows[x, y // 2] + 4 * rows[x, y // 2 + 1] + 32) / 64)
    return func(name, value, like)


# division by data


@dataclass(eq=False)
class Reciprocals(Table):
    """A table of 2**bits / d, rounded up, for each d from 1 to the greatest divisor."""

    bits: int

    def quotient(self, value: Given, divisor: Given) -> Expr:
        """value / divisor, rounded down, for values from 0 to `most_value`. A divisor below 1 counts as 1, one above the greatest as the greatest."""
        return (expr(value) * self[divisor]) >> self.bits

    @property
    def most_value(self) -> int:
        """The greatest value whose products fit 32 bits."""
        return MOST // int(self.entries.max())

    def most_error(self, most: int) -> int:
        """By how much a quotient of a value from 0 to `most` is too great at most: 0 where all are exact."""
        divisors = np.arange(1, len(self.entries) + 1, dtype=np.int64)
        values = np.arange(most + 1, dtype=np.int64)
        return builtins.max(int(((values * entry >> self.bits) - values // d).max()) for d, entry in zip(divisors, self.entries.tolist()))


def reciprocals(name: str, most: int, bits: int = 16) -> Reciprocals:
    """A table to divide by data from 1 to `most`: `quotient(a, b)` is a * (2**bits / b) >> bits. More bits are more exact, and leave less
    room for values: `most_error` and `most_value` tell both."""
    if not 1 <= whole(most) <= 4096 or not 1 <= whole(bits) <= 30:
        site().refuse(f"divisors are 1 to 4096 at most and bits 1 to 30, and not {most} and {bits}")
    entries = [-(-2**bits // it) for it in range(1, most + 1)]
    return Reciprocals(name_of(name), 1, np.array(entries, dtype=np.int64), site(), whole(bits))


# borders


def mirror(stage: Stage) -> Border:
    """The stage beyond its domain: mirrored at its first and last points, which are not repeated (numpy's `reflect`)."""
    return Border(stage, "mirror")


def symmetric(stage: Stage) -> Border:
    """The stage beyond its domain: mirrored, with its first and last points repeated (numpy's `symmetric`)."""
    return Border(stage, "symmetric")


def clamp_to_edge(stage: Stage) -> Border:
    """The stage beyond its domain: its nearest point (numpy's `edge`)."""
    return Border(stage, "edge")


def wrap(stage: Stage) -> Border:
    """The stage beyond its domain: its other end. The text is then for one size of pictures."""
    return Border(stage, "wrap")


def constant(stage: Stage, value: int = 0) -> Border:
    """The stage beyond its domain: a number."""
    return Border(stage, "constant", Number(whole(value)).value)
