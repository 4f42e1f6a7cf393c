"""Expressions that are sums of variables, sides and numbers: what indices, tests and domains are made of."""
from __future__ import annotations

from typing import NamedTuple, NoReturn

from .._tf.demands import Way
from .expressions import Binary, ByNumber, Expr, Number, Side, Unary, Variable
from .sites import site

MOST_FACTOR = MOST_DIVISOR = 16
MOST_ADDEND = 4096


class Linear(NamedTuple):
    """How often the row, the column, the picture's rows and its columns are in a sum, and the number that is added."""

    row: int = 0
    col: int = 0
    rows: int = 0
    cols: int = 0
    number: int = 0

    def plus(self, other: "Linear", times: int = 1) -> "Linear":
        return Linear(*(a + times * b for a, b in zip(self, other)))

    def is_number(self) -> bool:
        return self[:4] == (0, 0, 0, 0)


def linear(it: Expr) -> Linear | None:
    """The sum that an expression is, if it is one."""
    if isinstance(it, Number):
        return Linear(number=it.value)
    if isinstance(it, Variable):
        return Linear(col=1) if it.axis else Linear(row=1)
    if isinstance(it, Side):
        return Linear(cols=1) if it.axis else Linear(rows=1)
    if isinstance(it, (Unary, Binary)):
        parts = [linear(part) for part in it.parts]
        known = [part for part in parts if part is not None]
        return joined(it.word, known) if len(known) == len(parts) else None
    return None


def joined(word: str, parts: list[Linear]) -> Linear | None:
    """The sum, the difference or the product of sums, where that is a sum again."""
    if word == "-" and len(parts) == 1:
        return Linear().plus(parts[0], -1)
    if word in ("+", "-"):
        return parts[0].plus(parts[1], 1 if word == "+" else -1)
    for one, other in (parts, parts[::-1]) if word == "*" else ():
        if one.is_number():
            return Linear().plus(other, one.number)
    return None


def way_of(it: Expr, axis: int) -> Way:
    """How an index goes along an axis: (factor * v + more) / divisor. Refuses an index of another form, and numbers past their limits, with the line
    that reads."""
    factor, more, divisor = parts_of(it, axis)
    for number, least, most, what in ((factor, 1, MOST_FACTOR, "factor"), (divisor, 1, MOST_DIVISOR, "divisor"),
                                      (more, -MOST_ADDEND, MOST_ADDEND, "addend")):
        if not least <= number <= most:
            site().refuse(f"the {what} of an index is {least} to {most}, and not {number}")
    return Way(factor, more, divisor)


def parts_of(it: Expr, axis: int) -> tuple[int, int, int]:
    """The factor, the addend and the divisor of an index."""
    found = linear(it)
    if found is None:
        return parts_of_quotient(it, axis)
    if (found.rows, found.cols) != (0, 0) or found[1 - axis] or not found[axis]:
        refuse_index(found, axis)
    return found[axis], found.number, 1


def parts_of_quotient(it: Expr, axis: int) -> tuple[int, int, int]:
    """The same of an index with a division in it. A quotient that is divided or added to is one quotient again."""
    if isinstance(it, ByNumber) and it.mark == "/":
        factor, more, divisor = parts_of(it.parts[0], axis)
        return factor, more, divisor * it.number
    if isinstance(it, Binary) and it.word in ("+", "-"):
        quotient, added = it.parts if it.word == "-" or linear(it.parts[0]) is None else it.parts[::-1]
        number = linear(added)
        if number is not None and number.is_number():
            factor, more, divisor = parts_of(quotient, axis)
            return factor, more + divisor * number.number * (-1 if it.word == "-" else 1), divisor
    refuse_index(None, axis)


def refuse_index(found: Linear | None, axis: int) -> NoReturn:
    """Refuses an index that is no multiple of its variable, plus a number, divided by a number."""
    names = ("row", "column")
    if found is not None and found[1 - axis] and not found[axis]:
        site().refuse(f"the first index is of the row and the second of the column: nothing is read transposed (here the {names[axis]} index has the "
                      f"variable of the {names[1 - axis]}s)")
    site().refuse(f"the {names[axis]} index is no (factor * variable + number) // number: what is read at a point does not depend on data, and "
                  "tf.where chooses among reads")
