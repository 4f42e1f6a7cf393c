"""What a program is built of: planes, functions, borders, tables and accumulators."""
from __future__ import annotations

import re
from dataclasses import dataclass
from typing import Any, Iterable, Iterator, NamedTuple, Sequence, Union

import numpy as np
import numpy.typing as npt

from .._tf.tables import LONGEST_NAME, MOST_ENTRIES, WIDE
from .._tf.tokens import RESERVED
from ..pictures import Array
from .expressions import LEAST, MOST, ByNumber, Compare, Condition, Entry, Expr, Given, Joined, Parameter, Point, Side, Variable, expr, whole
from .linear import Linear, linear, way_of
from .sites import Site, site

NAME = re.compile(r"[A-Za-z][A-Za-z0-9_]*")
MOST_CASES = 16
USUAL = ("x", "y")


def name_of(given: Any) -> str:
    """A name of the language."""
    if not isinstance(given, str) or not NAME.fullmatch(given) or len(given) > LONGEST_NAME:
        site().refuse(f"{given!r} is no name: a letter, then letters, digits and _, at most {LONGEST_NAME} in all")
    if given in RESERVED:
        site().refuse(f"{given} is a word of the language, and no name: its words are {', '.join(sorted(RESERVED))}")
    return given


class Stage:
    """What can be read: `stage[x, y]` is its value at a point."""

    def __init__(self, name: str):
        self.name, self.site = name, site()

    def __getitem__(self, indices: tuple[Given, Given]) -> Expr:
        if not isinstance(indices, tuple) or len(indices) != 2:
            site().refuse(f"a read has two indices: {self.name}[x, y]")
        rows, cols = map(expr, indices)
        for axis, index in enumerate((rows, cols)):
            way_of(index, axis)
        return Point(self, rows, cols)

    def __iter__(self) -> Iterator[Any]:
        site().refuse(f"{self.name} is read by two indices: {self.name}[x, y]")


class Plane(Stage):
    """A plane of the picture: the only one, or one of three."""

    def __init__(self, name: str, planes: list["Plane"]):
        super().__init__(name)
        self.planes = planes


class Border(Stage):
    """A stage that goes on beyond its domain: `mirror`, `symmetric`, `edge`, `wrap` or `constant`."""

    def __init__(self, base: Stage, kind: str, value: int = 0):
        super().__init__(base.name)
        self.base, self.kind, self.value = base, kind, value


class Test(NamedTuple):
    """A test of a case: a variable against a sum, or (where `modulus` is not 0) its remainder against a number."""

    axis: int
    mark: str
    sum: Linear
    modulus: int = 0


class Case(NamedTuple):
    """An expression, and the tests that all hold where it counts; none for `else`."""

    tests: tuple[Test, ...]
    value: Expr


class Cases(NamedTuple):
    """The cases of a function, of which the first that holds counts."""

    cases: list[Case]


# the first and the last row, and the first and the last column: numbers and sums of sides, as they are given and as they are kept
Domain = Union[Stage, tuple[tuple[Given, Given], tuple[Given, Given]]]
Corners = tuple[tuple[Linear, Linear], tuple[Linear, Linear]]


class Func(Stage):
    """A function of the program: it can be read, and written."""

    def __init__(self, name: str, cases: list[Case], domain: Domain | None):
        super().__init__(name_of(name))
        self.cases, self.variables = cases, names_of(cases)
        self.domain = kept(domain)


class Accum(NamedTuple):
    """An accumulator: its bins, and the value and the bin of each point."""

    name: str
    site: Site
    bins: tuple[int, int]
    value: Expr
    at: Expr
    operator: str
    domain: Stage | Corners | None


@dataclass(eq=False)
class Table:
    """Numbers that go with the program: `table[e]` is the entry at e, the first one below the first index, the last one above the last."""

    name: str
    first: int
    entries: Array
    site: Site

    def __getitem__(self, index: Given) -> Expr:
        return Entry(self, expr(index))


# what users call


def image(name: str) -> Plane:
    """The plane of a grey picture."""
    found: list[Plane] = []
    found.append(Plane(name_of(name), found))
    return found[0]


def colours(names: str) -> tuple[Plane, Plane, Plane]:
    """The three planes of a picture in colours, red first: `r, g, b = colours("r g b")`."""
    every = names.split()
    found: list[Plane] = []
    if len(every) != 3:
        site().refuse(f"a picture in colours has three planes, and {names!r} names {len(every)}")
    found.extend(Plane(name_of(it), found) for it in every)
    return found[0], found[1], found[2]


def vars(names: str = "x y") -> tuple[Variable, Variable]:
    """The two variables: first that of the row, then that of the column."""
    every = names.split()
    if len(every) != 2 or every[0] == every[1]:
        site().refuse(f"there are two variables, first that of the row, and {names!r} names others")
    return Variable(name_of(every[0]), 0), Variable(name_of(every[1]), 1)


def sides() -> tuple[Side, Side]:
    """The picture's number of rows, and that of columns: for domains, tests and values."""
    return Side(0), Side(1)


def param(name: str) -> Parameter:
    """A number that `run` takes by its name: `params={name: 5}`."""
    return Parameter(name_of(name))


def func(name: str, value: Given | Cases, domain: Domain | None = None) -> Func:
    """A function. `value` is an expression, or `cases(..)`.

    `domain` is ((first row, last row), (first column, last column)), of numbers and sums of `sides()`, or a stage whose domain it takes. Without one it is
    the largest on which all reads are inside.
    """
    found = value.cases if isinstance(value, Cases) else [Case((), expr(value))]
    return Func(name, found, domain)


def cases(*given: tuple[Condition, Given], otherwise: Given = 0) -> Cases:
    """The value of the first condition that holds, else `otherwise`. Conditions test variables alone, and reads have to be inside only where
    their case holds."""
    found = [Case(tests, expr(value)) for holds, value in given for tests in tests_of(holds)]
    if len(found) > MOST_CASES:
        site().refuse(f"these are {len(found)} cases (each | and != makes two), and a function has at most {MOST_CASES}")
    return Cases([*found, Case((), expr(otherwise))])


def table(name: str, entries: npt.ArrayLike, first: int = 0) -> Table:
    """A table of the whole numbers of an array, the first of which has the index `first`."""
    array, at = np.asarray(entries), whole(first)
    if array.ndim != 1 or array.dtype.kind not in "iu" or not 1 <= len(array) <= MOST_ENTRIES:
        site().refuse(f"a table is one row of 1 to {MOST_ENTRIES:,} whole numbers, and not {array.dtype} of the shape {array.shape}")
    if int(array.min()) < LEAST or int(array.max()) > MOST:
        site().refuse(f"the entries of the table {name} go from {array.min()} to {array.max()}, and fit 32 bits")
    if at < -WIDE or at + len(array) - 1 > WIDE:
        site().refuse(f"the indices of the table {name} are {at} to {at + len(array) - 1}, and within {WIDE:,} of 0")
    return Table(name_of(name), at, array, site())


def accumulate(name: str, at: Given, *, bins: tuple[int, int], value: Given = 1, operator: str = "sum", domain: Domain | None = None) -> Accum:
    """An accumulator: at each point of a domain `value` goes into the bin `at`. `operator` is sum, min or max; a bin outside `bins` changes nothing."""
    if operator not in ("sum", "min", "max"):
        site().refuse(f"an accumulator takes the sum, the min or the max, and not {operator!r}")
    first, last = map(whole, bins)
    if not first <= last < first + MOST_ENTRIES or first < -WIDE or last > WIDE:
        site().refuse(f"the bins are {first} to {last}: at most {MOST_ENTRIES:,}, and within {WIDE:,} of 0")
    return Accum(name_of(name), site(), (first, last), expr(value), expr(at), operator, kept(domain))


def histogram(name: str, at: Given, bins: int = 256) -> Accum:
    """How many points have each value from 0 to bins - 1."""
    return accumulate(name, at, bins=(0, whole(bins) - 1))


# what they are made of


def variables_of(*given: Expr) -> tuple[Variable, Variable]:
    """The two variables of expressions; the usual ones where they have none."""
    found: list[Variable | None] = [None, None]
    for top, it in ((top, part) for top in given for part in top.walk()):
        if isinstance(it, Variable):
            known = found[it.axis]
            if known is not None and known.name != it.name:
                top.site.refuse(f"{known.name} and {it.name} are both variables of the {('rows', 'columns')[it.axis]}, and a function has one")
            found[it.axis] = it
    first, second = (Variable(USUAL[axis], axis) if known is None else known for axis, known in enumerate(found))
    return first, second


def names_of(given: Iterable[Case]) -> tuple[str, str]:
    """The names of the variables in cases."""
    first, second = variables_of(*(it.value for it in given))
    return first.name, second.name


def kept(domain: Domain | None) -> Stage | Corners | None:
    """A domain with its ends as sums of sides."""
    if domain is None or isinstance(domain, Stage):
        return domain
    try:
        (top, bottom), (left, right) = domain
    except (TypeError, ValueError):
        site().refuse("a domain is ((first row, last row), (first column, last column)), or a stage")
    return (end_of(top, 0), end_of(bottom, 0)), (end_of(left, 1), end_of(right, 1))


def end_of(given: Given, axis: int) -> Linear:
    found = linear(expr(given))
    if found is None or found[:2] != (0, 0) or found[3 - axis]:
        site().refuse(f"an end of the {('rows', 'columns')[axis]} is a sum of numbers and of the picture's {('rows', 'columns')[axis]} (tf.sides)")
    return found


def tests_of(holds: Condition) -> list[tuple[Test, ...]]:
    """The tests of a condition on variables: one list of them holds where it does."""
    if isinstance(holds, Joined):
        one, other = tests_of(holds.first), tests_of(holds.second)
        return [*one, *other] if holds.word == "max" else [first + second for first in one for second in other]
    if isinstance(holds, Compare):
        return [(it,) for it in compared(holds)]
    site().refuse(f"{holds!r} is no condition: a case is (condition, value)")


def compared(it: Compare) -> Sequence[Test]:
    """The tests that a comparison is: one, or two of which one holds."""
    if isinstance(it.first, ByNumber) and it.first.mark == "%" and isinstance(it.first.parts[0], Variable) and it.mark == "==":
        rest = linear(it.second)
        if rest is not None and rest.is_number() and 0 <= rest.number < it.first.number:
            return [Test(it.first.parts[0].axis, "%", rest, it.first.number)]
    first, second = linear(it.first), linear(it.second)
    difference = first.plus(second, -1) if first is not None and second is not None else None
    axis = next((axis for axis in (0, 1) if difference is not None and abs(difference[axis]) == 1 and not difference[1 - axis]), None)
    if difference is None or axis is None or difference[3 - axis]:
        it.site.refuse("a case tests a variable against numbers and the picture's side (x >= 1, x % 2 == 0); conditions on data go into tf.where")
    sign = difference[axis]
    other = Linear(0, 0, *(-sign * part for part in difference[2:]))
    mark = it.mark if sign > 0 else it.mark.translate(str.maketrans("<>", "><"))
    below, above = Test(axis, "<=", other.plus(Linear(number=-1))), Test(axis, ">=", other.plus(Linear(number=1)))
    return {"<": [below], ">": [above], "!=": [below, above]}.get(mark) or [Test(axis, mark, other)]
