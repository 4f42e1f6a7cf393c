"""The reference evaluator: the values of functions and the totals of accumulators over one tile, point by point.

It also has what the reference schedule uses: the cases of each stage, the points where each holds, and what they read.

Written from docs/LANGUAGE.md and docs/FORMATS.md alone, for programs that `check` accepts, given as tokens.
"""
from typing import Callable, NamedTuple

from .pictures import Picture
from .words import CALLS, wrapped

Point = tuple[int, int]
Formula = Callable[[Point], int]
Index = Callable[[int], int]
STARTS = {"sum": 0, "min": 2**63 - 1, "max": -(2**63)}


class Area(NamedTuple):
    rows: tuple[int, int]
    cols: tuple[int, int]

    def tile(self, row: int, col: int, sides: Point) -> "Area | None":
        """A tile of it, if it has that one."""
        ends = [(least + at * side, min(least + (at + 1) * side - 1, most)) for at, side, (least, most) in zip((row, col), sides, self)]
        return Area(*ends) if all(least <= most for least, most in ends) else None

    def tiles(self, sides: Point) -> list[Point]:
        counts = [(most - least) // side + 1 for side, (least, most) in zip(sides, self)]
        return [(row, col) for row in range(counts[0]) for col in range(counts[1])]

    def points(self) -> list[Point]:
        return [(x, y) for x in range(self.rows[0], self.rows[1] + 1) for y in range(self.cols[0], self.cols[1] + 1)]

    def count(self) -> int:
        return (self.rows[1] - self.rows[0] + 1) * (self.cols[1] - self.cols[0] + 1)

    def meet(self, other: "Area") -> "Area | None":
        """What both have, if they have anything."""
        ends = [(max(a[0], b[0]), min(a[1], b[1])) for a, b in zip(self, other)]
        return Area(*ends) if all(least <= most for least, most in ends) else None

    def hull(self, other: "Area | None") -> "Area":
        """The least area that has all of both."""
        return Area(*((min(a[0], b[0]), max(a[1], b[1])) for a, b in zip(self, other))) if other else self


class Read(NamedTuple):
    """A read of a stage: for the rows and for the columns, where it is at the least of them and at the greatest."""

    name: str
    rows: tuple[Index, Index]
    cols: tuple[Index, Index]

    def image(self, area: Area) -> Area:
        """The area from where the read is at the least row and column to where it is at the greatest."""
        return Area(*((at_least(least), at_most(most)) for (at_least, at_most), (least, most) in zip(self[1:], area)))


class Case:
    """A case of a function, an `else`, or the two expressions of an accumulator: the tests of bounds, and the reads in their order."""

    def __init__(self):
        self.bounds: list[tuple[int, str, int]] = []
        self.reads: list[Read] = []

    def box(self, domain: Area) -> Area | None:
        """The part of a domain where the tests of bounds hold."""
        spans = [list(it) for it in domain]
        for axis, mark, value in self.bounds:
            if mark != "<=":
                spans[axis][0] = max(spans[axis][0], value)
            if mark != ">=":
                spans[axis][1] = min(spans[axis][1], value)
        return Area(*map(tuple, spans)) if all(least <= most for least, most in spans) else None


class Stage:
    """A plane, a function or an accumulator."""

    def __init__(self, kind: str, domain: Area, formula: Formula, bins=(0, 0), place: Formula | None = None, op: str = ""):
        self.kind, self.domain, self.formula, self.bins, self.place, self.op = kind, domain, formula, bins, place, op
        self.known: dict[Point, int] = {}
        self.cases: list[Case] = []

    def value(self, point: Point) -> int:
        if point not in self.known:
            self.known[point] = self.formula(point)
        return self.known[point]

    def length(self, tile: Area) -> int:
        """How many numbers a fact of a tile has."""
        return self.bins[1] - self.bins[0] + 1 if self.kind == "accum" else len(tile.points())

    def numbers(self, tile: Area) -> tuple[int, ...]:
        """The numbers of a tile: its values row by row, or what the bins gather over it."""
        if self.kind == "func":
            return tuple(map(self.value, tile.points()))
        found = [STARTS[self.op]] * self.length(tile)
        for point in tile.points():
            at = self.place(point) - self.bins[0]
            if 0 <= at < len(found):
                found[at] = self.joined(found[at], self.formula(point))
        return tuple(found)

    def joined(self, one: int, other: int) -> int:
        return wrapped(one + other, 64) if self.op == "sum" else (min if self.op == "min" else max)(one, other)


class Meaning:
    """The stages of a program over a picture, in the order of their numbers."""

    def __init__(self, tokens: list[str], known: dict[str, int], picture: Picture):
        self.tokens, self.at, self.known, self.picture = [*tokens, ""], 0, known, picture
        self.names: dict[str, Stage] = {}
        self.tables = {it.name: it for it in picture.tables}
        self.outputs: list[str] = []
        # what stands where the reader is: the variables, and the cases so far
        self.variables: list[str] = []
        self.cases: list[Case] = []
        while self.peek():
            getattr(self, self.take())()
        self.stages = list(self.names.values())

    def peek(self) -> str:
        return self.tokens[self.at]

    def take(self, *wanted: str) -> str:
        token = self.tokens[self.at]
        assert not wanted or token in wanted, f"{token} in place of {wanted}"
        self.at += 1
        return token

    def takes(self, *some: str) -> str:
        return self.take() if self.peek() in some else ""

    # ---- items

    def param(self) -> None:
        self.take()
        self.take(";")

    def output(self) -> None:
        self.outputs = [self.take()]
        while self.takes(","):
            self.outputs.append(self.take())
        self.take("max")
        self.take()
        self.take(";")

    def image(self) -> None:
        names = [self.take()]
        while self.takes(","):
            names.append(self.take())
        while self.take() != ";":
            pass
        domain = Area((0, self.picture.rows - 1), (0, self.picture.cols - 1))
        for plane, name in enumerate(names):
            self.names[name] = Stage("plane", domain, self.sample(plane))

    def sample(self, plane: int) -> Formula:
        width, planes, samples = self.picture.cols, self.picture.planes, self.picture.samples
        return lambda point: samples[(point[0] * width + point[1]) * planes + plane]

    def table(self) -> None:
        self.take()
        self.span()
        self.take(";")

    def func(self) -> None:
        name, domain, self.cases = self.take(), self.domain(), []
        self.take("{")
        cases: list[tuple[Callable[[Point], bool], Formula]] = []
        while word := self.takes("case", "else"):
            self.cases.append(Case())
            holds = self.condition() if word == "case" else lambda point: True
            self.take(":")
            cases.append((holds, self.expression()))
            self.take(";")
        self.take("}")
        self.names[name] = Stage("func", domain, lambda point: next((value(point) for holds, value in cases if holds(point)), 0))
        self.names[name].cases = self.cases

    def accum(self) -> None:
        name, bins, self.cases = self.take(), self.span(), [Case()]
        self.take("over")
        domain, op, value = self.domain(), self.take("sum", "min", "max"), self.expression()
        self.take("at")
        self.names[name] = Stage("accum", domain, value, bins, self.expression(), op)
        self.names[name].cases = self.cases
        self.take(";")

    def domain(self) -> Area:
        spans, self.variables = [], []
        for mark in "(,":
            self.take(mark)
            self.variables.append(self.take())
            self.take("in")
            spans.append(self.span())
        self.take(")")
        return Area(*spans)

    def span(self) -> tuple[int, int]:
        self.take("[")
        least = self.affine()
        self.take("..")
        most = self.affine()
        self.take("]")
        return least, most

    def affine(self) -> int:
        sign, total = -1 if self.takes("-") else 1, 0
        while True:
            total += sign * self.term()
            mark = self.takes("+", "-")
            if not mark:
                return total
            sign = 1 if mark == "+" else -1

    def term(self) -> int:
        word = self.take()
        if not word.isdigit():
            return self.known[word]
        return int(word) * (self.known[self.take()] if self.takes("*") else 1)

    def condition(self) -> Callable[[Point], bool]:
        tests = [self.test()]
        while self.takes("and"):
            tests.append(self.test())
        return lambda point: all(it(point) for it in tests)

    def test(self) -> Callable[[Point], bool]:
        axis, mark = self.variables.index(self.take()), self.take("<=", ">=", "==", "%")
        if mark == "%":
            divisor = int(self.take())
            self.take("==")
            rest = int(self.take())
            return lambda point: point[axis] % divisor == rest
        value, holds = self.affine(), COMPARED[mark]
        self.cases[-1].bounds.append((axis, mark, value))
        return lambda point: holds(point[axis], value)

    # ---- expressions

    def expression(self) -> Formula:
        found = self.product()
        while mark := self.takes("+", "-"):
            found = joined(found, self.product(), 1 if mark == "+" else -1)
        return found

    def product(self) -> Formula:
        found = self.unary()
        while mark := self.takes("*", "/", "%", "<<", ">>"):
            found = times(found, self.unary()) if mark == "*" else by_number(found, mark, int(self.take()))
        return found

    def unary(self) -> Formula:
        if self.takes("-"):
            value = self.unary()
            return lambda point: wrapped(-value(point))
        return self.prime()

    def prime(self) -> Formula:
        word = self.take()
        if word == "(":
            value = self.expression()
            self.take(")")
            return value
        if word.isdigit():
            return lambda point, value=int(word): value
        if word in self.variables:
            return lambda point, axis=self.variables.index(word): point[axis]
        if word == "stencil":
            return self.stencil()
        if word in self.known:
            return lambda point, value=wrapped(self.known[word]): value
        if self.peek() == "[":
            return self.entry(word)
        return self.call(word) if word in (*CALLS, "select") else self.read(word)

    def entry(self, name: str) -> Formula:
        self.take("[")
        value, table = self.expression(), self.tables[name]
        self.take("]")
        return lambda point: table.entry(value(point))

    def call(self, word: str) -> Formula:
        self.take("(")
        parts, marks = [self.expression()], []
        while mark := self.take(",", ")", "<=", ">=", "=="):
            if mark == ")":
                break
            marks.append(mark)
            parts.append(self.expression())
        if word == "select":
            holds = COMPARED[marks[0]]
            return lambda point: (parts[2] if holds(parts[0](point), parts[1](point)) else parts[3])(point)
        return lambda point: CALLS[word].value(*(it(point) for it in parts))

    def read(self, name: str) -> Formula:
        self.take("(")
        rows = self.index()
        self.take(",")
        cols = self.index()
        self.take(")")
        self.cases[-1].reads.append(Read(name, (rows, rows), (cols, cols)))
        return lambda point: self.names[name].value((rows(point[0]), cols(point[1])))

    def index(self) -> Index:
        grouped, mul, add, div = self.takes("("), 1, 0, 1
        if self.peek().isdigit():
            mul = int(self.take())
            self.take("*")
        self.take(*self.variables)
        if mark := self.takes("+", "-"):
            add = int(self.take()) * (1 if mark == "+" else -1)
        if grouped:
            self.take(")")
        if self.takes("/"):
            div = int(self.take())
        return lambda v: (mul * v + add) // div

    def stencil(self) -> Formula:
        self.take("(")
        name = self.take()
        self.take(",")
        divisor = int(self.take())
        self.take(",")
        rows = self.listed(lambda: self.listed(self.weight))
        self.take(")")
        up, left = len(rows) // 2, len(rows[0]) // 2
        factors = [(a - up, b - left, it) for a, row in enumerate(rows) for b, it in enumerate(row)]
        self.cases[-1].reads.append(Read(name, widened(up), widened(left)))

        def value(point: Point) -> int:
            stage = self.names[name]
            return wrapped(sum(it * stage.value((point[0] + a, point[1] + b)) for a, b, it in factors)) // divisor

        return value

    def weight(self) -> int:
        return -int(self.take()) if self.takes("-") else int(self.take())

    def listed(self, part: Callable) -> list:
        self.take("[")
        found = [part()]
        while self.takes(","):
            found.append(part())
        self.take("]")
        return found


COMPARED = {"<=": lambda a, b: a <= b, ">=": lambda a, b: a >= b, "==": lambda a, b: a == b}


def widened(reach: int) -> tuple[Index, Index]:
    """Where a stencil begins and ends that reaches so far to each side."""
    return lambda v: v - reach, lambda v: v + reach


def joined(one: Formula, other: Formula, sign: int) -> Formula:
    return lambda point: wrapped(one(point) + sign * other(point))


def times(one: Formula, other: Formula) -> Formula:
    return lambda point: wrapped(one(point) * other(point))


def by_number(value: Formula, mark: str, number: int) -> Formula:
    return {
        "/": lambda point: value(point) // number,
        "%": lambda point: value(point) % number,
        "<<": lambda point: wrapped(value(point) << number),
        ">>": lambda point: value(point) >> number,
    }[mark]
