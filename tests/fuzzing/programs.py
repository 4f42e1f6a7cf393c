"""Random programs over a picture, as lists of tokens. Most of their reads are inside, so that most are evaluated."""
from dataclasses import dataclass, field
from random import Random

from reference.pictures import Picture
from reference.tables import Table, declared
from reference.words import CALLS

from .pictures import random_table
from .templates import Templates

SHIFT = 4096
OPERATORS = ["sum", "min", "max"]


@dataclass(frozen=True)
class Span:
    least: int
    greatest: int

    def holds(self, least: int, greatest: int) -> bool:
        return self.least <= least and greatest <= self.greatest


@dataclass(frozen=True)
class Stage:
    name: str
    spans: tuple[Span, Span]


@dataclass
class Program:
    """What a program was made of: its tokens, the values that its parameters need, and its tables in the order of the text."""

    tokens: list[str] = field(default_factory=list)
    values: list[str] = field(default_factory=list)
    tables: tuple[Table, ...] = ()


class Writer:
    """Writes one program. It knows the values of the parameters, and so each domain in numbers."""

    def __init__(self, random: Random, picture: Picture, is_templated: bool = False):
        self.random, self.picture = random, picture
        self.sides = {"R": picture.rows, "C": picture.cols}
        self.given = {f"p{it}": random.randint(-9, 9) for it in range(random.randint(0, 2))}
        self.readable: list[Stage] = []
        count = random.choice([0, 0, 0, 1, 2, 2, 16]) if random.random() < 0.9 else 0
        self.tables = tuple(random_table(f"t{it}", random) for it in range(count))
        self.is_careful = random.random() < 0.9
        # (what users write most, over domains that they write it on)
        self.is_templated = is_templated

    # ---- numbers

    def affine(self, value: int) -> list[str]:
        """An affine expression of this value: a number, or a parameter and what is left."""
        known = {**self.sides, **self.given}
        if self.random.random() < 0.5:
            return ["-", str(-value)] if value < 0 else [str(value)]
        name = self.random.choice(sorted(known))
        factor = self.random.choice([1, 1, 2])
        rest = value - factor * known[name]
        front = [name] if factor == 1 else [str(factor), "*", name]
        return front if rest == 0 else [*front, "+" if rest > 0 else "-", str(abs(rest))]

    def span(self, span: Span) -> list[str]:
        return ["[", *self.affine(span.least), "..", *self.affine(span.greatest), "]"]

    def variables(self, spans: tuple[Span, Span]) -> list[str]:
        return ["(", "x", "in", *self.span(spans[0]), ",", "y", "in", *self.span(spans[1]), ")"]

    def some_span(self, near: int) -> Span:
        least = self.random.choice([0, 0, 0, 1, self.random.randint(-5, 5)])
        return Span(least, least + self.random.randint(0, near))

    def some_domain(self) -> tuple[Span, Span]:
        if self.is_templated and self.random.random() < 0.8:
            return tuple(map(self.part, self.random.choice(self.readable).spans))
        if self.random.random() < 0.6:
            return self.random.choice(self.readable).spans
        return self.some_span(12), self.some_span(12)

    def part(self, span: Span) -> Span:
        """The inner part of a span where neighbours are inside too; or what it is if each so many-th point is left or repeated."""
        length, times = span.greatest - span.least + 1, self.random.choice([2, 2, 3, 4, 5])
        kind = self.random.random()
        if kind < 0.15 and span.least == 0:
            return Span(0, (length - 1) // times)
        if kind < 0.25 and span.least == 0 and length <= 24:
            return Span(0, length * times - 1)
        least = span.least + self.random.randint(0, min(3, (length - 1) // 2))
        return Span(least, max(least, span.greatest - self.random.randint(0, min(3, (length - 1) // 2))))

    # ---- reads

    def near(self, stage: Stage, spans: tuple[Span, Span]) -> list[str]:
        """A read of a stage at a neighbour, where all of these are inside, else any read."""
        shifts = []
        for over, inside in zip(spans, stage.spans):
            shifts.append([it for it in range(-3, 4) if inside.holds(over.least + it, over.greatest + it)])
        if not all(shifts) or self.random.random() < 0.1:
            return self.read(spans)
        rows, cols = (self.spelled_index(name, 1, self.random.choice(it), 1) for name, it in zip("xy", shifts))
        return [stage.name, "(", *rows, ",", *cols, ")"]

    def template(self, spans: tuple[Span, Span]) -> list[str]:
        """What users write most, over one or two stages."""
        stages = self.random.choices(self.readable, k=self.random.choice([1, 1, 1, 2]))
        return Templates(self.random, lambda: self.near(self.random.choice(stages), spans), lambda: self.window(stages[0], spans)).any()

    def window(self, stage: Stage, spans: tuple[Span, Span]) -> list[list[str]]:
        """The reads of a rectangle around the point, in which a stage has them all. None where it has not even the middle."""
        rows, cols = (min(self.random.choice([0, 1, 1, 2, 3]), self.room(*pair)) for pair in zip(spans, stage.spans))
        index = lambda variable, shift: self.spelled_index(variable, 1, shift, 1)
        return [[stage.name, "(", *index("x", a), ",", *index("y", b), ")"] for a in range(-rows, rows + 1) for b in range(-cols, cols + 1)]

    def index(self, variable: str, over: Span, inside: Span) -> list[str]:
        """An index in the variable that stays inside, and none where a few tries find none."""
        for _ in range(20):
            mul, div = self.random.choice([1, 1, 1, 2, 3, 4, 8]), self.random.choice([1, 1, 1, 2, 3, 4, 5, 16])
            add = self.random.choice([0, 0, self.random.randint(-3, 3), inside.least * div - over.least * mul])
            ends = [(mul * it + add) // div for it in (over.least, over.greatest)]
            if abs(add) <= SHIFT and (inside.holds(*ends) or not self.is_careful):
                return self.spelled_index(variable, mul, add, div)
        return []

    def spelled_index(self, variable: str, mul: int, add: int, div: int) -> list[str]:
        front = [variable] if mul == 1 else [str(mul), "*", variable]
        shift = [] if add == 0 else ["+" if add > 0 else "-", str(abs(add))]
        if div == 1:
            return [*front, *shift]
        return [*(["(", *front, *shift, ")"] if shift else front), "/", str(div)]

    def read(self, spans: tuple[Span, Span]) -> list[str]:
        stage = self.random.choice(self.readable)
        rows, cols = (self.index(it, *pair) for it, pair in zip("xy", zip(spans, stage.spans)))
        return [stage.name, "(", *rows, ",", *cols, ")"] if rows and cols else ["7"]

    def stencil(self, spans: tuple[Span, Span]) -> list[str]:
        """A stencil round the points, where a stage reaches far enough, else a read."""
        for stage in self.random.sample(self.readable, len(self.readable)):
            reach = [min(1, self.room(*pair)) for pair in zip(spans, stage.spans)]
            if min(reach) >= 0:
                rows = [self.weights(2 * reach[1] + 1) for _ in range(2 * reach[0] + 1)]
                matrix = ["[", *parted(rows), "]"]
                return ["stencil", "(", stage.name, ",", str(self.random.randint(1, 16)), ",", *matrix, ")"]
        return self.read(spans)

    def room(self, over: Span, inside: Span) -> int:
        return min(over.least - inside.least, inside.greatest - over.greatest)

    def weights(self, count: int) -> list[str]:
        numbers = [self.random.randint(-9, 9) for _ in range(count)]
        return ["[", *parted([["-", str(-it)] if it < 0 else [str(it)] for it in numbers]), "]"]

    # ---- expressions

    def expression(self, spans: tuple[Span, Span], depth: int) -> list[str]:
        inner = lambda: self.expression(spans, depth - 1)
        if depth == 0 or self.random.random() < 0.15:
            return self.leaf(spans)
        choice = self.random.randrange(11 if self.tables else 9)
        if choice >= 9:
            return [self.random.choice(self.tables).name, "[", *inner(), "]"]
        if choice <= 1:
            return ["(", *inner(), self.random.choice("+-"), *inner(), ")"]
        if choice == 2:
            return ["(", *inner(), ")", "*", "(", *inner(), ")"]
        if choice == 3:
            return ["(", *inner(), ")", *self.random.choice([("/", "3"), ("%", "7"), ("<<", "2"), (">>", "1"), ("/", "16")])]
        if choice == 4:
            return ["(", "-", *inner(), ")"]
        if choice <= 7:
            operands = {5: 2, 6: 1, 7: 3}[choice]
            word = self.random.choice([word for word, call in CALLS.items() if call.operands == operands])
            return [word, "(", *parted([inner() for _ in range(operands)]), ")"]
        test = [*inner(), self.random.choice(["<=", ">=", "=="]), *inner()]
        return ["select", "(", *parted([test, inner(), inner()]), ")"]

    def leaf(self, spans: tuple[Span, Span]) -> list[str]:
        choice = self.random.random()
        if choice < 0.15:
            return [str(self.random.choice([0, 1, 2, 255, 2147483647]))]
        if choice < 0.3:
            return [self.random.choice(["x", "y", *sorted({**self.sides, **self.given})])]
        return self.stencil(spans) if choice < 0.5 else self.read(spans)

    # ---- items

    def test(self, span: Span, variable: str) -> list[str]:
        if self.random.random() < 0.3:
            divisor = self.random.choice([1, 2, 2, 3, 4, 5, 7])
            return [variable, "%", str(divisor), "==", str(self.random.randrange(divisor))]
        value = self.random.randint(span.least - 1, span.greatest + 1)
        return [variable, self.random.choice(["<=", ">=", "=="]), *self.affine(value)]

    def phases(self, stage: Stage) -> list[str]:
        """A case for each remainder of rows or columns, but perhaps the last."""
        axis, divisor = self.random.choice([0, 1, 1]), self.random.choice([2, 2, 3, 4])
        rests = self.random.sample(range(divisor), divisor)
        tests = [["case", "xy"[axis], "%", str(divisor), "==", str(it)] for it in rests[: divisor - self.random.randint(0, 1)]]
        return [token for test in [*tests, ["else"]] for token in (*test, ":", *self.template(stage.spans), ";")]

    def copy(self, spans: tuple[Span, Span]) -> list[str]:
        """What readers may read through: a neighbour of a point, a number, or what finishes the point of one stage."""
        stage = self.random.choice([*self.readable, self.readable[-1]])
        kind = self.random.random()
        if kind < 0.1:
            return [str(self.random.choice([0, 1, 255, 2147483647]))]
        if kind < 0.6 or self.room(spans[0], stage.spans[0]) < 0 or self.room(spans[1], stage.spans[1]) < 0:
            return self.near(stage, spans)
        read = [stage.name, "(", "x", ",", "y", ")"]
        marks = [[*read, *it] for it in (["/", "3"], [">>", "2"], ["+", "1"], ["*", "x"])]
        calls = [[word, "(", *read, ",", *rest, ")"] for word, rest in (("clamp", ["0", ",", "255"]), ("min", ["99"]), ("max", ["y"]))]
        point = ["stencil", "(", stage.name, ",", self.random.choice(["1", "4"]), ",", "[", "[", self.random.choice(["1", "3"]), "]", "]", ")"]
        return self.random.choice([*marks, *calls, point])

    def function(self, stage: Stage) -> list[str]:
        if self.random.random() < 0.2:
            return ["func", stage.name, *self.variables(stage.spans), "{", "else", ":", *self.copy(stage.spans), ";", "}"]
        if self.is_templated and self.random.random() < 0.85:
            body = self.phases(stage) if self.random.random() < 0.2 else ["else", ":", *self.template(stage.spans), ";"]
            return ["func", stage.name, *self.variables(stage.spans), "{", *body, "}"]
        cases: list[str] = []
        for _ in range(self.random.choice([0, 0, 1, 2])):
            tests = [self.test(stage.spans[it], "xy"[it]) for it in self.random.choice([(0,), (1,), (0, 1)])]
            cases += ["case", *parted(tests, "and"), ":", *self.expression(stage.spans, 2), ";"]
        if not cases or self.random.random() < 0.8:
            cases += ["else", ":", *self.expression(stage.spans, 3), ";"]
        return ["func", stage.name, *self.variables(stage.spans), "{", *cases, "}"]

    def accumulator(self, name: str) -> list[str]:
        stage = self.random.choice(self.readable)
        least = self.random.randint(-3, 3)
        bins = self.span(Span(least, least + self.random.randint(0, 9)))
        head = ["accum", name, *bins, "over", *self.variables(stage.spans), self.random.choice(OPERATORS)]
        point = [stage.name, "(", "x", ",", "y", ")"]
        value, bin_ = (point if self.random.random() < 0.3 else self.expression(stage.spans, 2) for _ in range(2))
        return [*head, *value, "at", *bin_, ";"]

    def program(self) -> Program:
        planes = ["a", "b", "c"][: self.picture.planes]
        sides = (Span(0, self.picture.rows - 1), Span(0, self.picture.cols - 1))
        extents = [*self.affine(self.picture.rows), ",", *self.affine(self.picture.cols)]
        items = [["image", *parted([[it] for it in planes]), "(", *extents, ")", ";"]]
        self.readable = [Stage(it, sides) for it in planes]
        functions = []
        for number in range(self.random.randint(1, 6)):
            stage = Stage(f"f{number}", self.some_domain())
            items.append(self.function(stage))
            self.readable.append(stage)
            functions.append(stage)
        for number in range(self.random.choice([0, 0, 1, 2])):
            items.append(self.accumulator(f"h{number}"))
        alike = [it for it in functions if it.spans == functions[-1].spans]
        outputs = self.random.choices(alike, k=3) if len({*alike}) >= 3 and self.random.random() < 0.5 else [functions[-1]]
        outputs = list(dict.fromkeys(outputs)) if len({*outputs}) == 3 else outputs[-1:]
        items.append(["output", *parted([[it.name] for it in outputs]), "max", str(self.random.choice([1, 255, 65535])), ";"])
        items += [["param", it, ";"] for it in sorted({**self.sides, **self.given})]
        items += [["table", it.name, *self.span(Span(it.lo, it.lo + len(it.values) - 1)), ";"] for it in self.tables]
        self.random.shuffle(items)
        values = [f"{name}={value}" for name, value in {**self.sides, **self.given}.items()]
        tokens = [token for item in items for token in item]
        by_name = {it.name: it for it in self.tables}
        return Program(tokens, values, tuple(by_name[it] for it in declared(tokens)))


def parted(parts: list[list[str]], mark: str = ",") -> list[str]:
    return [token for number, part in enumerate(parts) for token in ([mark] * (number > 0) + part)]


def spelled(tokens: list[str]) -> bytes:
    return (" ".join(tokens) + "\n").encode()


def spelled_otherwise(tokens: list[str], random: Random) -> bytes:
    """The same tokens with other gaps between them, and other spellings of their numbers."""
    gaps = [" ", "\n", "\t", "\r\n", " # a comment; func\n", "  "]
    digits = lambda token: random.choice(["", "0", "000"]) + token if token.isdigit() else token
    return ("".join(digits(token) + random.choice(gaps) for token in tokens) + "\n").encode()
