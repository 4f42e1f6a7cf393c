"""Random programs of the builder, each with an evaluation of the same by numpy alone: by coordinates, without domains and without a text."""
from dataclasses import dataclass, field
from random import Random
from typing import Callable

import numpy as np

from . import shared  # noqa: F401 (finds the package)
import tilefarm as tf

# where an own domain is looked for: pictures have sides up to 12, and scales are small
NEAR = np.arange(-120, 160)
# borders, and what numpy's pad calls them
PADS = {"mirror": "reflect", "symmetric": "symmetric", "clamp_to_edge": "edge", "wrap": "wrap"}
AROUND = 600
# accumulators of the remainders by 7: what they are called, how they join, and what a bin without a point has
TOTALS = {"sums": (np.add, 0), "mins": (np.minimum, 2**63 - 1), "maxs": (np.maximum, -(2**63))}
Value = Callable[[np.ndarray, np.ndarray], np.ndarray]
Way = tuple[int, int, int, int]  # (factor * v + more) // divisor, so far to each side


def wrapped(values: np.ndarray) -> np.ndarray:
    """Numbers as 32 bits hold them."""
    return (np.asarray(values, dtype=np.int64) + 2**31) % 2**32 - 2**31


@dataclass
class Stage:
    """A stage of the builder's, its values at any points, and its own domain; `is_bounded` where it has no value elsewhere."""

    built: object
    value: Value
    own: list[tuple[int, int]]
    is_bounded: bool


@dataclass
class Made:
    """An expression of the builder's, its values by numpy, and what it reads."""

    built: object
    value: Value
    reads: list[tuple[Stage, Way, Way]] = field(default_factory=list)


def largest(reads: list[tuple[Stage, Way, Way]], is_exact: bool, sides: tuple[int, int]) -> list[tuple[int, int]]:
    """The points that read inside, found by trying each; what has a value everywhere bounds by its scale alone. (An empty one has crossed ends.)"""
    found = []
    for axis in (0, 1):
        inside = np.ones(len(NEAR), bool)
        for stage, *ways in reads:
            factor, more, divisor, reach = ways[axis]
            if not (is_exact and stage.is_bounded):
                more = reach = 0
            at, (least, most) = (factor * NEAR + more) // divisor, stage.own[axis]
            inside &= (at - reach >= least) & (at + reach <= most)
        points = NEAR[inside]
        found.append((0, sides[axis] - 1) if not reads else (int(points[0]), int(points[-1])) if len(points) else (0, -1))
    return found


class Maker:
    """Makes one random program."""

    def __init__(self, seed: int):
        self.random = Random(seed)
        self.sides = self.side(), self.side()
        self.planes = self.random.choice((1, 1, 3))
        shape = self.sides if self.planes == 1 else (*self.sides, 3)
        self.is_wide = self.random.random() < 0.3
        samples = np.random.default_rng(seed).integers(0, 65536 if self.is_wide else 256, shape)
        self.picture = samples.astype(np.uint16 if self.is_wide else np.uint8)
        self.x, self.y = tf.vars(self.random.choice(("x y", "row col")))
        self.rows, self.cols = tf.sides()
        self.table = self.new_table()
        self.stages = self.make_planes()
        self.tests = 0

    def side(self) -> int:
        return self.random.randint(1, 3) if self.random.random() < 0.1 else self.random.randint(7, 14)

    def make_planes(self) -> list[Stage]:
        built = [tf.image("I")] if self.planes == 1 else tf.colours("red green blue")
        every = [self.picture] if self.planes == 1 else [self.picture[..., at] for at in range(3)]
        own = [(0, side - 1) for side in self.sides]
        return [Stage(it, lambda x, y, it=values: inside(it, x, y), own, True) for it, values in zip(built, every)]

    def new_table(self) -> tuple[object, Callable[[np.ndarray], np.ndarray]]:
        first = self.first_index = self.random.randint(-5, 5)
        entries = np.array([self.number() for _ in range(self.random.randint(1, 9))])
        return tf.table("tone", entries, first), lambda at: entries[np.clip(at - first, 0, len(entries) - 1)]

    def number(self) -> int:
        return self.random.choice((0, 1, 2, 3, 7, 100, 255, -1, -9, 65535, 2**31 - 1, -(2**31)))

    # stages

    def program(self) -> tuple[object, Stage]:
        """A program whose output is one function, and that function."""
        for number in range(self.random.randint(1, 5)):
            if self.random.random() < 0.6:
                self.stages.append(self.border(self.random.choice(self.stages)))
            self.stages.append(self.function(f"f{number}"))
        last = self.last(self.stages[-1])
        value = last.built[self.x, self.y]
        totals = [tf.accumulate(name, value % 7, bins=(1, 6), value=value, operator=name[:3]) for name in TOTALS]
        return tf.output(last.built, max=self.random.choice((1, 255, 65535)), totals=totals, shape=self.sides), last

    def last(self, stage: Stage) -> Stage:
        """A function that reads a stage and the picture."""
        one, other = self.read(stage), self.read(self.border(self.stages[0]))
        made = Made(one.built - other.built, lambda x, y: wrapped(one.value(x, y) - other.value(x, y)), reads(one, other))
        return Stage(tf.func("last", made.built), made.value, largest(made.reads, True, self.sides), stage.is_bounded)

    def border(self, base: Stage) -> Stage:
        kind = self.random.choice((*PADS, "constant"))
        if kind == "constant":
            number = self.number()
            return Stage(tf.constant(base.built, number), lambda x, y: padded(base, x, y, number), base.own, False)
        at = [index_map(kind, *ends) for ends in base.own]
        return Stage(getattr(tf, kind)(base.built), lambda x, y: base.value(at[0](x), at[1](y)), base.own, False)

    def function(self, name: str) -> Stage:
        goes_on = [it for it in self.stages if not it.is_bounded]
        if goes_on and self.random.random() < 0.3:
            return self.function_of_cases(name, goes_on)
        made = self.expression(3, self.stages)
        own = largest(made.reads, True, self.sides)
        is_bounded = any(it.is_bounded for it, *_ in made.reads)
        return Stage(tf.func(name, made.built), made.value, own, is_bounded)

    def function_of_cases(self, name: str, stages: list[Stage]) -> Stage:
        """Its cases read what has a value everywhere."""
        conditions = [self.test() for _ in range(self.random.randint(1, 3))]
        values = [self.expression(2, stages) for _ in range(len(conditions) + 1)]
        built = tf.func(name, tf.cases(*((holds, it.built) for (holds, _), it in zip(conditions, values)), otherwise=values[-1].built))

        def value(x: np.ndarray, y: np.ndarray) -> np.ndarray:
            return np.select([holds(x, y) for _, holds in conditions], [it.value(x, y) for it in values[:-1]], values[-1].value(x, y))

        return Stage(built, value, largest([read for it in values for read in it.reads], False, self.sides), False)

    def test(self) -> tuple[object, Callable[[np.ndarray, np.ndarray], np.ndarray]]:
        """A condition on the variables."""
        axis, number = self.random.randint(0, 1), self.random.randint(-2, 12)
        variable, pick = (self.x, self.y)[axis], lambda x, y: (x, y)[axis]
        kind = self.random.choice(("<=", ">=", "==", "<", ">", "!=", "%", "side", "&", "|", "~"))
        if kind == "%":
            modulus = self.random.randint(1, 4)
            rest = self.random.randint(0, modulus - 1)
            return variable % modulus == rest, lambda x, y: pick(x, y) % modulus == rest
        if kind == "side":
            return variable <= (self.rows, self.cols)[axis] - 2, lambda x, y: pick(x, y) <= self.sides[axis] - 2
        if kind in "&|" and self.tests < 4:
            self.tests += 1
            (one, first), (other, second) = self.test(), self.test()
            return (one & other, lambda x, y: first(x, y) & second(x, y)) if kind == "&" else (one | other, lambda x, y: first(x, y) | second(x, y))
        if kind == "~":
            return ~(number < variable), lambda x, y: ~(number < pick(x, y))
        return self.comparison(kind if kind not in "&|" else "<", Made(variable, pick), Made(number, lambda x, y: number))

    def comparison(self, mark: str, one: Made, other: Made) -> tuple[object, Callable[[np.ndarray, np.ndarray], np.ndarray]]:
        compare = {"<=": lambda a, b: a <= b, ">=": lambda a, b: a >= b, "==": lambda a, b: a == b, "<": lambda a, b: a < b, ">": lambda a, b: a > b,
                   "!=": lambda a, b: a != b}[mark]
        return compare(one.built, other.built), lambda x, y: compare(one.value(x, y), other.value(x, y))

    # expressions

    def expression(self, depth: int, stages: list[Stage]) -> Made:
        if depth == 0 or self.random.random() < 0.15:
            return self.leaf(stages)
        kind = self.random.choice(("sum", "sum", "binary", "binary", "binary", "number", "number", "unary", "clamp", "where", "table", "stencil", "extreme"))
        return getattr(self, f"make_{kind}")(depth - 1, stages)

    def leaf(self, stages: list[Stage]) -> Made:
        if self.random.random() < 0.7:
            return self.read(self.random.choice(stages))
        number, axis = self.number(), self.random.randint(0, 1)
        return self.random.choice((Made(tf.sum(number), lambda x, y: np.full(x.shape, number)), Made((self.x, self.y)[axis], lambda x, y: (x, y)[axis]),
                                   Made((self.rows, self.cols)[axis], lambda x, y: np.full(x.shape, self.sides[axis]))))

    def read(self, stage: Stage) -> Made:
        # (a scaled read of what is bounded leaves few points, so most are near the point itself)
        ways = [self.way() if self.random.random() < 0.3 else (1, self.random.randint(-2, 2), 1, 0) for _ in range(2)]
        first, second = (index(variable, way) for variable, way in zip((self.x, self.y), ways))
        return Made(stage.built[first, second], lambda x, y: stage.value(placed(x, ways[0]), placed(y, ways[1])), [(stage, *ways)])

    def way(self) -> Way:
        return self.random.randint(1, 3), self.random.randint(-3, 3), self.random.randint(1, 3), 0

    def make_sum(self, depth: int, stages: list[Stage]) -> Made:
        parts = [self.expression(max(depth - 1, 0), stages) for _ in range(self.random.randint(1, 5))]
        return Made(tf.sum(it.built for it in parts), lambda x, y: wrapped(sum(it.value(x, y) for it in parts)), reads(*parts))

    def make_extreme(self, depth: int, stages: list[Stage]) -> Made:
        parts = [self.expression(0, stages) for _ in range(self.random.randint(1, 5))]
        built, found = self.random.choice(((tf.maximum, np.maximum), (tf.minimum, np.minimum)))
        return Made(built(*(it.built for it in parts)), lambda x, y: found.reduce([it.value(x, y) for it in parts]), reads(*parts))

    def make_binary(self, depth: int, stages: list[Stage]) -> Made:
        one, other = (self.expression(depth, stages) for _ in range(2))
        join = self.random.choice((lambda a, b: a + b, lambda a, b: a - b, lambda a, b: a * b))
        return Made(join(one.built, other.built), lambda x, y: wrapped(join(one.value(x, y), other.value(x, y))), reads(one, other))

    def make_number(self, depth: int, stages: list[Stage]) -> Made:
        one, mark = self.expression(depth, stages), self.random.choice("/%<>")
        number = self.random.randint(0, 31) if mark in "<>" else self.random.choice((1, 2, 3, 16, 255, 2**31 - 1))
        apply = {"/": lambda a: a // number, "%": lambda a: a % number, "<": lambda a: a << number, ">": lambda a: a >> number}[mark]
        return Made(apply(one.built), lambda x, y: wrapped(apply(wrapped(one.value(x, y)))), one.reads)

    def make_unary(self, depth: int, stages: list[Stage]) -> Made:
        one, apply = self.expression(depth, stages), self.random.choice((lambda a: -a, abs))
        return Made(apply(one.built), lambda x, y: wrapped(apply(one.value(x, y))), one.reads)

    def make_clamp(self, depth: int, stages: list[Stage]) -> Made:
        parts = [self.expression(depth if at == 0 else 0, stages) for at in range(3)]

        def value(x: np.ndarray, y: np.ndarray) -> np.ndarray:
            found, least, most = (it.value(x, y) for it in parts)
            return np.minimum(np.maximum(found, least), most)

        return Made(tf.clamp(*(it.built for it in parts)), value, reads(*parts))

    def make_where(self, depth: int, stages: list[Stage]) -> Made:
        parts = [self.expression(0 if at < 4 else depth, stages) for at in range(6)]
        marks = [self.random.choice(("<=", ">=", "==", "<", ">", "!=")) for _ in range(2)]
        (one, first), (other, second) = (self.comparison(mark, *parts[at:at + 2]) for mark, at in zip(marks, (0, 2)))
        built, holds = self.random.choice(((one, first), (one & other, lambda x, y: first(x, y) & second(x, y)),
                                           (one | other, lambda x, y: first(x, y) | second(x, y)),
                                           (~(one | ~other), lambda x, y: ~(first(x, y) | ~second(x, y)))))
        used = parts if built is not one else [*parts[:2], *parts[4:]]
        first_value, second_value = parts[4:]
        return Made(tf.where(built, first_value.built, second_value.built),
                    lambda x, y: np.where(holds(x, y), first_value.value(x, y), second_value.value(x, y)), reads(*used))

    def make_table(self, depth: int, stages: list[Stage]) -> Made:
        (built, entry), at = self.table, self.expression(depth, stages)
        return Made(built[at.built], lambda x, y: entry(at.value(x, y)), at.reads)

    def make_stencil(self, depth: int, stages: list[Stage]) -> Made:
        stage, shape = self.random.choice(stages), [self.random.choice((1, 3)) for _ in range(2)]
        weights = np.array([[self.random.choice((-2, -1, 0, 1, 3)) for _ in range(shape[1])] for _ in range(shape[0])])
        divisor = self.random.choice((1, 2, 9))

        def value(x: np.ndarray, y: np.ndarray) -> np.ndarray:
            reach = [side // 2 for side in shape]
            every = ((weight, stage.value(x + row - reach[0], y + col - reach[1])) for (row, col), weight in np.ndenumerate(weights))
            return wrapped(sum(weight * it for weight, it in every)) // divisor

        return Made(tf.stencil(stage.built, weights, divisor), value, [(stage, (1, 0, 1, shape[0] // 2), (1, 0, 1, shape[1] // 2))])


def reads(*parts: Made) -> list[tuple[Stage, Way, Way]]:
    return [read for it in parts for read in it.reads]


def placed(points: np.ndarray, way: Way) -> np.ndarray:
    return (way[0] * points + way[1]) // way[2]


def index(variable: object, way: Way) -> object:
    return (way[0] * variable + way[1]) // way[2]


def inside(values: np.ndarray, x: np.ndarray, y: np.ndarray) -> np.ndarray:
    """The values of an array at points, all of which are inside."""
    assert x.min() >= 0 and y.min() >= 0
    return values.astype(np.int64)[x, y]


def padded(base: Stage, x: np.ndarray, y: np.ndarray, number: int) -> np.ndarray:
    """A stage's values inside its own domain, and a number elsewhere."""
    (top, bottom), (left, right) = base.own
    found = base.value(np.clip(x, top, bottom), np.clip(y, left, right))
    return np.where((x >= top) & (x <= bottom) & (y >= left) & (y <= right), found, number)


def index_map(kind: str, least: int, most: int) -> Callable[[np.ndarray], np.ndarray]:
    """From a point to the one of a domain that it has the value of, by numpy's pad. (Its wrap is wrong before 1.25 where it pads by more than a side.)"""
    points = np.arange(least, most + 1)
    if kind == "wrap":
        return lambda at: least + (at - least) % len(points)
    every = np.pad(points, AROUND, mode=PADS[kind]) if len(points) else points
    return lambda at: every[at - least + AROUND]
