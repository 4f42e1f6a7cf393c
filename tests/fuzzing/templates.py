"""What users write most: sums of products, quotients, clamps, choices, least and greatest numbers, each spelled at random.

A part is its tokens; what has an operator stands in parentheses where it is an operand.
"""
from random import Random
from typing import Callable

MARKS = ["<=", ">=", "=="]
# divisors, of which those from 129 on and those that are no powers of two are computed in ways of their own
DIVISORS = [2, 3, 4, 5, 7, 8, 9, 13, 16, 25, 64, 81, 100, 127, 128, 129, 159, 255, 256, 257, 1000, 65536]
FACTORS = [1, 1, 1, 2, 2, 3, 4, 5, 6, 7, 9, 16, 29, 77, 150, 256]
# ends of what fits a lane, and numbers beside them
ENDS = [0, 1, 24, 127, 128, 255, 256, 32767, 32768, 65535, 65536]


def number(value: int) -> list[str]:
    return ["-", str(-value)] if value < 0 else [str(value)]


def inner(tokens: list[str]) -> list[str]:
    """A part as an operand."""
    return tokens if len(tokens) == 1 else ["(", *tokens, ")"]


def call(word: str, *parts: list[str]) -> list[str]:
    return [word, "(", *parts[0], *(token for part in parts[1:] for token in (",", *part)), ")"]


class Templates:
    """Draws parts over reads, which it is given one by one, and over those of a rectangle around the point."""

    def __init__(self, random: Random, read: Callable[[], list[str]], window: Callable[[], list[list[str]]]):
        self.random, self.read, self.window = random, read, window

    def any(self) -> list[str]:
        kinds = [self.sum, self.mean, self.mean, self.bounded, self.choice, self.chain, self.middle, self.distance, self.shifted]
        return self.random.choice([*kinds, self.kernel, self.filter, self.step])()

    # sums

    def term(self, factor: int) -> list[str]:
        """A read times a factor above 0, in one of its spellings."""
        return self.times(factor, self.read())

    def times(self, factor: int, read: list[str]) -> list[str]:
        kinds = [["*", str(factor)], None] + [["<<", str(factor.bit_length() - 1)]] * (factor & (factor - 1) == 0)
        behind = self.random.choice(kinds)
        if factor == 1 and self.random.random() < 0.9:
            return read
        if factor == 2 and self.random.random() < 0.2:
            return [*read, "+", *read]
        return [*inner(read), *behind] if behind else [str(factor), "*", *inner(read)]

    def grouped(self, terms: list[tuple[int, list[str]]]) -> tuple[int, list[str]]:
        """The sum of terms with their signs, in any grouping, and its sign."""
        if len(terms) == 1:
            return terms[0]
        at = self.random.randint(1, len(terms) - 1)
        (sign, first), (other, second) = self.grouped(terms[:at]), self.grouped(terms[at:])
        if sign == other:
            return sign, [*first, "+", *inner(second)]
        return 1, [*first, "-", *inner(second)] if sign > 0 else [*second, "-", *inner(first)]

    def sum(self) -> list[str]:
        count = self.random.choice([2, 2, 3, 4, 5, 6, 8, 9])
        signs = self.random.choice([[1], [1, 1, -1], [1, -1]])
        terms = [(self.random.choice(signs), self.term(self.random.choice(FACTORS))) for _ in range(count)]
        if self.random.random() < 0.3:
            terms.append((1, number(self.random.choice(ENDS))))
        return self.shuffled(terms)

    def shuffled(self, terms: list[tuple[int, list[str]]]) -> list[str]:
        """The sum of terms with their signs, in any order and grouping."""
        self.random.shuffle(terms)
        sign, tokens = self.grouped(terms)
        return tokens if sign > 0 else ["-", *inner(tokens)]

    def mean(self) -> list[str]:
        return self.divided(self.sum())

    def divided(self, part: list[str]) -> list[str]:
        """A part that is divided, by any number or by a shift."""
        if self.random.random() < 0.5:
            return [*inner(part), "/", str(self.random.choice([*DIVISORS, self.random.randint(3, 257)]))]
        power = self.random.randint(0, 12)
        return [*inner(part), *self.random.choice([[">>", str(power)], ["/", str(1 << power)]])]

    def kernel(self) -> list[str]:
        """A sum of reads that fill a rectangle, or of all but one, with other terms or without, divided or not."""
        signs, reads = self.random.choice([[1], [1, 1, -1]]), self.window()
        if self.random.random() < 0.2:
            reads = reads[1:]
        terms = [(self.random.choice(signs), self.times(self.random.choice([*FACTORS, 1, 1]), it)) for it in reads or [self.read()]]
        if self.random.random() < 0.4:
            terms.append((self.random.choice(signs), self.random.choice([self.distance, self.read, lambda: number(self.random.choice(ENDS))])()))
        part = self.shuffled(terms)
        return self.divided(part) if self.random.random() < 0.6 else part

    def filter(self) -> list[str]:
        """What clamped differences from one read add to it."""
        middle, bound = self.read(), self.random.choice([1, 24, 255, 32767])
        terms = []
        for _ in range(self.random.randint(2, 6)):
            apart = [*inner(self.read()), "-", *inner(middle)]
            part = self.random.choice([call("clamp", apart, number(-bound), number(bound)), call("max", number(-bound), call("min", apart, number(bound)))])
            terms.append((1, self.times(self.random.choice([1, 1, 2, 4, 6]), part)))
        return self.shuffled([(1, middle), (1, inner(self.divided(self.shuffled([*terms, (1, number(self.random.choice(ENDS)))]))))])

    def step(self) -> list[str]:
        """A step of a division: a divisor that fits the lower bits of a rest is subtracted, and a digit is added."""
        rest, shift, bits = self.read(), self.random.randint(0, 8), self.random.randint(4, 20)
        if self.random.random() < 0.3:
            rest = ["16", "*", *self.random.choice([call("min", rest, ["65535"]), call("min", ["65535"], rest)])]
        divisor = self.times(1 << shift, self.read())
        less = self.shuffled([(1, inner(rest)), (-1, inner(divisor)), (1, [str(1 << (bits + self.random.randint(0, 4)))])])
        test = [*inner(divisor), "<=", *inner(rest), "%", str(1 << bits)]
        if self.random.random() < 0.3:
            test = [*inner(rest), "%", str(1 << bits), ">=", *inner(divisor)]
        return call("select", test, less, rest)

    def shifted(self) -> list[str]:
        mark, most = self.random.choice([("<<", 31), (">>", 31), ("<<", 8), (">>", 8), ("%", 300)])
        return [*inner(self.simple()), mark, str(self.random.randint(1, most))]

    # least and greatest numbers

    def bounded(self) -> list[str]:
        """A clamp, in one of its spellings."""
        part = self.random.choice([self.sum, self.mean, self.distance])()
        low, high = map(number, sorted(self.random.sample([-1, *ENDS, -24, -128], 2)))
        if self.random.random() < 0.2:
            high = self.read()
        kinds = [call("clamp", part, low, high), call("min", call("max", part, low), high), call("max", call("min", part, high), low),
                 call("min", high, call("max", low, part))]
        return self.random.choice(kinds)

    def chain(self) -> list[str]:
        """The least or the greatest of several, in any grouping."""
        return self.grouped_by(self.random.choice(["min", "max"]), [self.simple() for _ in range(self.random.randint(2, 5))])

    def grouped_by(self, word: str, parts: list[list[str]]) -> list[str]:
        if len(parts) == 1:
            return parts[0]
        at = self.random.randint(1, len(parts) - 1)
        return call(word, self.grouped_by(word, parts[:at]), self.grouped_by(word, parts[at:]))

    def middle(self) -> list[str]:
        """The middle of three, in one of its spellings."""
        a, b, c = (self.read() for _ in range(3))
        if self.random.random() < 0.5:
            return call("max", call("min", a, b), call("min", call("max", b, a), c))
        return call("min", call("max", a, b), call("max", call("min", a, b), c))

    # choices

    def distance(self) -> list[str]:
        """How far two reads are from each other, in one of its spellings."""
        a, b = self.read(), self.read()
        return self.random.choice([call("abs", [*inner(a), "-", *inner(b)]), call("max", [*inner(a), "-", *inner(b)], [*inner(b), "-", *inner(a)])])

    def simple(self) -> list[str]:
        """A read, a number, a difference or a product."""
        kind = self.random.randrange(6)
        if kind == 0:
            return number(self.random.choice([1, -1]) * self.random.choice(ENDS))
        if kind == 1:
            return self.distance()
        return self.read() if kind < 4 else self.random.choice([self.sum, lambda: [*inner(self.read()), "*", *inner(self.read())]])()

    def choice(self) -> list[str]:
        first, second, yes, no = (self.simple() for _ in range(4))
        return call("select", [*first, self.random.choice(MARKS), *second], yes, no)
