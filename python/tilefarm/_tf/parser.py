"""From a program's text to its items.

The text is trusted to be a program: `tilefarm` judges it. Where it is none, `Unreadable` is raised and the caller does without.
"""
import functools
import re
from typing import Callable

from .program import Affine, Case, Interval, Item, Kernel, Node, Number, Program, Read, Span, Use
from .tokens import CALLS, Token, Unreadable, tokens
from .whole_numbers import whole_number

MOST = 2147483647
# a comment behind an item, in the same line
COMMENT = re.compile(rb"[ \t]*#([^\n]*)")


def program_of(data: bytes) -> Program:
    """The program that a text spells."""
    found = TermParser(tokens(data)).program()
    for item in found.items:
        comment = COMMENT.match(data, item.span.end)
        item.comment = comment[1].decode("latin-1").strip() if comment else ""
    return found


@functools.lru_cache(maxsize=16)
def known_program(data: bytes) -> Program | None:
    """The program that a text spells, if it spells one."""
    try:
        return program_of(data)
    except (Unreadable, RecursionError):
        return None


class TermParser:
    """A descent through the grammar of docs/FORMATS.md."""

    def __init__(self, given: list[Token]):
        self.tokens, self.at, self.item, self.case = given, 0, Item("", Span(0, 0)), Case(Span(0, 0))

    # what stands next

    def peek(self, ahead: int = 0) -> Token:
        return self.tokens[min(self.at + ahead, len(self.tokens) - 1)]

    def take(self, *texts: str) -> Token:
        """The next token, which is one of these where any are named."""
        it = self.peek()
        if it.kind == "end" or (texts and it.text not in texts):
            raise Unreadable(it, texts)
        self.at += 1
        return it

    def takes(self, *texts: str) -> Token | None:
        """The next token if it is one of these."""
        return self.take() if self.peek().kind in ("mark", "word") and self.peek().text in texts else None

    def name(self, wanted: tuple[str, ...] = ("a name",)) -> Token:
        if self.peek().kind != "name":
            raise Unreadable(self.peek(), wanted)
        return self.take()

    def number(self) -> tuple[int, Token]:
        it = self.peek()
        value = whole_number(it.text, 0, MOST) if it.kind == "number" else None
        if value is None:
            raise Unreadable(it, ("a number",))
        return value, self.take()

    def last_end(self) -> int:
        return self.tokens[self.at - 1].end

    def span_from(self, start: int) -> Span:
        return Span(start, self.last_end())

    def parted(self, part: Callable[[], object]) -> list:
        """Parts with commas between them."""
        found = [part()]
        while self.takes(","):
            found.append(part())
        return found

    # items

    def program(self) -> Program:
        items = []
        while self.peek().kind != "end":
            items.append(self.any_item())
        return Program(items)

    def any_item(self) -> Item:
        word = self.take("param", "image", "table", "func", "accum", "output")
        self.item = Item(word.text, Span(word.offset, word.end))
        getattr(self, f"{word.text}_item")()
        self.item.span = self.span_from(word.offset)
        return self.item

    def param_item(self) -> None:
        self.item.names = [self.name()]
        self.take(";")

    def image_item(self) -> None:
        self.item.names = self.one_or_three()
        self.take("(")
        self.item.extents = [self.affine()]
        self.take(",")
        self.item.extents.append(self.affine())
        self.take(")")
        self.take(";")

    def table_item(self) -> None:
        self.item.names = [self.name()]
        self.item.intervals.append(self.interval())
        self.take(";")

    def func_item(self) -> None:
        self.item.names = [self.name()]
        self.both_variables()
        self.take("{")
        while word := self.takes("case", "else"):
            self.one_case(word)
        self.take("}")

    def one_case(self, word: Token) -> None:
        self.case = Case(Span(word.offset, word.end))
        if word.text == "case":
            self.test()
            while self.takes("and"):
                self.test()
        self.take(":")
        self.case.value = self.expression()
        self.take(";")
        self.end_case(word.offset)

    def end_case(self, start: int) -> None:
        self.case.span = self.span_from(start)
        self.item.cases.append(self.case)

    def accum_item(self) -> None:
        self.item.names = [self.name()]
        self.item.intervals.append(self.interval())
        self.take("over")
        self.both_variables()
        word = self.take("sum", "min", "max")
        self.case = Case(Span(word.offset, word.end))
        self.case.value = self.expression()
        self.take("at")
        self.case.bin = self.expression()
        self.take(";")
        self.end_case(word.offset)

    def output_item(self) -> None:
        self.item.names = self.one_or_three()
        self.item.uses += [Use("function", it) for it in self.item.names]
        self.take("max")
        self.item.most = self.literal(1, 65535)
        self.take(";")

    def one_or_three(self) -> list[Token]:
        """A name, or three with commas between them."""
        found = [self.name()]
        while len(found) < 3 and self.peek().text == "," or len(found) == 2:
            self.take(",")
            found.append(self.name())
        return found

    def both_variables(self) -> None:
        self.take("(")
        self.variable()
        self.take(",")
        self.variable()
        self.take(")")

    def variable(self) -> None:
        self.item.variables.append(self.name())
        self.take("in")
        self.item.intervals.append(self.interval())

    # intervals and tests

    def interval(self) -> Interval:
        start = self.take("[").offset
        low = self.affine()
        self.take("..")
        high = self.affine()
        self.take("]")
        return Interval(low, high, self.span_from(start))

    def affine(self) -> Affine:
        start, sign = self.peek().offset, -1 if self.takes("-") else 1
        terms = [self.term(sign)]
        while it := self.takes("+", "-"):
            terms.append(self.term(1 if it.text == "+" else -1))
        return Affine(tuple(terms), self.span_from(start))

    def term(self, sign: int) -> tuple[int, str | None]:
        factor, wanted = 1, ("a number", "a parameter")
        if self.peek().kind == "number":
            factor, wanted = self.number()[0], ("a parameter",)
            if not self.takes("*"):
                return sign * factor, None
        name = self.name(wanted)
        self.item.uses.append(Use("param", name))
        return sign * factor, name.text

    def test(self) -> None:
        self.item.uses.append(Use("variable", self.name()))
        if not self.takes("%"):
            self.take("<=", ">=", "==")
            self.affine()
            return
        modulus = self.literal(1, MOST)
        self.take("==")
        self.literal(0, modulus.value - 1)

    # expressions

    def literal(self, least: int, most: int) -> Number:
        value, it = self.number()
        self.item.uses.append(Number(value, least, most, Span(it.offset, it.end)))
        return self.item.uses[-1]

    def expression(self) -> Node:
        start, found = self.peek().offset, self.product()
        while it := self.takes("+", "-"):
            parts = (found, self.product())
            found = Node(it.text, self.span_from(start), parts)
        return found

    def product(self) -> Node:
        start, found = self.peek().offset, self.unary()
        while it := self.takes("*", "/", "%", "<<", ">>"):
            if it.text == "*":
                parts = (found, self.unary())
                found = Node(it.text, self.span_from(start), parts)
            else:
                number = self.literal(*((0, 31) if it.text in ("<<", ">>") else (1, MOST)))
                found = Node(it.text, self.span_from(start), (found,), numbers=(number.value,))
        return found

    def unary(self) -> Node:
        start, negations = self.peek().offset, 0
        while self.takes("-"):
            negations += 1
        found = self.prime()
        for _ in range(negations):
            found = Node("negation", self.span_from(start), (found,))
        return found

    def prime(self) -> Node:
        it = self.peek()
        if it.kind == "number":
            value, _ = self.number()
            return Node("number", self.span_from(it.offset), numbers=(value,))
        if it.text == "(" or it.text in CALLS or it.text == "stencil" or it.kind == "name":
            return self.built(self.take())
        raise Unreadable(it, ("an expression",))

    def built(self, it: Token) -> Node:
        """What begins with a parenthesis, a word or a name."""
        if it.text == "(":
            found = self.expression()
            self.take(")")
            return found
        if it.text in CALLS:
            return self.call(it)
        return self.stencil(it) if it.text == "stencil" else self.named(it)

    def call(self, word: Token) -> Node:
        self.take("(")
        parts, comparison = [self.expression()], ""
        if word.text == "select":
            comparison = self.take("<=", ">=", "==").text
            parts.append(self.expression())
        for _ in range(CALLS[word.text]):
            self.take(",")
            parts.append(self.expression())
        self.take(")")
        return Node(word.text, self.span_from(word.offset), tuple(parts), comparison)

    def named(self, name: Token) -> Node:
        if self.takes("["):
            return self.entry(name)
        if self.takes("("):
            return self.read(name)
        self.item.uses.append(Use("value", name))
        return Node("name", self.span_from(name.offset), name=name.text)

    def entry(self, name: Token) -> Node:
        """The entry of a table, behind the bracket."""
        self.item.uses.append(Use("table", name))
        index = self.expression()
        self.take("]")
        return Node("entry", self.span_from(name.offset), (index,), name.text)

    def read(self, name: Token) -> Node:
        """A read of a stage, behind the parenthesis."""
        self.item.uses.append(Use("stage", name))
        first = self.index("row")
        self.take(",")
        second = self.index("column")
        self.take(")")
        self.case.reads.append(Read(name, self.span_from(name.offset), (first, second)))
        return Node("read", self.span_from(name.offset), name=name.text)

    def index(self, wants: str) -> Span:
        start = self.peek().offset
        grouped = self.takes("(")
        self.mono(wants)
        if self.takes("+", "-"):
            self.literal(0, 4096)
        if grouped:
            self.take(")")
            self.take("/")
            self.literal(1, 16)
        elif self.takes("/"):
            self.literal(1, 16)
        return self.span_from(start)

    def mono(self, wants: str) -> None:
        if self.peek().kind == "number":
            self.literal(1, 16)
            self.take("*")
        self.item.uses.append(Use(wants, self.name(("a variable",))))

    def stencil(self, word: Token) -> Node:
        self.take("(")
        name = self.name()
        self.item.uses.append(Use("stage", name))
        self.take(",")
        divisor = self.literal(1, MOST).value
        self.take(",")
        weights = self.kernel()
        self.take(")")
        self.case.reads.append(Read(name, self.span_from(word.offset), ()))
        return Node("stencil", self.span_from(word.offset), name=name.text, numbers=(divisor, *weights))

    def kernel(self) -> list[int]:
        """The weights, row by row."""
        start = self.take("[").offset
        rows = self.parted(self.kernel_row)
        self.take("]")
        self.item.uses.append(Kernel(tuple(map(len, rows)), self.span_from(start)))
        return [weight for row in rows for weight in row]

    def kernel_row(self) -> list[int]:
        self.take("[")
        weights = self.parted(self.weight)
        self.take("]")
        return weights

    def weight(self) -> int:
        sign = -1 if self.takes("-") else 1
        return sign * self.number()[0]
