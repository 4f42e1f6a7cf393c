"""Texts of programs that `check` accepts: their tokens, their canonical spelling, and the values of their parameters over a picture.

Written from docs/FORMATS.md and docs/LANGUAGE.md alone.
"""
import hashlib
import re
import struct

from .pictures import Picture
from .values import Point
from .words import CALLS

TOKEN = re.compile(r"\s+|#[^\n]*|([A-Za-z][A-Za-z0-9_]*|[0-9]+|\.\.|<<|>>|<=|>=|==|[][(){},;:+*/%-])")
# how tightly an expression holds together
SUM, PRODUCT, TIGHT = range(3)


def tokens_of(text: bytes) -> list[str]:
    """The tokens of a text."""
    return [it[1] for it in TOKEN.finditer(text.decode("ascii")) if it[1]]


def parameters(tokens: list[str]) -> list[str]:
    """The names of the parameters, as they are declared."""
    return [name for word, name in zip(tokens, tokens[1:]) if word == "param"]


def extents(tokens: list[str]) -> list[list[str]]:
    """The tokens of the picture's height and of its width."""
    start = tokens.index("(", tokens.index("image")) + 1
    mid = tokens.index(",", start)
    return [tokens[start:mid], tokens[mid + 1 : tokens.index(")", mid)]]


def settings(tokens: list[str], given: dict[str, int], picture: Picture) -> dict[str, int]:
    """The values of the parameters: those given, and of the others those of a side that is exactly this one, of rows before columns."""
    sides = {}
    for extent, side in zip(extents(tokens), (picture.rows, picture.cols)):
        spelled = Spelling(extent).affine()
        sides.setdefault(spelled[0] if len(spelled) == 1 else "", side)
    found = {name: given.get(name, sides.get(name)) for name in parameters(tokens)}
    assert None not in found.values(), f"a parameter has no value: {found}"
    return found


class Spelling:
    """Spells the tokens of a program anew, in the one canonical way."""

    def __init__(self, tokens: list[str]):
        self.tokens, self.at = [*tokens, ""], 0

    def take(self) -> str:
        token = self.tokens[self.at]
        self.at += 1
        return str(int(token)) if token.isdigit() else token

    def takes(self, *some: str) -> bool:
        if self.tokens[self.at] not in some:
            return False
        self.at += 1
        return True

    def marked(self, *some: str) -> list[str]:
        """The next token, if it is one of these."""
        return [self.take()] if self.tokens[self.at] in some else []

    def until(self, *ends: str) -> list[str]:
        """The tokens up to one of these, and this."""
        found = [self.take()]
        while found[-1] not in ends:
            found.append(self.take())
        return found

    # ---- items

    def program(self) -> list[str]:
        found = []
        while self.tokens[self.at]:
            word = self.take()
            found += [word, *getattr(self, word)()]
        return found

    def param(self) -> list[str]:
        return self.until(";")

    output = param

    def image(self) -> list[str]:
        return [*self.until("("), *self.affine(), self.take(), *self.affine(), self.take(), self.take()]

    def table(self) -> list[str]:
        return [self.take(), *self.span(), self.take()]

    def func(self) -> list[str]:
        found = [self.take(), *self.variables(), self.take()]
        while word := self.marked("case", "else"):
            found += word + (self.condition() if word == ["case"] else []) + [self.take(), *self.expression()[1], self.take()]
        return [*found, self.take()]

    def accum(self) -> list[str]:
        head = [self.take(), *self.span(), self.take(), *self.variables(), self.take()]
        return [*head, *self.expression()[1], self.take(), *self.expression()[1], self.take()]

    def variables(self) -> list[str]:
        one = [self.take(), self.take(), self.take(), *self.span()]
        return [*one, self.take(), self.take(), self.take(), *self.span(), self.take()]

    def span(self) -> list[str]:
        return [self.take(), *self.affine(), self.take(), *self.affine(), self.take()]

    def affine(self) -> list[str]:
        found = [*self.marked("-"), *self.term()]
        while mark := self.marked("+", "-"):
            found += mark + self.term()
        return found

    def term(self) -> list[str]:
        word = self.take()
        if not self.takes("*"):
            return [word]
        return [self.take()] if word == "1" else [word, "*", self.take()]

    def condition(self) -> list[str]:
        found = self.test()
        while mark := self.marked("and"):
            found += mark + self.test()
        return found

    def test(self) -> list[str]:
        name, mark = self.take(), self.take()
        return [name, mark, *([self.take(), self.take(), self.take()] if mark == "%" else self.affine())]

    # ---- expressions, each with how tightly it holds together

    def expression(self) -> tuple[int, list[str]]:
        level, found = self.product()
        while mark := self.marked("+", "-"):
            level, found = SUM, found + mark + grouped(self.product(), PRODUCT)
        return level, found

    def product(self) -> tuple[int, list[str]]:
        level, found = self.unary()
        while mark := self.marked("*", "/", "%", "<<", ">>"):
            right = grouped(self.unary(), TIGHT) if mark == ["*"] else [self.take()]
            level, found = PRODUCT, grouped((level, found), PRODUCT) + mark + right
        return level, found

    def unary(self) -> tuple[int, list[str]]:
        if mark := self.marked("-"):
            return TIGHT, mark + grouped(self.unary(), TIGHT)
        return self.prime()

    def prime(self) -> tuple[int, list[str]]:
        word = self.take()
        if word == "(":
            found = self.expression()
            self.take()
            return found
        if word == "stencil":
            return TIGHT, [word, *self.kernel()]
        if bracket := self.marked("["):
            return TIGHT, [word, *bracket, *self.expression()[1], self.take()]
        if not (opening := self.marked("(")):
            return TIGHT, [word]
        if word not in (*CALLS, "select"):
            return TIGHT, [word, *opening, *self.index(), self.take(), *self.index(), self.take()]
        found = [word, *opening]
        while found[-1] != ")":
            found += [*self.expression()[1], self.take()]
        return TIGHT, found

    def kernel(self) -> list[str]:
        found = [self.take(), self.take(), self.take(), self.take(), self.take()]
        while found[-2:] != ["]", ")"]:
            is_negative = self.takes("-")
            token = self.take()
            found += ["-", token] if is_negative and token != "0" else [token]
        return found

    def index(self) -> list[str]:
        is_grouped, mul, add, div = self.takes("("), "1", [], "1"
        word = self.take()
        if word.isdigit():
            self.take()
            mul, word = word, self.take()
        if add := self.marked("+", "-"):
            add.append(self.take())
        if is_grouped:
            self.take()
        if self.takes("/"):
            div = self.take()
        body = ([] if mul == "1" else [mul, "*"]) + [word] + ([] if add[1:] == ["0"] else add)
        if div == "1":
            return body
        return [*(["(", *body, ")"] if add[1:] not in ([], ["0"]) else body), "/", div]


def grouped(expression: tuple[int, list[str]], wanted: int) -> list[str]:
    """An expression in parentheses, where it does not hold together as tightly as is wanted."""
    level, tokens = expression
    return tokens if level >= wanted else ["(", *tokens, ")"]


def canonical(tokens: list[str]) -> bytes:
    """The canonical text of a program."""
    found, text = Spelling(tokens).program(), ""
    for before, token in zip(["", *found], found):
        text += (" " if before[:1].isalnum() and token[0].isalnum() else "") + token
    return text.encode()


def identities(tokens: list[str], known: dict[str, int], picture: Picture, sides: Point) -> tuple[bytes, bytes]:
    """Those of the program, and of all that it is given."""
    names = parameters(tokens)
    values = b"".join(bytes([len(it)]) + it.encode() + struct.pack(">i", known[it]) for it in names)
    front = struct.pack(">IIH", *sides, len(names)) + values
    given = b"PTI2" + front + tables_bytes(picture) if picture.tables else b"PTI1" + front
    return hashlib.sha256(canonical(tokens)).digest(), hashlib.sha256(given + picture.raw()).digest()


def tables_bytes(picture: Picture) -> bytes:
    """How many tables there are, and each with its name, its first index and its entries."""
    found = struct.pack(">H", len(picture.tables))
    for it in picture.tables:
        found += bytes([len(it.name)]) + it.name.encode() + struct.pack(f">iH{len(it.values)}i", it.lo, len(it.values), *it.values)
    return found
