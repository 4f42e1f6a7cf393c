"""The tokens of a program's text, with their offsets."""
import re
from typing import NamedTuple

from .text import shown

TOKEN = re.compile(rb"(?P<gap>[ \t\r\n]+|#[^\n]*)|(?P<name>[A-Za-z][A-Za-z0-9_]*)|(?P<number>[0-9]+)"
                   rb"|(?P<mark><<|>>|<=|>=|==|\.\.|[()\[\]{},;:+\-*/%])")
# the words of expressions that take parentheses, and how many expressions stand behind the first (of select behind the condition)
CALLS = {"min": 1, "max": 1, "abs": 0, "clamp": 2, "select": 2}
RESERVED = frozenset([*"param image func in case else accum over sum at output and stencil table".split(), *CALLS])


class Token(NamedTuple):
    """A name, a reserved word, a number, a mark, or the end of the text."""

    kind: str
    text: str
    offset: int

    @property
    def end(self) -> int:
        return self.offset + len(self.text)


class Unreadable(Exception):
    """The text is no program: the token that cannot stand there, and what could, as far as is known."""

    def __init__(self, token: Token, wanted: tuple[str, ...] = ()):
        super().__init__()
        self.token, self.wanted = token, wanted


def tokens(data: bytes) -> list[Token]:
    """The tokens of a text, and its end behind them."""
    found, at = [], 0
    while at < len(data):
        match = TOKEN.match(data, at)
        if not match:
            raise Unreadable(Token("none", shown(data[at : at + 1]), at))
        if match.lastgroup != "gap":
            found.append(token(match))
        at = match.end()
    return [*found, Token("end", "", len(data))]


def token(match: re.Match[bytes]) -> Token:
    text = match[0].decode()
    kind = "word" if text in RESERVED else str(match.lastgroup)
    return Token(kind, text, match.start())
