"""A token that cannot stand where it is, with what is around it, and what is guessed of it."""
from typing import NamedTuple

from .tokens import Token

ITEMS = ("param", "image", "table", "func", "accum", "output")


class Guess(NamedTuple):
    """Where the fault is, as far as one can guess, and what to write."""

    start: int
    length: int
    cure: str


def at(token: Token, cure: str) -> Guess:
    return Guess(token.offset, len(token.text), cure)


class Around(NamedTuple):
    """A token that cannot stand where it is, the tokens before and behind it, and what could stand there."""

    data: bytes
    here: Token
    before: list[Token]
    behind: list[Token]
    wanted: tuple[str, ...]

    def last(self, number: int = 1) -> str:
        """The text of the last token before this one, or of one further back."""
        return self.before[-number].text if len(self.before) >= number else ""

    def next(self) -> bytes:
        """The byte behind this token and behind blanks, which need not begin a token."""
        return self.data[self.here.end :].lstrip()[:1]

    def item(self) -> str:
        """The word that begins the item of the token."""
        return next((it.text for it in reversed(self.before) if it.text in ITEMS), "")

    def call(self) -> tuple[Token | None, int]:
        """The name or the word before the parenthesis that is open here, and where in the tokens before that parenthesis stands."""
        depth = 0
        for number in range(len(self.before) - 1, 0, -1):
            depth += self.depth_of(number)
            if depth < 0:
                is_call = self.before[number].text == "(" and self.before[number - 1].kind in ("name", "word")
                return (self.before[number - 1] if is_call else None), number
        return None, 0

    def depth_of(self, number: int) -> int:
        """How many marks a token before closes, less how many it opens."""
        it = self.before[number]
        return (it.text in ")]}") - (it.text in "([{") if it.kind == "mark" else 0

    def caller(self) -> str:
        """The name or the word before the parenthesis that is open here."""
        return token.text if (token := self.call()[0]) else ""

    def declared(self) -> set[str]:
        """All names that are declared, and some that stand behind commas."""
        every = [*self.before, self.here, *self.behind]
        return {second.text for first, second in zip(every, every[1:]) if first.text in ITEMS or first.text == ","}

    def is_accumulator(self, name: str) -> bool:
        every = [*self.before, self.here, *self.behind]
        return ("accum", name) in {(first.text, second.text) for first, second in zip(every, every[1:])}
