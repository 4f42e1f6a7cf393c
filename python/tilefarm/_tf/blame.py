"""What a fault line blames: places in the user's own files, and a sentence that says what to do."""
from dataclasses import dataclass, field
from functools import cached_property
from typing import NamedTuple

from .joining import Input
from .parser import known_program
from .program import Program
from .settings import given_values, settings
from .text import Place, Text


class Blame(NamedTuple):
    """Places, each drawn with its line, and the cure."""

    places: list[Place | str]
    cure: str

    def lines(self) -> list[str]:
        """The places, and then the sentence. A place that no line shows is a text."""
        drawn = [line for it in self.places for line in ([it] if isinstance(it, str) else it.drawing())]
        return [*drawn, self.cure]


@dataclass
class Situation:
    """What the program was given: its words, and its input."""

    words: list[str]
    input: Input
    line: str = ""
    command_line: list[str] = field(default_factory=list)

    def text(self, kind: str = "program") -> Text:
        """The user's text of a section."""
        section = self.input.section(kind)
        return section.text if section else Text("nothing", b"")

    @cached_property
    def program(self) -> Program:
        """The program, or one without items where the text is none."""
        return known_program(self.text().data) or Program([])

    @cached_property
    def settings(self) -> dict[str, int]:
        """The parameters that have values."""
        return settings(self.program, given_values(self.words), self.input.header())

    def word(self, text: str) -> Place:
        """A word of the command line: the last that is this one."""
        words = self.command_line or self.words
        line = " ".join(words)
        at = len(words) - 1 - words[::-1].index(text) if text in words else 0
        return Text("command line", encoded(line)).place(len(encoded(" ".join(words[:at]))) + (at > 0), len(encoded(text)))


def encoded(words: str) -> bytes:
    """Words of the command line as the system gave them."""
    return words.encode("utf-8", "surrogateescape")


def listed(parts: list[str], word: str = "and") -> str:
    """`a`, `a and b`, `a, b and c`."""
    return f" {word} ".join(filter(None, (", ".join(parts[:-1]), *parts[-1:])))
