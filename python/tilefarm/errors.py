"""What the package raises: each error says what is wrong, where, and what cures it."""
from __future__ import annotations

import html
import re
from typing import Iterable, NamedTuple

from ._tf import faults
from ._tf.blame import Blame, Situation
from ._tf.text import Place as TextPlace

LINE = re.compile(r"(\w+):(?: \d+)? (\w+)")
# what a process ends with, by the kind of the fault (docs/COMMANDS.md)
MEMORY = 5


class TilefarmError(Exception):
    """The base of all errors of this package."""

    def _repr_html_(self) -> str:
        return f"<pre>{html.escape(str(self))}</pre>"


class Refused(TilefarmError, ValueError):
    """An argument that cannot be taken: an array of floats, a shape without rows, a table that the program does not declare."""


class NoProgram(TilefarmError):
    """There is no program `tilefarm` to run, or it does not start."""


class BuildError(TilefarmError, ValueError):
    """What is built is outside the language. The message begins with the caller's file and line."""


class Place(NamedTuple):
    """A place that a fault blames. Lines and columns count from 1; `text` is the line."""

    file: str
    line: int
    column: int
    length: int
    text: str


class Fault(TilefarmError):
    """The program was refused, or it failed: shown as `tf` shows it, with its place and its cure.

    `line` is the fault line, `kind` its first word, `name` the fault's name, as in docs/ERRORS.md. `places` are those that it blames, `cure` says what
    to do, and `status` is the exit status of the program. `built_at` says where a stage of the builder was made, as `file:line`.
    """

    def __init__(self, line: str, status: int, blame: Blame, built_at: str = ""):
        self.line, self.status, self.cure, self.built_at = line, status, blame.cure, built_at
        found = LINE.match(line)
        self.kind, self.name = (found[1], found[2]) if found else (line.partition(":")[0], line)
        self.places = [place_of(it) for it in blame.places if isinstance(it, TextPlace)]
        super().__init__("\n".join([line, *lines_of(blame), *([f"It was built at {built_at}."] if built_at else [])]))


def lines_of(blame: Blame) -> Iterable[str]:
    return [it for it in blame.lines() if it]


def place_of(it: TextPlace) -> Place:
    file, line, column = it.spot().rsplit(":", 2)
    return Place(file, int(line), int(column), it.length, it.line())


def fault_of(line: str, status: int, situation: Situation, built_at: str = "") -> Fault:
    """The fault of a line that the program wrote, with what it blames."""
    blame = Blame([], f"The program ended with status {status}.") if not line else Blame([], "")
    for pattern, blames in faults.TABLE.items():
        found = re.fullmatch(pattern, line, re.S)
        if found:
            blame = blames(found, situation)
            break
    return Fault(line or f"ended: status {status}", status, blame, built_at)
