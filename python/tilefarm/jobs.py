"""One job: a program's text with its values and tables, over a picture of known sides."""
from __future__ import annotations

import functools
import operator
from dataclasses import dataclass, field, replace
from typing import Any, Mapping

import numpy as np
import numpy.typing as npt

from ._tf import tables as table_lines
from ._tf.blame import Situation
from ._tf.joining import SEPARATOR, Input, Section
from ._tf.netpbm import MOST_SIDE, Header
from ._tf.parser import known_program
from ._tf.program import Affine
from ._tf.program import Program as Parsed
from ._tf.ranges import Ranges, ranges_of
from ._tf.settings import LEAST, MOST, settings, supplied, with_greatest
from ._tf.sides import sides_of_output
from ._tf.tables import Line
from ._tf.text import Refused as RefusedByTf
from ._tf.text import Text
from .errors import Fault, Refused, fault_of
from .pictures import Shape, head_of
from .processes import Ended

Tables = Mapping[str, npt.ArrayLike]
Params = Mapping[str, int]


@functools.lru_cache(maxsize=64)
def parsed(text: bytes) -> Parsed | None:
    """The program that a text spells, where it spells one."""
    return known_program(text)


@dataclass(frozen=True)
class Job:
    """A program over a picture of these sides. `places` says where stages were built, as `file:line`."""

    name: str
    text: bytes
    values: Params
    lines: tuple[Line, ...]
    shape: Shape
    planes: int
    most: int = 255
    places: Mapping[str, str] = field(default_factory=dict)

    def words(self) -> list[str]:
        """The values of parameters, as the command line takes them."""
        return [f"{name}={value}" for name, value in self.values.items()]

    def table_bytes(self) -> bytes:
        return b"".join(it.data + b"\n" for it in self.lines)

    def sections(self) -> list[bytes]:
        """What comes before the picture's samples."""
        return [self.text, SEPARATOR, self.table_bytes(), head_of(self.shape, self.planes, self.most)]

    @property
    def header(self) -> Header:
        return Header(True, self.planes, self.shape[1], self.shape[0], self.most, 0)

    def settings(self) -> dict[str, int]:
        """Each parameter that has a value, from the picture too."""
        program = parsed(self.text)
        return settings(program, dict(self.values), self.header) if program else dict(self.values)

    def with_supplied(self) -> "Job":
        """The job with what `tf` supplies: values that comments behind parameters ask for, and the greatest sample behind `max`."""
        program = parsed(self.text)
        if program is None:
            return self
        given = dict(self.values)
        text = with_greatest(self.text, program, given, self.header)
        return replace(self, text=text, values={**given, **supplied(program, given, self.header)})

    def is_large(self) -> bool:
        """Whether the picture or the result has sides that one run does not take."""
        program = parsed(self.text)
        result = sides_of_output(program, self.settings()) if program else (0, 0)
        return max(*self.shape, *result) > MOST_SIDE

    def situation(self) -> Situation:
        """What a fault's place and cure are found in."""
        head = head_of(self.shape, self.planes, self.most)
        sections = {"program": Section(Text(self.name, self.text), self.text), "picture": Section(Text("array", head), head)}
        return Situation(self.words(), Input(sections, b"", list(self.lines)))

    def ranges(self) -> Ranges:
        """The ranges of all stages, of a job that the program accepts."""
        return ranges_of(self.situation().input, dict(self.values))

    def fault(self, ended: Ended) -> Fault:
        """The fault of a run that failed."""
        return self.fault_of_line(ended.written.decode("utf-8", "replace").rstrip("\n"), ended.status)

    def fault_of_line(self, line: str, status: int) -> Fault:
        built_at = next((self.places[it] for it in line.split() if it in self.places), "")
        return fault_of(line, status, self.situation(), built_at)


def values_of(params: Params) -> dict[str, int]:
    """The values of parameters as numbers of Python. Raises Refused for one that is no whole number of 32 bits."""
    return {name: value_of(name, value) for name, value in params.items()}


def value_of(name: str, given: Any) -> int:
    try:
        value = operator.index(given)
    except TypeError:
        raise Refused(f"the parameter {name} is {given!r}, and a parameter is a whole number") from None
    if not LEAST <= value <= MOST:
        raise Refused(f"the parameter {name} is {value}, and a parameter is a number from {LEAST} to {MOST}")
    return value


def lines_of(text: bytes, tables: Tables, values: dict[str, int]) -> tuple[Line, ...]:
    """The lines of tables, in the order in which the program declares them. Raises Refused for a table that is missing, is not declared, or
    has anything but whole numbers."""
    program = parsed(text)
    if program is None:
        return ()
    firsts = {item.names[0].text: first_index(item.intervals[0].low, values) for item in program.tables()}
    given = [line_of(name, firsts.get(name, 0), entries) for name, entries in tables.items()]
    try:
        return tuple(table_lines.ordered(program, given))
    except RefusedByTf as error:
        raise Refused(str(error)) from error


def first_index(low: Affine, values: dict[str, int]) -> int:
    try:
        return low.value(values)
    except KeyError:
        return 0


def line_of(name: str, first: int, entries: npt.ArrayLike) -> Line:
    """The line of a table whose first index is `first`."""
    array = np.asarray(entries)
    if array.ndim != 1 or array.dtype.kind not in "iu" or not len(array):
        raise Refused(f"the table {name} is one row of whole numbers, and not {array.dtype} of the shape {array.shape}")
    numbers = " ".join(map(str, array.tolist()))
    data = f"{name} {first}..{first + len(array) - 1}: {numbers}".encode()
    return Line(name, data, Text(f"table {name}", data))
