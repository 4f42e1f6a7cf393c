"""Where in the caller's own code something is built."""
from __future__ import annotations

import os
import sys
from typing import NamedTuple, NoReturn

import numpy

from ..errors import BuildError

PACKAGE = os.path.dirname(os.path.dirname(os.path.abspath(__file__)))
# the frames between the caller and the builder: this package's, and numpy's where one of its functions is called with an expression
BETWEEN = (f"{PACKAGE}{os.sep}", f"{os.path.dirname(os.path.abspath(numpy.__file__))}{os.sep}", "<__array_function__ internals>")


class Site(NamedTuple):
    """A line of the caller's code."""

    file: str
    line: int

    def __str__(self) -> str:
        return f"{os.path.basename(self.file)}:{self.line}"

    def refuse(self, why: str) -> NoReturn:
        raise BuildError(f"{self.file}:{self.line}: {why}")


def site() -> Site:
    """The line that called into this package, by numpy or not."""
    frame = sys._getframe(1)
    while frame.f_back and frame.f_code.co_filename.startswith(BETWEEN):
        frame = frame.f_back
    return Site(frame.f_code.co_filename, frame.f_lineno)
