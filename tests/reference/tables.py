"""Tables that are supplied before a picture: their lines, and a reader of these. Written from docs/FORMATS.md alone."""
import re
from dataclasses import dataclass
from typing import NamedTuple

from .netpbm import Reader
from .pictures import Picture
from .words import RESERVED

LINE = re.compile(rb"([A-Za-z][A-Za-z0-9_]{0,31}) (-?[0-9]+)\.\.(-?[0-9]+):((?: -?[0-9]+)*)")
FAR, MOST_ENTRIES = 16384, 4096


class Table(NamedTuple):
    """A name, the first index, and the entries, cut to 32 bits."""

    name: str
    lo: int
    values: tuple[int, ...]

    def entry(self, index: int) -> int:
        """The entry at an index, which is cut to the ends of the table."""
        return self.values[min(max(index - self.lo, 0), len(self.values) - 1)]

    def line(self) -> bytes:
        return f"{self.name} {self.lo}..{self.lo + len(self.values) - 1}: {' '.join(map(str, self.values))}\n".encode()


@dataclass
class BadLine(Exception):
    line: int


def table_of(line: bytes) -> Table | None:
    """The table that a line is, without its LF, if it is one."""
    found = LINE.fullmatch(line)
    if not found or found[1].decode() in RESERVED:
        return None
    lo, hi, values = int(found[2]), int(found[3]), [*map(int, found[4].split())]
    ends_fit = -FAR <= lo <= hi <= FAR and hi - lo + 1 == len(values) <= MOST_ENTRIES
    if not ends_fit or not all(-(2**63) <= it < 2**63 for it in values):
        return None
    return Table(found[1].decode(), lo, tuple(min(max(it, -(2**31)), 2**31 - 1) for it in values))


def declared(tokens: list[str]) -> list[str]:
    """The names of the tables, as they are declared."""
    return [name for word, name in zip(tokens, tokens[1:]) if word == "table"]


def tables_of(section: bytes, count: int) -> tuple[tuple[Table, ...], bytes]:
    """So many tables at the head of the last section, and what is behind them."""
    found = []
    for number in range(1, count + 1):
        line, end, section = section.partition(b"\n")
        table = table_of(line)
        if not end or table is None:
            raise BadLine(number)
        found.append(table)
    return tuple(found), section


def handed_in(section: bytes, tokens: list[str]) -> Picture:
    """The picture of the last section of a good input, with the tables before it."""
    tables, rest = tables_of(section, len(declared(tokens)))
    return Reader(rest).picture().with_tables(tables)
