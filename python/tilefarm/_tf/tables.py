"""Tables that are handed in: lines `NAME LO..HI: V V V` in files of the user's, and where such a line leaves its form."""
import re
from typing import NamedTuple

from .program import Program
from .text import Place, Refused, Text
from .tokens import RESERVED
from .whole_numbers import whole_number

WIDE, MOST_ENTRIES, LONGEST_NAME = 16384, 4096, 32
NAME, NUMBER = rb"[A-Za-z][A-Za-z0-9_]*", rb"-?[0-9]+"
FORM = "a table is one line NAME LO..HI: V V V, with one blank before each number and nothing else"


class Line(NamedTuple):
    """A table's line, without its LF, and where it begins in a file."""

    name: str
    data: bytes
    text: Text

    def place(self, at: int) -> Place:
        return self.text.place(at)


class Fault(NamedTuple):
    """Where a line leaves its form, and what is wrong there."""

    at: int
    why: str


def lines_of(name: str, data: bytes) -> list[Line]:
    """The lines of a file that are not empty. What stands before the first blank is a line's name."""
    found, at = [], 0
    for line in data.split(b"\n"):
        if line.strip():
            found.append(Line(line.split(b" ")[0].decode("ascii", "replace"), line, Text(name, line, at, data)))
        at += len(line) + 1
    return found


class Reader:
    """Goes along a line from the left."""

    def __init__(self, line: bytes):
        self.line, self.at = line, 0

    def take(self, mark: bytes, why: str) -> None:
        if not self.line.startswith(mark, self.at):
            raise Broken(Fault(self.at, why))
        self.at += len(mark)

    def match(self, form: bytes, why: str) -> tuple[bytes, int]:
        """What stands next, and where it begins."""
        found, at = re.compile(form).match(self.line, self.at), self.at
        if not found:
            raise Broken(Fault(at, why))
        self.at = found.end()
        return found[0], at

    def number(self, why: str, least: int, most: int) -> int:
        digits, at = self.match(NUMBER, why)
        value = whole_number(digits, least, most)
        if value is None:
            raise Broken(Fault(at, why))
        return value


class Broken(Exception):
    def __init__(self, fault: Fault):
        super().__init__()
        self.fault = fault


def fault_of(line: bytes) -> Fault | None:
    """Where a line leaves the form of a table first, if it does."""
    try:
        read(Reader(line))
    except Broken as broken:
        return broken.fault
    return None


def read(reader: Reader) -> None:
    """Reads a whole line, up to the first fault."""
    name, at = reader.match(NAME, "a table's line begins with its name")
    if len(name) > LONGEST_NAME or name.decode() in RESERVED:
        raise Broken(Fault(at, f"{name.decode()} is no name: names have at most 32 letters, digits and _, and are no words of the language"))
    reader.take(b" ", "one blank stands behind the name")
    low = reader.number(f"the first index stands here, within {WIDE:,} of 0", -WIDE, WIDE)
    reader.take(b"..", "two dots stand between the ends, without a blank")
    high_at = reader.at
    high = reader.number(f"the last index stands here, within {WIDE:,} of 0", -WIDE, WIDE)
    if not low <= high < low + MOST_ENTRIES:
        raise Broken(Fault(high_at, f"the last index is at least the first, and a table has at most {MOST_ENTRIES:,} entries"))
    reader.take(b":", "a colon stands directly behind the last index")
    count = high - low + 1
    for number in range(count):
        why = f"{number} of {count} entries stand here: one blank and a number of at most 64 bits is wanted"
        reader.take(b" ", why)
        reader.number(why, -(2**63), 2**63 - 1)
    if reader.at < len(reader.line):
        raise Broken(Fault(reader.at, f"{count} entries are wanted, and nothing behind them"))


def ordered(program: Program, given: list[Line]) -> list[Line]:
    """The lines in the order in which the program declares its tables. A missing, further or repeated line is refused."""
    declared, by_name = [it.names[0].text for it in program.tables()], {}
    for line in given:
        if line.name in by_name:
            drawing = "\n".join([*by_name[line.name].place(0).drawing(), *line.place(0).drawing()])
            raise Refused(f"the table {line.name} is handed in twice: take one out\n{drawing}")
        by_name[line.name] = line
    for name, line in by_name.items():
        if name not in declared:
            has = f"it declares {', '.join(declared)}" if declared else "it declares none"
            raise Refused(f"the program declares no table {name}: {has}\n" + "\n".join(line.place(0).drawing()))
    lost = [it for it in declared if it not in by_name]
    if lost:
        raise Refused(f"the numbers of the table {lost[0]} are handed in: give a file with its line, as --table {lost[0]}.table\n"
                      f"({FORM}; tf table makes some)")
    return [by_name[it] for it in declared]
