"""Makes tables: gamma and tone curves, a table from a CSV file, and the running sums of a totals line."""
import csv
import io
import re
from typing import Callable, Iterable

from .joining import read_file
from .tables import MOST_ENTRIES, WIDE, fault_of
from .text import Refused
from .whole_numbers import whole_number

SPAN = re.compile(r"(-?\d+)\.\.(-?\d+)")
POINT = re.compile(r"(-?\d+),(-?\d+)")
TOTALS = re.compile(r"(\w+) (-?\d+)\.\.(-?\d+):((?: -?\d+)+)")
LEAST, MOST, MOST_ENTRY = -(2**31), 2**31 - 1, 10**10 - 1


def line_of(name: str, low: int, values: list[int]) -> str:
    """A table's line. The program judges its form, and so does this."""
    line = f"{name} {low}..{low + len(values) - 1}: {' '.join(map(str, values))}"
    fault = fault_of(line.encode())
    if fault:
        raise Refused(f"this makes no table: {fault.why}", 1)
    return line + "\n"


def rounded(value: float) -> int:
    """The nearest whole number, the greater one in the middle, within 32 bits."""
    return max(LEAST, min(MOST, int((value + 0.5) // 1)))


def span_of(text: str) -> tuple[int, int]:
    found = SPAN.fullmatch(text)
    low, high = (whole_number(it, -WIDE, WIDE) for it in found.groups()) if found else (None, None)
    if low is None or high is None or not 0 <= high - low < MOST_ENTRIES:
        raise Refused(f"{text}: a table's ends are LO..HI within {WIDE:,} of 0, with at most {MOST_ENTRIES:,} entries, as 0..255", 1)
    return low, high


def gamma(name: str, words: list[str], to: int | None) -> str:
    """`LO..HI G`: from 0 to the greatest, brighter where G is above 1: the power 1/G of the share of the way from LO to HI."""
    low, high = span_of(words[0])
    power, most = positive(words[1]), high if to is None else to
    share = lambda v: (v - low) / (high - low) if high > low else 1.0
    least = low if to is None else 0
    return line_of(name, low, [rounded(least + (most - least) * share(v) ** (1 / power)) for v in range(low, high + 1)])


def positive(text: str) -> float:
    try:
        value = float(text)
    except ValueError:
        value = 0.0
    if not 0 < value < 1000:
        raise Refused(f"{text}: a gamma is a number above 0, as 2.2", 1)
    return value


def points(name: str, words: list[str], to: int | None) -> str:
    """`X,Y X,Y ..`: straight lines between points, from the first X to the last."""
    known = [*map(point_of, words)]
    if any(one[0] >= other[0] for one, other in zip(known, known[1:])):
        raise Refused("the first numbers of the points rise, as 0,0 64,90 255,255", 1)
    low, high = span_of(f"{known[0][0]}..{known[-1][0]}")
    return line_of(name, low, [rounded(between(known, v)) for v in range(low, high + 1)])


def point_of(word: str) -> tuple[int, int]:
    found = POINT.fullmatch(word)
    x, y = (whole_number(it, LEAST, MOST) for it in found.groups()) if found else (None, None)
    if x is None or y is None:
        raise Refused(f"{word}: a point is X,Y, two whole numbers of 32 bits, as 64,90", 1)
    return x, y


def between(known: list[tuple[int, int]], v: int) -> float:
    """The height of the lines between points at v."""
    after = next(number for number, (x, _) in enumerate(known) if v <= x)
    (x0, y0), (x1, y1) = known[max(after - 1, 0)], known[after]
    return y1 if x0 == x1 else y0 + (y1 - y0) * (v - x0) / (x1 - x0)


def from_csv(name: str, words: list[str], to: int | None) -> str:
    """`FILE`: a value a row, from 0 on; or an index and its value a row, the indices rising by one."""
    rows = rows_of(words[0])
    if rows and not is_whole(rows[0][0]):
        rows = rows[1:]
    if not rows or len({len(it) for it in rows}) != 1 or len(rows[0]) > 2 or not all(is_whole(it) for row in rows for it in row):
        raise Refused(f"{words[0]}: rows of one whole number, or of an index and a number, are wanted", 2)
    values = [number_of(row[-1]) for row in rows]
    indices = [number_of(row[0]) for row in rows] if len(rows[0]) == 2 else list(range(len(rows)))
    lost = next((it for it, other in zip(indices, indices[1:]) if other != it + 1), None)
    if lost is not None:
        raise Refused(f"{words[0]}: behind the index {lost} stands not {lost + 1}: indices rise by one", 2)
    return line_of(name, indices[0], values)


def rows_of(path: str) -> list[list[str]]:
    """The rows of a CSV file that are not empty."""
    try:
        return [row for row in csv.reader(io.StringIO(text_of(path))) if any(it.strip() for it in row)]
    except csv.Error as error:
        raise Refused(f"{path}: this is no CSV file: {error}") from error


def is_whole(text: str) -> bool:
    return number_of(text) is not None


def number_of(text: str) -> int | None:
    """A number of 64 bits, with blanks about it, if the text is one."""
    return whole_number(text.strip(), -(2**63), 2**63 - 1)


def sums(name: str, words: list[str], to: int | None) -> str:
    """`FILE`: the running sums of a totals line, as `eval` writes it; with --to M scaled so that the last is M."""
    found = [it for it in map(TOTALS.fullmatch, text_of(words[0]).splitlines()) if it]
    if len(words) > 1:
        found = [it for it in found if it[1] == words[1]]
    if len(found) != 1:
        what = "no totals line" if not found else "several totals lines: name one behind the file"
        raise Refused(f"{words[0]}: {what} (NAME LO..HI: V V V, as eval writes for an accumulator)", 2)
    totals = [*map(number_of, found[0][4].split())]
    if None in totals:
        raise Refused(f"{words[0]}: a total is a number of 64 bits", 2)
    running = [*accumulated(totals)]
    if to is not None and running[-1] <= 0:
        raise Refused(f"{words[0]}: the totals sum up to {running[-1]}, and cannot be scaled", 2)
    values = running if to is None else [(2 * to * it + running[-1]) // (2 * running[-1]) for it in running]
    return line_of(name, span_of(f"{found[0][2]}..{found[0][3]}")[0], values)


def accumulated(values: Iterable[int]) -> Iterable[int]:
    total = 0
    for it in values:
        total += it
        yield total


def text_of(path: str) -> str:
    return read_file(path).decode("utf-8", "replace")


# Each kind with what makes it, how many words it takes at least and at most, and how these are called.
KINDS: dict[str, tuple[Callable[[str, list[str], int | None], str], int, int, str]] = {
    "gamma": (gamma, 2, 2, "LO..HI G"),
    "points": (points, 1, 4096, "X,Y X,Y ..."),
    "csv": (from_csv, 1, 1, "FILE"),
    "sums": (sums, 1, 2, "FILE [ACCUMULATOR]"),
}


def made(words: list[str], to: str | None) -> str:
    """The line that the words ask for: a kind, the table's name, and what the kind takes."""
    kinds = ", ".join(f"tf table {kind} NAME {takes}" for kind, (_, _, _, takes) in KINDS.items())
    if len(words) < 2 or words[0] not in KINDS:
        raise Refused(f"tf table takes a kind, a name and what that kind takes: {kinds}", 1)
    make, least, most, takes = KINDS[words[0]]
    if not least <= len(words) - 2 <= most:
        raise Refused(f"tf table {words[0]} NAME takes {takes}", 1)
    most = whole_number(to or "", 0, MOST_ENTRY)
    if to is not None and most is None:
        raise Refused("--to takes the greatest entry, a whole number", 1)
    return make(words[1], words[2:], most)
