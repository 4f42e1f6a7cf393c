"""The tiles of a job: which there are, and which points each has."""
import re
from typing import Iterator, NamedTuple

from .joining import Input
from .program import Program
from .rewriting import fresh, is_result, names_of, without
from .text import Refused
from .whole_numbers import whole_number

STAGE = re.compile(r"stage (\d+) (func|accum) (\S+) (-?\d+)\.\.(-?\d+) (-?\d+)\.\.(-?\d+) tiles \d+")
# the sides of a tile
USUAL_TILE, MOST_TILE = 64, 1024


class Span(NamedTuple):
    least: int
    most: int

    def count(self) -> int:
        return self.most - self.least + 1

    def parts(self, side: int) -> list["Span"]:
        return [Span(at, min(at + side - 1, self.most)) for at in range(self.least, self.most + 1, side)]


class Stage(NamedTuple):
    """A function or an accumulator: its number, its name, and its domain."""

    number: int
    kind: str
    name: str
    rows: Span
    cols: Span


class Tile(NamedTuple):
    stage: Stage
    row: int
    col: int
    rows: Span
    cols: Span

    def label(self) -> tuple[int, int, int]:
        return self.stage.number, self.row, self.col


class Maker:
    """One job, with the tiles that its result is made of."""

    def __init__(self, given: Input, program: Program, words: list[str]):
        self.given, self.program = given, program
        self.values = [it for it in words if "=" in it and not it.startswith("--")]
        self.sides = side_of("--rows", words), side_of("--cols", words)
        self.text = given.sections["program"].data
        self.plain, self.taken = without(self.text, program, is_result), names_of(program)

    def tiles_of(self, check: str, name: str | None = None) -> list[Tile]:
        """The tiles of a stage, or of all that the result is made of, in their order."""
        stages = {it.name: it for it in stages_of(check)}
        if name is not None and name not in stages:
            raise Refused(f"there is no function and no accumulator {name}: there are {', '.join(stages)}", 1)
        wanted = [stages[it] for it in ([name] if name else self.wanted())]
        return sorted((tile for stage in wanted for tile in self.tiles(stage)), key=Tile.label)

    def wanted(self) -> list[str]:
        """The stages that the result is made of: functions of the output, and accumulators."""
        names = [it.text for item in self.program.items if item.kind in ("output", "accum") for it in item.names]
        return list(dict.fromkeys(names))

    def tiles(self, stage: Stage) -> Iterator[Tile]:
        for row, rows in enumerate(stage.rows.parts(self.sides[0])):
            for col, cols in enumerate(stage.cols.parts(self.sides[1])):
                yield Tile(stage, row, col, rows, cols)

    def fresh(self, name: str) -> str:
        """A name that the program does not have."""
        return fresh(name, self.taken)


def stages_of(check: str) -> list[Stage]:
    """The functions and the accumulators of what `check` writes."""
    found = filter(None, map(STAGE.fullmatch, check.splitlines()))
    return [Stage(int(it[1]), it[2], it[3], Span(int(it[4]), int(it[5])), Span(int(it[6]), int(it[7]))) for it in found]


def side_of(option: str, words: list[str]) -> int:
    """The side of tiles that the words ask for."""
    return number_of(option, words, USUAL_TILE, 1, MOST_TILE)


def number_of(option: str, words: list[str], usual: int, least: int, most: int) -> int:
    """The number that the words give an option, of which the program has judged whether it is one, or the usual one."""
    for at, word in enumerate(words):
        if word.partition("=")[0] == option:
            found = whole_number(word.partition("=")[2] or "".join(words[at + 1 : at + 2]), least, most)
            return usual if found is None else found
    return usual
