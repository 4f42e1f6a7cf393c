"""The answer of a job out of the facts of its tiles: the picture and the totals, as `eval` writes them. Of each fact its samples are held
alone, in the picture's own bytes."""
import sys
from array import array
from typing import Iterable, NamedTuple

from .facts import HEAD, Ids, Record
from .making import Maker, Tile
from .netpbm import Picture, bytes_of
from .settings import given_values, settings
from .text import Refused

HALF = 2**63
JOINED = {"sum": lambda first, second: (first + second + HALF) % (2 * HALF) - HALF, "min": min, "max": max}
Label = tuple[int, int, int]


class Lack(NamedTuple):
    """A tile that cannot be taken, and why."""

    tile: Tile
    why: str

    def words(self) -> str:
        it = self.tile
        return f"tile {it.stage.name} {it.row} {it.col} (rows {it.rows.least} to {it.rows.most}, columns {it.cols.least} to {it.cols.most}) is {self.why}"


class Answer:
    """The answer of one job."""

    def __init__(self, maker: Maker, check: str):
        self.maker, self.wanted = maker, maker.tiles_of(check)
        self.tiles = {it.label(): it for it in self.wanted}
        self.settings = settings(maker.program, given_values(maker.values), maker.given.header())
        self.program, self.input = ids_of(check)
        # how many facts each tile has
        self.held: dict[Label, int] = {}
        self.wrong: dict[Label, str] = {}
        self.picture = self.empty_picture()
        self.totals: dict[str, list[int]] = {}

    def empty_picture(self) -> Picture | None:
        """The picture of the output, whose samples are to come."""
        output = self.maker.program.output()
        if output is None:
            return None
        stage, most = next(it.stage for it in self.wanted if it.stage.name == output.names[0].text), output.most.value
        rows, cols, parts = stage.rows.count(), stage.cols.count(), len(output.names)
        return Picture(cols, rows, parts, most, bytearray(rows * cols * parts * (1 if most < 256 else 2)))

    def take(self, facts: Iterable[Record]) -> None:
        """Takes facts for true, where they are of this job. None comes twice."""
        for fact in facts:
            label = fact.label()
            if fact.ids() != (self.program, self.input) or label not in self.tiles:
                continue
            if not self.is_shaped(fact.kind, fact.count, self.tiles[label]):
                self.wrong[label] = "misshapen"
                continue
            self.held[label] = self.held.get(label, 0) + 1
            if fact.kind:
                self.count_in(self.tiles[label].stage.name, fact.numbers())
            else:
                self.put(self.tiles[label], fact.data)

    def is_shaped(self, kind: int, count: int, tile: Tile) -> bool:
        return kind == (tile.stage.kind == "accum") and count == self.count(tile)

    def count(self, tile: Tile) -> int:
        """How many numbers a fact of a tile has."""
        return len(self.bins(tile.stage.name)) if tile.stage.kind == "accum" else tile.rows.count() * tile.cols.count()

    def digits(self, tile: Tile) -> int:
        """How many hexadecimal digits a fact of a tile has in a fact file."""
        return 2 * (HEAD.size + self.count(tile) * (8 if tile.stage.kind == "accum" else 4))

    def bins(self, name: str) -> range:
        item, _ = self.maker.program.declaring(name)
        return range(item.intervals[0].low.value(self.settings), item.intervals[0].high.value(self.settings) + 1)

    def put(self, tile: Tile, data: bytes) -> None:
        """Puts the samples of a tile into each plane of the picture that is of its stage."""
        picture, stage = self.picture, tile.stage
        samples, width = samples_of(data, picture.most), 1 if picture.most < 256 else 2
        stride, length = picture.cols * picture.parts * width, tile.cols.count() * width
        for part in (at for at, it in enumerate(self.maker.program.output().names) if it.text == stage.name):
            start = ((tile.rows.least - stage.rows.least) * picture.cols + tile.cols.least - stage.cols.least) * picture.parts * width + part * width
            for row in range(tile.rows.count()):
                put_row(picture, start + row * stride, samples[row * length : (row + 1) * length], width)

    def count_in(self, name: str, bins: tuple[int, ...]) -> None:
        """Lets an accumulator have counted the bins of a tile, too."""
        item, _ = self.maker.program.declaring(name)
        word = self.maker.text[item.cases[0].span.start :][:3].decode()
        self.totals[name] = [*map(JOINED[word], self.totals[name], bins)] if name in self.totals else [*bins]

    def lacks(self) -> list[Lack]:
        """The tiles that the answer lacks, in their order."""
        found = []
        for tile in sorted(self.wanted, key=Tile.label):
            count = self.held.get(tile.label(), 0)
            if count != 1:
                found.append(Lack(tile, "disputed" if count else self.wrong.get(tile.label(), "missing")))
        return found

    def result(self) -> tuple[Picture | None, bytes]:
        """The picture, where the job has an output, and the lines of its accumulators."""
        lacks = self.lacks()
        if lacks:
            raise Refused(f"{lacks[0].words()}; {len(lacks)} of {len(self.wanted)} tiles lack")
        totals = (self.total(name) for name, item in self.maker.program.stages() if item.kind == "accum")
        return self.picture, "".join(totals).encode()

    def written(self) -> bytes:
        """What `eval` writes of the job."""
        picture, totals = self.result()
        return b"".join((picture.head(), picture.raster, totals)) if picture else totals

    def total(self, name: str) -> str:
        """The line of an accumulator."""
        span = self.bins(name)
        return f"{name} {span[0]}..{span[-1]}: {' '.join(map(str, self.totals[name]))}\n"


def ids_of(check: str) -> Ids:
    """The identities of a job, by what `check` tells of it."""
    program, given = (bytes.fromhex(line.split()[1]) for line in check.splitlines()[:2])
    return program, given


def samples_of(data: bytes, most: int) -> bytes:
    """The numbers of a fact of a tile, four bytes each, as samples from 0 to the greatest."""
    width = 1 if most < 256 else 2
    lanes = [data[at::4] for at in range(4)]
    if any(it.count(0) != len(it) for it in lanes[: 4 - width]) or (width == 1 and max(lanes[3]) > most):
        return cut(data, most)
    if width == 1:
        return lanes[3]
    found = bytearray(2 * len(lanes[3]))
    found[0::2], found[1::2] = lanes[2:]
    return bytes(found) if max(numbers_in("H", found)) <= most else cut(data, most)


def cut(data: bytes, most: int) -> bytes:
    """The same, where some of the numbers may be no samples."""
    return bytes_of([min(max(it, 0), most) for it in numbers_in("i", data)], most)


def numbers_in(kind: str, data: bytes) -> array:
    """The numbers that these bytes are, of which the most significant ones stand first."""
    found = array(kind, data)
    if sys.byteorder == "little":
        found.byteswap()
    return found


def put_row(picture: Picture, start: int, samples: bytes, width: int) -> None:
    """Puts the samples of a row from a byte on, in every so many-th point's bytes where the picture has several planes."""
    if picture.parts == 1:
        picture.raster[start : start + len(samples)] = samples
        return
    step, end = picture.parts * width, start + len(samples) * picture.parts
    for at in range(width):
        picture.raster[start + at : end : step] = samples[at::width]


def true_facts(facts: list[Record], verdicts: str) -> list[Record]:
    """Those of the merged facts that an audit calls true. It tells them in their order, and retired jobs behind them."""
    lines = [it for it in verdicts.splitlines() if not it.startswith("Retired ")]
    if len(facts) != len(lines):
        raise Refused("the audit does not tell as many facts as there are")
    return [fact for fact, line in zip(facts, lines) if line.startswith("True ")]
