"""Scripts of worlds that make facts: node 0 makes tiles, with all that they need, and sends node 1 those that are wanted."""
from functools import cache
from typing import Iterator, NamedTuple

from .demands import Area
from .joining import SEPARATOR
from .making import Maker, Tile
from .schedules import Schedules
from .settings import given_values, settings
from .text import Refused

# the most events that a script has, and those behind the tiles that it makes
MOST_EVENTS, ENDS = 65_536, 3


class Group(NamedTuple):
    """Tiles that are made by one task."""

    tiles: tuple[Tile, ...]

    def words(self) -> str:
        first, last = self.tiles[0], self.tiles[-1]
        return f"tiles {told(first)} to {told(last)}" if len(self.tiles) > 1 else f"tile {told(first)}"


def told(tile: Tile) -> str:
    return f"{tile.stage.name} {tile.row} {tile.col}"


class Scripts:
    """Scripts of worlds in which node 0 makes tiles, with all that they need, and sends them to node 1."""

    def __init__(self, maker: Maker, check: str, plan: str):
        values = settings(maker.program, given_values(maker.values), maker.given.header())
        self.maker, self.schedules = maker, Schedules(maker.text, check, values, maker.sides)
        self.inlined = frozenset(line.split()[1] for line in plan.splitlines() if line.startswith("inlined "))
        self.has_needs = cache(self.reads_stored)
        self.numbers = {line.split()[3]: int(line.split()[1]) for line in check.splitlines() if line.startswith("stage ")}

    def reads_stored(self, name: str) -> bool:
        """Whether tiles of a stage are made from those of others: it reads a stored function, itself or by what is inlined in it."""
        reads = [it for it in self.schedules.reads(name) if self.schedules.kinds[it] == "func"]
        return any(it not in self.inlined or self.has_needs(it) for it in reads)

    def needed(self, name: str, row: int, col: int) -> list[tuple[str, int, int]]:
        """The tiles of stored functions that a tile is made from."""
        if not self.has_needs(name):
            return []
        area: Area = self.schedules.domains[name].tile(row, col, self.schedules.sides)
        boxes = self.schedules.boxes(name, area, self.inlined)
        words = (it.split() for it in self.schedules.needs(boxes, name, self.inlined))
        return [(it[0], int(it[1]), int(it[2])) for it in words]

    def order(self, group: Group) -> list[tuple[str, int, int]]:
        """These tiles and all that they need, directly or not, each behind its own needs."""
        found = {(it.stage.name, it.row, it.col) for it in group.tiles}
        fresh = list(found)
        while fresh:
            needed = {it for tile in fresh for it in self.needed(*tile)} - found
            found |= needed
            fresh = list(needed)
        return sorted(found, key=lambda it: (self.schedules.rank(it[0]), it))

    def key(self, name: str, row: int, col: int) -> str:
        return f"0:{self.numbers[name]}:{row}:{col}"

    def script(self, group: Group) -> bytes:
        """The script. What is made comes to node 0 by messages, numbered from 0, and node 1 is told the tiles of the group alone."""
        made = [self.key(*it) for it in self.order(group)]
        lines = [line for number, key in enumerate(made) for line in (f"make 0 {key}", f"deliver 0 {number}")]
        sent = " ".join(self.key(it.stage.name, it.row, it.col) for it in group.tiles)
        # (node 0 holds nothing after a restart: what it holds is not to be sent here)
        return "\n".join([*lines, f"send 0 1 {sent}", f"deliver 1 {len(made)}", "restart 0", ""]).encode()

    def fitting(self, group: Group) -> Iterator[Group]:
        """The group, or parts of it, each with a script that is not too long."""
        if 2 * len(self.order(group)) + ENDS <= MOST_EVENTS:
            yield group
        elif len(group.tiles) == 1:
            raise Refused(f"{group.words()}: a script of more than {MOST_EVENTS} events would make it; choose larger tiles, or a greater --percent")
        else:
            middle = len(group.tiles) // 2
            for half in (group.tiles[:middle], group.tiles[middle:]):
                yield from self.fitting(Group(half))

    def input(self, group: Group) -> bytes:
        """The input of a world that makes a group."""
        return SEPARATOR.join((self.maker.text, self.script(group), self.maker.given.last()))


def node_line(written: bytes) -> bytes:
    """The line of the facts that node 1 of a world holds, where all its events were done; else one that is none."""
    lines = written.split(b"\n")
    is_whole = len(lines) == 4 and lines[0].endswith(b" refused 0") and lines[2].startswith(b"node 1 ")
    return lines[2].removeprefix(b"node 1 ") + b"\n" if is_whole else b""
