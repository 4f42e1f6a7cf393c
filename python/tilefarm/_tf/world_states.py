"""Scripts of events, and what `world` tells of the nodes behind the first lines of one.

What a node holds, and whether an event is refused, are the program's own answers: `world` is run on the first events of the script alone.
"""
import os
import re
from typing import Callable, Iterator, NamedTuple

from .facts import fact_at, retired_in, starts_of, tile_at

# the stage, the row and the column of a tile
Tile = tuple[int, int, int]
COUNTS = re.compile(rb"done (\d+) refused (\d+)")
MOST_AT_ONCE = 4


class Event(NamedTuple):
    """An event: its line, the word and the numbers behind it, and the tiles behind these."""

    line: int
    text: str
    verb: str
    numbers: tuple[int, ...]
    tiles: tuple[Tile, ...]

    def nodes(self) -> tuple[int, ...]:
        """The nodes that it names."""
        return self.numbers[:1] if self.verb in ("deliver", "retire") else self.numbers


class State(NamedTuple):
    """What a node holds: the tiles of its facts, or that it knows the job as retired."""

    tiles: frozenset[Tile] = frozenset()
    is_retired: bool = False


class World(NamedTuple):
    """What `world` tells: how many events it refused, and what each node holds."""

    refused: int
    states: tuple[State, ...]


def events_of(script: bytes) -> list[Event]:
    """The events of a script that the program has taken."""
    lines = enumerate(script.decode("latin-1").split("\n"), 1)
    return [event_of(number, text) for number, text in lines if text and not text.startswith("#")]


def event_of(line: int, text: str) -> Event:
    verb, *words = text.split(" ")
    numbers = tuple(number_of(it) for it in words if ":" not in it)
    return Event(line, text, verb, numbers, tuple(tile_of(it) for it in words if ":" in it))


def tile_of(key: str) -> Tile:
    _, stage, row, col = map(number_of, key.split(":"))
    return stage, row, col


def number_of(word: str) -> int:
    """The number of a word, which may begin with any number of zeros."""
    return int(word.lstrip("0") or "0")


class Worlds:
    """The worlds of the first events of a script, each by a run of the program, and the numbers of all facts that they have."""

    def __init__(self, events: list[Event], written: Callable[[bytes], bytes]):
        self.events, self.written = events, written
        self.numbers: dict[Tile, tuple[int, ...]] = {}
        self.known: dict[int, World] = {}

    def after(self, count: int) -> World:
        """The world of so many events."""
        if count not in self.known:
            self.known[count] = self.ran(count)
        return self.known[count]

    def ran(self, count: int) -> World:
        script = "".join(f"{it.text}\n" for it in self.events[:count]).encode("latin-1")
        head, *lines = self.written(script).splitlines()
        return World(int(COUNTS.fullmatch(head)[2]), tuple(self.state_of(it.split()[-1]) for it in lines))

    def run_all(self, counts: range) -> None:
        """Runs many of them, several at a time."""
        from concurrent.futures import ThreadPoolExecutor

        with ThreadPoolExecutor(min(os.cpu_count() or 1, MOST_AT_ONCE)) as pool:
            self.known.update(zip(counts, pool.map(self.ran, counts)))

    def state_of(self, line: bytes) -> State:
        """The state of a node's line. The numbers of each tile are noted once: it has the same ones wherever it is held."""
        data = bytes.fromhex(line.decode())
        found = {tile_at(data, it): it for it in starts_of(data)}
        for tile in found.keys() - self.numbers.keys():
            self.numbers[tile] = fact_at(data, found[tile]).numbers
        return State(frozenset(found), bool(retired_in(line)))

    def refusals(self, first: int, last: int) -> Iterator[int]:
        """Which of the events from one to another are refused, by as few runs as tell it."""
        count = self.after(last).refused - self.after(first).refused
        if count in (0, last - first):
            yield from range(first, last) if count else ()
        else:
            middle = (first + last) // 2
            yield from self.refusals(first, middle)
            yield from self.refusals(middle, last)
