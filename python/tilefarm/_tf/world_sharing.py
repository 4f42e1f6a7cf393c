"""Scripts by which nodes share the tiles of a job, with messages that are lost or repeated and nodes that restart."""
from typing import NamedTuple

from .text import Refused
from .world_states import Tile
from .world_steps import MOST_EACH, Job

# in turns that are multiples of it, a node keeps what it holds, as in a farm
KEEP_TURNS = 4


class Faults(NamedTuple):
    """Each so many-th message between nodes is lost, or arrives twice; in so many-th turns a node restarts. None at 0."""

    lose: int = 0
    repeat: int = 0
    restart: int = 0


class Sharing:
    """Writes a script. It follows what nodes hold, so that each event is possible."""

    def __init__(self, job: Job, nodes: int, faults: Faults):
        self.job, self.nodes, self.faults = job, nodes, faults
        self.held: list[set[Tile]] = [set() for _ in range(nodes)]
        self.kept: list[set[Tile]] = [set() for _ in range(nodes)]
        self.lines: list[str] = []
        self.messages = self.sent = self.arrived = 0

    def written(self) -> str:
        """The whole script: the tiles in turn, and then what is still missing somewhere."""
        tiles = self.tiles()
        for at, tile in enumerate(tiles):
            self.turn(at % self.nodes, at // self.nodes + 1, tile)
        self.note("each node is sent what it lacks")
        for node in range(self.nodes):
            self.complete(node, tiles)
        return "".join(f"{it}\n" for it in self.lines)

    def tiles(self) -> list[Tile]:
        """All tiles that are stored, each after those that it needs."""
        schedules = self.job.schedules
        stored = [it for it in schedules.order if schedules.kinds[it] != "plane" and it not in self.job.inlined]
        return [tile for name in stored for tile in self.job.tiles(schedules.stages.index(name))]

    def turn(self, node: int, number: int, tile: Tile) -> None:
        """A node makes a tile and sends it to the others; in some turns it keeps what it holds, or restarts."""
        self.make(node, tile)
        for other in range(self.nodes):
            if other != node:
                self.send(node, other, [tile])
        if number % KEEP_TURNS == 0:
            self.add(f"keep {node}")
            self.kept[node] = set(self.held[node])
        if self.faults.restart and number % self.faults.restart == 0:
            self.add(f"restart {node}")
            self.held[node] = set(self.kept[node])

    def make(self, node: int, tile: Tile) -> None:
        """A node makes a tile, and before it those that are needed and not held."""
        for need in self.job.needs(tile):
            if need not in self.held[node]:
                self.make(node, need)
        self.add(f"make {node} {key(tile)}")
        self.deliver(node, [tile])

    def send(self, node: int, other: int, tiles: list[Tile], is_safe: bool = False) -> None:
        """A message between nodes. Where it is safe, it arrives once."""
        self.add(f"send {node} {other} {' '.join(map(key, tiles))}")
        if not is_safe:
            self.sent += 1
            if self.faults.lose and self.sent % self.faults.lose == 0:
                self.messages += 1
                return
            self.arrived += 1
        if not is_safe and self.faults.repeat and self.arrived % self.faults.repeat == 0:
            self.add(f"deliver {other} {self.messages}")
        self.deliver(other, tiles)

    def deliver(self, node: int, tiles: list[Tile]) -> None:
        """The message that was sent last arrives."""
        self.add(f"deliver {node} {self.messages}")
        self.messages += 1
        self.held[node].update(tiles)

    def complete(self, node: int, tiles: list[Tile]) -> None:
        """A node is sent all that it lacks by others that have it, and makes the rest."""
        for other in range(self.nodes):
            found = [it for it in tiles if it in self.held[other] and it not in self.held[node]]
            if found:
                self.send(other, node, found, is_safe=True)
        for tile in tiles:
            if tile not in self.held[node]:
                self.make(node, tile)

    def note(self, words: str) -> None:
        self.lines.append(f"# {words}")

    def add(self, line: str) -> None:
        if len(self.lines) >= MOST_EACH:
            raise Refused(f"by this schedule the nodes need more than {MOST_EACH} events: choose larger tiles, or fewer nodes", 1)
        self.lines.append(line)


def key(tile: Tile) -> str:
    return f"0:{tile[0]}:{tile[1]}:{tile[2]}"
