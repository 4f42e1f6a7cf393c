"""What `check` and `plan` tell of the stages of a program, with who reads whom."""
import re
from dataclasses import dataclass, field

from .demands import Area, Ends
from .program import Program

STAGE = re.compile(r"stage (\d+) (plane|func|accum) (\S+) (-?\d+)\.\.(-?\d+) (-?\d+)\.\.(-?\d+) tiles (\d+)")
PLAN = re.compile(r"(inlined|stored) (\S+)(?: cost (\d+))?")


@dataclass
class Stage:
    """A stage: what it is, its points, its tiles, and its cost where it is stored."""

    name: str
    kind: str
    rows: int
    cols: int
    tiles: int
    is_inlined: bool = False
    cost: int | None = None
    reads: list[str] = field(default_factory=list)

    def words(self) -> str:
        """What is said of it in a drawing."""
        points = f"{self.rows} by {self.cols}"
        if self.kind == "plane":
            return f"plane, {points}"
        if self.is_inlined:
            return f"inlined, {points}"
        tiles = "1 tile" if self.tiles == 1 else f"{self.tiles} tiles"
        return f"{points}, {tiles}, cost {self.cost}"


def kinds_of(check: str) -> dict[str, str]:
    """The kind of each stage, as `check` tells it."""
    return {it[3]: it[2] for it in filter(None, map(STAGE.fullmatch, check.splitlines()))}


def domains_of(check: str) -> dict[str, Area]:
    """The domain of each stage, as `check` tells it."""
    found = filter(None, map(STAGE.fullmatch, check.splitlines()))
    return {it[3]: Area(Ends(int(it[4]), int(it[5])), Ends(int(it[6]), int(it[7]))) for it in found}


def stages_of(program: Program, check: str, plan: str) -> dict[str, Stage]:
    """The stages by name, in the order of their numbers."""
    found = {}
    for it in filter(None, map(STAGE.fullmatch, check.splitlines())):
        top, bottom, left, right = (int(it[at]) for at in (4, 5, 6, 7))
        found[it[3]] = Stage(it[3], it[2], bottom - top + 1, right - left + 1, int(it[8]))
    for it in filter(None, map(PLAN.fullmatch, plan.splitlines())):
        found[it[2]].is_inlined = it[1] == "inlined"
        found[it[2]].cost = int(it[3]) if it[3] else None
    for name, item in program.stages():
        reads = [read.stage.text for case in item.cases for read in case.reads]
        found[name].reads = list(dict.fromkeys(reads))
    return found


def homes(stages: dict[str, Stage]) -> dict[str, str]:
    """For each stage the one that computes it: its own for what is not inlined, else that of its readers, which all have one."""
    readers = {name: [it.name for it in stages.values() if name in it.reads] for name in stages}
    found: dict[str, str] = {}

    def home(name: str) -> str:
        if name not in found:
            inlined = stages[name].is_inlined and readers[name]
            found[name] = home(readers[name][0]) if inlined else name
        return found[name]

    return {name: home(name) for name in stages}


def layers(names: list[str], below: dict[str, list[str]]) -> dict[str, int]:
    """How far each name stands above what it leads down to: 0 where it leads to none of the names."""
    found: dict[str, int] = {}

    def layer(name: str) -> int:
        if name not in found:
            found[name] = max((layer(it) + 1 for it in below[name] if it in below), default=0)
        return found[name]

    return {name: layer(name) for name in names}
