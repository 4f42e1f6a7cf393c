"""What is stored and what is inlined: boxes, costs, the greedy schedule, and what a tile needs, from docs/SCHEDULES.md alone."""
from functools import cache

from .values import Area, Meaning, Point, Read, Stage

MOST_SCRATCH = 67_108_864


class Schedule:
    """A schedule of a program over a picture: the greedy one at a percentage, or the one that stores all."""

    def __init__(self, meaning: Meaning, sides: Point, percent: int = 40, is_stored: bool = False):
        self.stages, self.sides, self.outputs = meaning.names, sides, meaning.outputs
        self.cost, self.needs = cache(self.cost_of), cache(self.needs_of)
        self.order = in_dependence_order(meaning.names)
        self.inlined: frozenset[str] = frozenset()
        for name in [] if is_stored else reversed(self.order):
            if self.is_to_be_inlined(name, percent):
                self.inlined |= {name}

    def readers(self, name: str) -> set[str]:
        return {it for it, stage in self.stages.items() if name in read_by(stage)}

    def is_to_be_inlined(self, name: str, percent: int) -> bool:
        """Whether a function, visited after all that read it, is inlined."""
        readers = self.readers(name)
        if self.stages[name].kind != "func" or name in self.outputs or not readers:
            return False
        groups = [it for it in self.order if it not in self.inlined and it != name and readers <= self.group(it)]
        return any(self.is_worth(name, it, percent) for it in groups)

    def is_worth(self, name: str, target: str, percent: int) -> bool:
        """Whether it costs few enough points more to inline a function in a target, and there is room."""
        inlined = self.inlined | {name}
        together, room = self.cost(target, inlined)
        apart = self.cost(target, self.inlined)[0] + self.cost(name, self.inlined)[0]
        return room <= MOST_SCRATCH and 100 * together <= (100 + percent) * apart

    def group(self, target: str) -> set[str]:
        """The target, and the inlined functions to which a chain of reads leads from it through inlined ones alone."""
        found, rest = {target}, [target]
        while rest:
            more = (read_by(self.stages[rest.pop()]) & self.inlined) - found
            found |= more
            rest += more
        return found

    def boxes(self, target: str, area: Area, inlined: frozenset[str]) -> dict[str, Area]:
        """For each function that has one its box, where the target has this area."""
        hulls, found = {target: area}, {}
        for name in reversed(self.order[: self.order.index(target) + 1]):
            region = hulls[name].meet(self.stages[name].domain) if name in hulls else None
            if region and self.stages[name].kind != "plane":
                found[name] = region
            if region and (name == target or name in inlined):
                for read, image in demands(self.stages[name], region):
                    hulls[read.name] = image.hull(hulls.get(read.name))
        del found[target]
        return found

    def cost_of(self, target: str, inlined: frozenset[str]) -> tuple[int, int]:
        """The points of all tiles of a target, and the greatest scratch room of any."""
        domain, points, room = self.stages[target].domain, 0, 0
        for at in domain.tiles(self.sides):
            tile = domain.tile(*at, self.sides)
            scratch = sum(box.count() for name, box in self.boxes(target, tile, inlined).items() if name in inlined)
            points, room = points + scratch + tile.count(), max(room, scratch)
        return points, room

    def needs_of(self, target: str, tile: Area) -> list[tuple[str, Point]] | None:
        """The tiles of stored functions that a tile is made from; none where there is no room to make it."""
        boxes = self.boxes(target, tile, self.inlined)
        if sum(box.count() for name, box in boxes.items() if name in self.inlined) > MOST_SCRATCH:
            return None
        return [(name, at) for name, box in boxes.items() if name not in self.inlined for at in self.cover(name, box)]

    def cover(self, name: str, box: Area) -> list[Point]:
        """The tiles of a function that have a point of its box."""
        parts = zip(box, self.stages[name].domain, self.sides)
        return Area(*(((least - first) // side, (most - first) // side) for (least, most), (first, _), side in parts)).points()

    def plan(self) -> bytes:
        """What `tilefarm plan` is to print."""
        lines = []
        for name, stage in self.stages.items():
            if stage.kind != "plane":
                lines.append(f"inlined {name}\n" if name in self.inlined else f"stored {name} cost {self.cost(name, self.inlined)[0]}\n")
        return "".join(lines).encode()


def read_by(stage: Stage) -> set[str]:
    return {read.name for case in stage.cases for read in case.reads}


def in_dependence_order(stages: dict[str, Stage]) -> list[str]:
    """The stages by rank, and in a rank by number."""

    @cache
    def rank(name: str) -> int:
        return 0 if stages[name].kind == "plane" else 1 + max(map(rank, read_by(stages[name])), default=0)

    return sorted(stages, key=rank)


def demands(stage: Stage, region: Area) -> list[tuple[Read, Area]]:
    """What a stage reads over a region: each read of the cases that count there, with its image."""
    met = [(case, box.meet(region)) for case in stage.cases if (box := case.box(stage.domain))]
    return [(read, read.image(part)) for case, part in met if part for read in case.reads]
