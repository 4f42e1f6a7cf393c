"""What a schedule comes to: boxes, costs, and the plan of a tile, by the definitions of docs/SCHEDULES.md."""
from functools import cache
from typing import NamedTuple

from .demands import Area, demands_of
from .stages import domains_of, kinds_of
from .svg import Drawing
from .text import Refused
from .whole_numbers import whole_number

MOST_SCRATCH = 67_108_864
SHOWN_NEEDS, MOST_TILES = 64, 65_536
COLOURS = ("#4a7ab5", "#b5534a", "#4a9b5e", "#8a5ab5", "#b58b3a", "#3a9bb5")


class Step(NamedTuple):
    """A stage over an area; where it begins in scratch memory, if it lies there."""

    name: str
    area: Area
    start: int | None = None


class Schedules:
    """The stages of one job, and what they come to by a schedule, which is the set of those that are inlined."""

    def __init__(self, text: bytes, check: str, settings: dict[str, int], sides: tuple[int, int]):
        program, self.parts = demands_of(text)
        self.settings, self.sides = settings, sides
        self.kinds, self.domains = kinds_of(check), domains_of(check)
        output = program.output()
        self.outputs = [it.text for it in output.names] if output else []
        self.most = output.most.value if output and output.most else 255
        self.stages = list(self.kinds)
        self.rank = cache(self.rank_of)
        self.order = sorted(self.kinds, key=self.rank)

    def reads(self, name: str) -> set[str]:
        return {read.name for part in self.parts[name] for read in part.reads}

    def rank_of(self, name: str) -> int:
        return 0 if self.kinds[name] == "plane" else 1 + max(map(self.rank, self.reads(name)), default=0)

    def judge(self, names: list[str]) -> frozenset[str]:
        """The functions that are to be inlined, each of which can be."""
        for name in names:
            if self.kinds.get(name) != "func":
                raise Refused(f"--inline takes functions, and {name} is none: there are {', '.join(self.functions())}", 1)
            if name in self.outputs:
                raise Refused(f"{name} is of the output, which is stored: its tiles are what the job is for", 1)
            if not any(name in self.reads(it) for it in self.kinds):
                raise Refused(f"nothing reads {name}, so it cannot be inlined", 1)
        return frozenset(names)

    def functions(self) -> list[str]:
        return [name for name, kind in self.kinds.items() if kind == "func"]

    def boxes(self, target: str, area: Area, inlined: frozenset[str]) -> dict[str, Area]:
        """The box of each stage that something is demanded of, and the target's own area, the readers first."""
        demanded, found = {target: area}, {}
        for name in reversed(self.order[: self.order.index(target) + 1]):
            region = demanded[name].meet(self.domains[name]) if name in demanded else None
            if not region or not region.count():
                continue
            found[name] = region
            for part in self.parts[name] if name == target or name in inlined else []:
                met = part.box(self.domains[name], self.settings).meet(region)
                for read in part.reads if met.count() else []:
                    image = read.image(met)
                    demanded[read.name] = image.hull(demanded[read.name]) if read.name in demanded else image
        return found

    def cost(self, target: str, inlined: frozenset[str]) -> int:
        """The points of all tiles of a target, those of the boxes that go with them among them."""
        domain, total = self.domains[target], 0
        for at in domain.tiles(self.sides):
            boxes = self.boxes(target, domain.tile(*at, self.sides), inlined)
            total += sum(box.count() for name, box in boxes.items() if name == target or name in inlined)
        return total

    def lines(self, inlined: frozenset[str]) -> list[str]:
        """What `plan` would write of this schedule."""
        return [f"inlined {it}" if it in inlined else f"stored {it} cost {self.cost(it, inlined)}"
                for it, kind in self.kinds.items() if kind != "plane"]

    def tile(self, words: str) -> tuple[str, Area]:
        """The stage and the area of a tile that is named STAGE:ROW:COL."""
        name, *at = words.split(":")
        row, col = (whole_number(it, 0, MOST_TILES) for it in at) if len(at) == 2 else (None, None)
        if row is None or col is None:
            raise Refused("--tile takes STAGE:ROW:COL, as --tile f:0:1", 1)
        if self.kinds.get(name, "plane") == "plane":
            raise Refused(f"{name} has no tiles: {', '.join(it for it, kind in self.kinds.items() if kind != 'plane')} have", 1)
        area = self.domains[name].tile(row, col, self.sides)
        if not area.count():
            counts = [-(-it.count() // side) for it, side in zip(self.domains[name], self.sides)]
            raise Refused(f"{name} has no tile {row} {col}: it has {counts[0]} rows of {counts[1]} tiles, counted from 0", 1)
        return name, area

    def area_of(self, stage: int, row: int, col: int) -> Area:
        """The area of a tile, by the number of its stage: without a point where there is no such tile."""
        return self.domains[self.stages[stage]].tile(row, col, self.sides)

    def steps(self, boxes: dict[str, Area], target: str, inlined: frozenset[str]) -> list[Step]:
        """The inlined functions in dependence order, each with its place in scratch memory, and the tile behind them."""
        names = [it for it in self.order if it in boxes and it in inlined and it != target] + [target]
        last = {it: max((at for at, reader in enumerate(names) if it in self.reads(reader)), default=0) for it in names}
        found: list[Step] = []
        for at, name in enumerate(names[:-1]):
            alive = [(it.start, it.start + it.area.count()) for it in found if last[it.name] >= at]
            found.append(Step(name, boxes[name], least_place(boxes[name].count(), alive)))
        return [*found, Step(target, boxes[target])]

    def needs(self, boxes: dict[str, Area], target: str, inlined: frozenset[str]) -> list[str]:
        """The tiles of stored functions that are needed."""
        found = []
        for name in self.kinds:
            if name in boxes and self.kinds[name] == "func" and name not in inlined and name != target:
                spans = [[(end - whole.least) // side for end in ends] for ends, whole, side in zip(boxes[name], self.domains[name], self.sides)]
                found += [f"{name} {row} {col}" for row in range(spans[0][0], spans[0][1] + 1) for col in range(spans[1][0], spans[1][1] + 1)]
        return found

    def told(self, words: str, inlined: frozenset[str]) -> str:
        """The plan of a tile as text."""
        target, area = self.tile(words)
        boxes = self.boxes(target, area, inlined)
        steps, needs = self.steps(boxes, target, inlined), self.needs(boxes, target, inlined)
        room = max((it.start + it.area.count() for it in steps[:-1]), default=0)
        points = sum(it.area.count() for it in steps)
        lines = [f"tile {' '.join(words.split(':'))} {area}"]
        lines += [f"box {name} {self.kinds[name]} {boxes[name]}" for name in reversed(boxes) if name != target]
        lines += [f"step {it.name} {it.area} points {it.area.count()}" + ("" if it.start is None else f" scratch {it.start}") for it in steps]
        lines += [f"need {it}" for it in needs[:SHOWN_NEEDS]] + [f"need .. ({len(needs)} tiles)"] * (len(needs) > SHOWN_NEEDS)
        return "\n".join([*lines, f"points {points} needs {len(needs)} scratch {room} of {MOST_SCRATCH}", ""])

    def drawn(self, words: str, inlined: frozenset[str]) -> bytes:
        """The boxes of a tile as a drawing, each over the ones that it reads."""
        target, area = self.tile(words)
        boxes = self.boxes(target, area, inlined)
        whole = area
        for box in boxes.values():
            whole = whole.hull(box)
        scale = 480 / max(whole.rows.count(), whole.cols.count())
        drawing = Drawing(whole.cols.count() * scale + 320, max(whole.rows.count() * scale, 22 * len(boxes)) + 64)
        drawing.text(16, 24, f"tile {' '.join(words.split(':'))}, {area}", 14, "start")
        for number, (name, box) in enumerate(reversed(boxes.items())):
            colour = COLOURS[number % len(COLOURS)]
            x, y = 16 + (box.cols.least - whole.cols.least) * scale, 40 + (box.rows.least - whole.rows.least) * scale
            drawing.box(x, y, box.cols.count() * scale, box.rows.count() * scale, "#f3d9a4" if name == target else "none", colour,
                        "" if name == target or name in inlined else "4 3")
            drawing.text(whole.cols.count() * scale + 32, 56 + 22 * number, f"{name}: {box}", 12, "start", colour)
        return drawing.svg()


def least_place(length: int, taken: list[tuple[int, int]]) -> int:
    """The least start where so many places meet none that are taken."""
    starts = [0, *sorted(end for _, end in taken)]
    return next(at for at in starts if all(at + length <= first or end <= at for first, end in taken))
