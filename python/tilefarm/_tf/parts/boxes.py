"""What a part needs of each stage: the boxes of docs/SCHEDULES.md, over areas of the result and of the accumulators."""
from dataclasses import dataclass, field
from typing import Iterator, NamedTuple

from ..demands import Area, Way
from .whole import Stage, Whole, WholeCase


class Link(NamedTuple):
    """A read along one axis: who reads whom, how the index goes, and whether it is a stencil's."""

    reader: str
    read: str
    way: Way
    is_stencil: bool


@dataclass
class Needs:
    """The box of each stage that a part needs, and the cases that are taken there."""

    boxes: dict[str, Area] = field(default_factory=dict)
    cases: dict[str, list[WholeCase]] = field(default_factory=dict)

    def add(self, name: str, area: Area) -> None:
        self.boxes[name] = area.hull(self.boxes[name]) if name in self.boxes else area

    def links(self, axis: int) -> Iterator[Link]:
        """The reads of the part along an axis."""
        for name, cases in self.cases.items():
            for case in cases:
                for number, read in enumerate(case.reads):
                    yield Link(name, read.name, read[1 + axis], case.is_stencil(number))


def needs_of(whole: Whole, wanted: dict[str, Area]) -> Needs:
    """What is needed for these areas of stages, each of which lies in the stage's domain."""
    found = Needs(dict(wanted))
    for name in reversed(whole.order):
        if name in found.boxes:
            found.cases[name] = taken(whole.stages[name], found.boxes[name])
            for case in found.cases[name]:
                ask(found, case, case.box.meet(found.boxes[name]))
    return found


def ask(found: Needs, case: WholeCase, met: Area) -> None:
    for read in case.reads:
        found.add(read.name, read.image(met))


def taken(stage: Stage, box: Area) -> list[WholeCase]:
    """The cases that some point of a box may have: not those that are for points elsewhere, and none behind one that takes all of it."""
    found = []
    for case in stage.cases:
        met = case.box.meet(box)
        if met.count():
            found.append(case)
            if met == box and case.takes_all():
                break
    return found
