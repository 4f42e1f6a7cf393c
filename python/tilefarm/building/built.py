"""Programs that are built: their text for each size of pictures, and what is told of it."""
from __future__ import annotations

from typing import Any, Mapping, Union

from ..pictures import Shape
from ..program import Program
from .ends import Range
from .expressions import MOST_NODES, whole
from .layout import AXES, Layout
from .sites import site
from .stages import Accum, Func
from .writing import MOST_BYTES, MOST_STAGES, Text, written

# the sides of the picture that `text` and `explain` are for where no others are named
USUAL_SHAPE = (1008, 1344)
MOST_SAMPLE = 65535
KEPT = 64


class Built(Program):
    """A program that was built. `text` is for pictures of any sides where the language can say that, else for those of `shape`."""

    def __init__(self, outputs: list[Func], accums: list[Accum], most: int, shape: Shape):
        self.outputs, self.accums, self.most, self.shape = outputs, accums, most, shape
        self.written: dict[Shape, Text] = {}
        first = self.written_for(shape)
        super().__init__(first.text, name="built program", tables={it.name: it.entries for it in first.tables})

    def written_for(self, shape: Shape) -> Text:
        found = self.written.get(shape)
        if found is None:
            if len(self.written) >= KEPT:
                self.written.clear()
            found = self.written[shape] = self.write(shape)
        return found

    def write(self, shape: Shape) -> Text:
        try:
            return written(Layout(self.outputs, self.accums, shape), self.most)
        except RecursionError:
            site().refuse("an expression is made of too many others one within the other: tf.sum, tf.maximum and .stage(name) make it flat")

    def text_for(self, shape: Shape) -> str:
        """The program for pictures of (rows, columns)."""
        return self.written_for((int(shape[0]), int(shape[1]))).text

    def places(self) -> Mapping[str, str]:
        return {name: str(it) for name, it in self.written_for(self.shape).places.items()}

    def explain(self, shape: Shape | None = None) -> str:
        """Each stage with its domain, why it has this one and where it was built; and what the program takes of the language's limits."""
        sides = shape or self.shape
        found = self.written_for((int(sides[0]), int(sides[1])))
        size = "pictures of any sides" if found.is_general else f"pictures of {sides[0]} by {sides[1]} alone"
        lines = [f"a text for {size}; domains over {sides[0]} by {sides[1]}:"]
        for it in found.stages:
            area = ", ".join(f"{axis} {spelled(part)}" for axis, part in zip(AXES, it.box))
            lines.append(f"  {it.name}: {it.kind}, {area}: {it.why} ({it.site})")
        lines.append(f"stages {len(found.stages)} of {MOST_STAGES}, nodes {found.nodes} of {MOST_NODES}, bytes {len(found.text)} of {MOST_BYTES}")
        return "\n".join(lines)


def spelled(it: Range) -> str:
    return f"{it.least.value}..{it.most.value}"


def output(*functions: Func, max: int = 255, totals: Union[Accum, list[Accum], tuple[Accum, ...]] = (), shape: Shape = USUAL_SHAPE) -> Built:
    """A program that writes one function, or three as red, green and blue, with `max` as the greatest sample; and `totals`, its accumulators.

    `shape` is the picture that `text` is for where one text cannot serve all. Raises BuildError where the program is outside the language.
    """
    if len(functions) not in (1, 3):
        site().refuse(f"an output has one function, or three in colours, and not {len(functions)}")
    for it in functions:
        refuse_other(it, Func, "an output has functions: tf.func(name, value) makes one")
    if not 1 <= whole(max) <= MOST_SAMPLE:
        site().refuse(f"the greatest sample is 1 to {MOST_SAMPLE}, and not {max}")
    return Built([*functions], listed(totals), whole(max), shape)


def totals(*accums: Accum, shape: Shape = USUAL_SHAPE) -> Built:
    """A program of accumulators alone."""
    if not accums:
        site().refuse("there is no accumulator")
    return Built([], listed(accums), 1, shape)


def listed(given: Any) -> list[Accum]:
    found = [given] if isinstance(given, Accum) else [*given]
    for it in found:
        refuse_other(it, Accum, "totals are accumulators: tf.accumulate or tf.histogram makes one")
    return found


def refuse_other(given: Any, kind: type, why: str) -> None:
    if not isinstance(given, kind):
        site().refuse(f"{why}, and {type(given).__name__} is none")
