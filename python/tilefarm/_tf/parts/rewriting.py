"""The program of a part: the whole's text, with other domains, tests, indices and variables, and without what the part does not need."""
from typing import Iterator, NamedTuple

from ..program import Item, Span, Use
from ..demands import Area, Ends, Way
from ..tokens import RESERVED
from .boxes import Needs
from .origins import added
from .whole import WIDE, Stage, Test, Whole, WholeCase

# a comparison with a number that no point reaches is the same with this one
BEYOND = WIDE + 1


class Edit(NamedTuple):
    """Other text in the place of a span of the whole's."""

    span: Span
    text: str


class Rewriter:
    """Writes one part's program. `origins` has for each stage where its points begin in the whole, by rows and by columns."""

    def __init__(self, whole: Whole, needs: Needs, origins: dict[str, tuple[int, int]], picture: Area, output: list[Area]):
        self.whole, self.needs, self.origins, self.picture, self.output = whole, needs, origins, picture, output
        self.names, self.copies = [*whole.outputs()] if output else [], ""
        for number, area in enumerate(output):
            self.copy_where_wider(number, area)

    def program(self) -> bytes:
        """The text of the part's program."""
        return ("\n".join(filter(None, map(self.item, self.whole.program.items))) + self.copies + "\n").encode("latin-1")

    # items

    def item(self, item: Item) -> str:
        """An item as the part has it, or nothing."""
        if item.kind == "image":
            names = ", ".join(it.text for it in item.names)
            return f"image {names}({self.picture.rows.count()}, {self.picture.cols.count()});"
        if item.kind == "output":
            return f"output {', '.join(self.names)} max {item.most.value};" if self.output else ""
        if item.kind in ("func", "accum"):
            stage = self.whole.stages[item.names[0].text]
            return self.edited(item.span, [*self.edits(stage)]) if stage.name in self.needs.boxes else ""
        return self.edited(item.span, [])

    def copy_where_wider(self, number: int, area: Area) -> None:
        """Lets a function of its own copy the result, where the part needs more points of it than the result has."""
        name = self.names[number]
        if self.needs.boxes[name] == area:
            return
        self.names[number] = copy = self.fresh(f"part{number}")
        rows, cols = (self.shifted(it, name, axis) for axis, it in enumerate(area))
        self.copies += f"\nfunc {copy}(x in {rows}, y in {cols}) {{ else : {name}(x, y); }}"

    def fresh(self, name: str) -> str:
        taken = {*self.whole.program.kinds(), *(it.text for item in self.whole.program.items for it in item.variables), *RESERVED}
        while name in taken:
            name += "_"
        return name

    # what is edited

    def edited(self, span: Span, edits: list[Edit]) -> str:
        """The text of a span, with its edits; one within another is left out."""
        found, at = "", span.start
        for it in sorted(edits):
            if it.span.start >= at:
                found += self.text(at, it.span.start) + it.text
                at = it.span.end
        return found + self.text(at, span.end)

    def text(self, start: int, end: int) -> str:
        return self.whole.text[start:end].decode("latin-1")

    def edits(self, stage: Stage) -> Iterator[Edit]:
        """What is written otherwise of a function or an accumulator."""
        for axis, interval in enumerate(stage.item.intervals[-2:]):
            yield Edit(interval.span, self.shifted(self.needs.boxes[stage.name][axis], stage.name, axis))
        kept = self.needs.cases[stage.name]
        for case in stage.cases:
            if not any(it is case for it in kept):
                yield Edit(case.case.span, "")
        for case in kept:
            yield from self.edits_of_case(stage, case)
        yield from self.variables(stage)

    def edits_of_case(self, stage: Stage, case: WholeCase) -> Iterator[Edit]:
        names = [it.text for it in stage.item.variables]
        for test in case.tests:
            yield Edit(test.span, self.test(names[test.axis], test, self.origins[stage.name][test.axis]))
        for read, spans in zip(case.reads, (it.indices for it in case.case.reads)):
            for axis, span in enumerate(spans):
                more = added(read[1 + axis], self.origins[stage.name][axis], self.origins[read.name][axis])
                yield Edit(span, index(names[axis], read[1 + axis]._replace(more=more)))

    def variables(self, stage: Stage) -> Iterator[Edit]:
        """A variable that is a value keeps what it is in the whole."""
        for axis, variable in enumerate(stage.item.variables):
            origin = self.origins[stage.name][axis]
            for use in stage.item.uses if origin else ():
                if isinstance(use, Use) and use.wants == "value" and use.token.text == variable.text:
                    yield Edit(Span(use.token.offset, use.token.end), f"({plus(variable.text, origin)})")

    def test(self, name: str, test: Test, origin: int) -> str:
        if test.mark == "%":
            return f"{name} % {test.modulus} == {(test.rest - origin) % test.modulus}"
        value = min(max(test.sum.value(self.whole.values) - origin, -BEYOND), BEYOND)
        return f"{name} {test.mark} {value}"

    def shifted(self, ends: Ends, name: str, axis: int) -> str:
        """An interval of a stage in the part's points."""
        origin = self.origins[name][axis]
        return f"[{ends.least - origin} .. {ends.most - origin}]"


def plus(text: str, number: int) -> str:
    return text if not number else f"{text} {'+' if number > 0 else '-'} {abs(number)}"


def index(name: str, way: Way) -> str:
    """The text of an index."""
    front = name if way.factor == 1 else f"{way.factor}*{name}"
    if way.divisor == 1:
        return plus(front, way.more)
    return f"{front}/{way.divisor}" if not way.more else f"({plus(front, way.more)})/{way.divisor}"
