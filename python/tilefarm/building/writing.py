"""A program's text for pictures of known sides: what its layout found, in the language."""
from __future__ import annotations

import textwrap
from typing import Iterator, NamedTuple

from .._tf.demands import Way
from .ends import Box, End, Range, end_of
from .expressions import MOST_NODES, Entry, Expr, Number, Parameter
from .layout import Found, Layout
from .sites import Site
from .spelling import Speller, spelled_index, spelled_number
from .stages import MOST_CASES, USUAL, Accum, Border, Case, Func, Plane, Stage, Table, Test, variables_of

MOST_STAGES = MOST_PARAMS = 64
MOST_TABLES = 16
MOST_BYTES = 65536
MOST_ADDEND = 4096
WIDTH = 150
# what a border that is written in cases goes on by, to each side, in one function
STEP = (MOST_CASES - 1) // 2


class Stated(NamedTuple):
    """A stage as `explain` tells it."""

    name: str
    kind: str
    box: Box
    why: str
    site: Site


class Text(NamedTuple):
    """A program's text, where its stages were built, its tables, and what `explain` tells."""

    text: str
    places: dict[str, Site]
    tables: list[Table]
    stages: list[Stated]
    nodes: int
    is_general: bool


class Names:
    """The names of a program. A stage that is built twice with one name is refused; what the builder makes itself takes a free one."""

    def __init__(self) -> None:
        self.sites: dict[str, Site] = {}

    def declare(self, name: str, site: Site) -> str:
        if name in self.sites:
            site.refuse(f"{name} is declared twice: first at {self.sites[name]}")
        self.sites[name] = site
        return name

    def free(self, name: str, site: Site) -> str:
        """This name, or the first like it that is free."""
        every = [name[:28], *(f"{name[:28]}_{number}" for number in range(2, 1000))]
        return self.declare(next(it for it in every if it not in self.sites), site)


class Writer:
    """Writes one program. Where `is_general`, ends are sums of the sides R and C; else they are numbers, for pictures of these sides alone."""

    def __init__(self, layout: Layout, most: int, is_general: bool):
        self.layout, self.most, self.is_general = layout, most, is_general
        self.names = Names()
        self.read_as: dict[Stage, str] = {}
        self.lines: list[str] = []
        self.stated: list[Stated] = []
        self.nodes = 0
        self.loses_sides = False
        self.declare()

    def declare(self) -> None:
        """Takes the names that the caller gave, before any that are made here."""
        self.planes = self.planes_read()
        for stage in [*self.planes, *(it for it in self.layout.order if isinstance(it, Func))]:
            self.read_as[stage] = self.names.declare(stage.name, stage.site)
        for accum in self.layout.accums:
            self.names.declare(accum.name, accum.site)
        self.tables = [*dict.fromkeys(it.table for it in self.expressions() if isinstance(it, Entry))]
        for table in self.tables:
            self.names.declare(table.name, table.site)
        self.params = {it.name: it.site for it in self.expressions() if isinstance(it, Parameter)}
        for name, site in self.params.items():
            self.names.declare(name, site)
        self.sides = [self.names.free(it, self.layout.order[0].site) for it in ("R", "C")]

    def expressions(self) -> Iterator[Expr]:
        for stage in self.layout.order:
            for case in stage.cases if isinstance(stage, Func) else ():
                yield from case.value.walk()
        for accum in self.layout.accums:
            yield from accum.value.walk()
            yield from accum.at.walk()

    # the whole

    def text(self) -> Text:
        """The text, and what is told of it."""
        for plane in self.planes:
            self.state(plane.name, "plane", self.layout.picture, "the picture", plane.site)
        for stage in self.layout.order:
            found = self.layout.boxes.get(stage)
            if isinstance(stage, Border) and found:
                self.write_border(stage, found)
            elif isinstance(stage, Func) and found:
                self.write_func(stage, found)
        outputs = [self.output(it) for it in self.layout.outputs]
        for accum in self.layout.accums:
            self.write_accum(accum)
        head = [*self.params_lines(), f"image {', '.join(it.name for it in self.planes)}({self.side(0)}, {self.side(1)});",
                *(f"table {it.name}[{it.first} .. {it.first + len(it.entries) - 1}];" for it in self.tables)]
        last = [f"output {', '.join(outputs)} max {self.most};"] if outputs else []
        text = "".join(f"{line}\n" for it in [*head, *self.lines, *last] for line in wrapped(it))
        self.refuse_limits(text)
        return Text(text, self.names.sites, self.tables, self.stated, self.nodes, self.is_general)

    def planes_read(self) -> list[Plane]:
        """The planes of the picture that is read, those that are not read themselves among them. (A program reads one picture.)"""
        read = [it for it in self.layout.order if isinstance(it, Plane)]
        if not read:
            self.layout.order[0].site.refuse("the program reads no picture: begin with tf.image or tf.colours")
        for other in read:
            if other.planes is not read[0].planes:
                other.site.refuse(f"{other.name} is of another picture than {read[0].name}, and a program reads one: three planes are tf.colours")
        return read[0].planes

    def params_lines(self) -> list[str]:
        sides = self.sides if self.is_general else []
        return [" ".join(f"param {it};" for it in [*sides, *self.params])] if sides or self.params else []

    def refuse_limits(self, text: str) -> None:
        """Refuses a program past a limit of the language, at the line that passes it."""
        if len(self.stated) > MOST_STAGES:
            self.stated[MOST_STAGES].site.refuse(f"{self.stated[MOST_STAGES].name} is stage {MOST_STAGES + 1} of the program, which has "
                                                 f"{len(self.stated)}: a program has at most {MOST_STAGES}, planes and borders among them")
        if len(self.params) + 2 > MOST_PARAMS:
            [*self.params.values()][-1].refuse(f"a program has at most {MOST_PARAMS - 2} parameters beside the picture's sides")
        if len(self.tables) > MOST_TABLES:
            self.tables[MOST_TABLES].site.refuse(f"the program has {len(self.tables)} tables, and at most {MOST_TABLES}")
        if len(text) > MOST_BYTES:
            self.stated[-1].site.refuse(f"the program's text has {len(text):,} bytes, and at most {MOST_BYTES:,}")

    # parts

    def state(self, name: str, kind: str, box: Box, why: str, site: Site) -> None:
        self.stated.append(Stated(name, kind, box, why, site))

    def count(self, nodes: int, site: Site) -> None:
        self.nodes += nodes
        if self.nodes > MOST_NODES:
            site.refuse(f"the program's expressions have more than {MOST_NODES:,} nodes here: numbers, names, operations and reads count")

    def side(self, axis: int) -> str:
        return self.sides[axis] if self.is_general else str(self.layout.shape[axis])

    def end(self, it: End, axis: int) -> str:
        """An end of an interval, or the number of a test."""
        self.loses_sides |= it.sides is None
        if not self.is_general or not it.sides:
            return str(it.value)
        number = it.value - it.sides * self.layout.shape[axis]
        side = self.sides[axis] if it.sides == 1 else f"{it.sides}*{self.sides[axis]}"
        return f"{side}{number:+d}" if number else side

    def domain(self, box: Box, variables: tuple[str, str]) -> str:
        parts = (f"{name} in [{self.end(it.least, axis)} .. {self.end(it.most, axis)}]" for axis, (name, it) in enumerate(zip(variables, box)))
        return f"({', '.join(parts)})"

    def add_func(self, name: str, box: Box, variables: tuple[str, str], cases: list[str], nodes: int, why: str, site: Site) -> None:
        self.state(name, "func", box, why, site)
        self.count(nodes, site)
        head = f"func {name}{self.domain(box, variables)} {{"
        if len(cases) == 1 and len(head) + len(cases[0]) < WIDTH:
            self.lines.append(f"{head} {cases[0]} }}")
        else:
            self.lines += [head, *(f"  {it}" for it in cases), "}"]

    # functions

    def speller(self, variables: tuple[str, str]) -> Speller:
        for name in variables:
            if name in self.names.sites:
                self.names.sites[name].refuse(f"{name} is declared, and a variable of a function too: rename one")
        return Speller(variables, self.read_as.__getitem__, self.side)

    def write_func(self, stage: Func, found: Found) -> None:
        speller, taken = self.speller(stage.variables), [it for it in stage.cases if self.has_points(it, found.box)]
        # (what an empty case reads may have no domain; over other pictures it may have points)
        self.loses_sides |= len(taken) < len(stage.cases)
        cases = [f"{self.condition(it, stage)}{speller.spell(it.value).text};" for it in taken]
        self.add_func(self.read_as[stage], found.box, stage.variables, cases, sum(it.value.nodes for it in taken), found.why, stage.site)

    def has_points(self, case: Case, box: Box) -> bool:
        return all(it.ends.count() for it in self.layout.box_of(case, box))

    def condition(self, case: Case, stage: Func) -> str:
        if not case.tests:
            return "else : "
        return f"case {' and '.join(self.test(it, stage.variables) for it in case.tests)} : "

    def test(self, it: Test, variables: tuple[str, str]) -> str:
        if it.modulus:
            return f"{variables[it.axis]} % {it.modulus} == {it.sum.number}"
        return f"{variables[it.axis]} {it.mark} {self.end(end_of(it.sum, it.axis, self.layout.shape[it.axis]), it.axis)}"

    def output(self, stage: Func) -> str:
        """The function that is written: the stage, or one with its own domain where more of it is read."""
        own, read = self.layout.own[stage], self.layout.boxes[stage].box
        if [it.ends for it in own] == [it.ends for it in read]:
            return self.read_as[stage]
        name = self.names.free(f"{stage.name}_output", stage.site)
        x, y = self.free_variables()
        self.add_func(name, own, (x, y), [f"else : {self.read_as[stage]}({x}, {y});"], 1, f"what is written of {stage.name}", stage.site)
        return name

    def free_variables(self) -> tuple[str, str]:
        """Variables for functions that are made here."""
        first, second = (next(it for it in (name, f"{name}_at", f"{name}_of_point") if it not in self.names.sites) for name in USUAL)
        return first, second

    def write_accum(self, accum: Accum) -> None:
        variables = tuple(it.name for it in variables_of(accum.value, accum.at))
        speller = self.speller((variables[0], variables[1]))
        value, at = (speller.spell(it) for it in (accum.value, accum.at))
        area = self.layout.areas[accum.name]
        self.state(accum.name, "accum", area, "the points that are counted", accum.site)
        self.count(accum.value.nodes + accum.at.nodes, accum.site)
        self.lines.append(f"accum {accum.name} [{accum.bins[0]} .. {accum.bins[1]}] over {self.domain(area, (variables[0], variables[1]))} "
                          f"{accum.operator} {value.text} at {at.text};")

    # borders

    def write_border(self, stage: Border, found: Found) -> None:
        """Functions that go on beyond a stage: none where nothing beyond it is read."""
        own, base = self.layout.own[stage.base], self.read_as[stage.base]
        if all(it.is_within(has) for it, has in zip(found.box, own)):
            self.read_as[stage] = base
            return
        box = own[0].hull(found.box[0]), own[1].hull(found.box[1])
        write = self.write_constant if stage.kind == "constant" else self.write_mirror
        self.read_as[stage] = write(stage, base, own, box, found.why)

    def write_constant(self, stage: Border, base: str, own: Box, box: Box, why: str) -> str:
        name, variables = self.names.free(f"{base}_constant", stage.site), self.free_variables()
        tests = [f"{variable} {mark} {self.end(end, axis)}" for axis, variable in enumerate(variables)
                 for mark, end in ((">=", own[axis].least), ("<=", own[axis].most))]
        cases = [f"case {' and '.join(tests)} : {base}({', '.join(variables)});", f"else : {spelled_number(stage.value).text};"]
        self.add_func(name, box, variables, cases, 1 + Number(stage.value).nodes, why, stage.site)
        return name

    def write_mirror(self, stage: Border, base: str, own: Box, box: Box, why: str) -> str:
        """First the rows, then the columns; some rows a function, since each is a case."""
        known, name = own, base
        for axis in (0, 1):
            while not box[axis].is_within(known[axis]):
                name, known = self.step(stage, name, known, box, own, axis, why)
        return name

    def step(self, stage: Border, base: str, known: Box, box: Box, own: Box, axis: int, why: str) -> tuple[str, Box]:
        """A function that goes on by some rows or columns beyond what is known, and its domain."""
        low = min(known[axis].ends.least - box[axis].ends.least, STEP)
        high = min(box[axis].ends.most - known[axis].ends.most, STEP)
        low, high = max(low, 0), max(high, 0)
        reached = Range(known[axis].least.plus(-low), known[axis].most.plus(high))
        name, variables = self.names.free(f"{stage.name}_{stage.kind}", stage.site), self.free_variables()
        inner = f"{variables[axis]} >= {self.end(known[axis].least, axis)} and {variables[axis]} <= {self.end(known[axis].most, axis)}"
        cases = [f"case {inner} : {base}({', '.join(variables)});"]
        beyond = [*(known[axis].least.plus(-it) for it in range(1, low + 1)), *(known[axis].most.plus(it) for it in range(1, high + 1))]
        for at in beyond:
            addend = self.source(stage, own[axis], at) - at.value
            indices = [spelled_index(Way(more=addend if it == axis else 0), variables[it]) for it in (0, 1)]
            cases.append(f"case {variables[axis]} == {self.end(at, axis)} : {base}({', '.join(indices)});")
        reached_box = (reached, known[1]) if axis == 0 else (known[0], reached)
        self.add_func(name, reached_box, variables, cases, len(cases), why, stage.site)
        return name, reached_box

    def source(self, stage: Border, own: Range, at: End) -> int:
        """The point of a stage's own domain that a point beyond it has the value of."""
        count, place = own.ends.count(), at.value - own.ends.least
        beyond = -place if place < 0 else place - count + 1
        self.loses_sides |= stage.kind == "wrap" or (stage.kind != "edge" and beyond >= count)
        found = own.ends.least + position(stage.kind, place, count)
        if abs(found - at.value) > MOST_ADDEND:
            stage.site.refuse(f"the border reads {abs(found - at.value)} points away, and an index adds at most {MOST_ADDEND}")
        return found


def position(kind: str, place: int, count: int) -> int:
    """The place from 0 to count - 1 that another place has the value of."""
    if kind == "edge":
        return min(max(place, 0), count - 1)
    if kind == "wrap":
        return place % count
    if kind == "symmetric":
        round_trip = place % (2 * count)
        return min(round_trip, 2 * count - 1 - round_trip)
    round_trip = place % (2 * count - 2) if count > 1 else 0
    return min(round_trip, 2 * count - 2 - round_trip)


def wrapped(line: str) -> list[str]:
    """A line in lines that are not too long: white space is free in the language."""
    if len(line) <= WIDTH:
        return [line]
    indent = " " * (len(line) - len(line.lstrip()) + 4)
    return textwrap.wrap(line, WIDTH, subsequent_indent=indent, break_long_words=False, break_on_hyphens=False) or [""]


def written(layout: Layout, most: int) -> Text:
    """The text for pictures of any sides where there is one, else for these."""
    general = Writer(layout, most, True)
    found = general.text()
    return Writer(layout, most, False).text() if general.loses_sides else found
