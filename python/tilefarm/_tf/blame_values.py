"""Faults of a program at its values and over its picture: `parameter: ..`, `bounds: ..` and `bind: ..`."""
import re
from typing import NamedTuple

from .blame import Blame, Situation, listed
from .program import Affine, Item, Read
from .text import Place

WIDE = 16384
MOST_BINS = MOST_SIDE = MOST_ENTRIES = 4096


class Ends(NamedTuple):
    """The ends of an interval of a stage, what it counts, and the text that says so."""

    low: int
    high: int
    counts: str
    start: int
    length: int


def no_such_param(found: re.Match[str], at: Situation) -> Blame:
    names = [it.names[0].text for it in at.program.items if it.kind == "param"]
    has = f"it has {listed(names)}" if names else "it has none"
    return Blame([given(found["name"], at)], f"The program has no parameter {found['name']}; {has}.")


def set_twice(found: re.Match[str], at: Situation) -> Blame:
    return Blame([given(found["name"], at)], f"{found['name']} is given two values: take one out.")


def given(name: str, at: Situation) -> Place:
    """The last word that gives a parameter its value."""
    words = [it for it in at.command_line or at.words if it.startswith(f"{name}=")]
    return at.word(words[-1] if words else name)


def unset(found: re.Match[str], at: Situation) -> Blame:
    name = found["name"]
    cure = f"{name} has no value, and no side of the picture gives it: give it on the command line, as {name}=8."
    return Blame(declared(name, at), cure)


def declared(name: str, at: Situation) -> list[Place | str]:
    """Where a name is declared."""
    known = at.program.declaring(name)
    return [at.text().place(known[1].offset, len(name))] if known else []


def value(affine: Affine, at: Situation) -> int | None:
    try:
        return affine.value(at.settings)
    except KeyError:
        return None


def ends_of(item: Item, at: Situation) -> list[Ends]:
    """The intervals of a stage in the order in which they are judged: bins, rows, columns; of a plane its sides."""
    if item.kind == "image":
        sides = [(value(it, at), it, word) for it, word in zip(item.extents, ("rows", "columns"))]
        return [Ends(0, high - 1, word, *at_span(it)) for high, it, word in sides if high is not None]
    names = ("entries",) if item.kind == "table" else ("bins", "rows", "columns")[3 - len(item.intervals) :]
    found = [(value(it.low, at), value(it.high, at), it, word) for it, word in zip(item.intervals, names)]
    return [Ends(low, high, word, *at_span(it)) for low, high, it, word in found if low is not None and high is not None]


def at_span(part) -> tuple[int, int]:
    return part.span.start, part.span.length


def too_wide(ends: Ends, item: Item) -> bool:
    if item.kind == "image":
        return ends.high + 1 > MOST_SIDE
    return max(abs(ends.low), abs(ends.high)) > WIDE or (ends.counts == "bins" and ends.high - ends.low >= MOST_BINS)


def empty_domain(found: re.Match[str], at: Situation) -> Blame:
    item, ends = blamed(found["name"], at, lambda it, _: it.high < it.low)
    if item is None or ends is None:
        return Blame(declared(found["name"], at), f"{found['name']} has no points: its intervals have to hold a number at least.")
    has = f"[{ends.low} .. {ends.high}]" if item.kind != "image" else str(ends.high + 1)
    cure = (f"The {ends.counts} of {found['name']} are {has}{at_values(at)}, which is none: the picture is too small for it, "
            "or the ends are crossed.")
    return Blame([at.text().place(ends.start, ends.length)], cure)


def domain_too_wide(found: re.Match[str], at: Situation) -> Blame:
    item, ends = blamed(found["name"], at, too_wide)
    if item is None or ends is None:
        return Blame(declared(found["name"], at), f"{found['name']} is too wide: ends lie within 16,384 of 0.")
    limit = {"bins": "ends lie within 16,384 of 0, and there are at most 4,096 bins"}.get(ends.counts, "ends lie within 16,384 of 0")
    if item.kind == "image":
        limit = "a picture has at most 4096"
    cure = f"The {ends.counts} of {found['name']} are {ends.low} to {ends.high}{at_values(at)}: {limit}."
    return Blame([at.text().place(ends.start, ends.length)], cure)


def empty_table(found: re.Match[str], at: Situation) -> Blame:
    item, ends = blamed(found["name"], at, lambda it, _: it.high < it.low)
    if item is None or ends is None:
        return Blame(declared(found["name"], at), f"The table {found['name']} has no entries: its first index is above its last.")
    cure = f"The table {found['name']} has indices [{ends.low} .. {ends.high}]{at_values(at)}, which is none: exchange the ends."
    return Blame([at.text().place(ends.start, ends.length)], cure)


def table_too_wide(found: re.Match[str], at: Situation) -> Blame:
    limit = "ends lie within 16,384 of 0, and there are at most 4,096 entries"
    is_wrong = lambda it, _: max(abs(it.low), abs(it.high)) > WIDE or it.high - it.low >= MOST_ENTRIES
    item, ends = blamed(found["name"], at, is_wrong)
    if item is None or ends is None:
        return Blame(declared(found["name"], at), f"The table {found['name']} is too wide: {limit}.")
    cure = f"The entries of {found['name']} are {ends.low} to {ends.high}{at_values(at)}: {limit}."
    return Blame([at.text().place(ends.start, ends.length)], cure)


def table_mismatch(found: re.Match[str], at: Situation) -> Blame:
    """The declaration, and the line that was handed in for it."""
    name = found["name"]
    number = next((k for k, it in enumerate(at.program.tables()) if it.names[0].text == name), None)
    item, ends = blamed(name, at, lambda it, _: True)
    lines = at.input.tables
    places = [at.text().place(ends.start, ends.length)] if ends else declared(name, at)
    if number is not None and number < len(lines):
        places.append(lines[number].place(0))
    has = f" has the indices {ends.low} to {ends.high}{at_values(at)}" if ends else " is declared otherwise"
    return Blame(places, f"The table {name}{has}: hand in a line of that name with those ends, in the order of the declarations.")


def blamed(name: str, at: Situation, is_wrong) -> tuple[Item | None, Ends | None]:
    """The first interval of a stage that is wrong."""
    known = at.program.declaring(name)
    if known is None:
        return None, None
    return known[0], next((it for it in ends_of(known[0], at) if is_wrong(it, known[0])), None)


def at_values(at: Situation) -> str:
    """The values of the parameters, where there are any."""
    values = [f"{name} = {number}" for name, number in at.settings.items()]
    return f" at {listed(values)}" if values else ""


def out_of_bounds(found: re.Match[str], at: Situation) -> Blame:
    name, axis = found["name"], found["axis"]
    read = read_at(name, int(found["case"]), int(found["read"]), at)
    if read is None:
        return Blame(declared(name, at), "A read leaves what it reads: keep its case to the points where it stays inside.")
    known = at.program.declaring(read.stage.text)
    has = [it for it in ends_of(known[0], at) if it.counts == axis] if known else []
    of = f", which has {axis} {has[0].low} to {has[0].high}" if has else ""
    cure = (f"It reads {axis} {found['least']} to {found['greatest']} of {read.stage.text}{of}: keep the case to points whose reads "
            f"stay inside, narrow the domain of {name}, or widen that of {read.stage.text}.")
    return Blame([index_place(read, axis, at)], cure)


def read_at(name: str, case: int, read: int, at: Situation) -> Read | None:
    """A read of a case of a stage, both counted from 0."""
    known = at.program.declaring(name)
    cases = known[0].cases if known else []
    return cases[case].reads[read] if case < len(cases) and read < len(cases[case].reads) else None


def index_place(read: Read, axis: str, at: Situation) -> Place:
    """The index that leaves, or the stencil up to the stage that it is laid over."""
    if read.indices:
        span = read.indices[0 if axis == "rows" else 1]
        return at.text().place(span.start, span.length)
    return at.text().place(read.span.start, read.stage.end - read.span.start)


# the picture


def image_item(at: Situation) -> Item | None:
    return next((it for it in at.program.items if it.kind == "image"), None)


def planes(found: re.Match[str], at: Situation) -> Blame:
    item, head = image_item(at), at.input.header()
    if item is None or head is None:
        return Blame([], "The picture has another number of planes than the image item names.")
    first, last = item.names[0], item.names[-1]
    if head.parts == 3:
        cure = "The picture is in colours, and the program wants one grey plane: --grey makes one, or name three: image r, g, b(R, C);"
    else:
        cure = "The picture is grey, and the program wants three planes: name one, as image I(R, C);"
    return Blame([at.text().place(first.offset, last.end - first.offset)], cure)


def extent_mismatch(found: re.Match[str], at: Situation) -> Blame:
    item, head = image_item(at), at.input.header()
    if item is None or head is None:
        return Blame([], "The picture has other sides than the image item says.")
    wants = [value(it, at) for it in item.extents]
    wrong = 0 if wants[0] != head.rows else 1
    extent = item.extents[wrong]
    cure = (f"The program wants {wants[0]} rows and {wants[1]} columns{at_values(at)}; the picture has {head.rows} and {head.cols}: "
            "give other values, or another picture.")
    return Blame([at.text().place(extent.span.start, extent.span.length)], cure)


def output_shapes(found: re.Match[str], at: Situation) -> Blame:
    item = at.program.output()
    if item is None:
        return Blame([], "The functions of the output have unequal sides, or a side over 4096.")
    sides = {it.text: shape(it.text, at) for it in item.names}
    told = listed([f"{name} has {rows} by {cols}" for name, (rows, cols) in sides.items()])
    first, last = item.names[0], item.names[-1]
    cure = f"The functions of an output have equal sides, at most 4096: {told}."
    return Blame([at.text().place(first.offset, last.end - first.offset)], cure)


def shape(name: str, at: Situation) -> tuple[int, int]:
    known = at.program.declaring(name)
    ends = ends_of(known[0], at) if known else []
    rows, cols = (it.high - it.low + 1 for it in ends[-2:])
    return rows, cols


def too_many_tiles(found: re.Match[str], at: Situation) -> Blame:
    cure = f"{found['name']} has more than 65,536 tiles: give larger sides, by --rows and --cols."
    return Blame(declared(found["name"], at), cure)
