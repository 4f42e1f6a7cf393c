"""Where the points of a part's stages lie in the whole.

A stage has an origin for each axis: the point p of the part is the point p + origin of the whole. What reads at (m * v + a) / d there reads
at (m * v + b) / d in the part, with b = a + m * (origin of the reader) - d * (origin of what is read), which is exact, as d divides
what is left out. So an origin need not be a multiple of anything. What binds it is the range of b, and that a stencil has no index: its
stage and what it reads have one origin. The plane of a part begins at 0.
"""
from typing import Iterable, NamedTuple

from ..demands import Ends, Way
from ..text import Refused
from .boxes import Link
from .whole import WIDE

MOST_ADDED = 4096


class Span(NamedTuple):
    """Which origins serve."""

    least: int
    most: int

    def meet(self, other: "Span") -> "Span":
        return Span(max(self.least, other.least), min(self.most, other.most))

    def nearest(self, wanted: int) -> int:
        return min(max(wanted, self.least), self.most)


def added(way: Way, reader: int, read: int) -> int:
    """What the index of a part adds, with these origins of the reader and of what is read."""
    return way.more + way.factor * reader - way.divisor * read


def origins(boxes: dict[str, Ends], links: list[Link], planes: Iterable[str], order: list[str], word: str) -> dict[str, int]:
    """An origin for each stage that a part needs, along one axis. `order` has each stage behind those that it reads."""
    groups, found = grouped(boxes, [it for it in links if it.is_stencil]), {}
    first = [it for it in planes if it in boxes]
    for plane in first:
        found.update(dict.fromkeys(groups[plane], min(boxes[it].least for it in first)))
    for name in (it for it in order if it in boxes):
        if name not in found:
            found.update(dict.fromkeys(groups[name], origin(groups[name], boxes, links, found)))
    for link in links:
        refuse(link, found, word)
    refuse_wide(boxes, found, word)
    return found


def grouped(boxes: dict[str, Ends], stencils: list[Link]) -> dict[str, set[str]]:
    """For each stage all that share its origin."""
    found = {name: {name} for name in boxes}
    for link in stencils:
        together = found[link.reader] | found[link.read]
        found.update(dict.fromkeys(together, together))
    return found


def origin(group: set[str], boxes: dict[str, Ends], links: list[Link], found: dict[str, int]) -> int:
    """The origin of a group: its first point becomes 0 where that serves."""
    first = min(boxes[it].least for it in group)
    span = Span(max(boxes[it].most for it in group) - WIDE, first + WIDE)
    for link in links:
        if link.reader in group and link.read in group:
            span = span.meet(of_both(link.way))
        elif link.reader in group and link.read in found:
            span = span.meet(of_reader(link.way, found[link.read]))
        elif link.read in group and link.reader in found:
            span = span.meet(of_read(link.way, found[link.reader]))
    return span.nearest(first)


def of_reader(way: Way, read: int) -> Span:
    """Which origins of a reader leave what is added in its range."""
    middle = way.divisor * read - way.more
    return Span(-((MOST_ADDED - middle) // way.factor), (middle + MOST_ADDED) // way.factor)


def of_read(way: Way, reader: int) -> Span:
    """Which origins of what is read do."""
    middle = way.factor * reader + way.more
    return Span(-((MOST_ADDED - middle) // way.divisor), (middle + MOST_ADDED) // way.divisor)


def of_both(way: Way) -> Span:
    """Which origins do that the reader and what is read have together."""
    step = way.factor - way.divisor
    factor, more = (step, way.more) if step > 0 else (-step, -way.more)
    return Span(-((MOST_ADDED + more) // factor), (MOST_ADDED - more) // factor) if step else Span(-(2**31), 2**31)


def refuse_wide(boxes: dict[str, Ends], found: dict[str, int], word: str) -> None:
    """Refuses a stage whose points would lie too far from 0 in the part."""
    for name, ends in boxes.items():
        if max(abs(ends.least - found[name]), abs(ends.most - found[name])) > WIDE:
            raise Refused(f"this picture cannot be cut into parts: {word} {ends.least} to {ends.most} of {name} would be {ends.least - found[name]} "
                          f"to {ends.most - found[name]} in a part, and the ends of an interval lie within {WIDE} of 0", 3)


def refuse(link: Link, found: dict[str, int], word: str) -> None:
    """Refuses a read that cannot be written in the part's own points."""
    more = added(link.way, found[link.reader], found[link.read])
    if abs(more) > MOST_ADDED or (link.is_stencil and more):
        raise Refused(f"this picture cannot be cut into parts: {link.reader} reads {link.read}, and in a part, "
                      f"whose {word} lie elsewhere, the index would add {more}; an index adds at most {MOST_ADDED}", 3)
